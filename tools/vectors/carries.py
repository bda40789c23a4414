"""Tables carried to an older schema: texts of the newer one, each with its compact print; `@` marks where the older one refuses."""
from images import *
from trees import *


def less(fields=(), values=()):
    """X without these fields and enum values: X extends it."""
    def kept(own, names):
        return [record for record in own if record[0] not in names]
    return Image([kept(X_FIELDS, fields), kept(X_SECOND, fields), []], [kept(OTHER_ENUM, values), kept(MODE_ENUM, values)])


def older():
    """The older schema of most cases: it lacks `l`, `y`, `ub`, `mm` and NEG, HIGH; in message 1, `w`."""
    return less(['l', 'y', 'ub', 'mm', 'w'], ['NEG', 'HIGH'])


KNOWN = [
    ('', ''),
    ('i:7', 'i: 7'),
    ('v:18446744073709551615 u:4294967295 i:-2147483648', 'i: -2147483648 u: 4294967295 v: 18446744073709551615'),
    ("s:'\\303\\251 {\"\\n\\0' b:true b:false", 'b: false s: "\\303\\251 {\\"\\n\\000"'),
    ('e:LEAST o:LOW o:LOW e:MOST', 'e: MOST o: LOW o: LOW'),
    ('i:1 i:2 i:3', 'i: 3'),
    ('r:3 i:1 r:-1 r:3', 'i: 1 r: 3 r: -1 r: 3'),
    ('m<m<i:1>r:2>', 'm {m {i: 1} r: 2}'),
    ('n{q:1}n{}n{q:2 q:3}', 'n {q: 1} n {} n {q: 3}'),
    ("si{value:3 key:'a'}si{}si{key:'a'}", 'si {key: "" value: 0} si {key: "a" value: 0}'),
    ('bm{value<e:OFF>}bm{key:true}', 'bm {key: false value {e: OFF}} bm {key: true value {}}'),
    ('ie{}ie{key:-1 value:OFF}', 'ie {key: 0 value: ON} ie {key: -1 value: OFF}'),
    ("ly{key:-5 value:'\\0\\377'}", 'ly {key: -5 value: "\\000\\377"}'),
    ("vs{key:1 value:'x'}vs{value:'y z'}", 'vs {key: 1 value: "x"} vs {key: 0 value: "y z"}'),
    ("o:LOW vs{}ly{}ie{}bm{}si{}n{q:0}r:0 m{}e:ON s:''b:false v:0 u:0 i:0",
     'i: 0 u: 0 v: 0 b: false s: "" e: ON m {} r: 0 n {q: 0} si {key: "" value: 0} bm {key: false value {}} '
     'ie {key: 0 value: ON} ly {key: 0 value: ""} vs {key: 0 value: ""} o: LOW'),
    ('m{' * 32 + 'i:1' + '}' * 32, 'm {' * 32 + 'i: 1' + '}' * 32),
    ('bm{value{' * 16 + '}}' * 16, 'bm {key: false value {' * 16 + '}}' * 16),
]

# A name that the older schema lacks, in a value that isn't live: it isn't lacking.
NOT_LIVE = [
    ('e:NEG e:ON', 'e: ON'),
    ('m{l:1}m{i:1}', 'm {i: 1}'),
    ('m{e:NEG}m{}', 'm {}'),
    ('m{ub{}mm{}}m{}', 'm {}'),
    ('m{m{l:1}m{}}', 'm {m {}}'),
    ('m{n{q:1 w{}}}m{n{q:1}}', 'm {n {q: 1}}'),
    ('bm{value{l:1}}bm{}', 'bm {key: false value {}}'),
    ('bm{key:true value{mm{}}}bm{value{i:1}}bm{key:true}', 'bm {key: false value {i: 1}} bm {key: true value {}}'),
    ('ie{value:NEG}ie{value:OFF}', 'ie {key: 0 value: OFF}'),
    ("m{y:'a'}m{e:NEG}m{bm{value{o:HIGH}}bm{}}", 'm {bm {key: false value {}}}'),
]

LACKING_FIELD = [
    ('l:1', '@l: 1'),
    ('i:1 l:2 u:3', 'i: 1 @l: 2 u: 3'),
    ('l:2 i:1', 'i: 1 @l: 2'),
    ("y:'a' l:1", '@l: 1 y: "a"'),
    ('i:1 i:2 l:3 l:4', 'i: 2 @l: 4'),
    ("s:'l: 1' y:'\\n'", 's: "l: 1" @y: "\\n"'),
    ('ub{}', '@ub {key: 0 value: false}'),
    ('mm{}', '@mm {key: "" value {}}'),
    ('m{l:1}', 'm {@l: 1}'),
    ('m{i:1}m{l:1}', 'm {@l: 1}'),
    ('m{m{m{i:1 l:1}}}', 'm {m {m {i: 1 @l: 1}}}'),
    ('n{q:1 w{}}', 'n {q: 1 @w {}}'),
    ('n{q:1}n{w{}}n{w{}}', 'n {q: 1} n {@w {}} n {w {}}'),
    ('bm{value{l:1}}', 'bm {key: false value {@l: 1}}'),
    ("bm{}bm{key:true value{i:1 y:''}}", 'bm {key: false value {}} bm {key: true value {i: 1 @y: ""}}'),
    ('bm{value{bm{value{mm{}}}}}', 'bm {key: false value {bm {key: false value {@mm {key: "" value {}}}}}}'),
    ('m{' * 32 + 'l:1' + '}' * 32, 'm {' * 32 + '@l: 1' + '}' * 32),
]

LACKING_VALUE = [
    ('e:NEG', 'e: @NEG'),
    ('e:ON e:NEG', 'e: @NEG'),
    ('o:LOW o:HIGH o:LOW o:HIGH', 'o: LOW o: @HIGH o: LOW o: HIGH'),
    ('i:1 e:NEG o:HIGH', 'i: 1 e: @NEG o: HIGH'),
    ('m{m{e:NEG}}', 'm {m {e: @NEG}}'),
    ('ie{value:NEG}', 'ie {key: 0 value: @NEG}'),
    ('ie{}ie{key:1 value:NEG}ie{key:2}', 'ie {key: 0 value: ON} ie {key: 1 value: @NEG} ie {key: 2 value: ON}'),
    ('bm{value{o:HIGH}}', 'bm {key: false value {o: @HIGH}}'),
]

# A field's name and an enum's, whichever comes first in the text: the number, then the case.
EITHER = [
    (6, 'e:NEG l:1', '@l: 1 e: NEG'),
    (7, 'ub{}e:NEG', 'e: @NEG ub {key: 0 value: false}'),
    (7, 'm{l:1}e:NEG', 'e: @NEG m {l: 1}'),
    (6, 'i:1 m{e:NEG l:1}', 'i: 1 m {@l: 1 e: NEG}'),
    (7, 'ie{value:NEG}mm{}', 'ie {key: 0 value: @NEG} mm {key: "" value {}}'),
    (6, 'bm{value{l:1}}ie{value:NEG}', 'bm {key: false value {@l: 1}} ie {key: 0 value: NEG}'),
]

# Without `e`, `ie`, `o` and without NEG, HIGH: a field's name stands before the enum's name in its value.
NAME_FIRST = [
    ('e:NEG', '@e: NEG'),
    ('e:ON', '@e: ON'),
    ('o:HIGH', '@o: HIGH'),
    ('ie{value:NEG}', '@ie {key: 0 value: NEG}'),
    ('m{i:1 e:NEG}', 'm {i: 1 @e: NEG}'),
]

# Tables that no text makes: what print gives of an unnamed number or an unknown field is refused 5 by any schema.
UNNAMED = [
    (words(known('e', 9)), 'e: @: 9'),
    (words(known('e', -7), known('i', 1)), 'i: 1 e: @: -7'),
    (words(known('o', 0), known('o', 2)), 'o: LOW o: @: 2'),
    (words(entry('ie', key(I32), value(ENUM, 0, 5))), 'ie {key: 0 value: @: 5}'),
    (words(message('m', known('e', 9))), 'm {e: @: 9}'),
    (words(leaf(UNKNOWN_U32, 9, 0, 4)), '@9: 4'),
    (words(leaf(UNKNOWN_U64, 1, 1, 0), known('i', 1)), 'i: 1 @1: 4294967296'),
    (words(leaf(UNKNOWN_BYTES, 9, 0, 0), leaf(UNKNOWN_U32, 8)), '@8: 0 9: ""'),
    (words(message('m', leaf(UNKNOWN_U32, 5))), 'm {@5: 0}'),
    (words(entry('bm', key(BOOL), inner(leaf(UNKNOWN_U32, 2, 0, 1)))), 'bm {key: false value {@2: 1}}'),
]

# The same where they aren't live, and tables that share pool bytes: the strings are laid end to end. Words, pool, print.
TABLES = [
    (words(known('e', 9), known('e', 0)), b'', 'e: OFF'),
    (words(message('m', leaf(UNKNOWN_U32, 5)), message('m')), b'', 'm {}'),
    (words(known('s', 0, 3), entry('vs', key(U64), value(STRING, 0, 3)), entry('si', value(I32), key(STRING, 1, 1))), b'abc',
     's: "abc" si {key: "b" value: 0} vs {key: 0 value: "abc"}'),
    (words(known('s', 2, 1), known('s', 0, 2)), b'abc', 's: "ab"'),
    (words(entry('vs', value(STRING, 1, 2), key(U64, 1, 0)), entry('vs', key(U64), value(STRING, 3, 0))), b'abc',
     'vs {key: 4294967296 value: "bc"} vs {key: 0 value: ""}'),
    (words(known('i', 1)) + [MOST] * 7, b'', 'i: 1'),
]
