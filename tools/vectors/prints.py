"""Tables and texts with their prints, written by hand."""
from images import *
from trees import *

S, Y = STRING, BYTES


def falling():
    """Numbers that fall as the table goes on; two maps and a repeated field between."""
    return Image([[
        ('z', 30, OPTIONAL, 0, I32, 0),
        ('y', 20, REPEATED, 0, STRING, 0),
        ('x', 10, MAP, I64, BOOL, 0),
        ('a', 5, OPTIONAL, 0, MESSAGE, 1),
        ('b', 1, MAP, BOOL, MESSAGE, 1),
    ], [('d', 2, REQUIRED, 0, I32, 0), ('c', 1, OPTIONAL, 0, BYTES, 0)]])


FALLING = [
    ("b{} a{c:'1' d:2} x{} y:'p' z:1", 'z: 1 y: "p" x {key: 0 value: false} a {d: 2 c: "1"} b {key: false value {}}'),
    ("y:'q' z:1 y:'p' z:2", 'z: 2 y: "q" y: "p"'),
    ('x{key:2}x{key:1}x{key:2 value:true}', 'x {key: 1 value: false} x {key: 2 value: true}'),
    ('b{key:true}b{}b{key:true value{d:1}}', 'b {key: false value {}} b {key: true value {d: 1}}'),
]

TABLES = [
    (words(), b'', ''),
    (words(known('i', 1), known('i', 2), known('i', 3)), b'', 'i: 3'),
    (words(known('r', 2), known('i', 1), known('r', 1), known('i', -1)), b'', 'i: -1 r: 2 r: 1'),
    (words(message('m', known('i', 1)), message('m', known('l', 2))), b'', 'm {l: 2}'),
    (words(message('m', message('m', known('i', 1)), message('m'))), b'', 'm {m {}}'),
    (words(entry('si', key(S, 0, 1), value(I32, 0, 1)), entry('si', key(S, 1, 1), value(I32, 0, 2)),
           entry('si', value(I32, 0, 3), key(S, 2, 1))), b'aba', 'si {key: "b" value: 2} si {key: "a" value: 3}'),
    (words(entry('si', key(S, 0, 2), value(I32)), entry('si', key(S, 0, 1), value(I32))), b'ab',
     'si {key: "ab" value: 0} si {key: "a" value: 0}'),
    (words(entry('si', key(S, 0, 0), value(I32)), entry('si', key(S, 1, 0), value(I32, 0, 4))), b'a', 'si {key: "" value: 4}'),
    (words(entry('vs', key(U64, 1, 0), value(S)), entry('vs', key(U64, 0, 0), value(S)), entry('vs', value(S), key(U64, 1, 0))), b'',
     'vs {key: 0 value: ""} vs {key: 4294967296 value: ""}'),
    (words(entry('bm', key(BOOL, 0, 1), inner(known('i', 1))), entry('bm', inner(), key(BOOL, 0, 1))), b'',
     'bm {key: true value {}}'),
    (words(entry('ub', key(U32, 0, 1), value(BOOL)), entry('si', key(S), value(I32)), entry('ub', key(U32, 0, 1), value(BOOL, 0, 1))),
     b'', 'si {key: "" value: 0} ub {key: 1 value: true}'),
    (words(known('e', 7), known('e', 8)), b'', 'e: : 8'),
    (words(known('e', -1)), b'', 'e: NEG'),
    (words(known('e', -7)), b'', 'e: : -7'),
    (words(known('e', -2**31)), b'', 'e: LEAST'),
    (words(known('e', 2**31 - 1)), b'', 'e: MOST'),
    (words(known('e', 2**31 - 2)), b'', 'e: : 2147483646'),
    (words(known('o', 1), known('o', 2), known('o', 0)), b'', 'o: HIGH o: : 2 o: LOW'),
    (words(entry('ie', key(I32, MOST, MOST), value(ENUM, 0, 5))), b'', 'ie {key: -1 value: : 5}'),
    (words(leaf(UNKNOWN_U32, 1, 0, 5)), b'', '1: 5'),
    (words(leaf(UNKNOWN_U32, 9, 0, 2), leaf(UNKNOWN_U32, 8, 0, 1)), b'', '8: 1 9: 2'),
    (words(leaf(UNKNOWN_U64, 9, 1, 0), leaf(UNKNOWN_BYTES, 8, 0, 1), known('i', 1), leaf(UNKNOWN_U32, 9, 0, 7),
           leaf(UNKNOWN_U32, 8, 0, 2)), b'\0', 'i: 1 8: "\\000" 8: 2 9: 4294967296 9: 7'),
    (words(leaf(UNKNOWN_U32, 2**29 - 1, 0, MOST), leaf(UNKNOWN_U64, 1, MOST, MOST)), b'',
     '1: 18446744073709551615 536870911: 4294967295'),
    (words(message('m', leaf(UNKNOWN_U32, 5)), leaf(UNKNOWN_U32, 5), known('o', 0)), b'', 'm {5: 0} o: LOW 5: 0'),
    (words(entry('mm', inner(leaf(UNKNOWN_U32, 2), known('i', 0)), key(S))), b'', 'mm {key: "" value {i: 0 2: 0}}'),
    (words(known('l', -2**63), known('v', 2**64 - 1), known('u', 2**32 - 1), known('i', -2**31)), b'',
     'i: -2147483648 l: -9223372036854775808 u: 4294967295 v: 18446744073709551615'),
    (words(known('l', 2**63 - 1), known('i', 2**31 - 1), known('b', 0), known('b', 1)), b'',
     'i: 2147483647 l: 9223372036854775807 b: true'),
]

# Text, compact print, pretty print.
BOTH = [
    ('', '', ''),
    ('i:7', 'i: 7', 'i: 7\n'),
    ('m<>', 'm {}', 'm {\n}\n'),
    ('m<m<i:1>>', 'm {m {i: 1}}', 'm {\n  m {\n    i: 1\n  }\n}\n'),
    ('l:-0x10 i:010', 'i: 8 l: -16', 'i: 8\nl: -16\n'),
    ('si{}', 'si {key: "" value: 0}', 'si {\n  key: ""\n  value: 0\n}\n'),
    ('bm{value<b:true>}', 'bm {key: false value {b: true}}', 'bm {\n  key: false\n  value {\n    b: true\n  }\n}\n'),
    ('mm{}', 'mm {key: "" value {}}', 'mm {\n  key: ""\n  value {\n  }\n}\n'),
    ('r:1 r:2 e:OFF', 'e: OFF r: 1 r: 2', 'e: OFF\nr: 1\nr: 2\n'),
    ("s:'\\101\"'", 's: "A\\""', 's: "A\\""\n'),
    ('n{w{}q:1}n<q:2>', 'n {q: 1 w {}} n {q: 2}', 'n {\n  q: 1\n  w {\n  }\n}\nn {\n  q: 2\n}\n'),
    ("y:'\\0\\xff\\n'", 'y: "\\000\\377\\n"', 'y: "\\000\\377\\n"\n'),
]

COMPACT = [
    ("y:'\\a\\b\\f\\n\\r\\t\\v\\?\\\\\\'\\\"'", 'y: "\\007\\010\\014\\n\\r\\t\\013?\\\\\\\'\\""'),
    ("s:'\xc3\xa9\xe2\x82\xac'", 's: "\\303\\251\\342\\202\\254"'),
    ("s:'a' s:'b' y:'c'", 's: "b" y: "c"'),
    ('ie{}ie{key:-1}ie{value:NEG}', 'ie {key: -1 value: ON} ie {key: 0 value: NEG}'),
    ("ly{value:'\\1'key:-5}ly{}", 'ly {key: -5 value: "\\001"} ly {key: 0 value: ""}'),
    ('ub{key:4294967295 value:true}', 'ub {key: 4294967295 value: true}'),
    ("vs{key:18446744073709551615 value:'x'}", 'vs {key: 18446744073709551615 value: "x"}'),
    ('mm{value{mm{value{i:1}}}}', 'mm {key: "" value {mm {key: "" value {i: 1}}}}'),
    ('m{i:1}m{l:2}m{}', 'm {}'),
    ('o:HIGH e:LEAST o:LOW e:MOST', 'e: MOST o: HIGH o: LOW'),
    ("o:LOW mm{}vs{}ub{}ly{}ie{}bm{}si{}n{q:0}r:0 m{}e:ON y:''s:''b:false v:0 u:0 l:0 i:0",
     'i: 0 l: 0 u: 0 v: 0 b: false s: "" y: "" e: ON m {} r: 0 n {q: 0} si {key: "" value: 0} bm {key: false value {}} '
     'ie {key: 0 value: ON} ly {key: 0 value: ""} ub {key: 0 value: false} vs {key: 0 value: ""} mm {key: "" value {}} o: LOW'),
    ("si{key:'a'}si{key:'b'}si{key:'a' value:1}si{key:'\\x62' value:2}", 'si {key: "a" value: 1} si {key: "b" value: 2}'),
    ('m{' * 32 + '}' * 32, 'm {' * 32 + '}' * 32),
    ('mm{value{' * 16 + '}}' * 16, 'mm {key: "" value {' * 16 + '}}' * 16),
]

REQUIRED_TEXTS = [
    ('', 0), ('i: 1', 0), ('n {q: 1}', 0), ('n {q: 1 q: 2}', 0), ('n {}', 17), ('n {q: 1} n {}', 17), ('n {} n {q: 1}', 17),
    ('n {w {}}', 17), ('n {q: 0 w {}}', 0), ('m {n {}} m {}', 0), ('m {} m {n {}}', 17), ('m {m {m {n {}}}}', 17),
    ('m {m {m {n {}} m {}}}', 0), ('bm {value {n {}}} bm {}', 0), ('bm {key: true value {n {}}} bm {}', 17), ('bm {} mm {}', 0),
    ("mm {value {n {}}} mm {key: 'a'}", 17), ("mm {value {n {}}} mm {key: ''}", 0), ('bm {value {bm {value {n {}}}}}', 17),
    ('m {bm {value {n {}}}} m {bm {value {n {q: 1}}}}', 0),
]


def all_required():
    """Required fields of several types in message 0, one that holds its own message in message 1."""
    return Image([
        [('i', 1, REQUIRED, 0, I32, 0), ('s', 2, REQUIRED, 0, STRING, 0), ('m', 3, REQUIRED, 0, MESSAGE, 2),
         ('r', 4, REPEATED, 0, MESSAGE, 1), ('p', 5, MAP, I32, MESSAGE, 2)],
        [('a', 1, REQUIRED, 0, MESSAGE, 1)],
        [('b', 1, REQUIRED, 0, BOOL, 0), ('e', 2, REQUIRED, 0, ENUM, 0)],
    ], [[('NONE', 0)]])


ALL_REQUIRED = [
    ('', 17), ("i:1 s:''", 17), ("i:1 m{b:true e:NONE}", 17), ("s:'' m{b:true e:NONE}", 17), ("i:1 s:'' m{b:true e:NONE}", 0),
    ("i:1 s:'' m{b:true}", 17), ("i:1 s:'' m{e:NONE}", 17), ("i:1 s:'' m{} m{b:false e:NONE}", 0),
    ("i:1 s:'' m{b:false e:NONE} m{}", 17), ("i:1 s:'' m{b:true e:NONE} r{}", 17), ("i:1 s:'' m{b:true e:NONE} p{}", 17),
    ("i:1 s:'' m{b:true e:NONE} p{value{b:true e:NONE}}", 0), ("i:1 s:'' m{b:true e:NONE} p{} p{value{e:NONE b:true}}", 0),
    ("i:1 s:'' m{b:true e:NONE} p{key:1} p{value{e:NONE b:true}}", 17),
    ("i:1 s:'' m{b:true e:NONE} r{" + 'a{' * 31 + '}' * 32, 17),
]
