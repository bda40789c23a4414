"""Pairs of schemas for carrying: newer ones that extend the older one in each way that they may, and ones that do not."""
from collections import namedtuple

from images import *


def field(name, kind, number=1, label=OPTIONAL, key_type=0, reference=0):
    return (name, number, label, key_type, kind, reference)


def single(*fields):
    return Image([list(fields)])


A, B = field('a', I32), field('b', I32, 2)
M1 = field('m', MESSAGE, 3, reference=1)
F1 = field('f', ENUM, 4, reference=1)
MAP_A = field('a', I32, label=MAP, key_type=I32)
PART_KEY, PART_VALUE = field('key', I32), field('value', I32, 2)

# What is said of the pair, newer, older, and cases: text, marked print, number (0: read), and the nodes of defaults, if any.
PAIRS = [
    ('Extends: fields before, between and after, required ones too; messages and enums at the end',
     Image([[field('x', U32, 9), A, field('y', U32, 8, REQUIRED), B, field('z', BOOL, 7)], [A]], [[('ON', 1)]]), single(A, B),
     [('b:2 a:1', 'a: 1 b: 2', 0), ('z:true a:1', 'a: 1 @z: true', 6), ('y:3 b:2 x:4', '@x: 4 y: 3 b: 2', 6),
      ('y:3 b:2', '@y: 3 b: 2', 6)]),
    ('Extends: the enum\'s values in another order, and more of them; a default is printed by its name',
     Image([[F1, field('g', ENUM, 5, MAP, I32, 1)]], [[('N', 0)], [('TWO', 2), ('ONE', 1), ('SIX', 6)]]),
     Image([[F1, field('g', ENUM, 5, MAP, I32, 1)]], [[('N', 0)], [('ONE', 1), ('TWO', 2)]]),
     [('f:ONE', 'f: ONE', 0), ('g{}', 'g {key: 0 value: TWO}', 0), ('g{value:ONE}f:TWO', 'f: TWO g {key: 0 value: ONE}', 0),
      ('g{value:SIX}', 'g {key: 0 value: @SIX}', 7)]),
    ('Extends: a name counts in its own message and its own enum',
     Image([[A, M1, F1], [A, B]], [[('P', 1), ('Q', 2)], [('Q', 1), ('P', 2)]]),
     Image([[A, M1, F1], [B]], [[('P', 1), ('Q', 2)], [('Q', 1)]]),
     [('a:1 m{b:2}f:Q', 'a: 1 m {b: 2} f: Q', 0), ('a:1 m{a:2 b:3}', 'a: 1 m {@a: 2 b: 3}', 6), ('f:P', 'f: @P', 7)]),
    ('Extends: to a schema without any field', single(A, B), Image([[]]), [('', '', 0), ('b:1', '@b: 1', 6)]),
    ('Does not extend: another name',
     single(A, B), single(field('c', I32), field('b', I32, 2)), [('b:1', 'b: 1', 0), ('a:1 b:2', '@a: 1 b: 2', 6)]),
    ('Does not extend: another number', single(A, B), single(field('a', I32, 7), B), [('a:1 b:2', 'a: 1 b: 2', 0)]),
    ('Does not extend: another order', single(A, B), single(B, A), [('a:1 b:2', 'a: 1 b: 2', 0)]),
    ('Does not extend: repeated is now optional, and the other way; optional is now required',
     single(field('a', I32, label=REPEATED), B, field('c', I32, 3)),
     single(A, field('b', I32, 2, REPEATED), field('c', I32, 3, REQUIRED)),
     [('a:1 a:2', 'a: 1 a: 2', 0), ('b:1 b:2', 'b: 2', 0), ('c:1', 'c: 1', 0), ('', '', 0)]),
    ('Does not extend: another reference',
     Image([[field('m', MESSAGE), B], []]), Image([[field('m', MESSAGE, reference=1), B], []]),
     [('m{}', 'm {}', 0), ('b:1 m{b:1}', 'm {@b: 1} b: 1', 6)]),
    ('Does not extend: an enum value of another name, and one of another number',
     Image([[field('f', ENUM)]], [[('P', 1), ('Q', 2)]]), Image([[field('f', ENUM)]], [[('P', 3), ('R', 2)]]),
     [('f:P', 'f: P', 0), ('f:Q', 'f: @Q', 7)]),
    ('Does not extend: another key type and another value type of a map',
     single(MAP_A, field('b', STRING, 2, MAP, I64)),
     single(field('a', BOOL, label=MAP, key_type=U32), field('b', STRING, 2, MAP, I32)),
     [('a{key:-1}', 'a {key: @-1 value: 0}', 5), ('a{key:1}', 'a {key: 1 value: @0}', 10),
      ("b{key:2147483647 value:'x'}", 'b {key: 2147483647 value: "x"}', 0),
      ('b{key:2147483648}', 'b {key: @2147483648 value: ""}', 9),
      ('b{key:-2147483649}', 'b {key: -@2147483649 value: ""}', 9)]),
    ('Does not extend: a map is now a message of `key` and `value`',
     single(MAP_A), Image([[field('a', MESSAGE, reference=1)], [PART_KEY, PART_VALUE]]),
     [('a{}', 'a {key: 0 value: 0}', 0), ('a{}a{key:1}', 'a {key: 0 value: 0} a {key: 1 value: 0}', 0)]),
    ('Does not extend: a message is now a map; 8 at a second `key` or `value`',
     Image([[field('a', MESSAGE, label=REPEATED, reference=1)],
            [field('key', I32, label=REPEATED), field('value', I32, 2, REPEATED), field('other', I32, 3)]]), single(MAP_A),
     [('a{}', 'a {}', 0, 2), ('a{value:1 key:2}', 'a {key: 2 value: 1}', 0), ('a{key:1 key:2}', 'a {key: 1 @key: 2}', 8),
      ('a{}a{value:1 value:2}', 'a {} a {value: 1 @value: 2}', 8), ('a{other:1}', 'a {@other: 1}', 6)]),
    ('Does not extend: a message is now a map to messages; its default is at depth 32, and 12 at 33',
     Image([[field('m', MESSAGE), field('p', MESSAGE, 2, reference=1)], [field('key', BOOL)]]),
     single(field('m', MESSAGE), field('p', MESSAGE, 2, MAP, BOOL)),
     [('m{' * 30 + 'p{}' + '}' * 30, 'm {' * 30 + 'p {}' + '}' * 30, 0, 2),
      ('m{' * 31 + 'p{}' + '}' * 31, 'm {' * 31 + 'p {@}' + '}' * 31, 12),
      ('m{' * 31 + 'p{key:true}' + '}' * 31, 'm {' * 31 + 'p {key: true@}' + '}' * 31, 12)]),
]

Kind = namedtuple('Kind', 'image text shown')


def kind_of(kind, text, shown):
    return Kind(Image([[field('a', kind)]], [[('P', 1)]]), text, shown)


# A field `a` of each type, a text that sets it, and its print.
KINDS = {
    I32: kind_of(I32, 'a:-5', '-5'),
    I64: kind_of(I64, 'a:-5000000000', '-5000000000'),
    U32: kind_of(U32, 'a:4000000000', '4000000000'),
    U64: kind_of(U64, 'a:18446744073709551615', '18446744073709551615'),
    BOOL: kind_of(BOOL, 'a:true', 'true'),
    STRING: kind_of(STRING, "a:'x'", '"x"'),
    BYTES: kind_of(BYTES, "a:'\\377'", '"\\377"'),
    ENUM: kind_of(ENUM, 'a:P', 'P'),
    MESSAGE: kind_of(MESSAGE, 'a{a{}}', '{a {}}'),
}
RANGES = {I32: (-2**31, 2**31 - 1), I64: (-2**63, 2**63 - 1), U32: (0, 2**32 - 1), U64: (0, 2**64 - 1)}


def integer_outcome(shown, kind):
    """An integer that is printed so, read as this integer type: the mark's place in it, and the number."""
    least, most = RANGES[kind]
    if least == 0 and shown.startswith('-'):
        return 0, 5
    return shown.startswith('-'), 0 if least <= int(shown) <= most else 9


def kinds_outcome(kind, other):
    """The marked print of `a` of one type, and the number that it is refused by as another."""
    shown = KINDS[kind].shown
    if MESSAGE in (kind, other):
        whole = f'a {shown}' if kind == MESSAGE else f'a: {shown}'
        place = 2 if kind == MESSAGE else 1
        return (whole, 0) if kind == other else (whole[:place] + '@' + whole[place:], 5)
    at = 0
    if kind in RANGES and other in RANGES:
        at, number = integer_outcome(shown, other)
    elif kind == other or (kind, other) == (STRING, BYTES):
        number = 0
    elif other == ENUM:
        number = 7 if kind == BOOL else 5
    else:
        number = {BOOL: 10, STRING: 11 if kind == BYTES else 5}.get(other, 5)
    return (f'a: {shown[:at]}@{shown[at:]}' if number else f'a: {shown}'), number
