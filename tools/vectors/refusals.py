"""refusals.txt: each refusal 1 to 18 beside its nearest neighbour that is granted, and prints of tables that no text makes.

These are the lists `refusals` and `prints` of crates/definitions/proofs/Examples.antt, under their schemas; 3 is in limit.txt.
"""
from images import *
from lines import Requests

AMPLE = 1000


def named(first='q'):
    """A schema with a required field, a map to messages and an enum; the first field's name is given."""
    return Image([[
        (first, 1, REQUIRED, 0, I32, 0),
        ('m', 2, OPTIONAL, 0, MESSAGE, 0),
        ('mm', 3, MAP, I32, MESSAGE, 0),
        ('e', 4, OPTIONAL, 0, ENUM, 0),
        ('b', 5, OPTIONAL, 0, BOOL, 0),
        ('y', 6, OPTIONAL, 0, BYTES, 0),
        ('r', 7, REPEATED, 0, U32, 0),
    ]], [[('ON', 7), ('OFF', 0), ('NEG', -1)]])


READS_OF_E = [
    ("name: 'ab", '4 6'), ('child {  # c', '5 12'), ('id: 1 nope 08', '6 6'), ('limits {keys', '6 8'), ("name: '\\377'", '11 6'),
    ('child{' * 32 + '}' * 32, 'read'), ('child{' * 33 + '}' * 33, '12 197'),
]
READS_OF_NAMED = [
    ('e: nope', '7 3'), ('e: NEG', 'read'), ('mm {value {} value', '8 13'), ('r: 4294967295 r: 0x100000000', '9 17'),
    ('b: true b:', '10 10'), ("y: '\\377' y: '\\400'", '11 13'),
    ('m{' * 30 + 'mm{}' + '}' * 30, 'read'), ('m{' * 31 + 'mm{}' + '}' * 31, '12 65'),
]


def root(end, *nodes):
    """The words of a root with this end, and of nodes after it."""
    return sum(nodes, [MESSAGE, 0, 0, 0, end])


def name_of(length):
    """The node of `name`, this many bytes of the pool."""
    return [STRING, 1, 0, length, 2]


def reads(out):
    out.rule('1 and 2, and an image and a root that are good')
    for image, told in [(b'', '1 0'), (named('1').bytes(), '1 0'), (named('_').bytes(), 'read')]:
        out.schema(image)
        out.root(0)
        out.text('', told, AMPLE, AMPLE)
    out.schema(schema_e().bytes())
    for index, told in [(1, '2 0'), (0, 'read')]:
        out.root(index)
        out.text('', told, 5, 0)
    out.rule('4 to 12, and texts that are read')
    for image, cases in [(schema_e(), READS_OF_E), (named(), READS_OF_NAMED)]:
        out.schema(image.bytes())
        for text, told in cases:
            out.text(text, told, AMPLE, AMPLE)
    out.rule('13 before 14, and room enough')
    out.schema(schema_e().bytes())
    for words, room, told in [(9, 1, '13 2'), (10, 1, '14 2'), (10, 2, 'read')]:
        out.text("name: 'ab'", told, words, room)


def tables(out):
    out.rule('15 and 16, and a print that is granted')
    for table, room, told in [(root(3, name_of(2)), 10, (15, 0)), (root(2, name_of(3)), 10, (15, 0)),
                              (root(2, name_of(2)), 9, (16, 10)), (root(2, name_of(2)), 10, 'name: "ab"')]:
        out.table(table, b'ab')
        out.compact(told, room)
    out.rule('18 at the root and past the table, and a value')
    for node, told in [(0, 18), (1, b'ab'), (2, 18)]:
        out.access(node, told)
    out.rule('17, and no required field missing')
    out.schema(named().bytes())
    for table, told in [(root(1), 17), (root(2, [I32, 0, 0, 0, 2]), 0)]:
        out.table(table)
        out.required(told)


def prints(out):
    out.rule('Unknown fields 9, 8 and 9 around `id`: known fields first, then unknown ones by number, stably')
    out.schema(schema_e().bytes())
    out.table(root(5, [UNKNOWN_U32, 9, 0, 4, 2], [UNKNOWN_BYTES, 8, 0, 1, 3], [I32, 0, 0, 7, 4], [UNKNOWN_U64, 9, 1, 0, 5]), b'\n')
    out.compact('id: 7 8: "\\n" 9: 4 9: 4294967296')
    out.rule('Three entries with keys a, b, a: the last of equal keys is live, in its own place')
    out.table(root(10, [ENTRY, 2, 0, 0, 4], [STRING, 0, 0, 1, 3], [U32, 1, 0, 1, 4], [ENTRY, 2, 0, 0, 7], [U32, 1, 0, 2, 6],
                   [STRING, 0, 1, 1, 7], [ENTRY, 2, 0, 0, 10], [STRING, 0, 2, 1, 9], [U32, 1, 0, 3, 10]), b'aba')
    out.compact('limits {key: "b" value: 2} limits {key: "a" value: 3}')
    out.rule('An unnamed enum number, and a named one')
    out.schema(named().bytes())
    for low, shown in [(2**32 - 2, 'e: : -2'), (2**32 - 1, 'e: NEG')]:
        out.table(root(2, [ENUM, 3, 2**32 - 1, low, 2]))
        out.compact(shown)


def requests():
    out = Requests()
    for group in [reads, tables, prints]:
        group(out)
    return out
