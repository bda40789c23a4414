"""carry.txt: tables printed under a newer schema and read under an older one."""
import carries
from compact import nodes_of, pool_of, pretty_of
from images import *
from lines import Requests, hexed, placed
from strangers import KINDS, PAIRS, kinds_outcome
from trees import *

COMPACT, PRETTY = range(2)
SHOWN = {COMPACT: lambda text: text, PRETTY: pretty_of}
LENT = '\xa5'
ROOT = [MESSAGE, 0, 0, 0, 1]


class Carrier:
    """Asks for the state's table to be carried. What is printed is told by its compact form, with a mark at the refusal's place."""

    def __init__(self, out):
        self.out = out

    def ask(self, style, marked, number=0, defaults=0, spare=(0, 0, 0)):
        """Defaults: nodes that the text doesn't spell out. Spare: bytes of the buffer, words and bytes beyond what is needed."""
        shown = SHOWN[style](marked)
        text, pool, nodes = shown.replace('@', ''), pool_of(marked), nodes_of(marked) + defaults
        room, words_, size = len(text) + spare[0], 5 * nodes + spare[1], len(pool) + spare[2]
        if number:
            told = 'read ' + placed(f'{number} {shown.index("@")}', text)
        else:
            told = f'0 0 {nodes} {len(pool)} * {hexed(pool)}'
        self.out.carry(style, room, words_, size, self.answer(told, text, room))

    def both(self, marked, number=0, defaults=0):
        """More room than is needed in one style, exactly enough in the other."""
        self.ask(COMPACT, marked, number, defaults, (3, 2, 1))
        self.ask(PRETTY, marked, number, defaults)

    def text(self, text, marked, number=0, defaults=0):
        self.out.text(text, 'read', 1000, 400)
        self.both(marked, number, defaults)

    def refused(self, style, room, words_, size, told, shown=''):
        """Which call refuses, its number and offset; and the text that then stands in the buffer."""
        call, refusal = told.split(' ', 1)
        self.out.carry(style, room, words_, size, self.answer(f'{call} {placed(refusal, shown)}', shown, room))

    @staticmethod
    def answer(told, shown, room):
        return f'X {told} {hexed(shown.ljust(room, LENT))} kept'


def demand(out, carrier):
    out.rule('Carried to an older schema that knows every live name: the same values, in both styles')
    out.schema(schema_x().bytes())
    out.root(0)
    out.older(carries.older().bytes())
    for text, marked in carries.KNOWN:
        carrier.text(text, marked)
    out.rule('A name that is lacking, but in values that are not live')
    for text, marked in carries.NOT_LIVE:
        carrier.text(text, marked)
    out.rule('A field is lacking: 6 at the first one, in both styles, nested and in entries')
    for text, marked in carries.LACKING_FIELD:
        carrier.text(text, marked, 6)
    out.rule('An enum value is lacking: 7 at the first one')
    for text, marked in carries.LACKING_VALUE:
        carrier.text(text, marked, 7)
    out.rule('Both are lacking: the first in the text')
    for number, text, marked in carries.EITHER:
        carrier.text(text, marked, number)
    out.rule('A field is lacking and the enum name in its value too: 6 at the field')
    out.older(carries.less(['e', 'ie', 'o'], ['NEG', 'HIGH']).bytes())
    for text, marked in carries.NAME_FIRST:
        carrier.text(text, marked, 6)


def tables(out, carrier):
    out.rule('An unnamed enum number and an unknown field: 5, whatever the older schema, the same one too')
    for older in [carries.older(), schema_x()]:
        out.older(older.bytes())
        for table, marked in carries.UNNAMED:
            out.table(table)
            carrier.both(marked, 5)
    out.rule('The same not live; strings that share pool bytes; words after the table')
    for table, pool, marked in carries.TABLES:
        out.table(table, pool)
        carrier.both(marked)


def pairs(out, carrier):
    for words_, newer, older, cases in PAIRS:
        out.rule(words_)
        out.schema(newer.bytes())
        out.older(older.bytes())
        for case in cases:
            carrier.text(*case)
    out.rule('A field of every type carried to one of every type')
    for kind in KINDS:
        out.schema(KINDS[kind].image.bytes())
        out.text(KINDS[kind].text, 'read')
        for other in KINDS:
            out.older(KINDS[other].image.bytes())
            carrier.ask(COMPACT, *kinds_outcome(kind, other))


def rooms(out, carrier):
    out.rule('Buffer, words and bytes exact, short by one, and none: 16 before 13 before 14')
    out.schema(schema_x().bytes())
    out.older(carries.older().bytes())
    for text, compact in carries.KNOWN[:4] + carries.KNOWN[9:15]:
        out.text(text, 'read', 1000, 400)
        nodes, size = nodes_of(compact), len(pool_of(compact))
        for style in [COMPACT, PRETTY]:
            shown = SHOWN[style](compact)
            carrier.ask(style, compact)
            carrier.ask(style, compact, spare=(0, 4, 0))
            carrier.refused(style, len(shown), 5 * nodes - 1, size, f'read 13 {nodes}', shown)
            carrier.refused(style, len(shown) + 2, 0, 0, f'read 13 {nodes}', shown)
            if size:
                carrier.refused(style, len(shown), 5 * nodes, size - 1, f'read 14 {size}', shown)
                carrier.refused(style, len(shown), 5 * nodes, 0, f'read 14 {size}', shown)
            if shown:
                carrier.refused(style, len(shown) - 1, 5 * nodes, size, f'print 16 {len(shown)}')
                carrier.refused(style, 0, 0, 0, f'print 16 {len(shown)}')
    out.rule('A fault of the text comes before 13 and 14, and 16 before the fault')
    for text, marked, number in [("s:'a' l:1", '@l: 1 s: "a"', 6), ("s:'a' e:NEG", 's: "a" e: @NEG', 7)]:
        out.text(text, 'read')
        shown = marked.replace('@', '')
        carrier.refused(COMPACT, len(shown), 0, 0, f'read {number} {marked.index("@")}', shown)
        carrier.refused(COMPACT, len(shown) - 1, 0, 0, f'print 16 {len(shown)}')


def refused_prints(out, carrier):
    good, x = carries.older().bytes(), schema_x().bytes()
    out.rule('Refused by the print: 1, 2, 15 and no byte changed, whatever the older schema')
    for older in [good, b'']:
        out.older(older)
        for newer, root, table, number in [
                (b'', 0, ROOT, 1), (x[:-1], 0, ROOT, 1), (x + b'\0', 9, [], 1), (x, 3, ROOT, 2), (x, 255, [], 2),
                (x, 4294967295, ROOT, 2), (x, 0, [], 15), (x, 0, ROOT[:4], 15), (x, 0, changed(ROOT, 0, 0, 8), 15),
                (x, 0, changed(ROOT, 0, 4, 2), 15), (x, 0, words(known('s', 0, 4)), 15), (x, 0, words(leaf(U32, X['i'])), 15),
                (x, 0, words(known('e', 1, 0)), 15), (x, 1, words(known('i', 1)), 15), (x, 2, words(known('q', 1)), 15)]:
            out.schema(newer)
            out.root(root)
            out.table(table, b'abc')
            for style, room in [(COMPACT, 0), (PRETTY, 5)]:
                carrier.refused(style, room, 50, 9, f'print {number} 0')
    out.root(0)


def refused_reads(out, carrier):
    good, x = carries.older().bytes(), schema_x().bytes()
    out.rule('Refused by the read: 1 and 2; the text that was printed stays in the buffer')
    out.schema(x)
    out.text('i:1 i:2', 'read')
    for older in [b'', good[:-1], good + b'\0', b'\0' * 8, x[:8]]:
        out.older(older)
        carrier.refused(COMPACT, 7, 50, 9, 'read 1 0', 'i: 2')
        carrier.refused(PRETTY, 5, 0, 0, 'read 1 0', 'i: 2\n')
        carrier.refused(COMPACT, 3, 50, 9, 'print 16 4')
    out.rule('A root that is a message of both schemas, of the newer alone, of the older alone, of neither')
    one = Image([[('q', 1, REQUIRED, 0, I32, 0)]]).bytes()
    i_of_x, q_of_x, q_of_one = words(known('i', 5)), words(known('q', 5)), words(leaf(I32, 0, 0, 5))
    for newer, older, root, table, told, shown in [
            (x, one, 0, i_of_x, 'read 6 0', 'i: 5'), (one, x, 0, q_of_one, 'read 6 0', 'q: 5'),
            (x, one, 1, q_of_x, 'read 2 0', 'q: 5'), (x, one, 2, ROOT, 'read 2 0', ''), (x, b'', 1, q_of_x, 'read 1 0', 'q: 5'),
            (one, x, 1, ROOT, 'print 2 0', ''), (x, one, 3, ROOT, 'print 2 0', ''), (one, x, 3, ROOT, 'print 2 0', ''),
            (one, one, 1, ROOT, 'print 2 0', '')]:
        out.schema(newer)
        out.older(older)
        out.root(root)
        out.table(table)
        carrier.refused(COMPACT, 6, 50, 9, told, shown)
    out.schema(x)
    out.older(good)
    out.root(1)
    out.table(q_of_x)
    carrier.both('q: 5')
    out.root(0)


def state(out, carrier):
    out.rule('The state stays as it is: the table is still the newer one\'s, and is carried again')
    out.schema(schema_x().bytes())
    out.older(carries.older().bytes())
    out.text("l:1 s:'ab'", 'read')
    for _ in range(2):
        carrier.ask(COMPACT, '@l: 1 s: "ab"', 6)
        out.compact('l: 1 s: "ab"')
        out.access(2, b'ab')
    out.text("i:1 s:'ab' i:2", 'read')
    for style in [COMPACT, PRETTY]:
        carrier.ask(style, 'i: 2 s: "ab"')
        out.compact('i: 2 s: "ab"')
        out.access(2, b'ab')
        out.access(1, 18)
    out.rule('What was carried over, read again under the older schema, prints the same')
    for _, compact in carries.KNOWN:
        out.schema(schema_x().bytes())
        out.text(compact, 'read', 1000, 400)
        carrier.ask(COMPACT, compact)
        out.schema(carries.older().bytes())
        out.text(compact, 'read', 1000, 400)
        out.compact(compact, 1000)
        out.pretty(pretty_of(compact), 4000)


def requests():
    out = Requests()
    carrier = Carrier(out)
    for group in [demand, tables, pairs, rooms, refused_prints, refused_reads, state]:
        group(out, carrier)
    return out
