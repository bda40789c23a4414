"""table.txt: node tables, refusals 15 to 18, prints, live values, required check and access."""
import prints
from images import *
from lines import Requests
from reading import UTF8, utf8_good
from trees import *

KIND, FIELD, HIGH, LOW, END = range(5)
POOL = b'ab'

# A good leaf of every kind under X.
LEAVES = [known('i', -5), known('l', 2**40), known('u', 7), known('v', 2**64 - 1), known('b', 1), known('s', 0, 1),
          known('y', 1, 1), known('e', 7), leaf(UNKNOWN_U32, 5, 0, 6), leaf(UNKNOWN_U64, 6, 1, 0), leaf(UNKNOWN_BYTES, 7, 0, 2)]

# Where a leaf may stand, and its index there; a second leaf follows it.
PLACES = [
    ('at the root', lambda it: words(it, known('r', 1)), 1),
    ('in a message', lambda it: words(known('r', 1), message('m', it, known('r', 2))), 3),
    ('in a message in an entry', lambda it: words(entry('mm', key(STRING), inner(it, known('r', 1)))), 4),
]


class Judge:
    """Asks print of each table, and the other calls in turn."""

    def __init__(self, out):
        self.out, self.turn = out, 0

    def table(self, table, pool=POOL, told=None):
        self.out.table(table, pool)
        self.out.compact((15, 0) if told == 15 else told)
        number = 15 if told == 15 else None
        self.turn += 1
        if self.turn % 3 == 0:
            self.out.pretty((15, 0) if told == 15 else None)
        elif self.turn % 3 == 1:
            self.out.required(number)
        else:
            self.out.access(1, number)


def leaves_spoilt(out, judge):
    for words_of_place, place, index in PLACES:
        for it in LEAVES:
            good = place(it)
            out.rule(f'Kind {it[0]} {words_of_place}: as it should be, then every other kind')
            judge.table(good)
            for kind in [*range(15), 16, 0x80000000 + it[0], MOST]:
                if kind != it[0]:
                    judge.table(changed(good, index, KIND, kind))
            out.rule(f'Kind {it[0]} {words_of_place}: other fields')
            for field in [0, it[1] - 1, it[1] + 1, 18, 19, 20, 21, 2**29 - 1, 2**29, MOST]:
                if field % 2**32 != it[1]:
                    judge.table(changed(good, index, FIELD, field % 2**32))
            out.rule(f'Kind {it[0]} {words_of_place}: other high and low words')
            for word in [HIGH, LOW]:
                for to in [0, 1, 2, 3, 2**31 - 1, 2**31, MOST - 1, MOST]:
                    judge.table(changed(good, index, word, to))
            out.rule(f'Kind {it[0]} {words_of_place}: any other end is refused 15')
            for to in [0, index, index + 2, index + 3, MOST]:
                judge.table(changed(good, index, END, to), POOL, 15)


def ranges(out, judge):
    out.rule('Ranges: sign-extended i32 and enum, u32 and kind 11 with high 0, bool 0 or 1')
    half = 2**31
    for name, good, bad in [
            ('i', [(0, 0), (0, half - 1), (MOST, half), (MOST, MOST)], [(0, half), (0, MOST), (MOST, half - 1), (MOST, 0), (1, 0)]),
            ('e', [(0, 7), (0, half - 1), (MOST, half), (MOST, MOST)], [(0, half), (MOST, 7), (1, 7), (half, half)]),
            ('l', [(0, 0), (half, 0), (half - 1, MOST), (MOST, MOST)], []),
            ('u', [(0, 0), (0, MOST)], [(1, 0), (MOST, MOST), (half, 0)]),
            ('v', [(0, 0), (MOST, MOST), (half, 0)], []),
            ('b', [(0, 0), (0, 1)], [(0, 2), (1, 0), (1, 1), (MOST, MOST), (0, half)])]:
        for high, low in good + bad:
            judge.table(words(known(name, high, low)), b'', 15 if (high, low) in bad else None)
            # What isn't live is judged all the same.
            judge.table(words(known(name, high, low), known(name, 0, 0)), b'', 15 if (high, low) in bad else None)


def roots_spoilt(out, judge):
    out.rule('The root: kind 9, field 0, high 0, low 0, end from 1 to the nodes that the words hold')
    good = words(known('i', 1), message('m', known('l', 2)))
    judge.table(good, b'', 'i: 1 m {l: 2}')
    for kind in [*range(9), *range(10, 15), MOST]:
        judge.table(changed(good, 0, KIND, kind), b'', 15)
    for word in [FIELD, HIGH, LOW]:
        for to in [1, 8, 2**31, MOST]:
            judge.table(changed(good, 0, word, to), b'', 15)
    for end in [0, 3, 5, 65535, 65536, MOST, 2**30, 858993460]:
        judge.table(changed(good, 0, END, end), b'', 15)
    judge.table(changed(good, 0, END, 2), b'', 'i: 1')
    judge.table(changed(good, 0, END, 1), b'', '')
    out.rule('Words after the table are ignored; words cut off are missed')
    for more in range(1, 11):
        judge.table(good + [MOST] * more, b'', 'i: 1 m {l: 2}')
    for length in range(len(good)):
        judge.table(good[:length], b'', 15)
    for length in range(5):
        judge.table([MESSAGE, 0, 0, 0, 1][:length], b'', 15)
    judge.table([MESSAGE, 0, 0, 0, 1], b'', '')


def spans(out, judge):
    out.rule('Children tile the span of a message, and messages end with their last descendant')
    good = words(message('m', known('i', 1), message('m', known('l', 2))), known('r', 3))
    judge.table(good, b'', 'm {i: 1 m {l: 2}} r: 3')
    for node, ends in [(1, [0, 1, 4, 7, MOST]), (2, [2, 4, 5, 6]), (3, [3, 6, 7]), (4, [4, 6]), (5, [5, 7, MOST])]:
        for end in ends:
            judge.table(changed(good, node, END, end), b'', 15)
    out.rule('An end that leaves children to the parent makes another valid table')
    judge.table(changed(good, 1, END, 2), b'', 'i: 1 m {l: 2} r: 3')
    judge.table(changed(good, 1, END, 3), b'', 'm {l: 2} r: 3')
    judge.table(changed(good, 3, END, 4), b'', 'm {i: 1 l: 2 m {}} r: 3')
    out.rule('Messages have high 0 and low 0, at every level, live or not')
    for node in [1, 3]:
        for word in [HIGH, LOW]:
            judge.table(changed(good, node, word, 1), b'', 15)
    twice = words(message('m'), message('m'))
    judge.table(twice, b'', 'm {}')
    judge.table(changed(twice, 1, LOW, 1), b'', 15)
    out.rule('Fields are their own message\'s: message 1 has fields 19 and 20, message 2 has none')
    repeated = words(message('n', known('q', 1), message('w')))
    judge.table(repeated, b'', 'n {q: 1 w {}}')
    for field in [0, 18, 20, 21]:
        judge.table(changed(repeated, 2, FIELD, field), b'', 15)
    for field in [*range(22), MOST]:
        judge.table(words(message('n', message('w', leaf(I32, field)))), b'', 15)
        judge.table(words(leaf(I32, field)))


def entries(out, judge):
    out.rule('An entry has exactly a key and a value, in either order')
    k, v = key(STRING, 0, 1), value(I32, 0, 5)
    judge.table(words(entry('si', k, v)), b'a', 'si {key: "a" value: 5}')
    judge.table(words(entry('si', v, k)), b'a', 'si {key: "a" value: 5}')
    for children in [[], [k], [v], [k, k], [v, v], [k, v, k], [k, v, v], [v, k, leaf(UNKNOWN_U32, 1)],
                     [k, leaf(UNKNOWN_U32, 1)], [leaf(UNKNOWN_BYTES, 1, 0, 1), v], [k, leaf(I32, 2)], [leaf(STRING, 2), v],
                     [leaf(STRING, X['s'], 0, 1), leaf(I32, X['i'])], [value(STRING, 0, 1), key(I32, 0, 5)], [k, known('i', 5)]]:
        judge.table(words(entry('si', *children)), b'a', 15)
        judge.table(words(entry('si', *children), entry('si', k, v)), b'a', 15)
    out.rule('Words of the entry, its key and its value spoilt')
    good = words(known('r', 1), entry('si', k, v), known('r', 2))
    judge.table(good, b'a', 'r: 1 r: 2 si {key: "a" value: 5}')
    for node in [2, 3, 4]:
        for word, tos in [(KIND, [0, 5, 7, 9, 11, 13, 14]), (FIELD, [2, 5, MOST]), (HIGH, [2, MOST]), (END, [0, 2, 6, 7, MOST])]:
            for to in tos:
                judge.table(changed(good, node, word, to), b'a', 15)
    judge.table(changed(good, 2, LOW, 1), b'a', 15)
    out.rule('Entries under map fields only, and nothing else under map fields')
    for name in X:
        judge.table(words((ENTRY, X[name], 0, 0, [k, v])), b'a', None if name == 'si' else 15)
    for kind in [*range(1, 10), 11, 12, 13]:
        judge.table(words(leaf(kind, X['si'])), b'a')
    judge.table(words(message('n', entry('si', k, v))), b'a', 15)


def sample(kind, spoil=False):
    """High and low of a value of this kind, good or out of its range; pool `a` and a byte 255."""
    good = {I32: (MOST, MOST), I64: (1, 2), U32: (0, 3), U64: (4, 5), BOOL: (0, 1), STRING: (0, 1), BYTES: (1, 1), ENUM: (0, 0),
            MESSAGE: (0, 0)}
    bad = {I32: (0, MOST), U32: (1, 3), BOOL: (0, 2), STRING: (1, 1), BYTES: (2, 1), ENUM: (1, 0), MESSAGE: (0, 1)}
    return bad.get(kind) if spoil else good[kind]


def every_map(out, judge):
    out.rule('Every key type with every value type, both orders; then each part out of its range')
    out.schema(schema_maps().bytes())
    index = 0
    for key_type in KEYS:
        for value_type in TYPES:
            k, v = key(key_type, *sample(key_type)), value(value_type, *sample(value_type))
            make = lambda *parts: words((ENTRY, index, 0, 0, list(parts)))
            judge.table(make(k, v), b'a\xff')
            judge.table(make(v, k), b'a\xff')
            if sample(value_type, True):
                judge.table(make(k, value(value_type, *sample(value_type, True))), b'a\xff', 15)
            if sample(key_type, True) and value_type == I32:
                judge.table(make(key(key_type, *sample(key_type, True)), v), b'a\xff', 15)
            other = key_type % 6 + 1
            judge.table(make(key(other), v), b'a\xff', 15)
            index += 1
    out.schema(schema_x().bytes())


def pool_runs(out, judge):
    out.rule('Strings, bytes and kind 13 lie inside the pool, empty ones too; the sum does not wrap')
    for kind, field in [(STRING, X['s']), (BYTES, X['y']), (UNKNOWN_BYTES, 9)]:
        for pool in [b'', b'a', b'abc']:
            for start, length in [(0, 0), (0, 1), (1, 0), (1, 1), (0, 3), (3, 0), (0, 4), (4, 0), (2, 2), (1, MOST), (MOST, 1),
                                  (MOST, MOST), (MOST, 0), (0, MOST), (2**31, 2**31)]:
                told = None if start + length <= len(pool) else 15
                judge.table(words(leaf(kind, field, start, length)), pool, told)
    out.rule('Runs may be shared, overlap, leave gaps and stand in any order')
    for runs in [[(0, 1), (0, 1)], [(0, 3), (1, 2)], [(2, 1), (0, 1)], [(3, 0), (0, 2)]]:
        judge.table(words(known('s', *runs[0]), known('y', *runs[1])), b'abc')
    out.rule('Strings are UTF-8, live or not; keys and values of entries too; bytes and kind 13 need not be')
    for digits in UTF8:
        data = bytes.fromhex(digits)
        told = None if utf8_good(data) else 15
        judge.table(words(known('s', 0, len(data))), data, told)
        judge.table(words(known('y', 0, len(data)), leaf(UNKNOWN_BYTES, 1, 0, len(data))), data)
    for table in [words(known('s', 0, 1), known('s', 0, 0)), words(entry('si', key(STRING, 0, 1), value(I32))),
                  words(entry('vs', key(U64), value(STRING, 0, 1)))]:
        judge.table(table, b'\xff', 15)
        judge.table(table, b'a')
    judge.table(words(known('s', 1, 1)), '\u00e9'.encode(), 15)


def every_byte(out):
    out.rule('Every byte 0 to 255 printed in bytes, in kind 13 and in a string')
    shapes = [words(known('y', 0, 1)), words(leaf(UNKNOWN_BYTES, 3, 0, 1)), words(known('s', 0, 1))]
    plain = {10: '\\n', 13: '\\r', 9: '\\t', 39: "\\'", 34: '\\"', 92: '\\\\'}
    for shape, name in zip(shapes, ['y', '3', 's']):
        for byte in range(256):
            out.table(shape, bytes([byte]))
            shown = plain.get(byte) or (chr(byte) if 32 <= byte <= 126 else f'\\{byte:03o}')
            out.compact((15, 0) if name == 's' and byte > 127 else f'{name}: "{shown}"')
    out.table(words(known('y', 0, 256)), bytes(range(256)))
    out.compact(None, 2000)
    out.pretty(None, 2000)
    out.access(1, bytes(range(256)))


def nested(levels, *inside):
    tree = list(inside)
    for _ in range(levels):
        tree = [message('m', *tree)]
    return words(*tree)


def depth(out, judge):
    out.rule('Depth at most 32, by messages, entries and messages in entries')
    entry_of_scalars = entry('si', key(STRING), value(I32))
    entry_of_message = entry('bm', key(BOOL), inner())
    for levels in [29, 30, 31, 32, 33]:
        judge.table(nested(levels), b'', 15 if levels > 32 else None)
        judge.table(nested(levels, known('i', 1), leaf(UNKNOWN_U32, 1, 0, 1)), b'', 15 if levels > 32 else None)
        judge.table(nested(levels, entry_of_scalars), b'', 15 if levels + 1 > 32 else None)
        judge.table(nested(levels, entry_of_message), b'', 15 if levels + 2 > 32 else None)
        judge.table(nested(levels, entry('bm', inner(known('i', 1)), key(BOOL))), b'', 15 if levels + 2 > 32 else None)
    for levels in [15, 16, 17]:
        tree = []
        for _ in range(levels):
            tree = [entry('bm', key(BOOL), inner(*tree))]
        judge.table(words(*tree), b'', 15 if levels > 16 else None)
    out.rule('Depth is judged in what is not live too')
    deep = message('m')
    for _ in range(32):
        deep = message('m', deep)
    judge.table(words(deep, message('m')), b'', 15)


def live(out):
    out.rule('Live values and order of print')
    for table, pool, shown in prints.TABLES:
        out.table(table, pool)
        out.compact(shown)
        out.pretty()
        out.required(0)
    out.rule('Order by the field table, not by number or by the order of nodes')
    out.schema(prints.falling().bytes())
    for text, shown in prints.FALLING:
        out.text(text, 'read')
        out.compact(shown)
        out.pretty()
    out.schema(schema_x().bytes())


def rooms(out):
    out.rule('Room exact, one short, none and ample; 16 gives the whole length')
    for text, compact, pretty in prints.BOTH:
        out.text(text, 'read')
        for letter, shown in [('C', compact), ('Y', pretty)]:
            out.print(letter, len(shown), shown)
            out.print(letter, len(shown) + 7, shown)
            if shown:
                out.print(letter, len(shown) - 1, (16, len(shown)))
                out.print(letter, 0, (16, len(shown)))


def read_back(out):
    out.rule('Tables read from text printed, read back and printed again')
    for text, compact, pretty in prints.BOTH + [(text, compact, None) for text, compact in prints.COMPACT]:
        out.text(text, 'read', 1000, 400)
        out.compact(compact, 1000)
        out.pretty(pretty, 1000)
        out.text(compact, 'read', 1000, 400)
        out.compact(compact, 1000)
        out.pretty(pretty, 1000)
        if pretty is not None:
            out.text(pretty, 'read', 1000, 400)
            out.compact(compact, 1000)
    out.rule('An unnamed enum number and unknown fields print, and are not read again')
    for table, shown, refused in [(words(known('e', 9)), 'e: : 9', '5 3'), (words(leaf(UNKNOWN_U32, 9, 0, 1)), '9: 1', '5 0')]:
        out.table(table)
        out.compact(shown)
        out.text(shown, refused)


def required(out):
    out.rule('Required check: in live messages only, root included; unknown values never count')
    for text, told in prints.REQUIRED_TEXTS:
        out.text(text, 'read')
        out.required(told)
    for number in [1, 19, 20]:
        out.table(words(message('n', leaf(UNKNOWN_U32, number))))
        out.required(17)
    out.root(1)
    for text, told in [('', 17), ('q: 1', 0), ('w {}', 17), ('w {} q: 1 q: 2', 0)]:
        out.text(text, 'read')
        out.required(told)
    out.root(2)
    out.text('', 'read')
    out.required(0)
    out.root(0)
    out.rule('Required fields of every label beside them, and a required message that holds itself')
    out.schema(prints.all_required().bytes())
    for text, told in prints.ALL_REQUIRED:
        out.text(text, 'read', 300)
        out.required(told)
    out.schema(schema_x().bytes())


def access(out):
    out.rule('Access: kinds 6, 7 and 13, live or not, keys and values too; else 18')
    table = words(known('s', 0, 2), known('s', 2, 1), known('y', 1, 0), known('i', 1), leaf(UNKNOWN_BYTES, 5, 0, 3),
                  entry('vs', value(STRING, 1, 2), key(U64, 0, 1)), entry('si', key(STRING, 2, 1), value(I32)),
                  message('m', known('y', 0, 3), leaf(UNKNOWN_U32, 1), leaf(UNKNOWN_U64, 1)))
    told = [18, b'ab', b'c', b'', 18, b'abc', 18, b'bc', 18, 18, b'c', 18, 18, b'abc', 18, 18]
    # A string node past the root's end is no node of the table.
    out.table(table + [STRING, X['s'], 0, 1, 17], b'abc')
    for node, answer in enumerate(told):
        out.access(node, answer)
    for node in [16, 17, 65534, 65535, 65536, 2**31, 2**32 - 1]:
        out.access(node, 18)
    out.rule('Order: 1, 2, 15, then 16, 17 or 18')
    for image, root, table, number in [(b'', 3, [], 1), (schema_x().bytes(), 3, [], 2), (schema_x().bytes(), 0, [], 15)]:
        out.schema(image)
        out.root(root)
        out.table(table)
        out.compact((number, 0), 0)
        out.pretty((number, 0), 0)
        out.required(number)
        out.access(0, number)
        out.access(99, number)


def requests():
    out = Requests()
    out.schema(schema_x().bytes())
    out.root(0)
    judge = Judge(out)
    for group in [leaves_spoilt, ranges, roots_spoilt, spans, entries, every_map, pool_runs, depth]:
        group(out, judge)
    for group in [every_byte, live, rooms, read_back, required, access]:
        group(out)
    return out
