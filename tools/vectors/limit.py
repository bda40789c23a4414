"""limit.txt: texts at the limit of refusal 3 and one byte over it, read and printed. wide.txt: as many nodes as there may be."""
from images import *
from lines import Requests, hexed

LIMIT = 1048576


def repeated():
    """The first fields of X, with `y` repeated."""
    return Image([X_FIELDS[:6] + [('y', 7, REPEATED, 0, BYTES, 0)]])


def table(lengths, first=()):
    """The words of a root with a node before, if one is given, and a `y` of each length at the start of the pool."""
    words = [MESSAGE, 0, 0, 0, len(lengths) + 1 + bool(first), *first]
    for length in lengths:
        words += [BYTES, X['y'], 0, length, len(words) // 5 + 1]
    return words


# A zero byte prints as four letters, so few pool bytes make a text at the limit, with `i: 1` in front, and one a byte longer.
AT_LIMIT = [4096] * 63 + [3999]
OVER_LIMIT = [4032] * 64 + [3999]


def carried(out, lengths, first, shown, told):
    """A print of this length, carried to the same schema, in a buffer that it fills."""
    text = ' '.join(shown + ['y: "' + '\\000' * length + '"' for length in lengths])
    out.table(table(lengths, first), bytes(max(lengths)))
    out.carry(0, len(text), 400, sum(lengths), f'X {told} {hexed(text)} kept')


def texts():
    out = Requests()
    out.rule('Refusal 3: 1,048,576 bytes are read, one more is refused whatever the text')
    out.schema(schema_x().bytes())
    out.root(0)
    out.text('i: 1 #'.ljust(LIMIT - 6) + '\nl: 2 ', 'read')
    out.compact('i: 1 l: 2')
    out.text('(' * (LIMIT + 1), '3 0')
    out.compact('i: 1 l: 2')
    return out


def wide():
    out = Requests()
    out.rule('Nodes needed: 65,535 are read, one more is 13 with the whole count, however much room')
    out.schema(schema_tiny().bytes())
    out.root(0)
    text = 'a{}' * 21844 + "s:''"
    out.text(text, '13 65534', 327669)
    out.text(text + "s:''", 'read', 327675)
    out.text(text + "s:''", '13 65535', 327674)
    out.text(text + "s:''s:''", '13 65536', 400000)
    out.rule('The last byte of a text at the limit, on a line and in a column of its own')
    out.text('\n' * (LIMIT - 1) + '(', f'4 {LIMIT - 1} {LIMIT}:1')
    out.text(' ' * (LIMIT - 1) + '(', f'4 {LIMIT - 1} 1:{LIMIT}')
    out.text('s'.ljust(LIMIT, '\n'), f'5 {LIMIT} {LIMIT}:1')
    out.rule('A table of 65,535 nodes is valid, one of 65,536 is not')
    out.schema(repeated().bytes())
    # Four printed bytes for each zero byte, so the length of print passes 32 bits.
    run = 16385
    out.table(table([run] * 65534), bytes(run))
    length = 65534 * (len('y: ""') + 4 * run) + 65533
    out.compact((16, length), 0)
    out.required(0)
    out.access(65534, bytes(run))
    out.access(65535, 18)
    out.table(table([run] * 65535), bytes(run))
    out.compact((15, 0))
    out.required(15)
    out.access(1, 15)
    out.rule('A print of 1,048,576 bytes, which is read, and one of 1,048,577, which the read refuses 3')
    out.older(repeated().bytes())
    carried(out, OVER_LIMIT, (), [], 'read 3 0 0 0')
    carried(out, AT_LIMIT, [I32, X['i'], 0, 1, 2], ['i: 1'], '0 0 66 262047 * *')
    return out
