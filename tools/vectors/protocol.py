"""protocol.txt: the state between requests, and lines that are no request."""
from images import *
from lines import Requests, hexed

NO_REQUESTS = ['s -', 'S', 'S  -', 'S - ', 'S 0', 'S 0g', 'S 0A', ' Q', 'Q 1', 'Q ', 'R', 'R -1', 'R +1', 'R x', 'R', 'N 0000',
               'N 000000000', 'P', 'P 0x', 'T 5 0', 'T 5 -', 'T 5 0 - -', 'T -1 0 -', 'C', 'C -', 'C 1 2', 'Y', 'Y x', 'A', 'A -',
               'X', 'q', 'T', 'TT 5 0 -', '? 1', 'kept',
               'O', 'O 0', 'O 0g', 'O  -', 'O - ', 'o -', 'X 0', 'X 0 1', 'X 0 1 1', 'X 0 1 1 1 1', 'X 2 1 1 1', 'X 10 1 1 1',
               'X 4294967296 1 1 1', 'X - 1 1 1', 'X -1 1 1 1', 'X 0 - 1 1', 'X 0 1 -1 1', 'X 0 1 1 x', 'X  0 1 1 1', 'X 0 1 1 1 ',
               'x 0 1 1 1', 'XX 0 1 1 1', 'X0 1 1 1']


def requests():
    out = Requests()
    out.rule('All starts empty: no schema, so each call is refused 1')
    for line, known in [('T 5 0 -', 'T 1 0 0 0 kept'), ('C 0', 'C 1 0 0 0 kept'), ('Y 0', 'Y 1 0 0 0 kept'), ('Q', 'Q 1 0 0 0'),
                        ('A 0', 'A 1 0 0 0'), ('X 0 0 0 0', 'X print 1 0 0 0 - kept'),
                        ('X 1 2 5 1', 'X print 1 0 0 0 a5a5 kept')]:
        out.ask(line, known)
    out.rule('With a schema the empty table is refused 15')
    out.schema(schema_e().bytes())
    for line, known in [('C 0', 'C 15 0 0 0 kept'), ('Y 0', 'Y 15 0 0 0 kept'), ('Q', 'Q 15 0 0 0'), ('A 0', 'A 15 0 0 0'),
                        ('X 0 1 0 0', 'X print 15 0 0 0 a5 kept')]:
        out.ask(line, known)
    out.rule('A read that succeeds is the state after it; one that is refused leaves it')
    out.text("name: 'a'", 'read')
    out.compact('name: "a"')
    out.text('id: 1 (', '4 6')
    out.text("id: 1 name: 'b'", '13 3', 10)
    out.text("id: 1 name: 'b'", '14 1', 15, 0)
    out.compact('name: "a"')
    out.lines += ['', 'P ' + hexed('b')]
    out.compact('name: "b"')
    out.rule('The older schema starts empty too, and stays when the newer one or the table is another')
    shown = hexed('name: "b"')
    out.carry(0, 10, 10, 1, f'X read 1 0 0 0 {shown}a5 kept')
    out.older(schema_e().bytes())
    for newer in [schema_e(I64), schema_e()]:
        out.schema(newer.bytes())
        out.carry(0, 9, 10, 1, f'X 0 0 2 1 * 62 {shown} kept')
        out.text("name: 'b'", 'read')
        out.carry(1, 12, 12, 3, f'X 0 0 2 1 * 62 {shown}0aa5a5 kept')
    out.rule('A line that is no request is told by its number and passed over')
    for line in NO_REQUESTS:
        out.ask(line, f'? {len(out.lines) + 1}')
    out.compact('name: "b"')
    out.required(0)
    return out
