"""reading.txt: reads of text, refusals 1 to 14."""
import readings
from images import *
from lines import Requests

# One text for each sort of token, good and bad; the empty one is the end.
TOKENS = ['', 'z', 'true', 'ON', 'key', 'value', '0', '7', '-', "'a'", '"a"', "'\\q'", '{', '}', '<', '>', ':', '[', ']', ',',
          ';', '08', "'a", '(', '99999999999999999999999']

# Each place in the grammar where a token is needed.
PLACES = ['', 'i', 'i:', 'i:-', 'i:1 ', 'l:', 'l:-', 'u:', 'v:', 'b:', 's:', 'y:', 'e:', "s:''", 'b:true ', 'e:ON ', 'r:', 'o:',
          'm', 'm{', 'm<', 'm{}', 'm<>', 'm{m<', 'm{m<>', 'si', 'si{', 'si{key', 'si{key:', "si{key:''", 'si{value',
          'si{value:', 'si{value:0 ', "si{key:'' value:0 ", 'si{}', 'mm{value', 'mm{value<', 'mm{value{', 'mm{value<>', 'n{q:',
          'ub{key:', 'ub{value:', 'ie{key:-', 'ie{value:', 'ly{value:', 'vs{key:']


def examples(out):
    out.rule('Examples of document 01 under schema E, with prints')
    out.schema(schema_e().bytes())
    out.root(0)
    out.text('', 'read')
    out.compact('')
    out.text('id: -5 limits {value: 3 key: "a"}',
             '0 0 5 1 ' + ''.join(f'{word:08x}' for word in [
                 9, 0, 0, 0, 5, 1, 0, 4294967295, 4294967291, 2, 10, 2, 0, 0, 5, 3, 1, 0, 3, 4, 6, 0, 0, 1, 5]) + ' 61')
    out.compact('id: -5 limits {key: "a" value: 3}')
    out.pretty('id: -5\nlimits {\n  key: "a"\n  value: 3\n}\n')
    for text, known in [('id: 2147483648', '9 4'), ('child {>', '5 7'), ('child <>', 'read'), ('limits <>', '5 7'),
                        ('child: {}', '5 5'), ('id: 08', '4 4'), ('limits {key: "a" key: "b"}', '8 17'),
                        ('limits {other: 1}', '6 8')]:
        out.text(text, known)
    for text, print_ in [('id: 1 id: 2', 'id: 2'), ('limits {}', 'limits {key: "" value: 0}'), ('id: 012', 'id: 10')]:
        out.text(text, 'read')
        out.compact(print_)
    out.text('child {}', 'read')
    out.pretty('child {\n}\n')
    out.rule('Examples (c) and (d): `id` retyped')
    out.schema(schema_e(I64).bytes())
    out.text('id: 9223372036854775807', 'read')
    out.text('id: 9223372036854775808', '9 4')
    out.text('id: -9223372036854775808', 'read')
    out.schema(schema_e(U32).bytes())
    out.text('id: 4294967296', '9 4')


def first_and_last(out):
    """Each refusal at the first place it can have and at the last bytes of a text."""
    out.rule('Refusals 1 and 2, whatever the text and rooms')
    for image, root, known in [(schema_x().bytes()[:-1], 0, '1 0'), (b'', 9, '1 0'), (schema_x().bytes(), 3, '2 0'),
                               (schema_x().bytes(), 255, '2 0'), (schema_x().bytes(), 256, '2 0'),
                               (schema_x().bytes(), 4294967295, '2 0')]:
        out.schema(image)
        out.root(root)
        for text in ['', '(', 'i: 1']:
            out.text(text, known, 0, 0)
    out.root(0)
    long = 'i: 1 ' * 30
    for number, texts in {
            4: [('(', 0), ("'", 0), ('08', 0)],
            5: [('}', 0), (':', 0), ('7', 0), ("''", 0), ('i', 1), ('i:', 2), ('m{', 2)],
            6: [('z', 0), ('_', 0), ('I', 0), ('ii', 0), ('si{z', 3)],
            7: [('e:z', 2), ('e:LOW', 2), ('ie{value:z', 9)],
            8: [('vs{key:0 key', 9), ("si{key:''key", 9), ('si{value:0 value', 11)],
            9: [('i:2147483648', 2), ('i:-2147483649', 3), ('u:0x100000000', 2), ('ie{key:2147483648', 7)],
            10: [('b:', 2), ('b:z', 2), ('b:{', 2), ('ub{value:', 9)],
            11: [("s:'\\q'", 2), ("s:'\xff'", 2), ("y:'\\q'", 2), ("si{key:'\xff'", 7)],
            12: [('m{' * 33, 65), ('m<' * 33, 65), ('m{' * 32 + 'si{', 66), ('m{' * 31 + 'bm{}', 65)],
    }.items():
        out.rule(f'Refusal {number} at its first place, and as far along as a text goes')
        for text, at in texts:
            out.text(text, f'{number} {at}')
            out.text(long + text, f'{number} {len(long) + at}', 1000)
            out.text('\n#\n' + text, f'{number} {at + 3}')


def order(out):
    out.rule('Order: the first fault in reading order, then 13, then 14')
    faults = ['(', '}', 'z', 'e:z', "si{key:''key", 'i:2147483648', 'b:z', "s:'\\q'", 'm{' * 33]
    for first in faults:
        for second in faults:
            out.text(f'{first} {second}')
    for fault in faults:
        out.text(f"s:'abc' {fault}", None, 0, 0)
    out.text("s:'abc'", '13 2', 9, 0)
    out.text("s:'abc'", '13 2', 9, 9)
    out.text("s:'abc'", '14 3', 10, 0)
    out.text("s:'abc'", '14 3', 10, 2)
    out.text("s:'abc'", 'read', 10, 3)


def spelled(value, base):
    return {10: f'{value}', 8: f'0{value:o}', 16: f'0x{value:x}', -16: f'0X{value:X}'}[base]


def integers(out):
    out.rule('Every end of every integer type, plain and with a minus, in decimal, octal and hex')
    ends = [0, 1, 2**31 - 1, 2**31, 2**31 + 1, 2**32 - 1, 2**32, 2**63 - 1, 2**63, 2**63 + 1, 2**64 - 1, 2**64, 2**64 + 1, 10**30]
    types = {'i': (-2**31, 2**31 - 1), 'l': (-2**63, 2**63 - 1), 'u': (0, 2**32 - 1), 'v': (0, 2**64 - 1)}
    for name, (least, most) in types.items():
        for value in ends:
            for base in [10, 8, 16, -16]:
                digits = spelled(value, base)
                out.text(f'{name}: {digits}', 'read' if value <= most else '9 3')
                if least == 0:
                    out.text(f'{name}: -{digits}', '5 3')
                else:
                    out.text(f'{name}: -{digits}', 'read' if -value >= least else '9 4')
    out.rule('The same ends as keys and values of entries')
    out.schema(schema_maps().bytes())
    bounds = [types['i'], types['l'], types['u'], types['v']]
    for kind, (least, most) in enumerate(bounds, 1):
        for value in [least - 1, least, most, most + 1]:
            good = least <= value <= most
            minus = 5 if least == 0 and value < 0 else 9
            at = 1 if value < 0 and least < 0 else 0
            out.text(f'k{kind}v5{{key:{value}}}', 'read' if good else f'{minus} {9 + at}')
            out.text(f'k6v{kind}{{value:{value}}}', 'read' if good else f'{minus} {11 + at}')
    out.schema(schema_x().bytes())


def integer_shapes(out):
    out.rule('Shapes of integers: each byte after `0`, `0x`, `01`, `1`, `0x1`, and then a digit')
    for head in ['0', '0x', '01', '1', '0x1']:
        for tail in '0123456789abcdefgxXGAF_.-:#\'"{}[],;/+ \x80':
            out.text(f'l: {head}{tail}')
            if tail in '0789afgxX_.':
                out.text(f'l: {head}{tail}1')


def every_byte(out):
    places = [('as the first byte', '', ''), ('where a value is needed', 'i:', ''), ('after a whole field', 'i:1 ', ''),
              ('just after a name', 'i', ''), ('just after an integer', 'i:1', ''), ('just after a string', "s:''", ''),
              ('inside a name', 'i', 'i:1'), ('between name and colon, alone', 'i', ':1'),
              ('inside a string', "s:'", "'"), ('inside bytes', 'y:"', '"'), ('inside bytes, other quote', "y:'", "'"),
              ('after a backslash in bytes', "y:'\\", "'"), ('after a backslash in a string', 's:"\\', '"'),
              ('inside a comment', '#', 'z'), ('after a minus', 'i:-', '1')]
    for words, before, after in places:
        out.rule(f'Every byte 0 to 255 {words}')
        for byte in range(256):
            out.text(before + chr(byte) + after)


def escapes(out):
    out.rule('Every escape: letters, one to three octal digits, one or two hex digits')
    letters = {'a': 7, 'b': 8, 'f': 12, 'n': 10, 'r': 13, 't': 9, 'v': 11, '?': 63, '\\': 92, "'": 39, '"': 34}
    for quote in '\'"':
        for letter, byte in letters.items():
            out.text(f's:{quote}\\{letter}{quote}', 'read')
            out.access(1, bytes([byte]))
    for digits in ['0', '7', '00', '77', '000', '377', '18', '1777']:
        out.text(f"y:'\\{digits}'", 'read')
    for digits in ['400', '477', '500', '777', '8', '9']:
        out.text(f"y:'\\{digits}'", '11 2')
        out.text(f"s:'ab\\{digits}cd'", '11 2')
    every = bytes(range(256))
    for form in ['\\{:03o}', '\\x{:02x}', '\\x{:02X}']:
        out.text("y:'" + ''.join(form.format(b) for b in every) + "'", 'read', 10, 256)
        out.access(1, every)
    out.text("y:'" + ''.join(f'\\{b:o}' for b in every) + "'", 'read', 10, 256)
    out.text("y:'" + ''.join(f'\\x{b:x}g' for b in range(16)) + "'", 'read')
    out.rule('An escape at the end, and two bad ones')
    for text in ["s:'\\", "s:'\\'", "s:'\\x'", "s:'\\x", "s:'\\0'", "s:'\\q\\q'", "s:'a' y:'\\q'", "s:'\\x1\\xq'", "s:'\\\\'"]:
        out.text(text)


# Each end of each row of the UTF-8 table, and one past it.
UTF8 = ['00', '7f', '80', 'bf', 'c0', 'c080', 'c1bf', 'c2', 'c27f', 'c280', 'c2bf', 'c2c0', 'dfbf', 'df', 'e0', 'e080', 'e08080',
        'e09fbf', 'e0a080', 'e0a07f', 'e0bfbf', 'e18080', 'e17f80', 'e1c080', 'ecbfbf', 'ed8080', 'ed9fbf', 'eda080', 'edbfbf',
        'ee8080', 'efbfbf', 'efbfc0', 'efbf', 'f0808080', 'f08fbfbf', 'f0908080', 'f09080', 'f0bfbfbf', 'f1808080', 'f180807f',
        'f1c08080', 'f3bfbfbf', 'f4808080', 'f48fbfbf', 'f4908080', 'f48fbf', 'f5808080', 'f7bfbfbf', 'f8888080', 'fe', 'ff',
        '41c3a942', 'c3a9c3', 'c3a9a9']


def utf8_good(data):
    try:
        data.decode('utf-8')
        return True
    except UnicodeDecodeError:
        return False


def utf8(out):
    out.rule('UTF-8: each row of its table, raw, by escapes and mixed; bytes take all')
    for digits in UTF8:
        data = bytes.fromhex(digits)
        known = 'read' if utf8_good(data) else '11 2'
        escaped = ''.join(f'\\{b:03o}' for b in data)
        mixed = f'\\x{data[0]:02x}' + data[1:].decode('latin-1')
        if 0 not in data:
            out.text("s:'" + data.decode('latin-1') + "'", known)
        out.text(f's:"{escaped}"', known)
        out.text(f's:"{mixed}"', known)
        out.text(f'y:"{escaped}"', 'read')
    out.rule('The same check on keys and values of entries')
    for text in ["si{key:'\xc3\xa9'}", "si{key:'\xc3'}", "vs{value:'\xff'}", "ly{value:'\xff'}", "vs{value:'\\303\\251'}"]:
        out.text(text)


def depth(out):
    out.rule('Depth 31 to 33 by messages, entries and default messages')
    for levels in [30, 31, 32]:
        for inner in ['m{}', 'm<>', 'si{}', 'bm{}', 'bm{key:true}', 'bm{value{}}', 'bm{value<>}', 'mm{value{m{}}}', 'i:1', '',
                      "si{key:'a' value:1}", 'n{q:1}', 'n{q:1 w{}}']:
            out.text('m{' * levels + inner + '}' * levels)
    for levels in [15, 16, 17]:
        out.text('mm{value{' * levels + '}}' * levels)
        out.text('mm{value<' * levels + 'si{}' + '>}' * levels)
        out.text('mm{value<' * levels + '>}' * levels + ' (')
    out.text('mm{value{' * 15 + 'm{mm{}}' + '}}' * 15)
    out.text('mm{value{' * 15 + 'mm{}' + '}}' * 15)
    out.rule('What comes before 12 at depth 33, and after it')
    for levels, cases in [(32, readings.DEPTH_32), (31, readings.DEPTH_31)]:
        for text, number, at in cases:
            out.text('m{' * levels + text, f'{number} {2 * levels + at}')


def rooms(out):
    out.rule('Room exact, one short, more than enough, for words and for bytes')
    cases = [('', 1, 0), ('i:1', 2, 0), ('i:1 i:2', 3, 0), ('m{m{m{}}}', 4, 0), ('si{}', 4, 0), ('mm{}', 4, 0),
             ("s:'a'", 2, 1), ("s:'' y:''", 3, 0), ("s:'abc' s:'de'", 3, 5), ("s:'\\x41\\102'", 2, 2),
             ("vs{value:'xyz'}vs{value:'uvw'}", 7, 6), ("si{key:'k'}y:'\\377\\377'", 5, 3), ('r:1 ' * 20, 21, 0)]
    for text, nodes, used in cases:
        for words in [5 * nodes, 5 * nodes + 1, 5 * nodes + 4, 5 * nodes + 5]:
            out.text(text, 'read', words, used)
        for words in [5 * nodes - 1, 5 * nodes - 5, 0]:
            out.text(text, f'13 {nodes}', words, used)
            out.text(text, f'13 {nodes}', words, 0)
        out.text(text, 'read', 5 * nodes, used + 1)
        if used:
            out.text(text, f'14 {used}', 5 * nodes, used - 1)
            out.text(text, f'14 {used}', 5 * nodes, 0)


def grammar(out):
    out.rule('Each sort of token at each place of the grammar')
    for place in PLACES:
        for token in TOKENS:
            out.text(place + token)
    out.rule('Each whole field twice, and after a message is closed')
    for field in ['i:1', 'l:-1', 'u:2', 'v:3', 'b:true', "s:'a'", "y:'b'", 'e:NEG', 'm{}', 'r:4', 'n{q:1}', 'si{}', 'bm{}', 'ie{}',
                  'ly{}', 'ub{}', 'vs{}', 'mm{}', 'o:HIGH']:
        out.text(f'{field} {field}', 'read')
        out.text(f'm<{field}>{field}', 'read')
    out.rule('Messages 1 and 2 as root')
    for root, text, known in [(1, 'q:1', 'read'), (1, 'w{}', 'read'), (1, 'i:1', '6 0'), (1, 'w{q:1}', '6 2'), (2, '', 'read'),
                              (2, 'q', '6 0'), (3, '', '2 0')]:
        out.root(root)
        out.text(text, known)
    out.root(0)


def separators(out):
    out.rule('Each separator and comment between all tokens')
    tokens = ['si', '{', 'value', ':', '-', '5', 'key', ':', "'k'", '}', 'm', '<', 'b', ':', 'true', '>', 'e', ':', 'ON']
    for between in [' ', '\t', '\n', '\r', '\v', '\f', '\r\n', '#\n', '# c\xff\0\n', ' # \' "\n\t', '  ']:
        out.text(between.join(tokens), 'read')
        out.text(between + between.join(tokens) + between, 'read')
    for between in ['', '\0', '\x1c', '\x85', '\xa0', '#', '#\r', '\x08', '/**/', '//\n', ',', ';']:
        out.text(between.join(tokens))


def defaults(out):
    out.rule('Defaults of every key type and value type; missing parts appended, key first')
    out.schema(schema_maps().bytes())
    samples = {I32: '-1', I64: '-2', U32: '3', U64: '4', BOOL: 'true', STRING: "'k'", BYTES: "'\\377'", ENUM: 'ZERO'}
    for key in KEYS:
        for value in TYPES:
            name = f'k{key}v{value}'
            part = 'value{k1v1{}}' if value == MESSAGE else f'value:{samples[value]}'
            out.text(f'{name}{{}}', 'read')
            out.compact()
            out.text(f'{name}{{key:{samples[key]}}}', 'read')
            out.text(f'{name}{{{part}}}', 'read')
            out.text(f'{name}{{{part} key:{samples[key]}}}', 'read')
            out.compact()
    out.schema(schema_x().bytes())


def inputs_of_readings(out):
    for words, cases in readings.TEXTS.items():
        out.rule('Reading ' + words)
        for text, known in cases:
            out.text(text, known)
            if known == 'read':
                out.compact()
                out.required()


def requests():
    out = Requests()
    examples(out)
    first_and_last(out)
    for group in [order, integers, integer_shapes, every_byte, escapes, utf8, depth, rooms, grammar, separators, defaults,
                  inputs_of_readings]:
        group(out)
    return out
