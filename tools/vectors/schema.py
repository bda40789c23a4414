"""schema.txt: the schema check. Each image is followed by a read of the empty text, which answers 1 or not."""
from images import *
from lines import Requests


class Check:
    def __init__(self, out):
        self.out = out

    def image(self, data, accepted=None):
        told = {None: None, True: 'read', False: '1 0'}[accepted]
        self.out.schema(data if isinstance(data, bytes) else data.bytes())
        self.out.text('', told, 5, 0)

    def spoilt(self, image, accepted, spoil):
        self.image(image.spoilt(spoil), accepted)


def set_field(index, place, to):
    def spoil(image):
        image.fields[index][place] = to
    return spoil


def set_value(index, place, to):
    def spoil(image):
        image.values[index][place] = to
    return spoil


def set_header(place, to):
    def spoil(image):
        image.header[place] = to
    return spoil


def header(check):
    rule = check.out.rule
    rule('Header: form 1, at least one message, zero bits, counts that match the length')
    check.image(schema_e(), True)
    check.image(schema_x(), True)
    check.image(schema_maps(), True)
    for form in range(16):
        check.spoilt(schema_e(), form == 1, set_header(0, form))
    for zero in range(16):
        check.spoilt(schema_e(), zero == 0, set_header(6, zero))
    for place in range(1, 6):
        for by in [-1, 1]:
            count = schema_x().header[place] + by
            check.spoilt(schema_x(), False, set_header(place, count))
    check.image(Image([]), False)
    check.image(Image([[]]), True)
    check.image(Image([[], [], []]), True)
    check.image(Image([], [[('A', 0)]]), False)


def length(check):
    check.out.rule('Length: every shorter image, and bytes that follow')
    whole = schema_e().bytes()
    for size in range(len(whole)):
        check.image(whole[:size], False)
    check.image(whole, True)
    for more in [b'\0', b'a', b'\xff', bytes(9)]:
        check.image(whole + more, False)
    check.image(schema_x().bytes() + b'\0', False)
    check.image(schema_x().bytes()[:-1], False)


def running_totals(check):
    check.out.rule('First field and first value are running totals that use up the table, empty messages too')
    def message(index, record):
        return lambda image: image.messages.__setitem__(index, record)

    def enum(index, record):
        return lambda image: image.enums.__setitem__(index, record)

    for index, record in [(2, [0, 0]), (2, [20, 0]), (2, [22, 0]), (2, [21, 1]), (1, [19, 1]), (1, [18, 2]), (1, [19, 3]),
                          (0, [0, 18]), (0, [0, 20]), (0, [1, 19]), (2, [4095, 0])]:
        check.spoilt(schema_x(), False, message(index, record))
    for index, record in [(1, [0, 5]), (1, [2, 4]), (1, [3, 5]), (1, [2, 6]), (0, [0, 1]), (0, [1, 2]), (0, [0, 3]), (0, [0, 0])]:
        check.spoilt(schema_x(), False, enum(index, record))

    def moved(image):
        image.messages[:2] = [[0, 0], [0, 21]]
    check.spoilt(schema_x(), None, moved)
    check.out.rule('An enum has at least one value, also one that no field names')
    check.image(Image([[]], [[]]), False)
    check.image(Image([[]], [[('A', 0)], []]), False)
    check.image(Image([[]], [[], [('A', 0)]]), False)
    check.image(Image([[]], [[('A', 0)]]), True)


def names(check):
    rule = check.out.rule
    rule('A name lies inside the name bytes')
    for start, size, good in [(0, 2, True), (15, 2, True), (16, 1, True), (16, 2, False), (17, 0, False), (17, 1, False), (0, 0, False),
                              (0, 17, True), (0, 18, False), (65535, 1, False), (65535, 63, False), (0, 63, False)]:
        check.spoilt(schema_e(), good, lambda image: image.fields[0].__setitem__(slice(0, 2), [start, size]))
        check.spoilt(schema_x(), None, lambda image: image.values[0].__setitem__(slice(0, 2), [start, size]))
    rule('A name is a letter or `_`, then letters, digits, `_`: every byte alone, second and in an enum')
    for byte in range(256):
        letter = chr(byte)
        begins = byte < 128 and (letter.isalpha() or letter == '_')
        goes_on = begins or letter in '0123456789'
        check.image(Image([[(letter, 1, OPTIONAL, 0, I32, 0)]]), begins)
        check.image(Image([[('a' + letter, 1, OPTIONAL, 0, I32, 0)]]), goes_on)
        check.image(Image([[]], [[(letter, 1)]]), begins)
    rule('Names of 63 bytes; unused, shared and overlapping name bytes')
    check.image(Image([[('a' * 63, 1, OPTIONAL, 0, I32, 0)]]), True)
    check.image(Image([[('a' * 62 + '-', 1, OPTIONAL, 0, I32, 0)]]), False)

    def unused(image):
        image.names += b'\xff'
        image.count()
    check.spoilt(schema_e(), True, unused)
    check.spoilt(schema_e(), True, lambda image: image.fields[1].__setitem__(slice(0, 2), [0, 3]))
    check.spoilt(schema_e(), True, lambda image: image.fields[1].__setitem__(slice(0, 2), [1, 1]))


def distinct(check):
    rule = check.out.rule
    rule('Names and numbers are distinct within a message and within an enum, and may recur across them')
    for names_, numbers, good in [('ab', (1, 2), True), ('aa', (1, 2), False), ('ab', (1, 1), False), ('aA', (1, 2), True),
                                  ('aba', (1, 2, 3), False), ('abc', (1, 2, 1), False), ('abb', (1, 2, 3), False)]:
        fields = [(name, number, OPTIONAL, 0, I32, 0) for name, number in zip(names_, numbers)]
        values = [(name, number) for name, number in zip(names_, numbers)]
        check.image(Image([fields]), good)
        check.image(Image([[], fields]), good)
        check.image(Image([[]], [values]), good)
        check.image(Image([[]], [[('z', 0)], values]), good)
        for field in fields:
            check.image(Image([[field], fields[:1]]), True)
        check.image(Image([[]], [values[:1], values[:1]]), True)
    check.image(Image([[('key', 1, OPTIONAL, 0, I32, 0), ('value', 2, OPTIONAL, 0, I32, 0)]]), True)

    def same_text(image):
        image.fields[0][:2] = [0, 1]
        image.fields[3][:2] = [7, 1]
    check.out.rule('Equal name text at different places: `i` of `id` and of `limits`')
    check.spoilt(schema_e(), False, same_text)
    check.spoilt(schema_x(), False, set_field(1, NUMBER, 1))


def numbers(check):
    check.out.rule('Field numbers 1 to 536,870,911; enum numbers any of 32 bits')
    for number in [0, 1, 5, 18999, 19000, 19999, 2**28, 2**29 - 1]:
        check.spoilt(schema_e(), number > 0, set_field(0, NUMBER, number))
    for number in [2**31, 2**31 - 1, 2**32 - 2, 1]:
        check.spoilt(schema_x(), None, set_value(0, 2, number))
    check.out.rule('Zero bits of fields and of enum values')
    for zero in range(8):
        check.spoilt(schema_e(), zero == 0, set_field(3, ZERO, zero))
    for zero in range(4):
        check.spoilt(schema_x(), zero == 0, set_value(6, 3, zero))


def types(check):
    rule = check.out.rule
    rule('Label, key type, type and reference: every label with every key type and type')
    for label in range(4):
        for key_type in range(16):
            for kind in range(16):
                key_good = 1 <= key_type <= 6 if label == MAP else key_type == 0
                image = Image([[('a', 1, label, key_type, kind, 0)]], [[('A', 0)]])
                check.image(image, key_good and 1 <= kind <= 9)
    rule('The reference is an enum or message that exists, else 0; for a map it is its value\'s')
    for label, key_type in [(OPTIONAL, 0), (REQUIRED, 0), (REPEATED, 0), (MAP, I32)]:
        for kind in range(1, 10):
            for reference in [0, 1, 2, 3, 255]:
                limit = {ENUM: 2, MESSAGE: 3}.get(kind, 1)
                image = Image([[('a', 1, label, key_type, kind, reference)], [], []], [[('A', 0)], [('B', 0)]])
                check.image(image, reference < limit)
    check.image(Image([[('a', 1, OPTIONAL, 0, ENUM, 0)]]), False)


def every_bit(check):
    small = Image([[('m', 1, MAP, STRING, ENUM, 1), ('r', 2, REQUIRED, 0, MESSAGE, 1)], [('q', 3, REPEATED, 0, BYTES, 0)]],
                  [[('A', 0)], [('B', -1), ('C', 5)]])
    for words, image in [('E', schema_e().bytes()), ('a small schema with every sort of record', small.bytes())]:
        check.out.rule(f'Every bit of {words} turned over')
        for at in range(8 * len(image)):
            turned = bytearray(image)
            turned[at // 8] ^= 128 >> at % 8
            check.image(bytes(turned))


def largest(check):
    check.out.rule('As many messages and enums as there can be; the last field refers to the last message')
    fields = [('a', 1, OPTIONAL, 0, MESSAGE, 254), ('b', 2, MAP, I32, ENUM, 254)]
    check.image(Image([fields] + [[]] * 254, [[('A', 0)]] * 255), True)
    check.image(Image([fields] + [[]] * 253, [[('A', 0)]] * 255), False)
    check.image(Image([fields] + [[]] * 254, [[('A', 0)]] * 254), False)
    check.out.rule('4,095 fields and 4,095 enum values; then the last number, and the last name, is the first again')
    most = full()
    check.image(most, True)
    check.spoilt(most, False, set_field(4094, NUMBER, 1))
    check.spoilt(most, False, set_value(4094, START, 0))


def full():
    """As many fields and enum values as 12 bits count; names of three letters that both tables share."""
    letters = 'abcdefghijklmnop'
    names_ = [a + b + c for a in letters for b in letters for c in letters][:4095]
    image = Image([[(name, number, OPTIONAL, 0, I32, 0) for number, name in enumerate(names_, 1)]])
    image.enums = [[0, 4095]]
    image.values = [[*field[:2], -number, 0] for number, field in enumerate(image.fields)]
    image.count()
    return image


def requests():
    out = Requests()
    check = Check(out)
    for group in [header, length, running_totals, names, distinct, numbers, types, every_bit, largest]:
        group(check)
    return out
