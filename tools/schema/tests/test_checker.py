"""The checker on spoilt images: each rule of document 01 by its words, then the vectors' images by their known answers."""
import sys
import unittest

import helpers
from helpers import TOOLS, add_cases

import checker
from packing import (BYTES, ENUM, I32, KEY_TYPE, LABEL, LENGTH, MAP, MESSAGE, NUMBER, OPTIONAL, REFERENCE, REPEATED, REQUIRED, START, STRING, TYPE, ZERO,
                     Image)

# One of each sort of record.
SMALL = Image([[('map', 1, MAP, STRING, ENUM, 1), ('need', 2, REQUIRED, 0, MESSAGE, 1)], [('q', 3, REPEATED, 0, BYTES, 0)], []],
              [[('A', 0)], [('B', -1), ('C', 5)]])


def put(table, index, place, to):
    """One number of one record changed."""
    def spoil(image):
        getattr(image, table)[index][place] = to
    return SMALL.spoilt(spoil).bytes()


def header(place, to):
    def spoil(image):
        image.header[place] = to
    return SMALL.spoilt(spoil).bytes()


WHOLE = SMALL.bytes()

SPOILT = {
    'nothing': (b'', 'shorter than the header'),
    'seven_bytes': (WHOLE[:7], 'shorter than the header'),
    'form_0': (header(0, 0), 'form 0, not 1'),
    'form_2': (header(0, 2), 'form 2, not 1'),
    'header_zero': (header(6, 8), 'zero bits of the header are set'),
    'no_message': (Image([]).bytes(), 'no message'),
    'short': (WHOLE[:-1], f'{len(WHOLE) - 1} bytes, where the header counts {len(WHOLE)}'),
    'long': (WHOLE + b'a', f'{len(WHOLE) + 1} bytes, where the header counts {len(WHOLE)}'),
    'message_count': (header(1, 2), f'{len(WHOLE)} bytes, where the header counts {len(WHOLE) - 3}'),
    'message_first': (put('messages', 1, 0, 1), 'message 1 begins at 1, not at the running total 2'),
    'empty_message_first': (put('messages', 2, 0, 0), 'message 2 begins at 0, not at the running total 3'),
    'message_counts': (put('messages', 2, 1, 1), 'the message records count 4 of the 3 in their table'),
    'enum_first': (put('enums', 1, 0, 2), 'enum 1 begins at 2, not at the running total 1'),
    'enum_counts': (put('enums', 1, 1, 1), 'the enum records count 2 of the 3 in their table'),
    'empty_enum': (Image([[]], [[('A', 0)], []]).bytes(), 'enum 1 has no value'),
    'name_outside': (put('fields', 2, START, 65535), 'field 2: its name lies outside the name bytes'),
    'name_too_long': (put('values', 2, LENGTH, 2), 'enum value 2: its name lies outside the name bytes'),
    'no_name': (put('fields', 0, LENGTH, 0), 'field 0: its name is no name'),
    'digit_first': (Image([[('1a', 1, OPTIONAL, 0, I32, 0)]]).bytes(), 'field 0: its name is no name'),
    'high_byte': (Image([[('a\xe9', 1, OPTIONAL, 0, I32, 0)]]).bytes(), 'field 0: its name is no name'),
    'newline_last': (Image([[('a\n', 1, OPTIONAL, 0, I32, 0)]]).bytes(), 'field 0: its name is no name'),
    'value_name': (Image([[]], [[('A-B', 1)]]).bytes(), 'enum value 0: its name is no name'),
    'number_0': (put('fields', 1, NUMBER, 0), 'field 1: its number is 0'),
    'key_of_no_map': (put('fields', 1, KEY_TYPE, I32), 'field 1: its key type is 1'),
    'map_without_key': (put('fields', 0, KEY_TYPE, 0), 'field 0: its key type is 0'),
    'bytes_as_key': (put('fields', 0, KEY_TYPE, BYTES), 'field 0: its key type is 7'),
    'map_of_other_label': (put('fields', 0, LABEL, REPEATED), 'field 0: its key type is 6'),
    'type_0': (put('fields', 2, TYPE, 0), 'field 2: its type is 0'),
    'type_10': (put('fields', 2, TYPE, 10), 'field 2: its type is 10'),
    'enum_reference': (put('fields', 0, REFERENCE, 2), 'field 0: its reference 2 is to nothing'),
    'message_reference': (put('fields', 1, REFERENCE, 3), 'field 1: its reference 3 is to nothing'),
    'scalar_reference': (put('fields', 2, REFERENCE, 1), 'field 2: its reference 1 is to nothing'),
    'field_zero': (put('fields', 1, ZERO, 4), 'field 1: zero bits are set'),
    'value_zero': (put('values', 1, 3, 1), 'enum value 1: zero bits are set'),
    'field_name_twice': (put('fields', 1, slice(0, 2), [0, 3]), 'message 0: a name stands twice'),
    'field_number_twice': (put('fields', 1, NUMBER, 1), 'message 0: a number stands twice'),
    'value_number_twice': (put('values', 2, 2, -1), 'enum 1: a number stands twice'),
}


class Checker(unittest.TestCase):
    def check(self, image, words):
        with self.assertRaises(checker.BadImage) as bad:
            checker.schema_of(image)
        self.assertEqual(str(bad.exception), words)

    def test_small(self):
        schema = checker.schema_of(WHOLE)
        self.assertEqual(schema.messages, [[('map', 1, MAP, STRING, ENUM, 1), ('need', 2, REQUIRED, 0, MESSAGE, 1)],
                                           [('q', 3, REPEATED, 0, BYTES, 0)], []])
        self.assertEqual(schema.enums, [[('A', 0)], [('B', -1), ('C', 5)]])

    def test_shared_names(self):
        """Names may overlap."""
        self.assertEqual(checker.schema_of(put('fields', 1, slice(0, 2), [1, 2])).messages[0][1].name, 'ap')

    def test_vectors(self):
        """Each image of the vectors whose answer is known beforehand, accepted or refused 1."""
        sys.path.append(str(TOOLS.parent / 'vectors'))
        import schema
        out = schema.requests()
        known = dict(out.known)
        image, seen = None, {True: 0, False: 0}
        for number, line in enumerate(out.lines, 1):
            if line.startswith('S '):
                image = bytes.fromhex(line[2:].replace('-', ''))
            elif known.get(number) is not None:
                accepted = known[number] == 'T 0 0'
                self.assertEqual(is_image(image), accepted, image.hex())
                seen[accepted] += 1
        self.assertGreater(min(seen.values()), 300)


def is_image(data):
    try:
        checker.schema_of(data)
        return True
    except checker.BadImage:
        return False


add_cases(Checker, SPOILT, Checker.check)


if __name__ == '__main__':
    unittest.main()
