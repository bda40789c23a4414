"""Writes the input of the program `bench` for the text on standard input: the image's length in three bytes, the image, the text.

The schema is that of the C++ measurement: one enum of four values, and one message, Node, with ten fields.
"""
import pathlib
import sys

sys.path.insert(0, str(pathlib.Path(__file__).resolve().parent.parent / 'schema'))
from packing import BOOL, BYTES, ENUM, I32, I64, MAP, MESSAGE, OPTIONAL, REPEATED, STRING, U32, U64, Image  # noqa: E402

NODE = [
    ('id', 1, OPTIONAL, 0, I32, 0),
    ('name', 2, OPTIONAL, 0, STRING, 0),
    ('limits', 3, MAP, STRING, U32, 0),
    ('child', 4, REPEATED, 0, MESSAGE, 0),
    ('big', 5, OPTIONAL, 0, I64, 0),
    ('ubig', 6, OPTIONAL, 0, U64, 0),
    ('flag', 7, OPTIONAL, 0, BOOL, 0),
    ('data', 8, OPTIONAL, 0, BYTES, 0),
    ('color', 9, OPTIONAL, 0, ENUM, 0),
    ('nums', 10, REPEATED, 0, U32, 0),
]
COLOR = [('RED', 0), ('GREEN', 1), ('BLUE', 2), ('VIOLET', 3)]
BENCH = Image([NODE], [COLOR]).bytes()


def joined(image, text):
    return len(image).to_bytes(3, 'big') + image + text


if __name__ == '__main__':
    sys.stdout.buffer.write(joined(BENCH, sys.stdin.buffer.read()))
