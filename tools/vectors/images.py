"""The schemas that the vectors use, as images. They are packed by tools/schema."""
import pathlib
import sys

# After this folder: of tools/schema only `packing` is meant.
sys.path.append(str(pathlib.Path(__file__).resolve().parent.parent / 'schema'))
from packing import *  # noqa: E402

# Node kinds beyond the types.
ENTRY, UNKNOWN_U32, UNKNOWN_U64, UNKNOWN_BYTES = range(10, 14)


def schema_e(kind=I32):
    """Schema E of document 01, `id` retyped."""
    return Image([[
        ('id', 1, OPTIONAL, 0, kind, 0),
        ('name', 2, OPTIONAL, 0, STRING, 0),
        ('limits', 3, MAP, STRING, U32, 0),
        ('child', 4, OPTIONAL, 0, MESSAGE, 0),
    ]])


X_FIELDS = [
    ('i', 1, OPTIONAL, 0, I32, 0),
    ('l', 2, OPTIONAL, 0, I64, 0),
    ('u', 3, OPTIONAL, 0, U32, 0),
    ('v', 4, OPTIONAL, 0, U64, 0),
    ('b', 5, OPTIONAL, 0, BOOL, 0),
    ('s', 6, OPTIONAL, 0, STRING, 0),
    ('y', 7, OPTIONAL, 0, BYTES, 0),
    ('e', 8, OPTIONAL, 0, ENUM, 1),
    ('m', 9, OPTIONAL, 0, MESSAGE, 0),
    ('r', 10, REPEATED, 0, I32, 0),
    ('n', 11, REPEATED, 0, MESSAGE, 1),
    ('si', 12, MAP, STRING, I32, 0),
    ('bm', 13, MAP, BOOL, MESSAGE, 0),
    ('ie', 14, MAP, I32, ENUM, 1),
    ('ly', 15, MAP, I64, BYTES, 0),
    ('ub', 16, MAP, U32, BOOL, 0),
    ('vs', 17, MAP, U64, STRING, 0),
    # A greater number before a smaller one: print goes by the table, not by the number.
    ('mm', 536870911, MAP, STRING, MESSAGE, 0),
    ('o', 18, REPEATED, 0, ENUM, 0),
]
X_SECOND = [('q', 1, REQUIRED, 0, I32, 0), ('w', 2, OPTIONAL, 0, MESSAGE, 2)]
OTHER_ENUM = [('LOW', 0), ('HIGH', 1)]
MODE_ENUM = [('ON', 7), ('OFF', 0), ('NEG', -1), ('LEAST', -2**31), ('MOST', 2**31 - 1)]

# Index in the whole field table by name.
X = {name: index for index, (name, *_) in enumerate(X_FIELDS + X_SECOND)}


def schema_x():
    """Schema X of the readings: messages 0, 1 and 2 (empty), enums 0 and 1."""
    return Image([X_FIELDS, X_SECOND, []], [OTHER_ENUM, MODE_ENUM])


def schema_n():
    """Schema N of the readings: messages in messages and in maps."""
    return Image([[('m', 1, OPTIONAL, 0, MESSAGE, 0), ('mm', 2, MAP, STRING, MESSAGE, 0)]])


KEYS = [I32, I64, U32, U64, BOOL, STRING]
TYPES = [I32, I64, U32, U64, BOOL, STRING, BYTES, ENUM, MESSAGE]


def schema_maps():
    """A map of every key type to every value type: `k1v1` to `k6v9`."""
    fields = []
    for key in KEYS:
        for value in TYPES:
            fields.append((f'k{key}v{value}', len(fields) + 1, MAP, key, value, 0))
    return Image([fields], [[('FIRST', -3), ('ZERO', 0)]])


def schema_tiny():
    """Names of one byte, for most nodes in few bytes: map `a`, string `s`."""
    return Image([[('a', 1, MAP, I32, I32, 0), ('s', 2, REPEATED, 0, STRING, 0)]])
