"""The image of a .proto file, from protoc's descriptors."""
import collections

import checker
from packing import BOOL, BYTES, ENUM, I32, I64, MAP, MESSAGE, OPTIONAL, REPEATED, REQUIRED, STRING, U32, U64, Image
from protos import FieldProto, Types
from refusals import refusals

TYPES = {
    FieldProto.TYPE_INT32: I32,
    FieldProto.TYPE_INT64: I64,
    FieldProto.TYPE_UINT32: U32,
    FieldProto.TYPE_UINT64: U64,
    FieldProto.TYPE_BOOL: BOOL,
    FieldProto.TYPE_STRING: STRING,
    FieldProto.TYPE_BYTES: BYTES,
    FieldProto.TYPE_ENUM: ENUM,
    FieldProto.TYPE_MESSAGE: MESSAGE,
}
LABELS = {FieldProto.LABEL_OPTIONAL: OPTIONAL, FieldProto.LABEL_REQUIRED: REQUIRED, FieldProto.LABEL_REPEATED: REPEATED}

# The image's bytes, and the schema that the checker reads from them, with the names of messages and enums.
Made = collections.namedtuple('Made', 'image schema')


class Refused(Exception):
    """The file says what an image can't hold; `refusals` are all of them."""

    def __init__(self, found):
        super().__init__(f'{len(found)} refusals')
        self.refusals = found


def make(files, name, with_names=False):
    """The image of the file of this name; `files` are its descriptor and those of all that it imports."""
    types = Types(files, name)
    found = refusals(types, with_names)
    if found:
        raise Refused(found)
    messages = [[record(types, field) for field in one.proto.field] for one in types.messages]
    enums = [[(value.name, value.number) for value in one.proto.value] for one in types.enums]
    image = Image(messages, enums)
    if with_names:
        add_names(image, types)
    data = image.bytes()
    schema = checker.schema_of(data)
    # What was packed is read back: nothing may be cut off to fit its bits.
    assert [[tuple(field) for field in own] for own in schema.messages] == messages
    assert [[tuple(value) for value in own] for own in schema.enums] == enums
    return Made(data, schema._replace(message_names=[one.name for one in types.messages], enum_names=[one.name for one in types.enums]))


def record(types, field):
    """A field as name, number, label, key type, type, reference."""
    entry = types.entry(field)
    if entry is None:
        return (field.name, field.number, LABELS[field.label], 0, *type_and_reference(types, field))
    key, value = entry.field
    return (field.name, field.number, MAP, TYPES[key.type], *type_and_reference(types, value))


def type_and_reference(types, field):
    index = {FieldProto.TYPE_ENUM: types.enum_index, FieldProto.TYPE_MESSAGE: types.message_index}.get(field.type)
    return TYPES[field.type], index[field.type_name] if index else 0


def add_names(image, types):
    """The names of all messages, then of all enums, each after one zero byte: bytes that no record refers to."""
    for one in types.messages + types.enums:
        image.names += b'\0' + one.name.encode('ascii')
    image.count()
