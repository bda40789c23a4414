"""What a .proto file may say and an image can't hold: found by name, file and line, all of it."""
import collections

from protos import EXTENSIONS, FILE_EXTENSIONS, FILE_SERVICES, FILE_SYNTAX, ONEOFS, RANGES, VALUES, FieldProto

MOST_MESSAGES = MOST_ENUMS = 255
MOST_FIELDS = MOST_VALUES = 4095
MOST_NAME = 63
MOST_NAME_BYTES = 65535

Refusal = collections.namedtuple('Refusal', 'file line words')

NO_FLOATS = 'the format has no floats'


def no_encoding(plain):
    # Taken as the plain type they would be misread on the wire, where only varints are known.
    return f'the image keeps no encodings; {plain} has the same numbers'


UNHELD = {
    FieldProto.TYPE_FLOAT: ('float', NO_FLOATS),
    FieldProto.TYPE_DOUBLE: ('double', NO_FLOATS),
    FieldProto.TYPE_GROUP: ('group', 'the format has no groups; use a message'),
    FieldProto.TYPE_FIXED32: ('fixed32', no_encoding('uint32')),
    FieldProto.TYPE_FIXED64: ('fixed64', no_encoding('uint64')),
    FieldProto.TYPE_SFIXED32: ('sfixed32', no_encoding('int32')),
    FieldProto.TYPE_SFIXED64: ('sfixed64', no_encoding('int64')),
    FieldProto.TYPE_SINT32: ('sint32', no_encoding('int32')),
    FieldProto.TYPE_SINT64: ('sint64', no_encoding('int64')),
}


class Finder:
    """Goes through all files once; `found` are the refusals, unsorted."""

    def __init__(self, types):
        self.types = types
        self.rank = {source.proto.name: rank for rank, source in enumerate(types.sources)}
        self.found = []

    def refuse(self, source, place, words):
        self.found.append((self.rank[source.proto.name], place, Refusal(source.proto.name, place[0], words)))

    def refuse_named(self, source, path, words):
        self.refuse(source, source.name_start(path), words)

    def all(self, with_names):
        """Every refusal, by file in the image's order, then by place."""
        for source in self.types.sources:
            self.file(source)
        for message in self.types.messages:
            self.message(message)
        for message, field, path in self.types.fields():
            self.field(message.source, field, path)
        for enum in self.types.enums:
            self.aliases(enum)
        for enum, value, path in self.types.values():
            self.name_length(enum.source, path, f'value {value.name}', value.name)
        self.counts()
        self.name_bytes(with_names)
        if with_names:
            self.same_names()
        return [refusal for _, _, refusal in sorted(self.found)]

    def file(self, source):
        file = source.proto
        # A file without a syntax line is proto2, and its descriptor says nothing.
        if file.syntax not in ('', 'proto2', 'proto3'):
            self.refuse(source, source.start((FILE_SYNTAX,)), f"syntax {file.syntax}: can't be held (only proto2 and proto3 are known)")
        # The root is the first message of the file that was asked for; an imported file may have none.
        if source is self.types.sources[0] and not file.message_type:
            self.refuse(source, (1, 1), "no message: can't be held (message 0 is the root)")
        for index, service in enumerate(file.service):
            self.refuse_named(source, (FILE_SERVICES, index), f"service {service.name}: a service can't be held (settings have no calls)")
        self.extensions(source, file.extension, (FILE_EXTENSIONS,))

    def extensions(self, source, fields, path):
        for index, field in enumerate(fields):
            self.refuse_named(source, path + (index,),
                              f"extension {field.name}: an extension can't be held (a message has its own fields only)")

    def message(self, message):
        source, proto, path = message.source, message.proto, message.path
        self.extensions(source, proto.extension, path + (EXTENSIONS,))
        for index, span in enumerate(proto.extension_range):
            self.refuse(source, source.start(path + (RANGES, index)),
                        f"message {message.name}: extensions {span.start} to {span.end - 1} can't be held (a message has its own fields only)")
        # The oneof that protoc makes of a proto3 `optional` holds that one field and says only that it knows whether it is set.
        synthetic = {field.oneof_index for field in proto.field if field.proto3_optional}
        for index, oneof in enumerate(proto.oneof_decl):
            if index not in synthetic:
                self.refuse_named(source, path + (ONEOFS, index), f"oneof {oneof.name}: a oneof can't be held (each field is set by itself)")

    def field(self, source, field, path):
        who = f'field {field.name}'
        entry = self.types.entry(field)
        if entry is None:
            self.type(source, path, f'{who}: type', field.type)
            if is_implicit(source, field):
                self.refuse_named(source, path, f"{who}: implicit presence can't be held (write optional)")
        else:
            for part in entry.field:
                self.type(source, path, f'{who}: map {part.name} type', part.type)
        if field.HasField('default_value'):
            self.refuse_named(source, path, f"{who}: a default value can't be held (a field that isn't set has no value)")
        self.name_length(source, path, who, field.name)

    def type(self, source, path, who, kind):
        if kind in UNHELD:
            name, reason = UNHELD[kind]
            self.refuse_named(source, path, f"{who} {name} can't be held ({reason})")

    def name_length(self, source, path, who, name):
        if len(name) > MOST_NAME:
            self.refuse_named(source, path, f"{who}: a name of {len(name)} bytes can't be held ({MOST_NAME} at most)")

    def aliases(self, enum):
        first = {}
        for index, value in enumerate(enum.proto.value):
            if first.setdefault(value.number, value.name) != value.name:
                self.refuse_named(enum.source, enum.path + (VALUES, index),
                                  f"value {value.name}: an alias can't be held (number {value.number} is {first[value.number]})")

    def counts(self):
        """Each count over its limit, told once, at the first that is too many."""
        types = self.types
        messages = [(one.source, one.path, f'message {one.name}') for one in types.messages]
        enums = [(one.source, one.path, f'enum {one.name}') for one in types.enums]
        fields = [(message.source, path, f'field {field.name}') for message, field, path in types.fields()]
        values = [(enum.source, path, f'value {value.name}') for enum, value, path in types.values()]
        for what, most, found in (('messages', MOST_MESSAGES, messages), ('enums', MOST_ENUMS, enums), ('fields', MOST_FIELDS, fields),
                                  ('enum values', MOST_VALUES, values)):
            if len(found) > most:
                source, path, who = found[most]
                self.refuse_named(source, path, f"{who}: {len(found):,} {what} can't be held ({most:,} at most)")

    def name_bytes(self, with_names):
        """The sum of all names, told at the first name that has no room."""
        types = self.types
        named = [(message.source, path, 'field', field.name, 0) for message, field, path in types.fields()]
        named += [(enum.source, path, 'value', value.name, 0) for enum, value, path in types.values()]
        if with_names:
            # A zero byte stands before each.
            named += [(one.source, one.path, 'message', one.name, 1) for one in types.messages]
            named += [(one.source, one.path, 'enum', one.name, 1) for one in types.enums]
        total = sum(len(name) + more for *_, name, more in named)
        if total <= MOST_NAME_BYTES:
            return
        so_far = 0
        for source, path, what, name, more in named:
            so_far += len(name) + more
            if so_far > MOST_NAME_BYTES:
                self.refuse_named(source, path, f"{what} {name}: {total:,} name bytes can't be held ({MOST_NAME_BYTES:,} at most)")
                return

    def same_names(self):
        """Names without the package must tell types apart once they are put into the image."""
        for what, found in ('message', self.types.messages), ('enum', self.types.enums):
            first = {}
            for one in found:
                other = first.setdefault(one.name, one)
                if other is not one:
                    self.refuse_named(one.source, one.path, f"{what} {one.name}: a second one of this name can't be held"
                                      f' ({one.full[1:]} and {other.full[1:]} differ in the package only)')


def is_implicit(source, field):
    """proto3 singular numbers, strings and enums that don't know whether they are set."""
    return (source.proto.syntax == 'proto3' and field.label != FieldProto.LABEL_REPEATED and field.type != FieldProto.TYPE_MESSAGE
            and not field.HasField('oneof_index'))


def refusals(types, with_names):
    return Finder(types).all(with_names)
