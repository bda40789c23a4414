"""protoc's descriptors of a file and of what it imports, as the messages and enums that an image numbers."""
import collections
import sys

try:
    from google.protobuf import descriptor_pb2
except ImportError:
    print('google.protobuf is needed (Debian: python3-protobuf)', file=sys.stderr)
    sys.exit(2)

FieldProto = descriptor_pb2.FieldDescriptorProto

# Field numbers in descriptor.proto: the paths of source_code_info are made of them.
FILE_MESSAGES, FILE_ENUMS, FILE_SERVICES, FILE_EXTENSIONS, FILE_SYNTAX = 4, 5, 6, 7, 12
FIELDS, NESTED, ENUMS, RANGES, EXTENSIONS, ONEOFS = 2, 3, 4, 5, 6, 8
VALUES = 2
NAME = 1

# A message or enum: its descriptor, its name without the package, its full name, its file, its path in the file.
Type = collections.namedtuple('Type', 'proto name full source path')


class Source:
    """A file, and where things begin in it."""

    def __init__(self, proto):
        self.proto = proto
        self.starts = {}
        for location in proto.source_code_info.location:
            line, column, *_ = location.span
            self.starts.setdefault(tuple(location.path), (line + 1, column + 1))

    def start(self, path):
        return self.starts.get(path, (1, 1))

    def name_start(self, path):
        """Where the name stands of what has this path. A refusal tells this line, since it tells this name."""
        return self.starts.get(path + (NAME,), self.start(path))


def sources_of(files, name):
    """The file of this name, then what it imports, in the order of its import lines; each file once."""
    by_name = {file.name: file for file in files}
    order = {}

    def visit(name):
        if name not in order:
            order[name] = Source(by_name[name])
            for imported in by_name[name].dependency:
                visit(imported)
    visit(name)
    return list(order.values())


class Types:
    """All messages and enums in the image's order; map entries apart."""

    def __init__(self, files, name):
        self.sources = sources_of(files, name)
        self.messages, self.enums, self.entries = [], [], {}
        for source in self.sources:
            self.add_file(source)
        self.message_index = {one.full: index for index, one in enumerate(self.messages)}
        self.enum_index = {one.full: index for index, one in enumerate(self.enums)}

    def add_file(self, source):
        """A file's messages and enums, each in the order in which they begin: a message comes before what is nested in it."""
        file = source.proto
        scope = f'.{file.package}.' if file.package else '.'
        messages, enums = [], []

        def add_enums(protos, path, prefix):
            for index, proto in enumerate(protos):
                name = prefix + proto.name
                enums.append(Type(proto, name, scope + name, source, path + (index,)))

        def add_messages(protos, path, prefix):
            for index, proto in enumerate(protos):
                name, own = prefix + proto.name, path + (index,)
                if proto.options.map_entry:
                    self.entries[scope + name] = proto
                    continue
                messages.append(Type(proto, name, scope + name, source, own))
                add_enums(proto.enum_type, own + (ENUMS,), name + '.')
                add_messages(proto.nested_type, own + (NESTED,), name + '.')

        add_enums(file.enum_type, (FILE_ENUMS,), '')
        add_messages(file.message_type, (FILE_MESSAGES,), '')
        for found, all_found in (messages, self.messages), (enums, self.enums):
            all_found += sorted(found, key=lambda one: source.start(one.path))

    def entry(self, field):
        """The entry type of a map field, or None."""
        return self.entries.get(field.type_name)

    def fields(self):
        """Each field with its message and its path, in the image's order."""
        for message in self.messages:
            for index, field in enumerate(message.proto.field):
                yield message, field, message.path + (FIELDS, index)

    def values(self):
        """Each enum value with its enum and its path, in the image's order."""
        for enum in self.enums:
            for index, value in enumerate(enum.proto.value):
                yield enum, value, enum.path + (VALUES, index)
