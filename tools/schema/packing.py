"""The one maker of schema images: records as numbers, packed by document 01's "Schema image"."""
import copy

OPTIONAL, REQUIRED, REPEATED, MAP = range(4)
I32, I64, U32, U64, BOOL, STRING, BYTES, ENUM, MESSAGE = range(1, 10)

HEADER_BITS = [4, 8, 12, 8, 12, 16, 4]
SPAN_BITS = [12, 12]
FIELD_BITS = [16, 6, 29, 2, 4, 4, 8, 3]
VALUE_BITS = [16, 6, 32, 2]

# Places in a field record.
START, LENGTH, NUMBER, LABEL, KEY_TYPE, TYPE, REFERENCE, ZERO = range(8)


class Image:
    """Records as plain numbers, so that any one of them can be spoilt."""

    def __init__(self, messages, enums=()):
        """A message is a list of (name, number, label, key type, type, reference); an enum of (name, number)."""
        self.header = [1, 0, 0, 0, 0, 0, 0]
        self.messages, self.fields, self.enums, self.values = [], [], [], []
        self.names = b''
        for own in messages:
            self.messages.append([len(self.fields), len(own)])
            for name, *rest in own:
                self.fields.append([*self.name(name), *rest, 0])
        for own in enums:
            self.enums.append([len(self.values), len(own)])
            for name, number in own:
                self.values.append([*self.name(name), number, 0])
        self.count()

    def name(self, name):
        start = len(self.names)
        self.names += name.encode('latin-1')
        return start, len(name)

    def count(self):
        """The header's counts as they are."""
        tables = [self.messages, self.fields, self.enums, self.values, self.names]
        self.header[1:6] = [len(table) for table in tables]

    def bytes(self):
        records = [(self.header, HEADER_BITS)]
        records += [(record, SPAN_BITS) for record in self.messages]
        records += [(record, FIELD_BITS) for record in self.fields]
        records += [(record, SPAN_BITS) for record in self.enums]
        records += [(record, VALUE_BITS) for record in self.values]
        bits = ''
        for record, widths in records:
            for value, width in zip(record, widths):
                bits += f'{value % (1 << width):0{width}b}'
        return int(bits, 2).to_bytes(len(bits) // 8, 'big') + self.names

    def spoilt(self, spoil):
        """A copy with one thing changed; counts stay unless the change counts anew."""
        other = copy.deepcopy(self)
        spoil(other)
        return other
