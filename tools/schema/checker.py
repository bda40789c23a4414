"""The check of a schema image, rule by rule from document 01's "Schema image", and the schema that it holds.

`schema_of(image)` gives the schema, or raises `BadImage` with the first rule that is broken.
"""
import collections
import re

from packing import ENUM, FIELD_BITS, HEADER_BITS, I32, MAP, MESSAGE, SPAN_BITS, STRING, VALUE_BITS

# Messages are lists of fields, enums lists of values. The names of messages and enums are None where the image doesn't end with them.
Schema = collections.namedtuple('Schema', 'messages enums message_names enum_names')
Field = collections.namedtuple('Field', 'name number label key_type type reference')
Value = collections.namedtuple('Value', 'name number')

FORM = 1
NAME = re.compile(rb'[A-Za-z_][A-Za-z0-9_]*')
TYPE_NAME = re.compile(rb'[A-Za-z_][A-Za-z0-9_]*(\.[A-Za-z_][A-Za-z0-9_]*)*')


class BadImage(Exception):
    """The bytes are no schema image; the words say which rule they break."""


def demand(holds, words):
    if not holds:
        raise BadImage(words)


class Bits:
    """Fields of bits, most significant first."""

    def __init__(self, data):
        self.data, self.at = data, 0

    def take(self, width):
        first, last = self.at // 8, (self.at + width + 7) // 8
        value = int.from_bytes(self.data[first:last], 'big') >> 8 * last - self.at - width
        self.at += width
        return value % (1 << width)

    def record(self, widths):
        return [self.take(width) for width in widths]


def schema_of(image):
    demand(len(image) * 8 >= sum(HEADER_BITS), 'shorter than the header')
    bits = Bits(image)
    form, messages, fields, enums, values, name_bytes, zero = bits.record(HEADER_BITS)
    demand(form == FORM, f'form {form}, not {FORM}')
    demand(zero == 0, 'zero bits of the header are set')
    demand(messages >= 1, 'no message')
    record_bits = sum(HEADER_BITS) + (messages + enums) * sum(SPAN_BITS) + fields * sum(FIELD_BITS) + values * sum(VALUE_BITS)
    length = record_bits // 8 + name_bytes
    demand(len(image) == length, f'{len(image)} bytes, where the header counts {length}')
    names = image[record_bits // 8:]
    message_spans = spans(bits, 'message', messages, fields)
    field_table = [field(bits, f'field {index}', names, messages, enums) for index in range(fields)]
    enum_spans = spans(bits, 'enum', enums, values)
    value_table = [value(bits, f'enum value {index}', names) for index in range(values)]
    schema = Schema([field_table[span] for span in message_spans], [value_table[span] for span in enum_spans],
                    *names_at_end(names, messages, enums))
    own_rules(schema)
    return schema


def spans(bits, what, records, table):
    """First and count of each message or enum: the firsts are running totals, and use up the whole table."""
    total, found = 0, []
    for index in range(records):
        first, count = bits.record(SPAN_BITS)
        demand(first == total, f'{what} {index} begins at {first}, not at the running total {total}')
        total += count
        found.append(slice(first, total))
    demand(total == table, f'the {what} records count {total} of the {table} in their table')
    return found


def name_of(who, names, start, length):
    """A name lies inside the name bytes and is a letter or `_`, then letters, digits, `_`."""
    demand(start + length <= len(names), f'{who}: its name lies outside the name bytes')
    name = names[start:start + length]
    demand(NAME.fullmatch(name), f'{who}: its name is no name')
    return name.decode('ascii')


def field(bits, who, names, messages, enums):
    start, length, number, label, key_type, kind, reference, zero = bits.record(FIELD_BITS)
    name = name_of(who, names, start, length)
    demand(number >= 1, f'{who}: its number is 0')
    demand(I32 <= key_type <= STRING if label == MAP else key_type == 0, f'{who}: its key type is {key_type}')
    demand(I32 <= kind <= MESSAGE, f'{who}: its type is {kind}')
    most = {ENUM: enums, MESSAGE: messages}.get(kind, 1)
    demand(reference < most, f'{who}: its reference {reference} is to nothing')
    demand(zero == 0, f'{who}: zero bits are set')
    return Field(name, number, label, key_type, kind, reference)


def value(bits, who, names):
    start, length, number, zero = bits.record(VALUE_BITS)
    name = name_of(who, names, start, length)
    demand(zero == 0, f'{who}: zero bits are set')
    return Value(name, number - (1 << 32) if number >> 31 else number)


def own_rules(schema):
    """Names and numbers are distinct within a message and within an enum; an enum has at least one value."""
    for what, lists in ('message', schema.messages), ('enum', schema.enums):
        for index, own in enumerate(lists):
            for part in 'name', 'number':
                parts = [getattr(record, part) for record in own]
                demand(len(set(parts)) == len(parts), f'{what} {index}: a {part} stands twice')
    for index, own in enumerate(schema.enums):
        demand(own, f'enum {index} has no value')


def names_at_end(names, messages, enums):
    """Names of messages and of enums, each after one zero byte, at the end of the name bytes; or None, None.

    No record's name has a zero byte in it, so the names are there exactly if there are as many zero bytes as types.
    """
    found = names.split(b'\0')[1:]
    if len(found) != messages + enums or not all(TYPE_NAME.fullmatch(name) for name in found):
        return None, None
    found = [name.decode('ascii') for name in found]
    return found[:messages], found[messages:]
