"""A schema as lines: those that tools/oracle's `listing` tells of the Rust crate's descriptors."""
from packing import ENUM, MESSAGE

LABELS = ['optional', 'required', 'repeated', 'map']
TYPES = ['-', 'int32', 'int64', 'uint32', 'uint64', 'bool', 'string', 'bytes', 'enum', 'message']


def lines_of(schema):
    """Messages with their fields, then enums with their values. The schema has the names of both."""
    lines = []
    for name, fields in zip(schema.message_names, schema.messages):
        lines.append(f'message {name}')
        lines += [field_line(field, schema) for field in fields]
    for name, values in zip(schema.enum_names, schema.enums):
        lines.append(f'enum {name}')
        lines += [f'value {value.name} {value.number}' for value in values]
    return lines


def field_line(field, schema):
    names = {ENUM: schema.enum_names, MESSAGE: schema.message_names}.get(field.type)
    refers = names[field.reference] if names else '-'
    return f'field {field.name} {field.number} {LABELS[field.label]} {TYPES[field.key_type]} {TYPES[field.type]} {refers}'
