"""What `show` is to tell of a schema, from the schema as tools/schema reads it."""
import hints
from listing import LABELS, TYPES
from packing import ENUM, MAP, MESSAGE


def type_of(field, titles):
    return titles[field.type][field.reference] if field.type in titles else TYPES[field.type]


def field_line(field, titles):
    what = type_of(field, titles)
    label = f'map<{TYPES[field.key_type]}, {what}>' if field.label == MAP else f'{LABELS[field.label]} {what}'
    return f'  {label} {field.name} = {field.number};'


def wanted(image):
    schema = hints.checker.schema_of(image)
    titles = {MESSAGE: schema.message_names or [f'Message{i}' for i in range(len(schema.messages))],
              ENUM: schema.enum_names or [f'Enum{i}' for i in range(len(schema.enums))]}
    lines = ['syntax = "proto2";']
    for i, fields in enumerate(schema.messages):
        lines += ['', f'message {titles[MESSAGE][i]} {{  // message {i}', *[field_line(field, titles) for field in fields], '}']
    for i, values in enumerate(schema.enums):
        lines += ['', f'enum {titles[ENUM][i]} {{', *[f'  {value.name} = {value.number};' for value in values], '}']
    return '\n'.join(lines) + '\n'


def faults(call, answer, verdict, files):
    """A name that doesn't fit on the line of its type stands on the next one, further in."""
    schema, = call.files
    try:
        right = wanted(files[schema]), 0
    except hints.checker.BadImage:
        right = f"{schema}: this isn't a schema (refusal 1)\n", 1
    return [] if (answer.decode().replace('\n      ', ' '), verdict) == right else ['the schema has something else']
