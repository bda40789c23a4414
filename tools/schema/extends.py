"""Whether a schema extends an older one by document 01's "Extending", and if not, each rule that it breaks."""
from packing import ENUM, MAP, MESSAGE

LABELS = ['optional', 'required', 'repeated', 'a map']
TYPES = ['none', 'int32', 'int64', 'uint32', 'uint64', 'bool', 'string', 'bytes', 'enum', 'message']


def breaks(old, new):
    """Each broken rule in words; none if the newer schema extends the older one."""
    told = []
    for index, fields in enumerate(old.messages):
        who = called('message', index, old.message_names, new.message_names)
        if index < len(new.messages):
            told += [f'{who}: {words}' for words in message_breaks(fields, new.messages[index], old, new)]
        else:
            told.append(f'{who} is gone')
    for index, values in enumerate(old.enums):
        who = called('enum', index, old.enum_names, new.enum_names)
        if index < len(new.enums):
            told += [f'{who}: {words}' for words in enum_breaks(values, new.enums[index])]
        else:
            told.append(f'{who} is gone')
    return told


def called(what, index, old_names, new_names):
    """A message or enum by its index, with its name, and its older name if that is known and another."""
    old = old_names[index] if old_names and index < len(old_names) else None
    new = new_names[index] if new_names and index < len(new_names) else None
    if old and new and old != new:
        return f'{what} {index} ({new}, was {old})'
    return f'{what} {index} ({new or old})' if new or old else f'{what} {index}'


def message_breaks(older, newer, old, new):
    """Each older field is there, the same, and in the same relative order."""
    places = {field.name: place for place, field in enumerate(newer)}
    told = []
    for field in older:
        if field.name in places:
            told += field_breaks(field, newer[places[field.name]], old, new)
        else:
            told.append(f'field {field.name} is gone{renamed(field, newer)}')
    kept = [field.name for field in older if field.name in places]
    for before, after in zip(kept, kept[1:]):
        if places[before] > places[after]:
            told.append(f'field {before} stands after {after}, stood before it')
    return told


def renamed(record, newer):
    """What has the number of a name that is gone: it may have been renamed."""
    others = [other.name for other in newer if other.number == record.number]
    return f' (number {record.number} is {others[0]})' if others else ''


def field_breaks(was, now, old, new):
    who = f'field {was.name}'
    told = []
    if now.number != was.number:
        told.append(f'{who} has number {now.number}, was {was.number}')
    if now.label != was.label:
        told.append(f'{who} is {LABELS[now.label]}, was {LABELS[was.label]}')
    elif now.label == MAP and now.key_type != was.key_type:
        told.append(f'{who} has key type {TYPES[now.key_type]}, was {TYPES[was.key_type]}')
    if now.type != was.type:
        told.append(f'{who} has type {TYPES[now.type]}, was {TYPES[was.type]}')
    elif now.reference != was.reference:
        told.append(f'{who} refers to {referred(now, new)}, was {referred(was, old)}')
    return told


def referred(field, schema):
    what, names = {ENUM: ('enum', schema.enum_names), MESSAGE: ('message', schema.message_names)}[field.type]
    return called(what, field.reference, None, names)


def enum_breaks(older, newer):
    """Each older value is there with its number; their order is free."""
    numbers = {value.name: value.number for value in newer}
    told = []
    for value in older:
        if value.name not in numbers:
            told.append(f'value {value.name} is gone{renamed(value, newer)}')
        elif numbers[value.name] != value.number:
            told.append(f'value {value.name} has number {numbers[value.name]}, was {value.number}')
    return told
