"""A schema image as a C header, for C11 and C++."""
import os
import re

from refusals import Refusal

BYTES_A_LINE = 16


def c_name(text):
    """Letters, digits and `_` of a file's name. C keeps names that begin with `_` for itself."""
    name = re.sub(r'[^A-Za-z0-9_]', '_', text)
    return name if re.match('[A-Za-z]', name) else 'ventro_' + name.lstrip('_')


def capitals(type_name):
    """`Settings.ValveMode` is SETTINGS_VALVE_MODE."""
    return re.sub(r'(?<=[a-z0-9])(?=[A-Z])', '_', type_name).replace('.', '_').upper()


class Header:
    """The header of one file: its names, then its text."""

    def __init__(self, file_name, message_names):
        stem = os.path.splitext(file_name)[0]
        self.file_name = file_name
        self.path = stem + '.ventro.h'
        base = c_name(os.path.basename(stem))
        # The path is in the guard: files of one name may stand in several folders.
        self.guard = c_name(stem).upper() + '_VENTRO_H'
        self.array = base + '_schema'
        self.length = base.upper() + '_SCHEMA_LENGTH'
        self.numbers = [f'{base.upper()}_{capitals(name)}' for name in message_names]

    def clashes(self, messages):
        """Messages whose C names are taken: told by the line of the later one."""
        taken = {self.guard: 'the include guard', self.array: 'the array', self.length: 'the length'}
        found = []
        for message, number in zip(messages, self.numbers):
            # With the package: messages of two files may differ in that alone.
            own = f'message {message.full[1:]}'
            other = taken.setdefault(number, own)
            if other != own:
                line, _ = message.source.name_start(message.path)
                found.append(Refusal(message.source.proto.name, line, f"message {message.name}: can't be named in C ({number} is {other})"))
        return found

    def text(self, image):
        rows = [image[at:at + BYTES_A_LINE] for at in range(0, len(image), BYTES_A_LINE)]
        numbers = [f'    {name} = {index}' for index, name in enumerate(self.numbers)]
        return '\n'.join([
            f'/* Made from {os.path.basename(self.file_name)} by protoc-gen-ventro: its schema image. */',
            f'#ifndef {self.guard}',
            f'#define {self.guard}',
            '',
            '/* Message numbers, by which a root is chosen. */',
            'enum {',
            ',\n'.join(numbers),
            '};',
            '',
            f'#define {self.length} {len(image)}',
            '',
            f'static const unsigned char {self.array}[] = {{',
            ',\n'.join('    ' + ', '.join(f'0x{byte:02x}' for byte in row) for row in rows),
            '};',
            '',
            '#endif',
            ''])
