"""What can be told of a compact print by itself: the pretty print of the same, and the nodes and pool that reading it makes.

An `@` in it is a mark before some letter, and is carried along.
"""
import re

STRING = re.compile(r'"((?:\\.|[^"\\])*)"')
LETTERS = {'n': 10, 'r': 13, 't': 9}


def decoded(inside):
    """The bytes of a printed string, from between its quotes."""
    def byte(match):
        digits = match[1]
        return chr(int(digits, 8) if len(digits) == 3 else LETTERS.get(digits, ord(digits)))
    return re.sub(r'\\([0-7]{3}|.)', byte, inside).encode('latin-1')


def pool_of(text):
    return b''.join(decoded(inside) for inside in STRING.findall(text))


def pretty_of(text):
    """Each field on a line, each closer on one of its own."""
    strings = iter(STRING.findall(text))
    lines, level = [], 0
    for piece in re.findall(r'{|@?}|(?:[^{}@]|@(?!}))+', STRING.sub('"', text)):
        if piece == '{':
            lines[-1] += piece
            level += 1
        elif piece.endswith('}'):
            level -= 1
            lines.append('  ' * level + piece)
        else:
            # Spaces part fields, but not after a colon, and not before an opener.
            fields = re.split(r'(?<!:) (?!$)', piece.removeprefix(' '))
            lines += ['  ' * level + field for field in fields]
    whole = ''.join(line + '\n' for line in lines)
    return re.sub('"', lambda _: f'"{next(strings)}"', whole)


def nodes_of(text):
    """The root, and one for each line but the closers'."""
    return 1 + sum(line.strip(' @') != '}' for line in pretty_of(text).splitlines())
