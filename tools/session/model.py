"""What the model (tools/model) answers: the second reading of the rules that the session's answers are held to."""
import pathlib
import subprocess

PROGRAM = pathlib.Path(__file__).resolve().parents[1] / 'model' / 'target' / 'release' / 'model'

MOST_NODES = 65535
MOST_BYTES = 1048576
SHOWN = 1572864
ENOUGH = 8000000


class Refused(Exception):
    """A refusal: its number, the number that goes with it, line and column."""

    def __init__(self, number, at=0, line=0, column=0):
        super().__init__(number)
        self.number, self.at, self.line, self.column = number, at, line, column


def ask(lines):
    got = subprocess.run([PROGRAM], input='\n'.join(lines) + '\n', capture_output=True, text=True, check=True)
    return [line.split() for line in got.stdout.splitlines()]


def hexed(data):
    return data.hex() or '-'


def room(values):
    """The words of a logger that has room for so many values; the text itself takes one."""
    return 5 * (min(values, MOST_NODES - 1) + 1)


def refusal_in(answer):
    if answer[1] != '0':
        raise Refused(*[int(word) for word in answer[1:5]])


def asked(image, root, text, values=MOST_NODES, size=MOST_BYTES, *requests):
    """The answers to requests about a text that is read; raises where reading refuses."""
    lines = [f'S {hexed(image)}', f'R {root}', f'T {room(values)} {min(size, MOST_BYTES)} {hexed(text)}', *requests]
    first, *rest = ask(lines)
    refusal_in(first)
    return rest


def accepted(image):
    """Raises refusal 1 where the image is no schema: every schema takes the empty text."""
    asked(image, 0, b'')


def shown(image, root, text, style='Y', most=SHOWN):
    """What is printed of a text: compact where the style is C, pretty where it is Y."""
    answer, = asked(image, root, text, MOST_NODES, MOST_BYTES, f'{style} {most}')
    refusal_in(answer)
    return b'' if answer[4] == '-' else bytes.fromhex(answer[4])


def required(image, root, text):
    answer, = asked(image, root, text, MOST_NODES, MOST_BYTES, 'Q')
    refusal_in(answer)


def count(image, root, text):
    """How many values are live: the lines of a pretty print that have one, less the keys of entries. No schema here has a field `key`."""
    lines = [line.strip() for line in shown(image, root, text, 'Y', ENOUGH).split(b'\n')]
    return sum(1 for line in lines if line not in (b'', b'}') and not line.endswith(b' {') and not line.startswith(b'key: '))
