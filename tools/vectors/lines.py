"""Request files: lines of the line protocol, and what is known beforehand of their answers.

What is known is written down by hand or computed here, apart from the model, and compared with the model's answers when
those are made. It is the first words of an answer; `*` stands for a word that isn't known.
"""


def raw(text):
    """Bytes of a text; in a str each character is one byte."""
    return text if isinstance(text, bytes) else text.encode('latin-1')


def hexed(data):
    return raw(data).hex() or '-'


def words_hexed(words):
    return ''.join(f'{word:08x}' for word in words) or '-'


# Refusals that stand at a byte of the text or at its end; the others have a number, line 0 and column 0.
PLACED = range(4, 13)


def line_and_column(text, at):
    """Of the byte at this offset: a newline ends a line, each byte takes a column."""
    before = raw(text)[:at]
    return 1 + before.count(b'\n'), 1 + len(before.rpartition(b'\n')[2])


def placed(known, text):
    """A refusal's number, offset, line and column. Known: `NUMBER OFFSET`, or with ` LINE:COLUMN` where that is stated."""
    number, at, *stated = known.split(' ')
    line, column = line_and_column(text, int(at)) if int(number) in PLACED else (0, 0)
    assert stated in ([], [f'{line}:{column}']), (text, known)
    return f'{number} {at} {line} {column}'


class Requests:
    """One request file. A state line is written only where it changes something."""

    def __init__(self):
        self.lines = []
        self.known = []
        self.state = {}

    def rule(self, words):
        self.lines.append('# ' + words)

    def set(self, letter, value):
        if self.state.get(letter) != value:
            self.state[letter] = value
            self.lines.append(f'{letter} {value}')

    def schema(self, image):
        self.set('S', hexed(image))

    def older(self, image):
        self.set('O', hexed(image))

    def root(self, index):
        self.set('R', str(index))

    def ask(self, line, known=None):
        self.lines.append(line)
        self.known.append((len(self.lines), known))

    def text(self, text, known=None, words=250, room=100):
        """A read. Known: `read`, or the answer's words after T, or the refusal as `placed` takes it."""
        told = known
        if known == 'read':
            told = 'T 0 0'
        elif known is not None:
            told = 'T ' + (known if known.startswith('0 ') else placed(known, text))
        self.ask(f'T {words} {room} {hexed(text)}', told)
        # A read that succeeds replaces table and pool.
        self.state.pop('N', None)
        self.state.pop('P', None)

    def table(self, words, pool=b''):
        self.set('N', words_hexed(words))
        self.set('P', hexed(pool))

    def print(self, letter, room, known=None):
        """A print. Known: the printed text, or the refusal and the number that goes with it as a tuple."""
        told = None
        if isinstance(known, tuple):
            told = f'{letter} {known[0]} {known[1]} 0 0'
        elif known is not None:
            told = f'{letter} 0 0 {len(known)} {hexed(known)}'
        self.ask(f'{letter} {room}', told)

    def compact(self, known=None, room=300):
        self.print('C', room, known)

    def pretty(self, known=None, room=300):
        self.print('Y', room, known)

    def required(self, known=None):
        """The required check. Known: 0, or the refusal's number."""
        told = {None: None, 0: 'Q 0 0'}.get(known, f'Q {known} 0 0 0')
        self.ask('Q', told)

    def access(self, node, known=None):
        """Access. Known: the bytes, or the refusal's number."""
        told = None
        if isinstance(known, int):
            told = f'A {known} 0 0 0'
        elif known is not None:
            told = f'A 0 0 {hexed(known)}'
        self.ask(f'A {node}', told)

    def carry(self, style, room, words, size, known=None):
        """A carry: style 0 compact or 1 pretty, bytes of the buffer, words and bytes lent. Known: the answer."""
        self.ask(f'X {style} {room} {words} {size}', known)

    def whole(self):
        return '\n'.join(self.lines) + '\n'
