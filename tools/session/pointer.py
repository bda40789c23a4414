"""The line that a refusal shows, and the carets under the word: found again in the text by another way than the program's."""
import re

# What a reader takes for the word at a place: a name, a number with what runs on, a text in quotes as far as it goes on its line, a run
# of bytes over 127, or one character.
WORD = re.compile(rb'[A-Za-z_]\w*|[0-9][\w.]*|"(?:[^"\\\n\0]|\\[^\n\0])*"?|\'(?:[^\'\\\n\0]|\\[^\n\0])*\'?|[\x80-\xff]+|[^\n]', re.ASCII)


def is_utf8(data):
    try:
        return data.decode() is not None
    except UnicodeDecodeError:
        return False


def spelled(data, is_letters):
    """Bytes as the screen shows them: as letters, or with a question mark for each byte that isn't ASCII."""
    letters = data.decode(errors='replace') if is_letters else data.decode('ascii', errors='replace')
    return ''.join('?' if (ord(c) < 32 and c != '\t') or c in '\x7f\ufffd' else c for c in letters)


def faults(lines, text, offset):
    """What is wrong with the first two lines, which are to show the line of an offset of a text, and carets under its word. Of a long
    line a part is shown, which may be UTF-8 where the whole isn't."""
    first = text.rfind(b'\n', 0, offset) + 1
    end = text.find(b'\n', offset)
    row = text[first:end if end >= 0 else len(text)].removesuffix(b'\r')
    found = WORD.match(text, offset)
    word = found[0].removesuffix(b'\r') if found and offset < first + len(row) else b''
    shown, carets = lines[0].decode()[2:], lines[1].decode()
    if not re.fullmatch(r'  [ \t]*\^[\^\t]*', carets):
        return ['no carets']
    is_cut = shown.startswith('..') and not row.startswith(b'..'), shown.endswith('..') and not row.endswith(b'..')
    manners = [is_utf8(row)] if is_cut == (False, False) else [True, False]
    found = [manner_faults(shown, carets[2:], is_cut, *[spelled(part, manner) for part in (row, row[:offset - first], word)])
             for manner in manners]
    return min(found, key=len)


def manner_faults(shown, carets, is_cut, row, before, word):
    """The same, where line, what stands before the word, and the word are spelled in one manner."""
    said, at = [], carets.find('^')
    marks = len(carets) - at
    last = len(shown) - 2 * is_cut[1]
    body = shown[2 * is_cut[0]:last]
    if body != row if is_cut == (False, False) else body not in row:
        said.append('another line is shown')
    if re.sub('[^\t]', ' ', shown[:len(carets)]).ljust(len(carets)) != carets.replace('^', ' '):
        said.append('the line and the carets differ in their tabs')
    if shown[at:at + marks].ljust(marks, '.') != (word[:last - at] if is_cut[1] else word).ljust(1, '.'):
        said.append(f'the carets are not under {word[:40]!r}')
    if not is_cut[0] and at != len(before) or is_cut[0] and not before.endswith(shown[2:at]):
        said.append('another place is pointed at')
    return said
