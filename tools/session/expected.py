"""What refusal 5 says was expected, told again from the words before its place. It knows the types of the session's names by heart, so
it judges texts of the schema `kinds` alone."""
import re
import pointer

NUMBER, NATURAL, QUOTES, VALUE = 'a whole number', 'a number from 0 up', 'text in quotes', "a value's name"
TYPES = {'i': NUMBER, 'l': NUMBER, 'many': NUMBER, 'u': NATURAL, 'w': NATURAL, 's': QUOTES, 'y': QUOTES, 'e': VALUE, 'due': NATURAL,
         'paid': QUOTES, 'x': NATURAL}
LONG = ('a_name_of_', 'another_name_of_')
ENTRIES = {'limits': {'key': QUOTES, 'value': NATURAL}, 'levels': {'key': NUMBER, 'value': VALUE}, 'deep': {'key': NATURAL}}
SKIP = re.compile(rb'(?:[ \t\n\r\v\f]|#[^\n]*(?:\n|$))*')


def words_before(text, offset):
    """The words of a text up to an offset, which are good ones."""
    found, at = [], SKIP.match(text).end()
    while at < offset:
        word = pointer.WORD.match(text, at)
        found.append(word[0].decode('latin-1'))
        at = SKIP.match(text, word.end()).end()
    return found


def is_name(words, at):
    return at >= 0 and re.match(r'[A-Za-z_]', words[at]) and (at == 0 or words[at - 1] != ':')


def wanted(text, offset):
    """The thing that is expected at an offset, where a good text goes on."""
    words, holders = words_before(text, offset), []
    for at, word in enumerate(words):
        if word in '{<':
            holders.append(words[at - 1])
        elif word in '}>':
            holders.pop()
    types = TYPES | (ENTRIES.get(holders[-1], {}) if holders else {})
    if words and words[-1] == '-':
        return NUMBER
    if words and words[-1] == ':':
        return types.get(words[-2], VALUE)
    if words and is_name(words, len(words) - 1):
        return 'a colon' if words[-1] in types or words[-1] == 'b' or words[-1].startswith(LONG) else '{'
    return 'a name or its closer' if holders else "a field's name"


def faults(sentence, text, offset):
    due = wanted(text, offset)
    return [] if f': {due} is expected, ' in sentence else [f'expected: {due}']
