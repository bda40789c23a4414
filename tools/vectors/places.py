"""places.txt: line and column of each refusal 4 to 12, and refusals that have none.

A text has `@` before the refused byte, or at its end. Where the readings of document 02 give line and column they are stated.
"""
import carries
from carry import COMPACT, PRETTY, SHOWN, Carrier
from images import *
from lines import Requests, line_and_column
from trees import *

# Two bytes, a letter.
E_ACUTE = '\xc3\xa9'

# Under schema X: text, number, offset, line and column.
READINGS = {
    '1.1 what ends a line': [
        ('i: 1\rnope', '6 5 1:6'), ('i: 1\r\nnope', '6 6 2:1'), ('i: 1\n\rnope', '6 6 2:2'), ('i: 1\vnope', '6 5 1:6'),
        ('i: 1\fnope', '6 5 1:6'), ('i: 1\n\nnope', '6 6 3:1')],
    '1.2 columns': [
        (f"s: '{E_ACUTE}' nope", '6 8 1:9'), ("s: '\xe2\x82\xac' nope", '6 9 1:10'), ("s: '\xf0\x9f\x8c\xb1' nope", '6 10 1:11'),
        ("y: '\xff\r\t' nope", '6 9 1:10'), ('\ti:\t1\tnope', '6 6 1:7')],
    '1.3 end of text': [
        ('i:\n', '5 3 2:1'), ('m { # c', '5 7 1:8'), ('b:\n\t', '10 4 2:2'), ('i:', '5 2 1:3'), ('m { # c\n', '5 8 2:1')],
    '1.4 newlines passed over': [
        ("s: 'a\nb' nope", '4 3 1:4'), ("\ns: 'a\\\nb' nope", '4 4 2:4'), ('#\n#\ni#\n:#\n1#\nnope', '6 13 6:1')],
    '1.5 whose line and column': [
        ('i: -\n 2147483649', '9 6 2:2'), ("si {\nkey: 'a'\nkey", '8 14 3:1'), ("s:\n 'a\\q'", '11 4 2:2')],
}
# Under schema N.
OF_DEPTH = [('m {' * 31 + '\nmm {\n}', '12 99 3:1'), ('m {' * 32 + '\nm\n\n{', '12 100 4:1')]

# A text for each refusal, as tokens.
FAULTS = [
    (4, ['i', ':', '@08']), (4, ['m', '{', "@'a"]), (5, ['i', '@7']), (5, ['m', '<', '@}']), (5, ['e', ':', '@-', '1']),
    (6, ['@nope', ':']), (6, ['si', '{', '@other']), (7, ['e', ':', '@LOW']), (8, ['si', '{', 'key', ':', "'a'", '@key']),
    (8, ['ie', '{', 'value', ':', 'ON', '@value']), (9, ['i', ':', '-', '@2147483649']), (9, ['u', ':', '@0x100000000']),
    (10, ['b', ':', '@True']), (11, ['s', ':', "@'\\q'"]), (11, ['si', '{', 'key', ':', '@"\xff"']),
    (12, ['m', '{'] * 32 + ['m', '@<']), (12, ['m', '{'] * 31 + ['mm', '{', '@}']),
]
BETWEEN = [' ', '\t', '\n', '\r', '\v', '\f', '\r\n', '\n\r', '\n\n', '# c\n', f'#{E_ACUTE}\r\n', '#\n\t']

# One of each refusal, and what may stand before it.
ONE_EACH = {4: '@(', 5: 'i: @}', 6: '@nope', 7: 'e: @nope', 8: 'vs{key:0 @key', 9: 'i: @2147483648', 10: 'b: @0', 11: "s: @'\\8'",
            12: 'm{' * 32 + 'm@{'}
BEFORE = [
    '', ' ', ' ' * 300, '\n', '\n' * 300, '\t', '\r', '\v', '\f', '\r\n\r\n', '# c\n', '# c\n\n# d\n', f'# {E_ACUTE}\n', '#\r\n ',
    'i: 1 ', 'i: 1\n', 'm {\n  i: 1\n}\n', f"s: '{E_ACUTE}' ", f"s: '{E_ACUTE}'\n", "s: '\\n' ", f"s: '{E_ACUTE}' # {E_ACUTE}\n",
    "y: '\t\r\v\f' "]

# Texts that end too soon, and what may follow.
UNFINISHED = [(5, 'i'), (5, 'i:'), (5, 'l: -'), (5, 'm {'), (5, 'si {key:'), (10, 'b:'), (10, f"s: '{E_ACUTE}' b:")]
TAILS = ['', ' ', '\t\t', '\n', '\n\n', '\r', '\r\n', '\v\f', ' # c', '#', '# c\n', f'# {E_ACUTE}', '\n # c\n  ', '\n' * 300]

BAD_TOKENS = [
    '08', '018', '0x', '0Xg', '1a', '1_', '1.', '1e5', "'a", '"a', "'a\nb'", "'a\\\nb'", "'a\0b'", "'a\\", '(', '.5', '/', '=', '\0',
    '\x01', '\x7f', '\x80', E_ACUTE, '\xef\xbb\xbf']

SETTINGS = ['i: -5', f"s: '{E_ACUTE}'  y: '\\n'", '', 'm {', '  b: true', '  si {', "    key: 'a'", '  }', '}', 'e: ON']

# Carried to the older schema of most cases: text, print, number, line and column in compact and in pretty print.
CARRIED = [
    ('i:1 l:2', 'i: 1 @l: 2', 6, (1, 6), (2, 1)),
    ("s:'a\\n\\nb' y:''", 's: "a\\n\\nb" @y: ""', 6, (1, 13), (2, 1)),
    ('m{m{l:1}}', 'm {m {@l: 1}}', 6, (1, 7), (3, 5)),
    ('n{q:1}n{q:2 w{}}', 'n {q: 1} n {q: 2 @w {}}', 6, (1, 18), (6, 3)),
    ('u:1 v:2 e:NEG', 'u: 1 v: 2 e: @NEG', 7, (1, 14), (3, 4)),
    ('r:1 o:LOW o:HIGH', 'r: 1 o: LOW o: @HIGH', 7, (1, 16), (3, 4)),
    ('bm{key:true value{mm{}}}', 'bm {key: true value {@mm {key: "" value {}}}}', 6, (1, 22), (4, 5)),
    ('ie{}ie{key:-1 value:NEG}', 'ie {key: 0 value: ON} ie {key: -1 value: @NEG}', 7, (1, 42), (7, 10)),
    ('m{' * 32 + 'l:1' + '}' * 32, 'm {' * 32 + '@l: 1' + '}' * 32, 6, (1, 97), (33, 65)),
]
TABLES = [
    (words(known('i', 1), known('e', 9)), 'i: 1 e: @: 9', 5, (1, 9), (2, 4)),
    (words(message('m', leaf(UNKNOWN_U32, 5)), known('i', 1)), 'i: 1 m {@5: 0}', 5, (1, 9), (3, 3)),
]


def marked(out, text, number):
    plain = text.replace('@', '')
    out.text(plain, f'{number} {text.index("@")}', 1000)


def readings(out):
    out.schema(schema_x().bytes())
    out.root(0)
    for words_, cases in READINGS.items():
        out.rule('Reading ' + words_)
        for text, told in cases:
            out.text(text, told)
    out.schema(schema_n().bytes())
    for text, told in OF_DEPTH:
        out.text(text, told)
    out.schema(schema_x().bytes())


def faults(out):
    out.rule('Each separator and comment between all tokens, and a refusal')
    for between in BETWEEN:
        for number, tokens in FAULTS:
            marked(out, between.join(tokens), number)
    for number, text in ONE_EACH.items():
        out.rule(f'Refusal {number} after spaces, comments, lines and fields')
        for before in BEFORE:
            marked(out, before + text, number)


def ends(out):
    out.rule('The end of the text, after spaces, comments and newlines')
    for number, text in UNFINISHED:
        for tail in TAILS:
            marked(out, f'{text}{tail}@', number)


def bad_tokens(out):
    out.rule('Each sort of bad token at the start of a line')
    for before in ['i: 1\n', 'i:\n\n', f'm {{ # {E_ACUTE}\r\n']:
        for token in BAD_TOKENS:
            marked(out, f'{before}@{token}', 4)


def settings(out):
    out.rule('A line too many in a text whose lines end with newlines, with returns and newlines, and with none')
    for end in ['\n', '\r\n', ' # c\r\n', '\r', '\v', '\f']:
        for at in range(len(SETTINGS) + 1):
            marked(out, end.join([*SETTINGS[:at], '  @nope: 1', *SETTINGS[at:]]), 6)


def far(out):
    out.rule('Lines and columns over 16 bits')
    for before in ['\n' * 65535, ' ' * 65535]:
        marked(out, before + '@(', 4)


def without(out):
    out.rule('1, 2, 13 and 14 have line 0 and column 0, whatever the text')
    lines = f"\n\n s: '{E_ACUTE}'\r\n y: 'a' # c\n\n"
    for rooms, told in [((14, 3), '13 3 0:0'), ((0, 0), '13 3 0:0'), ((15, 2), '14 3 0:0'), ((15, 0), '14 3 0:0')]:
        out.text(lines, told, *rooms)
    out.text(lines + '\n (', '4 27 7:2', 0, 0)
    for image, root, told in [(schema_x().bytes(), 3, '2 0 0:0'), (b'', 0, '1 0 0:0')]:
        out.schema(image)
        out.root(root)
        for text in [lines, '\n (', '']:
            out.text(text, told)
    out.schema(schema_x().bytes())
    out.root(0)


def carried(out):
    carrier = Carrier(out)
    out.older(carries.older().bytes())

    def both(text, number, places):
        for style, place in zip([COMPACT, PRETTY], places):
            shown = SHOWN[style](text)
            assert line_and_column(shown.replace('@', ''), shown.index('@')) == place, (shown, place)
            carrier.ask(style, text, number)

    out.rule('A name that the older schema lacks, in compact print and on a later line of pretty print')
    for text, shown, number, *places in CARRIED:
        out.text(text, 'read', 1000)
        both(shown, number, places)
    out.rule('The same of an unnamed number and of an unknown field')
    for table, shown, number, *places in TABLES:
        out.table(table)
        both(shown, number, places)


def requests():
    out = Requests()
    for group in [readings, faults, ends, bad_tokens, settings, far, without, carried]:
        group(out)
    return out
