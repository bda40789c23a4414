"""The files of the session's folder, each by its name. What a text is there for stands in calls.py, beside the call that reads it."""
import pathlib
import subprocess
import tempfile

FOLDER = pathlib.Path(__file__).resolve().parent
ROOT = FOLDER.parents[1]
ORCHARD = ROOT / 'examples' / 'orchard'
MAKER = ROOT / 'tools' / 'schema' / 'ventro-schema'

AGES = ['v1', 'v2', 'v3', 'v4', 'v5']
LONGEST_TEXT = 1048576
LONG_LINE = 100000
LONG_NAME = 'a_name_of_sixty_three_letters_which_is_the_longest_that_can_be_'
LONG_PATH = 'hillside-orchard-settings-of-spring-after-the-probes-were-moved-to-row-7.txt'

# Texts of one thing each; a `#` beside a text would be a comment in it, so they stand bare.
SMALL = {
    'empty': '',
    'comment': '# nothing is set here\n',
    'all': ('i: -5 l: 0x10 u: 017 w: 18446744073709551615 b: true s: "caf\u00e9 \\x41\\t\\"" y: "\\377\\0" e: HIGHEST\n'
            'child <s: \'it\\\'s\' child {}> n {} n {} limits {value: 3 key: "a"} limits {} levels {key: -1}\n'
            'deep {key: 7 value {b: false}} many: 3 many: 1 many: 2\n'),
    'again': 'i: 1 i: 2 s: "first" child {i: 1} limits {key: "a"} s: "last" child {u: 1} limits {key: "a" value: 9}\n',
    # refusal 4
    'number-08': 'i: 08\n', 'number-run-on': 'u: 5\ni: 12ab\n', 'number-float': 'u: 1.5\n', 'number-0x': 'w: 0x\n',
    'quotes-open': 's: "never closed\nu: 1\n', 'quotes-single': "s: 'it's'\n", 'quotes-at-end': 's: "',
    'character': 'i: 1 (\n', 'character-dot': 'i.x: 1\n', 'character-slash': '// not a comment here\ni: 1\n',
    'byte-control': b'i: 1 \x01\n', 'byte-zero': b'i: \x00 1\n', 'byte-over-127': b'i: 1\n \xff\xfe u: 2\n',
    'letter': 'h\u00f6he: 1\n', 'quotes-zero': b's: "a\x00b"\n', 'quotes-long': 's: "' + 'long ' * 30 + '\n',
    # refusal 5
    'name-number': '5: 1\n', 'name-comma': 'i: 1, u: 2\n', 'name-inside': 'child { "s" }\n', 'closer-other': 'child {>\n',
    'closer-root': 'i: 1 }\n', 'closer-end': 'child {\n  i: 1\n', 'closer-angle': 'child < i: 1 }\n',
    'colon-none': 'i 5\n', 'colon-end': 'i', 'colon-brace': 's { }\n', 'colon-equals': 'u = 5\n',
    'opener-colon': 'child: {}\n', 'opener-angle': 'limits <>\n', 'opener-end': 'n', 'opener-list': 'n [ ]\n',
    'value-i32': 'i: "5"\n', 'value-i64': 'l: five\n', 'value-u32': 'u: -5\n', 'value-u64': 'w: -0\n', 'value-string': 's: 5\n',
    'value-bytes': 'y: abc\n', 'value-enum': 'e: 7\n', 'value-enum-quotes': 'e: "LOW"\n', 'value-list': 'many: [1, 2]\n',
    'minus-name': 'i: - x\n', 'minus-twice': 'l: --5\n', 'end-i32': 'i:', 'end-u64': 'w:\n', 'end-string': 's: # soon\n',
    'end-enum': 'e:', 'end-minus': 'i: -', 'end-key': 'limits { key', 'value-key': 'limits { key: 5 }\n',
    'value-level': 'levels { key: 1 value: 7 }\n', 'value-many': 'many: "1"\n', 'long-string': 'i: "' + 'x' * 60 + '"\n',
    # refusals 6 and 7
    'near-one': 'limit { key: "a" }\n', 'near-case': 'Child {}\n', 'far': 'temperature: 5\n', 'in-nothing': 'n { i: 1 }\n',
    'in-entry': 'limits { name: "a" }\n', 'in-deep': 'deep { key: 1 value { chid {} } }\n',
    'long-name': LONG_NAME.replace('sixty', 'sixti') + ': 1\n', 'long-names': 'another_name_of_sixty_three_letters_which_is_as_long_as_the_fix' + ': LOW\n',
    'word-5000': 'x' * 5000 + ': 1\n', 'word-64': 'y' * 64 + ': 1\n',
    'value-near': 'e: HIHG\n', 'value-far': 'e: sometimes\n', 'value-entry': 'levels { key: 3 value: LOWER }\n',
    'value-of-long': 'another_name_of_sixty_three_letters_which_is_as_long_as_the_fir: LO\n', 'value-word': 'e: ' + 'Z' * 5000 + '\n',
    # refusals 8 to 12
    'key-twice': 'limits {key: "a" key: "b"}\n', 'value-twice': 'deep {\n  value {}\n  value {}\n}\n',
    'over-i32': 'i: 2147483648\n', 'under-i32': 'i: -\n  2147483649\n', 'over-i64': 'l: 9223372036854775808\n',
    'over-u32': 'u: 0x100000000\n', 'over-u64': 'w: 18446744073709551616\n', 'over-all': 'u: ' + '9' * 200 + '\n',
    'over-key': 'deep { key: 99999999999999999999 }\n', 'over-octal': 'many: 020000000000\n',
    'bool-number': 'b: 1\n', 'bool-word': 'b: yes\n', 'bool-quotes': 'b: "true"\n', 'bool-end': 'b:', 'bool-symbol': 'b: [true]\n',
    'escape-letter': 's: "a\\qb"\n', 'escape-400': 'y: "\\400"\n', 'utf8-raw': b's: "gr\xfcn"\n', 'utf8-escape': 's: "\\377"\n',
    'escape-long': 's: "' + 'ab' * 40 + '\\q"\n',
    'deep-32': 'child{' * 32 + '}' * 32 + '\n', 'deep-33': 'child{\n' * 33 + '}' * 33 + '\n',
    'deep-default': 'child{' * 31 + 'deep{}' + '}' * 31 + '\n', 'deep-map': 'child{' * 32 + 'limits{}' + '}' * 32 + '\n',
    # refusal 17, and rooms
    'owed': 'owed { due: 1 paid: "no" more { due: 2 paid: "yes" } }\n', 'owed-none': 'owed { }\n',
    'owed-second': 'owed { due: 1 }\n', 'owed-inner': 'owed { paid: "" due: 1 more { due: 2 } }\n',
    'owed-replaced': 'owed { } owed { due: 1 paid: "" }\n',
    # how a line is shown
    'tabs': 'child {\n\ti: 1\tnope: 2\tu: 3\n}\n', 'utf8-before': 's: "\u00e9\u00e9 \u20ac \U0001f331" nope: 1\n',
    'returns': 'i: 1\r\nnope: 2\r\nu: 3\r\n', 'broken-before': b's: "\xe9\xe9" nope: 1\n', 'broken-name': b'gr\xfcn: 1\n',
    'control-line': b's: "a\x07b\x1b" nope: 1\n', 'line-98': 'i: 1 ' + ' ' * 86 + 'nope: 2\n',
    'line-99': 'i: 1 ' + ' ' * 87 + 'nope: 2\n', 'word-at-end': 's: "' + 'x' * 200 + '" nope',
    'utf8-long': 's: "' + '\u20ac' * 60 + '" nope: 1 s: "' + '\u20ac' * 60 + '"\n',
    # fleets
    'pair': 'second: 2 first: 1\n', 'switch': 'first: 1 switches { key: "pump" }\n', 'often': 'often: 5 often: 5\n', 'often-two': 'often: 1 often: 2\n',
    'probe': 'name: "north" moisture_min: 1\n', 'hours': 'from: 4 to: 9\n', 'mode': 'orchard: "H" valves { mode: MOISTURE }\n',
    'frost': 'orchard: "H" radio { network: 1 } frost { below: -1 }\n', 'no-name': 'probes { depth_cm: 30 }\n',
}


def long_line(at):
    """A line of 100,000 bytes, one field after the other, with the unknown field `nope` first, in the middle or last."""
    fields = ['many: 1234'] * (LONG_LINE // 11)
    fields[at * (len(fields) - 1) // 2] = 'nope: 1234'
    line = ' '.join(fields)
    return line.replace(' many', '  many', LONG_LINE - len(line)).encode()


def large():
    """Texts at the limits, made rather than written."""
    return {
        'long-first.txt': b'i: 1\n' + long_line(0) + b'\nu: 1\n',
        'long-middle.txt': b'i: 1\n' + long_line(1) + b'\nu: 1\n',
        'long-last.txt': b'i: 1\n' + long_line(2) + b'\nu: 1\n',
        'too-long.txt': b' ' * (LONGEST_TEXT + 1),
        'longest.txt': b'y: "' + b'\x80' * (LONGEST_TEXT - 6) + b'"\n',
        'shown-long.txt': b'y: "' + b'\x80' * 262200 + b'"\n',
        'values-65535.txt': b'n{}' * 65535,
    }


def image_of(proto, *words):
    with tempfile.TemporaryDirectory() as room:
        path = pathlib.Path(room) / 'image'
        subprocess.run([MAKER, proto, '-o', path, *words], check=True, stdout=subprocess.DEVNULL)
        return path.read_bytes()


def schemas():
    made = {f'{age}.schema': (ORCHARD / f'{age}.schema').read_bytes() for age in AGES}
    for name in ['kinds', 'order', 'turned']:
        made[f'{name}.schema'] = image_of(FOLDER / 'protos' / f'{name}.proto', '--names')
    made['bare.schema'] = image_of(FOLDER / 'protos' / 'kinds.proto')
    made['cut.schema'] = made['kinds.schema'][:-1]
    made['longer.schema'] = made['kinds.schema'] + b'x'
    made['empty.schema'] = b''
    return made


def all_files():
    """Every file of the folder by its name."""
    files = schemas()
    for name in ['settings.txt', 'old.txt', 'wrong.txt']:
        files[name] = (ORCHARD / name).read_bytes()
    files[LONG_PATH] = (ORCHARD / 'wrong.txt').read_bytes()
    for name, text in SMALL.items():
        files[f'{name}.txt'] = text if isinstance(text, bytes) else text.encode()
    files.update(large())
    return files
