"""The calls of the session, in order. A line that begins with `#` says what the calls after it are there for; it is passed over."""
import texts

HELP = '''
# every command and option, told
help
help check
help print
help compact
help fleet
help carry
help show
help help
help version
help script
version
# wrong calls
help nope
version --nope
nope
script
check
check kinds.schema
check kinds.schema all.txt empty.txt
check kinds.schema all.txt --nope
check kinds.schema all.txt --root
check kinds.schema all.txt --values
check kinds.schema all.txt --values many
check kinds.schema all.txt --bytes -1
check kinds.schema all.txt --values 18446744073709551616
print kinds.schema
print kinds.schema all.txt --required
compact kinds.schema all.txt --values 3
fleet all.txt
fleet --required
carry v5.schema v4.schema
carry v5.schema v4.schema old.txt --required
show
show v1.schema v2.schema
show v1.schema --root 0
# files that can't be read: none there, a folder, standard input, which holds these calls
check nowhere.schema all.txt
check kinds.schema nowhere.txt
check . all.txt
check kinds.schema .
check kinds.schema -
check - all.txt
print kinds.schema nowhere.txt
carry v5.schema nowhere.schema old.txt
carry v5.schema v4.schema nowhere.txt
show nowhere.schema
fleet nowhere.txt v1.schema v2.schema
'''

TAKEN = '''
# taken: nothing at all, a comment, every type, values that are set again, the longest text, the deepest, the most values
check kinds.schema empty.txt
check kinds.schema comment.txt
check kinds.schema all.txt
print kinds.schema all.txt
compact kinds.schema all.txt
check kinds.schema again.txt
print kinds.schema again.txt
print kinds.schema empty.txt
compact kinds.schema empty.txt
check kinds.schema longest.txt
check kinds.schema deep-32.txt
compact kinds.schema deep-32.txt
check v5.schema settings.txt
print v5.schema settings.txt
compact v5.schema settings.txt
# options before the files and between them
check --required v5.schema --values 39 settings.txt --bytes 43
# the root by name, by number, nested; unknown, out of range
check v2.schema probe.txt --root Probe
check v2.schema probe.txt --root 1
print v2.schema hours.txt --root Valve.Hours
compact --root 3 v2.schema hours.txt
check v2.schema probe.txt --root probe
check v2.schema probe.txt --root Nope
check v2.schema probe.txt --root 4
check v2.schema probe.txt --root 99999999999999999999
check v2.schema probe.txt --root 0
check bare.schema empty.txt --root Kinds
check bare.schema empty.txt --root 1
print v2.schema probe.txt --root Nope
'''

WORDS = {
    'refusal 4: numbers, quotes, characters, bytes that are not shown':
        'number-08 number-run-on number-float number-0x quotes-open quotes-single quotes-at-end quotes-zero quotes-long character '
        'character-dot character-slash letter byte-control byte-zero byte-over-127',
    'refusal 5: a name is expected, or a closer':
        'name-number name-comma name-inside closer-other closer-root closer-end closer-angle',
    'refusal 5: a colon, an opener': 'colon-none colon-end colon-brace colon-equals opener-colon opener-angle opener-end opener-list',
    'refusal 5: a value of each type, and the end of the file':
        'value-i32 value-i64 value-u32 value-u64 value-string value-bytes value-enum value-enum-quotes value-list value-many '
        'minus-name minus-twice end-i32 end-u64 end-string end-enum end-minus end-key value-key value-level long-string',
    'refusal 6: names that are near, far, long; in a message without fields, and in an entry':
        'near-one near-case far in-nothing in-entry in-deep long-name long-names word-64 word-5000',
    'refusal 7': 'value-near value-far value-entry value-of-long value-word',
    'refusal 8': 'key-twice value-twice',
    'refusal 9: over and under each range': 'over-i32 under-i32 over-i64 over-u32 over-u64 over-all over-key over-octal',
    'refusal 10': 'bool-number bool-word bool-quotes bool-symbol bool-end',
    'refusal 11': 'escape-letter escape-400 escape-long utf8-raw utf8-escape',
    'refusal 12': 'deep-33 deep-map deep-default',
    'how a line is shown: tabs, letters of several bytes, returns, bytes that are no letters, long lines':
        'tabs utf8-before returns broken-before broken-name control-line line-98 line-99 word-at-end utf8-long long-first long-middle '
        'long-last',
}

REFUSED = f'''
# refusal 1: no schema, cut short, with a byte more, empty, longer than any
check settings.txt settings.txt
check cut.schema all.txt
check longer.schema all.txt
check empty.schema all.txt
check longest.txt all.txt
print cut.schema all.txt
show cut.schema
show empty.schema
# refusal 3
check kinds.schema too-long.txt
print kinds.schema too-long.txt
# refusal 13: by the logger's room, and by the most that any has
check v5.schema settings.txt --values 38
check v5.schema settings.txt --values 0
check kinds.schema values-65535.txt
check kinds.schema empty.txt --values 0
# refusal 14
check v5.schema settings.txt --bytes 42
check v5.schema settings.txt --bytes 0
# refusal 13 comes before 14, and a fault before both
check v5.schema settings.txt --values 1 --bytes 1
check v5.schema wrong.txt --values 1 --bytes 1
# refusal 16: four bytes are shown for one
print kinds.schema longest.txt
compact kinds.schema longest.txt
# refusal 17, if it is asked for
check kinds.schema owed-none.txt
check kinds.schema owed-none.txt --required
check kinds.schema owed-second.txt --required
check kinds.schema owed-inner.txt --required
check kinds.schema owed-replaced.txt --required
check kinds.schema owed.txt --required
check v5.schema no-name.txt --required
# a settings file with one letter left out, also by a long path
check v5.schema wrong.txt
print v5.schema wrong.txt
check v5.schema {texts.LONG_PATH}
'''

FLEETS = f'''
# fleets: five ages and a file that only the newest takes, one that all take, a wrong one
fleet settings.txt v1.schema v2.schema v3.schema v4.schema v5.schema
fleet old.txt v1.schema v2.schema v3.schema v4.schema v5.schema
fleet wrong.txt v1.schema v2.schema v3.schema v4.schema v5.schema
fleet old.txt v3.schema
fleet settings.txt v1.schema
# a schema that isn't there, one that is none, a folder
fleet old.txt v1.schema nowhere.schema v5.schema
fleet old.txt cut.schema v5.schema .
# loggers that would show other values, or in another order
fleet pair.txt order.schema turned.schema
fleet pair.txt turned.schema order.schema order.schema
fleet switch.txt order.schema turned.schema
fleet often.txt order.schema turned.schema
fleet often.txt turned.schema order.schema
fleet often-two.txt order.schema turned.schema
# options
fleet no-name.txt v1.schema v5.schema --required
fleet hours.txt v1.schema v2.schema v5.schema --root Valve.Hours
fleet settings.txt v4.schema v5.schema --values 38
fleet settings.txt v4.schema v5.schema --bytes 42
# texts that are too long, to read and to show; a long path, and one for each schema
fleet too-long.txt v1.schema
fleet longest.txt kinds.schema bare.schema
fleet shown-long.txt kinds.schema bare.schema
fleet {texts.LONG_PATH} v1.schema v5.schema
fleet word-5000.txt kinds.schema v1.schema
fleet byte-over-127.txt kinds.schema
'''

CARRIES = '''
# carried to an older logger: taken, and refused for a name or a value that it lacks
carry v5.schema v1.schema old.txt
carry v5.schema v4.schema settings.txt
carry v5.schema v3.schema mode.txt
carry v5.schema v4.schema frost.txt
carry v5.schema v5.schema settings.txt
carry v1.schema v5.schema old.txt
carry order.schema turned.schema switch.txt
carry turned.schema order.schema often-two.txt
carry kinds.schema bare.schema empty.txt
carry v5.schema v2.schema hours.txt --root Valve.Hours
# refused before: by the newer logger, for a message that either lacks, for schemas that are none, for a print that is too long
carry v5.schema v4.schema wrong.txt
carry v5.schema v1.schema empty.txt --root 4
carry v5.schema v1.schema empty.txt --root Nope
carry cut.schema v1.schema old.txt
carry v5.schema cut.schema old.txt
carry kinds.schema bare.schema longest.txt
carry v5.schema v4.schema too-long.txt
'''

SHOWN = '''
# schemas: each age, all types, and one without the names of messages
show v1.schema
show v2.schema
show v3.schema
show v4.schema
show v5.schema
show kinds.schema
show bare.schema
show settings.txt
'''

# Blank lines, words two blanks apart, a line longer than any call, and a last line that no newline ends.
EDGES = '''
# lines that are no calls, and the last line, which no newline ends

#check v1.schema old.txt
 check v1.schema old.txt
check  v1.schema old.txt
check v1.schema old.txt 
version'''


def words():
    lines = []
    for title, names in WORDS.items():
        lines.append(f'# {title}')
        lines += [f'check kinds.schema {name}.txt' for name in names.split()]
    return '\n'.join(lines) + '\n'


def session():
    """Standard input as the program gets it."""
    parts = [HELP, TAKEN, words(), REFUSED, FLEETS, CARRIES, SHOWN, '# a line longer than any call\nversion ' + 'x' * 66000 + '\n', EDGES]
    return ''.join(part.lstrip('\n') if part is not EDGES else part[1:] for part in parts)
