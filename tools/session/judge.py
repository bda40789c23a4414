"""Holds the program's answers to the model, and to what every answer must be like. Each fault found is a line of words."""
import re
import expected
import hints
import model
import pointer
import shows
from model import Refused

WIDEST = 100
FORBIDDEN = re.compile(r'\b(nodes?|tokens?|pools?)\b', re.IGNORECASE)
OPTIONS_WITH_WORD = {'--root', '--values', '--bytes'}


class Call:
    """The words of a call: the command, the files, the options."""

    def __init__(self, line):
        self.line, words = line, line.split()
        self.command, self.files, self.options = words[0], [], {}
        rest = iter(words[1:])
        for word in rest:
            if word in OPTIONS_WITH_WORD:
                self.options[word] = next(rest, None)
            elif word.startswith('--'):
                self.options[word] = True
            else:
                self.files.append(word)

    def number(self, option, most):
        return int(self.options.get(option, most))


def answers(session, output):
    """Pairs of a call and its answer: the lines, and the verdict."""
    calls = [line for line in session.split('\n') if line and not line.startswith('#')]
    at = 0
    for call in calls:
        echo = f'> {call[:65536]}\n'.encode()
        assert output.startswith(echo, at), f'the answer to {call[:80]} is not where it should be'
        end = re.compile(rb'^= ([012])\n', re.MULTILINE).search(output, at + len(echo))
        yield call, output[at + len(echo):end.start()], int(end[1])
        at = end.end()
    assert at == len(output), 'there is more than the answers'


def root_of(image, call):
    """The root by name or number, the first where none is named; raises refusal 2."""
    schema = hints.checker.schema_of(image)
    word, titles = call.options.get('--root', '0'), schema.message_names or []
    if word.isdigit() and int(word) < len(schema.messages):
        return int(word)
    if word in titles:
        return titles.index(word)
    raise Refused(2)


def read(call, image, text):
    """What reading comes to: the root; raises a refusal. The schema is asked first, since a bad one has no root."""
    model.accepted(image)
    root = root_of(image, call)
    model.asked(image, root, text, call.number('--values', model.MOST_NODES), call.number('--bytes', model.MOST_BYTES))
    if '--required' in call.options:
        model.required(image, root, text)
    return root


def refusal_faults(call, refusal, answer, schema, path, text, image=b''):
    """The line of a refusal: the file, the place, the number; what is needed; and the word that is pointed at."""
    flat = answer.replace(b'\n  ', b' ', 1) if answer.split(b'\n')[0].endswith(b':') else answer
    first = flat.split(b'\n')[0].decode()
    who = schema if refusal.number < 3 else path
    start = f'{who}:{refusal.line}:{refusal.column}: ' if refusal.line else f'{who}: '
    needed = f': {refusal.at - (refusal.number == 13)}, and at most ' if refusal.number in (13, 14, 16) else ''
    if not first.startswith(start) or needed not in first or not first.endswith(f' (refusal {refusal.number})'):
        return [f'expected {start}..{needed}.. (refusal {refusal.number})']
    if not refusal.line or call.command == 'fleet':
        return []
    said = pointer.faults(flat.split(b'\n')[1:], text, refusal.at)
    if refusal.number == 5 and schema in ('kinds.schema', 'bare.schema') and call.command == 'check':
        said += expected.faults(first, text, refusal.at)
    if refusal.number in (6, 7):
        word = hints.word_of(first) if 'this word' not in first else 'x' * hints.LONGEST + 'x'
        said += hints.faults(flat.split(b'\n')[3].decode(), image, refusal.number, word)
    return said


def settings_faults(call, answer, verdict, files):
    """check, print, compact."""
    schema, path = call.files
    image, text = files[schema], files[path]
    try:
        root = read(call, image, text)
        if call.command == 'check':
            n = model.count(image, root, text)
            wanted = f'{path}: ok, {n} value{"s" * (n != 1)}\n'.encode()
        else:
            is_compact = call.command == 'compact'
            wanted = model.shown(image, root, text, 'C' if is_compact else 'Y') + b'\n' * is_compact
        return [] if (answer, verdict) == (wanted, 0) else [f'expected {wanted[:80]}']
    except Refused as refusal:
        return refusal_faults(call, refusal, answer, schema, path, text, image) + ['verdict'] * (verdict != 1)


def fleet_faults(call, answer, verdict, files):
    """Each schema's line, how many take the file, and how many of these show something else than the first."""
    path, *schemas = call.files
    faults, prints, worst = [], [], 0
    flat = re.sub(rb'(:\d+:)\n  (?! )', rb'\1 ', answer)
    lines = [line for line in flat.split(b'\n')[:-2] if not line.startswith(b'  ')]
    for schema, line in zip(schemas, lines, strict=True):
        if schema not in files:
            faults += [] if line.startswith(f'{schema}: '.encode()) else [f'{schema}: no line']
            worst = 2
            continue
        try:
            root = read(call, files[schema], files[path])
            n = model.count(files[schema], root, files[path])
            prints.append(model.shown(files[schema], root, files[path], 'Y', model.ENOUGH))
            if line != f'{schema}: takes it, {n} value{"s" * (n != 1)}'.encode():
                faults.append(f'{schema}: takes it, {n}')
        except Refused as refusal:
            worst = max(worst, 1)
            short = line.removeprefix(f'{schema}: '.encode()) if refusal.number > 2 else line
            faults += refusal_faults(call, refusal, short, schema, path, files[path])
    worst = max(worst, any(one != prints[0] for one in prints))
    return faults + summary_faults(flat, prints, len(schemas)) + ['verdict'] * (verdict != worst)


def summary_faults(answer, prints, loggers):
    last = answer.split(b'\n')[-2].decode()
    other = sum(1 for one in prints[1:] if one != prints[0])
    numbers = [int(word) for word in re.findall(r'\d+', last)]
    if numbers != [len(prints), loggers] + [other] * (other > 0) or len(re.findall(rb'^  it shows', answer, re.M)) != other:
        return [f'expected {len(prints)} of {loggers} to take it, {other} differently']
    return []


def carry_faults(call, answer, verdict, files):
    """A print under the newer schema, read under the older one."""
    newer, older, path = call.files
    try:
        model.accepted(files[older])
        root = read(call, files[newer], files[path])
        model.asked(files[older], root, b'')
        print_ = model.shown(files[newer], root, files[path])
    except Refused as refusal:
        which = newer if answer.startswith(newer.encode()) else older
        return refusal_faults(call, refusal, answer, which, path, files[path], files[newer]) + ['verdict'] * (verdict != 1)
    first, rest = answer.split(b'\n', 1)
    try:
        wanted = model.shown(files[older], root, print_)
        n = model.count(files[older], root, print_)
        head = f'{older} takes it and shows {n} value{"s" * (n != 1)}:'.encode()
        return [] if (first, rest, verdict) == (head, wanted, 0) else [f'expected {head} and {wanted[:80]}']
    except Refused as refusal:
        return refusal_faults(call, refusal, rest, older, 'shown', print_, files[older]) + ['verdict'] * (verdict != 1)


BY_COMMAND = {'check': settings_faults, 'print': settings_faults, 'compact': settings_faults, 'fleet': fleet_faults,
              'carry': carry_faults, 'show': shows.faults}


def form_faults(call, answer, files):
    """No line is wider than the screen, but for a print on one line; and none speaks of what only a programmer knows."""
    faults = []
    for line in answer.decode().split('\n'):
        if len(line) > WIDEST and not call.startswith('compact'):
            faults.append(f'{len(line)} columns: {line[:60]}')
        if FORBIDDEN.search(line):
            faults.append(f'a word that no grower knows: {line[:60]}')
    return faults


def judged(line, answer, verdict, files):
    """The faults of an answer, and whether the model was asked about it."""
    call, faults = Call(line), form_faults(line, answer, files)
    is_held = call.command in BY_COMMAND and (verdict < 2 or call.command == 'fleet' and b'Taken by ' in answer)
    if is_held:
        faults += BY_COMMAND[call.command](call, answer, verdict, files)
    return faults, is_held
