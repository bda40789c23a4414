"""Counts instructions with the program `bench`, and prints the tables of docs/SPEED.md.

    python3 -B measure.py COUNT BENCH mixed=FILE ints=FILE strings=FILE

COUNT runs a program and tells, on standard error, the instructions between its reads and writes, as `write 1 SO-FAR SINCE` for each
write to standard output. BENCH is target/bin/bench. The files are texts for the schema of input.py. What grows is made here.
"""
import subprocess
import sys

import growth
import input

PHASES = ['read', 'compact', 'pretty', 'required', 'schema']


def instructions(count, bench, data):
    """The instructions of each phase, less those of a mark; and the length of the text printed."""
    run = subprocess.run([count, bench], input=data, capture_output=True)
    marks = [line.split() for line in run.stderr.decode().splitlines() if line.startswith('write 1 ')]
    since = dict(zip(run.stdout.decode().split(), (int(mark[3]) for mark in marks)))
    return {phase: since[phase] - since['nothing'] for phase in PHASES if phase in since}


def table(heading, rows):
    print(f'\n| {heading} | ' + ' | '.join(PHASES) + ' |\n|' + '---|' * (len(PHASES) + 1))
    for name, cells in rows:
        print(f'| {name} | ' + ' | '.join(cells) + ' |')


def texts(count, bench, files):
    rows = []
    for name, text in files:
        taken = instructions(count, bench, input.joined(input.BENCH, text))
        rows.append((f'{name}, {len(text):,} bytes', [f'{taken[p] / len(text):.1f}' for p in PHASES]))
    table('instructions a byte', rows)


def series(count, bench, heading, cases):
    rows = []
    for name, image, text in cases:
        taken = instructions(count, bench, input.joined(image, text))
        rows.append((name, [f'{taken[p]:,}' if p in taken else '-' for p in PHASES]))
    table(heading, rows)


def main():
    count, bench, *pairs = sys.argv[1:]
    files = [(pair.split('=', 1)[0], open(pair.split('=', 1)[1], 'rb').read()) for pair in pairs]
    texts(count, bench, files)
    for heading, cases in growth.all_series():
        series(count, bench, heading, cases)


main()
