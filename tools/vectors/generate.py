#!/usr/bin/env python3
"""Writes the request files, and with a program's path also its answers; says where answers differ from what is known.

  generate.py                 writes NAME.txt for each file of requests
  generate.py PROGRAM         also runs PROGRAM on each and writes NAME.answers.txt
"""
import os
import subprocess
import sys

import carry
import limit
import places
import protocol
import reading
import refusals
import schema
import table

FOLDER = os.path.dirname(os.path.abspath(__file__))
FILES = {
    'reading': reading.requests,
    'table': table.requests,
    'schema': schema.requests,
    'refusals': refusals.requests,
    'carry': carry.requests,
    'places': places.requests,
    'protocol': protocol.requests,
    'limit': limit.texts,
    'wide': limit.wide,
}


def fits(known, answer):
    """What is known are the first words of the answer; `*` is any word."""
    told, words = known.split(' '), answer.split(' ')
    return len(told) <= len(words) and all(one in ('*', word) for one, word in zip(told, words))


def differences(name, out, answers):
    """Answers that are not what is known beforehand, as lines for a person."""
    if len(answers) != len(out.known):
        return [f'{name}: {len(answers)} answers to {len(out.known)} requests']
    told = []
    for (number, known), answer in zip(out.known, answers):
        if known is not None and not fits(known, answer):
            told.append(f'{name}.txt:{number}: {out.lines[number - 1][:80]}: known {known[:80]}, answer {answer[:80]}')
    return told


def main(program):
    wrong = []
    for name, requests in FILES.items():
        out = requests()
        path = os.path.join(FOLDER, name)
        with open(path + '.txt', 'w', encoding='ascii') as file:
            file.write(out.whole())
        checked = sum(known is not None for _, known in out.known)
        print(f'{name}.txt: {len(out.lines)} lines, {len(out.known)} answers, {checked} of them known beforehand')
        if program:
            done = subprocess.run([program], input=out.whole().encode(), stdout=subprocess.PIPE, check=True)
            with open(path + '.answers.txt', 'wb') as file:
                file.write(done.stdout)
            wrong += differences(name, out, done.stdout.decode().splitlines())
    print('\n'.join(wrong) if wrong else 'no difference from what is known')
    return 1 if wrong else 0


if __name__ == '__main__':
    sys.exit(main(sys.argv[1] if len(sys.argv) > 1 else None))
