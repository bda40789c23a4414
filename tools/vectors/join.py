#!/usr/bin/env python3
"""Joins the vectors into the input of the program `replay` and the answers that it must give: crates/replay/stdin and stdout.

protocol.txt comes first, since some of its answers name line numbers. sample.txt has its answers itself, in comments.
"""
import os

FOLDER = os.path.dirname(os.path.abspath(__file__))
CRATE = os.path.join(FOLDER, '..', '..', 'crates', 'replay')
FILES = ['protocol', 'reading', 'table', 'schema', 'refusals', 'carry', 'places', 'sample', 'limit']
ANSWER = '#= '


def lines(name):
    with open(os.path.join(FOLDER, name), encoding='ascii') as file:
        return file.read().splitlines()


def parts(name):
    """The requests of a file, and their answers."""
    requests = lines(name + '.txt')
    if name != 'sample':
        return requests, lines(name + '.answers.txt')
    answers = [line.removeprefix(ANSWER) for line in requests if line.startswith(ANSWER)]
    return [line for line in requests if not line.startswith(ANSWER)], answers


def main():
    requests, answers = [], []
    for name in FILES:
        more, given = parts(name)
        requests += more
        answers += given
    for name, all_lines in ('stdin', requests), ('stdout', answers):
        with open(os.path.join(CRATE, name), 'w', encoding='ascii') as file:
            file.write(''.join(line + '\n' for line in all_lines))
    print(f'{len(requests)} lines, {len(answers)} answers')


if __name__ == '__main__':
    main()
