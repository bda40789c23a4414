#!/usr/bin/env python3
"""Renames the definitions' conditional, whose branches wait, from the library's name if◌then◌else◌ to when◌then◌otherwise◌.

usage: tools/respell/conditional.py      at the top of the repository, once, after respell.py

A clause's reader takes if◌then◌else◌ for the library's own, whose branches don't wait; so the gate refuses another of that name.
"""
import pathlib
import re

STRING = re.compile(r'("(?:[^"\\\n]|\\.)*")')
WORD = re.compile(r"(?<![\w.'·◌-])(if|else)(?![\w'◌-])")
NAMES = {"if": "when", "else": "otherwise"}


def code(text):
    """The text with the words renamed in its code: what no string holds, before any comment."""
    lines = []
    for line in text.split("\n"):
        parts = STRING.split(line)
        done, open_comment = [], False
        for i, part in enumerate(parts):
            if i % 2 or open_comment:
                done.append(part)
                continue
            head, dashes, tail = part.partition("--")
            open_comment = bool(dashes)
            done.append(WORD.sub(lambda m: NAMES[m.group(1)], head) + dashes + tail)
        lines.append("".join(done))
    return "\n".join(lines).replace("if◌then◌else◌", "when◌then◌otherwise◌")


def clauses(text):
    """The same in a source's clauses and ghost uses alone."""
    return "\n".join(code(l) if re.match(r"\s*(ghost use|requires|ensures)\b", l) else l for l in text.split("\n"))


def edit(text):
    """The same in an edit of a definition."""
    if not re.search(r"(?m)^file: (specs|proofs)/", text):
        return text
    return "\n".join(l[:5] + code(l[5:]) if l[:5] in ("old: ", "new: ") else l for l in text.split("\n"))


def main():
    top = pathlib.Path(__file__).resolve().parents[2]
    for pattern, turned in (("*/specs/**/*.antt", code), ("*/proofs/**/*.antt", code), ("*/src/**/*.rt", clauses), ("*/must-fail/*.edit", edit)):
        for path in sorted((top / "crates").glob(pattern)):
            text = path.read_text(encoding="utf-8")
            new = turned(text)
            if new != text:
                path.write_text(new, encoding="utf-8")


main()
