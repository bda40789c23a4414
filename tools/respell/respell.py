#!/usr/bin/env python3
"""Respells the repository's own definitions and lemmas: words in snake case, where they were in camel case.

usage: tools/respell/respell.py      at the top of the repository, once, right after the kit's own script

Types, modules and constructors of the sources keep their names, and so do functions, strings and whatever stands in stdin and stdout.
Five lemmas would fall together with a definition, and get another name first.
"""
import pathlib
import re

# file, old name, new name: lemmas whose names, respelled or as they are, are a definition's
TAKEN = [
    ("crates/carry/proofs/Carrying.antt", "read_as", "carried_read-of"),
    ("crates/lexer/proofs/Laws.antt", "one_more", "closing-one_more"),
    ("crates/lexer/proofs/Lines.antt", "line_first", "line-first"),
    ("crates/hints/proofs/scene/walked/Proof.antt", "line_first", "line-first"),
    ("crates/words/proofs/line_at/Proof.antt", "line_first", "line-first"),
    ("crates/words/proofs/Lines.antt", "line_first", "line-first"),
    ("crates/bodies/proofs/Origin.antt", "line_first", "line-first"),
    ("crates/print/proofs/BodyLaws.antt", "field_fits", "field-fits"),
    ("crates/print/proofs/body/+print_field_print_fields_print_to_internal/Proof.antt", "field_fits", "field-fits"),
    ("crates/words/proofs/Words.antt", "step_from", "step_from-is"),
]
CAMEL = re.compile(r"(?<![A-Za-z0-9_])[a-z][a-z0-9]*(?:[A-Z][a-z0-9]*)+(?![A-Za-z0-9_])")
STRING = re.compile(r'("(?:[^"\\\n]|\\.)*")')


def snake(match):
    return re.sub(r"[A-Z]", lambda m: "_" + m.group(0).lower(), match.group(0))


def respelled(text):
    parts = STRING.split(text)
    return "".join(p if i % 2 else CAMEL.sub(snake, p) for i, p in enumerate(parts))


def main():
    top = pathlib.Path(__file__).resolve().parents[2]
    for name, old, new in TAKEN:
        path = top / name
        text = path.read_text(encoding="utf-8")
        path.write_text(re.sub(r"(?<![\w.'-])" + re.escape(old) + r"(?![\w'-])", new, text), encoding="utf-8")
    for pattern in ("*/specs/**/*.antt", "*/proofs/**/*.antt", "*/src/**/*.rt", "*/must-fail/*.edit"):
        for path in sorted((top / "crates").glob(pattern)):
            text = path.read_text(encoding="utf-8")
            new = respelled(text)
            if new != text:
                path.write_text(new, encoding="utf-8")


main()
