#!/usr/bin/env python3
"""Runs tools/second_check.py on the texts of cases/second_check.txt, and tells each answer that isn't the one there.

A part of that file begins with `## ` and its title. The first part is a flat file; each other one has an answer in a
line of its own and a proof text behind it. The module stands before the parts, indented. It was flattened before there
was mw_flat, which must print it so. $FLAT names that program; without it that is the one that the gate built."""
import os
import pathlib
import re
import subprocess
import sys
import tempfile

TOP = pathlib.Path(__file__).resolve().parent.parent
FLATTENER = os.environ.get("FLAT", str(TOP / "crates" / "mw_flat" / "out" / "mw_flat"))
LEAST_TEXTS = 30
MODULE = re.compile(r"^    mod .*?^    endm$", re.M | re.S)


def parts_of(text):
    """The titles of the file, each with the lines below it."""
    for part in text.split("\n## ")[1:]:
        title, _, lines = part.partition("\n")
        yield title, lines.rstrip("\n") + "\n"


def told(flat, texts):
    """What the checker prints for a flat file and texts, in lines, and its status."""
    with tempfile.NamedTemporaryFile("w", suffix=".flat") as file:
        file.write(flat)
        file.flush()
        done = subprocess.run([sys.executable, TOP / "tools" / "second_check.py", file.name], input="".join(texts),
                              stdout=subprocess.PIPE, text=True)
    return done.stdout.splitlines(), done.returncode


def is_printed(source, flat):
    """Whether mw_flat prints the flat file for a source."""
    done = subprocess.run([FLATTENER], input=source, stdout=subprocess.PIPE, text=True)
    return done.stdout == flat


def main():
    text = (TOP / "cases" / "second_check.txt").read_text("ascii")
    (_, flat), *cases = parts_of(text)
    if not is_printed(MODULE.search(text)[0], flat):
        sys.exit("mw_flat prints another flat file than the one in cases/second_check.txt")
    answers, texts = zip(*(case.split("\n", 1) for _, case in cases))
    lines, status = told(flat, texts)
    wrong = 0
    if len(lines) != len(cases) or len(cases) < LEAST_TEXTS or status != 1:
        sys.exit(f"{len(lines)} answers to {len(cases)} texts, with status {status}")
    for number, ((title, _), answer, line) in enumerate(zip(cases, answers, lines), 1):
        if line != f"proof {number}: {answer}":
            wrong += 1
            print(f"{title}\n  must be: {answer}\n  is: {line}")
    print(f"{len(cases) - wrong} passed, {wrong} failed")
    sys.exit(1 if wrong else 0)


main()
