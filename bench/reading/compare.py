#!/usr/bin/env python3
"""Compares `ddfarm table` with the reader beside it (reader.py): status, standard output and standard error, to the
byte. What was written has to be read back as itself. One try of one step finds no number, so each table is incomplete.

Usage: bench/reading/compare.py COUNT [SEED]. COUNT random texts of each kind, and all rows of up to four tokens between
two boards. The program has to be built (run ./ddfarm once). Ends with status 1 at the first difference.
"""
import os
import random
import subprocess
import sys
from collections import Counter

import reader
import texts

ROOT = os.path.dirname(os.path.dirname(os.path.dirname(os.path.abspath(__file__))))
PROGRAM = os.path.join(ROOT, "crates", "ddfarm", "out", "ddfarm")
LONGEST = 4


def run(text):
    """What `ddfarm table` does on the text."""
    command = [PROGRAM, "table", "--tries", "1", "--budget", "1"]
    done = subprocess.run(command, input=text, capture_output=True, check=False)
    return done.returncode, done.stdout, done.stderr


def compare(text):
    """Compares the two on a text, and tells what the answer was."""
    ours, theirs = run(text), reader.predict(text)
    if ours != theirs:
        sys.exit(f"on {text!r}\nddfarm: {ours}\nreader: {theirs}")
    if ours[0] == 3 and run(ours[1]) != ours:
        sys.exit(f"on {text!r}: {ours[1]!r} is not read back")
    status, _, told = theirs
    return told.split()[4].decode() if status == 2 else "boards" if status else "no board"


def all_texts(count, seed):
    """The texts, one after another."""
    yield from texts.short_rows(LONGEST)
    for kind in texts.KINDS:
        for number in range(count):
            yield kind(random.Random(f"{seed} {kind.__name__} {number}"))


def main():
    count, seed = int(sys.argv[1]), sys.argv[2] if len(sys.argv) > 2 else "1"
    answers = Counter(compare(text) for text in all_texts(count, seed))
    print(f"{sum(answers.values())} texts, no difference:",
          ", ".join(f"{name} {times}" for name, times in answers.most_common()))


main()
