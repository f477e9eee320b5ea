#!/usr/bin/env python3
"""Compares `ddfarm check` with the checker beside it (checker.py) on the answers of answers.tar.xz, as they are, as
version 2 and damaged: status, standard output and standard error, to the byte. What is accepted has to tell the tricks
that DDS tells, and `ddfarm plain` has to tell them too where it takes the layout.

Usage: bench/answers/compare.py COUNT [SEED]. Each answer as it is and as version 2 without the branches that may be
left out, and COUNT times each with each kind of damage (a tenth of that where it is longer than 100,000 bytes). The
program has to be built (run ./ddfarm once). Ends with status 1 at the first difference.
"""
import itertools
import os
import random
import subprocess
import sys
import tarfile
from collections import Counter

import checker
import damages
import versions

FOLDER = os.path.dirname(os.path.abspath(__file__))
PROGRAM = os.path.join(FOLDER, "..", "..", "crates", "ddfarm", "out", "ddfarm")
LONG = 100_000
# The most cards a hand that `plain` takes.
MOST_PLAIN = 4


def answers():
    """Name, words and text of each answer of the archive."""
    with tarfile.open(os.path.join(FOLDER, "answers.tar.xz")) as archive:
        for member in sorted(archive, key=lambda member: member.name):
            if member.isfile() and not member.name.endswith("README.txt"):
                words, text = archive.extractfile(member).read().split(b"\n", 1)
                yield member.name, words.decode().split("|"), text


def compare(name, words, text, tricks):
    """Compares the two on an answer, and tells what came of it."""
    done = subprocess.run([PROGRAM, "check", *words], input=text, capture_output=True, check=False)
    said, status = checker.predict(*words, text)
    line = said.encode() + b"\n"
    wanted = (status, b"", line) if status == 2 else (status, line, b"")
    ours = (done.returncode, done.stdout, done.stderr)
    if ours != wanted:
        with open("differs.txt", "wb") as file:
            file.write(text)
        sys.exit(f"{name}: {words}\nddfarm: {ours}\nchecker: {wanted}\n(the text is in differs.txt)")
    if status == 0 and said != f"accepted {tricks}":
        sys.exit(f"{name}: {said}, but the tricks are {tricks}")
    fault = [word for word in said.split() if word[0].isupper() and word != "Node" and word != "Text"]
    return fault[-1] if status == 4 else said.split()[0]


def compare_plain(name, layout, declarer, trump, tricks):
    """Compares with `ddfarm plain`: North and South take declarer's tricks, or what declarer's side leaves."""
    size = sum(map(len, layout[2:].split(" ")[0].split(".")))
    done = subprocess.run([PROGRAM, "plain", layout, checker.seat_after(declarer, 1), trump], capture_output=True,
                          check=False)
    wanted = b"NS %d\n" % (tricks if checker.side_of(declarer) == "NS" else size - tricks)
    if size <= MOST_PLAIN and done.stdout != wanted:
        sys.exit(f"{name}: plain says {done.stdout}, not {wanted}")


def main():
    count, seed = int(sys.argv[1]), sys.argv[2] if len(sys.argv) > 2 else "1"
    sound, damaged = 0, Counter()
    for name, words, text in answers():
        tricks = int(text.split(b"\n", 1)[0].split()[1])
        compare_plain(name, *words, tricks)
        second = versions.as_version_two(text)
        for form in (text, second):
            if compare(name, words, form, tricks) != "accepted":
                sys.exit(f"{name}: not accepted")
        sound += 1
        times = count if len(text) <= LONG else (count + 9) // 10
        for form, kind, number in itertools.product((text, second), damages.KINDS, range(times)):
            other = kind(random.Random(f"{seed} {name} {kind.__name__} {number}"), form)
            if other is not None and other != form:
                damaged[compare(f"{name}, {kind.__name__} {number}", words, other, tricks)] += 1
    print(f"{sound} answers accepted by both versions, {sum(damaged.values())} damaged ones, no difference",
          *(f"{name} {times}" for name, times in damaged.most_common()), sep=", ")


main()
