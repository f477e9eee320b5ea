#!/usr/bin/env python3
"""Runs `table --evidence` with evidence that is false in places: the tables have to be those without evidence.

Usage: bench/evidence/false.py [RUNS [SEED]], by default 1,000 runs of seed 2026. The program has to be built (run
./ddfarm once). Over five random boards it changes true evidence: every claim of a section raised by one, a digit
changed, such a section three times before the others, and all sections so. Each run has 1, 2, 4 or 8 solvers. It stops
at the first run whose tables or status differ, and prints how many there were of each kind.
"""
import os
import random
import re
import subprocess
import sys
import tempfile
from pathlib import Path

ROOT = Path(__file__).resolve().parent.parent.parent
sys.path.insert(0, str(ROOT / "bench" / "tables"))
from speed import PROGRAM, deal  # noqa: E402

DEFAULTS = ("1000", "2026")
BOARDS = 5
SOLVERS = (1, 2, 4, 8)
CLAIM = re.compile(rb"^([NESW]) (\d+)( (?:-|\d+) (?:-|\d+))$", re.M)


def tables(folder, words):
    """The output and the status of a run."""
    with (folder / "boards.pbn").open() as source:
        done = subprocess.run([PROGRAM, "table", *words], stdin=source, capture_output=True)
    return done.stdout, done.returncode


def sections_of(evidence):
    return [b"DDE 1\n" + rest for rest in evidence.split(b"DDE 1\n")[1:]]


def raised(section):
    """The section with each claim raised by one."""
    return CLAIM.sub(lambda claim: b"%s %d%s" % (claim[1], int(claim[2]) + 1, claim[3]), section)


def one_section_false(source, sections):
    number = source.randrange(len(sections))
    return sections[:number] + [raised(sections[number])] + sections[number + 1:]


def one_digit_changed(source, sections):
    text = bytearray(b"".join(sections))
    while True:
        place = source.randrange(len(text))
        if chr(text[place]).isdigit():
            text[place] = ord(source.choice([digit for digit in "0123456789" if ord(digit) != text[place]]))
            return [bytes(text)]


def three_times_before(source, sections):
    return [raised(source.choice(sections))] * 3 + sections


def all_raised(_source, sections):
    return [raised(section) for section in sections]


KINDS = (one_section_false, one_digit_changed, three_times_before, all_raised)


def main():
    given = tuple(sys.argv[1:])
    runs, seed = (int(word) for word in given + DEFAULTS[len(given):])
    source = random.Random(seed)
    counts = dict.fromkeys(KINDS, 0)
    with tempfile.TemporaryDirectory() as name:
        folder = Path(name)
        (folder / "boards.pbn").write_text("\n".join(
            f'[Board "{number}"]\n[Deal "{deal(source)}"]\n' for number in range(1, BOARDS + 1)))
        wanted = tables(folder, [])
        if wanted != tables(folder, ["--evidence", str(folder / "true.dde")]):
            sys.exit("true evidence: other tables")
        sections = sections_of((folder / "true.dde").read_bytes())
        for run in range(runs):
            kind = KINDS[run % len(KINDS)]
            (folder / "false.dde").write_bytes(b"".join(kind(source, sections)))
            words = ["--solvers", str(source.choice(SOLVERS)), "--evidence", str(folder / "false.dde")]
            if tables(folder, words) != wanted:
                os.replace(folder / "false.dde", "false.dde")
                sys.exit(f"run {run}, {kind.__name__}, {words[1]} solvers: other tables; see false.dde")
            counts[kind] += 1
    print(", ".join(f"{kind.__name__}: {count} runs" for kind, count in counts.items()))


if __name__ == "__main__":
    main()
