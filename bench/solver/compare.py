#!/usr/bin/env python3
"""Compares the solver and the checker of this checkout with those of an older commit over the same random boards:
nodes, leaves and bytes of the graphs, and the processor time of solving and of checking, each the least of three runs
by turns.

Usage: bench/solver/compare.py COMMIT [BOARDS [SEED]], by default 100 boards of seed 2026. Both are proved and built in
folders of their own, from nothing.
"""
import subprocess
import sys
import tempfile
from pathlib import Path

from speed import ROOT, boards, build

COUNTED = ("wrong", "unanswered", "refused", "nodes", "leaves", "bytes")
RUNS = 3


def run(program):
    """The sums over all boards of what the program tells."""
    told = subprocess.run([str(program)], check=True, capture_output=True, text=True).stdout
    rows = [[int(word) for word in line.split()] for line in told.splitlines()]
    return [sum(column) for column in list(zip(*rows))[2:]]


def least(runs):
    """What is counted, which each run tells alike, and the least of both times."""
    counted = {tuple(told[:len(COUNTED)]) for told in runs}
    assert len(counted) == 1, counted
    return [*counted.pop(), min(told[-2] for told in runs), min(told[-1] for told in runs)]


def main():
    commit, words = sys.argv[1], (sys.argv[2:] + ["100", "2026"][len(sys.argv) - 2:])
    with tempfile.TemporaryDirectory() as name:
        folder = Path(name)
        subprocess.run(["git", "clone", "-q", str(ROOT), str(folder / "clone")], check=True)
        subprocess.run(["git", "checkout", "-q", commit], cwd=folder / "clone", check=True)
        for part in ("old", "new"):
            (folder / part).mkdir()
        lines, _ = boards(folder, words)
        programs = build(folder / "old", lines, folder / "clone"), build(folder / "new", lines)
        runs = [[run(program) for program in programs] for _ in range(RUNS)]
    for what, old, new in zip((*COUNTED, "us to solve", "us to check"), *map(least, zip(*runs))):
        print(f"{what}: {old} then, {new} now" + (f", {new / old:.3f}" if old else ""))


if __name__ == "__main__":
    main()
