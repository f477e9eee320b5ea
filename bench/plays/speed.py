#!/usr/bin/env python3
"""Times the certified values of recorded plays, which are found and checked in one thread, beside DDS's
AnalyseAllPlaysBin with one thread, and prints the ratio of the processor seconds.

Usage: bench/plays/speed.py [--plays 200] [--best 0] [--seed 2026] [--program FILE]: so many random plays of whole
deals, and plays that are nearly best. It needs Debian's libdds-dev and g++. Without a program it builds
certified.rt.txt in a folder of its own. The runs take turns of ten plays. Each number has to be DDS's.
"""
import argparse
import random
import sys
import tempfile
from pathlib import Path

import plays
from certified import build, judged
from plays import dds

sys.path.append(str(plays.HERE.parent / "farm"))
from turns import told  # noqa: E402

TURN = 10


def turn(program, client, piece):
    """The processor seconds of both."""
    wanted, theirs = plays.analysed(client, piece, TURN)
    numbers, ours = judged(program, piece)
    if any(row[:len(answer)] != answer for row, answer in zip(numbers, wanted)):
        sys.exit("the numbers are not DDS's")
    return ours, theirs


def report(name, program, client, given):
    if not given:
        return
    turns = [turn(program, client, given[begin:begin + TURN]) for begin in range(0, len(given), TURN)]
    print(f"{len(given)} {name}: {sum(ours for ours, _ in turns):.1f} processor seconds, "
          f"DDS {sum(peers for _, peers in turns):.1f}")
    print(f"by DDS's time: {told(turns)}")


def main():
    parser = argparse.ArgumentParser()
    for name, value in (("--plays", 200), ("--best", 0), ("--seed", 2026)):
        parser.add_argument(name, type=int, default=value)
    parser.add_argument("--program", type=Path)
    given = parser.parse_args()
    dice = random.Random(given.seed)
    with tempfile.TemporaryDirectory() as name:
        folder = Path(name)
        program = given.program or build(folder)
        client = dds.compiled(folder, plays.HERE / "analyse_plays.cpp")
        begun = plays.starts(dice, given.plays, 13)
        report("random plays", program, client, plays.random_plays(dice, begun))
        begun = plays.starts(dice, given.best, 13)
        best = plays.nearly_best_plays(dice, begun, dds.solver(folder)) if given.best else []
        report("nearly best plays", program, client, best)


if __name__ == "__main__":
    main()
