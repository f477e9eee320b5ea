#!/usr/bin/env python3
"""Compares the certified values of recorded plays with DDS's AnalysePlayBin: whole deals with random legal plays, and
with plays of which nine in ten cards are among the best. One play in four ends early. Endings of two to five cards with
random plays are compared with the slow search (bench/cards/plain.py).

Usage: bench/plays/compare.py [--plays 1000] [--best 300] [--endings 300] [--seed 2026] [--program FILE]. It needs
Debian's libdds-dev and g++. Without a program it builds certified.rt.txt in a folder of its own. DDS has no number
after a card of the last trick, so these aren't compared. It prints how many numbers were compared, how many weren't
shown, and the first plays that are different. The status is 1 if there is one.
"""
import argparse
import random
import sys
import tempfile
from pathlib import Path

import plays
from certified import build, judged
from plays import dds

SHOWN, SIZES, PIECE = 5, (2, 3, 4, 5), 20


def different(name, program, given, wanted):
    """The plays that have other numbers. Prints how many numbers were compared."""
    compared, missing, wrong = 0, 0, []
    for begin in range(0, len(given), PIECE):
        piece = given[begin:begin + PIECE]
        for play, ours, theirs in zip(piece, judged(program, piece)[0], wanted(piece)):
            assert len(ours) == len(play.cards) + 1
            compared += len(theirs)
            missing += ours.count(None)
            if ours[:len(theirs)] != theirs:
                wrong.append(f"{plays.line_of(play)}{ours}\n{theirs}")
    print(f"{name}: {len(given)} plays, {compared} numbers, {missing} not shown, {len(wrong)} plays different",
          flush=True)
    return wrong


def by_dds(client):
    """DDS's numbers of plays: those after all cards but the last trick's."""

    def numbers(piece):
        answers, _ = plays.analysed(client, piece, 0)
        for play, answer in zip(piece, answers):
            assert len(answer) == min(len(play.cards), 4 * len(play.hands[0]) - 4) + 1
        return answers

    return numbers


def arguments():
    parser = argparse.ArgumentParser()
    for name, value in (("--plays", 1000), ("--best", 300), ("--endings", 300), ("--seed", 2026)):
        parser.add_argument(name, type=int, default=value)
    parser.add_argument("--program", type=Path)
    return parser.parse_args()


def main():
    given = arguments()
    dice = random.Random(given.seed)
    with tempfile.TemporaryDirectory() as name:
        folder = Path(name)
        program = given.program or build(folder)
        client = dds.compiled(folder, plays.HERE / "analyse_plays.cpp")
        endings = [ending for number in range(given.endings) for ending in
                   plays.random_plays(dice, plays.starts(dice, 1, SIZES[number % 4]))]
        wrong = different("endings", program, endings, lambda piece: map(plays.searched, piece))
        whole = plays.random_plays(dice, plays.starts(dice, given.plays, 13))
        wrong += different("random plays", program, whole, by_dds(client))
        begun = plays.starts(dice, given.best, 13)
        best = plays.nearly_best_plays(dice, begun, dds.solver(folder))
        wrong += different("nearly best plays", program, best, by_dds(client))
    print(*wrong[:SHOWN], sep="\n", end="\n" if wrong else "")
    return 1 if wrong else 0


if __name__ == "__main__":
    sys.exit(main())
