#!/usr/bin/env python3
"""Compares `ddfarm cards` and `ddfarm leads` with DDS's SolveBoard: the tricks of each card of random positions of 6 to
13 cards a hand, after 0 to 3 legal plays, and the opening leads of random boards in all contracts.

Usage: bench/cards/compare.py [--positions 2000] [--boards 300] [--seed 2026] [--solvers 4] [PROGRAM]. It needs Debian's
libdds-dev and g++, and the program built (run ./ddfarm once). The printed bytes have to be those of DDS's numbers, and
the status 0. It prints the first differences, and how many there are. The status is 1 if there is one.
"""
import argparse
import random
import subprocess
import sys
import tempfile
from collections import Counter
from pathlib import Path

import dds
from dds import SHOWN
from positions import layout_of, random_hands, random_position, words_of
from texts import board_text, cards_text, leads_text

ROOT = Path(__file__).resolve().parent.parent.parent
PROGRAM = ROOT / "crates" / "ddfarm" / "out" / "ddfarm"
SIZES = range(6, 14)
PLAYS = range(4)
# How many positions and boards are compared at a time.
POSITIONS, BOARDS = 200, 20


def run(words, given=""):
    """The output and the status of a run. Messages come after the output."""
    done = subprocess.run(words, input=given, capture_output=True, text=True, check=False)
    return done.stdout + done.stderr, done.returncode


def boards_text(boards):
    """The PBN text of boards that are named by their numbers."""
    return "\n".join(f'[Board "{name}"]\n[Deal "{layout_of(hands)}"]\n' for name, hands in enumerate(boards, 1))


def pieces(things, size):
    return (things[begin:begin + size] for begin in range(0, len(things), size))


def different_positions(program, peer, positions):
    """The positions for which other numbers are printed."""
    for piece in pieces(positions, POSITIONS):
        for position, tricks in zip(piece, dds.scores(peer, piece)[0]):
            words, wanted = words_of(position), (cards_text(position, tricks), 0)
            printed = run([str(program), "cards", *words])
            if printed != wanted:
                yield f"cards {words}: status {printed[1]}\n{printed[0]}DDS:\n{wanted[0]}"


def lines_beside(text, printed):
    """The deal of a board, and the first of its lines that are not printed."""
    lines = set(printed.splitlines())
    return "\n".join([text.splitlines()[1], *[line for line in text.splitlines() if line not in lines][:SHOWN]])


def different_boards(program, peer, boards, solvers):
    """The boards for which other leads are printed, and the runs that end otherwise."""
    for piece in pieces(boards, BOARDS):
        numbers = list(zip(piece, dds.board_scores(peer, piece)[0]))
        printed, status = run([str(program), "leads", "--solvers", str(solvers)], boards_text(piece))
        if (printed, status) == (leads_text(numbers), 0):
            continue
        texts = [board_text(name, *board) for name, board in enumerate(numbers, 1)]
        missing = [text for text in texts if text not in printed]
        yield from (f"leads, not printed: {lines_beside(text, printed)}" for text in missing)
        if not missing:
            yield f"leads: status {status}, or the bytes between the boards"


def print_kinds(positions):
    """Prints how many positions there are by the cards of a hand, and by the cards played."""
    for name, count in (("cards a hand", lambda position: len(position.hands[0])),
                        ("played", lambda position: len(position.played))):
        kinds = sorted(Counter(map(count, positions)).items())
        print(f"{name}: " + ", ".join(f"{number} in {times}" for number, times in kinds))


def arguments():
    parser = argparse.ArgumentParser()
    for name, value in (("--positions", 2000), ("--boards", 300), ("--seed", 2026), ("--solvers", 4)):
        parser.add_argument(name, type=int, default=value)
    parser.add_argument("program", nargs="?", type=Path, default=PROGRAM)
    return parser.parse_args()


def main():
    given = arguments()
    dice = random.Random(given.seed)
    kinds = [(size, plays) for size in SIZES for plays in PLAYS]
    positions = [random_position(dice, *kinds[number % len(kinds)]) for number in range(given.positions)]
    boards = [random_hands(dice, 13) for _ in range(given.boards)]
    with tempfile.TemporaryDirectory() as name:
        peer = dds.solver(Path(name))
        wrong = list(different_positions(given.program, peer, positions))
        wrong_boards = list(different_boards(given.program, peer, boards, given.solvers))
    print(*wrong[:SHOWN], *wrong_boards[:SHOWN], sep="\n", end="\n" if wrong or wrong_boards else "")
    print_kinds(positions)
    print(f"{len(positions)} positions, {len(wrong)} different; {len(boards)} boards, {len(wrong_boards)} different")
    return 1 if wrong or wrong_boards else 0


if __name__ == "__main__":
    sys.exit(main())
