#!/usr/bin/env python3
"""Asks DDS for the tricks of each card (solve_board.cpp). Run as a program, it tests what DDS answers: each card of
random endings beside the slow search (plain.py), and the best opening leads of random boards beside CalcDDtable.

Usage: bench/cards/dds.py [ENDINGS [BOARDS [SEED]]], by default 300 endings and 20 boards of seed 2026. It needs
Debian's libdds-dev and g++. It prints the numbers of both and the first differences. The status is 1 if there is one.
"""
import random
import subprocess
import sys
import tempfile
from pathlib import Path

import plain
from positions import SEATS, card_of, hands_of, opening_positions, random_ending, trump_text, words_of

HERE = Path(__file__).resolve().parent
sys.path.insert(0, str(HERE.parent / "farm"))  # Its speed.py, not the one of this folder.
from speed import compiled, tables_of  # noqa: E402

DEFAULTS = ("300", "20", "2026")
SIZES = (1, 2, 3, 4, 5)
SHOWN = 5


def solver(folder):
    """The program that asks DDS."""
    return compiled(folder, HERE / "solve_board.cpp")


def line_of(position):
    """The line that names a position."""
    layout, leader, trump, *played = words_of(position)
    return f"{layout}|{leader}|{trump}|{' '.join(played)}\n"


def tricks_in(line):
    """The tricks by card. No card may be named twice."""
    words = line.split()
    tricks = {card_of(card): int(number) for card, number in zip(words[::2], words[1::2])}
    assert len(words) == 2 * len(tricks), line
    return tricks


def scores(program, positions, batch=0):
    """The tricks of each position by card, and the processor seconds of DDS. A batch of 0 is SolveBoard."""
    given = "".join(map(line_of, positions))
    run = subprocess.run([str(program), str(batch)], input=given, check=True, capture_output=True, text=True)
    answers = list(map(tricks_in, run.stdout.splitlines()))
    assert len(answers) == len(positions)
    return answers, int(run.stderr) / 1e6


def board_scores(program, boards, batch=0):
    """The tricks of each board's opening leads by leader and denomination, and the processor seconds of DDS."""
    positions = [position for hands in boards for position in opening_positions(hands)]
    answers, seconds = scores(program, positions, batch)
    named = [((position.leader, position.trump), tricks) for position, tricks in zip(positions, answers)]
    return [dict(named[begin:begin + 20]) for begin in range(0, len(named), 20)], seconds


def different_endings(program, count, dice):
    endings = [random_ending(dice, dice.choice(SIZES), dice.randrange(4)) for _ in range(count)]
    for position, tricks in zip(endings, scores(program, endings)[0]):
        if tricks != plain.card_tricks(position):
            yield f"{line_of(position)} DDS {tricks}, the search {plain.card_tricks(position)}"


def different_boards(program, tables):
    boards, _ = board_scores(program, list(map(hands_of, tables)))
    for (layout, table), board in zip(tables.items(), boards):
        for (leader, trump), tricks in board.items():
            declarer = SEATS[(leader + 3) % 4]
            if max(tricks.values()) != 13 - table[declarer, trump_text(trump)]:
                yield f"{layout} {declarer} {trump_text(trump)}: the best lead isn't CalcDDtable's"


def main():
    given = tuple(sys.argv[1:])
    endings, boards, seed = given + DEFAULTS[len(given):]
    with tempfile.TemporaryDirectory() as name:
        program = solver(Path(name))
        dice = random.Random(int(seed))
        wrong = list(different_endings(program, int(endings), dice))
        wrong += different_boards(program, tables_of(Path(name), [boards, seed]))
    print(*wrong[:SHOWN], sep="\n", end="\n" if wrong else "")
    print(f"{endings} endings and {boards} boards of seed {seed}: {len(wrong)} different")
    return 1 if wrong else 0


if __name__ == "__main__":
    sys.exit(main())
