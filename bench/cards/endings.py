#!/usr/bin/env python3
"""Compares `ddfarm cards` with the slow search (plain.py) on random endings of 2 to 5 cards a hand, after 0 to 3 legal
plays.

Usage: bench/cards/endings.py [ENDINGS [SEED [PROGRAM]]], by default 300 endings of seed 2026. The program has to be
built (run ./ddfarm once). The endings have cards of two, three or four suits. In four of five the cards lead to
different numbers of tricks. The printed bytes have to be those of the search's numbers, and the status 0. It prints the
first differences, and how many there are. The status is 1 if there is one.
"""
import random
import sys
from collections import Counter

import plain
from compare import PLAYS, PROGRAM, print_kinds, run
from dds import SHOWN
from positions import random_ending, words_of
from texts import cards_text

DEFAULTS = ("300", "2026", str(PROGRAM))
SIZES = (2, 3, 4, 5)
# One of so many endings is taken even if all cards lead to the same number.
AS_IT_COMES = 5


def endings_of(dice, count):
    """Random endings with the search's numbers."""
    kinds = [(size, plays) for size in SIZES for plays in PLAYS]
    taken = 0
    while taken < count:
        position = random_ending(dice, *kinds[taken % len(kinds)])
        tricks = plain.card_tricks(position)
        if taken % AS_IT_COMES == 0 or len(set(tricks.values())) > 1:
            taken += 1
            yield position, tricks


def main():
    given = tuple(sys.argv[1:])
    count, seed, program = given + DEFAULTS[len(given):]
    endings = list(endings_of(random.Random(int(seed)), int(count)))
    wrong = 0
    for position, tricks in endings:
        wanted = cards_text(position, tricks), 0
        printed = run([program, "cards", *words_of(position)])
        wrong += printed != wanted
        if printed != wanted and wrong <= SHOWN:
            print(f"cards {words_of(position)}: status {printed[1]}\n{printed[0]}the search:\n{wanted[0]}", end="")
    print_kinds([position for position, _ in endings])
    values = sorted(Counter(len(set(tricks.values())) for _, tricks in endings).items())
    print("different numbers: " + ", ".join(f"{number} in {times}" for number, times in values))
    print(f"{count} endings of seed {seed}, {wrong} different")
    return 1 if wrong else 0


if __name__ == "__main__":
    sys.exit(main())
