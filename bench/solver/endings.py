#!/usr/bin/env python3
"""Solves every entry of random endings of 1 to 12 cards a hand with `ddfarm solve`, gives each answer to `ddfarm
check`, and compares the number that it accepts with DDS's.

Usage: bench/solver/endings.py [ENDINGS], by default 17 of each size; their seed is 5000 and the number of cards a hand.
It needs Debian's libdds-dev and g++, and the built program. DDS's CalcDDtable doesn't play a single card a hand; there
the one trick is looked at here.
"""

import subprocess
import sys
import tempfile
from pathlib import Path

ROOT = Path(__file__).resolve().parent.parent.parent
HERE = Path(__file__).resolve().parent
PROGRAM = ROOT / "crates/ddfarm/out/ddfarm"
RANKS = "23456789TJQKA"


def winner(layout, leader, trump):
    """The seat that wins the one trick of a layout of one card a hand."""
    cards = []
    for hand in layout[2:].split(" "):
        suits = hand.split(".")
        cards.append(next((suit, RANKS.index(holding)) for suit, holding in zip("SHDC", suits) if holding))
    deciding = trump if any(card[0] == trump and cards[leader][0] != trump for card in cards) else cards[leader][0]
    return max((seat for seat in range(4) if cards[seat][0] == deciding), key=lambda seat: cards[seat][1])


def entries_of(program, count, cards):
    """Layout, declarer, denomination and number of each entry."""
    words = [str(program), str(count), str(5000 + cards), str(cards)]
    for line in subprocess.run(words, check=True, capture_output=True, text=True).stdout.splitlines():
        layout, declarer, trump, tricks = line.split("|")
        if cards == 1:
            seat = "NESW".index(declarer)
            tricks = int(winner(layout, (seat + 1) % 4, trump) % 2 == seat % 2)
        yield layout, declarer, trump, int(tricks)


def solved(layout, declarer, trump):
    """What `check` says of the answer of `solve`."""
    words = (layout, declarer, trump)
    answer = subprocess.run([str(PROGRAM), "solve", *words], capture_output=True).stdout
    return subprocess.run([str(PROGRAM), "check", *words], input=answer, capture_output=True).stdout.decode().strip()


def main():
    count = int(sys.argv[1]) if len(sys.argv) > 1 else 17
    total = wrong = 0
    with tempfile.TemporaryDirectory() as name:
        program = Path(name) / "make_boards"
        subprocess.run(["g++", "-O2", "-o", str(program), str(HERE / "make_boards.cpp"), "-ldds"], check=True)
        for cards in range(1, 13):
            for layout, declarer, trump, tricks in entries_of(program, count, cards):
                total += 1
                said = solved(layout, declarer, trump)
                if said != f"accepted {tricks}":
                    wrong += 1
                    print(f"{layout} {declarer} {trump}: {said!r}, and DDS says {tricks}")
    print(f"{total} entries, {wrong} wrong or without an answer")
    return 1 if wrong else 0


if __name__ == "__main__":
    sys.exit(main())
