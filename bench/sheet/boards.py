#!/usr/bin/env python3
"""Prints a PBN text of random boards.

Usage: bench/sheet/boards.py COUNT SEED [BOARD...], the boards with which another section begins
"""
import random
import sys

RANKS = "AKQJT98765432"


def deal(source):
    """A Deal value."""
    pack = source.sample([(suit, rank) for suit in range(4) for rank in RANKS], 52)
    hands = (sorted(pack[13 * hand:13 * hand + 13], key=lambda card: RANKS.index(card[1])) for hand in range(4))
    return "N:" + " ".join(".".join("".join(rank for suit, rank in hand if suit == wanted) for wanted in range(4))
                           for hand in hands)


def main():
    count, source, starts = int(sys.argv[1]), random.Random(sys.argv[2]), list(map(int, sys.argv[3:]))
    for number in range(1, count + 1):
        section = "ABCDEFGH"[sum(number >= start for start in starts)]
        print('[Event "Spring Pairs"]\n[Site "Millbrook"]\n[Date "2026.11.28"]')
        print(f'[Section "{section}"]\n[Board "{number}"]\n[Deal "{deal(source)}"]\n')


main()
