#!/usr/bin/env python3
"""Times `ddfarm plain` on endings of four cards a hand, and prints the slowest.

Usage: bench/plain/worst.py [ENDINGS [SEED]], at the root, after `./ddfarm plain` has built the program.
An ending of one card a hand is timed beside them: what it costs is the start of the process.
"""
import os
import random
import subprocess
import sys
import time

PROGRAM = os.path.join(os.path.dirname(__file__), "..", "..", "crates", "ddfarm", "out", "ddfarm")
RANKS = "23456789TJQKA"


def hand_text(cards):
    groups = []
    for suit in range(4):
        ranks = sorted((rank for s, rank in cards if s == suit), reverse=True)
        groups.append("".join(RANKS[rank] for rank in ranks))
    return ".".join(groups)


def ending(rng, suits):
    pack = [(suit, rank) for suit in range(suits) for rank in range(13)]
    cards = rng.sample(pack, 16)
    return "N:" + " ".join(hand_text(cards[i:i + 4]) for i in range(0, 16, 4))


def seconds(layout, leader, trump, times):
    best = 1e9
    for _ in range(times):
        start = time.perf_counter()
        subprocess.run([PROGRAM, "plain", layout, leader, trump], check=True, stdout=subprocess.DEVNULL)
        best = min(best, time.perf_counter() - start)
    return best


def main():
    count = int(sys.argv[1]) if len(sys.argv) > 1 else 1000
    rng = random.Random(int(sys.argv[2]) if len(sys.argv) > 2 else 1)
    start = seconds("N:A... K... Q... J...", "E", "NT", 50)
    timed = []
    for _ in range(count):
        layout = ending(rng, rng.choice([2, 3, 4, 4]))
        leader, trump = rng.choice("NESW"), rng.choice(["NT", "S", "H", "D", "C"])
        timed.append((seconds(layout, leader, trump, 1), layout, leader, trump))
    timed.sort(reverse=True)
    again = sorted(((seconds(l, s, t, 10), l, s, t) for _, l, s, t in timed[:20]), reverse=True)
    print(f"start of the process: {start * 1000:.2f} ms")
    print(f"of {count} endings of four cards a hand, the slowest, each the best of ten runs, less the start:")
    for taken, layout, leader, trump in again[:5]:
        print(f'{(taken - start) * 1000:8.2f} ms  plain "{layout}" {leader} {trump}')


main()
