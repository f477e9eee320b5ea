#!/usr/bin/env python3
"""Climbs to weights for the order of cards with which the search takes fewer steps, by the built program's own count.

Usage: bench/solver/climb.py [TURNS [BOARDS [SEED [FILE]]]], by default 100 turns, 20 boards of seed 1, and the weights
of the crate or those of FILE, as weights.py takes them. It builds the program of weights.py once, and writes other
numbers into copies of it. Each turn changes one number, in another way for each processor, and keeps the change that
takes the fewest steps, if they are fewer than before. At the end it tells the steps before and after, also on as many
boards of the seed behind SEED, by which nothing was chosen. The numbers go to standard output, what is told to standard
error. With the same words and as many processors it makes the same changes.
"""

import os
import random
import struct
import subprocess
import sys
import tempfile
import time
from concurrent.futures import ThreadPoolExecutor
from pathlib import Path

from weights import COUNT, ROOT, WEIGHTS, build, hands_of, numbers_in, read_numbers

# How many numbers each of the four sets has.
SIZE = COUNT // 4


def packed_sets(numbers):
    """The bytes of each set, as the program holds them."""
    return [struct.pack(f"<{SIZE}i", *numbers[start : start + SIZE]) for start in range(0, COUNT, SIZE)]


def packed_deals(deals):
    """The bytes of the deals, as the program holds them."""
    return b"".join(struct.pack("<4Q", *deal) for deal in deals)


def place_of(program, words):
    """Where these bytes stand in the program. They have to stand there once."""
    if program.count(words) != 1:
        sys.exit("the program doesn't hold its numbers once, one after another")
    return program.index(words)


class Program:
    """A built program, into which other numbers and deals can be written."""

    def __init__(self, folder, deals, numbers):
        self.folder = folder
        self.bytes = bytearray(build(folder, deals, numbers).read_bytes())
        self.sets = [place_of(self.bytes, one) for one in packed_sets(numbers)]
        self.deals = place_of(self.bytes, packed_deals(deals))

    def steps(self, name, numbers, deals):
        """How many steps an entry takes, with these numbers, on these deals."""
        text = bytearray(self.bytes)
        words = [*packed_sets(numbers), packed_deals(deals)]
        for place, one in zip([*self.sets, self.deals], words):
            text[place : place + len(one)] = one
        path = self.folder / name
        path.write_bytes(text)
        path.chmod(0o755)
        run = subprocess.run([str(path)], check=True, capture_output=True, text=True)
        entries, steps = map(int, run.stdout.split())
        return steps / entries


def changed(numbers, dice):
    """These numbers, of which one is another."""
    place = dice.randrange(COUNT)
    step = max(1, round(dice.expovariate(1 / 40))) * dice.choice((-1, 1))
    return numbers[:place] + [numbers[place] + step] + numbers[place + 1 :]


def climb(program, numbers, deals, turns, dice):
    """The numbers after so many turns, with the steps before and after."""
    workers = os.cpu_count() or 1
    least = first = program.steps("first", numbers, deals)
    with ThreadPoolExecutor(workers) as pool:
        for turn in range(turns):
            tries = [changed(numbers, dice) for _ in range(workers)]
            names = [f"try{worker}" for worker in range(workers)]
            steps = list(pool.map(program.steps, names, tries, [deals] * workers))
            if min(steps) < least:
                least = min(steps)
                numbers = tries[steps.index(least)]
                print(f"turn {turn + 1}: {least:.0f} steps an entry", file=sys.stderr)
    return numbers, first, least


def main():
    words = sys.argv[1:]
    turns, boards, seed = (int(words[i]) if len(words) > i else old for i, old in enumerate((100, 20, 1)))
    numbers = read_numbers(words[3]) if len(words) > 3 else numbers_in((ROOT / WEIGHTS).read_text())
    deals, others = hands_of(boards, seed), hands_of(boards, seed + 1)
    with tempfile.TemporaryDirectory() as name:
        program = Program(Path(name), deals, numbers)
        begun = time.monotonic()
        held = program.steps("others", numbers, others)
        after, first, least = climb(program, numbers, deals, turns, random.Random(seed))
        seconds = time.monotonic() - begun
        told = program.steps("others", after, others)
    print(f"seed {seed}: {first:.0f} steps an entry before, {least:.0f} after; {seconds:.0f} seconds", file=sys.stderr)
    print(f"seed {seed + 1}: {held:.0f} before, {told:.0f} after", file=sys.stderr)
    print(*after)


if __name__ == "__main__":
    main()
