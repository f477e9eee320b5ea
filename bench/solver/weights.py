#!/usr/bin/env python3
"""Measures a set of weights for the order of cards: how many steps the solver's search takes an entry, on random boards
of a seed.

Usage: bench/solver/weights.py [BOARDS [SEED [FILE]]], by default 20 boards of seed 1 and the weights of the crate. FILE
has 1,408 whole numbers: those of `ONE`, `MODEST`, `EAGER` and `ALL`, in the order in which `weights.rt` of
`partition_search` has them. Whatever the weights, the numbers of tricks are the same; what changes is how many cards
are tried. The four declarers of a denomination share what is remembered, and the writing of graphs is not counted. It
copies the crates into a folder of its own, and proves and builds `partition_search` there as a program, with
weights.rt.txt for its main file. Boards that measure should not be boards that a set was tuned on.
"""

import random
import re
import shutil
import subprocess
import sys
import tempfile
from pathlib import Path

ROOT = Path(__file__).resolve().parent.parent.parent
HERE = Path(__file__).resolve().parent
WEIGHTS = Path("crates") / "partition_search" / "src" / "weights.rt"
CRATES = ("cards", "patterns", "pattern_store", "partition_search")
COUNT = 1408
# What a copy of a crate can do without.
LEFT_OUT = shutil.ignore_patterns("must-fail", "out")


def random_hands(dice):
    """The four words of a random deal: 13 bits a suit, spades lowest, and in a suit the deuce."""
    pack = list(range(52))
    dice.shuffle(pack)
    return [sum(1 << card for card in pack[start : start + 13]) for start in range(0, 52, 13)]


def numbers_in(text):
    """The numbers of a file of weights."""
    lists = re.findall(r": \[([-\d,\s]+)\]", text.split("pub(crate) static", 1)[1])
    return [int(number) for one in lists for number in re.findall(r"-?\d+", one)]


def with_weights(text, numbers):
    """The file of the weights with these numbers in place of its own."""
    head, tables = text.split("pub(crate) static", 1)
    rest = iter(numbers)
    lists = re.sub(r"(?<=: \[)[-\d,\s]+(?=\])", lambda old: re.sub(r"-?\d+", lambda _: str(next(rest)), old[0]), tables)
    return head + "pub(crate) static" + lists


def hands_of(boards, seed):
    """The words of so many random deals of a seed."""
    dice = random.Random(seed)
    return [random_hands(dice) for _ in range(boards)]


def build(folder, deals, numbers):
    """The program of these deals and weights, those of the crate if there are none."""
    crate = folder / "crates" / "partition_search"
    for name in CRATES:
        shutil.copytree(ROOT / "crates" / name, folder / "crates" / name, ignore=LEFT_OUT)
    library = crate / "src" / "lib.rt"
    modules = "\n".join(re.findall(r"^mod \w+;$", library.read_text(), re.M))
    library.unlink()
    hands = "\n".join("    [" + ", ".join(f"0x{word:x}" for word in deal) + "]," for deal in deals)
    text = (HERE / "weights.rt.txt").read_text()
    (crate / "src" / "main.rt").write_text(
        text.replace("@MODULES@", modules).replace("@COUNT@", str(len(deals))).replace("@HANDS@", hands)
    )
    weights = folder / WEIGHTS
    if numbers:
        weights.write_text(with_weights(weights.read_text(), numbers))
    kept = [line for line in (ROOT / "crates.txt").read_text().splitlines() if line.split(":")[0] in CRATES]
    (folder / "crates.txt").write_text("\n".join(kept) + "\n")
    subprocess.run(["git", "init", "-q", "."], cwd=folder, check=True)
    subprocess.run(["rt", "run"], cwd=crate, stdout=subprocess.DEVNULL)
    return crate / "out" / "partition_search"


def read_numbers(name):
    """The numbers of a file that has nothing else."""
    numbers = [int(word) for word in Path(name).read_text().split()]
    if len(numbers) != COUNT:
        sys.exit(f"{name} has {len(numbers)} numbers, and a set of weights has {COUNT}")
    return numbers


def main():
    boards = int(sys.argv[1]) if len(sys.argv) > 1 else 20
    seed = int(sys.argv[2]) if len(sys.argv) > 2 else 1
    numbers = read_numbers(sys.argv[3]) if len(sys.argv) > 3 else []
    with tempfile.TemporaryDirectory() as name:
        program = build(Path(name), hands_of(boards, seed), numbers)
        run = subprocess.run([str(program)], check=True, capture_output=True, text=True)
        entries, steps = map(int, run.stdout.split())
    print(f"{boards} boards of seed {seed}, {entries} entries: {steps / entries:.0f} steps an entry")


if __name__ == "__main__":
    main()
