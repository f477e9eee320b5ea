#!/usr/bin/env python3
"""Compares the pars and par contracts of crates/par_tests with those of DDS's DealerPar.

Usage: bench/par/compare.py [--tables 20000] [--deals 3500] [--seed 2026] [--keep FOLDER]. It needs Debian's libdds-dev
and g++. `rt run` builds crates/par_tests, and proves it first if that has not been done.

There are three kinds of tables, and of each kind as many as --tables says. Each table is asked for with each dealer and
each vulnerability.

- 13 random: numbers with which the better hands of both sides take at most 13 tricks in each denomination. No answer
  depends on the dealer.
- 14 random: they take at most 14, so both sides may make the same bid, and it matters who can bid it first. DDS asks
  which hand can, and `par` which side deals. So here the two hands of a side take equally many tricks.
- Deals: tables of random deals by DDS. DDS needs about 0.3 processor seconds for a deal. So it solves the number that
  --deals says, with two threads. After them come the same deals with suits and seats renamed at random. --keep keeps
  the solved tables in a folder, and a later run with the same seed begins with them.

If both sides can make a bid, DDS lists it as a contract of only one: that of the first hand, from the dealer on, that
makes it. `par` lists it for each side that loses nothing by it. So the comparison leaves out the contract of the other
side.

Each row whose answers differ is printed with both answers. The status is 1 if there is one.
"""
import argparse
import random
import subprocess
import sys
import tempfile
from pathlib import Path

HERE = Path(__file__).resolve().parent
CRATE = HERE.parent.parent / "crates" / "par_tests"
THREADS = 2
SEATS = "NESW"
DENOMINATIONS = "NSHDC"
VULNERABLE = ("None", "NS", "EW", "All")
# For tables in which both sides take at most 13 or 14 tricks together: the most tricks of a hand in a table, and how
# many tricks fewer its partner may take.
MOST = {13: (6, 7) + 14 * (13,), 14: (7, 13)}
WORSE = {13: (0, 0, 0, 1, 2), 14: (0,)}
# How many tricks fewer than 13 or 14 both sides take.
LESS = (0, 0, 0, 0, 1, 1, 2, 3)


def compiled(folder, name):
    program = folder / name
    subprocess.run(["g++", "-O2", "-std=c++17", "-o", str(program), str(HERE / f"{name}.cpp"), "-ldds"], check=True)
    return program


def tables_of_deals(keep, folder, count, seed):
    """The tables of the first deals of the seed: the tricks of each seat, with no-trump first."""
    kept = keep / f"deals-{seed}"
    kept.touch()
    done = len(kept.read_text().splitlines())
    if done < count:
        words = [str(compiled(folder, "deals")), str(done), str(count), str(seed), str(THREADS)]
        with kept.open("a") as sink:
            subprocess.run(words, check=True, stdout=sink)
    solved = [list(map(int, line.split())) for line in kept.read_text().splitlines()[:count]]
    return [{seat: tricks[5 * row:5 * row + 5] for row, seat in enumerate("NSEW")} for tricks in solved]


def renamed(table, dice):
    """The table after the suits are renamed and the seats are turned."""
    suits = [0] + dice.sample(range(1, 5), 4)
    turn = dice.randrange(4)
    return {SEATS[(SEATS.index(seat) + turn) % 4]: [tricks[suit] for suit in suits] for seat, tricks in table.items()}


def random_numbers(together, dice):
    """A table of random numbers. The better hands of both sides take at most these tricks together."""
    most = dice.choice(MOST[together])
    table = {seat: [] for seat in SEATS}
    for _ in range(5):
        north_south = dice.randint(0, most)
        east_west = min(most, max(0, together - dice.choice(LESS) - north_south))
        for seats, tricks in (("NS", north_south), ("EW", east_west)):
            better, worse = dice.sample(seats, 2)
            table[better].append(tricks)
            table[worse].append(max(0, tricks - dice.choice(WORSE[together])))
    return table


def rows_of(table):
    """The rows that ask for par of the table, for each dealer and vulnerability."""
    tricks = "  ".join(" ".join(map(str, table[seat])) for seat in "NSEW")
    return [f"par {dealer} {vulnerable}  {tricks}\n" for dealer in SEATS for vulnerable in VULNERABLE]


def answers(words, rows, folder):
    """The answers of a program, by row."""
    with rows.open() as source:
        run = subprocess.run(words, stdin=source, cwd=folder, stdout=subprocess.PIPE, check=True, text=True)
    lines = run.stdout.splitlines()
    return list(zip(lines[::2], lines[1::2]))


def is_taken(row, contract):
    """Whether the first hand from the dealer on that makes the bid of a contract as `EW 1H+2` is of the other side."""
    _, dealer, _, *tricks = row.split()
    declarers, bid = contract.split()
    column = DENOMINATIONS.index(bid[1])
    order = (SEATS + SEATS)[SEATS.index(dealer):][:4]
    makes = (seat for seat in order if int(tricks[5 * "NSEW".index(seat) + column]) >= int(bid[0]) + 6)
    return (next(makes, declarers[0]) in "NS") != (declarers[0] in "NS")


def without_taken(row, answer):
    """The answer without the contracts that DDS doesn't list."""
    score, contracts = answer.split(": ")
    if contracts == "Pass":
        return answer
    return f"{score}: " + ", ".join(text for text in contracts.split(", ") if not is_taken(row, text))


def compare(kind, tables, folder, program):
    """Prints the rows that are answered differently, and the numbers of tables, rows and differences."""
    rows = folder / "rows"
    rows.write_text("".join(row for table in tables for row in rows_of(table)))
    theirs = answers([str(program)], rows, folder)
    ours = answers(["rt", "run", "--jobs", "1"], rows, CRATE)
    asked = rows.read_text().splitlines()
    if asked != [row for row, _ in ours] or asked != [row for row, _ in theirs]:
        sys.exit(f"{kind}: a program did not answer each row")
    different = shorter = 0
    for (row, our), (_, their) in zip(ours, theirs):
        if our != their and without_taken(row, our) == their:
            shorter += 1
        elif our != their:
            different += 1
            print(f"{row}\n  par {our}\n  DDS {their}")
    print(f"{kind}: {len(tables)} tables, {len(asked)} rows, {shorter} with a contract left out,", end=" ")
    print(f"{different} different", flush=True)
    return different


def main():
    parser = argparse.ArgumentParser()
    for name, value in (("--tables", 20000), ("--deals", 3500), ("--seed", 2026)):
        parser.add_argument(name, type=int, default=value)
    parser.add_argument("--keep", type=Path)
    given = parser.parse_args()
    different = 0
    with tempfile.TemporaryDirectory() as name:
        folder = Path(name)
        program = compiled(folder, "dealer_par")
        dice = random.Random(given.seed)
        for together in (13, 14):
            numbers = [random_numbers(together, dice) for _ in range(given.tables)]
            different += compare(f"{together} random", numbers, folder, program)
        solved = tables_of_deals(given.keep or folder, folder, min(given.deals, given.tables), given.seed)
        others = [renamed(solved[place % len(solved)], dice) for place in range(len(solved), given.tables)]
        different += compare(f"{len(solved)} deals", solved + others, folder, program)
    return 1 if different else 0


if __name__ == "__main__":
    sys.exit(main())
