#!/usr/bin/env python3
"""Writes evidence with bytes changed, and what `ddfarm audit` says of it, for the checker in page/.

Usage: bench/page/sections.py PROGRAM BOARD EVIDENCE STEP SEED >CASES. BOARD is a PBN file with one deal, whose numbers
EVIDENCE shows. One byte in STEP is changed, in turn over the sections of the deal, each alone in its file; and sections
are joined, cut off and said twice. Then each number alone is another than the evidence shows. A case is as in cases.py,
its words the deal and its numbers, and its line how many of them are shown, how many pieces are damaged, and where the
first begins.
"""
import random
import re
import subprocess
import sys

from cases import changed

EDITS = [(b"side NS", b"side EW"), (b"side EW", b"side NS"), (b" 0 -", b" 0 0"), (b"- 0\n", b"- 999999\n"),
         (b"- 0\n", b"- 1000000\n"), (b"claims 4", b"claims 5"), (b" 13 ", b" 14 "), (b"AK", b"KA")]


def audit(program, board, evidence):
    """The output of an audit: its pages, and the line about damage."""
    done = subprocess.run([program, "audit", "/dev/stdin", board], input=evidence, capture_output=True, check=False)
    if done.returncode not in (0, 3):
        sys.exit(f"audit: status {done.returncode}, {done.stderr}")
    return done.stdout.decode(), done.stderr.decode()


def line_of(said):
    """What an audit says: results, damaged pieces, and the byte of the first."""
    page, told = said
    results = re.search(r"(?m)^; table incomplete: (\d+) of 20$", page)
    damage = re.search(r"evidence: (\d+) sections? (?:is|are) damaged,(?: the first)? at byte (\d+)", told)
    return f"{results[1] if results else 20} shown, {damage[1] if damage else 0} damaged" + (
        f", at byte {damage[2]}" if damage else "")


def with_repeats(section):
    """The section with the last claim's declarer as the one before, or the claim itself twice."""
    lines = section.splitlines(True)
    last = 3 + int(lines[3].split()[1])
    yield b"".join([*lines[:last], lines[last - 1][:1] + lines[last][1:], *lines[last + 1:]])
    yield b"".join([*lines[:last - 1], lines[last], *lines[last:]])


def other_tables(numbers):
    """The numbers with one of them changed, which leaves 19 that the evidence shows."""
    for place, number in enumerate(numbers):
        declarer, trump, tricks = number.split(" ")
        for other in {(int(tricks) + 1) % 14, (int(tricks) + 13) % 14}:
            yield [*numbers[:place], f"{declarer} {trump} {other}", *numbers[place + 1:]]


def texts(sections, step, seed):
    source = random.Random(seed)
    whole = b"".join(sections)
    yield from [b"", b"\n", whole, whole * 2, whole[:-1], whole[1:], whole + b"\n", whole + b"DDE 1",
                whole + b"DDE 1\n", b"DDE 1\n" + whole, b"x\n" + whole, whole.replace(b"\n", b"\r\n"),
                b"".join(reversed(sections))]
    for section in sections:
        yield from (section.replace(old, new) for old, new in EDITS)
        yield from with_repeats(section)
        yield from (changed(source, section, place) for place in range(0, len(section), step))
        for _ in range(len(section) // step // 10):
            lines = section.splitlines(True)
            place = source.randrange(len(lines))
            lines[place:place + 1] = source.choice([[], [lines[place]] * 2, [source.choice(lines)]])
            yield b"".join(lines)


def main():
    program, board, evidence, step, seed = sys.argv[1:]
    with open(evidence, "rb") as file:
        pieces = [b"DDE 1\n" + rest for rest in file.read().split(b"DDE 1\n")[1:]]
    page, _ = audit(program, board, b"".join(pieces))
    deal = re.search(r'\[Deal "(.*)"\]', page)[1]
    numbers = [f"{row[0]} {row[1]} {row[2]}" for row in re.findall(r"(?m)^([NESW]) +(NT|[SHDC]) +(\d+)$", page)]
    sections = [piece for piece in pieces if piece.split(b"\n")[1] == b"deal " + deal.encode()]
    for text in texts(sections, int(step), seed):
        write_case(deal, numbers, line_of(audit(program, board, text)), text)
    whole = b"".join(sections)
    for table in other_tables(numbers):
        write_case(deal, table, "19 shown, 0 damaged", whole)


def write_case(deal, numbers, line, text):
    sys.stdout.buffer.write(f"{len(text)}\t0\t{deal}|{','.join(numbers)}\t{line}\n".encode() + text)


main()
