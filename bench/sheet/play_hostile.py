#!/usr/bin/env python3
"""Sees that values of a PBN text are only text on a sheet of plays.

Usage: bench/sheet/play_hostile.py PROGRAM. Each value of hostile.py is the Board of a game with a play, and of one
without a contract. Each has to be shown, and the tags have to be those of the same text with other values, to the byte.
A contract is shown only if it is one, so it has no other values. Prints how many values it tried, or what is wrong,
with status 1.
"""
import subprocess
import sys

import reading
from hostile import game, hostile_values, shown
from play_reading import faults_of

PLAYED = (b"Deal", b"N:A... K... Q... J..."), (b"Declarer", b"S"), (b"Play", b"W")


def sheet(program, names):
    """The page that the program writes of two games with each of these names, read."""
    text = b"".join(game([(b"Board", name), *PLAYED, *contract]) for name in names
                    for contract in ([(b"Contract", b"1NT")], []))
    done = subprocess.run([program, "plays", "--sheet"], input=text, stdout=subprocess.PIPE, stderr=subprocess.DEVNULL,
                          timeout=300)
    if done.returncode != 3:
        sys.exit(f"the status is {done.returncode}, not 3")
    return reading.read(done.stdout.decode())


def main():
    values = hostile_values()
    page, plain = (sheet(sys.argv[1], names) for names in (values, [b"1"] * len(values)))
    faults = faults_of(page)
    if page.tags != plain.tags:
        faults.append("other tags than those of plain values")
    found = [article.texts("h2") for article in page.top.all("article")]
    faults += [f"shown {one}, not {other}" for one, other in
               zip(found, [[shown(value)] for value in values for _ in range(2)], strict=True) if one != other]
    if faults:
        sys.exit("\n".join(faults[:20]))
    print(f"{len(values)} values are shown as text")


if __name__ == "__main__":
    main()
