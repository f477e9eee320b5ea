#!/usr/bin/env python3
"""Fills the tables of many random boards with four solvers at the default budget and tries, and counts those that are
complete and those that are DDS's.

Usage: bench/farm/many.py [BOARDS [SEED]], by default 1,000 boards of seed 1000. It needs Debian's libdds-dev and g++,
and the program built (run ./ddfarm once).
"""
import subprocess
import sys
import tempfile
import time
from pathlib import Path

from speed import PROGRAM, printed_tables, tables_of

DEFAULTS = ("1000", "1000")


def main():
    given = tuple(sys.argv[1:])
    words = list(given + DEFAULTS[len(given):])
    with tempfile.TemporaryDirectory() as name:
        tables = tables_of(Path(name), words)
    games = "\n".join(f'[Board "{number}"]\n[Deal "{layout}"]\n' for number, layout in enumerate(tables, 1))
    start = time.monotonic()
    run = subprocess.run([str(PROGRAM), "table", "--solvers", "4"], input=games, capture_output=True, text=True)
    printed = printed_tables(run.stdout)
    complete = sum(len(table) == 20 for table in printed)
    same = sum(table == numbers for table, numbers in zip(printed, tables.values()))
    print(f"{len(tables)} boards of seed {words[1]}: {complete} tables complete, {same} DDS's, "
          f"status {run.returncode},", end=" ")
    print(f"{time.monotonic() - start:.0f} s")


if __name__ == "__main__":
    main()
