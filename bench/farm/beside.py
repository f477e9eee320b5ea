#!/usr/bin/env python3
"""Times `ddfarm table` with one solver and one checker beside DDS's CalcAllTables with one thread, and with four
solvers beside four threads, over the same random boards; and beside other builds of the program where some are named.

Usage: bench/farm/beside.py [BOARDS [SEED [PROGRAM ..]]], by default 300 boards of seed 2026. It needs Debian's
libdds-dev and g++, and the program built (run ./ddfarm once). The runs take turns: of five boards with one thread, of
twenty with four. By DDS's time it prints the ratio of the processors' time with one and of the wall with four, over all
turns, in the hardest and in the easiest tenth, and how far the turns spread. Of another build it prints the same by our
own time. Every table has to be DDS's.
"""
import os
import sys
import tempfile
from pathlib import Path

from speed import HERE, PROGRAM, compiled, ours, tables_of, theirs
from turns import pieces_of, told, write_boards

DEFAULTS = ("300", "2026")
WALL, PROCESSORS, MEMORY = range(3)
# By the number of threads: how many boards a turn has, which seconds are compared, and how many checkers there are.
TURNS = {1: (5, PROCESSORS, 1), 4: (20, WALL, 2)}


def compare(folder, dds, tables, programs, threads):
    """Prints how the programs compare with so many threads."""
    size, place, checkers = TURNS[threads]
    seconds, memory = {number: [] for number in range(-1, len(programs))}, 0.0
    for piece in pieces_of(tables, size):
        write_boards(folder, piece)
        seconds[-1].append(theirs(folder, dds, threads)[place])
        for number, program in enumerate(programs):
            run = ours(folder, threads, piece, checkers=checkers, program=program)
            seconds[number].append(run[place])
            memory = max(memory, run[MEMORY])
    for number, program in enumerate(programs):
        print(f"{threads}, {program.name} {number}: {told(list(zip(seconds[number], seconds[-1])))}")
        if number > 0:
            print(f"{threads}, {program.name} {number} by 0: {told(list(zip(seconds[number], seconds[0])))}")
    print(f"{threads}: {memory:.0f} MB at most", flush=True)


def main():
    given = tuple(sys.argv[1:])
    boards, seed = given[:2] + DEFAULTS[len(given):]
    programs = [PROGRAM, *map(Path, given[2:])]
    with tempfile.TemporaryDirectory() as name:
        folder = Path(name)
        tables = tables_of(folder, [boards, seed])
        dds = compiled(folder, HERE / "all_tables.cpp")
        print(f"{len(tables)} boards of seed {seed}, {os.cpu_count()} processors; by DDS's time:")
        for threads in TURNS:
            compare(folder, dds, tables, programs, threads)


if __name__ == "__main__":
    main()
