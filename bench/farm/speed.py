#!/usr/bin/env python3
"""Times `ddfarm table` with 1, 2 and 4 solvers, each with 2 checkers, beside DDS's CalcAllTables with as many threads,
over the same random boards.

Usage: bench/farm/speed.py [BOARDS [SEED [ROUNDS]]], by default 100 boards of seed 2026 and three rounds. It needs
Debian's libdds-dev and g++, and the program built (run ./ddfarm once). Of each it prints the seconds by the wall and of
all processors together, the greatest memory, and how many times as fast it was as with one; every table has to be
DDS's. The runs take turns, and the fastest of each is told.
"""
import os
import subprocess
import sys
import tempfile
import time
from pathlib import Path

ROOT = Path(__file__).resolve().parent.parent.parent
HERE = Path(__file__).resolve().parent
PROGRAM = ROOT / "crates" / "ddfarm" / "out" / "ddfarm"
THREADS = (1, 2, 4)
DEFAULTS = ("100", "2026", "3")


def compiled(folder, source):
    program = folder / source.stem
    subprocess.run(["g++", "-O2", "-std=c++17", "-o", str(program), str(source), "-ldds"], check=True)
    return program


def tables_of(folder, words):
    """DDS's numbers by layout."""
    program = compiled(folder, HERE.parent / "solver" / "make_boards.cpp")
    run = subprocess.run([str(program), *words], check=True, capture_output=True, text=True)
    tables = {}
    for line in run.stdout.splitlines():
        layout, declarer, trump, tricks = line.split("|")
        tables.setdefault(layout, {})[declarer, trump] = int(tricks)
    return tables


def printed_tables(text):
    """The numbers of each printed table by declarer and denomination."""
    tables = []
    for game in text.split("[Board ")[1:]:
        rows = (line.split() for line in game.splitlines() if line[:1] in "NSEW" and len(line.split()) == 3)
        tables.append({(declarer, trump): int(tricks) for declarer, trump, tricks in rows})
    return tables


def ours(folder, solvers, tables, checkers=2, program=PROGRAM):
    """Seconds by the wall and of all processors, and megabytes, of a run of the program."""
    start = time.monotonic()
    with (folder / "boards.pbn").open() as source, (folder / "tables.pbn").open("w") as sink:
        words = [str(program), "table", "--solvers", str(solvers), "--checkers", str(checkers)]
        process = subprocess.Popen(words, stdin=source, stdout=sink)
        _, status, usage = os.wait4(process.pid, 0)
    process.returncode = os.waitstatus_to_exitcode(status)
    wall = time.monotonic() - start
    if process.returncode or printed_tables((folder / "tables.pbn").read_text()) != list(tables.values()):
        sys.exit(f"with {solvers} solvers the tables are not DDS's (status {process.returncode})")
    return wall, usage.ru_utime + usage.ru_stime, usage.ru_maxrss / 1024


def theirs(folder, program, threads):
    """Seconds by the wall and of all processors of DDS."""
    with (folder / "deals").open() as source:
        run = subprocess.run([str(program), str(threads)], stdin=source, check=True, capture_output=True, text=True)
    wall, processors = run.stdout.split()
    return int(wall) / 1e6, int(processors) / 1e6, 0.0


def main():
    given = tuple(sys.argv[1:])
    boards, seed, rounds = given + DEFAULTS[len(given):]
    with tempfile.TemporaryDirectory() as name:
        folder = Path(name)
        tables = tables_of(folder, [boards, seed])
        games = "\n".join(f'[Board "{number}"]\n[Deal "{layout}"]\n' for number, layout in enumerate(tables, 1))
        (folder / "boards.pbn").write_text(games)
        (folder / "deals").write_text("\n".join(tables) + "\n")
        program = compiled(folder, HERE / "all_tables.cpp")
        best = {}
        for _ in range(int(rounds)):
            for threads in THREADS:
                for kind, run in (("ddfarm", ours(folder, threads, tables)), ("DDS", theirs(folder, program, threads))):
                    best[kind, threads] = min(best.get((kind, threads), run), run)
        print(f"{len(tables)} boards, {os.cpu_count()} processors")
        for kind in ("ddfarm", "DDS"):
            for threads in THREADS:
                wall, processors, memory = best[kind, threads]
                gain = best[kind, 1][0] / wall
                print(f"{kind} {threads}: {wall:.1f} s by the wall, {processors:.1f} of processors,", end=" ")
                print(f"{gain:.2f} times as fast as 1, {memory:.0f} MB")


if __name__ == "__main__":
    main()
