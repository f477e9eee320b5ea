#!/usr/bin/env python3
"""Times `ddfarm table` with one solver and one checker on 4,096 boards of one deal beside 4,096 boards of which the
first alone has that deal, by turns.

Usage: bench/tables/shared.py. The program has to be built (run ./ddfarm once). It prints the least processor time of
five runs on each text and how many bytes were printed. All tables of the first text have to be the one of the second.
"""
import os
import random
import subprocess
import tempfile

from speed import BOARDS, PROGRAM, deal

RUNS = 5


def text(shared):
    layout = deal(random.Random(7))
    deals = (layout if shared or number == 1 else "?" for number in range(1, BOARDS + 1))
    return "\n".join(f'[Board "{number}"]\n[Deal "{value}"]\n' for number, value in enumerate(deals, 1)).encode()


def run(games):
    """The processor seconds of a run, and what it printed."""
    with tempfile.TemporaryFile() as given, tempfile.TemporaryFile() as printed:
        given.write(games)
        given.seek(0)
        words = [PROGRAM, "table", "--solvers", "1", "--checkers", "1"]
        process = subprocess.Popen(words, stdin=given, stdout=printed, stderr=subprocess.DEVNULL)
        _, status, usage = os.wait4(process.pid, 0)
        printed.seek(0)
        return usage.ru_utime + usage.ru_stime, printed.read().decode(), os.waitstatus_to_exitcode(status)


def table_lines(printed):
    """The lines of the tables, but for the boards' names, and without those that say that there is none."""
    others = ("%", "[Board", '[Deal "?"]', "; table incomplete: 0 of 20")
    return [line for line in printed.splitlines() if line and not line.startswith(others)]


def main():
    texts = {"one deal on 4,096 boards": text(True), "one board of 4,096 has a deal": text(False)}
    runs = {name: [] for name in texts}
    for _ in range(RUNS):
        for name, games in texts.items():
            runs[name].append(run(games))
    (_, shared, status), (_, alone, _) = (told[0] for told in runs.values())
    if status or table_lines(shared) != BOARDS * table_lines(alone):
        raise SystemExit("other tables than wanted")
    for name, told in runs.items():
        print(f"{name}: {min(seconds for seconds, _, _ in told):.3f} s of processors, {len(told[0][1])} bytes printed")


if __name__ == "__main__":
    main()
