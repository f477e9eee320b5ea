#!/usr/bin/env python3
"""Times `ddfarm leads` with one solver beside DDS with one thread, for the opening leads of random boards in all twenty
contracts, and prints the ratio of the processor seconds.

Usage: bench/cards/speed.py [BOARDS [SEED [PROGRAM]]], by default 100 boards of seed 2026. It needs Debian's libdds-dev
and g++, and the program built (run ./ddfarm once). The runs take turns of five boards. DDS solves the hundred positions
of a turn in one call (solve_board.cpp), by denomination and leader, so that it keeps what it found for the other
leaders. DDS's time is that of the call, and the program's is that of its process. Every lead has to be DDS's.
"""
import os
import random
import subprocess
import sys
import tempfile
from pathlib import Path

import dds
from compare import PROGRAM, boards_text, pieces
from positions import random_hands
from texts import leads_text

sys.path.append(str(Path(__file__).resolve().parent.parent / "farm"))
from turns import told  # noqa: E402

DEFAULTS = ("100", "2026", str(PROGRAM))
TURN = 5
# The positions of a turn, which DDS takes in one call.
BATCH = 20 * TURN


def ours(folder, program, boards, wanted):
    """The processor seconds and the megabytes of a run of the program."""
    (folder / "boards.pbn").write_text(boards_text(boards))
    with (folder / "boards.pbn").open() as source, (folder / "leads.txt").open("w") as sink:
        process = subprocess.Popen([program, "leads", "--solvers", "1"], stdin=source, stdout=sink)
        _, status, usage = os.wait4(process.pid, 0)
    process.returncode = os.waitstatus_to_exitcode(status)
    if process.returncode or (folder / "leads.txt").read_text() != wanted:
        sys.exit(f"the leads are not DDS's (status {process.returncode})")
    return usage.ru_utime + usage.ru_stime, usage.ru_maxrss / 1024


def main():
    given = tuple(sys.argv[1:])
    count, seed, program = given + DEFAULTS[len(given):]
    dice = random.Random(int(seed))
    boards = [random_hands(dice, 13) for _ in range(int(count))]
    turns, memory = [], 0.0
    with tempfile.TemporaryDirectory() as name:
        folder = Path(name)
        peer = dds.solver(folder)
        for piece in pieces(boards, TURN):
            numbers, theirs = dds.board_scores(peer, piece, BATCH)
            seconds, most = ours(folder, program, piece, leads_text(zip(piece, numbers)))
            turns.append((seconds, theirs))
            memory = max(memory, most)
    print(f"{count} boards of seed {seed}: {sum(ours for ours, _ in turns):.1f} processor seconds, "
          f"{memory:.0f} MB at most, DDS {sum(peers for _, peers in turns):.1f}")
    print(f"by DDS's time: {told(turns)}")


if __name__ == "__main__":
    main()
