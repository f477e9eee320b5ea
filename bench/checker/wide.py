#!/usr/bin/env python3
"""Times the check of large graphs by one thread and by several, on 1, 2 and 4 processors, in one run.

Usage: bench/checker/wide.py. It copies the crates into a folder of its own, proves and builds wide.rt.txt there, and
runs it on graphs of 2,048, 20,000 and 200,000 nodes, all of them right, with so many processors allowed. It prints the
milliseconds by the wall of the fastest of ten checks, and how many times as fast several threads were.
"""
import os
import subprocess
import sys
import tempfile
from pathlib import Path

sys.path.insert(0, str(Path(__file__).resolve().parent.parent / "answers"))
import speed  # noqa: E402

COUNTS, PROCESSORS = (2_048, 20_000, 200_000), (1, 2, 4)
HEAD = "DDC 1\ntrump NT\nside NS\nnodes {}\n"
# A finesse: South leads, and North covers West's card. Then North's ace takes the trick that is left.
FIRST = "S 2 2.2.2.2/NWN 0.0.0.0/ 0.0.0.0/ 0.0.0.0/ Sx(SbSa(Sx{N1})SxSc(Sx{N1}))\n"
SECOND = "N 1 1.1.1.1/N 0.0.0.0/ 0.0.0.0/ 0.0.0.0/ Sa(SxSx(Sx{}))\n"


def graph_of(count):
    return HEAD.format(count) + FIRST + SECOND + FIRST * (count - 2)


def main():
    with tempfile.TemporaryDirectory() as name:
        program = speed.build(Path(name), Path(__file__).resolve().parent / "wide.rt.txt")
        for count in COUNTS:
            for processors in PROCESSORS:
                allowed = set(range(processors))
                run = subprocess.run(
                    [str(program)], input=graph_of(count), capture_output=True, text=True, check=True,
                    preexec_fn=lambda: os.sched_setaffinity(0, allowed))
                plain, wide, same = run.stdout.split()
                if same != "true":
                    sys.exit(f"{count} nodes: the answers are not the same, or not right")
                gain = int(plain) / int(wide)
                print(f"{count} nodes, {processors} processors: plain {int(plain) / 1e6:.2f} ms,", end=" ")
                print(f"wide {int(wide) / 1e6:.2f}, {gain:.2f} times as fast")


if __name__ == "__main__":
    main()
