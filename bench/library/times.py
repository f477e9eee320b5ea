#!/usr/bin/env python3
"""Times the library beside DDS's own, in turns of a few seconds each, so that a busy machine slows both alike.

Usage: times.py DIR [TURNS], DIR being a folder that ddfarm-library made. TURNS is 20 if it isn't given: then there are
200 boards, 1,000 positions and 20 plays. It prints processor seconds and seconds by the clock, ours and DDS's."""
import os
import subprocess
import sys
import tempfile
from pathlib import Path

HERE = Path(__file__).resolve().parent
# What is done, how much of it in a turn, and by how many threads.
WORK = (
    ("tables", 10, 1),
    ("tables", 10, 4),
    ("positions", 50, 1),
    ("play3", 1, 1),
    ("play1", 1, 1),
    ("easy", 10, 1),
)


def turn(program, folder, kind, seed, count, threads):
    """The processor seconds, the seconds by the clock, and the sum of the answers."""
    environment = dict(os.environ) if folder is None else {**os.environ, "LD_LIBRARY_PATH": str(folder)}
    run = subprocess.run([program, kind, str(seed), str(count), str(threads)], env=environment,
                         cwd=Path(program).parent, stdout=subprocess.PIPE, check=True, text=True)
    processor, clock, answers = run.stdout.split()
    return float(processor), float(clock), answers


def main():
    library, turns = Path(sys.argv[1]).resolve(), int(sys.argv[2]) if len(sys.argv) > 2 else 20
    with tempfile.TemporaryDirectory() as room:
        program = f"{room}/times"
        subprocess.run(["cc", "-std=gnu11", "-O2", HERE / "times.c", "-o", program, "-ldds"], check=True)
        for kind, count, threads in WORK:
            totals = {None: [0.0, 0.0], library: [0.0, 0.0]}
            for seed in range(turns):
                answers = set()
                for folder in (None, library) if seed % 2 else (library, None):
                    processor, clock, answer = turn(program, folder, kind, seed, count, threads)
                    totals[folder][0] += processor
                    totals[folder][1] += clock
                    answers.add(answer)
                if len(answers) != 1:
                    sys.exit(f"{kind}, seed {seed}: the answers differ")
            ours, theirs = totals[library], totals[None]
            print(f"{kind}, {turns} times {count}, {threads} threads:",
                  f"processor {ours[0]:.2f} s, DDS {theirs[0]:.2f} s, {ours[0] / theirs[0]:.2f};",
                  f"clock {ours[1]:.2f} s, DDS {theirs[1]:.2f} s", flush=True)


if __name__ == "__main__":
    main()
