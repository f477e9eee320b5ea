#!/usr/bin/env python3
"""Times ddfarm-machines with one, two and four jobs on this machine beside `table --solvers 4`, over the same random
boards, and measures the evidence.

Usage: bench/machines/speed.py [BOARDS [SEED [ROUNDS]]], by default 200 boards of seed 2026 and one round. It needs
Debian's parallel, and the program built (run ./ddfarm once). Of each run it prints the seconds by the wall and of all
processors together, the fastest of its rounds; the tables have to be the same bytes. Then: how many of the processor
seconds an audit of all the evidence takes, the bytes of evidence a board, and what remains of a piece of middle size
after gzip, as `ssh -C` has it, and after `zstd` where that is there.
"""
import os
import random
import shutil
import subprocess
import sys
import tempfile
import time
import zlib
from pathlib import Path

ROOT = Path(__file__).resolve().parent.parent.parent
sys.path.insert(0, str(ROOT / "bench" / "tables"))
from speed import PROGRAM, deal  # noqa: E402

DEFAULTS = ("200", "2026", "1")
JOBS = (1, 2, 4)


def measured(folder, words):
    """The output of a run, its seconds by the wall and of processors."""
    start = time.monotonic()
    with (folder / "boards.pbn").open() as source, (folder / "tables.pbn").open("w") as sink:
        process = subprocess.Popen([str(word) for word in words], stdin=source, stdout=sink, stderr=subprocess.DEVNULL)
        _, status, usage = os.wait4(process.pid, 0)
    process.returncode = os.waitstatus_to_exitcode(status)
    if process.returncode not in (0, 3):
        sys.exit(f"{words}: status {process.returncode}")
    return (folder / "tables.pbn").read_bytes(), time.monotonic() - start, usage.ru_utime + usage.ru_stime


def compare(folder, runs, rounds):
    """The fastest run of each, and prints it."""
    best = {}
    for _ in range(rounds):
        for name, words in runs.items():
            tables, wall, processors = measured(folder, words)
            if tables != best.get("table --solvers 4", (tables,))[0]:
                sys.exit(f"{name}: other tables")
            best[name] = min(best.get(name, (tables, wall, processors)), (tables, wall, processors))
    for name, (_, wall, processors) in best.items():
        print(f"{name}: {wall:.1f} s by the wall, {processors:.1f} of processors", flush=True)
    return best


def compressed(path):
    """The bytes of a file after each way to compress it."""
    text = path.read_bytes()
    sizes = {"plain": len(text), "gzip -6": len(zlib.compress(text, 6))}
    for level in ("-3", "-19") if shutil.which("zstd") else ():
        run = subprocess.run(["zstd", level, "-c", "-q", str(path)], check=True, capture_output=True)
        sizes["zstd " + level] = len(run.stdout)
    return sizes


def main():
    given = tuple(sys.argv[1:])
    boards, seed, rounds = (int(word) for word in given + DEFAULTS[len(given):])
    random_source = random.Random(seed)
    deals = [deal(random_source) for _ in range(boards)]
    with tempfile.TemporaryDirectory() as name:
        folder = Path(name)
        kept = folder / "kept"
        games = (f'[Board "{number}"]\n[Deal "{layout}"]\n' for number, layout in enumerate(deals, 1))
        (folder / "boards.pbn").write_text("\n".join(games))
        runs = {"table --solvers 4": [PROGRAM, "table", "--solvers", 4]}
        for jobs in JOBS:
            (folder / str(jobs)).write_text(f"{jobs}/:\n")
            runs[f"{jobs} jobs"] = [ROOT / "ddfarm-machines", folder / str(jobs)]
        best = compare(folder, runs, rounds)
        measured(folder, [ROOT / "ddfarm-machines", "--keep", kept, folder / str(JOBS[-1])])
        pieces = sorted(kept.iterdir(), key=lambda path: path.stat().st_size)
        whole = folder / "whole.dde"
        whole.write_bytes(b"".join(path.read_bytes() for path in pieces))
        tables, _, audit = measured(folder, [PROGRAM, "audit", whole])
        if tables != best["table --solvers 4"][0]:
            sys.exit("audit: other tables")
        share = audit / best["1 jobs"][2]
        print(f"audit: {audit:.1f} s of processors, {share:.2f} of those with 1 job", flush=True)
        size, largest = whole.stat().st_size / boards / 1e6, pieces[-1].stat().st_size / 1e6
        print(f"evidence: {size:.2f} MB a board, the largest piece {largest:.0f} MB")
        print("bytes of the middle piece:", compressed(pieces[len(pieces) // 2]))


if __name__ == "__main__":
    main()
