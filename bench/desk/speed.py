#!/usr/bin/env python3
"""Measures how many calls a second threads make at one desk of 4,096 boards with different deals.

Usage: bench/desk/speed.py. It copies the crates into a folder of its own, proves and builds speed.rt.txt there, and
runs it once. The same 81,920 calls are made on a book alone, at a desk with 1, 2, 4 and 8 threads, and with as many
threads on a book under a mutex, where each event's maker is noted and each worker keeps its receipts, as at a desk.
Half of the calls ask for leases, three eighths give them up and one eighth frees those that are due. No answer is
handed in. Each is timed five times, in turn, and it prints the least of each time: calls a second by the wall, and
nanoseconds of processor time a call, of all threads together.
"""
import shutil
import subprocess
import tempfile
from pathlib import Path

HERE = Path(__file__).resolve().parent
ROOT = HERE.parent.parent
RUNS = 5
BOARDS = 4096
CALLS = 81920
THREADS = (1, 2, 4, 8)
CRATES = ("cards", "pbn_deals", "lease_book", "lease_desk")


def below(names, lines):
    """The names of all crates that these stand on, with them."""
    known = {line.split()[0].rstrip(":"): line.split(":")[1].split() for line in lines if ":" in line}
    found = set()
    while names:
        name = names.pop()
        if name in known and name not in found:
            found.add(name)
            names += known[name]
    return found


def build(folder):
    crate = folder / "crates" / "desk_speed"
    lines = (ROOT / "crates.txt").read_text().splitlines()
    names = below(list(CRATES), lines)
    for name in names:
        shutil.copytree(ROOT / "crates" / name, folder / "crates" / name,
                        ignore=shutil.ignore_patterns("must-fail", "out"))
    (crate / "src").mkdir(parents=True)
    source = (HERE / "speed.rt.txt").read_text()
    for word, value in (("BOARDS", BOARDS), ("CALLS", CALLS), ("RUNS", RUNS)):
        source = source.replace(f"@{word}@", str(value))
    (crate / "src" / "main.rt").write_text(source)
    proofs = crate / "proofs" / "work_at_desk"
    proofs.mkdir(parents=True)
    shutil.copy(HERE / "Invariants.antt.txt", proofs / "Invariants.antt")
    kept = [line for line in lines if line and line.split()[0].rstrip(":") in names]
    (folder / "crates.txt").write_text("\n".join(kept + ["desk_speed: " + " ".join(CRATES)]) + "\n")
    shutil.copy(ROOT / "HANDLES", folder)
    subprocess.run(["git", "init", "-q", "."], cwd=folder, check=True)
    subprocess.run(["rt", "run"], cwd=crate, check=True, stdout=subprocess.DEVNULL, input=b"")
    return crate / "out" / "desk_speed"


def run(program):
    """The least microseconds by the wall and of processors, for each kind and number of threads."""
    output = subprocess.run([str(program)], check=True, stdout=subprocess.PIPE, text=True).stdout
    times = {}
    for line in output.splitlines():
        kind, *numbers = line.split()
        threads, wall, processors, *counts = map(int, numbers)
        if counts != [CALLS // 2, CALLS * 3 // 8, CALLS // 8]:
            raise SystemExit(f"other replies than wanted:\n{line}")
        times.setdefault((kind, threads), []).append((wall, processors))
    wanted = [("book", 1)] + [(kind, threads) for kind in ("desk", "lock") for threads in THREADS]
    if sorted(times) != sorted(wanted) or any(len(rows) != RUNS for rows in times.values()):
        raise SystemExit(f"other rows than wanted:\n{output}")
    return {key: tuple(map(min, zip(*rows))) for key, rows in times.items()}


def main():
    with tempfile.TemporaryDirectory() as name:
        least = run(build(Path(name)))
    for (kind, threads), (wall, processors) in least.items():
        each = processors * 1000 / CALLS
        print(f"{kind}, threads {threads}: {CALLS * 1e6 / wall:,.0f} calls a second, "
              f"{each:.0f} ns of processor time a call")
    for kind in ("desk", "lock"):
        own = [(least[kind, 1][at] - least["book", 1][at]) * 1000 / CALLS for at in (0, 1)]
        print(f"{kind}'s own cost a call on one thread: {own[0]:.0f} ns by the wall, {own[1]:.0f} of processor time")


if __name__ == "__main__":
    main()
