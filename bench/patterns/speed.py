#!/usr/bin/env python3
"""Measures the operations on patterns beside plain C over the same data.

Usage: bench/patterns/speed.py. It copies the crates into a folder of its own, proves and builds speed.rt.txt there,
builds speed.c by gcc -O2 for the same processors, which works on the same words, runs both several times, and prints
the least time of a call of each in nanoseconds, and the ratio: on eight random deals with few owners a suit, on the
same deals with all owners, and on eight endings of five cards a hand with all owners. A pattern matches, or covers,
every other time; `packed` matches layouts that are packed already. Both add up what the calls answer, and the sums are
compared.
"""

import random
import shutil
import subprocess
import tempfile
from pathlib import Path

ROOT = Path(__file__).resolve().parent.parent.parent
HERE = Path(__file__).resolve().parent
CALLS = 2_000_000
RUNS = 7
GROUPS = ("small depths", "depth 13", "endings")


def layouts(size):
    """Eight random layouts of so many cards a hand, each as four words."""
    dice = random.Random(8)
    rows = []
    for _ in range(8):
        pack = dice.sample(range(52), 52)
        rows.append([sum(1 << card for card in pack[size * seat:size * seat + size]) for seat in range(4)])
    return rows


def filled(name, left, right):
    groups = []
    for size in (13, 13, 5):
        rows = ",\n".join("        " + left + ", ".join(f"0x{word:x}" for word in row) + right for row in layouts(size))
        groups.append("    " + left + "\n" + rows + ",\n    " + right + ",")
    return (HERE / name).read_text().replace("@HANDS@", "\n".join(groups))


def rattle(folder):
    crate = folder / "crates" / "pattern_speed"
    for name in ("cards", "patterns", "pattern_step"):
        shutil.copytree(ROOT / "crates" / name, folder / "crates" / name,
                        ignore=shutil.ignore_patterns("must-fail", "out"))
    (crate / "src").mkdir(parents=True)
    (crate / "src" / "main.rt").write_text(filled("speed.rt.txt", "[", "]"))
    lines = [line for line in (ROOT / "crates.txt").read_text().splitlines()
             if line.split(":")[0] in ("cards", "patterns", "pattern_step")]
    lines.append("pattern_speed: cards patterns pattern_step arrayvec")
    (folder / "crates.txt").write_text("\n".join(lines) + "\n")
    subprocess.run(["git", "init", "-q", "."], cwd=folder, check=True)
    subprocess.run(["rt", "run"], cwd=crate, check=True, stdout=subprocess.DEVNULL)
    return crate / "out" / "pattern_speed"


def plain_c(folder):
    source, program = folder / "speed.c", folder / "speed"
    source.write_text(filled("speed.c", "{", "}"))
    subprocess.run(["gcc", "-O2", "-march=x86-64-v2", "-o", str(program), str(source)], check=True)
    return program


def times(program):
    """The least microseconds and the sum of each call in each group, in the order in which the program prints them."""
    least = {}
    for _ in range(RUNS):
        seen = {}
        for line in subprocess.run([str(program)], check=True, capture_output=True, text=True).stdout.splitlines():
            name, micros, total = line.split()
            group = seen.get(name, 0)
            seen[name] = group + 1
            before = least.get((group, name), (float("inf"), total))
            least[(group, name)] = (min(before[0], float(micros)), total)
    return least


def main():
    with tempfile.TemporaryDirectory() as name:
        folder = Path(name)
        ours, theirs = times(rattle(folder)), times(plain_c(folder))
    for group, title in enumerate(GROUPS):
        both, test = ours.pop((group, "are_legal+rest")), ours.pop((group, "are_legal"))
        ours[(group, "rest")] = (both[0] - test[0], both[1])
        print(f"{title}: are_legal {test[0] * 1000 / CALLS:.0f} ns (no C beside it)")
    for (group, name), (micros, total) in theirs.items():
        mine = ours[(group, name)]
        same = "" if mine[1] == total else f"  THE SUMS DIFFER: {mine[1]} and {total}"
        print(f"{GROUPS[group]}, {name}: {mine[0] * 1000 / CALLS:.0f} ns, C {micros * 1000 / CALLS:.0f} ns, "
              f"ratio {mine[0] / micros:.1f}{same}")


if __name__ == "__main__":
    main()
