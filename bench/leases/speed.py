#!/usr/bin/env python3
"""Measures the calls of a lease book on more and more boards, up to the greatest number.

Usage: bench/leases/speed.py [COMMIT]. It copies the crates into a folder of its own, proves and builds speed.rt.txt
there, and runs it on 256, 512, .. 4,096 boards with different deals; by turns with the same over the crates of an older
commit, if one is named. On each, all entries are leased, half of the leases expire and their entries are leased again,
and a ready verdict is handed in for each entry. It prints the least processor time of five runs: of a call, or for an
expiry of a lease that it frees, and of all calls together, and the greatest memory of a run beyond that of a run on 16
boards.
"""
import itertools
import os
import shutil
import subprocess
import sys
import tempfile
from pathlib import Path

HERE = Path(__file__).resolve().parent
ROOT = HERE.parent.parent
RUNS = 5
BOARDS = (256, 512, 1024, 2048, 4096)
CRATES = ("cards", "checker", "pbn_deals", "lease_book", "streams")
SEATS = "NESW"
PHASES = ("new", "lease", "expire", "lease_again", "settle")


def layouts():
    """Layouts of a spade a hand, of which North has the highest: more than 4,096, each different."""
    for north, *others in itertools.combinations("AKQJT98765432", 4):
        for east, south, west in itertools.permutations(others):
            yield f"N:{north}... {east}... {south}... {west}...\n"


def certificate(trump, leader, side, needs):
    """The text that shows the trick of North's highest card for North and South, or that the other side needs
    nothing."""
    head = f"DDC 1\\ntrump {trump}\\nside {side}\\n"
    if not needs:
        return head + "nodes 0\\n"
    tree = ""
    for step in range(4):
        seat = SEATS[(SEATS.index(leader) + step) % 4]
        tree += ("" if seat in "NS" else "(") + ("Sa" if seat == "N" else "Sx")
    return head + f"nodes 1\\n{leader} 1 1.1.1.1/N 0.0.0.0/ 0.0.0.0/ 0.0.0.0/ {tree}{{}}))\\n"


def answers():
    """A row for each entry of a board: its number and its texts."""
    rows = []
    for declarer in "NSEW":
        leader, wins = SEATS[(SEATS.index(declarer) + 1) % 4], declarer in "NS"
        for trump in ("NT", "S", "H", "D", "C"):
            texts = certificate(trump, leader, "NS", True), certificate(trump, leader, "EW", False)
            first, second = texts if wins else texts[::-1]
            rows.append(f'    ({int(wins)}, "{first}", "{second}"),')
    return "\n".join(rows)


def below(names, lines):
    """The names of all crates that these stand on, with them."""
    known = {line.split(":")[0]: line.split(":")[1].split() for line in lines if ":" in line}
    found = set()
    while names:
        name = names.pop()
        if name in known and name not in found:
            found.add(name)
            names += known[name]
    return found


def build(folder, source_of=ROOT):
    """The program over the crates of a checkout."""
    crate = folder / "crates" / "lease_speed"
    lines = (source_of / "crates.txt").read_text().splitlines()
    names = below(list(CRATES), lines)
    for name in names:
        shutil.copytree(source_of / "crates" / name, folder / "crates" / name,
                        ignore=shutil.ignore_patterns("must-fail", "out"))
    (crate / "src").mkdir(parents=True)
    source = (HERE / "speed.rt.txt").read_text().replace("@ANSWERS@", answers())
    (crate / "src" / "main.rt").write_text(source)
    kept = [line for line in lines if line.split(":")[0] in names]
    (folder / "crates.txt").write_text("\n".join(kept + ["lease_speed: " + " ".join(CRATES)]) + "\n")
    subprocess.run(["git", "init", "-q", "."], cwd=folder, check=True)
    subprocess.run(["rt", "run"], cwd=crate, check=True, stdout=subprocess.DEVNULL, input=b"")
    return crate / "out" / "lease_speed"


def run(program, boards):
    """The nanoseconds and the count of each phase, and the greatest memory in kilobytes."""
    with tempfile.TemporaryFile() as given:
        given.write("".join(itertools.islice(layouts(), boards)).encode())
        given.seek(0)
        process = subprocess.Popen([str(program)], stdin=given, stdout=subprocess.PIPE)
        output = process.stdout.read().decode()
        _, _, usage = os.wait4(process.pid, 0)
    rows = {line.split()[0]: tuple(map(int, line.split()[1:])) for line in output.splitlines()}
    wanted = {"new": 20, "lease": 20, "expire": 10, "lease_again": 10, "settle": 20}
    if {name: count for name, (_, count) in rows.items()} != {name: boards * each for name, each in wanted.items()}:
        raise SystemExit(f"other replies than wanted on {boards} boards:\n{output}")
    return rows, usage.ru_maxrss


def tell(name, boards, runs, bare):
    least = {phase: min(rows[phase][0] for rows, _ in runs) for phase in PHASES}
    each = ", ".join(f"{phase} {least[phase] / runs[0][0][phase][1]:.0f} ns" for phase in PHASES)
    memory = max(most for _, most in runs) - bare
    whole = f"all {sum(least.values()) / 1e6:.1f} ms, {memory / 1024:.1f} MB"
    print(f"{name}{boards} boards, {boards * 20} entries: {each}; {whole}")


def main():
    with tempfile.TemporaryDirectory() as name:
        folder = Path(name)
        (folder / "now").mkdir()
        programs = {"": build(folder / "now")}
        for commit in sys.argv[1:2]:
            clone = folder / "clone"
            subprocess.run(["git", "clone", "-q", str(ROOT), str(clone)], check=True)
            subprocess.run(["git", "checkout", "-q", commit], cwd=clone, check=True)
            (folder / "then").mkdir()
            programs[f"{commit}: "] = build(folder / "then", clone)
        bare = {which: run(program, 16)[1] for which, program in programs.items()}
        for boards in BOARDS:
            runs = [{which: run(program, boards) for which, program in programs.items()} for _ in range(RUNS)]
            for which in programs:
                tell(which, boards, [turn[which] for turn in runs], bare[which])


if __name__ == "__main__":
    main()
