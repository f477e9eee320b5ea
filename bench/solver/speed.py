#!/usr/bin/env python3
"""Times `ddfarm table`, and the solver and the checker behind it, beside DDS's CalcDDtable over the same random boards,
one thread, and compares the numbers.

Usage: bench/solver/speed.py [BOARDS [SEED [CARDS]]], by default 100 boards of seed 2026. It needs Debian's libdds-dev
and g++. It copies the crates into a folder of its own, proves and builds speed.rt.txt there, and prints what came of
the entries and the processor time of all: mean, median and worst board. `ddfarm table` is run where a board has
thirteen cards a hand, and its greatest memory is told too.
"""

import os
import shutil
import subprocess
import sys
import tempfile
from pathlib import Path

ROOT = Path(__file__).resolve().parent.parent.parent
HERE = Path(__file__).resolve().parent
CRATES = (
    "cards",
    "play_rules",
    "strategies",
    "patterns",
    "pattern_step",
    "certificate_graph",
    "checker",
    "pattern_store",
    "partition_search",
    "partition_solver",
)
TRUMPS = ("NT", "S", "H", "D", "C")


def boards(folder, words):
    """DDS's lines, and its microseconds of each board."""
    program = folder / "make_boards"
    subprocess.run(["g++", "-O2", "-o", str(program), str(HERE / "make_boards.cpp"), "-ldds"], check=True)
    run = subprocess.run([str(program), *words], check=True, capture_output=True, text=True)
    return run.stdout.splitlines(), [int(line) for line in run.stderr.split()]


def hands_of(layout):
    """The four words of a Deal value that begins with N."""
    hands = []
    for hand in layout[2:].split(" "):
        suits = hand.split(".")
        hands.append(sum(1 << 13 * suit + "23456789TJQKA".index(rank) for suit in range(4) for rank in suits[suit]))
    return hands


def tables_of(lines):
    """DDS's numbers by layout."""
    tables = {}
    for line in lines:
        layout, declarer, trump, tricks = line.split("|")
        tables.setdefault(layout, {})[declarer, trump] = int(tricks)
    return tables


def filled(lines):
    """The program with its boards and numbers."""
    tables = {
        layout: [numbers[declarer, trump] for declarer in "NESW" for trump in TRUMPS]
        for layout, numbers in tables_of(lines).items()
    }
    hands = "\n".join("    [" + ", ".join(f"0x{word:x}" for word in hands_of(layout)) + "]," for layout in tables)
    numbers = "\n".join("    [" + ", ".join(map(str, table)) + "]," for table in tables.values())
    text = (HERE / "speed.rt.txt").read_text()
    return text.replace("@COUNT@", str(len(tables))).replace("@HANDS@", hands).replace("@NUMBERS@", numbers)


def build(folder, lines, root=ROOT):
    """The program over the crates of a checkout."""
    crate = folder / "crates" / "solver_speed"
    left_out = shutil.ignore_patterns("must-fail", "out")
    for name in CRATES:
        shutil.copytree(root / "crates" / name, folder / "crates" / name, ignore=left_out)
    (crate / "src").mkdir(parents=True)
    (crate / "src" / "main.rt").write_text(filled(lines))
    kept = [line for line in (root / "crates.txt").read_text().splitlines() if line.split(":")[0] in CRATES]
    kept.append("solver_speed: partition_solver checker certificate_graph cards arrayvec")
    (folder / "crates.txt").write_text("\n".join(kept) + "\n")
    subprocess.run(["git", "init", "-q", "."], cwd=folder, check=True)
    subprocess.run(["rt", "run"], cwd=crate, stdout=subprocess.DEVNULL)
    return crate / "out" / "solver_speed"


def told(name, micros):
    """Mean, median and worst board."""
    ordered = sorted(micros)
    mean, median, worst = sum(ordered) / len(ordered), ordered[len(ordered) // 2], ordered[-1]
    print(f"{name}: {mean / 1000:.1f} ms a board, median {median / 1000:.1f}, worst {worst / 1000:.1f}")


def report(run, theirs):
    """What came of our run beside DDS's times."""
    rows = [[int(word) for word in line.split()] for line in run.splitlines()]
    entries, tries, wrong, unanswered, refused, nodes, leaves, size = (sum(row[place] for row in rows)
                                                                       for place in range(8))
    print(f"{entries} entries, {tries} tries: {wrong} wrong, {unanswered} without an answer, {refused} refused")
    print(f"{nodes / entries:.0f} nodes an entry; "
          f"{nodes / len(rows):.0f} nodes a board with {leaves / len(rows):.0f} leaves, "
          f"in texts of {size / len(rows):.0f} bytes")
    told("DDS", theirs)
    told("solving", [row[8] for row in rows])
    told("checking", [row[9] for row in rows])
    print(f"solving and checking: {sum(row[8] + row[9] for row in rows) / sum(theirs):.2f} times DDS")


def printed_table(text):
    """The numbers of a printed table by declarer and denomination."""
    rows = (line.split() for line in text.splitlines() if line[:1] in "NESW" and len(line.split()) == 3)
    return {(declarer, trump): int(tricks) for declarer, trump, tricks in rows}


def run_table(folder, lines, theirs):
    """Runs `ddfarm table` over the boards, and compares its tables with DDS's."""
    tables = tables_of(lines)
    games = "\n".join(f'[Board "{number}"]\n[Deal "{layout}"]\n' for number, layout in enumerate(tables, 1))
    (folder / "boards.pbn").write_text(games)
    subprocess.run([str(ROOT / "ddfarm"), "--help"], stdout=subprocess.DEVNULL, check=True)
    with (folder / "boards.pbn").open() as source, (folder / "tables.pbn").open("w") as sink:
        words = [str(ROOT / "crates/ddfarm/out/ddfarm"), "table", "--solvers", "1", "--checkers", "1"]
        process = subprocess.Popen(words, stdin=source, stdout=sink)
        _, status, usage = os.wait4(process.pid, 0)
        process.returncode = os.waitstatus_to_exitcode(status)
    printed = [printed_table(game) for game in (folder / "tables.pbn").read_text().split("[Board ")[1:]]
    same = sum(table == numbers for table, numbers in zip(printed, tables.values()))
    seconds = usage.ru_utime + usage.ru_stime
    print(f"ddfarm table: status {process.returncode}, {same} of {len(tables)} tables are DDS's, "
          f"{usage.ru_maxrss // 1024} MB at most")
    print(f"ddfarm table: {1000 * seconds / len(tables):.1f} ms a board, {1e6 * seconds / sum(theirs):.2f} times DDS")


def main():
    words = sys.argv[1:] or ["100", "2026"]
    if len(words) == 1:
        words.append("2026")
    with tempfile.TemporaryDirectory() as name:
        folder = Path(name)
        lines, theirs = boards(folder, words)
        run = subprocess.run([str(build(folder, lines))], check=True, capture_output=True, text=True)
        report(run.stdout, theirs)
        if len(words) < 3 or words[2] == "13":
            run_table(folder, lines, theirs)


if __name__ == "__main__":
    main()
