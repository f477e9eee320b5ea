#!/usr/bin/env python3
"""Times an audit, and tables whose evidence is kept, beside `table` alone, over the same random boards.

Usage: bench/evidence/kept.py [BOARDS [SEED [PROGRAM ..]]], by default 100 boards of seed 2026. The program has to be
built (run ./ddfarm once); `zstd` is asked for the compressed size where it is there. One solver and one checker. The
runs take turns of five boards. Of each kind of run it prints how the seconds of all processors together compare with
those of `table` alone, and the greatest memory; the tables have to be the same bytes. If other builds of the program
are named, they take turns too, each run beside the same run of the program. At last 4,096 boards are audited by
evidence for the first of them, four times over, from a pipe.
"""
import os
import random
import shutil
import subprocess
import sys
import tempfile
from pathlib import Path

ROOT = Path(__file__).resolve().parent.parent.parent
sys.path[:0] = [str(ROOT / "bench" / "tables"), str(ROOT / "bench" / "farm")]
from speed import PROGRAM, deal  # noqa: E402
from turns import told  # noqa: E402

DEFAULTS = ("100", "2026")
MOST_BOARDS = 4096
ONE_EACH = ["--solvers", "1", "--checkers", "1"]
# How many boards a turn has, and the runs of each, the first of which the others are compared with.
TURN = 5
KINDS = {
    "table": ["table", *ONE_EACH],
    "table, new evidence": ["table", *ONE_EACH, "--evidence", "FILE"],
    "table, full evidence": ["table", *ONE_EACH, "--evidence", "FILE"],
    "audit": ["audit", "FILE"],
}


def text_of(deals):
    return "\n".join(f'[Board "{number}"]\n[Deal "{layout}"]\n' for number, layout in enumerate(deals, 1))


def measured(folder, program, words, pipe=()):
    """The output of a run, its seconds of processors, and its megabytes."""
    with (folder / "boards.pbn").open() as source, (folder / "tables.pbn").open("w") as sink:
        process = subprocess.Popen([program, *words], stdin=source, stdout=sink, pass_fds=pipe)
        _, status, usage = os.wait4(process.pid, 0)
    process.returncode = os.waitstatus_to_exitcode(status)
    if process.returncode not in (0, 3):
        sys.exit(f"{words}: status {process.returncode}")
    seconds = usage.ru_utime + usage.ru_stime
    return (folder / "tables.pbn").read_bytes(), seconds, usage.ru_maxrss / 1024


def compressed(path):
    """The bytes of the file after `zstd -19`, if that is there. They are not read: what this process has held counts as
    memory of the runs that it starts after."""
    if not shutil.which("zstd"):
        return None
    small = path.with_suffix(".zst")
    subprocess.run(["zstd", "-19", "-q", "-o", str(small), str(path)], check=True)
    return small.stat().st_size


def run_turn(folder, program, seconds, memory):
    """Makes each kind of run over the boards of a turn, and answers its file of evidence."""
    kept = folder / "turn.dde"
    kept.unlink(missing_ok=True)
    first = None
    for name, words in KINDS.items():
        words = [str(kept) if word == "FILE" else word for word in words]
        tables, spent, most = measured(folder, program, words)
        first = first or tables
        if tables != first:
            sys.exit(f"{name}: other tables")
        seconds[name].append(spent)
        memory[name] = max(memory[name], most)
    return kept


def compare(folder, deals, programs, kept):
    """Makes the runs in turns, and prints how each kind compares with `table`, and with the first program's."""
    seconds = [{name: [] for name in KINDS} for _ in programs]
    memory = [dict.fromkeys(KINDS, 0.0) for _ in programs]
    for begin in range(0, len(deals), TURN):
        (folder / "boards.pbn").write_text(text_of(deals[begin:begin + TURN]))
        for number, program in enumerate(programs):
            turn = run_turn(folder, program, seconds[number], memory[number])
            if number == 0:
                with kept.open("ab") as file, turn.open("rb") as piece:
                    shutil.copyfileobj(piece, file)
    for number, program in enumerate(programs):
        for name in KINDS:
            own = seconds[number]
            print(f"{number}, {name}: {sum(own[name]):.2f} s, {told(list(zip(own[name], own['table'])))},", end=" ")
            print(f"{memory[number][name]:.0f} MB")
            if number > 0:
                print(f"{number}, {name}, by 0: {told(list(zip(own[name], seconds[0][name])))}")


def main():
    given = tuple(sys.argv[1:])
    boards, seed = (int(word) for word in given[:2] + DEFAULTS[len(given):])
    programs = [PROGRAM, *given[2:]]
    random_source = random.Random(seed)
    deals = [deal(random_source) for _ in range(MOST_BOARDS)]
    with tempfile.TemporaryDirectory() as name:
        folder = Path(name)
        kept = folder / "club.dde"
        compare(folder, deals[:boards], programs, kept)
        size, small = kept.stat().st_size, compressed(kept)
        print(f"{size / boards:.0f} bytes of evidence a board", end="")
        print("" if small is None else f", {small / boards:.0f} after zstd -19")
        (folder / "boards.pbn").write_text(text_of(deals))
        feeder = subprocess.Popen(["cat", *[str(kept)] * 4], stdout=subprocess.PIPE)
        pipe = feeder.stdout.fileno()
        _, seconds, memory = measured(folder, PROGRAM, ["audit", f"/dev/fd/{pipe}"], [pipe])
        feeder.wait()
        print(f"audit of {4 * size / 1e6:.0f} MB, {MOST_BOARDS} boards: {seconds:.2f} s, {memory:.0f} MB")


if __name__ == "__main__":
    main()
