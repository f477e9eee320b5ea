#!/usr/bin/env python3
"""Gives the program damaged texts and answers, and outputs that are closed before their end, for so many minutes.

Usage: bench/hostile/soak.py [MINUTES [SEED]], by default ten minutes of seed 1. It needs Debian's libdds-dev and g++,
and the program built (run ./ddfarm once).

A turn is one run: `table` on a text of PBN that the seed spoils, at times with `--whole`, with one to four threads of
each kind, at times through a pipe that comes piece by piece; `check` on a spoiled answer; or a run whose output is
closed after so many bytes. What it may end with is in judging.py: a text has to be refused as the reader of
bench/reading says, else each number has to be DDS's, and what is written with `--whole` has to be, without its tables,
the text without its own; no number is accepted that is not DDS's; and nothing ends by a signal or takes over a minute.
Each fault is told and kept, with its input, words, status and outputs, in a folder `faults` where the script runs. At
the end it prints what was tried and met, and ends with status 1 where there was a fault. A turn depends on the seed and
its number alone.
"""
import random
import re
import subprocess
import sys
import tarfile
import tempfile
import time
from collections import Counter, namedtuple
from pathlib import Path

from judging import check_fault, table_fault, unread_fault
from running import BETWEEN, PIPE, ROOT, module_of, run, run_in_pieces, run_unread
from spoiling import many_games, quick_games, sound_text, spoiled, spoiled_answer

speed = module_of("farm", "speed")

DEFAULTS = ("10", "1")
DEADLINE = 60
BOARDS = 20
BUDGETS = (1, 300, 20_000, 20_000, 20_000, 300_000)
ROOMS = (4096, 65_536)
FAULTS = Path("faults")

Answer = namedtuple("Answer", "words text tricks")
# A turn: its words and its input, what came of it, of which kind the input is, and what is wrong.
Turn = namedtuple("Turn", "words text outcome kind fault")


class Numbers:
    """DDS's tables, each asked for once."""

    def __init__(self, folder):
        self.program = speed.compiled(folder, ROOT / "bench" / "dds" / "tables.cpp")
        self.tables = {}

    def of(self, line):
        """The table of a line with a Deal tag, as `table` writes it."""
        if line not in self.tables:
            run = subprocess.run([str(self.program)], input=line + b"\n", capture_output=True, check=True)
            self.tables[line] = run.stdout.split(line + b"\n")[1].removesuffix(BETWEEN)
        return self.tables[line]


def archived_answers():
    """The answers of bench/answers, with DDS's numbers."""
    with tarfile.open(ROOT / "bench" / "answers" / "answers.tar.xz") as archive:
        for member in archive:
            if member.isfile() and not member.name.endswith("README.txt"):
                words, text = archive.extractfile(member).read().split(b"\n", 1)
                yield Answer(words.decode().split("|"), text, int(text.split()[1]))


def solved_answers():
    """What `solve` answers for the endings of bench/dds, with DDS's numbers, which are North's and South's there."""
    for line in (ROOT / "bench" / "dds" / "endings.txt").read_text().splitlines():
        layout, leader, trump, tricks = line.split("|")
        declarer = "NESW"["NESW".index(leader) - 1]
        size = sum(map(len, layout[2:].split(" ")[0].split(".")))
        words = [layout, declarer, trump]
        yield Answer(words, run(["solve", *words]).out, int(tricks) if declarer in "NS" else size - int(tricks))


class Stock:
    """What the turns draw from."""

    def __init__(self, folder, seed):
        self.numbers = Numbers(folder)
        self.deals = list(speed.tables_of(folder, [str(BOARDS), seed]))
        self.solved = list(solved_answers())
        self.answers = [*archived_answers(), *self.solved]


def words_of_table(source):
    """Words for `table`: so many threads of each kind, a batch, tries and a budget."""
    threads = [str(source.randrange(1, 5)) for _ in range(2)]
    words = ["table", "--solvers", threads[0], "--checkers", threads[1], "--batch", str(source.randrange(1, 21))]
    words += ["--budget", str(source.choice(BUDGETS)), "--tries", str(source.choice([1, 1, 2]))]
    words += source.choice([[], [], [], ["--term", "0"], ["--term", "1"]]) + source.choice([[], [], ["--whole"]])
    return words + source.choice([[], [], ["--progress"]])


def met_in(outcome):
    """How an outcome is counted: its status, and the line of its fault without numbers of lines and nodes."""
    told = outcome.err if outcome.status in (1, 2) else outcome.out if outcome.status == 4 else b""
    lines = [line for line in told.decode(errors="replace").splitlines() if not line.startswith("  ")] or [""]
    names = re.findall(r"[1-9] [A-Z][A-Za-z]+", lines[-1])
    return f"{outcome.status} {names[-1] if names else lines[-1]}".strip()


def pieces_of(source, text):
    """The beginning of a text that a pipe takes, in a few pieces."""
    places = sorted(source.randrange(min(len(text), PIPE) + 1) for _ in range(source.randrange(1, 6)))
    return [text[start:end] for start, end in zip([0, *places], places)]


def damaged_text(source, stock):
    """`table` on a damaged text."""
    kind, text = sound_text(source, stock.deals)
    words, text = words_of_table(source), spoiled(source, text)
    outcome = run(words, text, DEADLINE)
    return Turn(words, text, outcome, kind, table_fault(outcome, text, stock.numbers, words))


def text_in_pieces(source, stock):
    """`table` on a damaged text that comes piece by piece, up to where its writer goes away."""
    _, text = sound_text(source, stock.deals)
    words, pieces = words_of_table(source), pieces_of(source, spoiled(source, text))
    outcome, text = run_in_pieces(words, pieces, DEADLINE), b"".join(pieces)
    return Turn(words, text, outcome, "pieces", table_fault(outcome, text, stock.numbers, words))


def damaged_answer(source, stock):
    """`check` on a damaged answer, at times with the words of another."""
    one, other = source.choice(stock.answers), source.choice(stock.answers)
    kind, text = spoiled_answer(source, one.text, other.text)
    asked = other if source.random() < 0.05 else one
    words = ["check", *asked.words]
    outcome = run(words, text, DEADLINE)
    return Turn(words, text, outcome, kind, check_fault(outcome, asked.words, text, asked.tricks))


def whole_run(source, stock):
    """Words and an input on which each run writes the same."""
    kind = source.choice(["many", "many", "quick", "solve", "check", "help"])
    answer = source.choice(stock.answers)
    form = source.choice([[], [], ["--whole"]])
    if kind == "many":
        text = many_games(source, None)
        return ["table", *form, "--tries", "1", "--budget", "1"], text[:source.randrange(1, 200_000)]
    if kind == "quick":
        return ["table", *form], quick_games(source, None)
    if kind == "help":
        return ["--help"], b""
    if kind == "check":
        return ["check", *answer.words], answer.text
    return ["solve", *source.choice(stock.solved).words], b""


def closed_output(source, stock):
    """A run whose output is closed after so many bytes."""
    words, text = whole_run(source, stock)
    whole, room = run(words, text, DEADLINE), source.choice(ROOMS)
    count = source.choice([0, 1, source.randrange(len(whole.out) + 2), source.randrange(len(whole.out) + 2)])
    outcome = run_unread(words, text, count, room, source.random() < 0.7, DEADLINE)
    return Turn(words, text, outcome, "closed after a part", unread_fault(outcome, whole, room))


# With how likely each is.
TURNS = {damaged_text: 6, text_in_pieces: 1, damaged_answer: 8, closed_output: 3}


def keep(turn, number):
    """Tells a fault, and keeps it in a folder of the turn's number."""
    folder = FAULTS / str(number)
    folder.mkdir(parents=True, exist_ok=True)
    (folder / "input").write_bytes(turn.text)
    (folder / "words").write_text("\n".join(turn.words) + "\n")
    (folder / "status").write_text(f"{turn.outcome.status}\n{turn.fault}\n")
    (folder / "output").write_bytes(turn.outcome.out)
    (folder / "errors").write_bytes(turn.outcome.err)
    print(f"turn {number}: {turn.fault}, status {turn.outcome.status}, {' '.join(turn.words)} ({folder})", flush=True)


def turns_of(seconds, seed, stock):
    """The turns of so many seconds, with what each was."""
    end, number = time.monotonic() + seconds, 0
    while time.monotonic() < end:
        number += 1
        source = random.Random(f"{seed} {number}")
        kind, = source.choices(list(TURNS), TURNS.values())
        turn = kind(source, stock)
        if turn.fault:
            keep(turn, number)
        yield kind.__name__.replace("_", " "), turn


def told(counts):
    """Counts by name, the greatest first."""
    return ", ".join(f"{name} {count}" for name, count in counts.most_common())


def main():
    given = tuple(sys.argv[1:])
    minutes, seed = given + DEFAULTS[len(given):]
    tried, kinds, met, faults = Counter(), Counter(), Counter(), 0
    with tempfile.TemporaryDirectory() as name:
        for what, turn in turns_of(60 * float(minutes), seed, Stock(Path(name), seed)):
            tried[what] += 1
            kinds[what, turn.kind] += 1
            met[what, met_in(turn.outcome)] += 1
            faults += turn.fault is not None
    print(f"{sum(tried.values())} turns: {told(tried)}")
    for what in tried:
        for name, counts in (("of", kinds), ("ended", met)):
            of_turn = Counter({key: count for (turn, key), count in counts.items() if turn == what})
            print(f"{what}, {name}: {told(of_turn)}")
    print(f"{faults} faults")
    return 1 if faults else 0


if __name__ == "__main__":
    sys.exit(main())
