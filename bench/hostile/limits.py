#!/usr/bin/env python3
"""Runs the program where the system gives it little memory (RLIMIT_AS) or small stacks (RLIMIT_STACK), and tells how
the runs end.

Usage: bench/hostile/limits.py [SEED], by default 2026, of one random board of thirteen cards a hand. It needs Debian's
libdds-dev and g++, and the program built (run ./ddfarm once).

Stacks: from 16 kB, by doubling, to 8 MB and no limit. A run may end by a signal only where they are smaller than
LEAST_STACK. Memory: from the least at which `ddfarm --help` ends with status 0, step by step until a run ends as it
does with ample memory, and two steps further. Each run has to end with one of the statuses of docs/FORMATS.md and its
line, within two minutes, and what it prints has to be what it prints with ample memory, a table that lacks a number
aside. Prints how the runs ended, and ends with status 1 where one ended otherwise.
"""
import re
import resource
import signal
import sys
import tempfile
from collections import namedtuple
from itertools import groupby
from pathlib import Path

from judging import lacking_in, reader
from running import BETWEEN, HANGS, LACKS, ROOT, module_of, run

speed = module_of("farm", "speed")

KILOBYTE, MEGABYTE = 1 << 10, 1 << 20
UNLIMITED = resource.RLIM_INFINITY
STACKS = [(16 << doubled) * KILOBYTE for doubled in range(10)] + [UNLIMITED]
USUAL_STACK = 8 * MEGABYTE
PAGE = 4 * KILOBYTE
# From here on no stack may be too small.
LEAST_STACK = 256 * KILOBYTE
# Up to so many megabytes in steps of so many.
STEPS = ((16, 4), (120, 8), (240, 20), (2000, 80))
FURTHER = 2
THREADS = (1, 2, 4)
WELL = "well"
TOLD = {(1, b"ddfarm: out of memory\n"): "out of memory", (1, b"ddfarm: a thread could not be started\n"): "no thread",
        (3, b"ddfarm: no answer\n  --budget gives the search more steps\n"): "no answer"}
NO_ROOM = (b"refused declarer 10 Text 7 OutOfMemory\n", b"refused defenders 10 Text 7 OutOfMemory\n")
SEARCHES = re.compile(rb" (\d+) search(?:es)? ran out of steps, (\d+) out of memory,")
PARTLY = {"table": "incomplete", "check": "no memory for a text"}
DOCUMENTED = {WELL, *TOLD.values(), *PARTLY.values()}
SIGNALS = {known.name for known in signal.Signals}

# What is run: its name, its words and its input, and the outcome with ample memory.
Case = namedtuple("Case", "name words text ample")


def limited(words, text, memory, stack):
    """The outcome under these limits. The environment is empty, since it lies on the first stack."""
    sizes = ((resource.RLIMIT_AS, memory), (resource.RLIMIT_STACK, stack))

    def set_limits():
        for kind, size in sizes:
            resource.setrlimit(kind, (size, resource.getrlimit(kind)[1]))

    return run(words, text, limits=set_limits, environment={})


def case_of(name, words, text=b""):
    return Case(name, words, text, limited(words, text, UNLIMITED, USUAL_STACK))


def lacks(game, full):
    """Whether a board with its table is the full one but for a number that its table lacks."""
    head = full[:full.index(b"[OptimumResultTable")]
    return game.startswith(head) and LACKS.fullmatch(game, len(head)) is not None


def is_partly(text, ample):
    """Whether each table of a text is that of the ample text, or lacks a number; some does."""
    games, whole = text.split(BETWEEN), ample.split(BETWEEN)
    return len(games) == len(whole) and games != whole and all(game == full or lacks(game, full)
                                                               for game, full in zip(games, whole))


def is_noted(told, tables):
    """Whether it is told that so many tables are incomplete and no answer was refused, and nothing else."""
    match = SEARCHES.search(told)
    return match is not None and told == reader.table_note(tables, *map(int, match.groups()))


def is_partly_done(case, outcome):
    """Whether a run came to its end, but some of its work had no memory."""
    if case.words[0] == "table":
        return (outcome.status == 3 and is_partly(outcome.out, case.ample.out)
                and is_noted(outcome.err, lacking_in(outcome.out)))
    return case.words[0] == "check" and (outcome.status, outcome.err) == (4, b"") and outcome.out in NO_ROOM


def end_of(case, memory=UNLIMITED, stack=USUAL_STACK):
    """How a run under these limits ended, in a few words: of DOCUMENTED, or what came in place of that."""
    outcome = limited(case.words, case.text, memory, stack)
    if outcome == case.ample:
        return WELL
    if not outcome.out and (outcome.status, outcome.err) in TOLD:
        return TOLD[outcome.status, outcome.err]
    if is_partly_done(case, outcome):
        return PARTLY[case.words[0]]
    if outcome.status == HANGS or outcome.status < 0:
        return HANGS if outcome.status == HANGS else signal.Signals(-outcome.status).name
    lines = (outcome.err or outcome.out).decode(errors="replace").splitlines() or [""]
    return f"status {outcome.status} {lines[0][:80]}"


def least_limit(low, high, step, does):
    """The least limit that does, in steps: more than the low one, which doesn't do, and at most the high one, which
    does."""
    while high - low > step:
        middle = low + (high - low) // (2 * step) * step
        low, high = (low, middle) if does(middle) else (middle, high)
    return high


def least_memory(case):
    return least_limit(0, 256 * MEGABYTE, 64 * KILOBYTE, lambda size: end_of(case, memory=size) == WELL)


def limits_from(first):
    """Limits in megabytes, from the first on."""
    for last, step in STEPS:
        first += -first % step
        while first < last:
            yield first
            first += step


def memory_ends(case, first):
    """How a case ends by its limit in megabytes, up to the first limit with which it ends well and some further."""
    ends = []
    for size in limits_from(first):
        ends.append((size, end_of(case, memory=size * MEGABYTE)))
        if [end for _, end in ends].count(WELL) > FURTHER:
            break
    return ends


def spans(ends):
    """Ends by limit, those that are alike together, as in `40 to 44 MB well`."""
    told = []
    for end, group in groupby(ends, key=lambda pair: pair[1]):
        sizes = [size for size, _ in group]
        told.append(f"{sizes[0]} to {sizes[-1]} MB {end}" if sizes[1:] else f"{sizes[0]} MB {end}")
    return ", ".join(told)


def memory_faults(cases):
    """Prints how the cases end with little memory, and answers how many ends are faults."""
    least = {case.name: least_memory(case) for case in cases[:2]}
    print("\nthe least address space: " + ", ".join(f"{name} {size // KILOBYTE} kB" for name, size in least.items()))
    print("\n| run | how it ended by its address space |\n|---|---|")
    faults = 0
    for case in cases[2:]:
        ends = memory_ends(case, -(-max(least.values()) // MEGABYTE))
        faults += sum(end not in DOCUMENTED for _, end in ends)
        print(f"| {case.name} | {spans(ends)} |", flush=True)
    return faults


def stack_name(size):
    if size == UNLIMITED:
        return "no limit"
    return f"{size // KILOBYTE} kB" if size < MEGABYTE else f"{size // MEGABYTE} MB"


def is_stack_fault(size, end):
    return end not in DOCUMENTED and not (end in SIGNALS and 0 <= size < LEAST_STACK)


def least_stack(case, ends):
    """The least stack from which on a case ends well, to a page, where it doesn't with the smallest and does with the
    greatest."""
    bad = [number for number, (_, end) in enumerate(ends) if end != WELL]
    if not bad or STACKS[bad[-1]] in STACKS[-2:]:
        return "-"
    low, high = STACKS[bad[-1]], STACKS[bad[-1] + 1]
    return stack_name(least_limit(low, high, PAGE, lambda size: end_of(case, stack=size) == WELL))


def stack_faults(cases):
    """Prints how the cases end with small stacks, and answers how many ends are faults."""
    print("| run | least stack | how it ended with less |\n|---|---|---|")
    faults = 0
    for case in cases:
        ends = [(size, end_of(case, stack=size)) for size in STACKS]
        faults += sum(is_stack_fault(*pair) for pair in ends)
        less = ", ".join(f"{stack_name(size)} {end}" for size, end in ends if end != WELL)
        print(f"| {case.name} | {least_stack(case, ends)} | {less} |", flush=True)
    return faults


def table_case(name, threads, text):
    return case_of(f"table {name} {threads}/{threads}",
                   ["table", "--solvers", str(threads), "--checkers", str(threads)], text)


def answer_cases(name, layout, declarer, trump):
    """The cases of an answer, that it is sought and that it is checked."""
    solve = case_of(f"solve {name}", ["solve", layout, declarer, trump])
    return [solve, case_of(f"check {name}", ["check", layout, declarer, trump], solve.ample.out)]


def table_cases(deal, numbers):
    """The cases of tables, by so many threads of each kind. With ample memory they are DDS's."""
    club = (ROOT / "examples" / "club.pbn").read_bytes()
    board = f'[Board "1"]\n[Deal "{deal}"]\n'.encode()
    cases = [table_case(name, threads, text) for name, text in (("club", club), ("random", board))
             for threads in THREADS]
    if cases[0].ample.out != (ROOT / "examples" / "club-tables.pbn").read_bytes():
        sys.exit("with ample memory the tables of the club are not DDS's")
    if speed.printed_tables(cases[-1].ample.out.decode()) != [numbers]:
        sys.exit("with ample memory the table of the random board is not DDS's")
    return cases


def cases_of(seed):
    """All cases: help, `plain`, those of tables and those of answers, of which one is the random board's largest."""
    with tempfile.TemporaryDirectory() as name:
        (deal, numbers), = speed.tables_of(Path(name), ["1", seed]).items()
    declarer, trump = max(numbers, key=lambda entry: len(run(["solve", deal, *entry]).out))
    ending = (ROOT / "bench" / "dds" / "endings.txt").read_text().splitlines()[-1].split("|")[:3]
    cases = [case_of("--help", ["--help"]), case_of("plain", ["plain", *ending])] + table_cases(deal, numbers)
    return cases + answer_cases("13 cards", deal, declarer, trump) + answer_cases("4 cards", *ending)


def main():
    cases = cases_of(sys.argv[1] if len(sys.argv) > 1 else "2026")
    faults = stack_faults(cases) + memory_faults(cases)
    print(f"\n{faults} faults")
    return 1 if faults else 0


if __name__ == "__main__":
    sys.exit(main())
