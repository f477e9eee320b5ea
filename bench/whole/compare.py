#!/usr/bin/env python3
"""Compares `ddfarm table --whole` on random texts (texts.py) with `ddfarm table` and with a second writer of whole
texts (model.py).

Usage: bench/whole/compare.py [--texts COUNT] [--seed SEED] [--jobs JOBS] [--program PROGRAM], by default 2,000 texts of
seed 1, as many jobs as there are processors, and the `ddfarm` of this repository. The texts have few deals, all found
in a moment; in a part of the runs a small budget leaves tables incomplete. A text depends on the seed and its number
alone.

Prints what was tried, or the first difference in full, and ends with status 1 where there was one.
"""
import argparse
import functools
import os
import random
import subprocess
import sys
from collections import Counter, namedtuple
from multiprocessing import Pool
from pathlib import Path

import model
import texts

ROOT = Path(__file__).resolve().parent.parent.parent
DEADLINE = 600
BUDGETS = (100_000, 100_000, 100_000, 100_000, 100, 1)

# How a run ended, and what it wrote.
Outcome = namedtuple("Outcome", "status out err")
# The words and the text, and the outcomes: without and with `--whole` on the text, and then on what `--whole` wrote.
Trial = namedtuple("Trial", "words text plain whole plain_again whole_again")


def run(program, words, text):
    try:
        done = subprocess.run([program, *words], input=text, capture_output=True, check=False, timeout=DEADLINE)
    except subprocess.TimeoutExpired as stopped:
        return Outcome("hangs", stopped.stdout or b"", stopped.stderr or b"")
    return Outcome(done.returncode, done.stdout, done.stderr)


def trial_of(program, budget, text):
    """All runs on a text."""
    words = ["table", "--solvers", "1", "--checkers", "1", "--budget", str(budget)]
    plain, whole = (run(program, words + more, text) for more in ([], ["--whole"]))
    plain_again, whole_again = (run(program, words + more, whole.out) for more in ([], ["--whole"]))
    return Trial(words, text, plain, whole, plain_again, whole_again)


def end_fault(trial):
    """The error output has to be that of `table`, and if a text is refused, nothing is written."""
    if trial.whole.err != trial.plain.err:
        return "another error output"
    if trial.plain.status == 2:
        return None if (trial.whole.status, trial.whole.out) == (2, b"") else "`table` alone refuses the text"
    return None if trial.plain.status in (0, 3) else "a run failed"


def section_fault(trial):
    """Each game whose deal is known has to end with a table or a line of how many results are known, and each game with
    a Deal tag has to have no other; what they show has to be what `table` printed."""
    taken, printed = model.taken_out(trial.whole.out), model.taken_out(trial.plain.out)
    if taken is None or printed is None:
        return "a board lacks its section"
    bare, shown = taken
    if model.without(bare) != bare:
        return "an old table stands beside the section"
    return None if shown == printed[1] else "other numbers than those of `table`"


def status_fault(trial):
    """The status has to be 3 if a line on the page says how many results are known, otherwise 0."""
    _, shown = model.taken_out(trial.whole.out)
    lacks = (b"\n; table incomplete: " in trial.plain.out, any(isinstance(shows, int) for shows in shown))
    wanted = [3 if any_lacks else 0 for any_lacks in lacks]
    return None if [trial.plain.status, trial.whole.status] == wanted else "another status"


def loss_fault(trial):
    bare, _ = model.taken_out(trial.whole.out)
    return None if model.loses_nothing(bare, trial.text) else "something is lost or added"


def model_fault(trial):
    """What is written has to be what the second writer makes of the text and the numbers."""
    _, shown = model.taken_out(trial.whole.out)
    return None if model.whole(trial.text, shown) == trial.whole.out else "the second writer writes otherwise"


def board_fault(trial):
    return None if trial.plain_again == trial.plain else "`table` of what is written is another"


def again_fault(trial):
    return None if trial.whole_again == trial.whole else "`--whole` of what is written is another"


# In the order in which they are asked: the first that tells something is the trial's.
JUDGES = (section_fault, status_fault, loss_fault, model_fault, board_fault, again_fault)


def fault_of(trial):
    """What is wrong with a trial, or None."""
    fault = end_fault(trial)
    if fault or trial.plain.status == 2:
        return fault
    return next(filter(None, (judge(trial) for judge in JUDGES)), None)


def counts_of(trial):
    """What a trial adds to the counts."""
    if trial.plain.status == 2:
        return Counter(texts=1, refused=1)
    _, shown = model.taken_out(trial.whole.out)
    counted = sum(isinstance(shows, int) for shows in shown)
    has_old = model.without(trial.text) != trial.text
    return Counter({"texts": 1, "with old tables": int(has_old), "with a known deal": int(bool(shown)),
                    "tables": len(shown) - counted,
                    "counts of incomplete tables": counted})


def told(counts):
    return ", ".join(f"{name} {count}" for name, count in counts.items())


def difference(trial, fault):
    """A trial with a fault, in full."""
    runs = ("plain", "whole", "plain_again", "whole_again")
    lines = [f"{fault}: {' '.join(trial.words)}, with and without --whole", f"the text: {trial.text!r}"]
    return "\n".join(lines + [f"{name}: {getattr(trial, name)}" for name in runs])


def judged(program, seed, number):
    """What the trial of a random text adds to the counts, and what is wrong with it, told in full."""
    source = random.Random(f"{seed} {number}")
    budget, text = source.choice(BUDGETS), texts.text(source)
    trial = trial_of(program, budget, text)
    fault = fault_of(trial)
    if fault:
        return Counter(), f"text {number} of seed {seed}: {difference(trial, fault)}"
    return counts_of(trial), None


def words_given():
    parser = argparse.ArgumentParser(description="Compares `ddfarm table --whole` on random texts.")
    parser.add_argument("--texts", type=int, default=2000)
    parser.add_argument("--seed", default="1")
    parser.add_argument("--jobs", type=int, default=len(os.sched_getaffinity(0)))
    parser.add_argument("--program", default=str(ROOT / "ddfarm"))
    return parser.parse_args()


def main():
    given = words_given()
    # The program is built before several runs ask for it.
    subprocess.run([given.program, "--help"], stdout=subprocess.DEVNULL, check=True)
    counts = Counter()
    with Pool(given.jobs) as pool:
        for more, fault in pool.imap(functools.partial(judged, given.program, given.seed), range(given.texts),
                                     chunksize=4):
            if fault:
                sys.exit(fault)
            counts.update(more)
    print(f"{told(counts)}; no difference")


if __name__ == "__main__":
    main()
