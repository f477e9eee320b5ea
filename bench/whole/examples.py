#!/usr/bin/env python3
"""Tries `ddfarm table --whole` on each file under examples/, as it is and with its lines ended the other way, and on
twenty deals that Debian's `dealer` prints, where that is installed. The checks are those of compare.py.

Usage: bench/whole/examples.py [BUDGET [PROGRAM]], by default 100,000 steps and the `ddfarm` of this repository. Prints
a line for each text, or the first difference in full, and ends with status 1 where there was one.
"""
import subprocess
import sys
from pathlib import Path

from compare import ROOT, counts_of, difference, fault_of, told, trial_of

DEALER = Path("/usr/games/dealer")
DEFAULTS = ("100000", str(ROOT / "ddfarm"))


def with_other_ends(text):
    """The text with LF for CR LF, or else CR LF for LF."""
    return text.replace(b"\r\n", b"\n") if b"\r\n" in text else text.replace(b"\n", b"\r\n")


def texts():
    """Names and texts."""
    for path in sorted((ROOT / "examples").glob("*.pbn")):
        text = path.read_bytes()
        yield path.name, text
        yield f"{path.name} with other ends", with_other_ends(text)
    if DEALER.exists():
        made = subprocess.run([DEALER, "-p", "20", "-s", "1"], input=b"action printpbn\n", capture_output=True,
                              check=True)
        yield "twenty deals of dealer", made.stdout
    else:
        print(f"{DEALER} is not installed")


def main():
    given = tuple(sys.argv[1:])
    budget, program = given + DEFAULTS[len(given):]
    for name, text in texts():
        trial = trial_of(program, budget, text)
        fault = fault_of(trial)
        if fault:
            sys.exit(f"{name}: {difference(trial, fault)}")
        print(f"{name}: {told(counts_of(trial))}", flush=True)


if __name__ == "__main__":
    main()
