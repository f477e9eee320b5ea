#!/usr/bin/env python3
"""Measures the reading, checking and writing of certificates beside a loop that copies the bytes of the same texts.

Usage: bench/answers/speed.py. It copies the crates into a folder of its own, proves and builds speed.rt.txt there, and
runs it on each certificate of the answers with 13 cards a hand. It prints megabytes a second, and of the check leaves a
second and nanoseconds a leaf: the least time of three runs of each text, added up over the texts.
"""
import shutil
import subprocess
import tarfile
import tempfile
from pathlib import Path

HERE = Path(__file__).resolve().parent
ROOT = HERE.parent.parent
RUNS, TIMES = 3, {"copy": 20, "read": 20, "check": 20, "write": 1}
CRATES = ("cards", "patterns", "pattern_step", "certificate_graph", "checker", "streams")


def certificates():
    """The texts of both certificates of each answer with 13 cards a hand."""
    with tarfile.open(HERE / "answers.tar.xz") as archive:
        for member in archive:
            if "/13/" in member.name and member.isfile():
                text = archive.extractfile(member).read().split(b"\n", 2)[2]
                cut = text.index(b"\n\n") + 1
                yield from (text[:cut], text[cut + 1:])


def below(names, lines):
    """The names of all crates that these stand on, with them."""
    known = {line.split(":")[0]: line.split(":")[1].split() for line in lines if ":" in line}
    found = set()
    while names:
        name = names.pop()
        if name in known and name not in found:
            found.add(name)
            names += known[name]
    return found


def build(folder, source=HERE / "speed.rt.txt"):
    crate = folder / "crates" / "answer_speed"
    lines = (ROOT / "crates.txt").read_text().splitlines()
    names = below(list(CRATES), lines)
    for name in names:
        shutil.copytree(ROOT / "crates" / name, folder / "crates" / name,
                        ignore=shutil.ignore_patterns("must-fail", "out"))
    (crate / "src").mkdir(parents=True)
    shutil.copy(source, crate / "src" / "main.rt")
    shutil.copy(ROOT / "HANDLES", folder)
    kept = [line for line in lines if line.split(":")[0] in names]
    (folder / "crates.txt").write_text("\n".join(kept + ["answer_speed: " + " ".join(CRATES)]) + "\n")
    subprocess.run(["git", "init", "-q", "."], cwd=folder, check=True)
    subprocess.run(["rt", "run"], cwd=crate, check=True, stdout=subprocess.DEVNULL, input=b"")
    return crate / "out" / "answer_speed"


def least_times(program, text):
    """The least microseconds of each thing that the program times on the text."""
    least = {}
    for _ in range(RUNS):
        run = subprocess.run([str(program)], check=True, capture_output=True, input=text)
        for line in run.stdout.decode().splitlines():
            name, micros, total = line.split()
            if name == "check" and int(total) != TIMES["check"]:
                raise SystemExit("a certificate was refused")
            least[name] = min(least.get(name, float("inf")), int(micros) / TIMES[name])
    return least


def main():
    texts = list(certificates())
    sums = dict.fromkeys(TIMES, 0.0)
    with tempfile.TemporaryDirectory() as name:
        program = build(Path(name))
        for text in texts:
            for what, micros in least_times(program, text).items():
                sums[what] += micros
    size, leaves = sum(map(len, texts)), sum(text.count(b"{") for text in texts)
    print(f"{len(texts)} certificates, {size / 1e6:.1f} MB, {leaves} leaves")
    for what in ("copy", "read", "write", "check"):
        print(f"{what}: {size / sums[what]:.0f} MB/s")
    print(f"check: {leaves / sums['check']:.1f} million leaves a second, {sums['check'] * 1000 / leaves:.0f} ns a leaf")


if __name__ == "__main__":
    main()
