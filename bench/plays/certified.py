"""The program that has the solver look for the values of plays and judges its answers (certified.rt.txt)."""
import shutil
import subprocess
from pathlib import Path

HERE = Path(__file__).resolve().parent
ROOT = HERE.parent.parent
CRATES = ["certified_plays", "play_claims", "play_values", "partition_solver", "certificate_graph", "cards", "streams"]


def below(lines):
    """The crates that the program stands on, by the lines of crates.txt."""
    used = {name: words.split() for name, _, words in (line.partition(":") for line in lines)}
    found, waiting = set(), list(CRATES)
    while waiting:
        name = waiting.pop()
        if name in used and name not in found:
            found.add(name)
            waiting += used[name]
    return found


def build(folder):
    """Proves and builds the program over copies of the crates."""
    crate = folder / "crates" / "certified"
    lines = (ROOT / "crates.txt").read_text().splitlines()
    names = below(lines)
    for name in names:
        shutil.copytree(ROOT / "crates" / name, folder / "crates" / name, ignore=shutil.ignore_patterns("must-fail"))
    (crate / "src").mkdir(parents=True)
    shutil.copy(HERE / "certified.rt.txt", crate / "src" / "main.rt")
    shutil.copy(ROOT / "HANDLES", folder)
    kept = [line for line in lines if line.partition(":")[0] in names]
    (folder / "crates.txt").write_text("\n".join([*kept, "certified: " + " ".join(CRATES)]) + "\n")
    subprocess.run(["git", "init", "-q", "."], cwd=folder, check=True)
    subprocess.run(["rt", "run"], cwd=crate, check=True, stdout=subprocess.DEVNULL, input=b"")
    return crate / "out" / "certified"


def bytes_of(play):
    """A play as the program reads it."""
    hands = (sum(1 << 13 * suit + rank for suit, rank in hand) for hand in play.hands)
    head = b"".join(hand.to_bytes(8, "little") for hand in hands)
    trump = 4 if play.trump is None else play.trump
    return head + bytes([play.leader, trump, len(play.cards), *(13 * suit + rank for suit, rank in play.cards)])


def judged(program, plays):
    """For each play the numbers that are shown, None for others, and the processor seconds of all."""
    run = subprocess.run([str(program)], input=b"".join(map(bytes_of, plays)), check=True, capture_output=True)
    numbers, seconds = [], 0.0
    for line in run.stdout.decode().splitlines():
        words, taken = line.split(" | ")
        numbers.append([None if word == "-" else int(word) for word in words.split()])
        seconds += int(taken.split()[-1]) / 1e6
    assert len(numbers) == len(plays)
    return numbers, seconds
