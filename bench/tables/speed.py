#!/usr/bin/env python3
"""Times `ddfarm table`, `table --whole` and `table --sheet` on texts of 4,096 boards, of about 1 MB and about 10 MB,
beside `wc -l`.

Usage: bench/tables/speed.py [PROGRAM]. Without a name it is ddfarm, which has to be built (run ./ddfarm once). Each
figure is the best of five runs, in turns, with the output to a file. The longer text has the same boards with ninety
lines of play more in each game; each is tried with its deals, with hands that aren't known, and with one deal in all
games. One try of one step finds no number: what is timed is reading, leasing, what a search makes ready, and writing.
The one deal's tables are found at once, and written for all boards.
"""
import os
import random
import re
import subprocess
import sys
import tempfile
import time

BOARDS = 4096
RANKS = "23456789TJQKA"
ROOT = os.path.dirname(os.path.dirname(os.path.dirname(os.path.abspath(__file__))))
PROGRAM = os.path.join(ROOT, "crates", "ddfarm", "out", "ddfarm")


def deal(random_source):
    """A random deal as a Deal value."""
    cards = [(suit, rank) for suit in range(4) for rank in range(13)]
    random_source.shuffle(cards)
    hands = []
    for place in range(0, 52, 13):
        groups = []
        for suit in range(4):
            ranks = sorted((r for s, r in cards[place : place + 13] if s == suit), reverse=True)
            groups.append("".join(RANKS[rank] for rank in ranks))
        hands.append(".".join(groups))
    return "N:" + " ".join(hands)


def text(more_lines):
    """A text as a tournament writes it, with so many lines of play more in each game."""
    random_source = random.Random(5)
    games = ["% PBN 2.1\r\n"]
    for number in range(1, BOARDS + 1):
        lines = [
            f'[Event "Club night {number}"]',
            f'[Board "{number}"]',
            '[West "A"]',
            f'[Deal "{deal(random_source)}"]',
            '[Scoring "MP"]',
            '[Auction "N"]',
            "1NT Pass 3NT Pass",
            "Pass Pass",
            '[Play "E"]',
            "H4 H3 HK HA",
            *["S2 S3 S4 S5 {a note; [x}"] * more_lines,
        ]
        games.append("\r\n".join(lines) + "\r\n\r\n")
    return "".join(games)


def milliseconds(command, path, output):
    """How long one run of the command on the file takes."""
    with open(path, "rb") as given, open(output, "wb") as taken:
        start = time.perf_counter()
        subprocess.run(command, stdin=given, stdout=taken, stderr=subprocess.DEVNULL, check=False)
        return 1000 * (time.perf_counter() - start)


def best(commands, path, output):
    """Of each command the shortest of five runs on the file."""
    turns = [[milliseconds(command, path, output) for command in commands] for _ in range(5)]
    return [min(times) for times in zip(*turns)]


# What is timed, the deal of all games if they have one, and the options of the search.
ONE_STEP = ["--tries", "1", "--budget", "1"]
FOUR_SUITS = "N:AKQJT98765432... .AKQJT98765432.. ..AKQJT98765432. ...AKQJT98765432"
KINDS = ("deals", None, ONE_STEP), ("no deals", "?", ONE_STEP), ("one deal", FOUR_SUITS, [])


def main():
    program = sys.argv[1] if len(sys.argv) > 1 else PROGRAM
    with tempfile.TemporaryDirectory() as room:
        path, output = os.path.join(room, "text.pbn"), os.path.join(room, "tables.pbn")
        for more_lines in (0, 90):
            for kind, deal_of_all, options in KINDS:
                given = text(more_lines)
                with open(path, "w", newline="") as file:
                    file.write(re.sub(r'\[Deal "[^"]*"', f'[Deal "{deal_of_all}"', given) if deal_of_all else given)
                command = [program, "table", *options]
                commands = [command, [*command, "--whole"], [*command, "--sheet"], ["wc", "-l"]]
                alone, whole, sheet, lines = best(commands, path, output)
                print(f"{os.path.getsize(path)} bytes, {kind}: table {alone:.0f} ms, --whole {whole:.0f}, "
                      f"--sheet {sheet:.0f}, wc -l {lines:.0f}")


if __name__ == "__main__":
    main()
