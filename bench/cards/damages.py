#!/usr/bin/env python3
"""Damages the evidence of `ddfarm cards --evidence`, and asks `cards --audit` what it shows. It has to print the bytes
that `cards` prints without evidence, with the same status, or one line `refused ..`, with status 4.

Usage: bench/cards/damages.py [--most 2000] [--seed 2026] [PROGRAM]. The program has to be built (run ./ddfarm once).
There are four endings and a deal of 13 cards a hand. Each kind of damage (edits.py, and bench/answers/damages.py) is
tried at --most places of each file at most, a tenth of that if the file is longer than 100,000 bytes. So every byte of
an ending's file is changed. Then other positions are asked, of the file as it is, and of the file with the other
position in its lines. The numbers of the endings have to be those of the slow search (plain.py). It prints how often
the same was printed and how often the file was refused. At the first other answer it writes the file to damaged.ddp and
ends with status 1.
"""
import argparse
import random
import re
import subprocess
import sys
import tempfile
from collections import Counter
from pathlib import Path

import plain
from compare import PROGRAM
from edits import EDITS, OF_ANSWERS, put, some
from positions import SEATS, SUITS, TRUMPS, Position, card_of, hands_of, random_position, words_of
from texts import cards_text

ENDINGS = [
    ("N:A... K... Q... J...", "E", "NT"),
    ("N:AQ... 65... 32... K4...", "S", "NT", "S3", "S4"),
    ("N:J2... .AK.. A3... Q.2..", "E", "S", "HK"),
    ("N:AJ.K.. KQ.A.. 2..2.A ..543.", "S", "C"),
]
HEAD = {rb"(?m)^deal .*$": 0, rb"(?m)^leader .*$": 1, rb"(?m)^trump .*$": 2}
PLAYED = re.compile(rb"(?m)^played .*$")
# How many other layouts are asked.
LAYOUTS = 30
LONG = 100_000
# No run takes as many seconds.
LONGEST = 120


def position_of(layout, leader, trump, *played):
    suit = None if trump == "NT" else SUITS.index(trump)
    return Position(hands_of(layout), SEATS.index(leader), suit, tuple(map(card_of, played)))


def run(program, *words):
    """The output, the messages and the status of `cards`."""
    done = subprocess.run([str(program), "cards", *map(str, words)], capture_output=True, check=False, timeout=LONGEST)
    return done.stdout, done.stderr, done.returncode


def is_refusal(printed):
    output, messages, status = printed
    return status == 4 and messages == b"" and re.fullmatch(rb"refused [^\n]*\n", output) is not None


def judge(program, folder, text, words, wanted, name):
    """Whether damaged evidence shows the same or is refused. Anything else ends the program."""
    file = folder / "damaged.ddp"
    file.write_bytes(text)
    printed = run(program, "--audit", file, *words)
    if printed != wanted and not is_refusal(printed):
        Path("damaged.ddp").write_bytes(text)
        sys.exit(f"{name}, {words}: {printed}\nwanted: {wanted}\n(the file is in damaged.ddp)")
    return "the same" if printed == wanted else "refused"


def damaged_texts(dice, text, most):
    """Each damaged text after the name of its kind."""
    for kind in EDITS:
        yield from ((kind.__name__, put(text, edit)) for edit in kind(dice, text, most))
    for kind in OF_ANSWERS:
        others = (kind(dice, text) for _ in range(most // len(OF_ANSWERS)))
        yield from ((f"{kind.__name__} of answers", other) for other in others if other is not None)


def exchanged(dice, hands):
    """The hands after two of them exchange a card."""
    one, other = dice.sample(range(4), 2)
    given, taken = dice.choice(hands[one]), dice.choice(hands[other])
    moved = {given: taken, taken: given}
    return tuple(tuple(moved.get(card, card) for card in hand) for hand in hands)


def like_positions(dice, position):
    """Positions that are much like this one. In some a card is played that may not be."""
    yield from (position._replace(leader=leader) for leader in range(4))
    yield from (position._replace(trump=trump) for trump in TRUMPS)
    yield from (position._replace(played=position.played[:count]) for count in range(len(position.played)))
    yield position._replace(played=position.played[::-1])
    yield from (position._replace(played=(*position.played[:2], card)) for card in sum(position.hands, ()))
    yield from (position._replace(hands=position.hands[turn:] + position.hands[:turn]) for turn in (1, 2, 3))
    yield from (position._replace(hands=exchanged(dice, position.hands)) for _ in range(LAYOUTS))


def other_words(dice, position):
    """The words of other positions, each once."""
    words = dict.fromkeys(tuple(words_of(other)) for other in like_positions(dice, position))
    return [other for other in words if other != tuple(words_of(position))]


def renamed(text, words):
    """The evidence with this position in its lines, and the denomination in both certificates."""
    for line, place in HEAD.items():
        text = re.sub(line, lambda old, word=words[place]: old[0].split(b" ")[0] + b" " + word.encode(), text)
    played = b"".join(b" " + word.encode() for word in words[3:])
    return PLAYED.sub(b"played %d" % (len(words) - 3) + played, text, count=1)


def evidence_for(program, folder, position, wanted):
    """The evidence of a position, whose numbers have to be printed with it and by it."""
    file = folder / "true.ddp"
    file.unlink(missing_ok=True)
    words = words_of(position)
    for option in ("--evidence", "--audit"):
        printed = run(program, option, file, *words)
        if printed != wanted:
            sys.exit(f"{option}, {words}: {printed}\nwanted: {wanted}")
    return file.read_bytes()


def try_position(program, folder, position, dice, most):
    """Damages the evidence for a position, and counts the answers by their kind."""
    words, told = words_of(position), Counter()
    wanted = run(program, *words)
    if len(position.hands[0]) < 13 and wanted != (cards_text(position, plain.card_tricks(position)).encode(), b"", 0):
        sys.exit(f"{words}: {wanted}, not the search's numbers")
    text = evidence_for(program, folder, position, wanted)
    for kind, other in damaged_texts(dice, text, most if len(text) <= LONG else most // 10):
        if other != text:
            told[kind, judge(program, folder, other, words, wanted, kind)] += 1
    for asked in some(dice, other_words(dice, position), most):
        shown = run(program, *asked)
        for kind, evidence in (("another position asked", text), ("another position named", renamed(text, asked))):
            told[kind, judge(program, folder, evidence, asked, shown, kind)] += 1
    print(f"{' '.join(words)}: {len(text)} bytes, {told.total()} damaged", flush=True)
    return told


def arguments():
    parser = argparse.ArgumentParser()
    for name, value in (("--most", 2000), ("--seed", 2026)):
        parser.add_argument(name, type=int, default=value)
    parser.add_argument("program", nargs="?", type=Path, default=PROGRAM)
    return parser.parse_args()


def main():
    given = arguments()
    dice = random.Random(given.seed)
    positions = [position_of(*words) for words in ENDINGS] + [random_position(dice, 13, 2)]
    total = Counter()
    with tempfile.TemporaryDirectory() as name:
        for position in positions:
            total += try_position(given.program, Path(name), position, dice, given.most)
    for kind in dict.fromkeys(kind for kind, _ in total):
        print(f"{kind}: the same {total[kind, 'the same']}, refused {total[kind, 'refused']}")


if __name__ == "__main__":
    main()
