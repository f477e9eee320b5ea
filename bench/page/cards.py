#!/usr/bin/env python3
"""Writes evidence of cards, most of it damaged, and what `ddfarm cards --audit` prints of it, for the checker in page/.

Usage: bench/page/cards.py PROGRAM COUNT MOST SEED >CASES. There are COUNT random endings of one to five cards a hand.
The evidence of each is damaged in at most MOST places by each kind of damage (see bench/cards), and at most MOST other
positions are asked. A case is as in cases.py, its words the layout, the leader, the denomination and the cards played,
and its line what is printed, with slashes between lines.
"""
import random
import re
import subprocess
import sys
import tempfile
from pathlib import Path

sys.path.insert(0, str(Path(__file__).resolve().parent.parent / "cards"))
from damages import damaged_texts, other_words, renamed  # noqa: E402
from positions import random_ending, words_of  # noqa: E402

# A begun node, up to its tree.
BEGUN = re.compile(rb"(?m)^([NESW] \d+(?: [\d.]+/[NESW]*){4} )(.*)$")
CARD = rb"[SHDC][a-mx]"


def with_begun(text):
    """The text after the tree of a begun node is changed where its cards are: a card of the path becomes a branch or
    the other way round, or a low card, or another branch stands beside it."""
    for begun in list(BEGUN.finditer(text))[:4]:
        for place in re.finditer(rb"\(?" + CARD, begun[2]):
            card = place[0]
            others = [card[1:]] if card[:1] == b"(" else [b"(" + card + b"Sx{})", b"(" + card]
            others.append(card[:-1] + b"x")
            others += [b"(Sa{}" + card[1:], b"(" + card[1:] + b"{})"] if card[:1] == b"(" else []
            for other in others:
                start, end = (begun.start(2) + at for at in place.span())
                yield text[:start] + other + text[end:]


def with_names(text):
    """A begun node names the node after the last of a graph, and a node takes the place of none."""
    for count in sorted(set(re.findall(rb"(?m)^nodes (\d+)$", text))):
        yield re.sub(rb"(?m)^(.*\{\w)\d+", rb"\g<1>" + count, text, count=1)
    begun = BEGUN.search(text)
    if begun is not None:
        yield text.replace(b"\n-\n", b"\n" + begun[0] + b"\n", 1)


def line_of(program, file, words):
    """What an audit prints, in one line."""
    done = subprocess.run([program, "cards", "--audit", str(file), *words], capture_output=True, check=False)
    if done.returncode not in (0, 4):
        sys.exit(f"cards: {words}: status {done.returncode}, {done.stderr}")
    return done.stdout.rstrip(b"\n").replace(b"\n", b" / "), done.returncode


def texts(dice, text, words, others, most):
    """Texts, each with the words of the position that is asked."""
    yield text, words
    yield from ((other, words) for _, other in damaged_texts(dice, text, most) if other != text)
    yield from ((other, words) for other in [*with_begun(text), *with_names(text)])
    for asked in others:
        yield text, asked
        yield renamed(text, asked), asked


def main():
    program, count, most, seed = sys.argv[1], *map(int, sys.argv[2:5])
    dice = random.Random(seed)
    with tempfile.TemporaryDirectory() as room:
        kept, file = Path(room, "kept.ddp"), Path(room, "asked.ddp")
        for number in range(count):
            position = random_ending(dice, 1 + number % 5, dice.randrange(4))
            words = words_of(position)
            kept.unlink(missing_ok=True)
            subprocess.run([program, "cards", "--evidence", str(kept), *words], capture_output=True, check=True)
            others = list(map(list, other_words(dice, position)))
            legal = [asked for asked in dice.sample(others, min(len(others), 4 * most)) if is_legal(program, asked)]
            for text, asked in texts(dice, kept.read_bytes(), words, legal[:most], most):
                file.write_bytes(text)
                line, status = line_of(program, file, asked)
                name = "|".join([*asked[:3], " ".join(asked[3:])]).encode()
                sys.stdout.buffer.write(b"%d\t%d\t%s\t%s\n%s" % (len(text), status, name, line, text))


def is_legal(program, words):
    """Whether the cards may be played: other cards are refused before any evidence is read."""
    done = subprocess.run([program, "cards", "--audit", "/dev/null", *words], capture_output=True, check=False)
    return done.returncode == 4


main()
