#!/usr/bin/env python3
"""Compares the pages that `ddfarm plays` writes of random plays with those that have DDS's numbers (expected.py).

Usage: bench/plays/pages.py PROGRAM [RANDOM [BEST [CARDS [SEED]]]], by default 1000 plays of random legal cards, 300
plays with a random card among the best in nine of ten, and 13 cards a hand, of seed 2026. Every fourth play ends early.
It needs Debian's libdds-dev and g++. It prints the numbers of plays and how many blocks differ, with the first. The
status is 1 if there is one.
"""
import random
import subprocess
import sys
import tempfile
from pathlib import Path

import expected
from expected import HERE, RANKS, SEATS, SUITS

DEFAULTS = ("1000", "300", "13", "2026")
TRUMPS = ("NT", "S", "H", "D", "C")
BEST = 0.9


def deal_of(hands):
    """The Deal value of four hands, North's first."""
    def suits(hand):
        return ".".join("".join(sorted((card[1] for card in hand if card[0] == suit), key=RANKS.index, reverse=True))
                        for suit in SUITS)
    return "N:" + " ".join(map(suits, hands))


def best_cards(program, play):
    """The cards that leave the seat to play the most tricks, by DDS."""
    hands = [set(hand) for hand in play.hands]
    for place, card in enumerate(play.trick):
        hands[(play.leader + place) % 4].add(card)
    trump = "NT" if play.trump == "N" else play.trump
    line = f'{deal_of(hands)}|{SEATS[play.leader]}|{trump}|{" ".join(play.trick)}\n'
    words = subprocess.run([program, "0"], input=line, check=True, capture_output=True, text=True).stdout.split()
    scores = dict(zip(words[::2], map(int, words[1::2])))
    return sorted(card for card, score in scores.items() if score == max(scores.values()))


def random_play(dice, cards, solver):
    """A random deal, declarer and denomination, and cards: random ones, or mostly best ones if there is a solver."""
    pack = [suit + rank for suit in SUITS for rank in RANKS]
    dice.shuffle(pack)
    hands = [pack[cards * seat:cards * (seat + 1)] for seat in range(4)]
    declarer, trump = dice.choice(SEATS), dice.choice(TRUMPS)
    play = expected.Play(hands, declarer, trump[0])
    count = dice.randrange(4 * cards) if dice.randrange(4) == 0 else 4 * cards
    while len(play.cards) < count:
        legal = [card for card in sorted(play.hands[play.turn]) if play.fault(card) is None]
        if solver and len(legal) > 1 and dice.random() < BEST:
            legal = best_cards(solver, play)
        play.add(dice.choice(legal))
    return deal_of(hands), declarer, trump, play


def game_of(number, deal, declarer, trump, play):
    """The game in PBN. The columns begin with the leader to the first trick."""
    first = (SEATS.index(declarer) + 1) % 4
    rows = []
    for begin in range(0, len(play.cards), 4):
        row = ["-"] * 4
        for card, player in zip(play.cards[begin:begin + 4], play.players[begin:begin + 4]):
            row[(player - first) % 4] = card
        rows.append(" ".join(row))
    end = [] if len(play.cards) == sum(map(len, expected.hands_of(deal))) else ["*"]
    tags = (("Board", number), ("Deal", deal), ("Declarer", declarer), ("Contract", f"4{trump}"),
            ("Play", SEATS[first]))
    return "\n".join([f'[{name} "{value}"]' for name, value in tags] + rows + end) + "\n"


def main():
    """Makes the plays, and compares the pages."""
    given = tuple(sys.argv[2:])
    counts = given + DEFAULTS[len(given):]
    randoms, best, cards, seed = map(int, counts)
    dice = random.Random(seed)
    with tempfile.TemporaryDirectory() as name:
        solver = str(Path(name) / "solve_board")
        source = HERE.parent / "cards" / "solve_board.cpp"
        subprocess.run(["g++", "-O2", "-std=c++17", "-o", solver, str(source), "-ldds"], check=True)
        plays = [random_play(dice, cards, solver if place >= randoms else None) for place in range(randoms + best)]
    text = "\n".join(game_of(number, *play) for number, play in enumerate(plays, 1))
    wanted = expected.page_of(text).split("\n\n")
    run = subprocess.run([sys.argv[1], "plays"], input=text, capture_output=True, text=True, check=False)
    got = run.stdout.split("\n\n")
    wrong = [(one, other) for one, other in zip(wanted, got) if one != other]
    for one, other in wrong[:1]:
        print(f"wanted:\n{one}\ngot:\n{other}")
    failed = wrong or len(wanted) != len(got) or run.returncode != 0 or run.stderr
    print(f"{randoms} random plays and {best} nearly best, {cards} cards a hand, seed {seed}: {len(wrong)} different, "
          f"status {run.returncode}{run.stderr and ', ' + run.stderr}")
    return 1 if failed else 0


if __name__ == "__main__":
    sys.exit(main())
