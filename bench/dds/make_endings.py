#!/usr/bin/env python3
"""Prints 100 endings as lines LAYOUT|LEADER|TRUMP, the same each time: composed ones and random ones.

Each pair of a leader and a denomination occurs five times. The values come from solve.cpp, not from here:
the search below only throws away random endings in which no card that is played matters.
"""

import random
from functools import lru_cache

SEATS = "NESW"
SUITS = "SHDC"
RANKS = "23456789TJQKA"
TRUMPS = ["NT", "S", "H", "D", "C"]
SEED = 20170901

# Hands of N, E, S, W with the leader and the denomination, by what they show.
COMPOSED = [
    ("a top card that falls", "A... K... Q... J...", "E", "NT"),
    ("a ruff", "2... .A.. 3... .K..", "E", "S"),
    ("the same without a trump suit", "2... .A.. 3... .K..", "E", "NT"),
    ("a finesse that wins", "AQ... 65... 32... K4...", "S", "NT"),
    ("a finesse that loses", "AQ... K5... 32... 64...", "S", "NT"),
    ("a squeeze of the hand before the threats", "AJ.K.. ..432. 2.2..A KQ.A..", "S", "NT"),
    ("a squeeze with a threat in each hand", "AJ.K.. KQ.A.. 2.2..A ..432.", "S", "NT"),
    ("no squeeze: the threats discard first", "AJ.K.. KQ.A.. 2..2.A ..543.", "S", "NT"),
    ("a squeeze: the threats discard last", "AJ.K.. ..543. 2..2.A KQ.A..", "S", "NT"),
    ("a double squeeze", "J.A4.. .KT.Q. .3.J.A Q.QJ..", "S", "NT"),
    ("a throw-in", "AQ.3.. KJ.A.. 32.2.. 65.4..", "S", "NT"),
    ("a throw-in that needs an exit stripped first", "AQ.3.2. KJ.A.4. 32.2.A. 65.4.3.", "S", "NT"),
    ("a hold-up", "A2.A.. KQ.3.. 43.2.. J5.K..", "W", "NT"),
    ("a suit that is blocked", "A..2. K..A. QJ... 32...", "S", "NT"),
    ("a cross-ruff", "32.A.. 4.32.. A..32. .K.KQ.", "N", "S"),
    ("an overruff", "3.2.. 4...2 .A.2. 2.K..", "S", "S"),
    ("a trump coup", ".AK.. 65... AQ... K4...", "N", "S"),
    ("a trump promoted for the defenders", "J2... .AK.. A3... Q.2..", "E", "S"),
    ("a ruff and discard", "2.2.. .3.3. 3..2. .A.A.", "W", "S"),
    ("an entry that is kept", "..AK2. ..QJ4. A...32 K.2..4", "S", "NT"),
    ("a duck to keep an entry", "..AK32. 4..QJ.2 3..54.A A..T9.3", "S", "NT"),
    ("a squeeze in two suits at trumps", "AJ.K.. KQ.A.. 2..2.A ..543.", "S", "C"),
    ("a ruffing finesse", ".AQ..2 .K3.2. 2.2.3. .54.4.", "N", "S"),
    ("trumps drawn or not", "A.32.. 3.A..2 2.K.A. 4.4.3.", "S", "S"),
    ("an unguarded king", "AQ... K..2. 32... 4...2", "S", "NT"),
    ("a card that wins by its suit alone", "5...2 .A..3 .K.2. ..A.4", "E", "H"),
]


def hands_of(words):
    hands = []
    for word in words.split():
        groups = word.split(".")
        hands.append(tuple((suit, RANKS.index(letter)) for suit in range(4) for letter in groups[suit]))
    return hands


def layout_of(hands, start):
    words = []
    for i in range(4):
        hand = hands[(start + i) % 4]
        groups = []
        for suit in range(4):
            ranks = sorted((rank for held, rank in hand if held == suit), reverse=True)
            groups.append("".join(RANKS[rank] for rank in ranks))
        words.append(".".join(groups))
    return SEATS[start] + ":" + " ".join(words)


def winner_of(trick, leader, trump):
    best = 0
    for i in range(1, 4):
        if trick[i][0] == trick[best][0]:
            if trick[i][1] > trick[best][1]:
                best = i
        elif trick[i][0] == trump:
            best = i
    return (leader + best) % 4


def has_a_choice_that_matters(hands, leader, trump):
    """Whether some card on a line of best play could be wrong."""

    @lru_cache(maxsize=None)
    def results(hands, trick, leader):
        turn = (leader + len(trick)) % 4
        same = [card for card in hands[turn] if trick and card[0] == trick[0][0]]
        return {card: value_after(hands, trick, leader, card) for card in (same or hands[turn])}

    def value_after(hands, trick, leader, card):
        turn = (leader + len(trick)) % 4
        left = tuple(tuple(c for c in hand if c != card) for hand in hands)
        trick = trick + (card,)
        if len(trick) < 4:
            return value(left, trick, leader)
        winner = winner_of(trick, leader, trump)
        return (winner % 2 == 0) + value(left, (), winner)

    @lru_cache(maxsize=None)
    def value(hands, trick, leader):
        turn = (leader + len(trick)) % 4
        if not hands[turn]:
            return 0
        found = results(hands, trick, leader).values()
        return max(found) if turn % 2 == 0 else min(found)

    hands = tuple(hands)
    trick = ()
    while hands[(leader + len(trick)) % 4]:
        turn = (leader + len(trick)) % 4
        found = results(hands, trick, leader)
        if len(set(found.values())) > 1:
            return True
        card = sorted(found)[0]
        hands = tuple(tuple(c for c in hand if c != card) for hand in hands)
        trick += (card,)
        if len(trick) == 4:
            leader = winner_of(trick, leader, trump)
            trick = ()
    return False


def random_hands(dice, size, shapely):
    """Four hands: of the whole pack, or of the top cards of two or three suits."""
    pack = [(suit, rank) for suit in range(4) for rank in range(13)]
    if shapely:
        suits = dice.sample(range(4), dice.choice([2, 3]))
        pack = [(suit, rank) for suit in suits for rank in range(13 - 2 * size - 2, 13)]
    dice.shuffle(pack)
    return [tuple(sorted(pack[size * i:size * i + size])) for i in range(4)]


def main():
    dice = random.Random(SEED)
    wanted = {(leader, trump): 5 for leader in range(4) for trump in TRUMPS}
    lines = []
    used = {trump: 0 for trump in TRUMPS}
    for name, words, leader, trump in COMPOSED:
        # The table is turned so that the leader sits at each seat in turn, and the suits change places.
        leader = SEATS.index(leader)
        turn = (used[trump] - leader) % 4
        used[trump] += 1
        change = [0, 1, 2, 3]
        dice.shuffle(change)
        hands = hands_of(words)
        assert len({card for hand in hands for card in hand}) == 4 * len(hands[0]), name
        assert len({len(hand) for hand in hands}) == 1, name
        for seat, hand in enumerate(list(hands)):
            hands[(seat + turn) % 4] = tuple((change[suit], rank) for suit, rank in hand)
        leader = (leader + turn) % 4
        if trump != "NT":
            trump = SUITS[change[SUITS.index(trump)]]
        wanted[leader, trump] -= 1
        lines.append(f"{layout_of(hands, dice.randrange(4))}|{SEATS[leader]}|{trump}")
    assert min(wanted.values()) >= 0, wanted
    left = [pair for pair, count in wanted.items() for _ in range(count)]
    dice.shuffle(left)
    for i, (leader, trump) in enumerate(left):
        size = 1 if i < 6 else 2 if i < 18 else 3 if i < 38 else 4
        shapely = i % 3 != 0
        suit = SUITS.index(trump) if trump != "NT" else -1
        while True:
            hands = random_hands(dice, size, shapely)
            if size == 1 or has_a_choice_that_matters(hands, leader, suit):
                break
        lines.append(f"{layout_of(hands, dice.randrange(4))}|{SEATS[leader]}|{trump}")
    print("\n".join(lines))


main()
