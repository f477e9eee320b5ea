"""Positions: the hands when a trick begins, the leader, the denomination, and up to three cards played to the trick. A
card is its suit's number and its rank's, in the order of SUITS and RANKS; a trump of None is no-trump."""
from collections import namedtuple

SEATS = "NESW"
SUITS = "SHDC"
RANKS = "23456789TJQKA"
TRUMPS = (None, 0, 1, 2, 3)
PACK = [(suit, rank) for suit in range(4) for rank in range(13)]

Position = namedtuple("Position", "hands leader trump played")


def card_text(card):
    return SUITS[card[0]] + RANKS[card[1]]


def card_of(text):
    return SUITS.index(text[0]), RANKS.index(text[1])


def trump_text(trump):
    return "NT" if trump is None else SUITS[trump]


def hand_text(hand):
    groups = ("".join(RANKS[rank] for held, rank in sorted(hand, reverse=True) if held == suit) for suit in range(4))
    return ".".join(groups)


def hand_of(text):
    return tuple((suit, RANKS.index(letter)) for suit, group in enumerate(text.split(".")) for letter in group)


def layout_of(hands):
    """The Deal value of four hands, North's first."""
    return "N:" + " ".join(map(hand_text, hands))


def hands_of(layout):
    """The hands of a Deal value that names North's first."""
    return tuple(map(hand_of, layout[2:].split(" ")))


def words_of(position):
    """The words that name the position: layout, leader, denomination and the cards played."""
    head = [layout_of(position.hands), SEATS[position.leader], trump_text(position.trump)]
    return head + list(map(card_text, position.played))


def seat_to_play(position):
    return (position.leader + len(position.played)) % 4


def legal_cards(hand, played):
    """The cards of a hand that may be played. It follows suit if it can (Law 44C)."""
    follow = [card for card in hand if played and card[0] == played[0][0]]
    return follow or list(hand)


def random_hands(dice, size, pack=PACK):
    cards = dice.sample(pack, 4 * size)
    return tuple(tuple(cards[size * seat:size * seat + size]) for seat in range(4))


def random_position(dice, size, plays, pack=PACK):
    """A random position of hands of this size, after this number of legal plays."""
    position = Position(random_hands(dice, size, pack), dice.randrange(4), dice.choice(TRUMPS), ())
    for _ in range(plays):
        card = dice.choice(legal_cards(position.hands[seat_to_play(position)], position.played))
        position = position._replace(played=(*position.played, card))
    return position


def random_ending(dice, size, plays):
    """The same with the cards of two, three or four suits."""
    suits = dice.choice((2, 3, 4))
    return random_position(dice, size, plays, [card for card in PACK if card[0] < suits])


def opening_positions(hands):
    """The twenty positions before the opening lead, by denomination and leader."""
    return [Position(hands, leader, trump, ()) for trump in TRUMPS for leader in range(4)]
