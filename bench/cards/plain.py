"""The tricks of each card by a slow search, which is written from the Laws alone. It tries every legal card."""
from functools import lru_cache

from positions import legal_cards, seat_to_play


def winner_of(trick, leader, trump):
    """The seat that wins a trick of four cards: the highest trump wins, and without one the highest card of the suit
    led (Law 44E and 44F)."""
    deciding = trump if any(suit == trump for suit, _ in trick) else trick[0][0]
    return (leader + trick.index(max(card for card in trick if card[0] == deciding))) % 4


def without(hands, seat, card):
    """The hands after a seat plays a card."""
    return tuple(tuple(c for c in hand if c != card) if owner == seat else hand for owner, hand in enumerate(hands))


def card_tricks(position):
    """The tricks that the side of the seat to play takes after each card that the seat may play. The trick in progress
    counts."""
    trump, size = position.trump, len(position.hands[0])

    @lru_cache(maxsize=None)
    def from_trick(hands, leader):
        """The tricks of North and South when a trick begins."""
        return best_of(hands, leader, ()) if hands[leader] else 0

    def best_of(hands, leader, trick):
        """The tricks of North and South if the seat to play chooses its best card."""
        if len(trick) == 4:
            winner = winner_of(trick, leader, trump)
            return (winner % 2 == 0) + from_trick(hands, winner)
        seat = (leader + len(trick)) % 4
        cards = legal_cards(hands[seat], trick)
        results = (best_of(without(hands, seat, card), leader, (*trick, card)) for card in cards)
        return max(results) if seat % 2 == 0 else min(results)

    hands = position.hands
    for place, card in enumerate(position.played):
        hands = without(hands, (position.leader + place) % 4, card)
    seat = seat_to_play(position)
    tricks = {}
    for card in legal_cards(hands[seat], position.played):
        north_south = best_of(without(hands, seat, card), position.leader, (*position.played, card))
        tricks[card] = north_south if seat % 2 == 0 else size - north_south
    return tricks
