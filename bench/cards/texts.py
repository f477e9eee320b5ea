"""The texts that `ddfarm cards` and `ddfarm leads` have to print, for tricks that another program found. The tricks are
a dictionary by card, and of a board by leader and denomination."""
from positions import SEATS, TRUMPS, card_text, layout_of, seat_to_play, trump_text

DECLARERS = "NSEW"


def groups_of(tricks):
    """Each number of tricks that a card leads to, the most first, with its cards by suit and ranks falling."""
    for number in sorted(set(tricks.values()), reverse=True):
        cards = sorted((suit, -rank) for (suit, rank), worth in tricks.items() if worth == number)
        yield f"{number}  " + " ".join(card_text((suit, -rank)) for suit, rank in cards)


def cards_text(position, tricks):
    """What `cards` prints for a position."""
    return "\n".join([f"{SEATS[seat_to_play(position)]} to play", *groups_of(tricks)]) + "\n"


def leads_row(declarer, trump, tricks):
    groups = (group.replace("  ", " ") for group in groups_of(tricks))
    return f"{declarer} {trump_text(trump):>2}  " + "  ".join(groups)


def board_text(name, hands, board):
    """What `leads` prints for a board."""
    lines = [f'[Board "{name}"]', f'[Deal "{layout_of(hands)}"]',
             r'[OpeningLeads "Declarer;Denomination\2R;Leads"]']
    for declarer in DECLARERS:
        leader = (SEATS.index(declarer) + 1) % 4
        lines += [leads_row(declarer, trump, board[leader, trump]) for trump in TRUMPS]
    return "\n".join(lines) + "\n\n"


def leads_text(boards):
    """What `leads` prints for boards that are named by their numbers: pairs of the hands and their tricks."""
    return "% PBN 2.1\n" + "".join(board_text(name, *board) for name, board in enumerate(boards, 1))
