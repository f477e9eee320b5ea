"""Plays of whole deals and of endings, and what DDS and the slow search say of them. A play is the hands, the leader,
the denomination, and the cards in the order in which they were played."""
import subprocess
import sys
from collections import namedtuple
from pathlib import Path

HERE = Path(__file__).resolve().parent
sys.path.append(str(HERE.parent / "cards"))

import dds  # noqa: E402
import plain  # noqa: E402
import positions  # noqa: E402
from positions import Position  # noqa: E402

Play = namedtuple("Play", "hands leader trump cards")

# Of ten nearly best cards nine are among the best. One play in four ends early.
BEST_OF_TEN, EARLY = 9, 4


def line_of(play):
    """The line that names a play."""
    head = positions.words_of(Position(play.hands, play.leader, play.trump, ()))
    return "|".join(head) + "|" + " ".join(map(positions.card_text, play.cards)) + "\n"


def after(position, card):
    """The position after one more card. The hands are those when the trick began."""
    position = position._replace(played=(*position.played, card))
    if len(position.played) < 4:
        return position
    hands = tuple(tuple(held for held in hand if held not in position.played) for hand in position.hands)
    return Position(hands, plain.winner_of(position.played, position.leader, position.trump), position.trump, ())


def choices(position):
    """The cards that may be played next."""
    return positions.legal_cards(position.hands[positions.seat_to_play(position)], position.played)


def length(dice, size):
    """How many cards of a deal are played."""
    return dice.randrange(4 * size) if dice.randrange(EARLY) == 0 else 4 * size


def starts(dice, count, size):
    """Random positions before the first lead."""
    return [positions.random_position(dice, size, 0) for _ in range(count)]


def played(dice, begun, choose):
    """Plays from these positions on. `choose` names the next card of each of a list of positions."""
    now, cards = list(begun), [[] for _ in begun]
    wanted = [length(dice, len(position.hands[0])) for position in begun]
    for count in range(max(wanted)):
        places = [place for place, number in enumerate(wanted) if number > count]
        for place, card in zip(places, choose([now[place] for place in places])):
            cards[place].append(card)
            now[place] = after(now[place], card)
    return [Play(position.hands, position.leader, position.trump, tuple(row)) for position, row in zip(begun, cards)]


def random_plays(dice, begun):
    """Plays of random legal cards."""
    return played(dice, begun, lambda now: [dice.choice(choices(position)) for position in now])


def nearly_best_plays(dice, begun, peer):
    """Plays in which nine of ten cards are among the best, by DDS."""

    def choose(now):
        for tricks in dds.scores(peer, now)[0]:
            best = [card for card in tricks if tricks[card] == max(tricks.values())]
            yield dice.choice(best if dice.randrange(10) < BEST_OF_TEN else list(tricks))

    return played(dice, begun, choose)


def analysed(program, plays, batch):
    """DDS's numbers of each play, and the processor seconds. A batch of 0 is AnalysePlay."""
    given = "".join(map(line_of, plays))
    run = subprocess.run([str(program), str(batch)], input=given, check=True, capture_output=True, text=True)
    return [[int(word) for word in line.split()] for line in run.stdout.splitlines()], int(run.stderr) / 1e6


def searched(play):
    """The slow search's numbers of a play of an ending: declarer's tricks before the first card and after each."""
    position, won, numbers = Position(play.hands, play.leader, play.trump, ()), 0, []
    declarers = (play.leader + 1) % 2
    for card in (*play.cards, None):
        size = len(position.hands[0])
        most = max(plain.card_tricks(position).values()) if size else 0
        numbers.append(won + (most if positions.seat_to_play(position) % 2 == declarers else size - most))
        if card is not None:
            position = after(position, card)
            won += not position.played and position.leader % 2 == declarers
    return numbers
