#!/usr/bin/env python3
"""Writes the page of `ddfarm plays` for the games of a PBN file with DDS's numbers (analyse_play.cpp).

Usage: bench/plays/expected.py GAMES [--mistakes] >plays.txt. It needs Debian's libdds-dev and g++. It reads the games
by itself, with nothing of ddfarm's: tags, the Play section, and the legal cards (Laws 41A, 44 and PBN 2.1, section 3.5).
"""
import re
import subprocess
import sys
import tempfile
from pathlib import Path

HERE = Path(__file__).resolve().parent
SEATS = "NESW"
SUITS = "SHDC"
RANKS = "23456789TJQKA"
NAMES = {"S": "spades", "H": "hearts", "D": "diamonds", "C": "clubs"}


class Play:
    """The legal cards of a game's play, who played them, and why no card follows."""

    def __init__(self, hands, declarer, trump):
        self.hands, self.trump = [set(hand) for hand in hands], trump
        self.turn = self.leader = (SEATS.index(declarer) + 1) % 4
        self.side = SEATS.index(declarer) % 2
        self.cards, self.players, self.trick, self.won, self.illegal = [], [], [], 0, None

    def fault(self, card):
        """Why the card isn't legal, or None."""
        if card not in self.hands[self.turn]:
            holders = [seat for seat in SEATS if card in self.hands[SEATS.index(seat)]]
            return f"held by {holders[0]}" if holders else "not held"
        led = self.trick[0][0] if self.trick else card[0]
        if card[0] != led and any(other[0] == led for other in self.hands[self.turn]):
            return f"holds {NAMES[led]}"
        return None

    def add(self, card):
        """Plays a legal card."""
        self.hands[self.turn].discard(card)
        self.cards.append(card)
        self.players.append(self.turn)
        self.trick.append(card)
        self.turn = (self.turn + 1) % 4
        if len(self.trick) == 4:
            def power(place):
                one = self.trick[place]
                return (one[0] == self.trump, one[0] == self.trick[0][0], RANKS.index(one[1]))
            self.leader = self.turn = (self.leader + max(range(4), key=power)) % 4
            self.won += self.turn % 2 == self.side
            self.trick = []


def tags_of(game):
    """The first value of each tag."""
    tags = {}
    for name, value in re.findall(r'^\[(\w+) "([^"]*)"\]', game, re.M):
        tags.setdefault(name.upper(), value)
    return tags


def section_of(game):
    """The words of the Play section, up to its end or an irregularity."""
    text = re.split(r'^\[Play "[^"]*"\]', game, maxsplit=1, flags=re.M | re.I)[1]
    text = re.split(r"^\[", text, maxsplit=1, flags=re.M)[0]
    text = re.sub(r"\{[^}]*\}", " ", text)
    text = re.sub(r";[^\n]*", " ", text)
    cut = re.split(r"[*+^]", text, maxsplit=1)
    words = [re.split(r"[!?=$]", word, maxsplit=1)[0] for word in cut[0].split()]
    words = [word for word in words if word]
    return words[:-1] if re.match(r"[^*+^]*\^", text) else words


def hands_of(deal):
    """The cards of the four hands, North's first."""
    first, hands = SEATS.index(deal[0]), [None] * 4
    for place, hand in enumerate(deal[2:].split()):
        cards = [suit + rank for suit, ranks in zip(SUITS, hand.split(".")) for rank in ranks]
        hands[(first + place) % 4] = cards
    return hands


def followed(game, tags):
    """The play of a game, as far as it is legal."""
    trump = re.match(r"[1-7](NT?|[SHDC])X{0,2}$", tags["CONTRACT"], re.I).group(1)[0].upper()
    play = Play(hands_of(tags["DEAL"]), tags["DECLARER"], trump)
    words, first = section_of(game), SEATS.index(tags["PLAY"].upper())
    while len(play.cards) < 4 * len(hands_of(tags["DEAL"])[0]):
        place = 4 * (len(play.cards) // 4) + (play.turn - first) % 4
        if place >= len(words) or not re.fullmatch(r"[SHDC][2-9TJQKA]", words[place].upper()):
            return play
        card = words[place].upper()
        fault = play.fault(card)
        if fault:
            play.illegal = f"{len(play.cards) // 4 + 1} {SEATS[play.turn]} {card}: {fault}"
            return play
        play.add(card)
    return play


def lack_of(tags):
    """What a game lacks, or None; an empty text if it is passed over."""
    if tags.get("CONTRACT", "").upper() == "PASS" or "PLAY" not in tags:
        return ""
    for tag in ("DEAL", "CONTRACT", "DECLARER"):
        if not tags.get(tag):
            return f"no {tag.lower()}"
    return None


def block(tags, play, numbers, mistakes):
    """The block of a play. DDS leaves out the last trick, in which the number stays."""
    numbers = numbers + numbers[-1:] * (len(play.cards) + 1 - len(numbers))
    lines, lost = [], [0] * 4
    for place, (card, seat) in enumerate(zip(play.cards, play.players)):
        change = (numbers[place] - numbers[place + 1]) * (1 if seat % 2 == play.side else -1)
        assert change >= 0, "a card gains"
        lost[seat] += change
        said = f" {SEATS[seat]} loses {change}" if change else ""
        if change or not mistakes:
            lines.append(f"{place // 4 + 1} {SEATS[seat]} {card} {numbers[place + 1]}{said}")
    if not mistakes:
        lines.insert(0, f"start {numbers[0]}")
    if play.illegal:
        lines.append(f"illegal {play.illegal}")
    if not mistakes:
        lines.append(f"end {numbers[-1]}")
    lines.append("lost " + " ".join(f"{seat} {count}" for seat, count in zip(SEATS, lost)))
    heads = [f'[Declarer "{tags["DECLARER"]}"]', f'[Contract "{tags["CONTRACT"]}"]']
    return "\n".join(heads + lines)


def numbers_of(plays):
    """DDS's numbers of each play."""
    with tempfile.TemporaryDirectory() as folder:
        program = Path(folder) / "analyse_play"
        subprocess.run(["g++", "-O2", "-o", program, HERE / "analyse_play.cpp", "-ldds"], check=True)
        asked = "".join(
            f'{tags["DEAL"]}|{SEATS[(SEATS.index(tags["DECLARER"]) + 1) % 4]}|{play.trump}|{" ".join(play.cards)}\n'
            for tags, play in plays)
        answer = subprocess.run([program], input=asked, capture_output=True, text=True, check=True).stdout
    return [[int(number) for number in line.split()] for line in answer.splitlines()]


def page_of(text, mistakes=False):
    """The page of a PBN text."""
    games = [game for game in re.split(r"\n[ \t]*\n", text) if tags_of(game)]
    tagged = [(game, tags_of(game)) for game in games]
    plays = [(tags, followed(game, tags)) for game, tags in tagged if lack_of(tags) is None]
    numbers = iter(zip(plays, numbers_of(plays)))
    page = "% ddfarm plays 1\n"
    for _, tags in tagged:
        lack = lack_of(tags)
        if lack == "" or ("DEAL" not in tags and "PLAY" not in tags):
            continue
        if lack is None:
            (_, play), found = next(numbers)
            lack = block(tags, play, found, mistakes)
        page += f'[Board "{tags.get("BOARD", "")}"]\n{lack}\n\n'
    return page


def main():
    """Writes the page."""
    text = Path(sys.argv[1]).read_text(encoding="utf-8")
    sys.stdout.write(page_of(text, "--mistakes" in sys.argv[2:]))


if __name__ == "__main__":
    main()
