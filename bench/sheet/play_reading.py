#!/usr/bin/env python3
"""Reads a sheet of plays as `ddfarm plays --sheet` writes it, by its elements.

Usage: bench/sheet/play_reading.py [--any] FILE, or `-` for the standard input. It prints the plays as `ddfarm plays`
prints them. The sheet has declarer's number after each trick, and the tricks that each card loses, so the number after
each card follows. If one does not agree with the other, or the page is not well formed, it prints the faults instead,
with status 1. With `--any` it doesn't look at the form, and also reads the output of Chromium's `--dump-dom`.
"""
import sys
from pathlib import Path

import reading
from reading import Element

reading.REFERENCES["rtrif"] = "▸"
# The start tags of a sheet of plays besides those of a sheet. The policy's has the hashes of both styles.
TAGS = {'<p class="stop">', '<span class="declares">', '<span class="red">', "<i>", "<em>", '<tr class="lost">'}
POLICY = reading.POLICY.replace("'sha256-{}'", "'sha256-{}'\n  'sha256-{}'")
COLUMNS = "WNES"
SUITS = dict(zip("♠♥♦♣", "SHDC"))
NAMES = dict(zip("♠♥♦♣", ("spades", "hearts", "diamonds", "clubs")))
SIDES = {"N": "NS", "S": "NS", "E": "EW", "W": "EW"}


def card_of(cell):
    """The card of a cell, whether it is led, whether it wins, and the tricks that it loses."""
    lost = [-int(text) for text in cell.texts("small")]
    is_led, wins = bool(cell.texts("i")), bool(cell.texts("b"))
    text = cell.text().removeprefix("▸" * is_led)
    text = text.removesuffix("".join(cell.texts("small")))
    if len(cell.texts("em")) != len(lost) or text[0] not in SUITS or text[1:] == "T":
        raise ValueError(f"a cell has another form: {cell.text()}")
    return SUITS[text[0]] + text[1:].replace("10", "T"), is_led, wins, sum(lost)


def trick_of(cells):
    """The cards of a trick in the order of the play, and the seat that wins it."""
    cards = {seat: card_of(cell) for seat, cell in zip(COLUMNS, cells, strict=True) if cell.parts}
    (leader,) = [seat for seat, (_, is_led, _, _) in cards.items() if is_led]
    order = ["NESW"["NESW".index(leader) - 4 + turn] for turn in range(len(cards))]
    winners = [seat for seat, (_, _, wins, _) in cards.items() if wins]
    if sorted(order) != sorted(cards) or len(winners) != (len(cards) == 4):
        raise ValueError(f"the cards of a trick are {cards}")
    return [(seat, cards[seat][0], cards[seat][3]) for seat in order], winners


def number_after(before, declarer, seat, lost):
    if before == "unknown":
        return before
    return str(int(before) + (-lost if SIDES[seat] == SIDES[declarer] else lost))


def illegal_of(text):
    """The line of a card that isn't legal."""
    start, _, reason = text.partition(": ")
    *start, card = start.split(" ")
    reason = reason.replace(reason[-1], NAMES.get(reason[-1], reason[-1]))
    return " ".join([*start, SUITS[card[0]] + card[1:].replace("10", "T")]) + ": " + reason


def lines_of(article, declarer):
    """The lines of a play: those of its cards, the card that isn't legal, and the totals."""
    (table,) = article.all("table")
    head, start, *rows, totals = ([part for part in row.parts if isinstance(part, Element)]
                                  for row in table.all("tr"))
    if [cell.text() for cell in head] != ["Trick", *COLUMNS, "Makes"] or start[0].text() != "Start":
        raise ValueError("a table has other columns")
    number, winner = start[-1].text(), []
    yield f"start {number}"
    for count, (trick, *cells, makes) in enumerate(rows, 1):
        cards, next_winner = trick_of(cells)
        if trick.text() != str(count) or winner not in ([], [cards[0][0]]):
            raise ValueError(f"trick {trick.text()} is out of its place")
        for seat, card, lost in cards:
            number = number_after(number, declarer, seat, lost)
            yield f"{count} {seat} {card} {number}" + f" {seat} loses {lost}" * bool(lost)
        winner = next_winner
        if number != makes.text():
            raise ValueError(f"{makes.text()} is not {number}, the number after the cards of trick {count}")
    yield from map(illegal_of, article.texts("p", "stop"))
    yield f"end {number}"
    lost = dict(zip(COLUMNS, (cell.text() for cell in totals[1:-1]), strict=True))
    yield "lost " + " ".join(f"{seat} {lost[seat]}" for seat in "NESW")


def block_of(article):
    """The block of a game."""
    yield f'[Board "{next(article.all("h2")).text()}"]'
    facts = [text.split(" ", 1) for element in article.all("div", "facts") for text in element.texts("p")]
    if not facts:
        yield from article.texts("p", "stop")
        return
    (_, declarer), (_, contract) = facts
    if len(reading.hands_of(article)[0]) != 4 or [name for name, _ in facts] != ["Declarer", "Contract"]:
        raise ValueError("a game has no hands, or other facts")
    corners = [seat.text() for seat in article.all("span", "declares")]
    if corners != [declarer]:
        raise ValueError(f"the compass has {corners} as declarer, not {declarer}")
    yield f'[Declarer "{declarer}"]'
    yield f'[Contract "{contract}"]'
    yield from lines_of(article, declarer)


def faults_of(page):
    """What is wrong with the form of a page that was read."""
    return reading.faults_of(page, reading.TAGS | TAGS, POLICY)


def main():
    name = sys.argv[-1]
    page = reading.read((sys.stdin.buffer.read() if name == "-" else Path(name).read_bytes()).decode())
    faults = [] if "--any" in sys.argv else faults_of(page)
    if faults:
        sys.exit("\n".join(faults))
    try:
        blocks = ["\n".join(block_of(article)) for article in page.top.all("article")]
    except ValueError as fault:
        sys.exit(str(fault))
    print("% ddfarm plays 1")
    for block in blocks:
        print(block + "\n")


if __name__ == "__main__":
    main()
