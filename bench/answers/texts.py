"""Reads answers and certificates by the forms of docs/FORMATS.md, apart from ddfarm's own reader.

A card is a suit's letter and `a` to `m` or `x`. A tree is ("own", card, tree), ("reply", [(card, tree)]) or
("leaf", [(seat, number)]).
"""
import re
from collections import namedtuple

SEATS, SUITS, TOPS = "NESW", "SHDC", "abcdefghijklmx"
MOST_NODES = 1_000_000
CARD_ORDER = {suit + top: (SUITS.index(suit), TOPS.index(top)) for suit in SUITS for top in TOPS}

Suit = namedtuple("Suit", "lengths owners")
Node = namedtuple("Node", "lead need suits tree")
Graph = namedtuple("Graph", "version trump side nodes")

NUMBER = "(?:0|[1-9][0-9]*)"
LENGTH = "(?:1[0-3]|[0-9])"
SUIT = rf"({LENGTH})\.({LENGTH})\.({LENGTH})\.({LENGTH})/([NESW]{{0,13}})"
NODE_LINE = re.compile(rf"([NESW]) (1[0-3]|[1-9]) {SUIT} {SUIT} {SUIT} {SUIT} (.+)")
HEAD_FORMS = [re.compile(form) for form in ("DDC ([12])", "trump (NT|S|H|D|C)", "side (NS|EW)", f"nodes ({NUMBER})")]


class TextFault(Exception):
    """The fault of a text: its number, its name and its line."""

    def __init__(self, words, line):
        super().__init__(words)
        self.words, self.line = words, line


class FormError(Exception):
    """A tree is not of the form."""


def read_card(text, at):
    card = text[at:at + 2]
    if card not in CARD_ORDER:
        raise FormError
    return card, at + 2


def read_reply(text, at, depth):
    branches, last = [], None
    while text[at:at + 1] != ")":
        card, at = read_card(text, at)
        if last is not None and CARD_ORDER[card] <= CARD_ORDER[last]:
            raise FormError
        last = card
        tree, at = read_tree(text, at, depth + 1)
        branches.append((card, tree))
    return ("reply", branches), at + 1


PART = re.compile(r"([NESW])(0|[1-9][0-9]{0,6})(?![0-9])")


def read_leaf(text, at):
    end = text.find("}", at)
    if end < 0:
        raise FormError
    children = []
    for part in text[at:end].split(" ") if end > at else []:
        match = PART.fullmatch(part)
        if match is None or (children and SEATS.index(match[1]) <= SEATS.index(children[-1][0])):
            raise FormError
        children.append((match[1], int(match[2])))
    return ("leaf", children), end + 1


def read_tree(text, at, depth):
    first = text[at:at + 1]
    if first == "{":
        return read_leaf(text, at + 1)
    if depth == 4:
        raise FormError
    if first == "(":
        return read_reply(text, at + 1, depth)
    card, at = read_card(text, at)
    tree, at = read_tree(text, at, depth + 1)
    return ("own", card, tree), at


def tree_text(tree):
    """A tree as a line has it."""
    if tree[0] == "own":
        return tree[1] + tree_text(tree[2])
    if tree[0] == "reply":
        return "(" + "".join(card + tree_text(below) for card, below in tree[1]) + ")"
    return "{" + " ".join(f"{seat}{number}" for seat, number in tree[1]) + "}"


def children_of(tree):
    if tree[0] == "leaf":
        return tree[1]
    below = [tree[2]] if tree[0] == "own" else [part for _, part in tree[1]]
    return [child for part in below for child in children_of(part)]


def is_pattern(suits):
    hands = [sum(suit.lengths[seat] for suit in suits) for seat in range(4)]
    return (all(sum(suit.lengths) <= 13 for suit in suits)
            and len(set(hands)) == 1 and 1 <= hands[0] <= 13
            and all(suit.owners.count(name) <= suit.lengths[place] for suit in suits
                    for place, name in enumerate(SEATS)))


def read_node(line, number, count):
    match = NODE_LINE.fullmatch(line)
    if match is None:
        raise TextFault("2 NodeForm", number)
    parts = match.groups()
    suits = [Suit([int(length) for length in parts[at:at + 4]], parts[at + 4]) for at in (2, 7, 12, 17)]
    try:
        tree, end = read_tree(parts[22], 0, 0)
        if end != len(parts[22]):
            raise FormError
    except FormError:
        raise TextFault("2 NodeForm", number) from None
    if not is_pattern(suits):
        raise TextFault("3 BadPattern", number)
    if any(child >= count for _, child in children_of(tree)):
        raise TextFault("4 ChildNumber", number)
    return Node(parts[0], int(parts[1]), suits, tree)


def read_graph(text):
    """The graph of a text's bytes, or a TextFault."""
    lines = text.decode("latin-1").split("\n")
    rest = lines.pop()  # what has no line's end behind it
    head = []
    for place, form in enumerate(HEAD_FORMS):
        match = form.fullmatch(lines[place]) if place < len(lines) else None
        if match is None:
            raise TextFault("1 Head", place + 1)
        head.append(match.group(match.lastindex or 0))
    digits = head[3]
    if len(digits) > 7 or int(digits) > MOST_NODES:
        raise TextFault("6 TooLarge", 4)
    count, nodes = int(digits), []
    for number in range(5, 5 + count):
        if number > len(lines):
            raise TextFault("2 NodeForm" if rest else "5 Count", number)
        nodes.append(read_node(lines[number - 1], number, count))
    if len(lines) > 4 + count or rest:
        raise TextFault("5 Count", 5 + count)
    return Graph(int(head[0]), head[1], head[2], nodes)


def read_answer(text):
    """The tricks and the two texts of an answer, or None where the first line is no result line."""
    match = re.match(rb"result (1[0-3]|[0-9])\n", text)
    if match is None:
        return None
    body = text[match.end():]
    at = 0 if body.startswith(b"\n") else body.find(b"\n\n") + 1
    if at == 0 and not body.startswith(b"\n"):
        return int(match[1]), body, b""
    return int(match[1]), body[:at], body[at + 1:]
