#!/usr/bin/env python3
"""Reads a sheet as `ddfarm table --sheet` writes it, by its elements.

Usage: bench/sheet/reading.py [--par] [--any] FILE, or `-` for the standard input. It prints the boards as
`ddfarm table` prints them, with `--par` as `ddfarm table --par` does. So its output can be compared with that output.

If the page is not well formed, it prints the faults instead, with status 1. The start tags have to be those in TAGS, to
the byte, so no value is in one. With `--any` it doesn't look at the form, and also reads the output of Chromium's
`--dump-dom`.
"""
import base64
import hashlib
import sys
from collections import namedtuple
from html.parser import HTMLParser
from pathlib import Path

# The start tags of a sheet. The policy's has the hash of the style.
POLICY = ("<meta http-equiv=\"Content-Security-Policy\" "
          "content=\"default-src 'none';\n  style-src 'sha256-{}'; base-uri 'none'; form-action 'none'\">")
TAGS = {'<html lang="en">', "<head>", '<meta charset="utf-8">',
        '<meta name="viewport" content="width=device-width, initial-scale=1">', "<title>", "<style>", "<body>",
        "<header>", "<h1>", "<bdi>", "<p>", '<p class="key">', "<main>", "<h2>", "<article>", '<div class="facts">',
        "<b>", '<div class="deal">', '<div class="compass" aria-hidden="true">', "<span>", '<span class="deals">',
        '<span class="exposed">', '<span class="deals exposed">', "<ul>", '<li class="seat">', "<li>",
        '<b class="red">', '<li class="points">', "<footer>", "<table>", "<tr>", '<th scope="col">',
        '<span class="read">', '<th scope="col" class="red">', '<th scope="row">', "<td>", "<small>", "<br>"}
EMPTY = {"meta", "br"}
REFERENCES = {"amp": "&", "lt": "<", "gt": ">", "spades": "♠", "hearts": "♥", "diams": "♦", "clubs": "♣"}
COLUMNS = {"♣": "C", "♦": "D", "♥": "H", "♠": "S", "NT": "NT"}
SEATS = list("NESW")
# The seats as a compass has them, and those that are vulnerable, by what the facts say.
COMPASS = "NWES"
EXPOSED = {"None": "", "NS": "NS", "EW": "EW", "All": "NESW"}

# A board: its name; facts as "Dealer N"; by seat the holdings from spades to clubs, and the honour points; by declarer
# and denomination the tricks; how many results are known if these are not all twenty; and par: nothing, a score and
# contracts, or what is not known.
Board = namedtuple("Board", "name facts hands points results known par")


class Element:
    """An element, with the texts and elements in it."""

    def __init__(self, name, kind=None):
        self.name, self.kind, self.parts = name, kind, []

    def all(self, name, kind=None):
        """The elements of a name in it, in the order of the page."""
        for part in self.parts:
            if isinstance(part, Element):
                if part.name == name and kind in (None, part.kind):
                    yield part
                yield from part.all(name, kind)

    def text(self):
        return "".join(part if isinstance(part, str) else part.text() for part in self.parts)

    def texts(self, name, kind=None):
        return [element.text() for element in self.all(name, kind)]


class Reader(HTMLParser):
    """The elements of a page, its tags as they are written, and what is wrong with them."""

    def __init__(self):
        super().__init__(convert_charrefs=False)
        self.top, self.tags, self.faults = Element("page"), [], []
        self.open = [self.top]

    def handle_starttag(self, tag, attrs):
        self.tags.append(self.get_starttag_text())
        element = Element(tag, dict(attrs).get("class"))
        self.open[-1].parts.append(element)
        if tag not in EMPTY:
            self.open.append(element)

    def handle_endtag(self, tag):
        self.tags.append(f"</{tag}>")
        if self.open[-1].name != tag:
            self.faults.append(f"</{tag}> in line {self.getpos()[0]} closes {self.open[-1].name}")
        while len(self.open) > 1 and self.open.pop().name != tag:
            pass

    def handle_data(self, data):
        if self.open[-1].name != "style" and any(byte in data for byte in "<>&"):
            self.faults.append(f"markup in the text of line {self.getpos()[0]}: {data!r}")
        self.open[-1].parts.append(data)

    def handle_entityref(self, name):
        if name not in REFERENCES:
            self.faults.append(f"&{name}; is not known")
        self.open[-1].parts.append(REFERENCES.get(name, f"&{name};"))

    def handle_decl(self, decl):
        if decl != "DOCTYPE html" or self.tags:
            self.faults.append(f"a declaration: {decl!r}")

    def other(self, data):
        self.faults.append(f"neither an element nor text: {data!r}")

    handle_comment = handle_pi = unknown_decl = handle_charref = other


def read(page):
    """The elements of a page, read to its end."""
    reader = Reader()
    reader.feed(page)
    reader.close()
    return reader


def hash_of(style):
    return base64.b64encode(hashlib.sha256(style.encode()).digest()).decode()


def faults_of(reader, tags=frozenset(TAGS), policy=POLICY):
    """What is wrong with the form of a page that was read. It may have these tags, and has the hashes of its styles."""
    styles = reader.top.texts("style")
    if len(styles) != policy.count("{}"):
        return [f"the page has {len(styles)} styles"]
    policy = policy.format(*map(hash_of, styles))
    unknown = {tag for tag in reader.tags if not tag.startswith("</") and tag not in tags and tag != policy}
    faults = reader.faults + [f"another tag than those of a sheet: {tag}" for tag in sorted(unknown)]
    if reader.tags.count(policy) != 1:
        faults.append(f"the policy has to be {policy}")
    if len(reader.open) > 1:
        faults.append(f"{reader.open[-1].name} is not closed")
    return faults


def results_of(table):
    """The tricks of a table by declarer and denomination."""
    head, *rows = ([part for part in row.parts if isinstance(part, Element)] for row in table.all("tr"))
    if [cell.text() for cell in head] != ["Declarer", *COLUMNS] or [row[0].text() for row in rows] != list("NSEW"):
        raise ValueError("a table has other columns or rows")
    return {(declarer.text(), denomination): tricks_of(cell) for declarer, *cells in rows
            for denomination, cell in zip(COLUMNS.values(), cells, strict=True)}


def tricks_of(cell):
    """The tricks of a cell: the number in its small, in parentheses, or else 6 more than the level before it."""
    level = "".join(part for part in cell.parts if isinstance(part, str))
    (small,) = cell.texts("small")
    if bool(level) == bool(small) or small and small != f"({small[1:-1]})":
        raise ValueError(f"a cell with {level!r} and {small!r}")
    return int(small[1:-1]) if small else int(level) + 6


def par_of(element):
    """The par that a paragraph of a footer shows: a score and contracts, or what is not known."""
    text = element.text()
    if text.startswith("Par unknown: no "):
        return text.removeprefix("Par unknown: no ")
    (score,) = element.texts("b")
    return score, text.removeprefix("Par " + score)


def hands_of(article):
    """The holdings and the honour points of the seats of a board."""
    hands, points = {}, {}
    for seat, *suits, count in (hand.texts("li") for hand in article.all("ul")):
        if [suit[:1] for suit in suits] != list("♠♥♦♣") or seat in hands:
            raise ValueError(f"a hand has another form: {seat} {suits}")
        hands[seat], points[seat] = [suit[1:] for suit in suits], int(count)
    if list(hands) not in ([], SEATS):
        raise ValueError(f"other hands than those of a deal: {list(hands)}")
    return hands, points


def facts_of(article, has_deal):
    """The facts of a board. Its compass has to show the same: the seats in their order, each with its classes."""
    facts = [text for element in article.all("div", "facts") for text in element.texts("p")]
    known = dict(fact.split(" ") for fact in facts)
    dealer, sides = known.pop("Dealer", None), known.pop("Vul", "None")
    if known or dealer not in (None, *COMPASS) or sides not in EXPOSED:
        raise ValueError(f"other facts than a dealer and sides: {facts}")
    wanted = [(seat, " ".join(["deals"] * (seat == dealer) + ["exposed"] * (seat in EXPOSED[sides])))
              for seat in COMPASS]
    found = [(seat.text(), seat.kind or "") for part in article.all("div", "compass") for seat in part.all("span")]
    if found != wanted * has_deal:
        raise ValueError(f"a compass shows {found} beside {facts}")
    return facts


def board_of(article):
    """The board that an article shows."""
    hands, points = hands_of(article)
    facts = facts_of(article, bool(hands))
    results, known, par = {}, None, None
    for foot in article.all("footer"):
        for table in foot.all("table"):
            results = results_of(table)
        for line in foot.all("p"):
            if line.text().startswith("Table incomplete: "):
                known = int("".join(line.texts("b")))
            else:
                par = par_of(line)
    if hands and (len(results) == 20) == (known is not None):
        raise ValueError("a board has no table")
    return Board(next(article.all("h2")).text(), facts, hands, points, results, known, par)


def boards_of(reader):
    """The boards that a page shows, in its order."""
    return [board_of(article) for article in reader.top.all("article")]


def deal_text(board):
    """The Deal value of a board, as `ddfarm table` prints it."""
    if not board.hands:
        return "?"
    hands = (".".join("" if suit == "–" else suit.replace("10", "T") for suit in board.hands[seat]) for seat in SEATS)
    return "N:" + " ".join(hands)


def board_lines(board, with_par):
    """The lines of a board, as `ddfarm table` prints them."""
    lines = [f'[Board "{board.name}"]', f'[Deal "{deal_text(board)}"]']
    if with_par and board.results and isinstance(board.par, str):
        lines.append(f"; par unknown: no {board.par}")
    elif with_par and board.results:
        known = dict(fact.split(" ") for fact in board.facts)
        lines += ['[Dealer "%s"]' % known["Dealer"], '[Vulnerable "%s"]' % known["Vul"],
                  '[OptimumScore "%s"]' % board.par[0], '[ParContract "%s"]' % board.par[1]]
    if board.results:
        lines.append(r'[OptimumResultTable "Declarer;Denomination\2R;Result\2R"]')
        lines += [f"{declarer} {denomination:>2} {board.results[declarer, denomination]:>2}"
                  for declarer in "NSEW" for denomination in ("NT", *"SHDC")]
    else:
        lines.append(f"; table incomplete: {board.known or 0} of 20")
    return lines + [""]


def main():
    words = sys.argv[1:]
    reader = read((sys.stdin.buffer.read() if words[-1] == "-" else Path(words[-1]).read_bytes()).decode())
    faults = [] if "--any" in words else faults_of(reader)
    if faults:
        sys.exit("\n".join(faults))
    try:
        boards = boards_of(reader)
    except ValueError as fault:
        sys.exit(str(fault))
    print("% PBN 2.1")
    for board in boards:
        print("\n".join(board_lines(board, "--par" in words)))


if __name__ == "__main__":
    main()
