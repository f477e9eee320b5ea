#!/usr/bin/env python3
"""Sees that values of a PBN text are only text on a sheet.

Usage: bench/sheet/hostile.py PROGRAM. The values are each byte that can be in a value (a quote ends it, a line feed
ends its line), each pair of bytes that mean something in HTML, and TEXTS. Each value is once the Event, once the
Section and once the Board of a game of one text, and once the Event, once the Site and once the Date of a text of its
own. The tags of one game have different values. reading.py reads the sheets that the program writes of these texts.
Each value has to be shown: its characters if it is UTF-8, otherwise those of ISO 8859-1, with U+FFFD for each control
character. Only an Event, Site or Date that isn't known has to be left out. The tags have to be those of the same text
with other values, to the byte. Each deal has to be shown, with its dealer and the sides that are vulnerable.

Then the texts of TITLES, with the head and the headings that each has to get.

Prints how many values it tried, or what is wrong, with status 1.
"""
import subprocess
import sys
import unicodedata
from concurrent.futures import ThreadPoolExecutor
from itertools import cycle

import reading

MARKUP = b"&<>'=/!-;"
TEXTS = [b"<script>alert(1)</script>", b"</h2>", b"</title><script>", b"</bdi></h1>", b"<!--", b"-->", b"<![CDATA[",
         b"<?x", b"<!DOCTYPE x>", b"&lt;", b"&#60;", b"&#x3c;", b"&amp;amp;", b"&lt", b"&spades;", b"{name}",
         b"{event}", b"{", b"}", b"{}", b"\\", b"' onload='alert(1)", b"a  b", b" ", b"",
         "é ♠ 𝄞 \u202e\u2028".encode(), "é".encode() + b"\xe9", b"\xed\xa0\x80", b"\xc0\xbc", b"\xf4\x90\x80\x80",
         "\x85\x9f".encode(), b"\xef\xbb\xbf"]
# A deal whose table is found in a moment.
DEAL = b"N:AKQJT98765432... .AKQJT98765432.. ..AKQJT98765432. ...AKQJT98765432"
DEALERS = "NESW"
SIDES = ["None", "NS", "EW", "All"]
# An Event, Section, Site or Date with such a value isn't known.
UNKNOWN = b"", b"?", b"#"
# Texts by what each board says (` / ` is between boards), the head's event, its site and date, and the headings. A
# heading has an event only if it isn't that of the boards before, or for the first boards that of the head.
TITLES = [
    # An event that isn't said or isn't known is that of the board before, and so is then the section.
    ("Event=Club / / Event=Club", "Club", " ", []),
    ("Event=Club Section=A / / Event=Club Section=B", "Club", " ", [" A", " B"]),
    ("Event=Club Section=A / Event=# / Event=? Section=A / Event= Section=B", "Club", " ", [" A", " B"]),
    ("Event=Club Section=A / Event=Club / Section=A", "Club", " ", [" A"]),
    # A section that isn't known begins nothing.
    ("Section=A / Section=# / Section=? / Section= / Section=A / Section=B", "", " ", [" A", " B"]),
    ("Event=Club Section=?", "Club", " ", []),
    # Another event begins without a section.
    ("Event=Club Section=A / Event=Final / Section=A", "Club", " ", [" A", "Final ", " A"]),
    ("Event=Club Section=A / Event=Final Section=# / Event=Club", "Club", " ", [" A", "Final ", "Club "]),
    ("Event=Club Section=A / Event=Final Section=A", "Club", " ", [" A", "Final A"]),
    # The first value that is known counts, in a board and in the head.
    ("Event=Club Section=? Section=A / Event=# Event=Final Event=Other", "Club", " ", [" A", "Final "]),
    ("/ Event=Club", "Club", " ", []),
    ("Event=? / Event=Club", "Club", " ", []),
    ("Event=# / Event= / Event=Club Section=A / Event=Final", "Club", " ", [" A", "Final "]),
    ("Site=Hall Date=2026 / Site=Inn Date=2027", "", "Hall 2026", []),
    ("Site=? Date= / Site=Hall Date=# / Site=Inn Date=2026", "", "Hall 2026", []),
]
JOBS = 4


def hostile_values():
    """The values, each once. A Board value that begins with `#` is refused, so that byte is the second of its value."""
    single = [bytes([byte]) for byte in range(256) if byte not in b'"\n#']
    pairs = [bytes([first, second]) for first in MARKUP for second in MARKUP]
    return list(dict.fromkeys([*single, b"x#", *pairs, *TEXTS]))


def shown(value):
    """The text that a sheet has to show of a value."""
    try:
        text = value.decode()
    except UnicodeDecodeError:
        text = value.decode("latin-1")
    return "".join("\ufffd" if unicodedata.category(char) == "Cc" else char for char in text)


def titled(value):
    """The text that the head of a sheet has to show of an Event, Site or Date."""
    return "" if value in UNKNOWN else shown(value)


def game(tags):
    return b"".join(b'[%s "%s"]\n' % tag for tag in tags) + b"\n"


def turned(values, count):
    """The values, from another one on."""
    return values[count:] + values[:count]


def titles_of(values):
    """An event, a section and a name for each value, which differ. The events and sections are known."""
    known = [value for value in values if value not in UNKNOWN]
    return list(zip(cycle(known), cycle(turned(known, 1)), turned(values, -1)))


def conditions(place):
    """The dealer and the sides of the board in a place: each of the sixteen pairs of them in turn."""
    return DEALERS[place % 4], SIDES[place // 4 % 4]


def games_text(titles):
    """A text with a game for each event, section and name, and a deal in every other game."""
    text = b""
    for place, (event, section, name) in enumerate(titles):
        dealer, sides = conditions(place // 2)
        text += game([(b"Event", event), (b"Section", section), (b"Board", name), (b"Dealer", dealer.encode()),
                      (b"Vulnerable", sides.encode()), (b"Deal", b"?" if place % 2 else DEAL)])
    return text


def head_text(event, site, date):
    """A text of a board without a deal, with the values in the head of its sheet."""
    return game([(b"Event", event), (b"Site", site), (b"Date", date), (b"Board", b"1"), (b"Deal", b"?")])


def sheet(program, text):
    """The page that the program writes, read."""
    done = subprocess.run([program, "table", "--sheet"], input=text, stdout=subprocess.PIPE, stderr=subprocess.DEVNULL,
                          check=True, timeout=100)
    return reading.read(done.stdout.decode())


def texts_of(page):
    """The texts of a page's title, h1 and head, of the headings between boards, and of the boards' names."""
    head = page.top.texts("title") + [text for header in page.top.all("header")
                                      for text in header.texts("h1") + header.texts("p")[:1]]
    headings = [part.text() for main in page.top.all("main") for part in main.parts
                if isinstance(part, reading.Element) and part.name == "h2"]
    return head, headings, [name for article in page.top.all("article") for name in article.texts("h2")]


def wrong(page, plain, wanted):
    """What is wrong with a page, beside the page of plain values: its form, its tags or its texts."""
    faults = reading.faults_of(page)
    if page.tags != plain.tags:
        faults.append("other tags than those of plain values")
    found = texts_of(page)
    if found != wanted:
        faults += [f"shown {one!r}, not {other!r}" for ones, others in zip(found, wanted)
                   for one, other in zip(ones, others) if one != other] or ["other texts"]
    return faults


def wanted_head(event, site_and_date):
    return [f"Hand record {event}"] * 2 + [site_and_date]


def wrong_head(program, plain, values):
    """What is wrong with the page whose head has the values."""
    event, site, date = map(titled, values)
    faults = wrong(sheet(program, head_text(*values)), plain, (wanted_head(event, f"{site} {date}"), [], ["1"]))
    return [f"{values} in the head: {fault}" for fault in faults]


def wrong_boards(program, values):
    """What is wrong with the page whose boards have the values."""
    titles = titles_of(values)
    plain = sheet(program, games_text(titles_of([b"%d" % place for place in range(len(values))])))
    # The first event is that of the head, and each other is new.
    headings = [f"{shown(event) if place else ''} {shown(section)}" for place, (event, section, _) in enumerate(titles)]
    wanted = wanted_head(shown(titles[0][0]), " "), headings, [shown(name) for _, _, name in titles]
    page = sheet(program, games_text(titles))
    return wrong(page, plain, wanted) + wrong_deals(page)


def wrong_deals(page):
    """What is wrong with the deals of the page of games_text, and with their dealers and sides."""
    try:
        boards = reading.boards_of(page)
    except ValueError as fault:
        return [str(fault)]
    faults = []
    for place, board in enumerate(boards):
        dealer, sides = conditions(place // 2)
        wanted = ("?", []) if place % 2 else (DEAL.decode(), [f"Dealer {dealer}", f"Vul {sides}"])
        if (reading.deal_text(board), board.facts) != wanted:
            faults.append(f"board {place} has other cards or facts than {wanted}: {board}")
    return faults


def wrong_titles(program, said, *wanted):
    """What is wrong with the page of a text of TITLES."""
    boards = [[tuple(tag.encode().split(b"=")) for tag in board.split()] for board in said.split("/")]
    names = [f"{place}" for place in range(len(boards))]
    page = sheet(program, b"".join(game([*tags, (b"Board", name.encode()), (b"Deal", b"?")])
                                   for tags, name in zip(boards, names)))
    event, site_and_date, headings = wanted
    wanted, found = (wanted_head(event, site_and_date), headings, names), texts_of(page)
    return [] if found == wanted else [f"{said!r} has {found}, not {wanted}"]


def main():
    program, values = sys.argv[1], hostile_values()
    heads = [*values, b"#"]
    plain = sheet(program, head_text(b"x", b"y", b"z"))
    with ThreadPoolExecutor(JOBS) as pool:
        found = [pool.submit(wrong_boards, program, values)]
        found += [pool.submit(wrong_titles, program, *row) for row in TITLES]
        found += [pool.submit(wrong_head, program, plain, row)
                  for row in zip(heads, turned(heads, 1), turned(heads, 2))]
        faults = [fault for each in found for fault in each.result()]
    if faults:
        sys.exit("\n".join(faults))
    print(f"{len(values)} values are shown as text")


if __name__ == "__main__":
    main()
