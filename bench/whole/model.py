"""A second writer of whole texts, to compare `ddfarm table --whole` with: a PBN text as it was read, with the tables of
its boards in place of those that it had. It was written from the rules alone, shares nothing with ddfarm's own, and
looks at each line by regular expressions. Only texts that are not refused have a meaning here.

What a section shows is a list of its twenty tricks, or the number of how many results are known.
"""
import re
from collections import namedtuple

MARK = b"\xef\xbb\xbf"
BLANKS = b" \t"
HEADING = b'[OptimumResultTable "Declarer;Denomination\\2R;Result\\2R"]'
ENTRIES = [f"{declarer} {trump:>2}".encode() for declarer in "NSEW" for trump in ("NT", "S", "H", "D", "C")]

COMMENT = rb"(?P<comment>;.*|\{[^}]*\})|(?P<open>\{.*)"
PAIR = rb'(?P<pair>\[[ \t]*(?P<name>[A-Za-z0-9_]+)[ \t]*"(?P<value>[^"]*)"[ \t]*\])'
BEFORE_DATA = re.compile(COMMENT + rb"|" + PAIR + rb'|(?P<blanks>[ \t]+)|(?P<data>"[^"]*"?|.)', re.DOTALL)
IN_DATA = re.compile(COMMENT + rb'|(?P<data>"[^"]*"?|[^;{"]+)', re.DOTALL)
COUNT = re.compile(rb"; table incomplete: (1?[0-9]) of 20")
ROW = re.compile(rb"([NSEW] (?:NT| [SHDC])) ( [0-9]|1[0-3])")

# A piece of a line: its kind is a group's name above, or `escaped`; a tag pair has a name, in small letters, and a
# value.
Piece = namedtuple("Piece", "kind bytes name value", defaults=(b"", b""))
Line = namedtuple("Line", "pieces end")
# Its lines, and the line that ends it, if there is one.
Game = namedtuple("Game", "lines gap")
Text = namedtuple("Text", "mark first_end games")
# What stands before a game's section, and what the section shows.
Shown = namedtuple("Shown", "lines shows")


def rows(text):
    """The lines as they stand, each with its end; the last may have none."""
    *ended, last = text.split(b"\n")
    parted = [(line[:-1], b"\r\n") if line.endswith(b"\r") else (line, b"\n") for line in ended]
    return parted + ([(last, b"")] if last else [])


def pieces_of(line, is_open):
    """The pieces of a line, before which a brace comment is open or not, and whether one is open behind it."""
    pieces, place = [], 0
    if is_open:
        place = line.find(b"}") + 1
        if place == 0:
            return [Piece("open", line)], True
        pieces.append(Piece("comment", line[:place]))
    form = BEFORE_DATA
    while place < len(line):
        found = form.match(line, place)
        kind, place = found.lastgroup, found.end()
        named = (found["name"].lower(), found["value"]) if kind == "pair" else ()
        pieces.append(Piece(kind, found[0], *named))
        form = IN_DATA if kind == "data" else form
    return pieces, bool(pieces) and pieces[-1].kind == "open"


def read(text):
    """The games of a text."""
    mark = MARK if text.startswith(MARK) else b""
    lines = rows(text[len(mark):])
    games, is_open = [Game([], b"")], False
    for body, end in lines:
        if not is_open and body.startswith(b"%"):
            games[-1].lines.append(Line([Piece("escaped", body)], end))
        elif not is_open and not body.strip(BLANKS):
            games[-1] = games[-1]._replace(gap=body + end)
            games.append(Game([], b""))
        else:
            pieces, is_open = pieces_of(body, is_open)
            games[-1].lines.append(Line(pieces, end))
    return Text(mark, (lines[0][1] if lines else b"") or b"\n", games)


def body_of(line):
    return b"".join(piece.bytes for piece in line.pieces)


def bytes_of(lines):
    return b"".join(body_of(line) + line.end for line in lines)


def text_of(mark, games):
    return mark + b"".join(bytes_of(game.lines) + game.gap for game in games)


def pairs_of(lines, name):
    """The tag pairs of this name, each with its line."""
    return [(piece, line) for line in lines for piece in line.pieces if piece.kind == "pair" and piece.name == name]


def has_board(lines):
    return bool(pairs_of(lines, b"deal"))


def is_dealt(lines):
    """Whether the lines are those of a board whose hands are known."""
    values = [pair.value.strip(BLANKS) for pair, _ in pairs_of(lines, b"deal")]
    return bool(values) and values[0] not in (b"", b"?") and b"-" not in values[0]


def without_tables(lines):
    """The lines without old tables: a line of which blanks alone would be left is left out."""
    left, in_table = [], False
    for line in lines:
        kept = []
        for piece in line.pieces:
            if piece.kind == "pair":
                in_table = piece.name == b"optimumresulttable"
            if not (in_table and piece.kind in ("pair", "data")):
                kept.append(piece)
        if any(piece.kind != "blanks" for piece in kept):
            left.append(line._replace(pieces=kept))
    return left


def is_escaped(line):
    return line.pieces[0].kind == "escaped"


def is_count(line):
    """Whether the line tells how many results were known, and nothing else."""
    return len(line.pieces) == 1 and line.pieces[0].kind == "comment" and COUNT.fullmatch(body_of(line)) is not None


def without_counts(lines):
    """The lines without those at the end that tell how many results were known; escaped lines may stand between and
    behind."""
    end = len(lines)
    while end and (is_escaped(lines[end - 1]) or is_count(lines[end - 1])):
        end -= 1
    return lines[:end] + list(filter(is_escaped, lines[end:]))


def left_of(lines):
    """What is left of the lines of a game."""
    return without_counts(without_tables(lines)) if has_board(lines) else lines


def without(text):
    """The text without its old tables."""
    mark, _, games = read(text)
    return text_of(mark, [game._replace(lines=left_of(game.lines)) for game in games])


def loses_nothing(bare, text):
    """Whether what was written, without its sections, is the text without its old tables. The last line may have got an
    end."""
    left = without(text)
    return bare == left or bare in (left + b"\n", left + b"\r\n") and not left.endswith(b"\n")


def new_end(line, other):
    """The end that a line without one gets: of a carriage return of its own no part of an end is made."""
    return b"\r\n" if body_of(line).endswith(b"\r") else other


def section(shows, end):
    """The bytes of a section."""
    if isinstance(shows, int):
        return b"; table incomplete: %d of 20" % shows + end
    return HEADING + end + b"".join(b"%s %2d" % row + end for row in zip(ENTRIES, shows))


def dealt_game(lines, shows, other):
    """What is written of a game whose deal is known."""
    left = left_of(lines)
    deal = pairs_of(left, b"deal")[0][1]
    end = deal.end or new_end(deal, other)
    added = b"" if left[-1].end else new_end(left[-1], end)
    return bytes_of(left) + added + section(shows, end)


def whole(text, shown):
    """What is written of a text; `shown` is what the section of each board with a known deal shows."""
    mark, other, games = read(text)
    shown, written = iter(shown), mark
    for lines, gap in games:
        written += (dealt_game(lines, next(shown), other) if is_dealt(lines) else bytes_of(left_of(lines))) + gap
    return written


def read_section(lines):
    """The lines before the section that they end with, and what it shows; None where they end with none."""
    bodies = [body_of(line) for line in lines]
    if lines and is_count(lines[-1]):
        return Shown(lines[:-1], int(COUNT.fullmatch(bodies[-1])[1]))
    found = [ROW.fullmatch(body) for body in bodies[-20:]]
    if bodies[-21:-20] != [HEADING] or not all(found) or [row[1] for row in found] != ENTRIES:
        return None
    return Shown(lines[:-21], [int(row[2]) for row in found])


def taken_out(written):
    """What was written without the section of each board whose deal is known, and what the sections show; None where
    one lacks."""
    mark, _, games = read(written)
    found = {place: read_section(game.lines) for place, game in enumerate(games) if is_dealt(game.lines)}
    if None in found.values():
        return None
    games = [game._replace(lines=found[place].lines) if place in found else game for place, game in enumerate(games)]
    return text_of(mark, games), [section.shows for section in found.values()]
