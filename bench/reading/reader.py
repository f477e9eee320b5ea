"""A second reader of PBN texts, to compare `ddfarm table` with. It was written from the rules of docs/FORMATS.md alone,
without a look at ddfarm's. The fixed words of second lines are those of the definitions in `board_subcommands`.

predict(text) answers the exit status, the standard output and the standard error of `ddfarm table` on the text, if each
entry is searched once and no search finds a result.
"""
import re

# The name of each fault, and its second line.
FAULTS = {
    1: ("TagForm", "a tag pair is a name and a quoted value in brackets, on one line"),
    2: ("OpenComment", "the comment that begins in this line has no end"),
    3: ("SecondDeal", "a game has one Deal: an empty line must separate two boards"),
    4: ("DealForm", "this Deal is not four hands as in PBN: spades.hearts.diamonds.clubs, T for the ten"),
    5: ("CardTwice", "this Deal has a card twice"),
    6: ("HandSize", "each hand of a board has thirteen cards"),
    7: ("Inherited", "a value that begins with # repeats that of an earlier game: write the value itself"),
    8: ("TooManyBoards", "at most 4096 boards are read at a time: divide the file"),
}
NOTE = "ddfarm: note: "
MARK = b"\xef\xbb\xbf"
BLANKS = b" \t"
FALLING = b"AKQJT98765432"
MOST_BOARDS = 4096
# Of a deal: the results of its table.
ENTRIES = 20

TAG = re.compile(rb'\[[ \t]*([A-Za-z0-9_]+)[ \t]*"([^"\n]*)"[ \t]*\]')
GROUP = rb"[AKQJT98765432akqjt]*"
HAND = rb"(-|" + rb"\.".join([GROUP] * 4) + rb")"
DEAL = re.compile(rb"([NESWnesw]):[ \t]*" + rb"[ \t]+".join([HAND] * 4))


class Fault(Exception):
    """A refusal: its number and the line that it names."""

    def __init__(self, number, line):
        super().__init__(number, line)
        self.number, self.line = number, line


def hands_of(value, line):
    """The four hands of a Deal value from North on, each four groups of ranks, or None where there is no deal."""
    if value in (b"", b"?"):
        return None
    found = DEAL.fullmatch(value)
    if found is None:
        raise Fault(4, line)
    first, *words = found.groups()
    if b"-" in words:
        return None
    hands = [None] * 4
    for place, word in enumerate(words):
        hands[(b"NESW".index(first.upper()) + place) % 4] = [group.upper() for group in word.split(b".")]
    cards = [(suit, rank) for hand in hands for suit, group in enumerate(hand) for rank in group]
    if len(set(cards)) != len(cards):
        raise Fault(5, line)
    if any(sum(map(len, hand)) != 13 for hand in hands):
        raise Fault(6, line)
    return hands


class Game:
    """The tags of a game so far."""

    def __init__(self):
        self.name, self.has_deal, self.hands = None, False, None

    def take(self, name, value, line, count):
        """Takes a tag pair of a game that follows so many boards."""
        if name.lower() == b"board":
            if value.startswith(b"#"):
                raise Fault(7, line)
            if self.name is None:
                self.name = value
        elif name.lower() == b"deal":
            if self.has_deal:
                raise Fault(3, line)
            value = value.strip(BLANKS)
            if value.startswith(b"#"):
                raise Fault(7, line)
            self.has_deal, self.hands = True, hands_of(value, line)
            if count >= MOST_BOARDS:
                raise Fault(8, line)

    def boards(self):
        """The board of the game, if it is one."""
        return [(self.name or b"", self.hands)] if self.has_deal else []


def lines_of(text):
    """The lines without their ends. What stands behind the last LF is a line without a CR to lose."""
    *whole, last = text.removeprefix(MARK).split(b"\n")
    return [line.removesuffix(b"\r") for line in whole] + [last]


def read_line(line, number, is_open, game, count):
    """Reads a line that isn't skipped, and answers whether a brace comment is open at its end, if it began here."""
    place, in_data, opened_here = 0, False, False
    while place < len(line):
        if is_open:
            place = line.find(b"}", place) + 1
            if place == 0:
                return True, opened_here
            is_open = False
            continue
        byte = line[place : place + 1]
        if byte == b";":
            break
        if byte == b"{":
            is_open, opened_here = True, True
            place += 1
        elif byte == b'"':
            in_data = True
            place = line.find(b'"', place + 1) + 1
            if place == 0:
                break
        elif byte == b"[" and not in_data:
            pair = TAG.match(line, place)
            if pair is None:
                raise Fault(1, number)
            game.take(*pair.groups(), number, count)
            place = pair.end()
        else:
            in_data = in_data or byte not in (b" ", b"\t")
            place += 1
    return is_open, opened_here


def read(text):
    """The boards of a text: each its name and its hands."""
    boards, game, opened = [], Game(), None
    for number, line in enumerate(lines_of(text), 1):
        if opened is None and line.startswith(b"%"):
            continue
        if opened is None and not line.strip(BLANKS):
            boards += game.boards()
            game = Game()
            continue
        is_open, opened_here = read_line(line, number, opened is not None, game, len(boards))
        if not is_open:
            opened = None
        elif opened is None or opened_here:
            opened = number
    if opened is not None:
        raise Fault(2, opened)
    return boards + game.boards()


def deal_of(hands):
    """A deal as it is written."""
    if hands is None:
        return b"?"
    return b"N:" + b" ".join(b".".join(bytes(sorted(group, key=FALLING.index)) for group in hand) for hand in hands)


def written(boards):
    """The text of boards without results."""
    return b"% PBN 2.1\n" + b"".join(
        b'[Board "' + name + b'"]\n[Deal "' + deal_of(hands) + b'"]\n; table incomplete: 0 of 20\n\n'
        for name, hands in boards)


def counted(count, one, more):
    """A number of things, of which a single one has other words."""
    return f"1 {one}" if count == 1 else f"{count} {more}"


def board_note(boards):
    """The note on boards, before any search, if there is one."""
    if not boards:
        return (f"{NOTE}no board was found\n  the input has to be plain text in PBN, not UTF-16, "
                "and its lines have to end by LF or CR LF\n").encode()
    undealt = [hands for _, hands in boards].count(None)
    if not undealt:
        return b""
    return f"{NOTE}{counted(undealt, 'board has', 'boards have')} no deal, so there is no table\n".encode()


def table_note(tables, steps, memory=0):
    """The note on incomplete tables, if there are any, after so many searches that ran out of steps and of memory."""
    if not tables:
        return b""
    advice = "; --budget gives a search more steps" if steps else ""
    advice += "; use fewer --solvers or give more memory" if memory else ""
    return (f"{NOTE}{counted(tables, 'table is', 'tables are')} incomplete: "
            f"{counted(steps, 'search', 'searches')} ran out of steps, {memory} out of memory, 0 answers were refused\n"
            f"  each missing result was tried as often as --tries says{advice}\n").encode()


def predict(text):
    """The exit status, the standard output and the standard error of `ddfarm table` on the text."""
    try:
        boards = read(text)
    except Fault as fault:
        name, explanation = FAULTS[fault.number]
        return 2, b"", f"ddfarm: line {fault.line}: {fault.number} {name}\n  {explanation}\n".encode()
    deals = [deal_of(hands) for _, hands in boards if hands is not None]
    notes = board_note(boards) + table_note(len(deals), ENTRIES * len(set(deals)))
    return 3 if boards else 0, written(boards), notes
