"""Texts for the comparison of two readers: each kind a function of a random source, and all short rows of tokens."""
import itertools

MARK = b"\xef\xbb\xbf"
ENDS = [b"\n", b"\r\n"]
TOKENS = [b"[", b"]", b'"', b"{", b"}", b";", b"%", b" ", b"\t", b"\r", b"\n", b"\r\n", b"\n\n", b"x", b"?", b"#",
          b"\x00", b"\xff", MARK]
PIECES = [b'[Deal "?"]', b'[deal ""]', b'[Deal "#"]', b'[Deal "-"]', b'[Deal "N:- - - -"]', b'[Board "1"]',
          b'[BOARD "2"]', b'[Board "#"]']
CALM = [b"{", b"}", b'"', b";", b"%", b" ", b"\t", b"\n", b"\r\n", b"\n\n", b"x", b'[Deal "?"]', b'[Board "a"]',
        b'[Event "x"]']


def blanks(source):
    """No blank, one or two."""
    return b"".join(source.choice([b" ", b"\t"]) for _ in range(source.choice([0, 0, 0, 1, 2])))


def soup(source):
    """Tokens and pieces in any order."""
    return b"".join(source.choice(TOKENS + 2 * PIECES) for _ in range(source.randrange(1, 25)))


def calm_soup(source):
    """Tokens that seldom give a wrong tag pair, with a board behind them."""
    return b"".join(source.choice(CALM) for _ in range(source.randrange(1, 25))) + b'}\n\n[Board "z"][Deal "?"]'


def hand(source, cards):
    """A hand as it may be spelled."""
    groups = [bytes(rank for suit, rank in cards if suit == place) for place in range(4)]
    text = b".".join(groups)
    return source.choice([text, text, text.lower(), b"-"]) if source.random() < 0.3 else text


def deal_value(source):
    """A deal, often with a card moved or doubled, a hand unknown or a byte changed."""
    pack = [(suit, rank) for suit in range(4) for rank in b"AKQJT98765432"]
    source.shuffle(pack)
    hands = [pack[13 * place : 13 * place + 13] for place in range(4)]
    if source.random() < 0.1:
        hands[source.randrange(4)].append(source.choice(pack))
    if source.random() < 0.1:
        hands[source.randrange(4)].pop()
    between = b" " + blanks(source)
    value = source.choice([b"N", b"E", b"S", b"W", b"n", b"e", b"s", b"w"]) + b":" + blanks(source)
    value += between.join(hand(source, cards) for cards in hands)
    if source.random() < 0.3:
        place = source.randrange(len(value) + 1)
        put = source.choice([b"", b".", b"-", b" ", b"A", b"1", b"\r", b"#"])
        value = value[:place] + put + value[place + source.randrange(2) :]
    return blanks(source) + value + blanks(source)


def tag(source):
    """A tag pair, spelled oddly."""
    name = source.choice([b"Board", b"board", b"Deal", b"Deal", b"dEAL", b"Event", b"Deal_", b"Boards"])
    if name.lower() == b"deal":
        value = source.choice([b"?", b" ", deal_value(source), deal_value(source)])
    else:
        value = source.choice([b"1", b"", b"a;{b", b" #", b"\xc3\xa9"])
    return b"[" + blanks(source) + name + blanks(source) + b'"' + value + b'"' + blanks(source) + b"]"


def line(source):
    """A line of a game: tag pairs, comments and section data."""
    kinds = [lambda: tag(source), lambda: b"{" + soup(source).replace(b"}", b"") + b"}", lambda: b"; x {",
             lambda: b'1C Pass "{;" [x', lambda: b"%{", lambda: b""]
    return b"".join(source.choices(kinds, [8, 1, 1, 1, 1, 3])[0]() + blanks(source)
                    for _ in range(source.choice([1, 1, 1, 2, 3])))


def games(source):
    """Lines with ends of one kind, and perhaps a byte order mark and no last end."""
    end = source.choice(ENDS)
    lines = [line(source) for _ in range(source.randrange(1, 12))]
    return source.choice([b"", b"", MARK]) + end.join(lines) + source.choice([end, end, b""])


def deals(source):
    """A few games of one Deal tag, at times one deal twice."""
    values = [deal_value(source) for _ in range(source.choice([1, 1, 2]))]
    values += values[: source.choice([0, 0, 0, 1])]
    return b"\n".join(b'[Deal "' + value + b'"]\n' for value in values)


KINDS = [soup, calm_soup, games, deals]
SHORT = [b"{", b"}", b";", b'"', b"%", b" ", b"x", b"\n", b"\r", b'[A ""]', b"["]


def short_rows(longest):
    """All rows of up to so many tokens, between two boards that tell what state they leave."""
    for length in range(longest + 1):
        for row in itertools.product(SHORT, repeat=length):
            yield b'[Board "a"][Deal "?"]\n' + b"".join(row) + b'[Board "b"][Deal ""]\n'
