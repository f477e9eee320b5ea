"""Texts for the comparison of whole texts: games with old tables, comments, escaped lines and other results, in lines
of either end. Each function takes a source of random numbers; one that makes parts of a game answers lines without
their ends.
"""
from model import ENTRIES, HEADING, MARK

RANKS = b"AKQJT98765432"
ENDS = [b"\n", b"\r\n"]
UNKNOWN = [b"?", b"", b" \t", b"N:- - - -", b"e: AKQJT98765432... - - -"]
COUNTS = [b"; table incomplete: %d of 20" % count for count in (0, 7, 10, 19)]
NO_COUNTS = [b"; table incomplete: 20 of 20", b"; table incomplete: 07 of 20", b" ; table incomplete: 7 of 20",
             b"; table incomplete: 7 of 20 ", b";table incomplete: 7 of 20", b"{; table incomplete: 7 of 20}"]
ESCAPED = [b"%", b"% a", b"%{", b'%[Deal "?"]', b"%" + HEADING, b"%; table incomplete: 7 of 20", b"% \r"]
TEXTS_IN_COMMENTS = [b"", b" a ", b'[Deal "?"]', HEADING, b"; table incomplete: 7 of 20", b"% b", b"{", b'"']
SECTIONS = [[b'[OptimumScore "NS 2220"]'], [b'[Minimax "7NT"]', b"N NT 13"], [b'[DoubleDummyTricks "0"]', b"N  S 13"],
            [b'[Auction "N"]', b'1NT "; x" {a} [Deal "?"] =1=', b"Pass"],
            [b'[Play "E"]', b"HK HA ; seven", b"S2 {x} -"],
            [b'[Note "1:both {majors"]', b"}"], [b'[OptimumResultTables "x"]', b"N NT  1"],
            [b'[ScoreTable "Rank"]', b" 1"]]
LINES = [b'[Event "a"]', b'[Board "1"]', b'[board "2"] [Site ""]', b'[Dealer "N"]{x}[Vulnerable "All"] ', b"; x",
         b" ; y ", b"{ z }",
         b"  {c}  ", b"x", b'a [Deal "?"]', b'"quoted [x', b"}", b"]", b" \r", b"N NT  9", b" % b", b"\xff",
         MARK + b"d", b"{} ;"]
FAULTS = [b"[x", b'[Deal "N"]', b'[Deal "#"]', b'[Deal "?"] [Deal "?"]', b"{", b'[Board "#1"]',
          b'[OptimumResultTable "x]']


def blanks(source):
    """No blank, one or two."""
    return b"".join(source.choices([b" ", b"\t"], k=source.choice([0, 0, 0, 1, 2])))


def named(source, name):
    """A name in one case or another."""
    return source.choice([name, name, name, name.upper(), name.lower(), name.swapcase()])


def tag(source, name, value):
    """A tag pair, often spelled plainly."""
    if source.random() < 0.7:
        return b"[" + named(source, name) + b' "' + value + b'"]'
    return b"[" + blanks(source) + named(source, name) + blanks(source) + b'"' + value + b'"' + blanks(source) + b"]"


def quick_deal(source):
    """A deal of which each hand has one suit."""
    hands = [b".".join(RANKS if place == suit else b"" for place in range(4)) for suit in source.sample(range(4), 4)]
    value = source.choice([b"N", b"E", b"S", b"W", b"n"]) + b":" + blanks(source)
    value += source.choice([b" ", b" ", b" \t"]).join(hands)
    return blanks(source) + value + blanks(source)


def open_comment(source):
    """A brace comment across lines, and what may stand before it and behind it."""
    before = source.choice([b"", b"", b" ", b"N NT  1 ", b'[Dealer "N"] ', b"x"])
    inside = source.choices([b" ", b"N NT  1", *TEXTS_IN_COMMENTS], k=source.randrange(4))
    behind = source.choice([b"", b"", b" ", b" N  S  2", b' [Site "y"]', b' [OptimumResultTable "x"] 1', b"; z",
                            b"{d} x", b"{", b"\r"])
    return [before + b"{ open", *inside, b"still }" + behind] + ([b"again }"] if behind == b"{" else [])


def brace(source):
    """A brace comment in one line."""
    return b"{" + source.choice(TEXTS_IN_COMMENTS) + b"}"


def row(source):
    """A line of section data, as a table has it or with other things in it."""
    plain = source.choice(ENTRIES) + b" %2d" % source.randrange(14)
    others = [b"  " + plain, plain + b" ; seven", b"N " + brace(source) + b" NT 1 " + brace(source),
              brace(source) + b" " + plain, b"N;",
              b'"a;b{c" ' + plain, b'"open ' + plain, plain + b' [Dealer "N"]', b" % no", plain + b"\r",
              b"\t" + brace(source) + b" "]
    return source.choice([plain] * 12 + others)


def between(source):
    """Nothing, mostly, or a line that may stand between those of a table and isn't its own."""
    if source.random() < 0.8:
        return []
    return source.choice([[source.choice(ESCAPED)], [source.choice(COUNTS)], [brace(source)], [b"; alone"],
                          open_comment(source)])


def heading(source):
    """The line of a table's tag, alone or with others."""
    before = source.choice([b""] * 6 + [b" ", b'[Dealer "N"]', b'[Site "z"] ', brace(source) + b" ",
                                        b'[OptimumResultTable "y"] '])
    others = [b" ", b" ; by hand", brace(source), b" N NT  1", b' [Scoring "MP"]', b' [Auction "N"] 1NT', b" {a} 1",
              b"\r",
              b" " + brace(source) + b' [OptimumResultTable "z"] 2', source.choice(COUNTS)]
    value = source.choice([b"", b"x", b"Declarer;Denomination\\2R;Result\\2R", b"{a;"])
    return before + tag(source, b"OptimumResultTable", value) + source.choice([b""] * 6 + others)


def old_table(source):
    """A table of whatever form."""
    lines = [heading(source)]
    for _ in range(source.choice([0, 1, 2, 3, 6])):
        lines += [row(source), *between(source)]
    return lines


def own_table(source):
    """A table as it is written."""
    return [HEADING] + [entry + b" %2d" % source.randrange(14) for entry in ENTRIES]


def deal_line(source, deal):
    """The line of a Deal tag, alone or with others."""
    before = source.choice([b""] * 10 + [b" ", b'[Board "3"] ', brace(source), b'[OptimumResultTable "x"]',
                                         b'[optimumresulttable "x"] '])
    behind = source.choice([b""] * 10 + [b" ", brace(source), b" ; c", b" x", b"\r", b' [Dealer "N"]',
                                         b'[OptimumResultTable "x"] 1 2',
                                         b'[OptimumResultTable "x"] 1\r', b' [OptimumResultTable ""] [Site "z"]'])
    return before + tag(source, b"Deal", deal) + behind


# What stands in a game, with how likely each is.
PARTS = {
    old_table: 5,
    own_table: 3,
    open_comment: 3,
    lambda source: [source.choice(LINES)]: 9,
    lambda source: source.choice(SECTIONS): 4,
    lambda source: [source.choice(ESCAPED)]: 3,
    lambda source: [source.choice(COUNTS)]: 2,
    lambda source: [source.choice(NO_COUNTS)]: 1,
}


def parts(source, most):
    return [kind(source) for kind in source.choices(list(PARTS), PARTS.values(), k=source.randrange(most + 1))]


def last_lines(source):
    """Lines that stand last in a game: often none, else those that tell how many results were known, and escaped
    ones."""
    if source.random() < 0.6:
        return []
    return source.choices([*COUNTS, *COUNTS, *ESCAPED, *NO_COUNTS], k=source.randrange(1, 4))


def game(source, deals):
    """The lines of a game: most have a Deal tag, some a fault."""
    found = parts(source, 6)
    if source.random() < 0.8:
        deal = source.choice(UNKNOWN if source.random() < 0.2 else deals)
        found.insert(source.randrange(len(found) + 1), [deal_line(source, deal)])
    if source.random() < 0.03:
        found.insert(source.randrange(len(found) + 1), [source.choice(FAULTS)])
    return [line for part in found for line in part] + last_lines(source)


def gaps(source, least):
    return [source.choice([b"", b"", b"", b" ", b"\t "]) for _ in range(source.choice([least, 1, 1, 1, 2, 3]))]


def with_ends(source, lines):
    """The lines with ends, most of one kind; the last may have none, or a part of one."""
    end, mixed = source.choice(ENDS), source.choice([0, 0, 0, 0.2])
    text = b"".join(line + (source.choice([*ENDS, b"\r\r\n"]) if source.random() < mixed else end) for line in lines)
    lost = source.choice([b"", b"\n", b"\r\n"])
    return text[:-len(lost)] if lost and text.endswith(lost) else text


def text(source):
    """A text of a few games, at times of none."""
    deals = [quick_deal(source) for _ in range(source.choice([1, 2]))]
    lines = source.choice([[], [], [b"% PBN 2.1"], gaps(source, 0)])
    for _ in range(source.choice([0, 1, 2, 2, 3, 3, 4, 5])):
        lines += game(source, deals) + gaps(source, 1)
    mark = source.choice([b"", b"", b"", MARK, MARK, MARK + MARK])
    return mark + with_ends(source, lines[:-1] if source.random() < 0.6 else lines)
