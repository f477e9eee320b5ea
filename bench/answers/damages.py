"""Ways to damage an answer's text. Each takes a source of random numbers and the bytes, and gives other bytes, or None
where the text has nothing to damage so."""
import re

CARD = re.compile(rb"[SHDC][a-mx]")
CHILD = re.compile(rb"([NESW])(\d+)(?=[ }])")
NODE = re.compile(rb"(?m)^([NESW]) (\d+) (\S+) (\S+) (\S+) (\S+) (\S+)$")
BRANCH = re.compile(rb"(?<=[()}])[SHDC][a-mx]")
HEAD = re.compile(rb"(?m)^(trump|side|nodes) .*$")
HEADS = [b"trump NT", b"trump S", b"trump H", b"trump D", b"trump C", b"side NS", b"side EW", b"nodes 0", b"nodes 3",
         b"nodes 1000001"]
SEATS = b"NESW"


def pick(random, pattern, text):
    """One of the places where the pattern stands, each as likely as the others (nearly: a text is long, so from a place
    on)."""
    match = pattern.search(text, random.randrange(len(text)))
    return match or pattern.search(text)


def put(text, start, end, piece):
    return text[:start] + piece + text[end:]


def branch(random, text):
    """The place of a branch: a card of a reply with all that follows it. None where there is no reply."""
    match = pick(random, BRANCH, text)
    if match is None:
        return None
    depth, end = 0, match.start()
    while depth > 0 or text[end - 1:end] not in (b")", b"}") or end == match.start():
        depth += text[end:end + 1] in (b"(", b"{")
        depth -= text[end:end + 1] in (b")", b"}")
        end += 1
    return match.start(), end


def branch_out(random, text):
    span = branch(random, text)
    return span and put(text, *span, b"")


def branch_added(random, text):
    """A branch stands once more, with another card, before or behind it."""
    span = branch(random, text)
    if span is None:
        return None
    place = random.choice(span)
    return put(text, place, place, bytes([random.choice(b"SHDC"), random.choice(b"abcx")]) + text[span[0] + 2:span[1]])


def head_changed(random, text):
    match = pick(random, HEAD, text)
    return put(text, *match.span(), random.choice(HEADS))


def card_changed(random, text):
    match = pick(random, CARD, text)
    if match is None:
        return None
    return put(text, *match.span(), bytes([random.choice(b"SHDC"), random.choice(b"abcdx")]))


def child_renamed(random, text):
    match = pick(random, CHILD, text)
    if match is None:
        return None
    number = max(0, int(match[2]) + random.choice([-2, -1, 1, 2, 10]))
    return put(text, *match.span(2), b"%d" % number)


def winner_changed(random, text):
    match = pick(random, CHILD, text)
    return None if match is None else put(text, *match.span(1), bytes([random.choice(SEATS)]))


def need_moved(random, text):
    match = pick(random, NODE, text)
    if match is None:
        return None
    return put(text, *match.span(2), b"%d" % (int(match[2]) + random.choice([1, 1, -1])))


def lead_turned(random, text):
    match = pick(random, NODE, text)
    if match is None:
        return None
    return put(text, *match.span(1), bytes([SEATS[(SEATS.index(match[1]) + random.randrange(1, 4)) % 4]]))


def owner_changed(random, text):
    """An owner more, less or another."""
    match = pick(random, NODE, text)
    if match is None:
        return None
    start, end = match.span(random.randrange(3, 7))
    owners = text.index(b"/", start, end) + 1
    place = random.randrange(owners, end + 1)
    piece = random.choice([b"", bytes([random.choice(SEATS)])])
    return put(text, place, min(end, place + random.randrange(2)), piece)


def length_changed(random, text):
    match = pick(random, NODE, text)
    if match is None:
        return None
    start = match.start(random.randrange(3, 7)) + 2 * random.randrange(4)
    return put(text, start, start + 1, bytes([random.choice(b"0123")]))


def node_repeated(random, text):
    """A node's line stands in another's place."""
    one, other = pick(random, NODE, text), pick(random, NODE, text)
    return None if one is None else put(text, *other.span(), one[0])


def tricks_moved(random, text):
    end = text.index(b"\n")
    return b"result %d" % random.randrange(14) + text[end:]


def texts_exchanged(_, text):
    end = text.index(b"\n") + 1
    cut = text.index(b"\n\n")
    return text[:end] + text[cut + 2:] + b"\n" + text[end:cut + 1]


def byte_changed(random, text):
    place = random.randrange(len(text))
    return put(text, place, place + 1, bytes([random.choice([random.randrange(256),
                                                             random.choice(b"NESWSHDC()0123 .\nax{}")])]))


def byte_lost(random, text):
    place = random.randrange(len(text))
    return put(text, place, place + 1, b"")


def cut_short(random, text):
    return text[:random.randrange(len(text))]


KINDS = [branch_out, branch_added, head_changed, card_changed, child_renamed, winner_changed, need_moved, lead_turned,
         owner_changed, length_changed,
         node_repeated, tricks_moved, texts_exchanged, byte_changed, byte_lost, cut_short]
