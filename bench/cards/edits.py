"""Ways to damage the text of evidence for cards. Each takes a source of random numbers, the bytes, and how many places
it damages at most. It gives edits: where the bytes begin and end that are replaced, and by which bytes."""
import re
from itertools import combinations
from pathlib import Path
from runpy import run_path

LETTERS = b"NESWSHDCATx0123456789 .-/()\n"
# A claim: its card, its tricks, and the begun nodes of the player's side and of the other side.
CLAIM = re.compile(rb"(?m)^([SHDC][2-9TJQKA]) (\d+)\n(.+)\n(.+)\n")
COUNT = re.compile(rb"(?m)^claims (\d+)$")
# The damages of an answer. They know the lines of certificates, and give a whole text.
OF_ANSWERS = run_path(str(Path(__file__).resolve().parent.parent / "answers" / "damages.py"))["KINDS"]


def put(text, edit):
    start, end, piece = edit
    return text[:start] + piece + text[end:]


def some(dice, places, most):
    """The places, or as many of them as are tried."""
    return places if len(places) <= most else dice.sample(places, most)


def some_pairs(dice, things, most):
    """Pairs of the things, the earlier one first."""
    count = len(things)
    if count * (count - 1) // 2 <= most:
        return list(combinations(things, 2))
    places = (sorted(dice.sample(range(count), 2)) for _ in range(most))
    return [(things[one], things[other]) for one, other in places]


def some_bytes(dice, text, most):
    return some(dice, range(len(text)), most)


def bytes_changed(dice, text, most):
    for place in some_bytes(dice, text, most):
        for other in {text[place] ^ 1, dice.choice(LETTERS), dice.randrange(256)} - {text[place]}:
            yield place, place + 1, bytes([other])


def bytes_lost(dice, text, most):
    return ((place, place + 1, b"") for place in some_bytes(dice, text, most))


def bytes_doubled(dice, text, most):
    return ((place, place, text[place:place + 1]) for place in some_bytes(dice, text, most))


def cut_short(dice, text, most):
    return ((place, len(text), b"") for place in some_bytes(dice, text, most))


def lines_of(text):
    """Where each line begins and ends."""
    return [line.span() for line in re.finditer(rb".*\n", text)]


def lines_lost(dice, text, most):
    return ((start, end, b"") for start, end in some(dice, lines_of(text), most))


def lines_doubled(dice, text, most):
    return ((start, start, text[start:end]) for start, end in some(dice, lines_of(text), most))


def lines_exchanged(dice, text, most):
    for (start, end), (other, last) in some_pairs(dice, lines_of(text), most):
        yield start, last, text[other:last] + text[end:other] + text[start:end]


def numbers_moved(dice, text, most):
    for number in some(dice, list(re.finditer(rb"\d+", text)), most):
        for step in (-1, 1):
            yield *number.span(), b"%d" % max(0, int(number[0]) + step)


def with_need(node, step):
    """The begun node's line with another need. A side that needs no tricks has no node."""
    words = node.split(b" ")
    if len(words) < 2:
        return node
    need = int(words[1]) + step
    return b"-" if need <= 0 else b" ".join([words[0], b"%d" % need, *words[2:]])


def claim_text(claim, step):
    """The claim with more or fewer tricks, and with begun nodes that need as many."""
    card, tricks, player, others = claim.groups()
    lines = b"%s %d" % (card, max(0, int(tricks) + step)), with_need(player, step), with_need(others, -step)
    return b"\n".join(lines) + b"\n"


def claims_false(_, text, __):
    for claim in CLAIM.finditer(text):
        for step in (-1, 1):
            yield *claim.span(), claim_text(claim, step)


def claims_all_false(_, text, __):
    claims = list(CLAIM.finditer(text))
    for step in (-1, 1):
        if claims:
            yield claims[0].start(), claims[-1].end(), b"".join(claim_text(claim, step) for claim in claims)


def cards_exchanged(dice, text, most):
    """Two claims name each other's cards."""
    for one, other in some_pairs(dice, list(CLAIM.finditer(text)), most):
        yield one.start(), other.end(1), other[1] + text[one.end(1):other.start()] + one[1]


def recounted(text, step, edit):
    """The edit, and the number of claims moved."""
    count = COUNT.search(text)
    changed = put(text, edit)
    return 0, len(text), put(changed, (*count.span(1), b"%d" % (int(count[1]) + step)))


def claims_lost(_, text, __):
    return (recounted(text, -1, (*claim.span(), b"")) for claim in CLAIM.finditer(text))


def claims_before(_, text, __):
    """A false claim for the same card comes before a claim."""
    for claim in CLAIM.finditer(text):
        for step in (-1, 1):
            yield recounted(text, 1, (claim.start(), claim.start(), claim_text(claim, step)))


def text_doubled(_, text, __):
    return [(len(text), len(text), text)]


EDITS = [bytes_changed, bytes_lost, bytes_doubled, cut_short, lines_lost, lines_doubled, lines_exchanged, numbers_moved,
         claims_false, claims_all_false, cards_exchanged, claims_lost, claims_before, text_doubled]
