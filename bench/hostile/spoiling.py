"""Texts and answers for the soak: sound ones, and ways to damage them. Each takes a source of random numbers."""
from running import ROOT, module_of

import damages

texts = module_of("reading", "texts")
RANKS = "AKQJT98765432"
EXAMPLES = [path.read_bytes() for path in sorted((ROOT / "examples").glob("*.pbn"))]
TOKENS = [*texts.TOKENS, *texts.PIECES, b"\x80\xc3", b"[Deal", b"10", b"0" * 5000]
# So many games are too many for a text, or nearly.
MANY = range(4094, 4099)


def quick_deal(random):
    """A deal of which each hand has one suit."""
    suits = [".".join(RANKS if place == suit else "" for place in range(4)) for suit in random.sample(range(4), 4)]
    return random.choice("NESW") + ":" + " ".join(suits)


def game(random, deal):
    """A game with a deal, with other tags and lines in it."""
    lines = [f'[Board "{random.randrange(100)}"]', f'[Deal "{deal}"]']
    others = ['[Event "x"]', "{ a comment }", "; a comment", "1NT Pass 2C =1=", "% a line", '[Note "1:both {majors"]']
    lines += random.choices(others, k=random.randrange(4))
    random.shuffle(lines)
    return ("\n".join(lines) + "\n").encode()


def example(random, _):
    return random.choice(EXAMPLES)


def quick_games(random, _):
    return b"\n".join(game(random, quick_deal(random)) for _ in range(random.randrange(1, 5)))


def hard_games(random, deals):
    return b"\n".join(game(random, random.choice(deals)) for _ in range(random.choice([1, 1, 2])))


def made_up(random, _):
    return random.choice(texts.KINDS)(random)


def many_games(random, _):
    return b"\n".join(b'[Board "%d"]\n[Deal "?"]\n' % number for number in range(random.choice(MANY)))


# With how likely each is.
TEXTS = {example: 8, quick_games: 8, hard_games: 4, made_up: 8, many_games: 1}


def sound_text(random, deals):
    """The name of a kind of text, and such a text; `deals` are those of random boards."""
    kind, = random.choices(list(TEXTS), TEXTS.values())
    return kind.__name__, kind(random, deals)


def put(text, start, end, piece):
    return text[:start] + piece + text[end:]


def place_in(random, text):
    return random.randrange(len(text) + 1)


def bit_flipped(random, text):
    place = random.randrange(len(text))
    return put(text, place, place + 1, bytes([text[place] ^ 1 << random.randrange(8)]))


def byte_changed(random, text):
    place = random.randrange(len(text))
    return put(text, place, place + 1, bytes([random.randrange(256)]))


def bytes_lost(random, text):
    place = random.randrange(len(text))
    return put(text, place, place + random.randrange(1, 20), b"")


def bytes_put_in(random, text):
    place = place_in(random, text)
    return put(text, place, place, random.randbytes(random.randrange(1, 9)))


def token_put_in(random, text):
    place = place_in(random, text)
    return put(text, place, place, random.choice(TOKENS))


def line_lost(random, text):
    lines = text.splitlines(keepends=True)
    lines.pop(random.randrange(len(lines)))
    return b"".join(lines)


def line_doubled(random, text):
    lines = text.splitlines(keepends=True)
    lines.insert(random.randrange(len(lines)), random.choice(lines))
    return b"".join(lines)


def lines_swapped(random, text):
    lines = text.splitlines(keepends=True)
    one, other = random.randrange(len(lines)), random.randrange(len(lines))
    lines[one], lines[other] = lines[other], lines[one]
    return b"".join(lines)


def line_cut(random, text):
    lines = text.splitlines(keepends=True)
    place = random.randrange(len(lines))
    lines[place] = lines[place][:place_in(random, lines[place])]
    return b"".join(lines)


def part_doubled(random, text):
    """A part between two empty lines, which is a game of a text and a certificate of an answer, stands once more."""
    parts = text.split(b"\n\n")
    parts.insert(random.randrange(len(parts)), random.choice(parts))
    return b"\n\n".join(parts)


def cut_short(random, text):
    return text[:place_in(random, text)]


def front_lost(random, text):
    return text[place_in(random, text):]


def ends_by_two(_, text):
    return text.replace(b"\r\n", b"\n").replace(b"\n", b"\r\n")


def end_lost(_, text):
    return text.rstrip(b"\r\n")


def mark_put_in_front(_, text):
    return texts.MARK + text


DAMAGES = [bit_flipped, byte_changed, bytes_lost, bytes_put_in, token_put_in, line_lost, line_doubled, lines_swapped,
           line_cut,
           part_doubled, cut_short, front_lost, ends_by_two, end_lost, mark_put_in_front]


def spoiled(random, text):
    """The text with one damage or more, at times with none."""
    for kind in random.choices(DAMAGES, k=random.choice([0, 1, 1, 1, 2, 2, 3])):
        text = kind(random, text) if text else text
    return text


def spliced(random, text, other):
    """A beginning of one answer and an end of another, cut where lines end or anywhere."""
    if random.random() < 0.3:
        return text[:place_in(random, text)] + other[place_in(random, other):]
    lines, others = text.splitlines(keepends=True), other.splitlines(keepends=True)
    return b"".join(lines[:place_in(random, lines)] + others[place_in(random, others):])


def parts_exchanged(random, text, other):
    """A certificate of one answer in the place of that of the other."""
    parts, others = text.split(b"\n\n"), other.split(b"\n\n")
    parts[random.randrange(len(parts))] = random.choice(others)
    return b"\n\n".join(parts)


def spoiled_answer(random, text, other):
    """The name of the damage, and the damaged answer; of `other` a part may come in."""
    kind = random.choice([*damages.KINDS, *DAMAGES, *[spliced, parts_exchanged] * 3])
    if kind in (spliced, parts_exchanged):
        return kind.__name__, kind(random, text, other)
    damaged = kind(random, text)
    return kind.__name__, text if damaged is None else damaged
