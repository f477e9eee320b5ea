#!/usr/bin/env python3
"""Writes answers with what `ddfarm check` says of each, for the checker in page/.

Usage: bench/page/cases.py PROGRAM COUNT SEED [LONGEST] >CASES. Each answer of bench/answers as it is, as version 2
without the branches that it can do without, with its graphs named as the other version, and with EDITS; and COUNT times
each of the first two with each kind of damage (a tenth of that if it is longer than 100,000 bytes). With COUNT `bytes`
instead each byte of an answer is changed once. Answers longer than LONGEST bytes are left out.

A case is a line, its length, status, words and the program's line with tabs between, and then the text.
"""
import itertools
import os
import random
import re
import subprocess
import sys
import tarfile

FOLDER = os.path.join(os.path.dirname(os.path.abspath(__file__)), "..", "answers")
sys.path.insert(0, FOLDER)
import damages  # noqa: E402
import versions  # noqa: E402

LONG = 100_000


def longer(lengths):
    """The lengths of a suit, each hand with one card more."""
    return re.sub(rb"\d+", lambda length: b"%d" % (int(length[0]) + 1), lengths[0])


# Numbers over what a form takes, leaves and brackets out of place, a pattern that has a card more in each hand, the
# number of a node after the last, and a tree with a card too many.
EDITS = [(rb"nodes \d+", b"nodes 1000001"), (rb"nodes \d+", b"nodes 99999999999999999999"), (rb"{\w*", b"{N9999999"),
         (rb"{\w*", b"{N99999999"), (rb"\.\d+/", b".14/"), (rb"/[NESW]*", b"/NESWNESWNESWN"),
         (rb"/[NESW]*", b"/NESWNESWNESWNE"), (rb" (?=\S+\n)", b" Sx"), (rb"\(.*", b"()"), (rb"\(.*", b"{}"),
         (rb"}", b"})"), (rb"\d+(\.\d+){3}/", longer),
         (rb"(?s)nodes (\d+)(.*?{\w)\d+", rb"nodes \1\2\1"), (rb"(/[NESW]* )(?=[SHDC(])", rb"\1Sx")]
# The second node's first, second, .. suit names an owner more, each of the four.
EDITS += [(rb"(?s)(nodes \d+\n[^\n]*\n(?:\S+ ){%d}\S*/[NESW]*)" % (2 + suit), rb"\1" + bytes([seat]))
          for suit in range(4) for seat in b"NESW"]
LETTERS = b"NESWSHDCabcx()(){}{}0123456789 ./\n"


def answers(longest):
    """Name, words and text of each answer of the archive."""
    with tarfile.open(os.path.join(FOLDER, "answers.tar.xz")) as archive:
        for member in sorted(archive, key=lambda member: member.name):
            if member.isfile() and not member.name.endswith("README.txt") and member.size <= longest:
                words, text = archive.extractfile(member).read().split(b"\n", 1)
                yield member.name, words.decode().split("|"), text


def other_version(text):
    """The same nodes under the other version's name."""
    return text.replace(b"DDC 2\n", b"DDC 0\n").replace(b"DDC 1\n", b"DDC 2\n").replace(b"DDC 0\n", b"DDC 1\n")


def changed(source, text, place):
    """The text with a byte changed, most often to one that the forms have."""
    others = source.choice([LETTERS, LETTERS, LETTERS, bytes(range(256))]).replace(text[place:place + 1], b"")
    return text[:place] + bytes([source.choice(others)]) + text[place + 1:]


def forms(name, text, count, seed):
    second = versions.as_version_two(text)
    yield from (text, second, other_version(text), other_version(second))
    yield from (re.sub(old, new, text, count=1) for old, new in EDITS)
    if count == "bytes":
        yield from (changed(random.Random(f"{seed} {name} {place}"), text, place) for place in range(len(text)))
        return
    times = int(count) if len(text) <= LONG else (int(count) + 9) // 10
    for form, kind, number in itertools.product((text, second), damages.KINDS, range(times)):
        other = kind(random.Random(f"{seed} {name} {kind.__name__} {number}"), form)
        if other is not None and other != form:
            yield other


def write_case(program, words, text):
    done = subprocess.run([program, "check", *words], input=text, capture_output=True, check=False)
    said = (done.stdout + done.stderr).split(b"\n")[0]
    sys.stdout.buffer.write(b"%d\t%d\t%s\t%s\n%s" % (len(text), done.returncode, "|".join(words).encode(), said, text))


def main():
    program, count, seed = sys.argv[1:4]
    for name, words, text in answers(int(sys.argv[4]) if len(sys.argv) > 4 else sys.maxsize):
        for form in forms(name, text, count, seed):
            write_case(program, words, form)


if __name__ == "__main__":
    main()
