#!/usr/bin/env python3
"""Sees where a browser puts what a sheet shows, and whether it is seen.

Usage: bench/sheet/places.py SHEET or PDF. Of a SHEET, Chromium lays out the boards on a wide and on a narrow screen and
as for print. On each board every text has to be seen, inside of the board. The hands have to be round the compass, each
with its letter. The compass has to have its seats at their sides, the marks of the facts and no other. The points have
to be arranged as the seats are. Each number of the table has to be below its denomination and beside its declarer. On
a sheet of plays each card has to be below its seat and beside the number of its trick. There the declarer, the cards
that win and those that lose tricks have to stand out without their colour too. Of a PDF each word has to be on its page, by `pdftotext -bbox`. Prints what is wrong, with status 1.
"""
import json
import re
import subprocess
import sys
import tempfile
from html import escape, unescape
from pathlib import Path

from reading import EXPOSED

# The widths of two screens, and those of a page of A4 and of Letter without its margins, which the rules for print are
# for. Such a page has the height that a style calls 100vh.
LAYOUTS = ("screen", 1200, 0), ("screen", 390, 0), ("print", 733, 1062), ("print", 756, 994)
# The height that a board may take, and that of the rest of the page.
BOARD, REST = 480, 500
# Collects the boxes of a page's texts and marks. A text is seen if the browser finds its element at its middle. If the
# page is laid out as for print, rules for print count, and rules for a screen do not.
SCRIPT = """
const rules = [...document.styleSheets].flatMap(sheet => [...sheet.cssRules]);
for (const { media } of rules.filter(rule => rule.media)) {
    media.mediaText = media.mediaText.startsWith("MEDIA") ? media.mediaText.replace("MEDIA", "all") : "not all";
}
const rect = box => [box.left, box.top, box.right, box.bottom];
function isSeen(element, [left, top, right, bottom]) {
    const found = document.elementFromPoint((left + right) / 2, (top + bottom) / 2);
    const style = getComputedStyle(element);
    const isPale = style.color === "rgb(255, 255, 255)" && style.backgroundImage === "none";
    return right - left > 3 && bottom - top > 3 && found !== null && element.contains(found) && !isPale &&
        style.color !== "rgba(0, 0, 0, 0)" &&
        element.checkVisibility({ opacityProperty: true, visibilityProperty: true });
}
function textsOf(element) {
    const texts = [], walker = document.createTreeWalker(element, NodeFilter.SHOW_TEXT);
    while (walker.nextNode()) {
        const text = walker.currentNode, range = document.createRange();
        range.selectNodeContents(text);
        if (text.data.trim() !== "" && !text.parentElement.closest(".read")) {
            const boxes = [...range.getClientRects()].map(rect);
            const seen = boxes.length > 0 && boxes.every(box => isSeen(text.parentElement, box));
            texts.push({ text: text.data, box: rect(range.getBoundingClientRect()), seen });
        }
    }
    return texts;
}
const boxesOf = (element, query) => [...element.querySelectorAll(query)].map(textsOf);
const corner = span => ({
    seat: span.textContent, box: textsOf(span)[0].box, has_disc: getComputedStyle(span).backgroundImage !== "none",
    shaded: getComputedStyle(span).backgroundColor !== "rgba(0, 0, 0, 0)",
    red: ["Top", "Right", "Bottom", "Left"].map(side => getComputedStyle(span)[`border${side}Width`] === "3px"),
});
const mark = element => ({
    name: element.localName, text: element.textContent, bold: getComputedStyle(element).fontWeight === "700",
    underlined: getComputedStyle(element).textDecorationLine === "underline",
});
const boards = [...document.querySelectorAll("article")].map(article => ({
    box: rect(article.getBoundingClientRect()), name: article.querySelector("h2").textContent,
    texts: textsOf(article), facts: [...article.querySelectorAll(".facts p")].map(fact => fact.textContent),
    compass: article.querySelector(".compass")?.getBoundingClientRect(),
    corners: [...article.querySelectorAll(".compass span")].map(corner),
    hands: [...article.querySelectorAll("ul")].map(hand => boxesOf(hand, "li")),
    lines: [...article.querySelectorAll("tr")].map(line => boxesOf(line, "th, td")),
    marks: [...article.querySelectorAll("td > b, td em, td small")].map(mark),
}));
const key = textsOf(document.querySelector(".key"));
const found = parent.document.createElement("pre");
found.textContent = JSON.stringify({
    layout: `MEDIA, ${innerWidth} wide`, boards, key, is_wider: document.documentElement.scrollWidth > innerWidth,
});
parent.document.body.append(found);
"""
SIDES = {"N": "above", "E": "right of", "S": "below", "W": "left of"}


def frame_of(page, media, width, height):
    """A frame with a page that is laid out so, and with SCRIPT. The page's policy would refuse it, and is left out."""
    page = re.sub(r'<meta http-equiv="Content-Security-Policy".*?>', "", page, flags=re.S)
    script = SCRIPT.replace("MEDIA", media)
    page = page.replace("100vh", f"{height}px").replace("</body>", f"<script>{script}</script></body>")
    room = REST + BOARD * page.count("<article>")
    return f'<iframe style="width: {width}px; height: {room}px; border: 0" srcdoc="{escape(page)}"></iframe>'


def laid_out(sheet):
    """What SCRIPT collects of a sheet in each layout."""
    page = Path(sheet).read_text()
    with tempfile.NamedTemporaryFile("w", suffix=".html") as frames:
        frames.write("<!DOCTYPE html><body>" + "".join(frame_of(page, *layout) for layout in LAYOUTS))
        frames.flush()
        done = subprocess.run(
            ["timeout", "300", "chromium", "--headless", "--no-sandbox", "--disable-gpu", "--hide-scrollbars",
             "--dump-dom", f"file://{frames.name}"],
            stdout=subprocess.PIPE, stderr=subprocess.DEVNULL, check=True)
    found = re.findall(r"<pre>(.*?)</pre>", done.stdout.decode(), re.S)
    if len(found) != len(LAYOUTS):
        sys.exit(f"Chromium lays out {len(found)} pages of {sheet}, not {len(LAYOUTS)}")
    return [json.loads(unescape(page)) for page in found]


def is_on(side, box, other):
    """Whether a box is on this side of another."""
    left, top, right, bottom = box
    return {"N": bottom <= other[1] + 1, "E": left >= other[2] - 1, "S": top >= other[3] - 1,
            "W": right <= other[0] + 1}[side]


def middle(box):
    return (box[0] + box[2]) / 2, (box[1] + box[3]) / 2


def are_round(boxes):
    """Whether the boxes of North, East, South and West are round their middle."""
    north, east, south, west = map(middle, boxes)
    return (north[1] < min(east[1], west[1]) and max(east[1], west[1]) < south[1]
            and west[0] < min(north[0], south[0]) and max(north[0], south[0]) < east[0])


def wrong_hands(board):
    """What is wrong with the places of a board's hands, and of their points."""
    compass = [board["compass"][side] for side in ("left", "top", "right", "bottom")]
    points = []
    if not all(line for hand in board["hands"] for line in hand):
        yield "a line of a hand is hidden"
        return
    for seat, (letter, *suits, count) in zip("NESW", board["hands"], strict=True):
        points.append(count[0]["box"])
        if letter[0]["text"] != seat:
            yield f"the hand {letter[0]['text']} is in the place of {seat}"
        for line in [letter, *suits]:
            for part in line:
                if not is_on(seat, part["box"], compass):
                    yield f"{seat}'s {part['text']} is not {SIDES[seat]} the compass"
        (left, top, right, bottom), sign = letter[0]["box"], suits[0][0]["box"]
        if not (right <= sign[0] + 2 and top < middle(sign)[1] < bottom + 2):
            yield f"the letter {seat} is not left of its spades"
    if not are_round(points):
        yield f"the points are in other places: {points}"


def wrong_compass(board):
    """What is wrong with the seats of a board's compass, and with their marks."""
    facts = dict(fact.split(" ", 1) for fact in board["facts"])
    corners = {corner["seat"]: corner for corner in board["corners"]}
    if sorted(corners) != sorted("NESW") or not are_round([corners[seat]["box"] for seat in "NESW"]):
        yield "the compass has other seats, or has them in other places"
        return
    for place, seat in enumerate("NESW"):
        red = [seat in EXPOSED[facts.get("Vul", "None")] and side == place for side in range(4)]
        wanted = {"red": red, "has_disc": facts.get("Dealer") == seat, "shaded": facts.get("Declarer") == seat}
        if {**corners[seat], **wanted} != corners[seat]:
            yield f"{seat} has other marks in the compass than {board['facts']}: {corners[seat]}"


def wrong_table(lines):
    """What is wrong with the places of a table's numbers."""
    if not lines:
        return
    heads = [head[0]["box"] for head in lines[0][1:]]
    for declarer, *cells in lines[1:]:
        for head, cell in zip(heads, cells, strict=True):
            if len(cell) != 1:
                yield f"a cell has {len(cell)} texts"
                continue
            box, beside = cell[0]["box"], declarer[0]["box"]
            if abs(middle(box)[0] - middle(head)[0]) > 4 or not is_on("S", box, head):
                yield f"{cell[0]['text']} is not below its denomination"
            if abs(middle(box)[1] - middle(beside)[1]) > 4 or not is_on("E", box, beside):
                yield f"{cell[0]['text']} is not beside {declarer[0]['text']}"


def wrong_tricks(lines):
    """What is wrong with the places of a play's cards and numbers."""
    heads = [head[0]["box"] for head in lines[0]]
    for (trick,), *cells in lines[1:]:
        for place, cell in enumerate(cells, 1):
            following = heads[place + 1][0] if place < 5 else heads[5][2] + 1
            for part in cell:
                box, beside = part["box"], trick["box"]
                if not (heads[place][0] - 20 < box[0] and box[2] < following and is_on("S", box, heads[place])):
                    yield f"{part['text']} is not in its column"
                if abs(middle(box)[1] - middle(beside)[1]) > 4 or not is_on("E", box, beside):
                    yield f"{part['text']} is not beside trick {trick['text']}"


def wrong_marks(marks):
    """What is wrong with the marks of cards that win or lose tricks."""
    for mark in marks:
        if not mark["bold"] or (mark["name"] == "em") != mark["underlined"]:
            yield f"{mark['text']} does not stand out"


def wrong_texts(texts, around):
    for part in texts:
        left, top, right, bottom = part["box"]
        if not part["seen"]:
            yield f"{part['text']} is not seen"
        if left < around[0] - 1 or top < around[1] - 1 or right > around[2] + 1 or bottom > around[3] + 1:
            yield f"{part['text']} is beyond its board"


def wrong_page(page):
    """What is wrong with a page in one layout."""
    if not page["key"] or page["is_wider"]:
        yield "the page has no key, or is wider than its window"
    for part in page["key"]:
        if not part["seen"]:
            yield f"{part['text']} is not seen"
    for board in page["boards"]:
        is_play = any(fact.startswith("Declarer ") for fact in board["facts"])
        found = [*wrong_texts(board["texts"], board["box"])]
        found += [*wrong_tricks(board["lines"]), *wrong_marks(board["marks"])] if is_play else wrong_table(board["lines"])
        if board["hands"]:
            found += [*wrong_hands(board), *wrong_compass(board)]
        yield from (f"board {board['name']}: {fault}" for fault in found)


def wrong_sheet(sheet):
    return [f"{page['layout']}: {fault}" for page in laid_out(sheet) for fault in wrong_page(page)]


def wrong_words(pdf):
    """The words of a PDF that are beyond their page."""
    text = subprocess.run(["pdftotext", "-bbox", pdf, "-"], stdout=subprocess.PIPE, check=True).stdout.decode()
    width, height = map(float, re.search(r'<page width="(.*)" height="(.*)">', text).groups())
    words = re.findall(r'<word xMin="(.*)" yMin="(.*)" xMax="(.*)" yMax="(.*)">(.*)</word>', text)
    return [f"{word} is beyond the page" for left, top, right, bottom, word in words
            if float(left) < 0 or float(top) < 0 or float(right) > width or float(bottom) > height]


def main():
    (name,) = sys.argv[1:]
    if name.endswith(".pdf"):
        faults = wrong_words(name)
    else:
        faults = wrong_sheet(name)
    if faults:
        sys.exit("\n".join(faults[:20]))


if __name__ == "__main__":
    main()
