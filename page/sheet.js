// Reads the boards of a sheet by its elements (docs/FORMATS.md, "--sheet"), and marks their numbers. All text that is
// written goes into the page as text.
import { DENOMINATIONS, SEATS, dealText, readLayout } from "./patterns.js";

export const SEAT_NAMES = ["North", "East", "South", "West"];
export const SUIT_SIGNS = ["♠", "♥", "♦", "♣"];
export const SUIT_NAMES = ["spades", "hearts", "diamonds", "clubs"];
const DENOMINATION_NAMES = ["no-trump", ...SUIT_NAMES];
const COLUMNS = ["♣", "♦", "♥", "♠", "NT"];
const COLUMN_TRUMPS = ["C", "D", "H", "S", "NT"];
const ROWS = ["N", "S", "E", "W"];
const NO_CARD = "–";
/** A level is this many tricks less. */
const BOOK = 6;
/** The marks that this page made. */
const marks = new WeakSet();

export const isRed = suit => suit === 1 || suit === 2;

/** A new element with a class, if one is given, and parts: texts or elements. */
export function element(name, kind, ...parts) {
    const made = document.createElement(name);
    if (kind) {
        made.className = kind;
    }
    made.append(...parts);
    return made;
}

export function button(text, press, kind) {
    const made = element("button", kind, text);
    made.type = "button";
    made.addEventListener("click", press);
    return made;
}

/** A number in words: `North, spades: 9 tricks`. */
export function nameOf({ declarer, trump, tricks }) {
    const denomination = DENOMINATION_NAMES[DENOMINATIONS.indexOf(trump)];
    return `${SEAT_NAMES[declarer]}, ${denomination}: ${tricks} ${tricks === 1 ? "trick" : "tricks"}`;
}

/** Whether a node is an element with this name, and with no attribute except this class. */
function isElement(node, name, kind = "") {
    return node?.nodeType === Node.ELEMENT_NODE && node.localName === name && node.className === kind &&
        node.attributes.length === (kind === "" ? 0 : 1);
}

/** The text of a node that has nothing else, or null. */
function textOf(node) {
    return [...node.childNodes].every(part => part.nodeType === Node.TEXT_NODE) ? node.textContent : null;
}

/** The elements in a node that has nothing else, except white space; none if it has. */
function elementsOf(node) {
    const isSpace = part => part.nodeType === Node.TEXT_NODE && part.data.trim() === "";
    const parts = [...(node?.childNodes ?? [])].filter(part => !isSpace(part));
    return parts.every(part => part.nodeType === Node.ELEMENT_NODE) ? parts : [];
}

/** The deal that an article shows, as evidence names it; null if it shows none, or in another form than a sheet's. */
export function readDeal(article) {
    const deals = [...article.querySelectorAll(".deal")];
    const [compass, ...lists] = elementsOf(deals[0]);
    const hands = lists.map(readHand);
    if (deals.length !== 1 || !isElement(deals[0], "div", "deal") || !isCompass(compass) ||
        hands.length !== 4 || hands.includes(null)) {
        return null;
    }
    const value = "N:" + hands.join(" ");
    const layout = readLayout(value);
    return layout !== null && dealText(layout) === value ? value : null;
}

/** Whether an element is the compass, with the seats' letters at their sides. */
function isCompass(compass) {
    const sides = elementsOf(compass);
    const kinds = ["", "deals", "exposed", "deals exposed"];
    return compass?.localName === "div" && compass.className === "compass" && sides.map(textOf).join() === "N,W,E,S" &&
        sides.every(side => kinds.some(kind => isElement(side, "span", kind)));
}

/** The cards of a hand's list, or null. */
function readHand(list, seat) {
    const [letter, ...items] = isElement(list, "ul") ? elementsOf(list) : [];
    const points = items.pop();
    const suits = items.map(readSuit);
    const isHand = isElement(letter, "li", "seat") && textOf(letter) === SEATS[seat] && suits.length === 4 &&
        !suits.includes(null) && isElement(points, "li", "points") && /^[0-9]{1,2}$/.test(textOf(points));
    return isHand ? suits.join(".") : null;
}

/** The cards of a suit's line, which is exactly its sign in a `b` and text; null if it is not. */
function readSuit(line, suit) {
    const [sign, cards, ...rest] = line.childNodes;
    const isSuit = isElement(line, "li") && rest.length === 0 && isElement(sign, "b", isRed(suit) ? "red" : "") &&
        textOf(sign) === SUIT_SIGNS[suit] && cards?.nodeType === Node.TEXT_NODE;
    return !isSuit ? null : cards.data === NO_CARD ? "" : cards.data.replace("10", "T");
}

/** The numbers of an article's table, each with its cell; none if the table has another form than a sheet's. */
export function readNumbers(article) {
    const tables = [...article.querySelectorAll("footer table")];
    const bodies = tables.length === 1 && isElement(tables[0], "table") ? elementsOf(tables[0]) : [];
    const lines = bodies.length === 1 && isElement(bodies[0], "tbody") ? elementsOf(bodies[0]) : [];
    const [head, ...rows] = lines.map(line => isElement(line, "tr") ? elementsOf(line) : []);
    const isTable = head?.every(isHead) && head.slice(1).map(textOf).join() === COLUMNS.join() &&
        rows.every(([seat, ...cells]) => seat && isHead(seat) && cells.length === COLUMNS.length) &&
        rows.map(([seat]) => textOf(seat)).join() === ROWS.join();
    const numbers = !isTable ? [] : rows.flatMap(([seat, ...cells]) => cells.map((cell, column) =>
        ({ declarer: SEATS.indexOf(textOf(seat)), trump: COLUMN_TRUMPS[column], tricks: tricksOf(cell), cell })));
    return numbers.some(({ tricks }) => tricks === null) ? [] : numbers;
}

/** Whether a cell is the visible head of a row or column. */
function isHead(cell) {
    const names = [...cell.attributes].map(({ name }) => name);
    return cell.localName === "th" && names.every(name => name === "scope" || name === "class") &&
        (cell.className === "" || cell.className === "red");
}

/**
 * The tricks of a cell, which is exactly a level, or no text, and one `small`, which has the tricks in parentheses if
 * there is no level; null if it is not. A mark of this page may come after it.
 */
function tricksOf(cell) {
    const parts = [...cell.childNodes].filter(part => !marks.has(part));
    const small = parts.pop();
    const level = parts.pop();
    if (!isElement(cell, "td") || !isElement(small, "small") || parts.length > 0 ||
        (level !== undefined && level.nodeType !== Node.TEXT_NODE)) {
        return null;
    }
    const [before, after] = [level?.data ?? "", textOf(small)];
    const isTricks = before === "" && /^\([0-9]{1,2}\)$/.test(after);
    const isLevel = after === "" && /^[1-7]$/.test(before);
    return isTricks ? Number(after.slice(1, -1)) : isLevel ? Number(before) + BOOK : null;
}

/** Takes the marks of an article away. */
export function clearMarks(article) {
    article.querySelectorAll(".mark, .reasons").forEach(mark => mark.remove());
}

function addMark({ cell }, mark) {
    marks.add(mark);
    cell.append(mark);
}

/** Marks a number as shown, with the nodes that were checked for it. Pressed, the mark shows how. */
export function markShown(number, nodes, showHow) {
    const mark = button("✓", showHow, "mark");
    mark.setAttribute("aria-label", `${nameOf(number)}: shown by ${nodes} nodes. How?`);
    mark.title = `shown by ${nodes} nodes`;
    addMark(number, mark);
}

/** Marks a number as not shown, and says why at the end of the article. */
export function markOther(article, number, why) {
    const mark = element("span", "mark", "✗");
    mark.setAttribute("role", "img");
    mark.setAttribute("aria-label", "not shown");
    mark.title = why;
    addMark(number, mark);
    const reasons = article.querySelector(".reasons") ?? element("ul", "reasons");
    reasons.append(element("li", "", `${nameOf(number)}: not shown: ${why}`));
    article.append(reasons);
}
