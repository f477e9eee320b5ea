// Reads the texts of docs/FORMATS.md: certificates, answers and evidence. A text has one spelling, so all is read byte
// by byte, once. A graph keeps numbers in arrays and its trees as the bytes that they are: a node takes 42 bytes beside
// its line.
import { DENOMINATIONS, LOW, MOST, SEATS, SIDES, SUITS } from "./patterns.js";

const TEXT_FAULTS = ["", "Head", "NodeForm", "BadPattern", "ChildNumber", "Count", "TooLarge"];
const HEAD = 1, NODE_FORM = 2, BAD_PATTERN = 3, CHILD_NUMBER = 4, COUNT = 5, TOO_LARGE = 6;
const MOST_NODES = 1000000;
/** No line of a node is shorter than `E 1 1.1.1.1/ 0.0.0.0/ 0.0.0.0/ 0.0.0.0/ {}` and its end. */
const SHORTEST_NODE = 43;
const MOST_DEPTH = 4;
const MOST_DIGITS = 7;

const code = letter => letter.charCodeAt(0);
const LINE_FEED = 10, BLANK = 32, DOT = code("."), SLASH = code("/"), ZERO = code("0");
export const OPEN = code("("), CLOSE = code(")"), OPEN_LEAF = code("{"), CLOSE_LEAF = code("}");

/** By byte the place of a letter in a word, or -1. */
function placesIn(word) {
    const places = new Int8Array(256).fill(-1);
    [...word].forEach((letter, place) => { places[code(letter)] = place; });
    return places;
}
export const SEAT_OF = placesIn(SEATS), SUIT_OF = placesIn(SUITS), TOP_OF = placesIn("abcdefghijklmx");

/** A certificate's text has a fault in a line, counted from 1. */
export class TextFault extends Error {
    constructor(number, line) {
        super(`${number} ${TEXT_FAULTS[number]} line ${line}`);
    }
}

/** A text is no answer, or a piece no section. */
export class FormFault extends Error {}

/** A certificate as it is read. Node i has suit s at 4i + s, and seat p's length in it at 16i + 4s + p. */
export class Graph {
    constructor(version, trump, side, count, bytes) {
        Object.assign(this, { version, trump, side, count, bytes });
        const room = Math.min(count, Math.ceil(bytes.length / SHORTEST_NODE));
        this.lead = new Uint8Array(room);
        this.need = new Uint8Array(room);
        this.lengths = new Uint8Array(16 * room);
        this.ownerCounts = new Uint8Array(4 * room);
        /** The owners from the highest card down, two bits each, the highest in the lowest bits. */
        this.owners = new Uint32Array(4 * room);
        /** Where each tree begins in the bytes. */
        this.trees = new Uint32Array(room);
    }
}

/** Whether a text of ASCII characters stands at a place of bytes. */
export function standsAt(bytes, at, text) {
    for (let place = 0; place < text.length; place++) {
        if (bytes[at + place] !== text.charCodeAt(place)) {
            return false;
        }
    }
    return true;
}

/** A place in a text. The functions that read answer -1 or false if the bytes there are not of the form. */
export class Reader {
    constructor(bytes) {
        this.bytes = bytes;
        this.at = 0;
        this.most = -1;
    }

    /** The next byte, or 0, which no form has, at the end. */
    peek() {
        return this.at < this.bytes.length ? this.bytes[this.at] : 0;
    }

    isAtEnd() {
        return this.at === this.bytes.length;
    }

    /** Passes over a byte if it is the next. */
    takes(byte) {
        const is = this.peek() === byte;
        this.at += is ? 1 : 0;
        return is;
    }

    /** Passes over a text of ASCII characters if it is next. */
    takesText(text) {
        const is = standsAt(this.bytes, this.at, text);
        this.at += is ? text.length : 0;
        return is;
    }

    /** Reads a number without a leading zero and with at most so many digits. */
    number(digits) {
        const begin = this.at;
        let value = 0;
        while (this.peek() >= ZERO && this.peek() < ZERO + 10) {
            value = 10 * value + this.peek() - ZERO;
            this.at += 1;
        }
        const length = this.at - begin;
        return length === 0 || length > digits || (length > 1 && this.bytes[begin] === ZERO) ? -1 : value;
    }

    /** Reads one of some words and a line feed; its place, or -1. */
    word(words) {
        return words.findIndex(word => this.takesText(word + "\n"));
    }

    /** Reads a card: 14 times its suit's place plus its own from `a` to `m` and `x`. */
    card() {
        const suit = SUIT_OF[this.peek()];
        this.at += 1;
        const top = TOP_OF[this.peek()];
        this.at += 1;
        return suit < 0 || top < 0 ? -1 : (LOW + 1) * suit + top;
    }

    /** Passes over a tree at this depth. `most` grows to the greatest number of a child. */
    isTree(depth) {
        const byte = this.peek();
        if (byte === OPEN_LEAF) {
            this.at += 1;
            return this.areChildren();
        }
        if (depth === MOST_DEPTH) {
            return false;
        }
        if (byte === OPEN) {
            this.at += 1;
            return this.areBranches(depth);
        }
        return this.card() >= 0 && this.isTree(depth + 1);
    }

    areBranches(depth) {
        let last = -1;
        while (!this.takes(CLOSE)) {
            const card = this.card();
            if (card <= last || !this.isTree(depth + 1)) {
                return false;
            }
            last = card;
        }
        return true;
    }

    areChildren() {
        let last = -1;
        if (this.takes(CLOSE_LEAF)) {
            return true;
        }
        do {
            const seat = SEAT_OF[this.peek()];
            this.at += 1;
            const child = this.number(MOST_DIGITS);
            if (seat <= last || child < 0) {
                return false;
            }
            last = seat;
            this.most = Math.max(this.most, child);
        } while (this.takes(BLANK));
        return this.takes(CLOSE_LEAF);
    }
}

/** Reads the four lines of a head; the graph is empty yet. */
function readHead(reader) {
    const version = reader.takesText("DDC ") ? reader.word(["1", "2"]) : -1;
    if (version < 0) {
        throw new TextFault(HEAD, 1);
    }
    const trump = reader.takesText("trump ") ? reader.word(DENOMINATIONS) : -1;
    if (trump < 0) {
        throw new TextFault(HEAD, 2);
    }
    const side = reader.takesText("side ") ? reader.word(SIDES) : -1;
    if (side < 0) {
        throw new TextFault(HEAD, 3);
    }
    const count = reader.takesText("nodes ") ? reader.number(Infinity) : -1;
    if (count < 0 || !reader.takes(LINE_FEED)) {
        throw new TextFault(HEAD, 4);
    }
    if (count > MOST_NODES) {
        throw new TextFault(TOO_LARGE, 4);
    }
    return new Graph(version + 1, DENOMINATIONS[trump], side, count, reader.bytes);
}

/** Reads a suit of a node into its graph. */
function isSuit(reader, graph, place) {
    for (let seat = 0; seat < 4; seat++) {
        const length = reader.number(2);
        if (length < 0 || length > MOST || !reader.takes(seat < 3 ? DOT : SLASH)) {
            return false;
        }
        graph.lengths[4 * place + seat] = length;
    }
    let count = 0, packed = 0;
    for (; SEAT_OF[reader.peek()] >= 0; reader.at += 1, count++) {
        if (count === MOST) {
            return false;
        }
        packed |= SEAT_OF[reader.peek()] << (2 * count);
    }
    graph.ownerCounts[place] = count;
    graph.owners[place] = packed;
    return true;
}

/** Reads the line of a node into its graph. */
function isNode(reader, graph, node) {
    graph.lead[node] = Math.max(0, SEAT_OF[reader.peek()]);
    const isLead = SEAT_OF[reader.peek()] >= 0;
    reader.at += 1;
    if (!isLead || !reader.takes(BLANK)) {
        return false;
    }
    const need = reader.number(2);
    graph.need[node] = need;
    if (need < 1 || need > MOST || !reader.takes(BLANK)) {
        return false;
    }
    for (let suit = 0; suit < 4; suit++) {
        if (!isSuit(reader, graph, 4 * node + suit) || !reader.takes(BLANK)) {
            return false;
        }
    }
    graph.trees[node] = reader.at;
    return reader.isTree(0) && reader.takes(LINE_FEED);
}

/** How often each seat is among owners: four bits for each, North's lowest. */
export function countsOf(owners, count) {
    let counts = 0;
    for (let rest = owners, owner = 0; owner < count; owner++, rest >>>= 2) {
        counts += 1 << 4 * (rest & 3);
    }
    return counts;
}

/** Whether the suits of a node are a pattern. */
function isPattern(graph, node) {
    // By seat, in bytes: no hand has more than 52 cards.
    let hands = 0;
    for (let place = 4 * node; place < 4 * node + 4; place++) {
        const counts = countsOf(graph.owners[place], graph.ownerCounts[place]);
        let sum = 0;
        for (let seat = 0; seat < 4; seat++) {
            const length = graph.lengths[4 * place + seat];
            hands += length << 8 * seat;
            sum += length;
            if ((counts >> 4 * seat & 15) > length) {
                return false;
            }
        }
        if (sum > MOST) {
            return false;
        }
    }
    const size = hands & 255;
    return size >= 1 && size <= MOST && hands === size * 0x1010101;
}

/** Reads a certificate from bytes that have nothing else, or throws the first TextFault. */
export function readGraph(bytes) {
    const reader = new Reader(bytes);
    const graph = readHead(reader);
    for (let node = 0; node < graph.count; node++) {
        if (reader.isAtEnd()) {
            throw new TextFault(COUNT, 5 + node);
        }
        reader.most = -1;
        if (!isNode(reader, graph, node)) {
            throw new TextFault(NODE_FORM, 5 + node);
        }
        if (!isPattern(graph, node)) {
            throw new TextFault(BAD_PATTERN, 5 + node);
        }
        if (reader.most >= graph.count) {
            throw new TextFault(CHILD_NUMBER, 5 + node);
        }
    }
    if (!reader.isAtEnd()) {
        throw new TextFault(COUNT, 5 + graph.count);
    }
    return graph;
}

/** Reads the line of a node that is in no graph: a graph of it alone, with `most` the greatest node named, or null. */
export function readLoneNode(reader) {
    const graph = new Graph(0, "", 0, 1, reader.bytes);
    reader.most = -1;
    const isLone = isNode(reader, graph, 0) && isPattern(graph, 0) && reader.most < MOST_NODES;
    return isLone ? Object.assign(graph, { most: reader.most }) : null;
}

/** Where the tree that begins at a place ends. It was read before, so it is of the form. */
export function passTree(bytes, begin) {
    let at = begin, depth = 0;
    do {
        while (SUIT_OF[bytes[at]] >= 0 && TOP_OF[bytes[at + 1]] >= 0) {
            at += 2;
        }
        if (bytes[at] === OPEN_LEAF) {
            at = bytes.indexOf(CLOSE_LEAF, at);
        } else {
            depth += bytes[at] === OPEN ? 1 : -1;
        }
        at += 1;
    } while (depth > 0);
    return at;
}

/** Where the tree below a card begins, in the branches that begin at a place; -1 if the card has none. */
export function belowBranch(bytes, begin, suit, top) {
    for (let at = begin + 1; bytes[at] !== CLOSE; at = passTree(bytes, at + 2)) {
        if (SUIT_OF[bytes[at]] === suit && TOP_OF[bytes[at + 1]] === top) {
            return at + 2;
        }
    }
    return -1;
}

/** Cuts bytes at their first empty line: what comes before it, and after it. Without one the second part is empty. */
export function cutAtEmptyLine(bytes) {
    for (let at = bytes.indexOf(LINE_FEED); at >= 0; at = bytes.indexOf(LINE_FEED, at + 1)) {
        if (at === 0 || bytes[at - 1] === LINE_FEED) {
            return [bytes.subarray(0, at), bytes.subarray(at + 1)];
        }
    }
    return [bytes, bytes.subarray(bytes.length)];
}

/** Reads the line `result k` of an answer, and cuts the rest into the texts of declarer's side and the defenders. */
export function cutAnswer(bytes) {
    const reader = new Reader(bytes);
    const tricks = reader.takesText("result ") ? reader.number(2) : -1;
    if (tricks < 0 || tricks > MOST || !reader.takes(LINE_FEED)) {
        throw new FormFault("first line is not a result line");
    }
    return { tricks, texts: cutAtEmptyLine(bytes.subarray(reader.at)) };
}
