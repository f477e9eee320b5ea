// Reads evidence (docs/FORMATS.md, "The text of evidence"): its pieces, and the sections that they are.
import { FormFault, Reader, cutAtEmptyLine, readGraph, standsAt } from "./form.js";
import { DENOMINATIONS, MOST, SEATS, SIDES, dealText, readLayout } from "./patterns.js";

const BEGIN = "DDE 1\n";
const LINE_FEED = 10;
/** The most bytes of a board's evidence, unpacked. */
const MOST_BYTES = 64 << 20;
/** Roots are below a million. */
const ROOT_DIGITS = 6;
export const NO_ROOT = -1;

/** Unpacks gzip, or takes bytes that a server has unpacked already. Throws a FormFault. */
export async function unpack(bytes) {
    const isPacked = bytes[0] === 0x1f && bytes[1] === 0x8b;
    if (!isPacked && bytes.length <= MOST_BYTES) {
        return bytes;
    }
    const parts = isPacked ? await unpackedParts(bytes) : null;
    if (parts === null) {
        throw new FormFault("the file is too large");
    }
    return new Uint8Array(await new Blob(parts).arrayBuffer());
}

/** The parts of what gzip has packed, or null if they are too much. */
async function unpackedParts(bytes) {
    const reader = new Blob([bytes]).stream().pipeThrough(new DecompressionStream("gzip")).getReader();
    const parts = [];
    try {
        for (let room = MOST_BYTES; room >= 0;) {
            const { done, value } = await reader.read();
            if (done) {
                return parts;
            }
            room -= value.length;
            parts.push(value);
        }
    } catch {
        throw new FormFault("the file is damaged: it cannot be unpacked");
    }
    await reader.cancel();
    return null;
}

/** Cuts bytes into the pieces that begin with a line `DDE 1`, the first with whatever comes before. */
export function* piecesOf(bytes) {
    let begin = 0;
    for (let at = bytes.indexOf(LINE_FEED); at >= 0; at = bytes.indexOf(LINE_FEED, at + 1)) {
        if (standsAt(bytes, at + 1, BEGIN)) {
            yield bytes.subarray(begin, at + 1);
            begin = at + 1;
        }
    }
    if (bytes.length > 0) {
        yield bytes.subarray(begin);
    }
}

/** Whether a piece begins as the sections of a deal do. */
export const isOfDeal = (piece, deal) => standsAt(piece, 0, `${BEGIN}deal ${deal}\n`);

/** The text of a line that begins so, and passes over it; null if it doesn't. */
export function lineAfter(reader, word) {
    const end = reader.bytes.indexOf(LINE_FEED, reader.at);
    if (end < 0 || !reader.takesText(word)) {
        return null;
    }
    const text = String.fromCharCode(...reader.bytes.subarray(reader.at, Math.min(end, reader.at + 100)));
    reader.at = end + 1;
    return text;
}

/**
 * Reads the lines of a piece before its certificates: the deal, the denomination and the claims. The certificates are
 * read by `readGraphs`: a reader of one deal's evidence need not read those of others. Throws a FormFault.
 */
export function readClaims(piece) {
    const reader = new Reader(piece);
    if (!reader.takesText(BEGIN)) {
        throw new FormFault("line 1 is not DDE 1");
    }
    const deal = lineAfter(reader, "deal ");
    const layout = deal === null ? null : readLayout(deal);
    if (layout === null || dealText(layout) !== deal || deal.length !== "N:".length + 4 * 16 + 3) {
        throw new FormFault("line 2 is no deal");
    }
    const trump = reader.takesText("trump ") ? reader.word(DENOMINATIONS) : -1;
    if (trump < 0) {
        throw new FormFault("line 3 is no denomination");
    }
    const count = reader.takesText("claims ") ? reader.word(["1", "2", "3", "4"]) : -1;
    if (count < 0) {
        throw new FormFault("line 4 is no number of claims");
    }
    const claims = [];
    for (let last = -1; claims.length <= count; last = claims.at(-1).declarer) {
        claims.push(readClaim(reader, last, 5 + claims.length));
    }
    return { deal, trump: DENOMINATIONS[trump], claims, texts: cutAtEmptyLine(piece.subarray(reader.at)) };
}

/** Reads a claim: its declarer, who comes after the last, the tricks, and the two roots, NO_ROOT for none. */
function readClaim(reader, last, line) {
    const declarer = SEATS.indexOf(String.fromCharCode(reader.peek()));
    reader.at += 1;
    const tricks = reader.takesText(" ") ? reader.number(2) : -1;
    const roots = [0, 1].map(() => !reader.takesText(" ") ? null : reader.takesText("-") ? NO_ROOT : rootOf(reader));
    if (declarer <= last || tricks < 0 || tricks > MOST || roots.includes(null) || !reader.takesText("\n")) {
        throw new FormFault(`line ${line} is no claim`);
    }
    return { declarer, tricks, roots };
}

function rootOf(reader) {
    const number = reader.number(ROOT_DIGITS);
    return number < 0 ? null : number;
}

/**
 * Reads both certificates of a section: that of North and South, and that of East and West. Throws a TextFault with its
 * `side`, or a FormFault.
 */
export function readGraphs({ trump, texts }) {
    return texts.map((text, side) => {
        try {
            const graph = readGraph(text);
            if (graph.trump !== trump || graph.side !== side) {
                throw new FormFault(`the certificate of ${SIDES[side]} has another denomination or side`);
            }
            return graph;
        } catch (fault) {
            fault.side = side;
            throw fault;
        }
    });
}
