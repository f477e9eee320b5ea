// Compares the checker in page/ with what the program said of cases (cases.py, sections.py, cards.py), in Node and in a
// browser.
import { Board } from "../../page/board.js";
import { cardsLines } from "../../page/cards.js";
import { verdictOf } from "../../page/checker.js";
import { piecesOf, readClaims, readGraphs } from "../../page/evidence.js";
import { MOST, RANKS, SEATS, SUITS, readLayout } from "../../page/patterns.js";

const LINE_FEED = 10;

/** The cases of a file. */
export function* casesOf(bytes) {
    for (let at = 0; at < bytes.length;) {
        const end = bytes.indexOf(LINE_FEED, at);
        const [length, status, words, line] = new TextDecoder().decode(bytes.subarray(at, end)).split("\t");
        at = end + 1 + Number(length);
        yield { status, words: words.split("|"), line, text: bytes.subarray(end + 1, at) };
    }
}

/** The number that the words of an answer's case name. */
export const numberOf = ([layout, declarer, trump]) =>
    ({ layout: readLayout(layout), declarer: SEATS.indexOf(declarer), trump });

function isSection(piece) {
    try {
        readGraphs(readClaims(piece));
        return true;
    } catch {
        return false;
    }
}

/** What the checker finds in evidence: how many numbers are shown, the damaged pieces and the place of the first. */
function evidenceLine([deal, table], text) {
    const numbers = table.split(",").map(row => row.split(" ")).map(([declarer, trump, tricks]) =>
        ({ declarer: SEATS.indexOf(declarer), trump, tricks: Number(tricks) }));
    let shown = 0, damaged = 0, first = "", at = 0;
    new Board(deal, numbers).check(text, { shown: () => { shown += 1; } });
    for (const piece of piecesOf(text)) {
        if (!isSection(piece)) {
            first = damaged === 0 ? `, at byte ${at}` : first;
            damaged += 1;
        }
        at += piece.length;
    }
    return `${shown} shown, ${damaged} damaged${first}`;
}

/** What the checker prints of evidence of cards, in one line. */
function cardsLine([layout, leader, trump, cards], text) {
    const played = cards.split(" ").filter(card => card !== "")
        .map(([suit, rank]) => MOST * SUITS.indexOf(suit) + RANKS.indexOf(rank));
    const position = { layout: readLayout(layout), leader: SEATS.indexOf(leader), trump, played };
    return cardsLines(text, position).replaceAll("\n", " / ");
}

/** What the checker says of a case. */
function lineOf(words, text) {
    return words.length === 2 ? evidenceLine(words, text) : words.length === 4 ? cardsLine(words, text) :
        verdictOf(text, numberOf(words));
}

/** The kind of a program's line: the last fault that it names, if it refuses. */
function kindOf(line) {
    const faults = line.startsWith("refused") ? line.match(/[A-Z][A-Za-z]*[a-z](?= |$)/g) : null;
    return faults?.at(-1) ?? line.replace(/(, at|(?<=accepted)|(?<=to play)) .*/, "");
}

/** Counts the cases, and those of each fault; lists the first that differ. */
export function compare(bytes) {
    const faults = {}, differences = [];
    let count = 0;
    for (const { words, line, text } of casesOf(bytes)) {
        const ours = lineOf(words, text);
        const kind = kindOf(line);
        faults[kind] = (faults[kind] ?? 0) + 1;
        count += 1;
        if (ours !== line && differences.length < 20) {
            differences.push(`case ${count} (${words.join("|")}): ddfarm says "${line}", the page "${ours}"`);
        }
    }
    return { count, faults, differences };
}
