// Reads evidence of cards (docs/FORMATS.md, "The text of evidence of cards"), and checks it as `cards --audit` does.
import { Refusal, faultOfBegun, faultOfSteps } from "./checker.js";
import { lineAfter, readGraphs } from "./evidence.js";
import { FormFault, Reader, TextFault, cutAtEmptyLine, readLoneNode } from "./form.js";
import { Play, cardText, rankOf, suitOf } from "./play.js";
import { DENOMINATIONS, LOW, MOST, RANKS, SEATS, SUITS, dealText, matches, readLayout, sideOf,
    sizeOf } from "./patterns.js";

const MOST_PLAYED = 3;
const COUNTS = [...Array(MOST + 1).keys()].map(String);

/** Throws, unless something is so. */
function expect(isSo) {
    if (!isSo) {
        throw new Refusal("refused 1 Text");
    }
}

/** Reads a word of a list, and gives its place in it. */
function wordAfter(reader, name, words) {
    const place = reader.takesText(name) ? reader.word(words) : -1;
    expect(place >= 0);
    return place;
}

function readCard(reader) {
    const suit = SUITS.indexOf(String.fromCharCode(reader.peek()));
    reader.at += 1;
    const rank = RANKS.indexOf(String.fromCharCode(reader.peek()));
    reader.at += 1;
    expect(suit >= 0 && rank >= 0);
    return MOST * suit + rank;
}

function readPlayed(reader) {
    const count = reader.takesText("played ") ? reader.number(1) : -1;
    expect(count >= 0 && count <= MOST_PLAYED);
    const cards = [];
    while (cards.length < count) {
        expect(reader.takesText(" "));
        cards.push(readCard(reader));
    }
    expect(reader.takesText("\n"));
    return cards;
}

/** A begun node, or null for none. */
function readBegun(reader) {
    if (reader.takesText("-\n")) {
        return null;
    }
    const begun = readLoneNode(reader);
    expect(begun !== null);
    return begun;
}

function readClaim(reader) {
    const card = readCard(reader);
    return { card, tricks: wordAfter(reader, " ", COUNTS), begun: [readBegun(reader), readBegun(reader)] };
}

/** The play of a layout up to some cards, which have to be legal. */
function playOf(layout, leader, trump, cards) {
    const play = new Play({ layout, declarer: (leader + 3) & 3, trump }, []);
    for (const card of cards) {
        expect(play.legal().includes(card));
        play.play(card);
    }
    return play;
}

/** Both sides' certificates. */
function readBoth(trump, texts) {
    try {
        return readGraphs({ trump, texts });
    } catch (fault) {
        expect(!(fault instanceof FormFault || fault instanceof TextFault));
        throw fault;
    }
}

/** Reads the text of a section. Throws a Refusal if it is none. */
export function readCardSection(bytes) {
    const reader = new Reader(bytes);
    expect(reader.takesText("DDP 1\n"));
    const deal = lineAfter(reader, "deal ");
    const layout = deal === null ? null : readLayout(deal);
    expect(layout !== null && dealText(layout) === deal);
    const trump = DENOMINATIONS[wordAfter(reader, "trump ", DENOMINATIONS)];
    const leader = wordAfter(reader, "leader ", [...SEATS]);
    const played = readPlayed(reader);
    const play = playOf(layout, leader, trump, played);
    const count = wordAfter(reader, "claims ", COUNTS.slice(1)) + 1;
    const claims = Array.from({ length: count }, () => readClaim(reader));
    const graphs = readBoth(trump, cutAtEmptyLine(bytes.subarray(reader.at)));
    // The faults of the graphs' steps, "" for none, which are checked once, when a claim needs them.
    return { layout, trump, leader, played, play, claims, graphs, faults: [] };
}

/** Why a begun node, or none, doesn't show that a graph's side takes `need` tricks after cards; null if it does. */
function faultAfter({ layout, leader, faults: steps }, begun, graph, need, cards) {
    if (begun === null || need === 0) {
        return need > 0 ? "RootMissing" : begun !== null ? "RootNeedless" : null;
    }
    const faults = [begun.most >= graph.count, begun.lead[0] !== leader, begun.need[0] !== need,
        !matches(begun, 0, layout)];
    const first = faults.indexOf(true);
    if (first >= 0) {
        return ["RootForm", "RootLead", "RootNeed", "RootPattern"][first];
    }
    const fault = faultOfBegun(begun, graph, cards.map(card => topOf(layout, begun, card)));
    if (fault !== null) {
        return `Begun ${fault}`;
    }
    steps[graph.side] ??= faultOfSteps(graph)?.replace(/^8 /, "") ?? "";
    return steps[graph.side] || null;
}

/** The suit of a card, and its place in the pattern of a begun node. */
function topOf(layout, begun, card) {
    const suit = suitOf(card);
    const place = layout[suit].ranks.indexOf(rankOf(card));
    return [suit, place < begun.ownerCounts[suit] ? place : LOW];
}

/** The tricks after a card of the side whose turn it is. Throws a Refusal if its first claim doesn't show them. */
function tricksAfter(section, card) {
    const { layout, played, play, claims, graphs } = section;
    const refuse = why => { throw new Refusal(`refused ${why}`); };
    const claim = claims.find(one => one.card === card) ?? refuse(`3 ClaimMissing ${cardText(card)}`);
    const rest = sizeOf(layout) - claim.tricks;
    if (rest < 0) {
        refuse(`4 TricksTooLarge ${cardText(card)}`);
    }
    const side = sideOf(play.turn);
    for (const [place, need] of [claim.tricks, rest].entries()) {
        const graph = graphs[place === 0 ? side : 1 - side];
        const why = faultAfter(section, claim.begun[place], graph, need, [...played, card]);
        if (why !== null) {
            refuse(`${["5 Player", "6 Others"][place]} ${cardText(card)} ${why}`);
        }
    }
    return claim.tricks;
}

/** The cards that may be played, by suit and with ranks falling, each with its tricks. Throws a Refusal. */
export function valuesOf(section) {
    const cards = section.play.legal().sort((one, other) => suitOf(one) - suitOf(other) || other - one);
    return cards.map(card => ({ card, tricks: tricksAfter(section, card) }));
}

/** What `cards --audit` prints of a text for a position. */
export function cardsLines(bytes, { layout, leader, trump, played }) {
    try {
        const section = readCardSection(bytes);
        if (dealText(section.layout) !== dealText(layout) || section.leader !== leader || section.trump !== trump ||
            section.played.join() !== played.join()) {
            throw new Refusal("refused 2 Position");
        }
        const values = valuesOf(section);
        const lines = COUNTS.map((_, tricks) => values.filter(value => value.tricks === tricks))
            .filter(group => group.length > 0).reverse()
            .map(group => `${group[0].tricks}  ${group.map(({ card }) => cardText(card)).join(" ")}`);
        return [`${SEATS[section.play.turn]} to play`, ...lines].join("\n");
    } catch (fault) {
        if (fault instanceof Refusal) {
            return fault.message;
        }
        throw fault;
    }
}
