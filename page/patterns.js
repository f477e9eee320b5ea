// Seats, suits, layouts, and the patterns that layouts match (docs/CERTIFICATES.md). Nothing here knows a text of
// evidence or the page.

export const SEATS = "NESW";
export const SUITS = "SHDC";
export const DENOMINATIONS = ["NT", "S", "H", "D", "C"];
export const RANKS = "23456789TJQKA";
/** The most cards of a hand, and of a suit. */
export const MOST = 13;
/** The place of a low card among the cards `a` to `m` and `x` of a suit. */
export const LOW = 13;

/** Whether a seat is of North and South's side, 0, or of East and West's, 1. */
export const sideOf = seat => seat & 1;
export const SIDES = ["NS", "EW"];
export const leftOf = seat => (seat + 1) & 3;

/**
 * Reads a Deal value with equally many cards per hand, 1 to 13, or gives null. A layout has, for each suit, its cards
 * from the highest down: their ranks (0 the deuce, 12 the ace) and the seats that hold them.
 */
export function readLayout(value) {
    const match = /^([NESW]):[ \t]*(.*?)[ \t]*$/i.exec(value);
    const hands = match === null ? [] : match[2].split(/[ \t]+/);
    if (hands.length !== 4) {
        return null;
    }
    const holders = SUITS.split("").map(() => new Array(MOST).fill(-1));
    const first = SEATS.indexOf(match[1].toUpperCase());
    const sizes = hands.map((hand, turn) => takeHand(holders, hand, (first + turn) & 3));
    if (sizes.some(size => size < 1 || size > MOST || size !== sizes[0])) {
        return null;
    }
    return layoutOf(holders);
}

/** Gives a seat the cards of a hand's text, and says how many; -1 if it is none, or a card is held already. */
function takeHand(holders, hand, seat) {
    const suits = hand.toUpperCase().split(".");
    if (suits.length !== 4) {
        return -1;
    }
    for (const [suit, ranks] of suits.entries()) {
        for (const letter of ranks) {
            const rank = RANKS.indexOf(letter);
            if (rank < 0 || holders[suit][rank] >= 0) {
                return -1;
            }
            holders[suit][rank] = seat;
        }
    }
    return suits.join("").length;
}

/** The layout in which these seats hold the cards; -1 is nobody. */
function layoutOf(holders) {
    return holders.map(seats => {
        const ranks = [...RANKS].map((_, rank) => MOST - 1 - rank).filter(rank => seats[rank] >= 0);
        return { ranks, owners: ranks.map(rank => seats[rank]) };
    });
}

/** The cards of each hand, which are equally many. */
export const sizeOf = layout => layout.reduce((size, suit) => size + suit.ranks.length, 0) / 4;

/** The layout as a section's line `deal` names it, without the tag: from North on, ranks falling. */
export function dealText(layout) {
    const hands = [0, 1, 2, 3].map(seat => layout.map(suit =>
        suit.ranks.filter((_, place) => suit.owners[place] === seat).map(rank => RANKS[rank]).join("")).join("."));
    return "N:" + hands.join(" ");
}

/** Whether a node's pattern is one of this layout: the same lengths, and its owners hold the highest cards. */
export function matches(graph, node, layout) {
    return layout.every((suit, number) => {
        const owned = graph.ownerCounts[4 * node + number];
        const packed = graph.owners[4 * node + number];
        for (let seat = 0; seat < 4; seat++) {
            const length = suit.owners.filter(owner => owner === seat).length;
            if (graph.lengths[16 * node + 4 * number + seat] !== length) {
                return false;
            }
        }
        return suit.owners.slice(0, owned).every((owner, place) => owner === ((packed >> (2 * place)) & 3));
    });
}
