// Plays a layout card by card, with sides that follow their certificates (docs/FORMATS.md, `line` and `play`). A card
// is a number: 13 times its suit's place, plus its rank's (docs/DEFINITIONS.md).
import { CLOSE_LEAF, SEAT_OF, SUIT_OF, TOP_OF, belowBranch } from "./form.js";
import { NO_ROOT } from "./evidence.js";
import { LOW, MOST, RANKS, SUITS, leftOf, sideOf, sizeOf } from "./patterns.js";

export const suitOf = card => Math.floor(card / MOST);
export const rankOf = card => card % MOST;
/** A card as `line` writes it. */
export const cardText = card => SUITS[suitOf(card)] + RANKS[rankOf(card)];

/** A side that follows its certificate. It looks at the cards left when a trick begins, since its node does. */
class Follower {
    constructor(graph, root) {
        this.graph = graph;
        this.node = root;
    }

    /** Begins a trick: `left` has, for each suit, the cards left from the highest down, with their holders. */
    begin(left) {
        this.left = left.map(cards => [...cards]);
        this.at = this.node === NO_ROOT ? 0 : this.graph.trees[this.node];
    }

    /** The card that the certificate names for a seat: of low cards the lowest; -1 if it asks for no more tricks. */
    named(seat) {
        if (this.node === NO_ROOT) {
            return -1;
        }
        const suit = SUIT_OF[this.graph.bytes[this.at]];
        const top = TOP_OF[this.graph.bytes[this.at + 1]];
        const cards = this.left[suit];
        return top === LOW ? cards.filter(held => held.seat === seat).at(-1).card : cards[top].card;
    }

    /** Goes on in the tree by a card that was played. */
    take(card, seat) {
        if (this.node === NO_ROOT) {
            return;
        }
        if (sideOf(seat) === this.graph.side) {
            this.at += 2;
            return;
        }
        let top = this.topOf(card);
        while (!this.goes(suitOf(card), top)) {
            // Version 2: the highest of cards that touch has the branch of all.
            top -= 1;
        }
    }

    /** The place of a card in the node's pattern. */
    topOf(card) {
        const suit = suitOf(card);
        const place = this.left[suit].findIndex(held => held.card === card);
        return place < this.graph.ownerCounts[4 * this.node + suit] ? place : LOW;
    }

    /** Goes into a branch, if it is there. */
    goes(suit, top) {
        const below = belowBranch(this.graph.bytes, this.at, suit, top);
        this.at = below < 0 ? this.at : below;
        return below >= 0;
    }

    /** Goes on at the node that the leaf names for the winner, or is done. */
    end(winner) {
        if (this.node === NO_ROOT) {
            return;
        }
        const { bytes } = this.graph;
        const leaf = String.fromCharCode(...bytes.subarray(this.at + 1, bytes.indexOf(CLOSE_LEAF, this.at)));
        const child = leaf.split(" ").find(word => SEAT_OF[word.charCodeAt(0)] === winner);
        this.node = child === undefined ? NO_ROOT : Number(child.slice(1));
    }
}

/** A play of a layout, in which each side that has a certificate follows it. */
export class Play {
    /**
     * `shown` has a graph and a root for each part, declarer's side first, as a check gives them, or null for a part
     * that follows none.
     */
    constructor({ layout, declarer, trump }, shown) {
        this.trump = SUITS.indexOf(trump);
        this.size = sizeOf(layout);
        this.left = layout.map((suit, number) =>
            suit.ranks.map((rank, place) => ({ card: MOST * number + rank, seat: suit.owners[place] })));
        this.turn = leftOf(declarer);
        /** The tricks that are over: leader, cards and winner. The cards of the one in progress are in `trick`. */
        this.tricks = [];
        this.trick = [];
        this.followers = [null, null];
        for (const part of shown.filter(part => part !== null)) {
            this.followers[part.graph.side] = new Follower(part.graph, part.root);
        }
        this.begin();
    }

    begin() {
        this.leader = this.turn;
        this.followers.forEach(follower => follower?.begin(this.left));
    }

    isOver() {
        return this.tricks.length === this.size;
    }

    /** The tricks that a side has won. */
    wonBy(side) {
        return this.tricks.filter(({ winner }) => sideOf(winner) === side).length;
    }

    /** The cards of a seat, by suit, from the highest down. */
    handOf(seat) {
        return this.left.map(cards => cards.filter(held => held.seat === seat).map(held => held.card));
    }

    /** The cards that may be played now, the least number first. */
    legal() {
        const hand = this.handOf(this.turn);
        const led = this.trick.length > 0 ? hand[suitOf(this.trick[0])] : [];
        return [...(led.length > 0 ? led : hand.flat())].sort((one, other) => one - other);
    }

    /**
     * The card that the side whose turn it is plays by its certificate; -1 if that side follows none. A side that has
     * the tricks promised plays the lowest card of the last suit that it may play.
     */
    next() {
        const follower = this.followers[sideOf(this.turn)];
        if (follower === null) {
            return -1;
        }
        const card = follower.named(this.turn);
        const legal = this.legal();
        return card >= 0 ? card : legal.find(other => suitOf(other) === suitOf(legal.at(-1)));
    }

    /** Plays a card, which must be legal. */
    play(card) {
        if (!this.legal().includes(card)) {
            throw new RangeError(`${cardText(card)} may not be played`);
        }
        this.followers.forEach(follower => follower?.take(card, this.turn));
        this.left = this.left.map(cards => cards.filter(held => held.card !== card));
        this.trick.push(card);
        this.turn = leftOf(this.turn);
        if (this.trick.length === 4) {
            this.endTrick();
        }
    }

    endTrick() {
        const winner = (this.leader + winnerOf(this.trick, this.trump)) & 3;
        this.tricks.push({ leader: this.leader, cards: this.trick, winner });
        this.followers.forEach(follower => follower?.end(winner));
        this.trick = [];
        this.turn = winner;
        this.begin();
    }

    /** Plays by the certificates up to a turn without one, or to the end. */
    follow() {
        while (!this.isOver() && this.next() >= 0) {
            this.play(this.next());
        }
    }
}

/** The place of the winner's card in a trick: the highest trump, otherwise the highest of the suit led. */
function winnerOf(cards, trump) {
    const suit = cards.some(card => suitOf(card) === trump) ? trump : suitOf(cards[0]);
    const ranks = cards.map(card => suitOf(card) === suit ? rankOf(card) : -1);
    return ranks.indexOf(Math.max(...ranks));
}
