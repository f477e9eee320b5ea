// Checks certificates as docs/CERTIFICATES.md says under "What the checker looks at": the beginning for a layout, and
// the step of each node. It walks over the bytes of a tree, once per node, with the cards played so far.
import { CLOSE, CLOSE_LEAF, FormFault, OPEN, OPEN_LEAF, SEAT_OF, SUIT_OF, TOP_OF, TextFault, belowBranch,
    countsOf, cutAnswer, passTree, readGraph } from "./form.js";
import { NO_ROOT } from "./evidence.js";
import { LOW, SUITS, leftOf, matches, sideOf, sizeOf } from "./patterns.js";

const ROOT_FAULTS = ["", "RootMissing", "RootNeedless", "RootTrump", "RootSide", "RootLead", "RootNeed", "RootPattern"];
const STEP_FAULTS = ["", "CardNotLegal", "BranchMissing", "BranchExtra", "LeafWinners", "ChildLead", "ChildNeed",
    "ChildPattern", "TreeShape"];
const CARD_NOT_LEGAL = 1, BRANCH_MISSING = 2, BRANCH_EXTRA = 3, LEAF_WINNERS = 4, CHILD_LEAD = 5, CHILD_NEED = 6,
    CHILD_PATTERN = 7, TREE_SHAPE = 8;
const NO_FAULT = 0;
const LOW_CARD = 1 << LOW;
const ZERO = 48;
/** The nodes that are checked before progress is reported once more. */
const NODES_AT_A_TIME = 4096;

/** The fault of a certificate: PART and what follows it in the line of `check`. */
export class Refusal extends Error {}

const nameOf = (names, number) => `${number} ${names[number]}`;

/** Walks over the trees of a graph. Its fields tell of the node at hand, or of the trick that is being played. */
class Walk {
    /** A begun node is in a graph of its own; the nodes that it names are in the graph `named`. */
    constructor(graph, named = graph) {
        this.graph = graph;
        this.named = named;
        this.trump = SUITS.indexOf(graph.trump);
        this.at = 0;
        this.node = 0;
        /** By 4 times a suit and a seat: the cards that the seat may play of it, `a` in the lowest bit. */
        this.hands = new Int32Array(16);
        /** The cards of the trick. */
        this.seats = new Int8Array(4);
        this.suits = new Int8Array(4);
        this.tops = new Int8Array(4);
        /** By suit what is known after the trick: lengths by 4 times the suit and the seat, and owners. */
        this.lengths = new Int8Array(16);
        this.owners = new Int32Array(4);
        this.ownerCounts = new Int8Array(4);
    }

    /** The fault of a node's step. */
    faultOf(node) {
        this.begin(node);
        return this.place(this.graph.lead[node], 0);
    }

    begin(node) {
        this.node = node;
        this.at = this.graph.trees[node];
        for (let suit = 0; suit < 4; suit++) {
            this.deal(suit);
        }
    }

    /** The fault of a begun node, after cards of which each is a pair of suit and top. */
    faultAfter(cards) {
        this.begin(0);
        if (!cards.every(([suit, top]) => this.enters(suit, top))) {
            return TREE_SHAPE;
        }
        let seat = this.graph.lead[0];
        for (const [played, [suit, top]] of cards.entries()) {
            if ((this.legal(suit, seat, played) & 1 << top) === 0) {
                return CARD_NOT_LEGAL;
            }
            this.note(seat, suit, top, played);
            seat = leftOf(seat);
        }
        return this.place(seat, cards.length);
    }

    /** Goes on in the tree by a card, if it is the next or has a branch. */
    enters(suit, top) {
        const { bytes } = this.graph;
        const isNext = SUIT_OF[bytes[this.at]] === suit && TOP_OF[bytes[this.at + 1]] === top;
        const below = isNext ? this.at + 2 : bytes[this.at] === OPEN ? belowBranch(bytes, this.at, suit, top) : -1;
        this.at = below;
        return below >= 0;
    }

    /** Gives the seats the cards of a suit of the node. */
    deal(suit) {
        const place = 4 * this.node + suit;
        const first = 4 * suit;
        const count = this.graph.ownerCounts[place];
        for (let seat = 0; seat < 4; seat++) {
            this.hands[first + seat] = 0;
        }
        for (let top = 0, packed = this.graph.owners[place]; top < count; top++, packed >>>= 2) {
            this.hands[first + (packed & 3)] |= 1 << top;
        }
        for (let seat = 0; seat < 4; seat++) {
            if (this.graph.lengths[4 * place + seat] > countOf(this.hands[first + seat])) {
                this.hands[first + seat] |= LOW_CARD;
            }
        }
    }

    /** The cards of a suit that a seat may play as the next of so many in the trick. */
    legal(suit, seat, played) {
        const led = this.suits[0];
        return played > 0 && suit !== led && this.hands[4 * led + seat] !== 0 ? 0 : this.hands[4 * suit + seat];
    }

    /** The first fault of a place of the trick and of those after it. The walk passes over the tree, if it has none. */
    place(seat, played) {
        const byte = this.graph.bytes[this.at];
        if (played === 4) {
            return byte === OPEN_LEAF ? this.leaf() : TREE_SHAPE;
        }
        if (sideOf(seat) === this.graph.side) {
            return byte === OPEN || byte === OPEN_LEAF ? TREE_SHAPE : this.own(seat, played);
        }
        return byte === OPEN ? this.branches(seat, played) : TREE_SHAPE;
    }

    /** Plays the card that comes next. */
    play(seat, played) {
        const { bytes } = this.graph;
        this.note(seat, SUIT_OF[bytes[this.at]], TOP_OF[bytes[this.at + 1]], played);
        this.at += 2;
    }

    note(seat, suit, top, played) {
        this.seats[played] = seat;
        this.suits[played] = suit;
        this.tops[played] = top;
    }

    own(seat, played) {
        const { bytes } = this.graph;
        const card = 1 << TOP_OF[bytes[this.at + 1]];
        if ((this.legal(SUIT_OF[bytes[this.at]], seat, played) & card) === 0) {
            return CARD_NOT_LEGAL;
        }
        this.play(seat, played);
        return this.place(leftOf(seat), played + 1);
    }

    /** The faults of the branches themselves come before those of the places after them. */
    branches(seat, played) {
        const { bytes } = this.graph;
        const found = [0, 0, 0, 0];
        let later = NO_FAULT, isExtra = false;
        for (this.at += 1; bytes[this.at] !== CLOSE;) {
            const suit = SUIT_OF[bytes[this.at]];
            const card = 1 << TOP_OF[bytes[this.at + 1]];
            const begin = this.at + 2;
            found[suit] |= card;
            isExtra ||= (this.legal(suit, seat, played) & card) === 0;
            if (later === NO_FAULT && !isExtra) {
                this.play(seat, played);
                later = this.place(leftOf(seat), played + 1);
            }
            if (later !== NO_FAULT || isExtra) {
                this.at = passTree(bytes, begin);
            }
        }
        this.at += 1;
        return this.isMissing(found, seat, played) ? BRANCH_MISSING : isExtra ? BRANCH_EXTRA : later;
    }

    /** Whether a card has no branch that needs one. In version 2 only the highest of a run needs one. */
    isMissing(found, seat, played) {
        for (let suit = 0; suit < 4; suit++) {
            const legal = this.legal(suit, seat, played);
            const tops = legal & ~LOW_CARD;
            const needed = this.graph.version === 1 ? legal : legal & ~(tops << 1 & tops);
            if ((needed & ~found[suit]) !== 0) {
                return true;
            }
        }
        return false;
    }

    /** The seats that may have won the trick, one bit each. */
    winners() {
        let suit = this.suits[0], best = LOW, winners = 0;
        for (let played = 1; played < 4; played++) {
            suit = this.suits[played] === this.trump ? this.trump : suit;
        }
        for (let played = 0; played < 4; played++) {
            if (this.suits[played] === suit && this.tops[played] <= best) {
                winners = this.tops[played] === best ? winners | 1 << this.seats[played] : 1 << this.seats[played];
                best = this.tops[played];
            }
        }
        return winners;
    }

    /** The tricks still needed after a seat has won this one. */
    left(seat) {
        return this.graph.need[this.node] - (sideOf(seat) === this.graph.side ? 1 : 0);
    }

    leaf() {
        const { bytes } = this.graph;
        const begin = this.at + 1;
        const winners = this.winners();
        let unnamed = 0;
        for (let seat = 0; seat < 4; seat++) {
            unnamed |= (winners >> seat & 1) !== 0 && this.left(seat) > 0 ? 1 << seat : 0;
        }
        for (this.at = begin; bytes[this.at] !== CLOSE_LEAF; this.at++) {
            unnamed ^= SEAT_OF[bytes[this.at]] < 0 ? 0 : 1 << SEAT_OF[bytes[this.at]];
        }
        const end = this.at + 1;
        const fault = unnamed !== 0 ? LEAF_WINNERS : end === begin + 1 ? NO_FAULT : this.children(begin);
        this.at = end;
        return fault;
    }

    /** The first fault of the children that a leaf names. */
    children(begin) {
        const { bytes } = this.graph;
        this.readRest();
        for (let at = begin; bytes[at - 1] !== CLOSE_LEAF;) {
            const seat = SEAT_OF[bytes[at]];
            let child = 0;
            for (at += 1; bytes[at] >= ZERO && bytes[at] < ZERO + 10; at++) {
                child = 10 * child + bytes[at] - ZERO;
            }
            at += 1;
            const fault = this.childFault(seat, child);
            if (fault !== NO_FAULT) {
                return fault;
            }
        }
        return NO_FAULT;
    }

    childFault(seat, child) {
        if (this.named.lead[child] !== seat) {
            return CHILD_LEAD;
        }
        if (this.named.need[child] < this.left(seat)) {
            return CHILD_NEED;
        }
        for (let suit = 0; suit < 4; suit++) {
            if (!this.fits(child, suit)) {
                return CHILD_PATTERN;
            }
        }
        return NO_FAULT;
    }

    /** Whether the suit of a child has the lengths of the rest, and its owners are the first of those known. */
    fits(child, suit) {
        const place = 4 * child + suit;
        for (let seat = 0; seat < 4; seat++) {
            if (this.named.lengths[4 * place + seat] !== this.lengths[4 * suit + seat]) {
                return false;
            }
        }
        const count = this.named.ownerCounts[place];
        const same = this.owners[suit] ^ this.named.owners[place];
        return count <= this.ownerCounts[suit] && (same & (1 << 2 * count) - 1) === 0;
    }

    /** Reads what is known after the trick: the lengths, and the owners of the high cards not played. */
    readRest() {
        for (let place = 0; place < 16; place++) {
            this.lengths[place] = this.graph.lengths[16 * this.node + place];
        }
        for (let played = 0; played < 4; played++) {
            this.lengths[4 * this.suits[played] + this.seats[played]] -= 1;
        }
        for (let suit = 0; suit < 4; suit++) {
            this.readOwners(suit);
            if (this.graph.version === 2) {
                this.addLoneHolder(suit);
            }
        }
    }

    readOwners(suit) {
        const place = 4 * this.node + suit;
        let gone = 0;
        for (let played = 0; played < 4; played++) {
            gone |= this.suits[played] === suit ? 1 << this.tops[played] : 0;
        }
        let count = 0, owners = 0;
        const known = this.graph.ownerCounts[place];
        for (let top = 0, packed = this.graph.owners[place]; top < known; top++, packed >>>= 2) {
            if ((gone >> top & 1) === 0) {
                owners |= (packed & 3) << 2 * count;
                count += 1;
            }
        }
        this.owners[suit] = owners;
        this.ownerCounts[suit] = count;
    }

    /** Names the low cards of a suit after the high ones, if only one hand has some. */
    addLoneHolder(suit) {
        const counts = countsOf(this.owners[suit], this.ownerCounts[suit]);
        let holders = 0, holder = 0, low = 0;
        for (let seat = 0; seat < 4; seat++) {
            const cards = this.lengths[4 * suit + seat] - (counts >> 4 * seat & 15);
            if (cards > 0) {
                holders += 1;
                holder = seat;
                low = cards;
            }
        }
        for (let card = 0; holders === 1 && card < low; card++) {
            this.owners[suit] |= holder << 2 * this.ownerCounts[suit];
            this.ownerCounts[suit] += 1;
        }
    }
}

function countOf(bits) {
    let count = 0;
    for (let rest = bits; rest !== 0; rest &= rest - 1) {
        count += 1;
    }
    return count;
}

/**
 * Checks the step of each node. Says the first fault, as `8 Node i n Name`, or nothing. `progress`, if it is given,
 * hears the nodes checked since it was last called.
 */
export function faultOfSteps(graph, progress) {
    const walk = new Walk(graph);
    for (let node = 0; node < graph.count; node++) {
        const fault = walk.faultOf(node);
        if (fault !== NO_FAULT) {
            return `8 Node ${node} ${nameOf(STEP_FAULTS, fault)}`;
        }
        if (progress && (node + 1) % NODES_AT_A_TIME === 0) {
            progress(NODES_AT_A_TIME);
        }
    }
    return null;
}

/** The fault of a begun node beside its side's graph after cards, as `n Name`, or nothing. */
export function faultOfBegun(begun, graph, cards) {
    const { version, trump, side } = graph;
    const fault = new Walk(Object.assign(begun, { version, trump, side }), graph).faultAfter(cards);
    return fault === NO_FAULT ? null : nameOf(STEP_FAULTS, fault);
}

/**
 * The fault of a certificate's beginning, as `n Name`, or nothing: whether it shows that its side takes `need` tricks
 * of a layout, from a root, which is NO_ROOT for none.
 */
export function faultOfBeginning(graph, root, need, side, { layout, declarer, trump }) {
    const hasRoot = root !== NO_ROOT && root < graph.count;
    const faults = [need > 0 && !hasRoot, need === 0 && root !== NO_ROOT, graph.trump !== trump, graph.side !== side];
    if (need > 0 && hasRoot) {
        faults.push(graph.lead[root] !== leftOf(declarer), graph.need[root] !== need, !matches(graph, root, layout));
    }
    const first = faults.indexOf(true);
    return first < 0 ? null : nameOf(ROOT_FAULTS, first + 1);
}

/** The tricks that declarer's certificate and the defenders' have to show, and their sides. */
export function partsOf(tricks, { layout, declarer }) {
    return [
        { name: "declarer", need: tricks, side: sideOf(declarer) },
        { name: "defenders", need: sizeOf(layout) - tricks, side: 1 - sideOf(declarer) },
    ];
}

function readPart(text, name) {
    try {
        return readGraph(text);
    } catch (fault) {
        throw fault instanceof TextFault ? new Refusal(`refused ${name} 10 Text ${fault.message}`) : fault;
    }
}

/**
 * Checks an answer for a number: a layout, a declarer and a denomination. Gives the tricks and both graphs, or throws a
 * Refusal or a FormFault, whose message is the line of `check`.
 */
export function checkAnswer(bytes, number) {
    const { tricks, texts } = cutAnswer(bytes);
    const parts = partsOf(tricks, number);
    const graphs = parts.map(({ name }, place) => readPart(texts[place], name));
    if (tricks > sizeOf(number.layout)) {
        throw new Refusal("refused 9 KTooLarge");
    }
    for (const [place, { name, need, side }] of parts.entries()) {
        const root = graphs[place].count > 0 ? 0 : NO_ROOT;
        const fault = faultOfBeginning(graphs[place], root, need, side, number) ?? faultOfSteps(graphs[place]);
        if (fault !== null) {
            throw new Refusal(`refused ${name} ${fault}`);
        }
    }
    return { tricks, graphs };
}

/** The line that `check` writes. */
export function verdictOf(bytes, number) {
    try {
        return `accepted ${checkAnswer(bytes, number).tricks}`;
    } catch (fault) {
        if (fault instanceof Refusal) {
            return fault.message;
        }
        if (fault instanceof FormFault) {
            return `ddfarm: ${fault.message}`;
        }
        throw fault;
    }
}
