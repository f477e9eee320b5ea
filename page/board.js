// Checks the numbers of a board by its evidence, as `audit` does: a number is shown by the first section of its deal
// and denomination with a claim for its declarer that the certificates show.
import { Refusal, faultOfBeginning, faultOfSteps, partsOf } from "./checker.js";
import { NO_ROOT, isOfDeal, piecesOf, readClaims, readGraphs } from "./evidence.js";
import { FormFault, TextFault } from "./form.js";
import { SEATS, SIDES, readLayout, sideOf } from "./patterns.js";

const NO_CLAIM = "the file has no claim of it for this deal";

/** A section of a deal. Its graphs are read and checked once, when a claim needs them. */
class Section {
    constructor(claims, progress) {
        Object.assign(this, claims);
        this.graphs = readGraphs(claims);
        this.faults = [undefined, undefined];
        this.progress = progress;
    }

    /** The fault of a graph's steps, or null. */
    faultOf(side) {
        if (this.faults[side] === undefined) {
            this.faults[side] = faultOfSteps(this.graphs[side], this.progress);
        }
        return this.faults[side];
    }

    /**
     * What shows a claim: the graph and root of declarer's side and of the defenders. If it needs no tricks of a side,
     * that side's graph is not looked at. Throws a Refusal.
     */
    show(claim, number) {
        return partsOf(claim.tricks, number).map(({ name, need, side }, place) => {
            const graph = this.graphs[side];
            const root = claim.roots[place];
            const fault = faultOfBeginning(graph, root, need, side, number) ??
                (root === NO_ROOT ? null : this.faultOf(side));
            if (fault !== null) {
                throw new Refusal(`${name} ${fault}`);
            }
            return { graph, root };
        });
    }
}

/** The numbers of a board: `numbers` are to be found, each a declarer's seat, a denomination and its tricks. */
export class Board {
    constructor(deal, numbers) {
        this.deal = deal;
        this.layout = readLayout(deal);
        /** By denomination and declarer, each number that isn't shown so far, with the first reason, `why`, or null. */
        this.open = new Map(numbers.map(number => [keyOf(number), { ...number, why: null }]));
        /** How many of these have no reason. */
        this.unexplained = this.open.size;
    }

    /** The numbers that are not shown, and why. */
    others() {
        return [...this.open.values()].map(({ why, ...number }) => ({ ...number, why: why ?? NO_CLAIM }));
    }

    /**
     * Goes through the evidence. `hears.shown(number, parts)` is called for each number that is shown, `hears.progress`
     * with the nodes checked since the last call, and `hears.passed` with the bytes of each piece. A piece of another
     * deal is read only for a number without a reason: evidence may have millions of pieces.
     */
    check(bytes, hears) {
        for (const piece of piecesOf(bytes)) {
            if (this.unexplained > 0 || isOfDeal(piece, this.deal)) {
                this.checkPiece(piece, hears);
            }
            hears.passed?.(piece.length);
        }
    }

    checkPiece(piece, hears) {
        try {
            const claims = readClaims(piece);
            if (claims.deal === this.deal && this.asksFor(claims)) {
                this.checkSection(claims, hears);
            }
        } catch (fault) {
            this.note(fault, piece);
        }
    }

    asksFor({ trump, claims }) {
        return claims.some(({ declarer, tricks }) => this.open.get(keyOf({ trump, declarer }))?.tricks === tricks);
    }

    checkSection(claims, hears) {
        const section = new Section(claims, hears.progress);
        for (const claim of section.claims) {
            const number = this.open.get(keyOf({ trump: section.trump, declarer: claim.declarer }));
            if (number === undefined || number.tricks !== claim.tricks) {
                continue;
            }
            try {
                const parts = section.show(claim, { ...number, layout: this.layout });
                this.close(number);
                hears.shown(number, parts);
            } catch (fault) {
                if (!(fault instanceof Refusal)) {
                    throw fault;
                }
                this.explain(number, fault.message);
            }
        }
    }

    /** Takes a number that was shown away. */
    close(number) {
        this.explain(number, "");
        this.open.delete(keyOf(number));
    }

    /** Keeps the first reason why a number is not shown. */
    explain(number, why) {
        this.unexplained -= number.why === null ? 1 : 0;
        number.why ??= why;
    }

    /** Says of the numbers that a damaged piece may have been about why they are not shown. */
    note(fault, piece) {
        if (!(fault instanceof FormFault || fault instanceof TextFault)) {
            throw fault;
        }
        const trump = /\ntrump (NT|[SHDC])\n/.exec(String.fromCharCode(...piece.subarray(0, 200)))?.[1];
        const part = fault instanceof TextFault ? `certificate of ${SIDES[fault.side]}, ` : "";
        for (const number of this.open.values()) {
            if (trump === undefined || number.trump === trump) {
                this.explain(number, `its section is damaged: ${part}${fault.message}`);
            }
        }
    }
}

const keyOf = ({ trump, declarer }) => `${trump} ${SEATS[declarer]}`;

/** The nodes of the graphs that parts rest on. */
export const nodesOf = parts => parts.reduce((sum, { graph, root }) => sum + (root === NO_ROOT ? 0 : graph.count), 0);

/** The parts of which only one side's are followed. */
export const partOf = (parts, side) => parts.map(part => part.graph.side === side ? part : null);

/** The side of declarer, or of the defenders. */
export const followedSide = (declarer, part) => part === "declarer" ? sideOf(declarer) : 1 - sideOf(declarer);
