// The dialog in which a number's play is shown: "How", both sides by their certificates, and "Try", the reader against
// one of them.
import { readLayout, sideOf, sizeOf } from "./patterns.js";
import { rankOf, suitOf } from "./play.js";
import { SEAT_NAMES, SUIT_NAMES, SUIT_SIGNS, button, element, isRed, nameOf } from "./sheet.js";

const RANK_TEXTS = ["2", "3", "4", "5", "6", "7", "8", "9", "10", "J", "Q", "K", "A"];
const SIDE_NAMES = ["North and South", "East and West"];
const PLACES = ["north", "east", "south", "west"];

const cardName = card => `${RANK_TEXTS[rankOf(card)]} of ${SUIT_NAMES[suitOf(card)]}`;

function sign(suit) {
    const made = element("b", isRed(suit) ? "red" : "", SUIT_SIGNS[suit]);
    made.setAttribute("aria-label", SUIT_NAMES[suit]);
    made.setAttribute("role", "img");
    return made;
}

export class Diagram {
    constructor() {
        this.dialog = element("dialog", "diagram");
        this.dialog.setAttribute("aria-labelledby", "diagram-title");
        /** Ends the questions of the number that is open. */
        this.ends = new AbortController();
        this.dialog.addEventListener("close", () => this.dialog.open || this.ends.abort());
        document.body.append(this.dialog);
    }

    /** Opens with a number. `prepare` loads and checks its evidence, and gives what asks the worker. */
    async open(board, number, deal, prepare) {
        this.ends.abort();
        this.ends = new AbortController();
        const { signal } = this.ends;
        this.number = number;
        this.layout = readLayout(deal);
        this.build(board);
        this.show(this.layoutCards(new Set()), [], 0);
        this.status.textContent = "loading";
        this.dialog.showModal();
        await this.guarded(async () => {
            const ask = await prepare(signal);
            signal.throwIfAborted();
            this.ask = ask;
            this.choices.hidden = false;
            await this.how();
        });
    }

    /** Makes the parts of the dialog anew. What the reader may choose is hidden until the evidence is checked. */
    build(board) {
        // The name has an element of its own: whatever it is, the number after it is read as it stands.
        const title = element("h2", "", "Board ", element("bdi", "", board), `. ${nameOf(this.number)}`);
        title.id = "diagram-title";
        this.table = element("div", "table");
        this.status = element("p", "say");
        this.status.setAttribute("role", "status");
        this.moves = element("p", "moves");
        this.choices = element("p", "choices", button("How", () => this.how()),
            button("Try as defenders", () => this.try("declarer")),
            button("Try as declarer", () => this.try("defenders")));
        this.choices.hidden = true;
        const close = button("×", () => this.dialog.close(), "close");
        close.setAttribute("aria-label", "Close");
        this.dialog.replaceChildren(close, title, this.table, this.status, this.moves, this.choices);
    }

    /** Says what goes wrong in the dialog itself. */
    async guarded(step) {
        const { status } = this;
        try {
            await step();
        } catch (fault) {
            status.textContent = fault.message;
        }
    }

    /** The cards of the four hands by suit, without those played. */
    layoutCards(played) {
        return [0, 1, 2, 3].map(seat => this.layout.map(({ ranks, owners }, suit) =>
            ranks.map(rank => 13 * suit + rank).filter((card, place) => owners[place] === seat && !played.has(card))));
    }

    /** The tricks that each part has won, in words. */
    score(tricks) {
        const won = tricks.filter(({ winner }) => sideOf(winner) === sideOf(this.number.declarer)).length;
        return `Declarer ${won}, defenders ${tricks.length - won}.`;
    }

    /** Shows hands, a trick of pairs of seat and card, and cards that may be pressed. */
    show(hands, trick, leader, legal = [], press = () => {}) {
        const parts = hands.map((hand, seat) => element("div", `hand ${PLACES[seat]}`,
            element("h3", "", SEAT_NAMES[seat]),
            ...hand.map((cards, suit) => element("p", "", sign(suit), " ", ...this.cardParts(cards, legal, press)))));
        const played = trick.map((card, turn) => element("span", PLACES[(leader + turn) & 3],
            sign(suitOf(card)), RANK_TEXTS[rankOf(card)]));
        this.table.replaceChildren(...parts, element("div", "trick", ...played));
    }

    cardParts(cards, legal, press) {
        if (cards.length === 0) {
            return ["–"];
        }
        return cards.flatMap(card => {
            if (!legal.includes(card)) {
                return [RANK_TEXTS[rankOf(card)], " "];
            }
            const made = button(RANK_TEXTS[rankOf(card)], () => press(card), "card");
            made.setAttribute("aria-label", cardName(card));
            return [made, " "];
        });
    }

    /** Both sides follow their certificates: trick by trick, forward and back. */
    async how() {
        await this.guarded(async () => {
            const { tricks } = await this.ask({ kind: "line" });
            const back = button("Back", () => this.step(tricks, this.at - 1));
            const forward = button("Forward", () => this.step(tricks, this.at + 1));
            this.moves.replaceChildren(back, forward);
            this.step(tricks, 0);
            forward.focus();
        });
    }

    /** Shows the play after so many tricks. */
    step(tricks, at) {
        this.at = Math.max(0, Math.min(at, tricks.length));
        const over = tricks.slice(0, this.at);
        const last = over.at(-1);
        this.show(this.layoutCards(new Set(over.flatMap(({ cards }) => cards))), last?.cards ?? [], last?.leader ?? 0);
        this.status.textContent = last === undefined ? `${SEAT_NAMES[tricks[0].leader]} leads.` :
            `Trick ${this.at} of ${tricks.length}: ${SEAT_NAMES[last.leader]} led the ${cardName(last.cards[0])}. ` +
            `${SEAT_NAMES[last.winner]} won. ${this.score(over)}`;
    }

    /** The reader plays the other side's cards against the certificate of a part. */
    async try(part) {
        const cards = [];
        this.moves.replaceChildren(button("Undo", () => {
            cards.pop();
            this.turn(part, cards);
        }));
        await this.turn(part, cards);
    }

    async turn(part, cards) {
        this.table.inert = true;
        await this.guarded(async () => {
            const play = await this.ask({ kind: "turn", part, cards });
            const played = new Set([...play.tricks.flatMap(trick => trick.cards), ...play.trick]);
            const last = play.trick.length > 0 ? play : play.tricks.at(-1);
            const trick = play.trick.length > 0 ? play.trick : last?.cards ?? [];
            this.show(this.layoutCards(played), trick, last?.leader ?? 0, play.legal, card => {
                cards.push(card);
                this.turn(part, cards);
            });
            this.table.inert = false;
            this.status.textContent = this.turnText(part, play);
            (this.table.querySelector("button") ?? this.moves.querySelector("button")).focus();
        });
    }

    /** What was promised, and whose turn it is, or what came of it. */
    turnText(part, play) {
        const { declarer, tricks } = this.number;
        const side = part === "declarer" ? sideOf(declarer) : 1 - sideOf(declarer);
        const promise = part === "declarer" ? tricks : sizeOf(this.layout) - tricks;
        const promised = `${SIDE_NAMES[side]}, who play by the certificate, are promised ${promise}`;
        const last = play.tricks.at(-1);
        const isBegun = play.trick.length > 0 || last === undefined;
        const before = isBegun ? "" : `${SEAT_NAMES[last.winner]} won the trick. `;
        return play.isOver ? `All cards are played. ${promised}, and took ${play.won[side]}.` :
            `${before}${SEAT_NAMES[play.turn]} to play. ${this.score(play.tricks)} ${promised}.`;
    }
}
