// The worker of the page: unpacks a board's evidence, checks numbers by it, and plays by what was checked. It knows
// nothing of the page and loads nothing: the page sends it bytes, and it answers with messages.
import { Board, followedSide, nodesOf, partOf } from "./board.js";
import { unpack } from "./evidence.js";
import { FormFault } from "./form.js";
import { readLayout } from "./patterns.js";
import { Play } from "./play.js";

/** Progress is reported once in so many milliseconds, however many pieces or nodes are passed. */
const PAUSE = 100;

/** The file that was loaded last, and its evidence. */
let loaded = { file: null, evidence: null };
/** The number that is played, and what shows it. */
let opened = null;

/** The evidence of a file that a question names. */
function evidenceOf(file) {
    if (loaded.file !== file) {
        throw new FormFault("the evidence of another board was loaded meanwhile");
    }
    return loaded.evidence;
}

const answers = {
    /** Takes the file of a board. */
    async load({ file, bytes }) {
        opened = null;
        loaded = { file: null, evidence: null };
        loaded = { file, evidence: await unpack(new Uint8Array(bytes)) };
        return { kind: "loaded" };
    },

    /** Checks the numbers of a deal: `shown` for each that is, as soon as it is, and at last the others. */
    check({ file, deal, numbers }, say) {
        const evidence = evidenceOf(file);
        const board = new Board(deal, numbers);
        let nodes = 0, passed = 0, last = performance.now();
        const sayHowFar = () => {
            const now = performance.now();
            if (now - last >= PAUSE) {
                last = now;
                say({ kind: "progress", nodes, share: passed / evidence.length });
            }
        };
        board.check(evidence, {
            shown: (of, parts) => say({ kind: "shown", of: plain(of), nodes: nodesOf(parts) }),
            progress: count => { nodes += count; sayHowFar(); },
            passed: count => { passed += count; sayHowFar(); },
        });
        return { kind: "checked", others: board.others() };
    },

    /** Checks one number, and keeps what shows it for `line` and `turn`. */
    open({ file, deal, of }) {
        const board = new Board(deal, [of]);
        opened = null;
        board.check(evidenceOf(file), {
            shown: (_, parts) => { opened = { ...of, layout: readLayout(deal), parts }; },
        });
        return opened === null ? { kind: "failed", why: board.others()[0].why } : { kind: "opened" };
    },

    /** The play in which both sides follow their certificates. */
    line() {
        const play = new Play(opened, opened.parts);
        play.follow();
        return { kind: "line", tricks: play.tricks };
    },

    /** The play after the reader has played these cards against the certificate of a part. */
    turn({ part, cards }) {
        const play = new Play(opened, partOf(opened.parts, followedSide(opened.declarer, part)));
        play.follow();
        for (const card of cards) {
            play.play(card);
            play.follow();
        }
        const won = [play.wonBy(0), play.wonBy(1)];
        const { tricks, trick, leader, turn } = play;
        const legal = play.isOver() ? [] : play.legal();
        return { kind: "turn", tricks, trick, leader, turn, won, isOver: play.isOver(), legal };
    },
};

const plain = ({ trump, declarer, tricks }) => ({ trump, declarer, tricks });

/** Answers one message after the other. A file of no form is answered by `failed`; anything else is a fault of ours. */
let last = Promise.resolve();
addEventListener("message", ({ data }) => {
    const say = message => postMessage({ number: data.number, ...message });
    last = last.then(async () => {
        try {
            say(await answers[data.kind](data, say));
        } catch (fault) {
            say({ kind: "failed", why: fault instanceof FormFault ? fault.message : String(fault) });
        }
    });
});
