// Compares play against certificates with `ddfarm play`: node bench/page/plays.mjs PROGRAM CASES. Of the cases (see
// cases.py) it takes those that are accepted. A reader plays random cards, once against each side.
import { execFileSync } from "node:child_process";
import { mkdtempSync, readFileSync, rmSync, writeFileSync } from "node:fs";
import { tmpdir } from "node:os";
import { join } from "node:path";
import { followedSide, partOf } from "../../page/board.js";
import { checkAnswer, partsOf } from "../../page/checker.js";
import { RANKS, SEATS, SIDES } from "../../page/patterns.js";
import { Play, cardText, rankOf } from "../../page/play.js";
import { casesOf, numberOf } from "./cases.mjs";

const handText = (play, seat) => `${SEATS[seat]}: ${play.handOf(seat).map(suit =>
    suit.map(card => RANKS[rankOf(card)]).join("")).join(".")}`;

/** What `play` prints before a card is typed. */
function turnLines(play) {
    const trick = [`${play.tricks.length + 1} ${SEATS[play.leader]}:`, ...play.trick.map(cardText)].join(" ");
    return [0, 1, 2, 3].map(seat => handText(play, seat)).concat(trick, scoreOf(play), `${SEATS[play.turn]} to play`);
}

const scoreOf = play => `NS ${play.wonBy(0)}, EW ${play.wonBy(1)}`;

/** A random play: the lines that `play` has to print, and those to be typed. */
function randomPlay(number, shown, promise) {
    const play = new Play(number, shown);
    const lines = [promise], typed = [], played = [];
    while (!play.isOver()) {
        const own = play.next();
        if (own < 0) {
            lines.push(...turnLines(play));
        }
        const legal = play.legal();
        const card = own >= 0 ? own : legal[Math.floor(Math.random() * legal.length)];
        if (own < 0) {
            typed.push(cardText(card));
        }
        lines.push(`${SEATS[play.turn]} ${cardText(card)}`);
        played.push(cardText(card));
        play.play(card);
    }
    return { lines: [...lines, `played ${played.join(" ")}`, scoreOf(play), promise, ""].join("\n"), typed, play };
}

let count = 0;
const [program, cases] = process.argv.slice(2);
const room = mkdtempSync(join(tmpdir(), "plays-"));
const answer = join(room, "answer.txt");
process.on("exit", () => rmSync(room, { recursive: true }));
for (const { line, words, text } of casesOf(readFileSync(cases))) {
    if (!line.startsWith("accepted")) {
        continue;
    }
    const number = numberOf(words);
    const { tricks, graphs } = checkAnswer(text, number);
    const parts = graphs.map(graph => ({ graph, root: graph.count > 0 ? 0 : -1 }));
    writeFileSync(answer, text);
    for (const [place, { name, need }] of partsOf(tricks, number).entries()) {
        const side = followedSide(number.declarer, name);
        const { lines, typed, play } =
            randomPlay(number, partOf(parts, side), `${SIDES[side]} promised ${need}`);
        const said = execFileSync(program, ["play", ...words, answer, "--side", ["declarer", "defenders"][place]],
            { input: typed.join("\n") + "\n" }).toString();
        if (lines !== said || play.wonBy(side) < need) {
            console.log(`plays: ${words}: ${name}: ddfarm prints\n${said}the page\n${lines}`);
            process.exit(1);
        }
        count += 1;
    }
}
console.log(`plays: ${count} random plays against certificates, no difference`);
process.exit(count > 0 ? 0 : 1);
