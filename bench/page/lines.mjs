// Compares the play by both certificates with `ddfarm line`: node bench/page/lines.mjs PROGRAM CASES. Of the cases (see
// cases.py) it takes those that are accepted.
import { execFileSync } from "node:child_process";
import { readFileSync } from "node:fs";
import { checkAnswer } from "../../page/checker.js";
import { SEATS, sideOf } from "../../page/patterns.js";
import { Play, cardText } from "../../page/play.js";
import { casesOf, numberOf } from "./cases.mjs";

/** What `line` prints of an answer that is accepted. */
function linesOf(text, number) {
    const { tricks, graphs } = checkAnswer(text, number);
    const play = new Play(number, graphs.map(graph => ({ graph, root: graph.count > 0 ? 0 : -1 })));
    play.follow();
    const lines = play.tricks.map(({ leader, cards, winner }, place) =>
        `${place + 1} ${SEATS[leader]}: ${cards.map(cardText).join(" ")} ${SEATS[winner]}`);
    const won = [sideOf(number.declarer), 1 - sideOf(number.declarer)].map(side => play.wonBy(side));
    return [`accepted ${tricks}`, ...lines, `declarer ${won[0]}, defenders ${won[1]}`, ""].join("\n");
}

let count = 0;
const [program, cases] = process.argv.slice(2);
for (const { line, words, text } of casesOf(readFileSync(cases))) {
    if (!line.startsWith("accepted")) {
        continue;
    }
    const ours = linesOf(text, numberOf(words));
    const said = execFileSync(program, ["line", ...words], { input: text }).toString();
    if (ours !== said) {
        console.log(`lines: ${words}: ddfarm prints\n${said}the page\n${ours}`);
        process.exit(1);
    }
    count += 1;
}
console.log(`lines: ${count} plays, no difference`);
process.exit(count > 0 ? 0 : 1);
