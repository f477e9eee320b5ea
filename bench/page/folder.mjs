// Checks the evidence of a folder that ddfarm-site made: node bench/page/folder.mjs FOLDER TABLES. TABLES are what
// `table` prints of the boards. Each number of each table has to be shown by the file of its board alone.
import { existsSync, readFileSync } from "node:fs";
import { join } from "node:path";
import { Board } from "../../page/board.js";
import { unpack } from "../../page/evidence.js";
import { SEATS } from "../../page/patterns.js";

const ROW = /^([NSEW]) +(NT|[SHDC]) +([0-9]+)$/gm;

const [folder, tables] = process.argv.slice(2);
let shown = 0;
const boards = readFileSync(tables, "latin1").split("\n\n").filter(part => part.includes("[Deal"));
for (const [place, text] of boards.entries()) {
    const file = join(folder, "evidence", `${place + 1}.dde.gz`);
    const numbers = [...text.matchAll(ROW)].map(([, seat, trump, tricks]) =>
        ({ declarer: SEATS.indexOf(seat), trump, tricks: Number(tricks) }));
    if (existsSync(file) !== numbers.length > 0) {
        console.log(`folder: board ${place + 1} has ${numbers.length} numbers, and a file: ${existsSync(file)}`);
        process.exit(1);
    }
    if (numbers.length === 0) {
        continue;
    }
    const board = new Board(/\[Deal "(.*)"\]/.exec(text)[1], numbers);
    board.check(await unpack(readFileSync(file)), {
        shown: () => { shown += 1; },
    });
    for (const { declarer, trump, tricks, why } of board.others()) {
        console.log(`folder: board ${place + 1}, ${SEATS[declarer]} ${trump} ${tricks}: ${why}`);
        process.exitCode = 1;
    }
}
if (!process.exitCode) {
    console.log(`folder: ${shown} numbers shown`);
}
