// Reads a folder that ddfarm-site made, in Node: node bench/page/reads.mjs FOLDER [NAME..]. The folder has to show all
// numbers of at least two deals. The page is changed, its files and messages come late, and its buttons are pressed.
// NAMEs choose some of the functions in `reads`.
import { readFileSync } from "node:fs";
import { join } from "node:path";
import { gunzipSync, gzipSync } from "node:zlib";
import { Reader, threadOf, until } from "./reader.mjs";

/** What is said of a board of which so many numbers are proved. */
const proved = shown => `${shown} of 20 numbers proved here, on your device.` +
    `${shown > 0 ? " Press a ✓ to see the play." : ""} Par is not checked here.`;
const CELL = /<td>([0-9]*)<small>((?:\([0-9]+\))?)<\/small>/;
const [folder, ...names] = process.argv.slice(2);
let passed = 0, failed = 0;

function seeSame(what, found, wanted) {
    if (JSON.stringify(found) === JSON.stringify(wanted)) {
        passed += 1;
        return;
    }
    console.log(`reads: ${what}: found ${JSON.stringify(found)}, not ${JSON.stringify(wanted)}`);
    failed += 1;
}

/** Opens the folder, and leaves nothing running. */
async function withReader(read, how = {}) {
    const reader = new Reader(folder);
    try {
        await reader.open(how);
        await read(reader, ...reader.boards);
    } finally {
        await reader.close();
    }
}

async function readAll() {
    await withReader(async reader => {
        seeSame("no number is marked before a check", reader.boards.map(board => board.counts),
            reader.boards.map(() => [0, 0, 0]));
        await reader.checkAll();
        seeSame("all numbers are proved", reader.boards.map(board => board.counts),
            reader.boards.map(() => [20, 0, 0]));
        seeSame("what is said", reader.boards.map(board => board.status), reader.boards.map(() => proved(20)));
        const [board] = reader.boards;
        await board.check();
        seeSame("a second check marks the same", board.counts, [20, 0, 0]);
    });
}

/** Changes of the first table or deal, which a reader would see otherwise than as a sheet has it. */
const FORMS = [
    ["table", CELL, "<td><b>5</b><small hidden>(9)</small>"],
    ["table", CELL, "<td>3<b>9</b><small></small>"],
    ["table", CELL, "<td><b>5</b>$1<small>$2</small>"],
    ["table", CELL, "<td><b>5</b>3<small></small>"],
    ["table", CELL, "<td>$1<small hidden>$2</small>"],
    ["table", CELL, "<td hidden>$1<small>$2</small>"],
    ["table", CELL, "<td>$1<small><b>$2</b></small>"],
    ["table", CELL, "<td>$1<small>$2</small>9"],
    ["table", CELL, "<td>1<small>$2$1</small>"],
    ["table", CELL, "<td><small>5</small>"],
    ["table", CELL, "<td><small>(5</small>"],
    ["table", CELL, "<td>(5)<small></small>"],
    ["table", CELL, "<td>0<small></small>"],
    ["table", CELL, "<td>8<small></small>"],
    ["table", CELL, "<td>$1<small>$2</small><span class=\"mark\">9</span>"],
    ["table", /<th scope="col">&clubs;/, "<th scope=\"col\" hidden>&clubs;"],
    ["table", /<th scope="row">N/, "<th scope=\"row\" class=\"read\">N"],
    ["table", /<th scope="row">N/, "<th scope=\"row\">E"],
    ["table", /(<th scope="col">)&clubs;(.*\n.*)&diams;/, "$1&diams;$2&clubs;"],
    ["table", /<table>/, "<table>9"],
    ["table", /<table>\n<tr>/, "<table>\n<tr hidden>"],
    ["table", /<table>/, "<table></table><table>"],
    ["deal", /<\/b>(?=.*<\/li>)/, "</b><i hidden>10843</i>"],
    ["deal", /(<b>&spades;<\/b>[^<]*)/, "$1<i>10</i>"],
    ["deal", /<b>&spades;/, "<b hidden>&spades;"],
    ["deal", /(<span[^>]*>)N(<\/span>[^]*?)S(?=<\/span>)/, "$1S$2N"],
    ["deal", /(<span[^>]*)(>N<\/span>)/, "$1 hidden$2"],
    ["deal", /<ul>/, "<ul hidden>"],
    ["deal", /<li class="seat">N/, "<li class=\"seat\">E"],
    ["deal", /<ul>/, "<ul>♠AKQ"],
    ["deal", /(<ul>[^]*?<\/ul>)/, "<div>$1</div>"],
    ["deal", /<li class="points">/, "<li class=\"points\">♠"],
];

async function readForms() {
    for (const [part, old, form] of FORMS) {
        const change = text => {
            const at = text.indexOf("<article>");
            const changed = text.slice(0, at) + text.slice(at).replace(old, form);
            return changed === text ? "" : changed;
        };
        await withReader(async (reader, board, other) => {
            await board.check();
            // A foreign mark is taken away before the check.
            const isMark = form.includes("mark");
            seeSame(`${form}: marks`, board.counts, isMark ? [20, 0, 0] : [0, 0, 0]);
            seeSame(`${form}: what is said`, board.status,
                isMark ? proved(20) : `the ${part} on the page has another form`);
            if (part === "deal") {
                await other.check();
                seeSame(`${form}: the next board`, other.counts, [20, 0, 0]);
            }
        }, { change });
    }
}

/** The page says a number that the evidence does not. */
async function readNumber() {
    const change = text => text.replace(CELL, (cell, level, tricks) =>
        cell.replace(level + "<small>" + tricks, level === "" ? `<small>(${Number(tricks.slice(1, -1)) + 1})` :
            `${Number(level) % 7 + 1}<small>`));
    await withReader(async (reader, board) => {
        await board.check();
        seeSame("another number in the page", board.counts, [19, 1, 1]);
        seeSame("its mark", board.cells.map(cell => cell.querySelector(".mark").textContent).join(""),
            "✗" + "✓".repeat(19));
    }, { change });
}

/** The numbers or the deal change after the worker was asked, and before it says what is shown. */
async function readMeanwhile() {
    const answers = ["shown", "checked"];
    const changes = [["a number", changeNumber, [19, 0, 0]], ["the deal", changeDeal, [0, 0, 0]]];
    for (const [what, change, counts] of changes) {
        await withReader(async (reader, board) => {
            answers.forEach(kind => reader.gate.held.add(kind));
            board.button.click();
            await until("the worker has answered", () => reader.messages.includes("checked"));
            change(board);
            reader.gate.open(...answers);
            await board.isChecked();
            seeSame(`${what} changes meanwhile`, [board.counts, board.status], [counts, proved(counts[0])]);
        });
    }
}

function changeNumber({ cells: [cell] }) {
    cell.innerHTML = `<small>(${(tricksIn(cell) + 1) % 14})</small>`;
}

/** North and East exchange their hands. */
function changeDeal({ article }) {
    const [north, east] = article.querySelectorAll(".deal ul");
    for (let line = 1; line < 5; line++) {
        const [one, other] = [north, east].map(hand => hand.children[line].childNodes[1]);
        [one.data, other.data] = [other.data, one.data];
    }
}

/** The tricks that a cell names. */
function tricksIn(cell) {
    const [first] = cell.childNodes;
    return first.nodeType === 3 ? Number(first.data) + 6 : Number(first.textContent.slice(1, -1));
}

/** The most bytes of a file, packed or not. */
const MOST = 64 << 20;

/** Evidence that shows less, or can't be read: what is said, and how many numbers are proved. */
async function readEvidence() {
    const [first, second] = [1, 2].map(place => readFileSync(join(folder, "evidence", `${place}.dde.gz`)));
    const text = gunzipSync(first);
    const node = text.indexOf("\nnodes ") + 7;
    const cases = [
        ["the evidence of another board", second, [0, 20, 20], proved(0)],
        ["a false node", gzipSync(Buffer.concat([text.subarray(0, node), Buffer.from("0"), text.subarray(node)])),
            [16, 4, 4], proved(16)],
        ["evidence twice", gzipSync(Buffer.concat([text, text])), [20, 0, 0], proved(20)],
        ["no gzip", Buffer.from([0x1f, 0x8b, 8, 8]), [0, 0, 0], "the file is damaged: it cannot be unpacked"],
        ["too much evidence", gzipSync(Buffer.alloc(MOST + 1)), [0, 0, 0], "the file is too large"],
        ["too large a file", Buffer.alloc(MOST + 1), [0, 0, 0], "the file evidence/1.dde.gz is too large"],
    ];
    for (const [what, bytes, counts, status] of cases) {
        await withReader(async (reader, board) => {
            reader.files.set(board.file, bytes);
            for (const turn of ["first", "second"]) {
                await board.check();
                seeSame(`${what}, ${turn} check`, [board.counts, board.status], [counts, status]);
            }
        });
    }
}

/** A file that isn't there is named, and the next board is checked. */
async function readMissing() {
    const change = text => text.replace("evidence/1.dde.gz", "evidence/9.dde.gz");
    await withReader(async (reader, board, other) => {
        await reader.checkAll();
        seeSame("a missing file", [board.counts, board.status],
            [[0, 0, 0], "the file evidence/9.dde.gz is missing (404)"]);
        seeSame("the board after it", other.counts, [20, 0, 0]);
    }, { change });
}

/** A million pieces are passed in a second, by few messages. A piece of another deal is read while it may matter. */
async function readPieces() {
    await withReader(async (reader, board) => {
        const evidence = gunzipSync(readFileSync(join(folder, board.file)));
        reader.files.set(board.file, gzipSync(Buffer.concat([Buffer.alloc(6 * 1500000, "DDE 1\n"), evidence])));
        const begin = Date.now(), before = process.cpuUsage();
        await board.check();
        const seconds = (Date.now() - begin) / 1000, { user } = process.cpuUsage(before);
        seeSame("evidence after many pieces", board.counts, [20, 0, 0]);
        const said = reader.messages.filter(kind => kind === "progress").length;
        seeSame(`${said} messages of progress`, said > 0 && said <= 1 + 10 * seconds, true);
        seeSame(`${user / 1e6} seconds of a processor`, user < 8e6, true);
        const head = evidence.subarray(0, evidence.indexOf("trump"));
        reader.files.set(board.file, gzipSync(Buffer.concat([Buffer.from("DDE 1\n"), head])));
        await board.check();
        const reasons = board.article.querySelectorAll(".reasons li").map(line => line.textContent.split(": ").at(-1));
        seeSame("the first reason", reasons, Array(20).fill("line 2 is no deal"));
    });
}

/** The worker answers a question about the file alone that it has. */
async function readNames() {
    const thread = threadOf("worker.js");
    const ask = question => new Promise(answer => {
        thread.once("message", answer);
        thread.postMessage(question);
    });
    const bytes = new Uint8Array(readFileSync(join(folder, "evidence/1.dde.gz")));
    const loaded = await ask({ number: 1, kind: "load", file: "1", bytes });
    const found = await ask({ number: 2, kind: "check", file: "2", deal: "", numbers: [] });
    seeSame("the kinds of answers", [loaded.kind, found.kind], ["loaded", "failed"]);
    const [, deal] = /\ndeal (.*)\n/.exec(gunzipSync(readFileSync(join(folder, "evidence/1.dde.gz"))));
    const of = { declarer: 0, trump: "NT", tricks: 14 };
    const { kind, why } = await ask({ number: 3, kind: "open", file: "1", deal, of });
    seeSame("a number that is not shown", [kind, why], ["failed", "the file has no claim of it for this deal"]);
    await thread.terminate();
}

const loads = reader => reader.messages.filter(kind => kind === "loaded").length;

/** A number is opened and closed while its evidence comes, and another board is checked: each has its own evidence. */
async function readCrossing() {
    for (const isEarlier of [true, false]) {
        await withReader(async (reader, board, other) => {
            await board.check();
            await other.check();
            reader.gate.held.add(board.file).add("loaded");
            board.marks[0].click();
            if (isEarlier) {
                reader.gate.open(board.file);
                await until("the evidence is loaded", () => loads(reader) === 3);
            }
            reader.press("Close");
            await new Promise(answer => setTimeout(answer, 5));
            other.button.click();
            await until("the other file is loaded", () => loads(reader) === (isEarlier ? 4 : 3));
            reader.gate.open(board.file);
            await new Promise(answer => setTimeout(answer, 50));
            reader.gate.open("loaded");
            await other.isChecked();
            seeSame("a check after a closed dialog", other.counts, [20, 0, 0]);
            seeSame("what the closed dialog says", reader.said === "loading" || /abort|ended/.test(reader.said), true);
        });
    }
}

/** A check is stopped while its answer is under way, and then a number is opened that it had shown. */
async function readStop() {
    await withReader(async (reader, board, other) => {
        reader.gate.held.add("checked");
        board.button.click();
        await until("all but the answer is there", () => board.marks.length === 20);
        board.button.click();
        seeSame("stopped", board.status, "stopped");
        reader.gate.open("checked");
        await new Promise(answer => setTimeout(answer, 50));
        seeSame("it stays stopped", [board.status, board.button.textContent], ["stopped", "Check"]);
        board.marks[0].click();
        await until("the play is shown", () => reader.said !== "loading");
        seeSame("a number opens after a stop", reader.said.endsWith(" leads."), true);
        reader.press("Close");
        reader.gate.held.add(other.file);
        other.button.click();
        other.button.click();
        reader.gate.open(other.file);
        await other.isChecked();
        await new Promise(answer => setTimeout(answer, 50));
        seeSame("stopped while its file came", [other.counts, other.status], [[0, 0, 0], "stopped"]);
        await reader.checkAll();
        seeSame("all are proved after a stop", reader.boards.map(part => part.counts[0]), reader.boards.map(() => 20));
    });
}

/** Opens numbers of a board whose name would turn the title round: the line of play, and plays with random cards. */
async function readPlay() {
    const change = text => text.replace(/(<article>\n<h2>)[^<]*/, "$1\u202e1");
    await withReader(async (reader, board) => {
        await board.check();
        for (const number of [0, 1, 7, 13, 19]) {
            board.marks[number].click();
            const title = reader.dialog.querySelector("h2");
            seeSame("the name is by itself", title.querySelector("bdi").textContent, "\u202e1");
            const tricks = Number(/: (\d+) tricks?$/.exec(title.textContent)[1]);
            seeSame("the tricks are the page's", tricks, tricksIn(board.cells[number]));
            seeSame("the title", title.textContent.replace(/:.*/, ""),
                `Board \u202e1. ${ROWS[Math.floor(number / 5)]}, ${COLUMNS[number % 5]}`);
            await until("the play is shown", () => reader.said.endsWith(" leads."));
            seeSame("the hands are the page's", handsIn(reader.dialog), handsOn(board));
            readLine(reader, board);
            seeSame("the line's end", reader.said.split(". ").at(-1), `Declarer ${tricks}, defenders ${13 - tricks}.`);
            await readTries(reader, tricks, Math.floor(number / 10));
            reader.press("Close");
        }
    }, { change });
}

async function readUndo(reader, table) {
    const isTurn = () => !table.inert && / are promised /.test(reader.said);
    await until("the first turn is shown", isTurn);
    const [said, hands] = [reader.said, handsIn(reader.dialog)];
    table.querySelector("button.card").click();
    await until("the next turn is shown", () => isTurn() && reader.said !== said);
    reader.press("Undo");
    await until("the turn is shown again", () => isTurn() && reader.said === said);
    seeSame("a card is taken back", handsIn(reader.dialog), hands);
}

const PLACES = ["north", "east", "south", "west"];
const ROWS = ["North", "South", "East", "West"];
const COLUMNS = ["clubs", "diamonds", "hearts", "spades", "no-trump"];
const SIDES = ["North and South", "East and West"];
const cardsIn = line => line.match(/10|[2-9AKQJ]/g) ?? [];

/** The cards of the four hands, as the sheet has them, and as the dialog has them: each a sign and a rank. */
const handsOn = ({ article }) => article.querySelectorAll(".deal ul").map(hand => hand.children.slice(1, 5)
    .flatMap(({ childNodes: [sign, cards] }) => cardsIn(cards.data).map(rank => sign.textContent + rank)));
const handsIn = dialog => PLACES.map(place => dialog.querySelectorAll(`.hand.${place} p`)
    .flatMap(line => cardsIn(line.textContent.slice(1)).map(rank => line.textContent[0] + rank)));

/** Goes through the line of play: each trick's cards lie before the hands that held them, and its winner leads next. */
function readLine(reader, board) {
    let hands = handsOn(board), [, next] = /^(\w+) leads[.]$/.exec(reader.said);
    for (let trick = 0; trick < 13; trick++) {
        reader.press("Forward");
        const cards = PLACES.map(place => reader.dialog.querySelector(`.trick .${place}`).textContent);
        hands = hands.map((hand, seat) => hand.filter(card => card !== cards[seat]));
        seeSame("the hands after a trick", handsIn(reader.dialog), hands);
        seeSame("the cards that are left", hands.flat().length, 48 - 4 * trick);
        const [, leader, winner] = /: (\w+) led .*?[.] (\w+) won/.exec(reader.said);
        seeSame("who leads", leader, next);
        next = winner;
    }
}

/** Plays against the certificate of each side; declarer's is the given one. A card that is taken back can be played. */
async function readTries(reader, tricks, side) {
    for (const [part, promise] of [["defenders", tricks], ["declarer", 13 - tricks]]) {
        reader.press(`Try as ${part}`);
        const table = reader.dialog.querySelector(".table");
        await readUndo(reader, table);
        seeSame("whose certificate it is", reader.said.includes(
            `${SIDES[part === "defenders" ? side : 1 - side]}, who play by the certificate`), true);
        let cards = 0;
        for (let isOver = false; !isOver;) {
            await until("a turn is shown", () => !table.inert && / are promised /.test(reader.said));
            const legal = table.querySelectorAll("button.card");
            isOver = legal.length === 0;
            const [, turn] = /(\w+) to play/.exec(reader.said) ?? [];
            seeSame("the cards to press are of whose turn it is", isOver || legal.length ===
                table.querySelectorAll(`.hand.${turn.toLowerCase()} button.card`).length, true);
            cards += isOver ? 0 : 1;
            legal[Math.floor(Math.random() * legal.length)]?.click();
        }
        const [, promised, took] = /are promised (\d+), and took (\d+)[.]$/.exec(reader.said).map(Number);
        seeSame(`the promise of ${promise}`, [promised, took >= promise, cards], [promise, true, 26]);
    }
}

async function readOld() {
    for (const part of ["DecompressionStream", "Worker"]) {
        await withReader(async (reader, board) => {
            await board.check();
            seeSame(`a browser without ${part}`, [board.counts, board.status], [[0, 0, 0],
                "this browser is too old: a check needs Chromium 102, Firefox 114 or Safari 16.4"]);
        }, { lacks: [part] });
    }
}

const reads = [readAll, readForms, readNumber, readMeanwhile, readEvidence, readMissing, readPieces, readNames,
    readCrossing, readStop, readPlay, readOld];
for (const read of reads.filter(({ name }) => names.length === 0 || names.includes(name))) {
    try {
        await read();
    } catch (fault) {
        seeSame(read.name, fault.message, "no fault");
    }
}
console.log(`reads: ${passed} things seen as they have to be, ${failed} otherwise`);
process.exit(failed > 0 || passed === 0 ? 1 : 0);
