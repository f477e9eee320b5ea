// Looks at a folder that ddfarm-site made, in Chromium: node bench/page/look.mjs FOLDER SHEET [CASES..]. SHEET is what
// `audit --sheet` prints. The folder has to show all numbers of at least two boards. CASES are those of cases.py and
// sections.py, which are compared in the browser too. It needs Debian's chromium and poppler-utils. With
// BROWSER=firefox it looks at all but paper in firefox-esr: BROWSER=firefox node --experimental-websocket ..
import { execFileSync, spawnSync } from "node:child_process";
import { cpSync, mkdirSync, mkdtempSync, readFileSync, readdirSync, renameSync, rmSync, writeFileSync } from "node:fs";
import { tmpdir } from "node:os";
import { dirname, join } from "node:path";
import { fileURLToPath } from "node:url";
import { gunzipSync, gzipSync } from "node:zlib";
import { Page, serve } from "./chromium.mjs";
import { FirefoxPage } from "./firefox.mjs";

const [folder, sheet, ...cases] = process.argv.slice(2);
const root = join(dirname(fileURLToPath(import.meta.url)), "../..");
const room = mkdtempSync(join(tmpdir(), "look-"));
process.on("exit", () => rmSync(room, { recursive: true, force: true, maxRetries: 9 }));

const ALL = "document.querySelector('header .evidence button')";
const BUTTONS = "[...document.querySelectorAll('article .evidence button')]";
const STATUSES = "[...document.querySelectorAll('article .evidence [role=status]')].map(part => part.textContent)";
const OFFERS = "[...document.querySelectorAll('article.offers')]";
const SHOWN = `${OFFERS}.map(board => board.querySelectorAll('button.mark').length)`;
const OTHERS = SHOWN.replace("button.mark", "span.mark");
const SAID = "document.querySelector('dialog [role=status]').textContent";
const isFirefox = process.env.BROWSER === "firefox";
const browser = isFirefox ? "Firefox" : "Chromium";
let passed = 0;
process.setMaxListeners(0);

function see(what, isSo, found) {
    if (!isSo) {
        console.log(`look: ${what}: found ${JSON.stringify(found)}`);
        process.exit(1);
    }
    passed += 1;
}
const seeSame = (what, found, wanted) => see(what, JSON.stringify(found) === JSON.stringify(wanted), found);

/** Opens a copy of the folder that was changed, and leaves nothing running. */
async function withPage(change, look, at = folder, width = 1000) {
    const copy = mkdtempSync(join(room, "site-"));
    cpSync(at, copy, { recursive: true });
    change(copy);
    const server = await serve(copy);
    const page = isFirefox ? new FirefoxPage(mkdtempSync(join(room, "profile-"))) : new Page(join(room, "profile"));
    try {
        await page.open(server.url, width);
        await look(page, server.url);
        // Firefox names a font of its own, which is no request.
        see("each request is for a file of the folder",
            page.requests.every(url => url.startsWith(server.url) || url.startsWith("data:")), page.requests);
    } finally {
        await page.close();
        server.close();
    }
}

async function checkAll(page) {
    await page.value(`${ALL}.click()`);
    await page.until(`${ALL}.textContent === "Check all"`);
}

const fileOf = (copy, place) => join(copy, "evidence", `${place}.dde.gz`);
/** The places on the sheet of the boards that have evidence. */
const places = readdirSync(join(folder, "evidence")).map(name => parseInt(name)).sort((one, other) => one - other);
const twenty = places.map(() => 20);
const none = places.map(() => 0);

/** Changes bytes of a board's evidence, which is packed again. */
function changeText(copy, place, change) {
    const text = gunzipSync(readFileSync(fileOf(copy, place)));
    writeFileSync(fileOf(copy, place), gzipSync(change(text)));
}

/** A byte of the text, after a word in it, becomes another. */
function withByte(text, word, byte) {
    const at = text.indexOf(word) + word.length;
    const changed = Buffer.from(text);
    changed[at] = changed[at] === byte.charCodeAt(0) ? byte.charCodeAt(0) + 1 : byte.charCodeAt(0);
    return changed;
}

async function lookAtAll() {
    await withPage(() => {}, async page => {
        seeSame("no number is marked before a check", await page.value(SHOWN), none);
        await checkAll(page);
        seeSame("all numbers are shown", await page.value(SHOWN), twenty);
        seeSame("no number is refused", await page.value(OTHERS), none);
        seeSame("nothing is blocked or fails", page.complaints, []);
        await page.value(`${BUTTONS}[0].click()`);
        await page.until(`${BUTTONS}[0].textContent === "Check"`);
        seeSame("a second check marks the same", await page.value(SHOWN), twenty);
    });
}

/** What is wrong with the first board's file, what its status says then, and how many of its numbers are shown. */
const DAMAGES = [
    ["a byte of the packed file", copy => {
        const bytes = readFileSync(fileOf(copy, places[0]));
        bytes[bytes.length >> 1] ^= 1;
        writeFileSync(fileOf(copy, places[0]), bytes);
    }, /^the file is damaged/, 0],
    ["a missing file", copy => rmSync(fileOf(copy, places[0])), /is missing \(404\)$/, 0],
    ["a byte of a card", copy => changeText(copy, places[0], text => withByte(text, "deal N:", "2")), /^16 of 20/, 16],
    ["a byte of a node", copy => changeText(copy, places[0], text => withByte(text, "nodes ", "0")), /^16 of 20/, 16],
    ["a byte of a claim", copy => changeText(copy, places[0], text => withByte(text, "\nN ", "0")), /^19 of 20/, 19],
    ["no evidence", copy => writeFileSync(fileOf(copy, places[0]), ""), /^0 of 20/, 0],
    ["evidence that isn't packed", copy => writeFileSync(fileOf(copy, places[0]),
        gunzipSync(readFileSync(fileOf(copy, places[0])))), /^20 of 20/, 20],
    ["too much evidence", copy => writeFileSync(fileOf(copy, places[0]), gzipSync(Buffer.alloc((64 << 20) + 1))),
        /^the file is too large$/, 0],
];

/** Where the hands, the table and par of each board lie in it, and how wide a list of reasons is, beside its board. */
const BOXES = "[...document.querySelectorAll('article.offers')].map(board => [...board.querySelectorAll(" +
    "'.deal ul, table, footer p')].map(part => [board, part].map(one => one.getBoundingClientRect()))" +
    ".map(([{ left, top }, part]) => [part.left - left, part.right - left, part.top - top].map(Math.round)))";
const WIDTHS = "[...document.querySelectorAll('.reasons')].map(part => part.offsetWidth / part.parentNode.offsetWidth)";

async function lookAtDamage([name, change, status, shown]) {
    await withPage(change, async page => {
        const boxes = await page.value(BOXES);
        await checkAll(page);
        seeSame(`${name}: hands, tables and pars stay`, await page.value(BOXES), boxes);
        const widths = await page.value(WIDTHS);
        see(`${name}: reasons are as wide as their board`, widths.every(width => width > .9), widths);
        seeSame(name, await page.value(SHOWN), [shown, ...twenty.slice(1)]);
        const said = (await page.value(STATUSES))[0];
        see(`${name}: what is said`, status.test(said), said);
        const marks = await page.value(`${OFFERS}[0].querySelectorAll('span.mark').length`);
        const reasons = await page.value("document.querySelectorAll('.reasons li').length");
        see(`${name}: each number that isn't shown has a reason`, marks === reasons, [marks, reasons]);
    });
}

/** 96 KB that unpack to eleven million pieces: the page answers while they are passed, and hears little of them. */
async function lookAtPieces() {
    const pieces = gzipSync(Buffer.alloc(6 * 11000000, "DDE 1\n"));
    await withPage(copy => writeFileSync(fileOf(copy, places[0]), pieces), async page => {
        const status = `${OFFERS}[0].querySelector('[role=status]')`;
        await page.value(`changes = 0, new MutationObserver(() => { changes += 1; }).observe(${status}, ` +
            "{ childList: true })");
        await page.value(`${BUTTONS}[0].click()`);
        await page.until(`/^[0-9]+ %/.test(${STATUSES}[0])`);
        const [before, begin] = [await page.value("changes"), Date.now()];
        await new Promise(answer => setTimeout(answer, 1000));
        const said = await page.value("changes") - before;
        see("what is said of many pieces", said > 0 && said < 2 + (Date.now() - begin) / 100, said);
        const { usedSize } = await page.send("Runtime.getHeapUsage");
        see("the page's memory", usedSize < 100e6, usedSize);
        await page.value(`${BUTTONS}[0].click()`);
        seeSame("stopped among many pieces", (await page.value(STATUSES))[0], "stopped");
        await page.value(`${BUTTONS}[1].click()`);
        await page.until(`${BUTTONS}[1].textContent === "Check"`);
        seeSame("the next board after many pieces", await page.value(SHOWN), [0, 20, ...none.slice(2)]);
    });
}

async function lookAtExchange() {
    await withPage(copy => {
        renameSync(fileOf(copy, places[0]), join(copy, "other"));
        renameSync(fileOf(copy, places[1]), fileOf(copy, places[0]));
        renameSync(join(copy, "other"), fileOf(copy, places[1]));
    }, async page => {
        await checkAll(page);
        seeSame("files exchanged", await page.value(SHOWN), [0, 0, ...twenty.slice(2)]);
    });
}

/** The page is changed instead of the evidence. A check is about what stands in the page. */
async function lookAtPage() {
    await withPage(() => {}, async page => {
        await page.value(`${OFFERS}[0].querySelector('td').innerHTML = '<small>(13)</small>'`);
        // North and East exchange their hands, which makes another deal.
        await page.value(`[1, 2, 3, 4].forEach(suit => (([north, east]) =>
            [north.innerHTML, east.innerHTML] = [east.innerHTML, north.innerHTML])(
            [0, 1].map(seat => ${OFFERS}[1].querySelectorAll('.deal ul')[seat].children[suit])))`);
        await checkAll(page);
        seeSame("a number and a deal of the page changed", await page.value(SHOWN), [19, 0, ...twenty.slice(2)]);
        seeSame("the deal is another", await page.value(`${OFFERS}[1].querySelectorAll('.reasons li').length`), 20);
    });
}

async function lookAtStop() {
    await withPage(() => {}, async page => {
        await page.value(`[${ALL}, ${ALL}].forEach(press => press.click())`);
        await page.until(`${ALL}.textContent === "Check all"`);
        seeSame("stopped before a number was shown", await page.value(SHOWN), none);
        seeSame("stopped", await page.value(STATUSES), places.map(() => "stopped"));
        await checkAll(page);
        seeSame("all are shown after a stop", await page.value(SHOWN), twenty);
    });
}

const press = name =>
    "[...document.querySelectorAll('dialog button')].find(part => part.textContent === " +
    `"${name}" || part.ariaLabel === "${name}").click()`;

/** Opens the numbers of the first board: the line of play, and plays with random cards against both sides. */
async function lookAtPlay() {
    await withPage(() => {}, async page => {
        await page.value(`${BUTTONS}[0].click()`);
        await page.until(`${BUTTONS}[0].textContent === "Check" && ${STATUSES}[0].startsWith("20")`);
        for (const number of [0, 7, 13, 19]) {
            await page.value(`document.querySelectorAll('button.mark')[${number}].click()`);
            const title = await page.value("document.querySelector('dialog h2').textContent");
            const tricks = Number(/: (\d+) tricks?$/.exec(title)[1]);
            await page.until(`${SAID}.endsWith(" leads.")`);
            for (let trick = 0; trick < 13; trick++) {
                await page.value(press("Forward"));
            }
            seeSame(`${title}: the line's end`, (await page.value(SAID)).split(". ").at(-1),
                `Declarer ${tricks}, defenders ${13 - tricks}.`);
            await page.value(press("Back"));
            see(`${title}: back`, (await page.value(SAID)).startsWith("Trick 12 of 13"), await page.value(SAID));
            await tryBoth(page, title, tricks);
            await page.value(press("Close"));
        }
    });
}

async function tryBoth(page, title, tricks) {
    for (const [part, promise] of [["defenders", tricks], ["declarer", 13 - tricks]]) {
        await page.value(press(`Try as ${part}`));
        const words = new RegExp(`are promised ${promise}(, and took (\\d+))?[.]$`);
        let said = "", cards = 0;
        while (!said.startsWith("All cards are played")) {
            said = await page.until("!document.querySelector('dialog .table').inert && " +
                `/ are promised /.test(${SAID}) && ${SAID}`);
            see(`${title}: the promise`, words.test(said), said);
            cards += await page.value("(() => { const cards = [...document.querySelectorAll('dialog button.card')];" +
                " cards[Math.floor(Math.random() * cards.length)]?.click(); return cards.length > 0 ? 1 : 0; })()");
        }
        see(`${title}: the promise was kept`, Number(words.exec(said)[2]) >= promise, said);
        seeSame(`${title}: cards played by the reader`, cards, 26);
    }
}

/** By board how far par's right edge is from the board's, and its lower edge from the table's. */
const PARS = "[...document.querySelectorAll('footer table')].map(table => [table.closest('article'), table, " +
    "table.parentNode.querySelector('p')].map(part => part.getBoundingClientRect()))" +
    ".map(([board, table, par]) => [board.right - par.right, table.bottom - par.bottom].map(Math.round))";
const SMALLS = "[...document.querySelectorAll('dialog .card, dialog .close')].map(part => " +
    "part.getBoundingClientRect()).filter(part => part.width < 32 || part.height < 32).length";

/** Par stays where the sheet has it, and what is pressed is large enough. */
async function lookAtPlaces() {
    const plain = mkdtempSync(join(room, "sheet-"));
    cpSync(sheet, join(plain, "index.html"));
    for (const width of [1000, 390]) {
        let wanted = [];
        await withPage(() => {}, async page => { wanted = await page.value(PARS); }, plain, width);
        await withPage(() => {}, async page => {
            seeSame(`par before a check, ${width} pixels`, await page.value(PARS), wanted);
            await checkAll(page);
            seeSame(`par after a check, ${width} pixels`, await page.value(PARS), wanted);
            const [wide, high] = await page.value("(({ width, height }) => [width, height])(" +
                "document.querySelector('button.mark').parentNode.getBoundingClientRect())");
            see(`the place of a mark, ${width} pixels`, wide >= 24 && high >= 24, [wide, high]);
            await page.value("document.querySelector('button.mark').click()");
            await page.until(`${SAID}.endsWith(" leads.")`);
            await page.value(press("Try as defenders"));
            await page.until(`/ are promised /.test(${SAID}) && document.querySelector('dialog .card') !== null`);
            seeSame(`cards and the cross that are small, ${width} pixels`, await page.value(SMALLS), 0);
            const [box, cross] = await page.value("['dialog', 'dialog .close'].map(part => " +
                "document.querySelector(part).getBoundingClientRect().toJSON())");
            see(`the cross is in the corner, ${width} pixels`, box.right - cross.right < 20 && cross.top - box.top < 20,
                [box, cross]);
            await page.value("document.querySelector('dialog .close').click()");
            seeSame("the cross closes", await page.value("document.querySelector('dialog').open"), false);
        }, folder, width);
    }
}

const KEYS = { Tab: [9], Enter: [13, "\r"], Escape: [27] };

/** Checks, opens a number, goes a trick forward and closes it by keys alone. */
async function lookAtKeys() {
    await withPage(() => {}, async page => {
        const type = async key => {
            const [windowsVirtualKeyCode, text] = KEYS[key];
            for (const part of [{ type: "keyDown", text }, { type: "keyUp" }]) {
                await page.send("Input.dispatchKeyEvent", { key, code: key, windowsVirtualKeyCode, ...part });
            }
        };
        const focused = name => page.value(`document.activeElement.${name}`);
        await type("Tab");
        seeSame("the first button", await focused("textContent"), "Check all");
        await type("Enter");
        await page.until(`${SHOWN}.join() === "${twenty.join()}"`);
        await type("Tab");
        const label = await focused("getAttribute('aria-label')");
        see("a mark says what it is", /^North, clubs: \d+ tricks?: shown by \d+ nodes[.] How[?]$/.test(label), label);
        await type("Enter");
        await page.until(`${SAID}.endsWith(" leads.")`);
        await type("Enter");
        see("forward by a key", (await page.value(SAID)).startsWith("Trick 1 of 13"), await page.value(SAID));
        await type("Escape");
        seeSame("closed by a key", await page.value("document.querySelector('dialog').open"), false);
        seeSame("back at the mark", await focused("getAttribute('aria-label')"), label);
    });
}

/** Printed, and without scripts, the page is the sheet. */
async function lookAtPaper() {
    const plain = mkdtempSync(join(room, "sheet-"));
    cpSync(sheet, join(plain, "index.html"));
    const print = async (at, change) => {
        let text = "";
        await withPage(() => {}, async page => {
            await change(page);
            const { data } = await page.send("Page.printToPDF");
            writeFileSync(join(room, "page.pdf"), Buffer.from(data, "base64"));
            text = execFileSync("pdftotext", ["-bbox", join(room, "page.pdf"), "-"]).toString();
        }, at);
        return text.replace(/<meta.*>/g, "");
    };
    const wanted = await print(plain, () => {});
    see("words on paper", wanted.includes("<word "), wanted);
    see("printed before a check", wanted === await print(folder, () => {}), "other words or places");
    see("printed after a check", wanted === await print(folder, checkAll), "other words or places");
}

async function lookWithoutScripts() {
    const shots = [];
    const plain = mkdtempSync(join(room, "sheet-"));
    cpSync(sheet, join(plain, "index.html"));
    for (const at of [plain, folder]) {
        await withPage(() => {}, async (page, url) => {
            await page.send("Emulation.setScriptExecutionDisabled", { value: true });
            await page.send("Page.navigate", { url });
            await page.until("document.readyState === 'complete'");
            shots.push((await page.screenshot()).toString("base64"));
        }, at);
    }
    see("without scripts", shots[0] === shots[1], "another picture");
}

/** The cases in the browser, as in Node. */
async function lookAtCases(file) {
    const copy = mkdtempSync(join(room, "cases-"));
    mkdirSync(join(copy, "bench/page"), { recursive: true });
    cpSync(join(root, "page"), join(copy, "page"), { recursive: true });
    cpSync(join(root, "bench/page/cases.mjs"), join(copy, "bench/page/cases.mjs"));
    cpSync(file, join(copy, "cases"));
    writeFileSync(join(copy, "index.html"), "<!DOCTYPE html><title>cases</title>");
    await withPage(() => {}, async page => {
        const found = await page.value("Promise.all([import('/bench/page/cases.mjs')," +
            " fetch('/cases').then(answer => answer.arrayBuffer())])" +
            ".then(([{ compare }, bytes]) => compare(new Uint8Array(bytes)))");
        see("cases in the browser", found.count > 0 && found.differences.length === 0, found.differences);
        console.log(`look: ${found.count} cases in ${browser}, no difference`);
    }, copy);
}

for (const needed of isFirefox ? ["firefox-esr"] : ["chromium", "pdftotext"]) {
    if (spawnSync("which", [needed]).status !== 0) {
        console.log(`look: passed over, since ${needed} is not installed`);
        process.exit(0);
    }
}
await lookAtAll();
for (const damage of DAMAGES) {
    await lookAtDamage(damage);
}
if (!isFirefox) {
    await lookAtPieces();
}
await lookAtExchange();
await lookAtPage();
await lookAtStop();
await lookAtPlay();
if (!isFirefox) {
    await lookAtPlaces();
    await lookAtKeys();
    await lookAtPaper();
    await lookWithoutScripts();
}
for (const file of cases) {
    await lookAtCases(file);
}
console.log(`look: ${places.length} boards in ${browser}, ${passed} things seen as they have to be`);
