// A reader of a folder that ddfarm-site made, in Node: the scripts of page/ with a stand-in for the document
// (document.mjs), a thread for the worker (thread.mjs), and the folder's files for the server. A test may hold back a
// file or a message, so it says what comes first.
import { existsSync, readFileSync } from "node:fs";
import { join } from "node:path";
import { Worker as Thread } from "node:worker_threads";
import { Node, documentOf } from "./document.mjs";

const SECONDS = 60;
const root = new URL("../../page/", import.meta.url);
const browser = { DecompressionStream };
let readers = 0;

/** Waits until something is so. */
export async function until(what, isSo) {
    for (const end = Date.now() + 1000 * SECONDS; !isSo();) {
        if (Date.now() > end) {
            throw new Error(`it never was so: ${what}`);
        }
        await new Promise(answer => setTimeout(answer, 2));
    }
}

/** Holds back whatever has one of the names in `held`, until it is let through. */
class Gate {
    held = new Set();
    waiting = [];

    pass(name, go) {
        this.held.has(name) ? this.waiting.push({ name, go }) : go();
    }

    open(...names) {
        names.forEach(name => this.held.delete(name));
        const passing = this.waiting.filter(({ name }) => names.includes(name));
        this.waiting = this.waiting.filter(({ name }) => !names.includes(name));
        passing.forEach(({ go }) => go());
    }
}

/** Starts the worker's script in a thread. */
export const threadOf = name =>
    new Thread(new URL("thread.mjs", import.meta.url), { workerData: new URL(name, root).href });

/** The browser's worker, and the gate of its messages. */
function workerOf(reader) {
    return class {
        constructor(name) {
            this.thread = threadOf(name);
            reader.threads.push(this.thread);
            this.isEnded = false;
        }

        addEventListener(kind, listener) {
            if (kind === "message") {
                this.thread.on(kind, data => {
                    reader.messages.push(data.kind);
                    reader.gate.pass(data.kind, () => this.isEnded || listener({ data }));
                });
            }
        }

        postMessage(message, transfer) {
            this.thread.postMessage(message, transfer);
        }

        terminate() {
            this.isEnded = true;
            this.thread.terminate();
        }
    };
}

/** A page that is open, with what a reader sees and presses. */
export class Reader {
    constructor(folder) {
        Object.assign(this, { folder, gate: new Gate(), threads: [], messages: [], files: new Map() });
    }

    /** Opens the page, after the text of index.html was changed, in a browser without some of its parts. */
    async open({ change = text => text, lacks = [] } = {}) {
        this.document = documentOf(change(readFileSync(join(this.folder, "index.html"), "utf8")));
        const fetch = this.fetch.bind(this);
        const parts = { ...browser, Node, document: this.document, Worker: workerOf(this), fetch };
        Object.entries(parts).forEach(([name, part]) => {
            Object.defineProperty(globalThis, name, { value: part, writable: true, configurable: true });
        });
        lacks.forEach(name => delete globalThis[name]);
        await import(`../../page/check.js?reader=${++readers}`);
        this.boards = this.document.querySelectorAll("article.offers").map(article => new BoardSeen(article));
        return this;
    }

    /** Answers with a file of the folder, or with bytes of `files`. */
    fetch(file, { signal }) {
        return new Promise((answer, refuse) => {
            signal?.addEventListener("abort", () => refuse(signal.reason));
            this.gate.pass(file, () => {
                const path = join(this.folder, file);
                const bytes = this.files.get(file) ?? (existsSync(path) ? readFileSync(path) : null);
                answer(new Response(bytes, { status: bytes === null ? 404 : 200 }));
            });
        });
    }

    get all() {
        return this.document.querySelector("header .evidence button");
    }

    async checkAll() {
        this.all.click();
        await until("all are checked", () => this.all.textContent === "Check all");
    }

    get dialog() {
        return this.document.querySelector("dialog");
    }

    /** What the dialog says. */
    get said() {
        return this.dialog.querySelector("[role=status]").textContent;
    }

    /** Presses a button of the dialog, by its text or its label. */
    press(name) {
        this.dialog.querySelectorAll("button").find(part =>
            part.textContent === name || part.getAttribute("aria-label") === name).click();
    }

    close() {
        return Promise.all(this.threads.map(thread => thread.terminate()));
    }
}

/** A board of the page. */
class BoardSeen {
    constructor(article) {
        this.article = article;
        this.button = article.querySelector(".evidence button");
        this.file = article.querySelector(".evidence").dataset.file;
    }

    get status() {
        return this.article.querySelector(".evidence [role=status]").textContent;
    }

    get marks() {
        return this.article.querySelectorAll("button.mark");
    }

    /** How many numbers have a ✓, how many a ✗, and how many reasons are given. */
    get counts() {
        return [this.marks.length, this.article.querySelectorAll("span.mark").length,
            this.article.querySelectorAll(".reasons li").length];
    }

    get cells() {
        return this.article.querySelectorAll("td");
    }

    async check() {
        this.button.click();
        await this.isChecked();
    }

    isChecked() {
        return until("a board is checked", () => this.button.textContent === "Check");
    }
}
