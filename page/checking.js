// The page's side of its worker: loads the evidence of a board, and asks questions about it.

/** The most bytes of a file of evidence. */
const MOST_BYTES = 64 << 20;
const NEEDED = "Chromium 102, Firefox 114 or Safari 16.4";

/** A file is missing or too large, or the worker says that something is wrong with it. */
export class EvidenceFault extends Error {}

/** Reads a file of the folder, and no more of it than is taken. */
async function bytesOf(file, signal) {
    const response = await fetch(file, { cache: "no-cache", credentials: "omit", redirect: "error", signal });
    if (!response.ok) {
        throw new EvidenceFault(`the file ${file} is missing (${response.status})`);
    }
    const reader = response.body.getReader();
    const parts = [];
    for (let room = MOST_BYTES; room >= 0;) {
        const { done, value } = await reader.read();
        if (done) {
            return new Blob(parts).arrayBuffer();
        }
        room -= value.length;
        parts.push(value);
    }
    await reader.cancel();
    throw new EvidenceFault(`the file ${file} is too large`);
}

export class Checking {
    constructor() {
        this.worker = null;
        /** The file that the worker has. */
        this.loaded = null;
        /** The questions without an answer, by number: who hears, who is answered, and who is refused. */
        this.asked = new Map();
        this.number = 0;
    }

    start() {
        this.worker = new Worker("worker.js", { type: "module" });
        this.worker.addEventListener("message", ({ data }) => this.hear(data));
        this.worker.addEventListener("error", () => this.end(new EvidenceFault(
            `the checker cannot be loaded. It needs ${NEEDED}`)));
    }

    /**
     * Asks the worker about a file, which is loaded first if the worker has another. `hears` is called with each
     * message before the answer. A signal ends the worker if the question is under way.
     */
    async ask(file, question, signal, hears) {
        await this.load(file, signal);
        return this.send({ file, ...question }, signal, hears);
    }

    async send(question, signal, hears, transfer = []) {
        signal.throwIfAborted();
        if (this.worker === null) {
            this.start();
        }
        const number = ++this.number;
        const stop = () => this.end();
        signal.addEventListener("abort", stop);
        try {
            return await new Promise((answer, refuse) => {
                this.asked.set(number, { hears, answer, refuse });
                this.worker.postMessage({ number, ...question }, transfer);
            });
        } finally {
            signal.removeEventListener("abort", stop);
        }
    }

    hear(message) {
        const { hears, answer, refuse } = this.asked.get(message.number);
        if (message.kind === "shown" || message.kind === "progress") {
            hears?.(message);
            return;
        }
        this.asked.delete(message.number);
        if (message.kind === "failed") {
            refuse(new EvidenceFault(message.why));
        } else {
            answer(message);
        }
    }

    /** Has the worker load a file, if that isn't the one it has. */
    async load(file, signal) {
        if (typeof Worker === "undefined" || typeof DecompressionStream === "undefined") {
            throw new EvidenceFault(`this browser is too old: a check needs ${NEEDED}`);
        }
        if (this.loaded === file) {
            return;
        }
        this.loaded = null;
        let bytes;
        try {
            bytes = await bytesOf(file, signal);
        } catch (fault) {
            throw fault instanceof EvidenceFault || signal.aborted ? fault :
                new EvidenceFault(`the file ${file} cannot be loaded`);
        }
        await this.send({ kind: "load", file, bytes }, signal, undefined, [bytes]);
        this.loaded = file;
    }

    /** Ends the worker, whatever it does, and refuses all questions. The next question has a new worker. */
    end(fault = new DOMException("ended", "AbortError")) {
        this.worker?.terminate();
        this.worker = null;
        this.loaded = null;
        this.asked.forEach(({ refuse }) => refuse(fault));
        this.asked.clear();
    }
}
