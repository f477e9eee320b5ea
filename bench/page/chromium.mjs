// Chromium without a window, by the DevTools protocol over a pipe, and the server of a folder on this machine alone.
import { spawn } from "node:child_process";

const SECONDS = 120;

/** Serves a folder by Python's plain server. */
export async function serve(folder) {
    const server = spawn("python3", ["-u", "-m", "http.server", "0", "--bind", "127.0.0.1", "-d", folder],
        { stdio: ["ignore", "pipe", "ignore"] });
    process.on("exit", () => server.kill());
    const said = await new Promise(answer => server.stdout.once("data", data => answer(data.toString())));
    return { url: `http://127.0.0.1:${/port (\d+)/.exec(said)[1]}/`, close: () => server.kill() };
}

/** A page in a browser of its own. `requests` has the address of each request, of the page and of its workers. */
export class Page {
    constructor(room) {
        this.process = spawn("chromium", ["--headless", "--no-sandbox", "--disable-gpu", "--hide-scrollbars",
            "--no-first-run", "--disable-background-networking", `--user-data-dir=${room}`, "--remote-debugging-pipe"],
        { stdio: ["ignore", "ignore", "ignore", "pipe", "pipe"] });
        process.on("exit", () => this.process.kill());
        this.requests = [];
        this.complaints = [];
        this.waiting = new Map();
        this.number = 0;
        this.rest = "";
        this.process.stdio[4].on("data", data => this.read(data.toString()));
    }

    read(text) {
        const messages = (this.rest + text).split("\0");
        this.rest = messages.pop();
        for (const message of messages.map(part => JSON.parse(part))) {
            this.waiting.get(message.id)?.(message);
            this.hear(message);
        }
    }

    hear({ method, params }) {
        if (method === "Network.requestWillBeSent") {
            this.requests.push(params.request.url);
        } else if (method === "Target.attachedToTarget") {
            // A worker waits until it is told to run, so none of its requests is missed.
            for (const name of ["Network.enable", "Runtime.enable", "Runtime.runIfWaitingForDebugger"]) {
                this.send(name, {}, params.sessionId);
            }
        } else if (method === "Log.entryAdded") {
            this.complaints.push(params.entry.text);
        } else if (method === "Runtime.exceptionThrown") {
            this.complaints.push(params.exceptionDetails.exception?.description ?? params.exceptionDetails.text);
        }
    }

    send(method, params = {}, sessionId = this.session) {
        const id = ++this.number;
        this.process.stdio[3].write(JSON.stringify({ id, method, params, sessionId }) + "\0");
        return new Promise((answer, refuse) => this.waiting.set(id, ({ result, error }) => {
            this.waiting.delete(id);
            return error ? refuse(new Error(`${method}: ${error.message}`)) : answer(result);
        }));
    }

    /** Opens an address in a new tab. */
    async open(url, width = 1000, height = 900) {
        const { targetId } = await this.send("Target.createTarget", { url: "about:blank" }, undefined);
        this.session = (await this.send("Target.attachToTarget", { targetId, flatten: true }, undefined)).sessionId;
        await this.send("Target.setAutoAttach", { autoAttach: true, waitForDebuggerOnStart: true, flatten: true });
        for (const name of ["Page.enable", "Network.enable", "Log.enable", "Runtime.enable"]) {
            await this.send(name);
        }
        await this.send("Emulation.setDeviceMetricsOverride", { width, height, deviceScaleFactor: 1, mobile: false });
        await this.send("Page.navigate", { url });
        await this.until("document.readyState === 'complete'");
    }

    /** The value of an expression in the page. */
    async value(expression) {
        const { result, exceptionDetails } = await this.send("Runtime.evaluate",
            { expression, awaitPromise: true, returnByValue: true });
        if (exceptionDetails) {
            throw new Error(`${expression}: ${exceptionDetails.exception?.description}`);
        }
        return result.value;
    }

    /** Waits until an expression is true, and gives its value. */
    async until(expression) {
        for (const end = Date.now() + 1000 * SECONDS; Date.now() < end;) {
            const value = await this.value(expression);
            if (value) {
                return value;
            }
            await new Promise(answer => setTimeout(answer, 20));
        }
        throw new Error(`it never was so: ${expression}`);
    }

    async screenshot() {
        return Buffer.from((await this.send("Page.captureScreenshot", { format: "png" })).data, "base64");
    }

    async close() {
        await this.send("Browser.close", {}, undefined).catch(() => {});
    }
}
