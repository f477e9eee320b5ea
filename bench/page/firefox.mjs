// Firefox without a window, by WebDriver BiDi. Node 20 needs --experimental-websocket for it.
import { spawn } from "node:child_process";

const SECONDS = 120;

/** A page in a browser of its own, as `Page` of chromium.mjs is. */
export class FirefoxPage {
    constructor(room) {
        this.process = spawn("firefox-esr", ["--headless", "--no-remote", "--profile", room,
            "--remote-debugging-port", "0"], { stdio: ["ignore", "ignore", "pipe"] });
        process.on("exit", () => this.process.kill());
        this.address = new Promise(answer => this.process.stderr.on("data", data => {
            const found = /ws:\/\/[0-9.:]+/.exec(data.toString());
            if (found) {
                answer(found[0]);
            }
        }));
        this.requests = [];
        this.complaints = [];
        this.waiting = new Map();
        this.number = 0;
    }

    async connect() {
        this.socket = new WebSocket(`${await this.address}/session`);
        this.socket.addEventListener("message", ({ data }) => this.hear(JSON.parse(data)));
        await new Promise(answer => this.socket.addEventListener("open", answer));
        await this.send("session.new", { capabilities: {} });
        await this.send("session.subscribe", { events: ["network.beforeRequestSent", "log.entryAdded"] });
    }

    hear({ id, result, error, message, method, params }) {
        this.waiting.get(id)?.({ result, error: error && `${error}: ${message}` });
        if (method === "network.beforeRequestSent") {
            this.requests.push(params.request.url);
        } else if (method === "log.entryAdded" && params.level === "error" && !/favicon/.test(params.text)) {
            // The policy lets no icon be asked for, which Firefox says.
            this.complaints.push(params.text);
        }
    }

    send(method, params) {
        const id = ++this.number;
        this.socket.send(JSON.stringify({ id, method, params }));
        return new Promise((answer, refuse) => this.waiting.set(id, ({ result, error }) => {
            this.waiting.delete(id);
            return error ? refuse(new Error(error)) : answer(result);
        }));
    }

    async open(url) {
        await this.connect();
        const { contexts } = await this.send("browsingContext.getTree", {});
        this.context = contexts[0].context;
        await this.send("browsingContext.navigate", { context: this.context, url, wait: "complete" });
    }

    /** The value of an expression in the page, by way of JSON. */
    async value(expression) {
        const { result, exceptionDetails } = await this.send("script.evaluate", {
            expression: `(async () => JSON.stringify(await (${expression})))()`,
            target: { context: this.context },
            awaitPromise: true,
        });
        if (exceptionDetails) {
            throw new Error(`${expression}: ${exceptionDetails.text}`);
        }
        return result.value === undefined ? undefined : JSON.parse(result.value);
    }

    async until(expression) {
        for (const end = Date.now() + 1000 * SECONDS; Date.now() < end;) {
            const value = await this.value(expression);
            if (value) {
                return value;
            }
            await new Promise(answer => setTimeout(answer, 20));
        }
        throw new Error(`it never was so: ${expression}`);
    }

    async close() {
        await this.send("browser.close", {}).catch(() => {});
        await new Promise(answer => this.process.exitCode === null ? this.process.once("exit", answer) : answer());
    }
}
