// The script of the page: offers a check for each board that has evidence, and marks what was shown. A number is marked
// only by a finished check of the deal, declarer and denomination that stand in the page.
import { Checking, EvidenceFault } from "./checking.js";
import { Diagram } from "./diagram.js";
import { clearMarks, markOther, markShown, readDeal, readNumbers } from "./sheet.js";

const HINT = " Press a ✓ to see the play.";
const checking = new Checking();
const diagram = new Diagram();
/** The boards that wait for their check, the one under way first. */
const queue = [];

const plain = ({ declarer, trump, tricks }) => ({ declarer, trump, tricks });

/** An article with a line that offers its evidence. */
class Offer {
    constructor(line) {
        this.article = line.closest("article");
        this.file = line.dataset.file;
        this.press = line.querySelector("button");
        this.status = line.querySelector("[role=status]");
        this.press.addEventListener("click", () => queue.includes(this) ? stop([this]) : start([this]));
        line.hidden = false;
        this.article.classList.add("offers");
    }

    say(text, isUnderWay) {
        this.status.textContent = text;
        this.press.textContent = isUnderWay ? "Stop" : "Check";
    }

    /** The number in the page that a verdict is about, if the page still has that deal and that number. */
    find(verdict, deal) {
        return readDeal(this.article) !== deal ? undefined : readNumbers(this.article).find(number =>
            number.declarer === verdict.declarer && number.trump === verdict.trump && number.tricks === verdict.tricks);
    }

    async check(signal) {
        clearMarks(this.article);
        const deal = readDeal(this.article);
        const numbers = readNumbers(this.article).map(plain);
        if (deal === null || numbers.length === 0) {
            throw new EvidenceFault(`the ${deal === null ? "deal" : "table"} on the page has another form`);
        }
        this.say("loading", true);
        checking.loaded = null;
        let shown = 0;
        const hears = message => {
            if (message.kind === "progress") {
                this.status.textContent = `${Math.round(100 * message.share)} %, ${message.nodes} nodes`;
                return;
            }
            shown += this.mark(message, deal) ? 1 : 0;
        };
        const { others } = await checking.ask(this.file, { kind: "check", deal, numbers }, signal, hears);
        for (const other of others) {
            const number = this.find(other, deal);
            if (number !== undefined) {
                markOther(this.article, number, other.why);
            }
        }
        const hint = shown > 0 ? HINT : "";
        this.say(`${shown} of ${numbers.length} numbers proved here, on your device.${hint} Par is not checked here.`,
            false);
    }

    /** Marks a number that was shown. */
    mark({ of: number, nodes }, deal) {
        const found = this.find(number, deal);
        if (found !== undefined) {
            markShown(found, nodes, () => this.showHow(number, deal));
        }
        return found !== undefined;
    }

    /** Opens the diagram. A check that is under way ends first: the worker serves one board. */
    async showHow(number, deal) {
        stop([...queue]);
        const name = this.article.querySelector("h2").textContent;
        await diagram.open(name, number, deal, async signal => {
            await checking.ask(this.file, { kind: "open", deal, of: number }, signal);
            return question => checking.ask(this.file, question, signal);
        });
    }
}

let abort = new AbortController();

function start(offers) {
    const isIdle = queue.length === 0;
    const added = offers.filter(offer => !queue.includes(offer));
    added.forEach(offer => offer.say("waiting", true));
    queue.push(...added);
    sayAll();
    if (isIdle) {
        run();
    }
}

/** Takes boards from the queue, and ends the check of the one under way. */
function stop(offers) {
    const isUnderWay = offers.includes(queue[0]);
    offers.filter(offer => queue.includes(offer)).forEach(offer => {
        offer.say("stopped", false);
        if (offer !== queue[0]) {
            queue.splice(queue.indexOf(offer), 1);
        }
    });
    if (isUnderWay) {
        abort.abort();
    }
}

/** Checks the boards of the queue, one after the other. */
async function run() {
    while (queue.length > 0) {
        const [offer] = queue;
        abort = new AbortController();
        try {
            await offer.check(abort.signal);
        } catch (fault) {
            offer.say(abort.signal.aborted ? "stopped" : fault.message, false);
        }
        queue.shift();
        sayAll();
    }
}

const offers = [...document.querySelectorAll("article .evidence")].map(line => new Offer(line));
const all = document.querySelector("header .evidence");
const checkAll = all?.querySelector("button");

/** Says how many boards wait. */
function sayAll() {
    checkAll.textContent = queue.length > 0 ? "Stop" : "Check all";
    all.querySelector("[role=status]").textContent = queue.length > 0 ? `${queue.length} to be checked` : "";
}

if (offers.length > 0) {
    all.hidden = false;
    checkAll.addEventListener("click", () => queue.length > 0 ? stop([...queue]) : start(offers));
}
