// A stand-in for a browser's document, as far as the scripts of page/ need one: the elements of a sheet, selectors of
// names, classes and `[role=status]`, buttons, and a dialog. It draws nothing.
const VOID = ["meta", "br", "link"];
const RAW = ["style", "script", "title"];
const ENTITIES = { spades: "♠", hearts: "♥", diams: "♦", clubs: "♣", ndash: "–", amp: "&", lt: "<", gt: ">",
    quot: "\"" };
const TOKEN = /<(\/?)([a-z0-9]+)([^>]*)>|[^<]+/g;
const ATTRIBUTE = /([a-z-]+)(?:="([^"]*)")?/g;
const COMPOUND = /^([a-z0-9]*)((?:\.[a-z-]+)*)(\[role=status\])?$/;

export const Node = { ELEMENT_NODE: 1, TEXT_NODE: 3 };

class Part {
    parent = null;

    remove() {
        this.parent?.childNodes.splice(this.parent.childNodes.indexOf(this), 1);
        this.parent = null;
    }

    closest(selector) {
        return this.matches?.(selector) ? this : this.parent?.closest(selector) ?? null;
    }
}

class Text extends Part {
    nodeType = Node.TEXT_NODE;

    constructor(data) {
        super();
        this.data = data;
    }

    get textContent() {
        return this.data;
    }
}

class Element extends Part {
    nodeType = Node.ELEMENT_NODE;
    childNodes = [];
    values = new Map();
    listeners = [];
    open = false;
    inert = false;

    constructor(localName) {
        super();
        this.localName = localName;
    }

    get children() {
        return this.childNodes.filter(part => part instanceof Element);
    }

    get attributes() {
        return [...this.values].map(([name, value]) => ({ name, value }));
    }

    getAttribute(name) {
        return this.values.get(name) ?? null;
    }

    setAttribute(name, value) {
        this.values.set(name, String(value));
    }

    get className() {
        return this.getAttribute("class") ?? "";
    }

    set className(value) {
        this.setAttribute("class", value);
    }

    get classList() {
        return { add: name => { this.className = `${this.className} ${name}`.trim(); } };
    }

    get dataset() {
        return { file: this.getAttribute("data-file") };
    }

    get hidden() {
        return this.values.has("hidden");
    }

    set hidden(is) {
        is ? this.setAttribute("hidden", "") : this.values.delete("hidden");
    }

    get textContent() {
        return this.childNodes.map(part => part.textContent).join("");
    }

    set textContent(text) {
        this.replaceChildren(...(text === "" ? [] : [text]));
    }

    append(...parts) {
        for (const part of parts) {
            const made = part instanceof Part ? part : new Text(String(part));
            made.remove();
            made.parent = this;
            this.childNodes.push(made);
        }
    }

    replaceChildren(...parts) {
        [...this.childNodes].forEach(part => part.remove());
        this.append(...parts);
    }

    set innerHTML(text) {
        this.replaceChildren();
        parseInto(this, text);
    }

    *descendants() {
        for (const child of this.children) {
            yield child;
            yield* child.descendants();
        }
    }

    matches(selector) {
        const words = selector.split(" ");
        const [, name, classes, role] = COMPOUND.exec(words.pop());
        const own = this.className.split(" ");
        return (name === "" || name === this.localName) && (!role || this.getAttribute("role") === "status") &&
            classes.split(".").slice(1).every(kind => own.includes(kind)) &&
            (words.length === 0 || Boolean(this.parent?.closest(words.join(" "))));
    }

    querySelectorAll(selectors) {
        return [...this.descendants()].filter(part => selectors.split(", ").some(one => part.matches(one)));
    }

    querySelector(selectors) {
        return this.querySelectorAll(selectors)[0] ?? null;
    }

    addEventListener(kind, listener) {
        this.listeners.push({ kind, listener });
    }

    dispatch(kind) {
        this.listeners.filter(one => one.kind === kind).forEach(({ listener }) => listener({ target: this }));
    }

    click() {
        this.dispatch("click");
    }

    focus() {}

    showModal() {
        this.open = true;
    }

    /** As in a browser, the event comes later. */
    close() {
        this.open = false;
        setTimeout(() => this.dispatch("close"));
    }
}

const textOf = text => text.replace(/&([a-z]+);/g, (whole, name) => ENTITIES[name] ?? whole);

/** Parses well-formed HTML. As in a browser, the rows of a table are in a `tbody`. */
function parseInto(root, text) {
    let at = root, raw = "";
    for (const [token, slash, name, attributes] of text.matchAll(TOKEN)) {
        if (raw !== "" && !(slash && name === raw)) {
            continue;
        }
        raw = "";
        if (name === undefined) {
            at.append(textOf(token));
        } else if (slash) {
            at = at.closest(name)?.parent ?? at;
        } else {
            if (name === "tr" && at.localName === "table") {
                at.append(new Element("tbody"));
                at = at.childNodes.at(-1);
            }
            const made = new Element(name);
            for (const [, key, value] of attributes.matchAll(ATTRIBUTE)) {
                made.setAttribute(key, textOf(value ?? ""));
            }
            at.append(made);
            at = VOID.includes(name) ? at : made;
            raw = RAW.includes(name) ? name : "";
        }
    }
}

/** The document of a page. */
export function documentOf(text) {
    const page = new Element("page");
    parseInto(page, text);
    return {
        body: page.querySelector("body"),
        createElement: name => new Element(name),
        querySelector: selectors => page.querySelector(selectors),
        querySelectorAll: selectors => page.querySelectorAll(selectors),
    };
}
