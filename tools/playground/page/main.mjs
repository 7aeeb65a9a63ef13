// The page: the editor and what was found at the left, the views at the right.
import { Editor } from "./editor.mjs";
import { Engine, Stopped } from "./engine.mjs";
import { button, byId, node } from "./nodes.mjs";
import { RunPanel } from "./run_panel.mjs";
import { askedBy, faultOf, fragmentOf, kindOf, partsOf } from "./texts.mjs";
import { Views } from "./views.mjs";

// A search begins with the first of these budgets, and what it has found so far is shown.
const BUDGETS = [20_000, 200_000, 2_000_000, 20_000_000, 200_000_000];
const USUAL_BUDGET = 2_000_000;
const KINDS = {
    script: "Try every order",
    history: "Judge this history",
    journal: "Check this journal",
};
const TASKS = { script: "find", history: "judge", journal: "check" };
const PANELS = {
    step: "Step through",
    picture: "Picture",
    journal: "Journal",
    state: "State",
    compacted: "Compacted",
    run: "Run",
    trust: "What is trusted",
};
const LONGEST_LINK = 30_000;
// An outcome is chosen by itself only if the search took at most so many seconds.
const SHORT = 3;

const number = (count) => count.toLocaleString("en");

/** Why a task came to no result. */
function reasonOf(error, stopped) {
    return error instanceof Stopped ? stopped : `This ended: ${error.message}`;
}

class Page {
    constructor(examples, worker, modules) {
        this.examples = examples;
        this.searches = new Engine(worker, modules);
        this.engine = new Engine(worker, modules);
        this.editor = new Editor(byId("text"), byId("numbers"));
        this.session = { kind: "script", journal: "", history: "" };
        this.views = new Views(this.engine, this.session);
        this.run = new RunPanel(this.engine, this);
        this.panel = "step";
        this.source = "";
        // The latest search, and when it began, or 0; the latest refresh of the panel; how many
        // tasks are running.
        this.search = 0;
        this.begun = 0;
        this.turn = 0;
        this.tasks = 0;
        this.fill();
        this.listen();
    }

    fill() {
        for (const { name, title } of this.examples) {
            byId("examples").append(new Option(title, name));
        }
        for (const budget of BUDGETS) byId("steps").append(new Option(number(budget), budget));
        byId("steps").value = USUAL_BUDGET;
        for (const [name, title] of Object.entries(PANELS)) {
            const properties = { id: `tab-${name}`, role: "tab" };
            const tab = button(title, () => this.choosePanel(name), properties);
            tab.setAttribute("aria-controls", "panel");
            byId("tabs").append(tab);
        }
    }

    listen() {
        byId("examples").onchange = () => this.chooseExample(byId("examples").value);
        byId("go").onclick = () => this.go();
        byId("stop").onclick = () => this.stop();
        byId("link").onclick = () => this.makeLink();
        byId("theme").onclick = () => this.turnTheme();
        byId("tabs").onkeydown = (event) => this.moveTab(event);
        byId("text").addEventListener("input", () => {
            byId("examples").value = "";
            this.textChanged();
        });
        addEventListener("hashchange", () => this.follow(location.hash));
        addEventListener("keydown", (event) => {
            if (event.key === "Enter" && (event.ctrlKey || event.metaKey)) this.go();
            if (event.key === "Escape") this.stop();
        });
    }

    // ---- the text ----

    /** Loads what a fragment asks for, and the first example if it names none. */
    async follow(fragment) {
        const { example, text, panel } = askedBy(fragment);
        const found = this.examples.find((it) => it.name === example) ?? this.examples[0];
        byId("examples").value = text === null ? found.name : "";
        this.panel = panel in PANELS ? panel : this.panel;
        this.editor.text = text ?? found.text;
        this.textChanged();
        await this.go();
    }

    chooseExample(name) {
        const fragment = fragmentOf({ example: name });
        history.pushState(null, "", fragment);
        return this.follow(fragment);
    }

    textChanged() {
        const { session } = this;
        session.kind = kindOf(this.editor.text);
        byId("go").textContent = KINDS[session.kind];
        byId("limit").hidden = session.kind !== "script";
        byId("kind").textContent = `This is a ${session.kind}.`;
    }

    makeLink() {
        const { text } = this.editor, { panel } = this;
        const example = this.examples.find((it) => it.text === text)?.name;
        const fragment = fragmentOf({ example, text, panel });
        if (fragment.length > LONGEST_LINK) {
            this.say("The text is too long for a link.", 0, true);
            return;
        }
        history.replaceState(null, "", fragment);
        navigator.clipboard?.writeText(location.href).catch(() => {});
        this.say("The address of this page is the link now.");
    }

    turnTheme() {
        const { dataset } = document.documentElement;
        const bySystem = matchMedia("(prefers-color-scheme: dark)").matches ? "dark" : "light";
        dataset.theme = (dataset.theme ?? bySystem) === "dark" ? "light" : "dark";
    }

    // ---- tasks ----

    /** What is said below the editor, with the line that it is about. */
    say(text, line = 0, isBad = false) {
        const name = `line ${line}`, at = text.indexOf(name);
        const before = at < 0 ? "" : text.slice(0, at);
        const after = at < 0 ? ` ${text}` : text.slice(at + name.length);
        const shows = button(name, () => this.editor.show(line));
        const nodes = line > 0 ? [before, shows, after] : [text];
        byId("said").className = isBad ? "bad" : "";
        byId("said").replaceChildren(...nodes);
    }

    /** Says what mqlog found at fault in the text, and marks the line. */
    sayFault({ out, err }) {
        const { said, line } = faultOf(this.editor.text, (err || out).trim());
        if (line > 0) this.editor.mark([line], "bad");
        this.say(said, line, true);
    }

    stop() {
        for (const engine of [this.searches, this.engine]) if (engine.isBusy()) engine.stop();
    }

    /** Marks the page as busy during a task, with a button that stops it. */
    async during(task) {
        this.tasks++;
        this.showBusy();
        try {
            return await task();
        } finally {
            this.tasks--;
            this.showBusy();
        }
    }

    showBusy() {
        byId("main").setAttribute("aria-busy", this.tasks > 0);
        byId("stop").hidden = this.tasks === 0;
    }

    /** Does what the text is for: a search, a judgement, or a check. */
    go() {
        if (this.begun > 0) this.searches.stop();
        const text = this.editor.text;
        Object.assign(this.session, { journal: "", history: "" });
        this.source = "";
        this.run.forget();
        this.editor.mark([]);
        byId("found").replaceChildren();
        return this.during(() => this.answer(text, ++this.search));
    }

    async answer(text, search) {
        this.begun = performance.now();
        this.doing = "loading";
        let chooses = false;
        const shows = setInterval(() => this.sayProgress(), 500);
        try {
            await this.searches.ready;
            chooses = await this[TASKS[this.session.kind]](text);
        } catch (error) {
            if (search !== this.search) return;
            this.say(reasonOf(error, "Stopped: what was found before is shown."), 0, true);
        } finally {
            clearInterval(shows);
        }
        this.begun = 0;
        await (chooses ? this.chooseFirst() : this.refresh());
    }

    seconds() {
        return (performance.now() - this.begun) / 1000;
    }

    sayProgress() {
        this.say(`${this.doing}: ${this.seconds().toFixed(1)} s`);
    }

    /** The budgets of a search, up to the chosen one. */
    budgets() {
        return BUDGETS.filter((it) => it <= Number(byId("steps").value));
    }

    /** Searches; returns whether one outcome should be chosen then. */
    async find(script) {
        let found = 0;
        for (const budget of this.budgets()) {
            const soFar = `${found} outcomes and deadlocks so far`;
            this.doing = `searching, up to ${number(budget)} steps; ${soFar}`;
            const words = ["orders", "--budget", String(budget)];
            const result = await this.searches.mqlog(words, script);
            if (result.out === "") {
                this.sayFault(result);
                return false;
            }
            const parts = partsOf(result.out).map((it) => ({ ...it, budget }));
            found = parts.filter((it) => it.number).length;
            this.showFound(script, parts);
            if (/^every order was tried/m.test(result.out)) break;
        }
        const last = byId("found").lastChild.textContent;
        this.say(`${last} (${this.seconds().toFixed(1)} s)`);
        return found > 0 && this.seconds() <= SHORT;
    }

    showFound(script, parts) {
        byId("found").replaceChildren(...parts.map((part) => {
            if (!part.number) return node("h2", {}, part.text);
            const text = `${part.kind} ${part.number}\n${part.lines.join("\n")}`;
            const properties = { className: `outcome ${part.kind}` };
            const it = button(text, () => this.chooseOutcome(script, part, it), properties);
            it.setAttribute("aria-pressed", "false");
            return it;
        }));
    }

    /** Chooses the first deadlock, or the last outcome. */
    async chooseFirst() {
        const all = [...byId("found").querySelectorAll(".outcome")];
        const first = all.find((it) => it.classList.contains("deadlock")) ?? all.at(-1);
        await first.onclick();
    }

    async chooseOutcome(script, { kind, number: wanted, budget, waits }, chosen) {
        const words = ["orders", "--journal", wanted, "--budget", String(budget)];
        const result = await this.working(() => this.engine.mqlog(words, script));
        if (!result) return;
        for (const it of byId("found").querySelectorAll(".outcome")) {
            it.setAttribute("aria-pressed", it === chosen);
        }
        if (this.editor.text === script) this.editor.mark(waits, "wait");
        this.showJournal(result.out, `${kind} ${wanted}`);
        await this.refresh();
    }

    async judge(text) {
        this.doing = "judging";
        const result = await this.searches.mqlog(["judge"], text);
        if (result.out === "") {
            this.sayFault(result);
            return;
        }
        const { line } = faultOf(text, result.out);
        byId("found").replaceChildren(node("pre", {}, result.out));
        if (line > 0) this.editor.mark([line], "bad");
        this.say(`${result.out.split("\n")[0]} (${this.seconds().toFixed(1)} s)`, line, line > 0);
        this.session.history = text;
        if (result.status !== 0) return;
        const explained = await this.searches.mqlog(["judge", "--journal"], text);
        const journal = explained.out.replace(/^possible.*\n/, "");
        this.showJournal(journal, "a journal that explains the history");
    }

    async check(text) {
        this.doing = "checking";
        const result = await this.searches.mqlog(["check"], text);
        if (result.status === 0) this.say(`${result.out.trim()} (${this.seconds().toFixed(1)} s)`);
        else this.sayFault(result);
        this.showJournal(text, "the journal in the editor");
    }

    // ---- the views ----

    showJournal(journal, source) {
        this.session.journal = journal;
        this.source = source;
    }

    choosePanel(name) {
        this.panel = name;
        return this.refresh();
    }

    moveTab({ key }) {
        const names = Object.keys(PANELS), at = names.indexOf(this.panel);
        const to = { ArrowRight: at + 1, ArrowLeft: at - 1, Home: 0, End: names.length - 1 }[key];
        if (names[to] === undefined) return;
        this.choosePanel(names[to]);
        byId(`tab-${names[to]}`).focus();
    }

    /** The result of a task for a panel, or undefined if it ended early, which the panel says. */
    async working(task) {
        const shows = setTimeout(() => byId("panel").replaceChildren("working .."), 300);
        try {
            return await this.during(task);
        } catch (error) {
            byId("panel").replaceChildren(reasonOf(error, "Stopped."));
            return undefined;
        } finally {
            clearTimeout(shows);
        }
    }

    /** The elements of the chosen panel. */
    nodes() {
        if (this.panel === "trust") return [byId("trust").content.cloneNode(true)];
        return this.panel === "run" ? this.run.nodes() : this.views[this.panel]();
    }

    async refresh() {
        const turn = ++this.turn;
        for (const name of Object.keys(PANELS)) {
            const tab = byId(`tab-${name}`), isChosen = name === this.panel;
            tab.setAttribute("aria-selected", isChosen);
            tab.tabIndex = isChosen ? 0 : -1;
        }
        byId("panel").setAttribute("aria-labelledby", `tab-${this.panel}`);
        const nodes = await this.working(() => this.nodes());
        if (turn !== this.turn || !nodes) return;
        byId("panel").replaceChildren(...nodes);
        const isShown = this.source !== "" && this.panel !== "trust";
        byId("source").textContent = isShown ? `Shown: ${this.source}` : "";
    }

    // ---- for the panel that runs scripts ----

    attempt(task) {
        return this.working(() => task(this.editor.text));
    }

    /** Whether a script is well-formed; if not, says what is wrong. */
    async accepts(script) {
        const result = await this.engine.mqlog(["orders", "--budget", "1"], script);
        if (result.out === "") this.sayFault(result);
        return result.out !== "";
    }

    showPlayed({ journal, processes, stuckLines }, source) {
        this.showJournal(journal, source);
        const next = processes.filter((it) => it.canStep && it.line > 0).map((it) => it.line);
        if (stuckLines.length > 0 && next.length === 0) this.editor.mark(stuckLines, "wait");
        else this.editor.mark(next, "next");
    }
}

function bytesOf(id) {
    return Uint8Array.from(atob(byId(id).textContent.trim()), (it) => it.charCodeAt(0));
}

const examples = JSON.parse(byId("examples-data").textContent);
const modules = { mqlog: bytesOf("mqlog-module"), queues: bytesOf("queues-module") };
const page = new Page(examples, byId("worker-script").textContent, modules);
await page.follow(location.hash);
