// The panel that runs a script: by a seed, by many, or call by call.
import { button, byId, node } from "./nodes.mjs";

const SEEDS = 200;
const NO_SCRIPT = "Only a script can be run.";
const WHAT = "A seed decides whose turn it is, or you do. One thread makes all calls, as the"
    + " threads of mqrun would: in a phase, any process that does not wait can go next.";

export class RunPanel {
    /** `host` has the script, shows what was played, and checks scripts. */
    constructor(engine, host) {
        this.engine = engine;
        this.host = host;
        this.seed = 1;
        this.forget();
    }

    /** Forgets what was played: the script is another one. */
    forget() {
        this.choices = [];
        this.shown = null;
        this.found = null;
    }

    async nodes() {
        if (this.host.session.kind !== "script") return [node("p", {}, NO_SCRIPT)];
        const nodes = [this.controls()];
        if (this.found) nodes.push(...this.foundNodes());
        if (this.shown) nodes.push(...this.shownNodes());
        if (!this.found && !this.shown) nodes.push(node("p", {}, WHAT));
        return nodes;
    }

    controls() {
        const seed = node("input", { type: "number", min: 1, value: this.seed, id: "seed" });
        seed.onchange = () => { this.seed = Math.max(1, Math.floor(Number(seed.value) || 1)); };
        return node("div", { className: "bar" },
            node("label", {}, "Seed ", seed),
            button("Run", () => this.runSeed(this.seed), { id: "run-seed" }),
            button(`Run ${SEEDS} seeds`, () => this.runSeeds(), { id: "run-seeds" }),
            button("Choose each call", () => this.choose([]), { id: "run-steps" }));
    }

    /** Does a task with the script, if that is well-formed, and shows the panel anew. */
    async play(task, words, take) {
        await this.host.attempt(async (script) => {
            if (!await this.host.accepts(script)) return;
            take(await this.engine.ask(task, { script, ...words }));
            await this.host.refresh();
        });
    }

    taken(shown, choices, source) {
        this.shown = shown;
        this.choices = choices;
        this.host.showPlayed(shown, source);
    }

    runSeed(seed) {
        this.seed = seed;
        const take = (shown) => this.taken(shown, shown.choices, `run with seed ${seed}`);
        return this.play("seed", { seed }, take);
    }

    runSeeds() {
        return this.play("seeds", { count: SEEDS }, ({ found }) => {
            this.shown = null;
            this.found = found.sort((a, b) => b.count - a.count);
        });
    }

    async choose(choices) {
        this.found = null;
        const source = `run of ${choices.length} chosen steps`;
        await this.play("choose", { choices }, (shown) => this.taken(shown, choices, source));
        // The button that was pressed is gone.
        byId("panel").querySelector("tr button:enabled")?.focus();
    }

    foundNodes() {
        const results = this.found.map(({ count, seed, text, isStuck }) => {
            const head = `${count} of ${SEEDS} seeds, the first is ${seed}`;
            const className = isStuck ? "outcome deadlock" : "outcome";
            return button(`${head}\n${text}`, () => this.runSeed(seed), { className });
        });
        const { length } = this.found;
        const count = `${length} ${length === 1 ? "result" : "results"} of ${SEEDS} seeds`;
        return [node("p", { id: "seeds-said" }, count), ...results];
    }

    line(line) {
        const show = () => this.host.editor.show(line);
        return button(`line ${line}`, show, { className: "line" });
    }

    row(it) {
        const goes = () => this.choose([...this.choices, it.process]);
        const go = button(it.isWaiting ? "End its wait" : "Go", goes, { disabled: !it.canStep });
        go.dataset.process = it.process;
        const call = it.line === 0 ? ["has made its calls"]
            : [it.isWaiting ? `waits in ${it.call} ` : `${it.call} `, this.line(it.line)];
        const cells = [[go], call, [it.replies.join("\n")]].map((them) => node("td", {}, ...them));
        return node("tr", {}, node("th", {}, `process ${it.process}`), ...cells);
    }

    shownNodes() {
        const { shown, choices } = this, disabled = choices.length === 0;
        const back = () => this.choose(choices.slice(0, -1));
        const steps = node("div", { className: "bar" },
            button("Back", back, { id: "back", disabled }),
            button("From the start", () => this.choose([]), { disabled }),
            node("span", { id: "run-said" }, this.said()));
        const rows = shown.processes.map((it) => this.row(it));
        const table = node("table", { onkeydown: (event) => this.pressed(event) }, ...rows);
        return [
            steps,
            ...shown.isDone ? [] : [table],
            node("strong", {}, "Replies of ended phases"),
            node("pre", { id: "replies" }, shown.out),
            node("strong", {}, "Journal"),
            node("pre", {}, shown.journal),
        ];
    }

    said() {
        const { isStuck, isDone, phase } = this.shown;
        if (isStuck) return "Deadlock: each process that has calls left waits.";
        return isDone ? "The script has ended." : `Phase ${phase}: which process goes next?`;
    }

    /** The digits 1 to 9 let a process go. */
    pressed({ key }) {
        const it = this.shown.processes.find(({ process }) => String(process) === key);
        if (it?.canStep) this.choose([...this.choices, it.process]);
    }
}
