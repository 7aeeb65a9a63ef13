// Plays a script as mqrun runs it: in each phase its processes make their calls, in an order that
// the caller chooses, call by call. The script is a binary string that mqlog accepts.
import { System } from "./system.mjs";

/** The phases of a script: its calls by process, and the time; and the number of processes. */
function read(script) {
    const phases = [];
    let count = 0, now = [0n, 0n], calls = new Map();
    const end = () => {
        phases.push({ now, calls });
        calls = new Map();
    };
    script.split("\n").forEach((text, i) => {
        const [first, ...words] = text.split(" ").filter((word) => word);
        if (first === undefined || first.startsWith("#")) return;
        if (first === "processes") count = Number(words[0]);
        else if (first === "clock") now = words.map(BigInt);
        else if (first === "--") end();
        else {
            const process = Number(first);
            if (!calls.has(process)) calls.set(process, []);
            calls.get(process).push({ words, line: i + 1 });
        }
    });
    end();
    return { count, phases };
}

export class Player {
    constructor(exports, script) {
        const { count, phases } = read(script);
        this.system = new System(exports, count);
        this.phases = phases;
        this.out = "";
        this.phase = -1;
        this.nextPhase();
    }

    /** Begins the next phase that has calls. */
    nextPhase() {
        do this.phase++;
        while (this.phases[this.phase]?.calls.size === 0);
        this.processes = new Map();
        if (this.isDone()) {
            this.out += `history ${this.system.isLegal() ? "ok" : "BAD"}\n`;
            return;
        }
        const { now, calls } = this.phases[this.phase];
        this.system.now = now;
        for (const process of [...calls.keys()].sort((a, b) => a - b)) {
            const it = { calls: calls.get(process), made: 0, replies: [], isWaiting: false };
            this.processes.set(process, it);
        }
    }

    isDone() {
        return this.phase >= this.phases.length;
    }

    canStep(process) {
        const it = this.processes.get(process);
        return it.isWaiting ? this.system.isAnswered(process) : it.made < it.calls.length;
    }

    /** The processes of this phase of which one can go next. */
    able() {
        return [...this.processes.keys()].filter((process) => this.canStep(process));
    }

    isStuck() {
        return !this.isDone() && this.able().length === 0;
    }

    /** The call that a process waits in, or makes next; undefined if it has made all. */
    callOf(process) {
        const it = this.processes.get(process);
        return it.calls[it.made];
    }

    /** Lets a process make its next call, or end its answered wait. */
    step(process) {
        const it = this.processes.get(process), { words } = it.calls[it.made];
        const { system } = this;
        const reply = it.isWaiting ? system.collect(process) : system.make(process, words);
        it.isWaiting = reply === null;
        if (it.isWaiting) return;
        it.replies.push(reply);
        it.made++;
        const all = [...this.processes.values()];
        if (all.every(({ calls, made }) => made === calls.length)) this.endPhase();
    }

    endPhase() {
        for (const { replies } of this.processes.values()) {
            for (const reply of replies) this.out += `${reply}\n`;
        }
        this.nextPhase();
    }

    /** The lines in which processes wait. */
    stuckLines() {
        const waiting = [...this.processes.values()].filter((it) => it.isWaiting);
        return waiting.map((it) => it.calls[it.made].line);
    }

    /** What mqrun says of them, if the script is deadlocked. */
    stuckText() {
        return this.stuckLines().map((line) => `line ${line}: waits for ever\n`).join("");
    }
}

/** Numbers below n, by a seed: the generator is SplitMix64. */
export function chooser(seed) {
    const MASK = (1n << 64n) - 1n;
    let state = BigInt(seed);
    return (n) => {
        state = state + 0x9e3779b97f4a7c15n & MASK;
        let bits = (state ^ state >> 30n) * 0xbf58476d1ce4e5b9n & MASK;
        bits = (bits ^ bits >> 27n) * 0x94d049bb133111ebn & MASK;
        return Number((bits ^ bits >> 31n) % BigInt(n));
    };
}

/** Plays a script to its end, or until it is deadlocked; `below(n)` chooses a number below n. */
export function play(exports, script, below) {
    const player = new Player(exports, script), choices = [];
    while (!player.isDone() && !player.isStuck()) {
        const able = player.able();
        choices.push(able[below(able.length)]);
        player.step(choices.at(-1));
    }
    return { player, choices };
}
