// The worker: it has both modules, and does one task after the other.
import { Player, chooser, play } from "./player.mjs";
import { run } from "./program.mjs";

let modules;

const textOf = (bytes) => new TextDecoder().decode(bytes);
const bytesOf = (text) => new TextEncoder().encode(text);
// The player's texts are binary strings.
const binary = (text) => Array.from(bytesOf(text), (byte) => String.fromCharCode(byte)).join("");
const unbinary = (text) => textOf(Uint8Array.from(text, (character) => character.charCodeAt(0)));

async function compiled(bytes) {
    const stream = new Blob([bytes]).stream().pipeThrough(new DecompressionStream("gzip"));
    return WebAssembly.compile(await new Response(stream).arrayBuffer());
}

async function newExports() {
    return (await WebAssembly.instantiate(modules.queues, {})).exports;
}

/** What the page shows of a player. */
function shown(player) {
    const processes = [...player.processes].map(([process, it]) => ({
        process,
        call: unbinary(player.callOf(process)?.words.join(" ") ?? ""),
        line: player.callOf(process)?.line ?? 0,
        isWaiting: it.isWaiting,
        canStep: player.canStep(process),
        replies: it.replies.map(unbinary),
    }));
    return {
        out: unbinary(player.out),
        journal: player.system.journal(),
        isStuck: player.isStuck(),
        isDone: player.isDone(),
        stuckLines: player.stuckLines(),
        phase: player.phase + 1,
        processes,
    };
}

const TASKS = {
    async load({ mqlog, queues }) {
        modules = { mqlog: await compiled(mqlog), queues: await compiled(queues) };
        return {};
    },

    /** A task of mqlog. */
    async mqlog({ words, input }) {
        const { status, out, err } = await run(modules.mqlog, ["mqlog", ...words], bytesOf(input));
        return { status, out: textOf(out), err: textOf(err) };
    },

    /** A run of a script by chosen processes, as far as these go. */
    async choose({ script, choices }) {
        const player = new Player(await newExports(), binary(script));
        for (const process of choices) player.step(process);
        return shown(player);
    },

    /** A whole run by a seed. */
    async seed({ script, seed }) {
        const { player, choices } = play(await newExports(), binary(script), chooser(seed));
        return { ...shown(player), choices };
    },

    /** The results of runs by the seeds 1 to `count`, each with its first seed and their number. */
    async seeds({ script, count }) {
        const found = new Map();
        for (let seed = 1; seed <= count; seed++) {
            const { player } = play(await newExports(), binary(script), chooser(seed));
            const text = unbinary(player.out + player.stuckText());
            const it = found.get(text) ?? { text, seed, count: 0, isStuck: player.isStuck() };
            it.count++;
            found.set(text, it);
        }
        return { found: [...found.values()] };
    },
};

async function answer({ id, task, ...words }) {
    try {
        postMessage({ id, result: await TASKS[task](words) });
    } catch (error) {
        postMessage({ id, fault: String(error) });
    }
}

let answered = Promise.resolve();
onmessage = ({ data }) => { answered = answered.then(() => answer(data)); };
