// usage: node checks/playground_node.mjs MQLOG.wasm QUEUES.wasm
//
// Does tasks with the modules of the playground, as its worker does. Each line of the standard
// input is a task, in JSON; its result is a line of the output. Bytes are in base64.
import fs from "node:fs";
import readline from "node:readline";
import { chooser, play } from "../tools/playground/page/player.mjs";
import { run } from "../tools/playground/page/program.mjs";

const [mqlog, queues] = await Promise.all(
    process.argv.slice(2).map((path) => WebAssembly.compile(fs.readFileSync(path))));
const from64 = (text) => Buffer.from(text, "base64");
const to64 = (bytes) => Buffer.from(bytes).toString("base64");

const TASKS = {
    async mqlog({ words, input, files }) {
        const named = Object.fromEntries(files.map(([name, bytes]) => [name, from64(bytes)]));
        const { status, out, err } = await run(mqlog, words, from64(input), named);
        return { status, out: to64(out), err: to64(err) };
    },

    // As mqrun, but for malformed scripts.
    async play({ input, seed }) {
        const { exports } = await WebAssembly.instantiate(queues, {});
        const { player } = play(exports, from64(input).toString("latin1"), chooser(seed));
        const bytes = (text) => to64(Buffer.from(text, "latin1"));
        const status = player.isStuck() ? 5 : 0;
        return { status, out: bytes(player.out), err: bytes(player.stuckText()) };
    },

    // How many blocks of 1 GiB there are, before memory is refused.
    async gigabytes() {
        const { exports } = await WebAssembly.instantiate(queues, {});
        let count = 0;
        while (exports.host_take(1n << 30n) !== 0n) count++;
        return { count };
    },
};

for await (const line of readline.createInterface({ input: process.stdin })) {
    const { task, ...words } = JSON.parse(line);
    let result;
    try {
        result = await TASKS[task](words);
    } catch (error) {
        result = { status: -1, out: "", err: to64(String(error.stack)) };
    }
    process.stdout.write(`${JSON.stringify(result)}\n`);
}
