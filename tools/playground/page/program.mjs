// Runs a proved program that was compiled to WebAssembly. Its files are in memory.

class Exit extends Error {
    constructor(status) {
        super(`the program ends with status ${status}`);
        this.status = status;
    }
}

const IMPORTS = {
    env: {
        now: () => performance.now() * 1e6,
        exit: (status) => { throw new Exit(status); },
    },
};

/** Puts bytes into the memory of an instance: their address and their length. */
function put(exports, bytes) {
    const at = exports.host_take(BigInt(bytes.length || 1));
    if (at === 0n) throw new Error("no memory");
    new Uint8Array(exports.memory.buffer).set(bytes, Number(at));
    return [at, BigInt(bytes.length)];
}

/** The bytes that a program has written to an output: 1, or 2 for errors. */
function written(exports, output) {
    const at = Number(exports.host_output(output)), size = Number(exports.host_output_len(output));
    return new Uint8Array(exports.memory.buffer, at, size).slice();
}

function statusOf(exports) {
    try {
        return exports.host_run();
    } catch (error) {
        if (error instanceof Exit) return error.status;
        throw error;
    }
}

/**
 * Runs a module with the words of a command line, the bytes of the standard input, and files by
 * their names. The result has the status, and the bytes of both outputs.
 */
export async function run(module, words, input, files = {}) {
    const { exports } = await WebAssembly.instantiate(module, IMPORTS);
    const text = new TextEncoder();
    for (const word of words) exports.host_argument(...put(exports, text.encode(word)));
    exports.host_file(...put(exports, new Uint8Array(0)), ...put(exports, input));
    for (const [name, bytes] of Object.entries(files)) {
        exports.host_file(...put(exports, text.encode(name)), ...put(exports, bytes));
    }
    const status = statusOf(exports);
    return { status, out: written(exports, 1), err: written(exports, 2) };
}
