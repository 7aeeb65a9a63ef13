// A system of queues: the proved exports of the library for C, as WebAssembly. None of them waits,
// so one thread makes the calls of all processes. Names and messages are binary strings: each
// character is a byte.

const FAULTS = [
    "", "EAGAIN", "EBADF", "EBUSY", "EEXIST", "EINVAL", "EMFILE", "EMSGSIZE", "ENAMETOOLONG",
    "ENOENT", "ENOSPC", "NOMEMORY", "ETIMEDOUT", "JOURNALFULL",
];
// Of enum yak_answer in yakyrombe.h.
const DONE = 0, RETRY = 16, WAITS = 17, NO_NOTICE = 23, NO_ENTRY = 25;
// The sizes of yak_process, and of the longest text: a script has no longer word, and a journal no
// longer line.
const HANDLE = 128, LONGEST = 1 << 20, MOST_BYTES = 65536;
const ACCESS = "rwb";

export class System {
    /** A system of processes from 1 to `count`, over the exports of an instance of its own. */
    constructor(exports, count) {
        this.exports = exports;
        this.now = [0n, 0n];
        this.handles = this.take(count * HANDLE);
        this.bytes(this.handles, count * HANDLE).fill(0);
        this.opening = this.take(24);
        this.number = this.take(8);
        this.message = this.take(16);
        this.attributes = this.take(32);
        this.moments = this.take(32);
        this.text = this.take(LONGEST);
        const wait = () => ({ buf: this.take(MOST_BYTES), isSend: false });
        this.waits = Array.from({ length: count }, wait);
        const answer = this.call("yak_new", this.handles, BigInt(count));
        if (answer !== DONE) throw new Error(`no system: ${answer}`);
    }

    take(size) {
        const at = this.exports.host_take(BigInt(size));
        if (at === 0n) throw new Error("no memory");
        return at;
    }

    bytes(at, size) {
        return new Uint8Array(this.exports.memory.buffer, Number(at), size);
    }

    view(at) {
        return new DataView(this.exports.memory.buffer, Number(at));
    }

    /** Makes a call of the library. A try that did not get into the lock is made again. */
    call(name, ...rest) {
        for (;;) {
            const answer = this.exports[name](...rest);
            if (answer !== RETRY) return answer;
        }
    }

    put(text) {
        const bytes = this.bytes(this.text, text.length);
        for (let i = 0; i < text.length; i++) bytes[i] = text.charCodeAt(i);
        return BigInt(text.length);
    }

    read(at, size) {
        let text = "";
        for (const byte of this.bytes(at, size)) text += String.fromCharCode(byte);
        return text;
    }

    /** The deadline and the time, as two arguments. */
    times(sec, nsec) {
        const view = this.view(this.moments), words = [BigInt(sec), BigInt(nsec), ...this.now];
        words.forEach((word, i) => view.setBigInt64(8 * i, word, true));
        return [this.moments, this.moments + 16n];
    }

    /** The reply to a call, or null if its process waits now. */
    reply(process, answer, done) {
        if (answer === WAITS) return null;
        return `${process} ${answer === DONE ? done() : FAULTS[answer] ?? `answer ${answer}`}`;
    }

    got(process) {
        const view = this.view(this.message), size = Number(view.getBigUint64(0, true));
        const text = this.read(this.waits[process - 1].buf, size);
        return `got ${view.getUint32(8, true)} ${size}${size > 0 ? ` ${text}` : ""}`;
    }

    attr() {
        const view = this.view(this.attributes), of = (place) => view.getBigInt64(place, true);
        return `attr ${view.getUint8(24)} ${of(0)} ${of(8)} ${of(16)}`;
    }

    open(process, handle, [name, flags, maxmsg, msgsize]) {
        const view = this.view(this.opening);
        view.setBigInt64(0, BigInt(maxmsg ?? 0), true);
        view.setBigInt64(8, BigInt(msgsize ?? 0), true);
        view.setUint32(16, ACCESS.indexOf(flags[0]), true);
        [..."cxn"].forEach((flag, i) => view.setUint8(20 + i, flags.includes(flag)));
        view.setUint8(23, maxmsg !== undefined);
        const words = [this.text, this.put(name), this.opening, this.number];
        const fd = () => `fd ${this.view(this.number).getUint32(0, true)}`;
        return this.reply(process, this.call("yak_open", handle, ...words), fd);
    }

    send(process, handle, d, prio, message, ...times) {
        const name = times.length > 0 ? "yak_start_timed_send" : "yak_start_send";
        this.waits[process - 1].isSend = true;
        const words = [d, this.text, this.put(message ?? ""), Number(prio), ...times];
        return this.reply(process, this.call(name, handle, ...words), () => "ok");
    }

    receive(process, handle, d, len, ...times) {
        const name = times.length > 0 ? "yak_start_timed_receive" : "yak_start_receive";
        const wait = this.waits[process - 1];
        wait.isSend = false;
        const words = [d, wait.buf, BigInt(len), this.message, ...times];
        return this.reply(process, this.call(name, handle, ...words), () => this.got(process));
    }

    notify(process, handle, d, value) {
        const registers = value !== "-";
        const words = [d, registers ? 1 : 0, registers ? BigInt(value) : 0n];
        return this.reply(process, this.call("yak_notify", handle, ...words), () => "ok");
    }

    notice(process, handle) {
        const answer = this.call("yak_next_notice", handle, this.number);
        if (answer === NO_NOTICE) return `${process} notice none`;
        const value = () => `notice ${this.view(this.number).getBigUint64(0, true)}`;
        return this.reply(process, answer, value);
    }

    handle(process) {
        return this.handles + BigInt((process - 1) * HANDLE);
    }

    /** Makes a call, given by its words in a script: its reply, or null if the process waits. */
    make(process, [verb, ...words]) {
        const handle = this.handle(process), d = Number(words[0]);
        const made = (name, done, ...rest) =>
            this.reply(process, this.call(name, handle, ...rest), done);
        const ok = () => "ok", attr = () => this.attr();
        switch (verb) {
        case "open": return this.open(process, handle, words);
        case "close": return made("yak_close", ok, d);
        case "unlink": return made("yak_unlink", ok, this.text, this.put(words[0]));
        case "getattr": return made("yak_getattr", attr, d, this.attributes);
        case "setattr": return made("yak_setattr", attr, d, Number(words[1]), this.attributes);
        case "send": return this.send(process, handle, d, words[1], words[2]);
        case "tsend": {
            const [, prio, sec, nsec, message] = words;
            return this.send(process, handle, d, prio, message, ...this.times(sec, nsec));
        }
        case "recv": return this.receive(process, handle, d, words[1]);
        case "trecv": {
            const [, len, sec, nsec] = words;
            return this.receive(process, handle, d, len, ...this.times(sec, nsec));
        }
        case "notify": return this.notify(process, handle, d, words[1]);
        case "notice": return this.notice(process, handle);
        case "exit": return made("yak_exit", ok);
        default: throw new Error(`no call is named ${verb}`);
        }
    }

    /** Whether the wait of a process is answered. */
    isAnswered(process) {
        return this.call("yak_answered", this.handle(process)) === DONE;
    }

    /** Ends an answered wait: the reply of its call. */
    collect(process) {
        const { buf, isSend } = this.waits[process - 1];
        const words = [buf, BigInt(MOST_BYTES), this.message];
        const answer = this.call("yak_collect", this.handle(process), ...words);
        return this.reply(process, answer, () => isSend ? "ok" : this.got(process));
    }

    /** The journal of all calls so far, as text. */
    journal() {
        let text = "";
        for (let entry = 0n; ; entry++) {
            const words = [entry, this.text, BigInt(LONGEST), this.number];
            const answer = this.call("yak_entry", this.handle(1), ...words);
            if (answer === NO_ENTRY) return text;
            if (answer !== DONE) throw new Error(`no entry ${entry}: ${answer}`);
            const size = Number(this.view(this.number).getBigUint64(0, true));
            text += this.read(this.text, size);
        }
    }

    /** Whether the journal is legal, which the library checks anew. */
    isLegal() {
        return this.call("yak_check", this.handle(1)) === DONE;
    }
}
