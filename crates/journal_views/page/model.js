// What a journal says: its entries, and the state of the queues after each of them.
"use strict";

const SENDS = new Set(["send", "tsend"]);
const RECEIVES = new Set(["recv", "trecv"]);
const FIRST_BYTES = 24;

// Callers 1 to 32 are the first threads of the processes 1 to 32, and caller o + 32 t is another
// thread of process o.
const PROCESSES = 32;

function ownerOf(caller) {
  return caller <= PROCESSES ? caller : (caller - 1) % PROCESSES + 1;
}

// The caller that a word of a journal means: `3`, or `3.2` for the second thread of process 3.
function callerOf(word) {
  const [process, thread = "1"] = word.split(".");
  return Number(process) + PROCESSES * (Number(thread) - 1);
}

// Whether two callers are threads of one process.
function share(a, b) {
  return ownerOf(a) === ownerOf(b);
}

// The word of a caller.
function callerWord(caller) {
  const thread = Math.floor((caller - 1) / PROCESSES) + 1;
  return caller <= PROCESSES ? `${caller}` : `${ownerOf(caller)}.${thread}`;
}

// The order of lanes: processes by rising number, the threads of one beside each other.
function byLane(a, b) {
  return ownerOf(a) - ownerOf(b) || a - b;
}

// The entry that a line of a journal has. The payload stays as it is written.
function entryOf(line) {
  const words = line.split(" ");
  const arrow = words.indexOf("->", 3);
  const quoted = words[arrow - 1].startsWith('"') && arrow > 3;
  return {
    place: Number(words[0]),
    process: callerOf(words[1]),
    call: words[2],
    given: words.slice(3, quoted ? arrow - 1 : arrow),
    payload: quoted ? words[arrow - 1].slice(1, -1) : "",
    reply: words[arrow + 1],
    got: words.slice(arrow + 2),
    line,
  };
}

// What a page shows: the state before its entries, in the first line, or null if none is known; and
// the entries. Or, if the first line is the answer of `mqlog judge`, that, and the journal that
// explains a history, or the prefix that none explains.
function pageOf(text) {
  const at = text.indexOf("\n");
  const [first, rest] = [text.slice(0, at), text.slice(at + 1)];
  if (first.startsWith("possible: ")) {
    return { said: first, before: null, entries: entriesOf(rest) };
  }
  if (/^(impossible|undecided): /.test(first)) return { said: first, calls: callsOf(rest) };
  return { before: JSON.parse(first), entries: entriesOf(rest) };
}

// Notes the thread and the step of each entry, by lines PLACE THREAD STEP. Lines `step TEXT` are the
// steps of the run, and lines `end TEXT` say how it ended. It returns these.
function noteThreads(entries, text) {
  const start = entries.length > 0 ? entries[0].place : 0;
  const found = { steps: [], ends: [] };
  for (const line of text.split("\n")) {
    const words = /^(\d+) (\d+) (\d+)$/.exec(line);
    const told = /^(step|end) (.*)$/.exec(line);
    const entry = words && entries[Number(words[1]) - start];
    if (entry) Object.assign(entry, { thread: Number(words[2]), step: Number(words[3]) });
    if (told) (told[1] === "end" ? found.ends : found.steps).push(told[2].trimEnd());
  }
  return found;
}

// The time that a call says: that of its clock, in milliseconds, or null.
function momentOf(entry) {
  const at = entry.given.lastIndexOf("at");
  return at < 0 ? null : Number(entry.given[at + 1]) * 1000 + Number(entry.given[at + 2]) / 1e6;
}

// The time of each entry, in milliseconds from the first that is known: the latest time that it or
// an entry before it says. Null if no two entries say different times.
function timesOf(entries) {
  const times = new Float64Array(entries.length);
  let [first, last] = [null, null];
  entries.forEach((it, i) => {
    const moment = momentOf(it);
    if (moment !== null && first === null) first = moment;
    if (moment !== null) last = last === null ? moment : Math.max(last, moment);
    times[i] = last === null ? 0 : last - first;
  });
  return last === first ? null : times;
}

function entriesOf(text) {
  return text.split("\n").filter((line) => line !== "").map(entryOf);
}

// The number that follows a word of a reply, as in "admitted 7".
function named(entry, word) {
  const at = entry.got.indexOf(word);
  return at < 0 ? null : Number(entry.got[at + 1]);
}

// The message that an entry takes: the place of its send.
function taken(entry) {
  if (entry.reply === "got") return Number(entry.got[0]);
  return entry.reply === "handed" ? entry.place : null;
}

// The wait that an entry ends.
function endedWait(entry) {
  if (entry.reply === "handed" || entry.reply === "withdrawn") return Number(entry.got[0]);
  return named(entry, "admitted");
}

function isError(entry) {
  return /^[A-Z]/.test(entry.reply);
}

// What a message brings to a list of messages.
function messageOf(entry) {
  return {
    place: entry.place,
    process: entry.process,
    priority: Number(entry.given[1]),
    length: Number(entry.given[2]),
    text: firstBytes(entry.payload),
  };
}

// The first bytes of a payload, as they are written.
function firstBytes(payload) {
  const bytes = payload.match(/%[0-9A-F]{2}|[^%]/g) || [];
  return bytes.slice(0, FIRST_BYTES).join("");
}

function emptyState() {
  return { entries: 0, queues: new Map(), processes: new Map() };
}

// Bytes that are written as hexadecimal digits, as a journal writes them.
function textOf(bytes) {
  const escaped = (it) => {
    const b = parseInt(it, 16);
    return b > 32 && b < 127 && b !== 37 ? String.fromCharCode(b) : `%${it.toUpperCase()}`;
  };
  return (bytes.match(/../g) || []).map(escaped).join("");
}

// The same the other way round.
function bytesOf(text) {
  const digits = (it) =>
    it.length === 3 ? it.slice(1).toLowerCase() : it.charCodeAt(0).toString(16);
  return (text.match(/%[0-9A-F]{2}|[^%]/g) || []).map(digits).join("");
}

// The state that `mqlog state --json` has written.
function stateOf(json) {
  const state = emptyState();
  const sent = ({ bytes, ...it }) => ({ ...it, text: textOf(bytes) });
  state.entries = json.entries;
  for (const it of json.queues) {
    const lists = { messages: it.messages.map(sent), senders: it.senders.map(sent) };
    state.queues.set(it.queue, { ...it, ...lists });
  }
  for (const it of json.processes) {
    const held = new Map(it.descriptors.map((h) => [h.descriptor, h]));
    const { wait, answered, notices } = it;
    const own = ownOf(state, it.process) || { held, notices };
    state.processes.set(it.process, { process: it.process, wait, answered, own });
  }
  return state;
}

function copyOf(state) {
  const queues = new Map();
  for (const [q, it] of state.queues) {
    const lists = { messages: [...it.messages], senders: [...it.senders] };
    queues.set(q, { ...it, ...lists, receivers: [...it.receivers] });
  }
  const owned = new Map();
  const processes = new Map();
  for (const [p, it] of state.processes) {
    const owner = ownerOf(p);
    if (!owned.has(owner)) {
      owned.set(owner, { held: new Map(it.own.held), notices: [...it.own.notices] });
    }
    processes.set(p, { ...it, own: owned.get(owner) });
  }
  return { entries: state.entries, queues, processes };
}

// What the threads of a caller's process have together: descriptors and notices. Undefined if none
// of them has called.
function ownOf(state, p) {
  for (const it of state.processes.values()) {
    if (ownerOf(it.process) === ownerOf(p)) return it.own;
  }
  return undefined;
}

// The callers in the order of their lanes.
function callersOf(state) {
  return [...state.processes.values()].sort((a, b) => byLane(a.process, b.process));
}

// A caller: its wait, and what its process has.
function processOf(state, p) {
  if (!state.processes.has(p)) {
    const own = ownOf(state, p) || { held: new Map(), notices: [] };
    state.processes.set(p, { process: p, wait: null, answered: null, own });
  }
  return state.processes.get(p);
}

function boundQueue(state, name) {
  for (const it of state.queues.values()) {
    if (it.named && it.name === name) return it;
  }
  return null;
}

// Takes what has this place out of a list.
function removePlace(list, place) {
  const at = list.findIndex((it) => it.place === place);
  if (at >= 0) list.splice(at, 1);
}

// Adds a message where it will be received: by priority, then by the place of its send.
function addMessage(queue, message) {
  const first = (it) => it.priority > message.priority ||
    (it.priority === message.priority && it.place < message.place);
  let at = queue.messages.length;
  while (at > 0 && !first(queue.messages[at - 1])) at -= 1;
  queue.messages.splice(at, 0, message);
}

// Lets queues go that have no name and that nobody holds.
function forget(state) {
  const held = new Set();
  for (const it of state.processes.values()) {
    for (const h of it.own.held.values()) held.add(h.queue);
  }
  for (const [q, it] of state.queues) {
    if (!it.named && !held.has(q)) state.queues.delete(q);
  }
}

function followOpen(state, entry, process) {
  const d = Number(entry.got[0]);
  let queue = boundQueue(state, entry.payload);
  if (entry.got[1] === "created") {
    const at = entry.given.indexOf("limits");
    const [maxmsg, msgsize] = at < 0 ? ["10", "8192"] : entry.given.slice(at + 1);
    queue = {
      queue: entry.place, name: entry.payload, named: true, maxmsg, msgsize,
      messages: [], senders: [], receivers: [], registration: null,
    };
    state.queues.set(entry.place, queue);
  }
  const flags = entry.given[0];
  process.own.held.set(d, {
    descriptor: d, queue: queue ? queue.queue : 0, access: flags[0], nonblock: flags.includes("n"),
  });
}

function followClose(state, entry, process) {
  const d = Number(entry.given[0]);
  process.own.held.delete(d);
  for (const it of state.queues.values()) {
    const n = it.registration;
    if (n && share(n.process, entry.process) && n.descriptor === d) it.registration = null;
  }
  forget(state);
}

function followUnlink(state, entry) {
  const queue = boundQueue(state, entry.payload);
  if (queue) queue.named = false;
  forget(state);
}

function followNotify(entry, queue) {
  const value = entry.given[1];
  if (value !== "-") {
    const descriptor = Number(entry.given[0]);
    queue.registration = { place: entry.place, process: entry.process, descriptor, value };
  } else if (queue.registration && share(queue.registration.process, entry.process)) {
    queue.registration = null;
  }
}

// The registration that a reply notified becomes a notice of its process.
function followNotice(state, entry, queue) {
  const place = named(entry, "notified");
  if (place === null || !queue.registration || queue.registration.place !== place) return;
  processOf(state, queue.registration.process).own.notices.push(queue.registration.value);
  queue.registration = null;
}

function answer(state, place, by) {
  for (const it of state.processes.values()) {
    if (it.wait === place) it.answered = by;
  }
}

function followMessages(state, entry, queue) {
  const message = taken(entry);
  if (message !== null) removePlace(queue.messages, message);
  const wait = endedWait(entry);
  if (wait === null) return;
  const sender = queue.senders.find((it) => it.place === wait);
  if (sender && entry.reply === "got") addMessage(queue, sender);
  removePlace(queue.senders, wait);
  removePlace(queue.receivers, wait);
  if (entry.reply !== "withdrawn") answer(state, wait, entry.place);
}

function followWait(entry, process, queue) {
  process.wait = entry.place;
  if (!queue) return;
  if (SENDS.has(entry.call)) queue.senders.push(messageOf(entry));
  else queue.receivers.push({ place: entry.place, process: entry.process });
}

// The queue that an entry is made on, by the state before it.
function queueOf(state, entry) {
  if (entry.call === "withdraw" || entry.call === "collect") {
    const { wait } = state.processes.get(entry.process) || { wait: null };
    for (const it of state.queues.values()) {
      if ([...it.senders, ...it.receivers].some((w) => w.place === wait)) return it;
    }
    return null;
  }
  const own = ownOf(state, entry.process);
  const h = own && own.held.get(Number(entry.given[0]));
  return entry.call === "open" || !h ? null : state.queues.get(h.queue) || null;
}

// Goes on from the state before an entry to the one after it.
function follow(state, entry) {
  const queue = queueOf(state, entry);
  const process = processOf(state, entry.process);
  process.wait = null;
  process.answered = null;
  state.entries += 1;
  if (entry.reply === "fd") followOpen(state, entry, process);
  else if (entry.reply === "waits") followWait(entry, process, queue);
  else if (entry.reply === "attr") followAttributes(entry, process);
  else if (entry.reply === "notice") followGiven(entry, process);
  else if (entry.reply === "ok") followDone(state, entry, process, queue);
  else if (queue) {
    followMessages(state, entry, queue);
    if (entry.reply === "queued") addMessage(queue, messageOf(entry));
    followNotice(state, entry, queue);
  }
}

function followDone(state, entry, process, queue) {
  if (entry.call === "close") followClose(state, entry, process);
  else if (entry.call === "unlink") followUnlink(state, entry);
  else if (entry.call === "notify" && queue) followNotify(entry, queue);
}

function followAttributes(entry, process) {
  const d = Number(entry.given[0]);
  const h = process.own.held.get(d);
  if (entry.call !== "setattr" || !h) return;
  process.own.held.set(d, { ...h, nonblock: entry.given[1] === "1" });
}

function followGiven(entry, process) {
  if (entry.got[0] !== "none") process.own.notices.shift();
}

// How many entries there are at least between two copies of a state, and how many of its messages
// count as one entry: a copy of a long state is dear, and few of them are kept.
const LEAST_APART = 50;
const MESSAGES_AN_ENTRY = 32;

function messagesIn(state) {
  return [...state.queues.values()].reduce((sum, it) => sum + it.messages.length, 0);
}

// The states of a journal: copies of some are kept, and the others are computed from these.
class States {
  constructor(entries, before) {
    this.entries = entries;
    this.kept = [];
    // The number of entries before each copy.
    this.places = [];
    const state = before ? stateOf(before) : emptyState();
    if (!before && entries.length > 0) state.entries = entries[0].place;
    // The queue of each entry, and the names of all queues.
    this.queues = [];
    this.names = new Map([...state.queues].map(([q, it]) => [q, it.name]));
    const least = Math.max(LEAST_APART, Math.ceil(entries.length / 2000));
    for (let k = 0, next = 0; k <= entries.length; k += 1) {
      if (k >= next) {
        this.kept.push(copyOf(state));
        this.places.push(k);
        next = k + Math.max(least, Math.ceil(messagesIn(state) / MESSAGES_AN_ENTRY));
      }
      if (k < entries.length) this.note(state, entries[k]);
    }
  }

  note(state, entry) {
    const before = queueOf(state, entry);
    follow(state, entry);
    const { held } = state.processes.get(entry.process).own;
    const opened = entry.reply === "fd" ? held.get(Number(entry.got[0])) : null;
    const queue = opened ? state.queues.get(opened.queue) : before;
    if (queue) this.names.set(queue.queue, queue.name);
    this.queues.push(queue ? queue.queue : null);
  }

  // The state before the k-th entry of the page.
  at(k) {
    let [low, high] = [0, this.places.length];
    while (high - low > 1) {
      const middle = Math.floor((low + high) / 2);
      if (this.places[middle] <= k) low = middle;
      else high = middle;
    }
    const state = copyOf(this.kept[low]);
    for (let i = this.places[low]; i < k; i += 1) follow(state, this.entries[i]);
    return state;
  }
}

function quoted(text) {
  return `"${text.replace(/["\\]/g, "\\$&")}"`;
}

function messageJson(it) {
  return `"priority":${it.priority},"length":${it.length},"bytes":"${bytesOf(it.text)}"}`;
}

function registrationJson(n) {
  if (!n) return "null";
  return `{"place":${n.place},"process":${n.process},"descriptor":${n.descriptor},` +
    `"value":"${n.value}"}`;
}

function queueJson(it) {
  const messages = it.messages.map((m) => `{"place":${m.place},${messageJson(m)}`);
  const senders = it.senders
    .map((m) => `{"place":${m.place},"process":${m.process},${messageJson(m)}`);
  const receivers = it.receivers.map((w) => `{"place":${w.place},"process":${w.process}}`);
  return `{"queue":${it.queue},"name":${quoted(it.name)},"named":${it.named},` +
    `"maxmsg":${it.maxmsg},"msgsize":${it.msgsize},"messages":[${messages}],` +
    `"senders":[${senders}],"receivers":[${receivers}],` +
    `"registration":${registrationJson(it.registration)}}`;
}

function processJson(it) {
  const held = [...it.own.held.values()].sort((a, b) => a.descriptor - b.descriptor);
  const descriptors = held.map((h) => `{"descriptor":${h.descriptor},"queue":${h.queue},` +
    `"access":"${h.access}","nonblock":${h.nonblock}}`);
  const notices = it.own.notices.map((value) => `"${value}"`);
  return `{"process":${it.process},"wait":${it.wait},"answered":${it.answered},` +
    `"descriptors":[${descriptors}],"notices":[${notices}]}`;
}

// A state as `mqlog state --json` writes it.
function stateJson(state) {
  const queues = [...state.queues.values()].sort((a, b) => a.queue - b.queue).map(queueJson);
  const processes = [...state.processes.values()].sort((a, b) => a.process - b.process)
    .map(processJson);
  return `{"entries":${state.entries},"queues":[${queues}],"processes":[${processes}]}\n`;
}

if (typeof module !== "undefined") {
  module.exports = {
    SENDS, RECEIVES, States, byLane, callerOf, callerWord, copyOf, emptyState, endedWait, entriesOf,
    entryOf, follow, isError, named, noteThreads, ownOf, pageOf, queueOf, share, stateJson,
    taken, timesOf,
  };
}
