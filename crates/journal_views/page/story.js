// What became of a message or a registration, and why a process waits.
"use strict";

// The links between entries: where a message was taken, and where a wait ended.
class Links {
  constructor(entries) {
    this.start = entries.length > 0 ? entries[0].place : 0;
    this.takenAt = new Map();
    this.endedAt = new Map();
    this.collectedAt = new Map();
    this.notifiedAt = new Map();
    entries.forEach((it, i) => this.note(it, i));
  }

  note(entry, i) {
    const message = taken(entry);
    if (message !== null) this.takenAt.set(message, i);
    const wait = endedWait(entry);
    if (wait !== null) this.endedAt.set(wait, i);
    if (entry.reply === "collected") this.collectedAt.set(Number(entry.got[0]), i);
    const place = named(entry, "notified");
    if (place !== null) this.notifiedAt.set(place, i);
  }
}

function isSent(entry) {
  return SENDS.has(entry.call) && ["queued", "handed", "waits"].includes(entry.reply);
}

// The send whose message an entry has to do with.
function messageAt(journal, i) {
  const entry = journal.entries[i];
  if (isSent(entry)) return entry.place;
  const message = taken(entry);
  if (message !== null) return message;
  if (entry.reply !== "collected") return null;
  const by = journal.entries[Number(entry.got[0]) - journal.links.start];
  return by && by.reply === "handed" ? by.place : null;
}

function counted(n, what) {
  return `${n} ${what}${n === 1 ? "" : "s"}`;
}

function few(list) {
  return list.length <= 6 ? list.join(", ") : `${list.slice(0, 6).join(", ")} ..`;
}

// Callers by their words, as in "Process 3.2" or "Processes 1, 2".
function namesOf(callers) {
  return `${callers.length === 1 ? "Process" : "Processes"} ${few(callers.map(callerWord))}`;
}

function queueName(queue) {
  if (!queue) return "a queue from before the window";
  const name = queue.name === "" ? "without a name" : queue.name;
  return `queue ${queue.queue} (${name}${queue.named ? "" : ", unlinked"})`;
}

// Where a message went, step by step: texts with the places that they speak of.
function messageStory(journal, place) {
  const { entries, links, states } = journal;
  const i = place - links.start;
  const sent = entries[i];
  if (!sent) return [{ text: `Message ${place} was sent before the window.` }];
  const queue = queueOf(states.at(i), sent);
  const size = `priority ${sent.given[1]}, ${counted(Number(sent.given[2]), "byte")}`;
  const text = `${namesOf([sent.process])} sent it to ${queueName(queue)}: ${size}.`;
  const steps = [{ text, i }];
  if (sent.reply === "waits") steps.push(...admissionStory(journal, place));
  const end = links.takenAt.get(place);
  if (end === undefined) {
    const left = links.endedAt.has(place) || sent.reply !== "waits";
    if (left && !isWithdrawn(journal, place)) {
      steps.push({ text: "Nobody received it by the end of the journal." });
    }
    return steps;
  }
  steps.push(...overtakingStory(journal, place, end, queue), receiptStep(journal, end));
  return steps;
}

function isWithdrawn(journal, place) {
  const end = journal.links.endedAt.get(place);
  return end !== undefined && journal.entries[end].reply === "withdrawn";
}

function admissionStory(journal, place) {
  const steps = [{ text: "The queue was full, so the send waited." }];
  const end = journal.links.endedAt.get(place);
  if (end === undefined) steps.push({ text: "It still waits at the end of the journal." });
  else if (isWithdrawn(journal, place)) {
    steps.push({ text: "Its deadline passed: the message was never in the queue.", i: end });
  } else steps.push({ text: "A receive made room, and it was admitted.", i: end });
  return steps;
}

function receiptStep(journal, end) {
  const entry = journal.entries[end];
  if (entry.reply === "got") {
    return { text: `${namesOf([entry.process])} received it.`, i: end };
  }
  const waiting = journal.entries[Number(entry.got[0]) - journal.links.start];
  const who = waiting ? `process ${callerWord(waiting.process)}` : "a process";
  return { text: `It was handed to ${who}, which waited for a message.`, i: end };
}

// What was received from the queue before this message, though it was sent later or has a lower
// priority.
function overtakingStory(journal, place, end, queue) {
  const { entries, links, states } = journal;
  const start = place - links.start;
  const priority = (m) => (entries[m - links.start] ? Number(entries[m - links.start].given[1]) : 0);
  const found = [];
  for (let k = start + 1; k < end; k += 1) {
    const on = queue && states.queues[k] === queue.queue;
    if (on && taken(entries[k]) !== null) found.push(k);
  }
  const later = found.filter((k) => taken(entries[k]) > place);
  const lower = found.filter((k) => priority(taken(entries[k])) < priority(place));
  return [...countStep("Sent later and received earlier", later),
    ...countStep("Of a lower priority and received earlier", lower)];
}

function countStep(what, found) {
  if (found.length === 0) return [];
  const count = `${found.length} ${found.length === 1 ? "message" : "messages"}`;
  return [{ text: `${what}: ${count}, the first by`, i: found[0] }];
}

// What became of a registration.
function registrationStory(journal, i) {
  const { entries, links } = journal;
  const made = entries[i];
  const text = `${namesOf([made.process])} registered with value ${made.given[1]}.`;
  const steps = [{ text, i }];
  const end = links.notifiedAt.get(made.place);
  if (end === undefined) return [...steps, ...lostStory(journal, i)];
  steps.push({ text: "A message came to the empty queue and ended it: a notice.", i: end });
  for (let k = end + 1; k < entries.length; k += 1) {
    const it = entries[k];
    if (share(it.process, made.process) && it.reply === "notice" && it.got[0] === made.given[1]) {
      return [...steps, { text: "The process took the notice.", i: k }];
    }
  }
  return [...steps, { text: "The process never asked for the notice." }];
}

// Where a registration ended without a notice, if it did, and what it missed.
function lostStory(journal, i) {
  const { entries, states } = journal;
  const made = entries[i];
  const queue = queueOf(states.at(i), made);
  const steps = [];
  let handed = false;
  const state = states.at(i + 1);
  const there = queue ? queue.messages.length : 0;
  if (there > 0) {
    const text = `The queue had ${there} ${there === 1 ? "message" : "messages"} then: a notice ` +
      "comes only with a message to an empty queue.";
    steps.push({ text, i });
  }
  for (let k = i + 1; k < entries.length && queue; k += 1) {
    const on = queueOf(state, entries[k]);
    const same = on && on.queue === queue.queue;
    if (same && entries[k].reply === "handed" && !handed) {
      handed = true;
      const text = "A message came, but a receive waited: it was handed over, without a notice.";
      steps.push({ text, i: k });
    }
    follow(state, entries[k]);
    const now = state.queues.get(queue.queue);
    if (!now || !now.registration || now.registration.place !== made.place) {
      const text = `It ended without a notice: ${entries[k].call} of process ` +
        `${callerWord(entries[k].process)}.`;
      return [...steps, { text, i: k }];
    }
  }
  return [...steps, { text: "It still stands at the end of the journal." }];
}

// The queue on which a process waits, and with which kind of call. The queue is null if it is gone,
// since another thread of the process has closed its last descriptor.
function waitOf(state, p) {
  const process = state.processes.get(p);
  if (!process || process.wait === null) return null;
  for (const queue of state.queues.values()) {
    const sends = queue.senders.some((it) => it.place === process.wait);
    if (sends || queue.receivers.some((it) => it.place === process.wait)) {
      return { queue, sends, place: process.wait };
    }
  }
  return { queue: null, sends: false, place: process.wait };
}

// The processes that could answer a wait: those that may receive from the queue, or send to it.
function couldAnswer(state, wait, p) {
  const access = wait.sends ? "r" : "w";
  const found = [];
  for (const it of state.processes.values()) {
    const held = [...it.own.held.values()];
    const can = held.some((h) => wait.queue && h.queue === wait.queue.queue &&
      (h.access === "b" || h.access === access));
    if (can && it.process !== p) found.push(it.process);
  }
  return found.sort(byLane);
}

// The processes that wait for ever unless somebody else comes: none that could answer them runs, and
// no deadline ends their wait.
function stuckProcesses(journal, state) {
  const stuck = new Set();
  for (const it of state.processes.values()) {
    const wait = waitOf(state, it.process);
    const call = wait && journal.entries[wait.place - journal.links.start];
    const timed = !call || call.call.startsWith("t");
    if (wait && it.answered === null && !timed) stuck.add(it.process);
  }
  let size = -1;
  while (size !== stuck.size) {
    size = stuck.size;
    for (const p of [...stuck]) {
      if (couldAnswer(state, waitOf(state, p), p).some((q) => !stuck.has(q))) stuck.delete(p);
    }
  }
  return stuck;
}

// Why a process waits: the queue, who could answer, and why each of those does not.
function waitStory(journal, state, p, k) {
  const steps = [];
  const seen = new Set();
  const tell = (q, depth) => {
    seen.add(q);
    const wait = waitOf(state, q);
    steps.push({ depth, text: waitText(journal, state, q, wait), i: lastOf(journal, q, k) });
    if (!wait || !wait.queue) return;
    for (const other of couldAnswer(state, wait, q)) {
      if (seen.has(other)) {
        const text = `${namesOf([other])} could answer: it was told of above.`;
        steps.push({ depth: depth + 1, text });
      } else tell(other, depth + 1);
    }
  };
  tell(p, 0);
  return steps.slice(1);
}

function waitText(journal, state, p, wait) {
  const { answered } = state.processes.get(p);
  const name = namesOf([p]);
  if (!wait) return `${name} does not wait: it may call. Its last call was`;
  if (answered !== null) return `${name} was answered by entry ${answered}, and has not gone on yet.`;
  if (!wait.queue) return `${name} waits since entry ${wait.place} on a queue that is gone.`;
  const what = wait.sends ? "room in" : "a message in";
  const who = couldAnswer(state, wait, p);
  const could = wait.sends ? "could receive from it" : "could send to it";
  const list = who.length === 0 ? "No other process" : namesOf(who);
  return `${name} waits for ${what} ${queueName(wait.queue)} since entry ${wait.place}. ` +
    `${list} ${could}.`;
}

// The last entry of a process before the k-th.
function lastOf(journal, p, k) {
  for (let i = Math.min(k, journal.entries.length) - 1; i >= 0; i -= 1) {
    if (journal.entries[i].process === p) return i;
  }
  return undefined;
}
