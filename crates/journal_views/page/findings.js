// What stands out in a journal: what a reader should look at first.
"use strict";

// Who waits at the end, and whether for ever.
function waitFindings(journal, state) {
  const stuck = stuckProcesses(journal, state);
  const last = journal.entries.length - 1;
  const found = [];
  const gone = [...stuck].filter((p) => !waitOf(state, p).queue).sort(byLane);
  if (gone.length > 0) {
    const text = `${namesOf(gone)} ${gone.length === 1 ? "waits" : "wait"} for ever on a queue that ` +
      "is gone: another thread of the process has closed its last descriptor.";
    found.push({ text, i: last, grave: true });
  }
  const ever = [...stuck].filter((p) => waitOf(state, p).queue).sort(byLane);
  if (ever.length > 0) {
    const waits = `${namesOf(ever)} ${ever.length === 1 ? "waits" : "wait"} at the end`;
    const free = callersOf(state).filter((it) => it.wait === null).map((it) => it.process);
    const text = free.length === 0
      ? `Deadlock: ${waits.toLowerCase()}, and nobody who could answer runs.`
      : `${waits}, and nobody who has the ${ever.length === 1 ? "queue" : "queues"} open could ` +
        `answer. ${namesOf(free)} ${free.length === 1 ? "runs" : "run"}, and would have to open ` +
        `${ever.length === 1 ? "it" : "them"} first.`;
    found.push({ text, i: last, grave: true });
  }
  const others = [...state.processes.values()]
    .filter((it) => it.wait !== null && it.answered === null && !stuck.has(it.process))
    .map((it) => it.process).sort(byLane);
  if (others.length > 0) {
    const text = `${namesOf(others)} still ${others.length === 1 ? "waits" : "wait"} at the end.`;
    found.push({ text, i: last });
  }
  return found;
}

// Registrations that still stand though there are messages: their notice does not come.
function registrationFindings(journal, state) {
  const found = [];
  for (const queue of state.queues.values()) {
    const n = queue.registration;
    if (!n || queue.messages.length === 0) continue;
    const lie = queue.messages.length === 1 ? "lies" : "lie";
    const text = `${namesOf([n.process])} waits for a notice of ${queueName(queue)} ` +
      `that does not come: ${counted(queue.messages.length, "message")} ${lie} there, and a ` +
      "notice comes only with a message to an empty queue.";
    found.push({ text, i: n.place - journal.links.start, grave: true });
  }
  return found.filter((it) => journal.entries[it.i]);
}

// Sends that waited for room while messages of a lower priority went by: the one with the most.
function inversionFindings(journal) {
  const { entries, links, states } = journal;
  let worst = null;
  let count = 0;
  entries.forEach((it, i) => {
    if (!SENDS.has(it.call) || it.reply !== "waits") return;
    const end = links.takenAt.get(it.place);
    const priority = Number(it.given[1]);
    let lower = 0;
    for (let k = i + 1; k < (end === undefined ? entries.length : end); k += 1) {
      const message = states.queues[k] === states.queues[i] ? taken(entries[k]) : null;
      const sent = message === null ? null : entries[message - links.start];
      if (sent && Number(sent.given[1]) < priority) lower += 1;
    }
    if (lower > 0) count += 1;
    if (lower > (worst ? worst.lower : 0)) worst = { i, lower, priority };
  });
  if (!worst) return [];
  const more = count > 1 ? `, the worst of ${count} such sends` : "";
  const were = worst.lower === 1 ? "was" : "were";
  const text = `Priority inversion: a message of priority ${worst.priority} waited for room ` +
    `while ${counted(worst.lower, "message")} of a lower priority ${were} received${more}. ` +
    "A full queue admits in the order of waiting.";
  return [{ text, i: worst.i, grave: true }];
}

// The median of numbers.
function middleOf(numbers) {
  return [...numbers].sort((a, b) => a - b)[numbers.length >> 1];
}

// By how much of the period a send may be late that counts as periodic, and how many periods without
// a send stand out.
const TOLERANCE = 0.2;
const MISSED = 1.9;

// What did not happen: sends of one caller to one queue that came with a period, and then for a
// while did not.
function missingFindings(journal) {
  const { entries, states, times } = journal;
  if (!times) return [];
  const sends = new Map();
  entries.forEach((it, i) => {
    if (!isSent(it)) return;
    const key = `${it.process} ${states.queues[i]}`;
    if (!sends.has(key)) sends.set(key, []);
    sends.get(key).push(i);
  });
  return [...sends.values()].flatMap((list) => missingAmong(journal, list));
}

// The longest gap among periodic sends. The end of the journal counts as a send.
function missingAmong(journal, sends) {
  const { entries, states, times, links } = journal;
  const ends = [...sends.slice(1).map((i) => times[i]), times[entries.length - 1]];
  const gaps = sends.map((i, k) => ends[k] - times[i]);
  const period = middleOf(gaps.slice(0, -1));
  const isRegular = (gap) => Math.abs(gap - period) <= TOLERANCE * period;
  const odd = gaps.slice(0, -1).filter((gap) => !isRegular(gap)).length;
  const longest = gaps.reduce((best, gap, k) => (gap > gaps[best] ? k : best), 0);
  const isPeriodic = period > 0 && gaps.length - 1 - odd >= 2 && odd <= 1;
  if (!isPeriodic || gaps[longest] < MISSED * period) return [];
  const i = sends[longest];
  const queue = queueOf(states.at(i), entries[i]);
  const text = `${namesOf([entries[i].process])} sent to ${queueName(queue)} every ` +
    `${secondsText(period)}, but nothing for ${secondsText(gaps[longest])} after entry ` +
    `${i + links.start}.`;
  return [{ text, i, grave: true }];
}

// Calls whose deadline passed. Often that is what was wanted.
function lateFindings(journal) {
  const late = journal.entries.filter((it) => it.reply === "ETIMEDOUT");
  if (late.length === 0) return [];
  const i = late[0].place - journal.links.start;
  return [{ text: `${counted(late.length, "deadline")} passed (ETIMEDOUT). The first:`, i }];
}

function errorFindings(journal) {
  const counts = new Map();
  let first = -1;
  journal.entries.forEach((it, i) => {
    if (!isError(it) || it.reply === "ETIMEDOUT") return;
    if (first < 0) first = i;
    counts.set(it.reply, (counts.get(it.reply) || 0) + 1);
  });
  if (first < 0) return [];
  const list = [...counts].map(([reply, n]) => `${n} ${reply}`);
  return [{ text: `Errors: ${few(list)}. The first:`, i: first }];
}

// Messages that nobody received.
function leftFindings(journal, state) {
  const left = [...state.queues.values()].flatMap((it) => it.messages.map((m) => m.place));
  if (left.length === 0) return [];
  const oldest = left.reduce((a, b) => Math.min(a, b));
  const i = oldest - journal.links.start;
  const text = `${counted(left.length, "message")} ${left.length === 1 ? "lies" : "lie"} in the ` +
    `queues at the end. The oldest${i < 0 ? `, ${oldest}, was sent before the window.` : ":"}`;
  return [{ text, i: i < 0 ? undefined : i }];
}

// How the run ended, if yak-explore has said it: then nobody has to guess from the waits.
function endFindings({ ends }) {
  return ends.map((it, k) => (k === 0 ? { text: `The run ended: ${it}`, grave: true } :
    { text: it, depth: 1 }));
}

function findingsOf(journal) {
  const ended = endFindings(journal.threads);
  if (journal.entries.length === 0) return ended;
  const state = journal.states.at(journal.entries.length);
  const waits = ended.length > 0 ? ended : waitFindings(journal, state);
  const found = [...waits, ...missingFindings(journal), ...registrationFindings(journal, state),
    ...inversionFindings(journal), ...errorFindings(journal), ...lateFindings(journal),
    ...leftFindings(journal, state)];
  return found.length > 0 ? found :
    [{ text: "Nothing: no call failed, nobody waits at the end, and the queues are empty. Whether " +
      "the replies are right, mqlog check tells." }];
}
