// What is told of an entry: its line, the state before and after, and its stories.
"use strict";

const CALLS = {
  open: "opens a queue", close: "closes a descriptor", unlink: "unlinks a name",
  send: "sends", tsend: "sends until a deadline", recv: "receives",
  trecv: "receives until a deadline", getattr: "asks for attributes",
  setattr: "sets the nonblocking flag", notify: "registers, or removes its registration",
  notice: "asks for its oldest notice", collect: "collects what ended its wait",
  withdraw: "withdraws its wait, whose deadline has passed",
};

const FAULTS = {
  EAGAIN: "the call would have to wait, and its descriptor is nonblocking",
  EBADF: "the descriptor is not open for this", EBUSY: "a process is registered already",
  EEXIST: "the queue exists already", EINVAL: "an argument is not valid",
  EMFILE: "the process has no free descriptor", EMSGSIZE: "the length does not fit the queue",
  ENAMETOOLONG: "the name is too long", ENOENT: "no queue has this name",
  ENOSPC: "there is no room for another queue", ETIMEDOUT: "the deadline has passed",
};

// What an entry's reply says.
function replyText(entry) {
  const { reply, got } = entry;
  const full = SENDS.has(entry.call) ? "the queue is full" : "the queue is empty";
  const texts = {
    queued: "the message is put into the queue", waits: `${full}, so it waits`,
    handed: `the message goes to the receive ${got[0]}, which waited`,
    got: `it gets message ${got[0]}`, collected: `entry ${got[0]} answered it`,
    withdrawn: `of entry ${got[0]}`,
    fd: `as descriptor ${got[0]}${got[1] ? ", and creates it" : ""}`,
    notice: got[0] === "none" ? "there is none" : `its value is ${got[0]}`,
  };
  const text = texts[reply] || FAULTS[reply];
  const admitted = named(entry, "admitted");
  const more = admitted === null ? "" : `, and the send ${admitted}, which waited, is admitted`;
  return text ? `: ${text}${more}` : more;
}

// The rows of a state: each has a key, by which it is found again, and a text.
function rowsOf(state) {
  const rows = [];
  const add = (key, text) => rows.push({ key, text });
  for (const it of [...state.queues.values()].sort((a, b) => a.queue - b.queue)) {
    const limits = `${it.messages.length} of ${it.maxmsg} messages, of ${it.msgsize} bytes at most`;
    add(`q${it.queue}`, `${queueName(it)}: ${limits}`);
    it.messages.forEach((m, i) => add(`q${it.queue}m${m.place}`, `  ${messageText(m, i)}`));
    for (const w of it.senders) {
      const text = `  process ${callerWord(w.process)} waits to send since ${w.place}: ` +
        `priority ${w.priority}`;
      add(`q${it.queue}s${w.place}`, text);
    }
    for (const w of it.receivers) {
      const text = `  process ${callerWord(w.process)} waits to receive since ${w.place}`;
      add(`q${it.queue}r${w.place}`, text);
    }
    const n = it.registration;
    if (n) {
      const text = `  process ${callerWord(n.process)} is registered since ${n.place}, ` +
        `with value ${n.value}`;
      add(`q${it.queue}n`, text);
    }
  }
  for (const it of callersOf(state)) {
    rows.push(...processRows(it));
  }
  return rows;
}

function messageText(m, i) {
  const text = m.text === "" ? "" : ` "${m.text}"`;
  return `${i === 0 ? "next" : "then"}: message ${m.place}, priority ${m.priority}, ` +
    `${counted(Number(m.length), "byte")}${text}`;
}

function processRows(it) {
  const p = it.process;
  const answered = it.answered === null ? "" : `, answered by ${it.answered}`;
  const waits = it.wait === null ? "" : `: waits since ${it.wait}${answered}`;
  const rows = [{ key: `p${p}`, text: `process ${callerWord(p)}${waits}` }];
  for (const h of [...it.own.held.values()].sort((a, b) => a.descriptor - b.descriptor)) {
    const access = { r: "read", w: "write", b: "read and write" }[h.access];
    const text = `  descriptor ${h.descriptor}: queue ${h.queue}, ${access}` +
      `${h.nonblock ? ", nonblocking" : ""}`;
    rows.push({ key: `p${p}d${h.descriptor}`, text });
  }
  it.own.notices.forEach((v, i) => rows.push({ key: `p${p}v${i}`, text: `  notice ${v}` }));
  return rows;
}

// The rows of two states side by side: each key once, in an order that both keep where they can.
function sideBySide(before, after) {
  const old = new Map(before.map((it) => [it.key, it.text]));
  const now = new Map(after.map((it) => [it.key, it.text]));
  const rows = [];
  const done = new Set();
  const push = (key) => {
    if (!done.has(key)) rows.push({ key, old: old.get(key), now: now.get(key) });
    done.add(key);
  };
  let k = 0;
  for (const { key } of before) {
    for (; now.has(key) && k < after.length && after[k].key !== key; k += 1) push(after[k].key);
    push(key);
  }
  for (; k < after.length; k += 1) push(after[k].key);
  return rows;
}

function element(name, text, properties = {}) {
  const made = document.createElement(name);
  made.textContent = text;
  return Object.assign(made, properties);
}

function cell(text, other, mark, className) {
  if (text === undefined) return element("td", "");
  if (text === other) return element("td", `  ${text}`);
  return element("td", `${mark} ${text}`, { className });
}

const MOST_ROWS = 40;

// The queue or the process that a row is of.
function groupOf(key) {
  return /^[qp]\d+/.exec(key)[0];
}

// The states before and after side by side. Of long ones the queues and processes that stay as they
// were stand behind a line.
function stateTable(before, after) {
  const rows = sideBySide(rowsOf(before), rowsOf(after));
  const changed = new Set(rows.filter((it) => it.old !== it.now).map((it) => groupOf(it.key)));
  const shown = rows.length <= MOST_ROWS ? rows : rows.filter((it) => changed.has(groupOf(it.key)));
  const parts = [tableOf(shown)];
  if (shown.length < rows.length) {
    const rest = rows.filter((it) => !changed.has(groupOf(it.key)));
    const groups = [...new Set(rest.map((it) => groupOf(it.key)))];
    const queues = groups.filter((it) => it.startsWith("q")).length;
    const processes = groups.length - queues;
    const text = `${counted(queues, "queue")} and ${processes} ` +
      `${processes === 1 ? "process" : "processes"} stay as they were`;
    parts.push(folded(text, () => tableOf(rest), false));
  }
  return parts;
}

function tableOf(rows) {
  const table = document.createElement("table");
  const head = table.insertRow();
  head.append(element("th", "before: \u2212 is gone or was other"));
  head.append(element("th", "after: + is new"));
  for (const { old, now } of rows) {
    const row = table.insertRow();
    row.append(cell(old, now, "\u2212", "gone"), cell(now, old, "+", "new"));
  }
  return table;
}

// A line behind which more stands, which is made once it is opened.
function folded(text, more, open) {
  const made = element("details", "");
  made.append(element("summary", text));
  const fill = () => {
    if (made.open && made.childElementCount === 1) made.append(more());
  };
  made.addEventListener("toggle", fill);
  made.open = open;
  fill();
  return made;
}

function storyItems(page, steps) {
  const list = document.createElement("ul");
  for (const it of steps) {
    const line = element("li", it.text, { className: it.grave ? "grave" : "" });
    line.style.paddingLeft = `${(it.depth || 0) * 18}px`;
    if (it.i !== undefined) {
      const link = element("a", page.nameOf(it.i), { href: "#" });
      link.addEventListener("click", (event) => {
        event.preventDefault();
        page.choose(it.i);
        page.input("entry").querySelector("h2").focus();
      });
      line.append(" ", link);
    }
    list.append(line);
  }
  return list;
}

// A heading that can have the focus.
function heading(text) {
  return element("h2", text, { tabIndex: -1 });
}

function storyList(page, title, steps) {
  return [element("h2", title), storyItems(page, steps)];
}

// The stories of an entry, and the sends that the picture marks for them.
function storiesOf(page, i, after) {
  const { journal } = page;
  const entry = journal.entries[i];
  const parts = [];
  const message = messageAt(journal, i);
  if (message !== null) {
    const title = `Where did message ${message} go?`;
    parts.push(...storyList(page, title, messageStory(journal, message)));
  }
  if (entry.call === "notify" && entry.reply === "ok" && entry.given[1] !== "-") {
    const title = "What became of this registration?";
    parts.push(...storyList(page, title, registrationStory(journal, i)));
  }
  return [...parts, ...waitStories(page, i, after)];
}

// Who waits after an entry: a line for each process, behind which the chain stands.
function waitStories(page, i, after) {
  const { journal } = page;
  const waiting = callersOf(after).filter((it) => it.wait !== null);
  if (waiting.length === 0) return [];
  const stuck = stuckProcesses(journal, after);
  const parts = [element("h2", "Who waits, and why?")];
  const open = [...stuck].filter((p) => waitOf(after, p).queue);
  if (open.length > 0) {
    const list = open.sort(byLane).map(callerWord).join(", ");
    const text = `Nobody who has the queue open and could answer ${list} runs. ` +
      "Only a process that opens the queue can end this.";
    parts.push(element("p", text, { className: "grave" }));
  }
  for (const it of waiting) {
    const own = it.process === journal.entries[i].process;
    parts.push(waitDetails(page, i, after, it.process, own || waiting.length <= 2));
  }
  return parts;
}

function waitDetails(page, i, after, p, open) {
  const { journal } = page;
  const text = waitText(journal, after, p, waitOf(after, p));
  return folded(text, () => storyItems(page, waitStory(journal, after, p, i + 1)), open);
}

function entryPanel(page, i, before, after) {
  const entry = page.journal.entries[i];
  const queue = queueOf(before, entry);
  const on = queue ? ` on ${queueName(queue)}` : "";
  const line = element("div", entry.line, { className: `line${isError(entry) ? " error" : ""}` });
  const by = entry.thread === undefined ? "" : `, in thread ${entry.thread} at step ${entry.step},`;
  const text = `${namesOf([entry.process])}${by} ${CALLS[entry.call] || entry.call}${on}` +
    `${replyText(entry)}.`;
  page.say(`Entry ${entry.place}: ${text}`);
  return [heading(`Entry ${entry.place}`), line, element("p", text), ...storiesOf(page, i, after)];
}
