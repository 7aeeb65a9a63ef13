// A history that no journal explains: its calls, the call at fault, and those that overlap it.
"use strict";

// The calls that the lines of a history have, in the order in which they began.
function callsOf(text) {
  const calls = text.split("\n").filter((line) => line !== "").map(callOf);
  nameQueues(calls);
  const sorted = [...calls].sort((a, b) => compare(a.begin, b.begin) || a.index - b.index);
  rank(sorted);
  return sorted;
}

function callOf(line, index) {
  const words = line.split(" ");
  const arrow = words.indexOf("->", 4);
  const quoted = arrow > 4 && words[arrow - 1].startsWith('"');
  const end = words[2] === "-" ? null : BigInt(words[2]);
  const got = words.slice(arrow + 2);
  return {
    index, line, end, begin: BigInt(words[1]), process: callerOf(words[0]), call: words[3],
    given: words.slice(4, quoted ? arrow - 1 : arrow),
    payload: quoted ? words[arrow - 1].slice(1, -1) : "",
    reply: words[arrow + 1] || "", got,
    received: got.length > 1 ? got[1].slice(1, -1) : "",
  };
}

function compare(a, b) {
  return a < b ? -1 : Number(a > b);
}

// The name of the queue that each call is made on, by the opens of its process.
function nameQueues(calls) {
  const open = new Map();
  for (const it of calls) {
    const key = `${it.process} ${it.given[0]}`;
    if (it.call === "open" || it.call === "unlink") it.queue = it.payload;
    else it.queue = open.get(key) || null;
    if (it.reply === "fd") open.set(`${it.process} ${it.got[0]}`, it.payload);
    if (it.call === "close" && it.reply === "ok") open.delete(key);
  }
}

// Notes where each call begins and ends among all moments: only their order matters.
function rank(calls) {
  const moments = [...new Set(calls.flatMap((it) => [it.begin, it.end ?? it.begin]))].sort(compare);
  const ranks = new Map(moments.map((moment, k) => [moment, k]));
  for (const it of calls) {
    it.from = ranks.get(it.begin);
    it.to = it.end === null ? moments.length : ranks.get(it.end);
  }
}

// The call whose return is the last: no journal explains the prefix until then.
function faultOf(calls) {
  const returned = calls.filter((it) => it.end !== null);
  return returned.reduce((last, it) =>
    !last || compare(it.end, last.end) > 0 || (it.end === last.end && it.index > last.index)
      ? it : last, null);
}

function overlap(a, b) {
  return a !== b && a.from <= b.to && b.from <= a.to;
}

// What the calls of a prefix say against the return of one of them: texts with the calls that they
// speak of.
function evidenceOf(calls, it) {
  const steps = [];
  const say = (text, found) => {
    steps.push({ text });
    for (const other of found) steps.push({ depth: 1, text: other.line, i: calls.indexOf(other) });
  };
  if (it.reply === "got") {
    const same = (other) => other.queue === it.queue;
    const sends = calls.filter((other) => SENDS.has(other.call) && same(other) &&
      other.given[1] === it.got[0] && other.payload === it.received && !isError(other));
    const takes = calls.filter((other) => other !== it && same(other) && other.reply === "got" &&
      other.got[0] === it.got[0] && other.received === it.received);
    const nobody = "Nobody sent this message to the queue before.";
    say(sends.length === 0 ? nobody : "It was sent by", sends);
    if (takes.length > 0) say("It was also received by", takes);
  }
  const around = calls.filter((other) => overlap(it, other));
  say(around.length === 0 ? "No call overlaps it: all others came before." :
    "These overlap it, and may take effect before or after it", around);
  return steps;
}

const BAR = 22;

// The picture of a history: a lane for each process, a bar from the begin of a call to its return.
class HistoryTimeline extends Chart {
  constructor(canvas, calls, fault) {
    super(canvas, calls.map((it) => `process ${callerWord(it.process)}`));
    this.calls = calls;
    this.fault = fault;
    this.scale = Math.max(20, Math.min(90, this.width / Math.max(1, this.moments)));
  }

  get moments() {
    return this.calls.reduce((most, it) => Math.max(most, it.to, it.from + 1), 0) + 1;
  }

  get count() {
    return this.moments;
  }

  // The place of a call in the picture.
  placeOf(i) {
    return this.calls[i].from;
  }

  callAt(x, y) {
    const at = (x - LEFT) / this.scale + this.from;
    const lane = Math.floor((y - this.top) / this.lane);
    const near = (it) => Math.max(it.from - at, at - it.to, 0);
    const calls = this.calls.filter((it, i) => this.laneOf[i] === lane);
    const found = (calls.length > 0 ? calls : this.calls)
      .reduce((best, it) => (!best || near(it) < near(best) ? it : best), null);
    return this.calls.indexOf(found);
  }

  drawParts(c) {
    this.calls.forEach((it, i) => this.drawCall(c, it, i));
  }

  drawCall(c, it, i) {
    const [left, right] = [this.x(it.from - 0.4), this.x(it.to + 0.4)];
    if (right < LEFT || left > LEFT + this.width) return;
    const y = this.y(i) - BAR / 2;
    const fault = it === this.fault;
    c.fillStyle = i === this.chosen ? this.colours.chosen : this.colours.panel;
    c.fillRect(left, y, right - left, BAR);
    c.strokeStyle = fault ? this.colours.cross : this.colours.message;
    if (this.fault && overlap(this.fault, it)) c.strokeStyle = this.colours.story;
    c.lineWidth = fault ? 3 : 1.5;
    c.setLineDash(it.end === null ? [5, 4] : []);
    c.strokeRect(left, y, right - left, BAR);
    c.setLineDash([]);
    c.save();
    c.beginPath();
    c.rect(left, y, right - left, BAR);
    c.clip();
    c.fillStyle = fault ? this.colours.cross : this.colours.text;
    c.fillText(`${fault ? "\u2717 " : ""}${labelOf(it)}`, Math.max(left, LEFT) + 4, y + 15);
    c.restore();
  }
}

function labelOf(it) {
  const what = it.payload !== "" ? ` "${it.payload}"` : "";
  const received = it.received !== "" ? ` "${it.received}"` : "";
  return `${it.call}${what}${it.end === null ? "" : ` ${it.reply}${received}`}`;
}

class HistoryPage extends Page {
  load({ said, calls }) {
    this.said = said;
    this.fault = said.startsWith("impossible") ? faultOf(calls) : null;
    this.entries = calls;
    this.timeline = new HistoryTimeline(document.querySelector("canvas"), calls, this.fault);
    this.input("queue").parentElement.hidden = true;
    this.input("timed").parentElement.hidden = true;
    const kind = this.fault ? "A history that no journal explains" : "A history, undecided";
    this.input("title").textContent = kind;
    this.input("legend").textContent = "a bar: a call, from its begin to its return; dashed: it " +
      "had not returned; \u2717 and thick: its return can't be explained; only the order of moments " +
      "counts | left and right: step, with Shift in the same process; + and -, or Ctrl and the " +
      "wheel: zoom; drag: move; /: find; n: next found; e: next error";
    this.tell();
    this.choose(this.fault ? calls.indexOf(this.fault) : 0);
  }

  tell() {
    const steps = [{ text: this.said }];
    if (this.fault) {
      const text = "Every order of these calls that keeps to their begins and returns " +
        "contradicts some reply, and this is the last return:";
      steps.push({ text, i: this.entries.indexOf(this.fault) });
    }
    this.input("findings").replaceChildren(...storyList(this, "What mqlog judge says", steps));
  }

  nameOf(i) {
    return `the ${this.entries[i].call} of process ${callerWord(this.entries[i].process)}`;
  }

  entryAt(x, y) {
    return this.timeline.callAt(x, y);
  }

  choose(i) {
    if (this.entries.length === 0) return;
    const it = this.entries[i];
    this.timeline.chosen = i;
    const on = it.queue ? ` on ${it.queue}` : "";
    const returned = [it.reply, ...it.got].join(" ");
    const came = it.end === null ? "It had not returned." : `It returned ${returned}.`;
    const line = element("div", it.line, { className: `line${it === this.fault ? " error" : ""}` });
    const text = `${namesOf([it.process])} ${CALLS[it.call] || it.call}${on}. ${came}`;
    const title = it === this.fault ? "The return that can't be explained" : "Call";
    const steps = storyList(this, "What speaks of it", evidenceOf(this.entries, it));
    this.input("entry").replaceChildren(heading(title), line, element("p", text));
    this.say(`${title}: ${text}`);
    this.input("state").replaceChildren(...steps);
    this.timeline.reveal(i);
    this.draw();
  }
}
