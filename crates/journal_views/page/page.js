// The page: what is chosen, what is shown, and what keys and buttons do.
"use strict";

class Page {
  constructor(parts) {
    const dark = window.matchMedia("(prefers-color-scheme: dark)").matches;
    document.documentElement.dataset.theme = dark ? "dark" : "light";
    this.load(parts);
    this.timeline.shows = (entry, i) => this.passes(entry, i);
    this.fillFilters();
    this.listen();
  }

  // Shows a journal.
  load({ said, before, entries }) {
    const threads = noteThreads(entries, document.querySelector("#threads").textContent);
    this.entries = entries;
    this.journal = {
      entries, threads, links: new Links(entries), states: new States(entries, before),
      times: timesOf(entries),
    };
    this.input("timed").parentElement.hidden = this.journal.times === null;
    this.timeline = new Timeline(document.querySelector("canvas"), this.journal);
    const { start } = this.journal.links;
    const last = start + entries.length - 1;
    const title = entries.length === 0 ? "The journal is empty" : `Entries ${start} to ${last}`;
    this.input("title").textContent = said ? `${title}, which explain a history` : title;
    const found = findingsOf(this.journal);
    const steps = said ? [{ text: `mqlog judge: ${said}` }, ...found] : found;
    if (steps.length > 0) {
      this.input("findings").replaceChildren(...storyList(this, "What stands out", steps));
    }
    if (threads.steps.length > 0) {
      const text = `The ${counted(threads.steps.length, "step")} of the run`;
      const list = () => element("pre", threads.steps.join("\n"));
      this.input("findings").append(folded(text, list, false));
    }
    this.choose(0);
  }

  nameOf(i) {
    return `entry ${this.entries[i].place}`;
  }

  entryAt(x) {
    return this.timeline.entryAt(x);
  }

  input(name) {
    return document.querySelector(`#${name}`);
  }

  fillFilters() {
    const { entries } = this;
    const fill = (name, values) => {
      this.input(name).append(new Option("all", ""));
      for (const [value, text] of values) this.input(name).append(new Option(text, value));
    };
    const numbers = [...new Set(entries.map((it) => it.process))].sort(byLane);
    fill("process", numbers.map((it) => [it, callerWord(it)]));
    const queues = this.journal ? [...this.journal.states.names] : [];
    fill("queue", queues.map(([q, name]) => [q, `${q} ${name}`]));
    fill("call", [...new Set(entries.map((it) => it.call))].sort().map((it) => [it, it]));
  }

  // Whether the filters let an entry through.
  passes(entry, i) {
    const { process, queue, call, errors, find } = this.filters;
    return (process === "" || entry.process === Number(process)) &&
      (queue === "" || this.journal.states.queues[i] === Number(queue)) &&
      (call === "" || entry.call === call) && (!errors || isError(entry)) &&
      (find === "" || entry.line.includes(find));
  }

  get filters() {
    if (!this.read) {
      const [process, queue, call] = ["process", "queue", "call"].map((it) => this.input(it).value);
      const find = this.input("find").value;
      this.read = { process, queue, call, errors: this.input("errors").checked, find };
    }
    return this.read;
  }

  // The next entry from here, forward or back, that the filters and a test let through.
  next(step, test = () => true) {
    const { entries } = this;
    for (let i = this.timeline.chosen + step; i >= 0 && i < entries.length; i += step) {
      if (this.passes(entries[i], i) && test(entries[i])) return i;
    }
    return this.timeline.chosen;
  }

  choose(i) {
    const { entries, states } = this.journal;
    if (entries.length === 0) {
      this.timeline.draw();
      return;
    }
    this.timeline.chosen = i;
    const before = states.at(i);
    const after = copyOf(before);
    follow(after, entries[i]);
    const message = messageAt(this.journal, i);
    this.timeline.story = new Set(message === null ? [] : [message - this.journal.links.start]);
    this.input("entry").replaceChildren(...entryPanel(this, i, before, after));
    this.input("state").replaceChildren(element("h2", "State"), ...stateTable(before, after));
    this.timeline.reveal(i);
    this.draw();
  }

  // Says what was chosen to who does not see it.
  say(text) {
    this.input("said").textContent = text;
  }

  draw() {
    if (this.waiting) return;
    this.waiting = true;
    requestAnimationFrame(() => {
      this.waiting = false;
      this.timeline.draw();
      const note = "Too many entries are shown for arrows: zoom in.";
      this.input("note").textContent = this.timeline.tooMany ? note : "";
    });
  }

  listen() {
    const filters = ["process", "queue", "call", "errors", "find"];
    filters.forEach((it) => this.input(it).addEventListener("input", () => {
      this.read = null;
      this.draw();
    }));
    this.input("timed").addEventListener("change", () => {
      this.timeline.setByTime(this.input("timed").checked);
      this.draw();
    });
    const middle = () => this.timeline.width / 2;
    const buttons = {
      back: () => this.choose(this.next(-1)), on: () => this.choose(this.next(1)),
      in: () => this.zoom(1.5, middle()), out: () => this.zoom(1 / 1.5, middle()),
      theme: () => this.turnTheme(),
    };
    for (const [name, act] of Object.entries(buttons)) {
      this.input(name).addEventListener("click", act);
    }
    document.addEventListener("keydown", (event) => this.key(event, buttons));
    window.addEventListener("resize", () => this.draw());
    this.listenToPointer(this.timeline.canvas);
  }

  turnTheme() {
    const { dataset } = document.documentElement;
    dataset.theme = dataset.theme === "dark" ? "light" : "dark";
    this.draw();
  }

  zoom(factor, x) {
    this.timeline.zoom(factor, x);
    this.draw();
  }

  listenToPointer(canvas) {
    let held = null;
    canvas.addEventListener("pointerdown", (event) => {
      held = { x: event.offsetX, moved: false };
      canvas.setPointerCapture(event.pointerId);
    });
    canvas.addEventListener("pointermove", (event) => {
      if (!held) return;
      const by = held.x - event.offsetX;
      if (!held.moved && Math.abs(by) < 4) return;
      held = { x: event.offsetX, moved: true };
      this.timeline.pan(by);
      this.draw();
    });
    canvas.addEventListener("pointerup", (event) => {
      if (held && !held.moved) this.choose(this.entryAt(event.offsetX, event.offsetY));
      held = null;
    });
    canvas.addEventListener("wheel", (event) => {
      const isAcross = event.shiftKey || Math.abs(event.deltaX) > Math.abs(event.deltaY);
      // Without a key, the wheel scrolls the lanes, as everywhere.
      if (!event.ctrlKey && !isAcross) return;
      event.preventDefault();
      if (event.ctrlKey) this.zoom(event.deltaY < 0 ? 1.25 : 0.8, event.offsetX);
      else {
        this.timeline.pan(event.deltaX || event.deltaY);
        this.draw();
      }
    }, { passive: false });
  }

  key(event, buttons) {
    const typing = ["INPUT", "SELECT"].includes(event.target.tagName);
    if (event.key === "Escape") event.target.blur();
    if (event.key === "Enter" && event.target.id === "find") this.choose(this.next(1));
    if (typing || event.ctrlKey || event.metaKey || event.altKey) return;
    const { entries } = this;
    const chosen = entries[this.timeline.chosen];
    const same = (it) => !event.shiftKey || laneName(it) === laneName(chosen);
    const acts = {
      ArrowLeft: () => this.choose(this.next(-1, same)),
      ArrowRight: () => this.choose(this.next(1, same)),
      Home: () => this.choose(0), End: () => this.choose(entries.length - 1),
      e: () => this.choose(this.next(1, isError)), n: () => this.choose(this.next(1)),
      "+": buttons.in, "-": buttons.out, "/": () => this.input("find").focus(),
    };
    if (!acts[event.key]) return;
    event.preventDefault();
    if (chosen) acts[event.key]();
  }
}
