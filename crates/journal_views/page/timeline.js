// The picture: time from left to right, a lane for each caller, and those of one process beside each
// other.
"use strict";

const TOP = 22;
const LEFT = 84;

// The shape of a mark, by what the entry does: readable without its colour.
function shapeOf(entry) {
  if (isError(entry)) return "cross";
  if (entry.reply === "waits") return "ring";
  if (SENDS.has(entry.call)) return "up";
  if (RECEIVES.has(entry.call)) return "down";
  if (entry.call === "notify" || entry.call === "notice") return "diamond";
  if (entry.call === "collect" || entry.call === "withdraw") return "half";
  return "square";
}

const SHAPES = {
  cross: (c, x, y) => {
    c.moveTo(x - 5, y - 5);
    c.lineTo(x + 5, y + 5);
    c.moveTo(x + 5, y - 5);
    c.lineTo(x - 5, y + 5);
  },
  ring: (c, x, y) => c.arc(x, y, 5, 0, 7),
  up: (c, x, y) => polygon(c, [[x, y - 6], [x + 6, y + 5], [x - 6, y + 5]]),
  down: (c, x, y) => polygon(c, [[x, y + 6], [x + 6, y - 5], [x - 6, y - 5]]),
  diamond: (c, x, y) => polygon(c, [[x, y - 7], [x + 6, y], [x, y + 7], [x - 6, y]]),
  half: (c, x, y) => c.arc(x, y, 5, Math.PI / 2, -Math.PI / 2),
  square: (c, x, y) => c.rect(x - 4, y - 4, 8, 8),
};

function polygon(c, points) {
  points.forEach(([x, y], i) => (i === 0 ? c.moveTo(x, y) : c.lineTo(x, y)));
  c.closePath();
}

// The first of some rising numbers that is at least n, as an index.
function firstFrom(numbers, n) {
  let low = 0;
  let high = numbers.length;
  while (low < high) {
    const middle = (low + high) >> 1;
    if (numbers[middle] < n) low = middle + 1;
    else high = middle;
  }
  return low;
}

// The order of names such as `process 3.2`: by their words, and then by their numbers.
function byName(a, b) {
  const [first, second] = [a, b].map((it) => it.split(/[ .]/));
  return compare(first[0], second[0]) || first[1] - second[1] ||
    (first[2] || 1) - (second[2] || 1);
}

// A picture with a lane for each name, which zooms and moves.
class Chart {
  constructor(canvas, names) {
    this.canvas = canvas;
    this.from = 0;
    this.chosen = 0;
    this.shows = () => true;
    this.names = [...new Set(names)].sort(byName);
    const lanes = new Map(this.names.map((name, lane) => [name, lane]));
    this.laneOf = Uint16Array.from(names, (it) => lanes.get(it));
    this.lane = this.names.length > 8 ? 34 : 46;
    this.top = TOP;
  }

  get width() {
    return this.canvas.clientWidth - LEFT;
  }

  x(i) {
    return LEFT + (i - this.from + 0.5) * this.scale;
  }

  // The middle of the lane of an entry.
  y(i) {
    return this.top + (this.laneOf[i] + 0.5) * this.lane;
  }

  // Whether a place lies within what is seen.
  sees(place) {
    return place >= this.from && place < this.from + this.width / this.scale;
  }

  bound() {
    const fits = this.width / Math.max(1, this.count);
    this.scale = Math.max(Math.min(fits, 20), Math.min(160, this.scale));
    const last = this.count - this.width / this.scale;
    this.from = Math.max(0, Math.min(last, this.from));
  }

  zoom(factor, x) {
    const at = (x - LEFT) / this.scale + this.from;
    this.scale *= factor;
    this.bound();
    this.from = at - (x - LEFT) / this.scale;
    this.bound();
  }

  pan(pixels) {
    this.from += pixels / this.scale;
    this.bound();
  }

  // Moves the picture, if the entry is not seen. Its lane is brought into the box of the canvas.
  reveal(i) {
    const place = this.placeOf(i);
    if (!this.sees(place)) this.from = place - this.width / this.scale / 2;
    this.bound();
    const box = this.canvas.parentElement;
    const [y, margin] = [this.y(i), this.lane / 2];
    if (y - margin < box.scrollTop || y + margin > box.scrollTop + box.clientHeight) {
      box.scrollTop = y - box.clientHeight / 2;
    }
  }

  draw() {
    const ratio = window.devicePixelRatio || 1;
    const height = this.top + this.names.length * this.lane + 6;
    this.canvas.style.height = `${height}px`;
    this.canvas.width = this.canvas.clientWidth * ratio;
    this.canvas.height = height * ratio;
    const c = this.canvas.getContext("2d");
    c.scale(ratio, ratio);
    c.font = "12px sans-serif";
    this.colours = coloursOf(this.canvas);
    this.bound();
    const first = Math.max(0, Math.floor(this.from));
    const last = Math.ceil(this.from + this.width / this.scale);
    this.drawLanes(c, height);
    c.save();
    c.beginPath();
    c.rect(LEFT, 0, this.width, height);
    c.clip();
    this.drawParts(c, [first, last + 1], height);
    c.restore();
  }

  drawLanes(c, height) {
    this.names.forEach((name, lane) => {
      const y = this.top + (lane + 0.5) * this.lane;
      c.fillStyle = this.colours.text;
      c.fillText(name, 2, y + 4);
      c.fillStyle = this.colours.line;
      c.fillRect(LEFT, y, this.width, 1);
    });
    c.fillRect(LEFT - 1, 0, 1, height);
  }
}

// The lane of an entry: that of its thread, if it is known.
function laneName(entry) {
  if (entry.thread !== undefined) return `thread ${entry.thread}`;
  return `process ${callerWord(entry.process)}`;
}

// How far apart entries of one time are, in the picture by time.
const LEAST_GAP = 0.25;

// Where entries with these times stand: as far apart as their times, and a little if these are the
// same.
function placesOf(times) {
  const places = new Float64Array(times.length);
  const unit = times.length / times[times.length - 1];
  for (let i = 1; i < times.length; i += 1) {
    places[i] = places[i - 1] + Math.max(LEAST_GAP, (times[i] - times[i - 1]) * unit);
  }
  return places;
}

// A time in milliseconds, in seconds.
function secondsText(time) {
  return `${Number((time / 1000).toPrecision(6))} s`;
}

class Timeline extends Chart {
  constructor(canvas, journal) {
    super(canvas, journal.entries.map(laneName));
    this.journal = journal;
    const { entries, links } = journal;
    this.scale = Math.max(20, Math.min(100, this.width / Math.max(1, entries.length)));
    this.errors = Uint8Array.from(entries, isError);
    this.waits = this.names.map(() => ({ from: [], to: [] }));
    entries.forEach((it, i) => {
      if (it.reply !== "waits") return;
      const lane = this.waits[this.laneOf[i]];
      const end = links.endedAt.get(it.place);
      lane.from.push(i);
      lane.to.push(end === undefined ? entries.length : end);
    });
  }

  // Entries stand by their times, or in their order.
  setByTime(isByTime) {
    this.places = isByTime ? placesOf(this.journal.times) : null;
    this.reveal(this.chosen);
  }

  get length() {
    return this.journal.entries.length;
  }

  // How wide the picture is, in the least width of an entry.
  get count() {
    return this.length === 0 ? 0 : this.placeOf(this.length - 1) + 1;
  }

  // Where the i-th entry stands; the end of the journal is one further than the last.
  placeOf(i) {
    if (!this.places) return i;
    return i < this.length ? this.places[i] : this.places[this.length - 1] + 1;
  }

  x(i) {
    return super.x(this.placeOf(i));
  }

  // The entry at a point of the canvas, or the nearest there is.
  entryAt(x) {
    const place = (x - LEFT) / this.scale + this.from - 0.5;
    if (!this.places) return Math.max(0, Math.min(this.length - 1, Math.round(place)));
    const i = Math.min(this.length - 1, firstFrom(this.places, place));
    return i > 0 && place - this.places[i - 1] < this.places[i] - place ? i - 1 : i;
  }

  drawParts(c, seen, height) {
    const index = (place) => (this.places ? firstFrom(this.places, place) : place);
    const range = [Math.max(0, index(seen[0]) - 1), Math.min(this.length, index(seen[1]) + 1)];
    this.drawChosen(c, height);
    this.drawTicks(c, range, height);
    this.drawWaits(c, range);
    this.drawMessages(c, range);
    this.drawMarks(c, range);
  }

  drawTicks(c, range, height) {
    if (this.places) this.drawTimes(c, range, height);
    else this.drawNumbers(c, range, height);
  }

  drawTick(c, i, text, height) {
    c.fillStyle = this.colours.line;
    c.fillRect(this.x(i), 14, 1, height);
    c.fillStyle = this.colours.faint;
    c.fillText(text, this.x(i) + 3, 12);
  }

  // The time of an entry, where there is room for it.
  drawTimes(c, [first, last], height) {
    const { times } = this.journal;
    let drawn = -Infinity;
    for (let i = first; i < last; i += 1) {
      const isNew = i === 0 || times[i] > times[i - 1];
      if (isNew && this.x(i) - drawn >= 80) {
        this.drawTick(c, i, secondsText(times[i]), height);
        drawn = this.x(i);
      }
    }
  }

  drawNumbers(c, [first, last], height) {
    const steps = [1, 2, 5, 10, 20, 50, 100, 200, 500, 1000, 2000, 5000, 10000, 50000, 100000];
    const step = steps.find((it) => it * this.scale >= 60) || 500000;
    for (let i = first - (first % step); i < last; i += step) {
      this.drawTick(c, i, String(i + this.journal.links.start), height);
    }
  }

  drawChosen(c, height) {
    c.fillStyle = this.colours.chosen;
    const width = Math.max(3, this.scale * (this.places ? LEAST_GAP : 1));
    c.fillRect(this.x(this.chosen) - width / 2, 0, width, height);
  }

  // A wait is a bar of stripes from its call to its end.
  drawWaits(c, [first, last]) {
    this.waits.forEach(({ from, to }, lane) => {
      const y = this.top + (lane + 0.5) * this.lane;
      let drawn = -1;
      for (let w = firstFrom(to, first); w < from.length && from[w] < last; w += 1) {
        const [left, right] = [Math.max(LEFT, this.x(from[w])), this.x(to[w])];
        if (right <= drawn) continue;
        drawn = Math.ceil(right) + (this.scale < 2 ? 2 : 0);
        c.fillStyle = this.colours.wait;
        c.fillRect(left, y - 6, Math.max(1, right - left), 13);
        this.stripe(c, left, Math.min(right, LEFT + this.width), y);
      }
    });
  }

  stripe(c, left, right, y) {
    if (right - left < 12) return;
    c.strokeStyle = this.colours.text;
    c.lineWidth = 0.5;
    c.beginPath();
    for (let x = left + 8; x < right; x += 8) {
      c.moveTo(x, y - 6);
      c.lineTo(x - 6, y + 7);
    }
    c.stroke();
  }

  // A message is an arrow from its send to the receive that takes it. Where too many are seen, none
  // is drawn.
  drawMessages(c, [first, last]) {
    this.tooMany = last - first > 4000;
    if (this.tooMany) return;
    const { entries, links } = this.journal;
    c.lineWidth = 1.5;
    for (let i = first; i < last; i += 1) {
      const message = taken(entries[i]);
      if (message !== null) this.drawArrow(c, i, message - links.start);
      const end = links.takenAt.get(entries[i].place);
      if (end !== undefined && end >= last) this.drawArrow(c, end, i);
    }
  }

  drawArrow(c, i, sent) {
    const { entries, links } = this.journal;
    let receiver = i;
    if (entries[i].reply === "handed") receiver = Number(entries[i].got[0]) - links.start;
    const sender = entries[sent];
    if (!entries[receiver] || !sender) return;
    if (!this.shows(sender, sent) || !this.shows(entries[i], i)) return;
    const [x1, y1, x2, y2] = [this.x(sent), this.y(sent), this.x(i), this.y(receiver)];
    const story = this.story && this.story.has(sent);
    c.strokeStyle = story ? this.colours.story : this.colours.message;
    c.lineWidth = story ? 3 : 1.5;
    c.beginPath();
    c.moveTo(x1, y1);
    if (y1 === y2) c.quadraticCurveTo((x1 + x2) / 2, y1 - this.lane, x2, y2);
    else c.lineTo(x2, y2);
    c.stroke();
    this.drawTip(c, x1, y1 === y2 ? y1 - this.lane : y1, x2, y2);
  }

  drawTip(c, x1, y1, x2, y2) {
    const angle = Math.atan2(y2 - y1, x2 - x1);
    c.beginPath();
    for (const turn of [2.7, 0, -2.7]) {
      const length = turn === 0 ? 7 : 12;
      const back = turn === 0 ? Math.PI : Math.PI + (turn > 0 ? 0.35 : -0.35);
      c.lineTo(x2 + length * Math.cos(angle + back), y2 + length * Math.sin(angle + back));
    }
    c.stroke();
  }

  drawMarks(c, [first, last]) {
    const { entries } = this.journal;
    const drawn = new Float64Array(2 * this.names.length).fill(-9);
    for (let i = first; i < last; i += 1) {
      const x = this.x(i);
      const key = 2 * this.laneOf[i] + this.errors[i];
      if (this.scale < 2 && x - drawn[key] < 3) continue;
      if (!this.shows(entries[i], i)) continue;
      drawn[key] = x;
      this.drawMark(c, entries[i], i, x);
    }
  }

  drawMark(c, entry, i, x) {
    const shape = shapeOf(entry);
    const colour = this.colours[shape] || this.colours.text;
    const y = this.y(i);
    c.fillStyle = colour;
    if (this.scale < 2) {
      c.fillRect(x, y - 5, 2, 10);
      return;
    }
    c.strokeStyle = colour;
    c.lineWidth = 2;
    c.beginPath();
    SHAPES[shape](c, x, y);
    if (shape === "ring" || shape === "cross") c.stroke();
    else c.fill();
    const room = this.x(i + 1) - x;
    if (room >= 50 || i === this.chosen) this.drawLabel(c, entry, [x, y], room);
  }

  drawLabel(c, entry, [x, y], room) {
    c.fillStyle = this.colours.text;
    c.fillText(`${entry.call}${entry.reply === "waits" ? " waits" : ""}`, x - 8, y - 10);
    const error = isError(entry) ? entry.reply : "";
    const below = isSent(entry) ? `${entry.given[1]}: ${entry.payload}` : error;
    if (room < 50) return;
    const most = Math.floor(room / 7);
    c.fillText(below.length > most ? `${below.slice(0, most - 2)}..` : below, x - 8, y + 19);
  }
}

function coloursOf(element) {
  const style = getComputedStyle(element);
  const names = ["text", "faint", "line", "chosen", "wait", "message", "story", "cross", "ring",
    "up", "down", "diamond", "panel"];
  return Object.fromEntries(names.map((it) => [it, style.getPropertyValue(`--${it}`).trim()]));
}
