"use strict";
// The picture: coordinators and recoverers on top, the bands of bands.js below. What is in flight waits at the door of
// the node to which it goes.

class Board extends Bands {
  constructor(host) {
    super();
    Object.assign(this, { host, anchors: new Map(), unfolded: new Set() });
  }

  /** Draws a world anew. */
  draw(world, selected) {
    const width = Math.max(300, Math.floor(this.host.clientWidth)), isNarrow = width < 640;
    Object.assign(this, { world, selected, width, isNarrow, pad: isNarrow ? 8 : 14, under: [], over: [], pills: [] });
    Object.assign(this, { label: isNarrow ? 74 : 116, door: isNarrow ? 86 : 184, lane: isNarrow ? 27 : 30 });
    this.anchors.clear();
    this.measure();
    let y = this.drawTop(this.pad);
    let folded = [];
    for (const it of this.bands()) {
      if (it.isFolded) folded.push(it);
      else {
        if (folded.length) y = this.drawFolded(folded, y);
        [folded, y] = [[], this.drawBand(it, y)];
      }
    }
    if (folded.length) y = this.drawFolded(folded, y);
    y = this.drawServers(y);
    this.drawPills();
    const inside = [this.under, this.wires(), this.over, this.pills.map((it) => it.shown)];
    const size = { width, height: y, viewBox: `0 0 ${width} ${y}`, role: "group", "aria-label": "The cluster" };
    this.host.innerHTML = tag("svg", size, this.hatch(), inside);
  }
  hatch() {
    const lines = tag("path", { d: "M-2 2L2 -2M0 8L8 0M6 10L10 6", class: "hatching" });
    return tag("defs", {}, tag("pattern", { id: "hatch", width: 8, height: 8, patternUnits: "userSpaceOnUse" }, lines));
  }

  // ---- columns

  /** Which versions have a column, and how wide one is: there are more of them as versions rise. */
  measure() {
    const { world, width, pad, label, door, isNarrow } = this, held = world.of("log").map((it) => it.machine.durable);
    this.left = pad + label;
    const numbers = world.batches.map((it) => it.version ?? 0), most = Math.max(4, ...held, ...numbers);
    const wide = width - pad - door - this.left;
    const wanted = [8, 12, 16, 24].find((it) => it > most) ?? 24;
    this.count = Math.max(4, Math.min(Math.max(wanted, Math.floor(wide / 64)), Math.floor(wide / (isNarrow ? 27 : 33))));
    this.column = Math.min(64, wide / this.count);
    this.token = Math.max(21, Math.min(40, this.column - 10));
    this.from = Math.max(1, most - this.count + 1);
    this.upto = this.from + this.count - 1;
    this.right = this.left + this.count * this.column;
    this.door = width - pad - this.right;
  }
  xOf(version) {
    return this.left + (Math.min(Math.max(version, this.from - 1), this.upto + 1) - this.from + 0.5) * this.column;
  }
  isShown(version) {
    return version >= this.from && version <= this.upto;
  }
  axis(y) {
    const shown = [hinted(this.left - 6, y, "versions", "axis name", VERSIONS)];
    for (let at = this.from; at <= this.upto; at++) shown.push(hinted(this.xOf(at), y, at, "axis", VERSIONS));
    return shown;
  }

  // ---- boxes with their doors

  /** A node as a box: its title, a line of words and what else it shows. */
  box(node, x, y, wide, words, more = "", rows = 1) {
    const high = 40, isChosen = this.selected === node.code;
    this.anchors.set(node.code, { x, y, wide, high, door: { x, y: y + high + 3, wide, rows } });
    const kinds = ["node", node.kind, node.isGone && "gone", isChosen && "selected"].filter(Boolean).join(" ");
    const shape = tag("rect", { width: wide, height: high, rx: 8 });
    const title = text(10, 16, node.label, "title"), line = text(10, 31, this.cut(words, wide - 16), "words");
    const cross = node.isGone ? tag("path", { d: `M${wide - 20} 8l11 11m0 -11l-11 11`, class: "cross" }) : "";
    const name = `${named(this.world, node)}: ${node.isGone ? "gone. " : ""}${words}`;
    this.over.push(this.button("n:" + node.code, name, x, y, kinds, [shape, title, line, more, cross]));
  }
  /** Something that is clicked, or chosen by Enter. */
  button(key, name, x, y, kinds, inside) {
    const is = { class: kinds, transform: `translate(${x} ${y})`, "data-key": key, role: "button", tabindex: 0 };
    return tag("g", { ...is, "aria-label": name }, tag("title", {}, escaped(name)), inside);
  }
  /** Words cut to a width, by a rough measure. */
  cut(words, wide, each = 6.1) {
    const most = Math.floor(wide / each);
    return words.length > most ? words.slice(0, Math.max(1, most - 1)) + "…" : words;
  }

  /** Which recoverers are shown: the last one, and those that are at work. */
  recoverers(most) {
    const all = this.world.of("recoverer"), isDone = (it) => it.isChosen() && it.marked.size === it.own().m;
    const isLive = ({ machine: it, isGone }) => !isGone && !it.phase.startsWith("lost") && !isDone(it);
    const shown = [...new Set([...all.slice(-1), ...all.filter(isLive).slice(-most)])].slice(-most);
    return [shown.sort((a, b) => a.epoch - b.epoch), all.filter((it) => !shown.includes(it))];
  }
  drawTop(y) {
    const { world, pad, width, isNarrow } = this, gap = 8, inner = width - 2 * pad, most = width < 1000 ? 2 : 3;
    const wide = isNarrow ? (inner - 2 * gap) / 3 : 134, beside = isNarrow ? pad : pad + 3 * (wide + gap) + gap;
    world.of("cell").forEach((it, at) => this.box(it, pad + at * (wide + gap), y, wide, this.cellWords(it, wide)));
    const [shown, hidden] = this.recoverers(most), isBelow = isNarrow && shown.length > 0, top = isBelow ? y + 66 : y;
    const each = isNarrow ? (inner - gap) / 2 : Math.min(210, (width - pad - beside - (most - 1) * gap) / most);
    shown.forEach((it, at) => {
      this.box(it, beside + at * (each + gap), top, each, this.phaseOf(it), this.progress(it, each));
    });
    if (!shown.length && !isNarrow) this.under.push(text(beside, y + 24, "No recovery has begun.", "hint"));
    const corner = { x: width - pad - 20, y: top, wide: 10, high: 40 }, x = width - pad - 60;
    for (const it of hidden) this.anchors.set(it.code, { ...corner, door: { x, y: top + 43, wide: 60, rows: 1 } });
    return top + 66;
  }
  cellWords({ machine: it }, wide) {
    const [promised, written] = [epochOf(it.promised), epochOf(it.written)];
    return `${wide < 118 ? "prom." : "promised"} ${promised}, has ${written}`;
  }
  phaseOf({ machine: it, isGone }) {
    if (isGone) return "crashed";
    if (it.phase.startsWith("lost")) return it.phase === "lost Outballoted" ? "lost: outballoted" : it.phase;
    if (it.phase === "reading") return `reading: ${it.reads.size} of ${it.cells} promised`;
    if (it.phase === "locking") return `locking: ${it.replies.size} of ${it.old().m} replied`;
    if (it.phase === "writing") return `writing: ${it.written.size} of ${it.cells} have it`;
    if (it.isChosen()) return `chosen; mark on ${it.marked.size} of ${it.own().m}`;
    return it.isCopied() ? `seeding: ${it.seeded.size} of ${it.own().m}` : `copying ${it.pev + 1} to ${it.rv}`;
  }
  /** The phases of a recoverer as dots. */
  progress({ machine: it }, wide) {
    const at = ["reading", "locking", "copying", "writing", "chosen"].indexOf(it.phase);
    const dot = (each) => ({ cx: wide - 58 + 11 * each, cy: 12, r: 3.4, class: each <= at ? "reached" : "ahead" });
    return [0, 1, 2, 3, 4].map((each) => tag("circle", dot(each)));
  }

  // ---- messages

  /** What is in flight, at the doors; what has no room there is counted. */
  drawPills() {
    const places = new Map(), left = new Map();
    for (const it of this.world.flight) {
      const { code } = it.to, { door } = this.anchors.get(code), label = messageLabel(it), batch = this.batchIn(it);
      const wide = Math.min(door.wide, 14 + 6.3 * label.length + (batch ? 12 : 0) + (it.isHeld ? 11 : 0));
      const place = places.get(code) ?? { x: 0, row: 0 };
      if (place.x > 0 && place.x + wide > door.wide) Object.assign(place, { x: 0, row: place.row + 1 });
      if (place.row >= door.rows) {
        left.set(code, [...(left.get(code) ?? []), it]);
        continue;
      }
      const x = door.x + place.x, y = door.y + place.row * (PILL + 3);
      this.pills.push({ it, x, y, wide, shown: this.pill(it, label, batch, x, y, wide) });
      places.set(code, { x: place.x + wide + 4, row: place.row });
    }
    for (const [code, more] of left) this.drawMore(this.anchors.get(code).door, more);
  }
  drawMore(door, more) {
    const y = door.y + (door.rows - 1) * (PILL + 3), x = door.x + door.wide - 22;
    const inside = [tag("rect", { width: 24, height: PILL, rx: 9 }), text(12, 13.5, `+${more.length}`, "mid")];
    const shown = this.button("m:" + more[0].id, `${more.length} more messages`, x, y, "pill more", inside);
    this.pills.push({ it: more[0], x, y, wide: 22, shown });
  }
  /** The batch of which a message is, where its label has room for it. */
  batchIn(it) {
    const [word, said] = variant(variant(it.what)[1]), epoch = it.kind === "ask" ? it.to.epoch : it.from.epoch;
    if (!["push", "held", "numbered"].includes(word)) return null;
    return this.world.numbered.get(`${epoch}:${said.version}`) ?? null;
  }
  pill(it, label, batch, x, y, wide) {
    const is = { held: it.isHeld, void: it.to.isGone, selected: this.selected === `m${it.id}` };
    const kinds = ["pill", it.kind, ...Object.keys(is).filter((name) => is[name])].join(" ");
    const inside = [tag("rect", { width: wide, height: PILL, rx: 9 })], begin = batch ? 18 : 8;
    if (batch) inside.push(tag("circle", { cx: 10, cy: PILL / 2, r: 4.5, class: `dot c${(batch.number - 1) % 8}` }));
    if (it.isHeld) inside.push(BARS(begin, 5.5));
    const from = begin + (it.isHeld ? 11 : 0), name = `In flight: ${messageWords(this.world, it)}`;
    inside.push(text(from, 13.5, this.cut(label, wide - from - 4, 5.9)));
    return this.button("m:" + it.id, name + (it.isHeld ? ", held back" : ""), x, y, kinds, inside);
  }
  /** Lines from the senders to what is in flight. */
  wires() {
    return this.pills.map(({ it, x, y, wide }) => {
      const from = this.anchors.get(it.from.code), [x1, y1] = [x + wide / 2, y + PILL / 2];
      const [x0, y0] = [from.x + Math.min(from.wide, 100) / 2, from.y + from.high / 2], bend = (y1 - y0) / 2;
      const way = `M${x0} ${y0}C${x0} ${y0 + bend} ${x1} ${y1 - bend} ${x1} ${y1}`;
      return tag("path", { d: way, class: `wire${this.selected === `m${it.id}` ? " selected" : ""}` });
    });
  }
}
