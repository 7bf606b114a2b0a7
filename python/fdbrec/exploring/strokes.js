"use strict";
// What the picture draws in its lanes: bars of batches, arrows of messages, and the marks of entries.

Object.assign(Picture.prototype, {
  /** Batches: from when a proxy took one to what it said. Then what a rollback undid, from where it was applied. */
  drawBars() {
    const { run, seen } = this, count = this.entryAt.length;
    for (const it of run.batches) {
      const a = this.column(it.at), b = it.ended === null ? count : this.column(it.ended);
      if (b < seen[0] || a > seen[1]) continue;
      const texts = [`${batchName(it)}: ${it.fate}`, `batch ${it.number}: ${it.fate}`, `batch ${it.number}`];
      this.bar(it.node, a, b, texts, BARS[it.fate], () => `${batchName(it)}: ${it.fate}. ${FATES[it.fate]} It is: ${batchText(it.batch)}.`, it.at);
    }
    for (const it of run.rollbacks) {
      const a = this.column(it.since ?? it.at), b = this.column(it.at);
      if (b < seen[0] || a > seen[1] || !it.versions.length) continue;
      const texts = [`taken back: ${versionsText(it.versions)}`, "taken back"];
      this.bar(it.node, a, b, texts, BARS["taken back"], () => rollbackTip(it), it.at);
    }
  },

  bar(node, a, b, texts, { dash, colour, fill, wide: line = 1 }, tip, go) {
    const { pen, ink } = this;
    if (!this.isInView(node) || this.isFolded(node)) return;
    const x = this.xOf(a), wide = Math.max(3, this.xOf(b) - x), y = this.yOf(node) - 6, isStrong = line > 1;
    pen.strokeStyle = pen.fillStyle = ink[colour];
    pen.globalAlpha = isStrong ? 0.14 : 0.26;
    if (fill) pen.fillRect(x, y, wide, 12);
    pen.globalAlpha = 1;
    if (fill === "hatch") this.hatch(x, y, wide);
    pen.lineWidth = line;
    pen.setLineDash(dash);
    pen.strokeRect(x, y, wide, 12);
    pen.setLineDash([]);
    pen.lineWidth = 1;
    if (this.scale >= 9) this.labels.push([texts, Math.max(x, this.gutter) + 9, y - 6, Math.min(x + wide, this.wide) - Math.max(x, this.gutter) - 8, isStrong]);
    this.spot(x, y - 2, x + wide, y + 14, { tip, go, isWeak: true });
  },

  hatch(x, y, wide) {
    for (let at = Math.max(x, this.gutter - 20); at < Math.min(x + wide, this.wide) - 2; at += 6) this.path([[at, y + 12], [Math.min(at + 6, x + wide), y]]);
  },

  drawArrows() {
    const [from, upto] = this.seen, seen = new Set();
    for (let column = from; column <= upto; column++)
      for (const it of this.run.arrowsAt(this.entryAt[column])) seen.add(it);
    for (const it of seen) this.drawArrow(it.isLost ? it : arrowOf(it));
    this.drawn.arrows = seen.size;
  },

  drawArrow(it) {
    if (!it.from.row || !it.to.row || (this.isFolded(it.from) && this.isFolded(it.to))) return;
    if (!this.isInView(it.from) && !this.isInView(it.to)) return;
    if (this.onlyNews && !this.isShown(it.x1)) return;
    // (when a storage server sent its ask is not recorded: a line of one column)
    const start = it.isUndated ? this.column(it.x1) - Math.min(0.8, 24 / this.scale) : this.column(it.x0);
    const a = this.xOf(start), y0 = this.yOf(it.from), y1 = this.yOf(it.to), { pen, ink } = this;
    pen.strokeStyle = pen.fillStyle = it.isLost ? ink.bad : it.isLate ? ink.late : it.isAgain ? ink.again : ink[it.kind];
    const isNow = it.x0 === this.step || it.x1 === this.step;
    pen.lineWidth = isNow ? 2.4 : 1;
    if (isNow && !it.isLost && !it.isLate && !it.isAgain) pen.strokeStyle = pen.fillStyle = ink.now;
    const dash = it.isLate ? [1, 3] : it.kind === "tell" ? [5, 3] : [];
    if (it.isLost) this.drawLost(it, a, y0, y1, dash);
    else this.drawCame(it, a, y0, this.xOf(this.column(it.x1)), y1, dash);
    pen.lineWidth = 1;
  },

  drawCame(it, a, y0, b, y1, dash) {
    this.path([[a, y0], [b, y1]], dash);
    if (it.isAgain) this.path([[a + 3, y0], [b + 3, y1]], dash);
    this.arrowHead(a, y0, b, y1);
    if ((it.isLate || it.isAgain) && this.scale >= 26) this.labels.push([it.isLate ? "late" : "again", (a + b) / 2 + 4, (y0 + y1) / 2]);
    if (b > this.gutter) this.spots.push({ line: [a, y0, b, y1], tip: () => arrowTip(it), go: it.x1 });
  },

  /** What never came: a short line towards the node, which ends in a cross. */
  drawLost(it, a, y0, y1, dash) {
    const way = Math.min(this.lane * 0.8, Math.abs(y1 - y0)) * Math.sign(y1 - y0 || 1), x = a + Math.min(8, this.scale / 3), y = y0 + way;
    this.path([[a, y0], [x, y]], dash);
    this.path([[x - 3.5, y - 3.5], [x + 3.5, y + 3.5]]);
    this.path([[x - 3.5, y + 3.5], [x + 3.5, y - 3.5]]);
    this.spot(x - 6, y - 6, x + 6, y + 6, { tip: () => arrowTip(it), go: it.x0 });
  },

  /** The message that comes next while the run plays, on its way. */
  drawMoving({ entry, done }) {
    if (!["asked", "heard"].includes(entry.word) || !entry.from.row || !entry.node.row) return;
    const { pen, ink } = this, start = entry.isUndated ? this.column(entry.at) - Math.min(0.8, 24 / this.scale) : this.column(entry.x0);
    const a = this.xOf(start), b = this.xOf(this.column(entry.at)), y0 = this.yOf(entry.from), y1 = this.yOf(entry.node);
    pen.strokeStyle = pen.fillStyle = ink.now;
    const [x, y] = [a + (b - a) * done, y0 + (y1 - y0) * done];
    pen.lineWidth = 2;
    this.path([[a, y0], [x, y]], entry.word === "heard" ? [5, 3] : []);
    pen.lineWidth = 1;
    SHAPES.dot(pen, x, y, 1.6);
  },

  arrowHead(a, y0, b, y1) {
    const { pen } = this, long = Math.hypot(b - a, y1 - y0);
    if (long < 12) return;
    const [dx, dy] = [(b - a) / long, (y1 - y0) / long], x = b - dx * 6, y = y1 - dy * 6;
    pen.beginPath();
    pen.moveTo(x, y);
    pen.lineTo(x - dx * 8 - dy * 3.5, y - dy * 8 + dx * 3.5);
    pen.lineTo(x - dx * 8 + dy * 3.5, y - dy * 8 - dx * 3.5);
    pen.fill();
  },

  drawMarks() {
    const [from, upto] = this.seen, lastAt = new Map();
    for (let column = from; column <= upto; column++) {
      const entry = this.run.entry(this.entryAt[column]);
      if (!entry || !this.isInView(entry.node)) continue;
      const x = this.xOf(column), pixel = Math.round(x), mark = markOf(entry), { row } = entry.node;
      if (this.scale < 2 && lastAt.get(row) === pixel && !mark.isGreat) continue;
      lastAt.set(row, pixel);
      this.drawn.marks += 1;
      this.drawMark(entry, mark, x, this.yOf(entry.node));
    }
    const { fault } = this.run;
    if (fault && fault.at >= 0) this.drawFault(this.xOf(this.column(fault.at)), fault.node || this.run.entry(fault.at).node);
  },

  drawMark(entry, mark, x, y) {
    const { pen, ink } = this, isFolded = this.isFolded(entry.node);
    if (this.hits.has(entry.at)) {
      pen.strokeStyle = ink.hit;
      pen.lineWidth = 2.5;
      pen.strokeRect(x - 9, y - entry.node.row.high / 2 + 2, 18, entry.node.row.high - 4);
    }
    pen.fillStyle = pen.strokeStyle = entry.at >= this.run.read ? ink.tell : mark.isBad ? ink.bad : mark.isGreat ? ink.now : entry.news ? ink.ink : ink.tell;
    pen.lineWidth = 1.6;
    const isPlain = isFolded && !mark.isGreat && !mark.isBad;
    SHAPES[isPlain ? "small" : mark.shape](pen, x, y, (entry.at === this.step ? 1.35 : this.scale < 6 ? 0.6 : 1) * (isFolded ? 0.8 : entry.rollback ? 1.3 : 1));
    pen.lineWidth = 1;
    if (this.scale >= 24 && mark.text && !isFolded) this.labels.push([mark.text, x + 7, y - 8, this.scale * 1.6]);
    if (this.scale >= 2) this.spot(x - 7, y - 8, x + 7, y + 8, { tip: () => entryTip(this.run, entry), go: entry.at });
  },

  drawFault(x, node) {
    const { pen, ink } = this;
    pen.strokeStyle = ink.bad;
    pen.lineWidth = 2;
    this.path([[x, this.head() - 6], [x, this.high]], [4, 3]);
    if (node.row) pen.strokeRect(x - 12, this.yOf(node) - node.row.high / 2 + 1, 24, node.row.high - 2);
    pen.lineWidth = 1;
    pen.fillStyle = ink.bad;
    pen.font = "bold 13px system-ui, sans-serif";
    if (node.row) pen.fillText("! fault", x + 15, this.yOf(node));
    pen.font = WORDS;
  },
});

function batchName({ number, version }) {
  return `batch ${number}${version === null ? "" : `, version ${version}`}`;
}

function versionsText(versions) {
  const shown = versions.length > 6 ? `${versions[0]} to ${versions[versions.length - 1]}` : versions.join(", ");
  return `version${versions.length === 1 ? "" : "s"} ${shown}`;
}

// ---- what is said of a thing, where one points at it

function goneText(run, node, step) {
  if (node.born > step) return node.born === Infinity ? ", which never begins" : `, which begins at entry ${node.born}`;
  return node.gone <= step ? `, which ${run.entries[node.gone].word === "lost" ? "was lost for good" : "crashed"} at entry ${node.gone}` : "";
}

/** What the mark of an entry is: its name and what it means. */
function meaningOfMark(entry) {
  const { shape } = markOf(entry);
  return shape === "dot" ? DOTS[entry.node.kind] : MEANINGS[shape];
}

function entryTip(run, entry) {
  const [name] = meaningOfMark(entry);
  return `Entry ${entry.at}, ${name}: ${entryText(run, entry)}`;
}

function arrowTip(it) {
  const [name, meaning] = MEANINGS[it.kind], flag = it.isLost ? MEANINGS.lost : it.isLate ? MEANINGS.late : it.isAgain ? MEANINGS.again : null;
  return `A ${name} from ${it.from.name} to ${it.to.name}${flag ? `, ${flag[0]}: ${flag[1]}` : `. ${meaning}`}`;
}

function rollbackTip(it) {
  return `Rollback at entry ${it.at}: ${it.node.name} goes back from version ${it.from} to ${it.to}, since epoch ${it.epoch} did not take over more. ${capital(undoneText(it))}.`;
}

function epochTip({ epoch, from, m, k }) {
  return `Epoch ${epoch}, from entry ${from} on: ${countText(m, "log")}, each shard on ${k} of them. An epoch has the number of its ballot. ${ballotText(epoch)}`;
}

function ballotText(ballot) {
  return `${ballot} is round ${Math.floor(ballot / 256)} of recoverer ${ballot % 256}: a ballot is round × 256 + recoverer.`;
}

function foldTip({ groups }) {
  const count = groups.reduce((sum, it) => sum + it.nodes.length, 0), one = groups.length === 1;
  return `${capital(rowName({ groups }))}, folded: ${countText(count, "node")}. Click to open ${one ? "it" : "the list"}.`;
}

function capital(text) {
  return text.charAt(0).toUpperCase() + text.slice(1);
}
