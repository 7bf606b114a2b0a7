"use strict";
// The picture: lanes with what is in view. A column is one entry that is shown; what stands outside is not drawn.

// (and how many columns at most on both sides of the step say which lanes are wanted)
const AXIS = 32, BAND = 18, NEAR = 60;
const WORDS = '12px system-ui, "DejaVu Sans", sans-serif', SMALL = '11px system-ui, "DejaVu Sans", sans-serif', BOLD = "bold " + SMALL;
const INKS = ["paper", "panel", "ink", "soft", "line", "now", "ask", "tell", "bad", "late", "again", "band", "row", "own", "good", "hit", "epoch0", "epoch1"];

function inksOf() {
  const style = getComputedStyle(document.documentElement);
  return Object.fromEntries(INKS.map((it) => [it, style.getPropertyValue("--" + it).trim()]));
}

class Picture {
  constructor(canvas, run, onlyNews) {
    Object.assign(this, { canvas, run, pen: canvas.getContext("2d"), x: 0, scale: 40, top: 0, step: 0, hits: new Set(), spots: [] });
    Object.assign(this, { onlyNews, folds: new Map(), open: new Set(), isSpread: false });
    this.colours();
    this.fit();
    this.renew();
  }
  /** Takes what the run holds now. */
  renew() {
    this.groups = groupsOf(this.run);
    this.nodes = this.groups.flatMap((it) => it.nodes);
    this.open = new Set();
    this.bands = bandsOf(this.run);
    this.epochs = epochsOf(this.run);
    this.bandRows = this.bands.reduce((most, it) => Math.max(most, it.row + 1), 0);
    for (const it of this.run.batches) it.fate = fateOf(this.run, it);
    this.show(this.onlyNews);
  }
  /** Which entries have a column: of those that were read all, or those that bring something new; and all others. */
  show(onlyNews) {
    const { entries, read } = this.run, count = entries.length;
    [this.onlyNews, this.count] = [onlyNews, count];
    this.columnOf = new Float64Array(count);
    this.entryAt = [];
    for (let at = 0; at < count; at++) {
      const isShown = !onlyNews || at >= read || entries[at].news;
      this.columnOf[at] = this.entryAt.length - (isShown ? 0 : 0.5);
      if (isShown) this.entryAt.push(at);
    }
    this.layOut();
  }
  column(at) {
    return at < 0 ? -1 : at < this.count ? this.columnOf[at] : this.entryAt.length;
  }
  isShown(at) {
    return at >= 0 && Number.isInteger(this.columnOf[at]);
  }
  /** Takes the size that the page gives the canvas, and says whether it is another one: to ask for it has the page laid out. */
  fit() {
    const { clientWidth: wide, clientHeight: high } = this.canvas, isOther = wide !== this.wide || high !== this.high;
    [this.wide, this.high, this.gutter] = [wide, high, wide < 600 ? 114 : 128];
    return isOther;
  }
  /** Which groups are open in this view, and where each lane stands. */
  layOut() {
    const [from, upto] = this.view(), { step, chosen, folds, open: was, entryAt } = this;
    const room = Math.max(6, Math.floor((this.high - this.head() - 2 * FOLDED) / LEAST_LANE));
    const middle = Math.max(from, Math.min(upto, Math.floor(this.column(step)))), near = [-NEAR, NEAR].map((it) => entryAt[Math.max(from, Math.min(upto, middle + it))] ?? 0);
    const view = { from: entryAt[from] ?? 0, upto: entryAt[upto] ?? 0, near, chosen, folds, room, was }, there = new Map();
    const shown = (group) => there.get(group) ?? (there.set(group, present(group, view)), there.get(group));
    this.open = openGroups(this.groups, view, shown);
    for (const it of this.nodes) it.row = null;
    this.rows = rowsOf(this.groups, this.open, this.isSpread, shown);
    const { lane, whole } = placeRows(this.rows, this.high - this.head());
    [this.lane, this.whole] = [lane, whole];
    this.top = Math.max(0, Math.min(this.top, whole + this.head() - this.high));
  }
  /** Where the bands of epochs, of recoveries and the flags of rollbacks stand above the lanes. */
  head() {
    return AXIS + BAND * (1 + this.bandRows + (this.run.rollbacks.length ? 1 : 0)) + 10;
  }
  xOf(column) {
    return this.gutter + (column - this.x + 0.5) * this.scale;
  }
  yOf(node) {
    return this.head() + (node.y ?? 0) - this.top;
  }
  rowAt(y) {
    return y < this.head() - 4 ? undefined : this.rows.find((it) => y - this.head() + this.top >= it.y && y - this.head() + this.top < it.y + it.high);
  }
  isFolded(node) {
    return !node.row || node.row.node !== node;
  }
  /** Whether a node's lane is in view. */
  isInView(node) {
    if (!node.row) return false;
    const y = this.yOf(node);
    return y > this.head() - this.lane && y < this.high + this.lane;
  }
  /** The columns in view. */
  view() {
    const count = this.entryAt.length;
    return [Math.max(0, Math.floor(this.x)), Math.max(0, Math.min(count - 1, Math.ceil(this.x + (this.wide - this.gutter) / this.scale)))];
  }
  colours() {
    this.ink = inksOf();
  }
  draw() {
    const { canvas, pen, wide, high } = this, ratio = window.devicePixelRatio || 1;
    if (canvas.width !== Math.round(wide * ratio) || canvas.height !== Math.round(high * ratio))
      [canvas.width, canvas.height] = [Math.round(wide * ratio), Math.round(high * ratio)];
    pen.setTransform(ratio, 0, 0, ratio, 0, 0);
    pen.fillStyle = this.ink.paper;
    pen.fillRect(0, 0, wide, high);
    pen.font = WORDS;
    pen.textBaseline = "middle";
    [this.drawn, this.labels, this.spots] = [{ arrows: 0, marks: 0 }, [], []];
    this.layOut();
    this.seen = this.view();
    const head = this.head() - 4;
    this.within(this.gutter, head, () => {
      this.drawLanes();
      this.drawNow();
      if (this.scale >= 5) this.drawArrows();
      this.drawBars();
      this.drawRollbackLines();
      this.drawMarks();
      if (this.moving) this.drawMoving(this.moving);
      for (const it of this.labels) this.label(...it);
    });
    this.within(this.gutter, AXIS, () => this.drawBands());
    this.drawAxis();
    this.drawNames();
  }
  /** Draws in a part of the canvas alone: what is right of and below a place. */
  within(x, y, draw) {
    this.pen.save();
    this.pen.beginPath();
    this.pen.rect(x, y, this.wide - x, this.high - y);
    this.pen.clip();
    draw();
    this.pen.restore();
  }
  /** What a place of the picture is, for whoever points at it: the last that was drawn there. */
  spot(x0, y0, x1, y1, what) {
    this.spots.push({ x0, y0, x1, y1, ...what });
  }
  drawLanes() {
    const { pen, ink, wide } = this, from = this.gutter;
    for (const row of this.rows) {
      const y = this.head() + row.y - this.top, middle = y + row.high / 2, isEven = this.groups.indexOf(row.group ?? row.groups[0]) % 2 === 0;
      if (y > this.high || y + row.high < this.head()) continue;
      pen.fillStyle = row.groups ? ink.panel : isEven ? ink.row : ink.paper;
      pen.fillRect(from, y, wide, row.high);
      pen.strokeStyle = ink.line;
      if (row.groups) continue;
      // (a node's line goes from where it is there to where it crashed or was lost for good)
      const { born, gone } = row.node, a = Math.max(from, this.xOf(this.column(born))), b = Math.min(wide, this.xOf(this.column(gone)));
      this.path([[from, middle], [a, middle]], [1, 5]);
      this.path([[b, middle], [wide, middle]], [1, 5]);
      pen.strokeStyle = ink.soft;
      pen.globalAlpha = 0.45;
      if (b > a) this.path([[a, middle], [b, middle]]);
      pen.globalAlpha = 1;
    }
  }
  drawNow() {
    const { pen, ink } = this, x = this.xOf(this.column(this.step)), wide = Math.max(2, Math.min(this.scale, 26));
    pen.fillStyle = ink.band;
    pen.fillRect(x - wide / 2, 0, wide, this.high);
    pen.strokeStyle = ink.now;
    this.path([[x - wide / 2, 0], [x - wide / 2, this.high]]);
    this.path([[x + wide / 2, 0], [x + wide / 2, this.high]]);
  }
  path(points, dash = []) {
    this.pen.setLineDash(dash);
    this.pen.beginPath();
    points.forEach(([x, y], at) => (at ? this.pen.lineTo(x, y) : this.pen.moveTo(x, y)));
    this.pen.stroke();
    this.pen.setLineDash([]);
  }
  /** The longest of some texts that fits, drawn; nothing where none does. */
  fitted(texts, x, y, room) {
    const text = texts.find((it) => this.pen.measureText(it).width <= room);
    if (text) this.pen.fillText(text, x, y);
  }
  drawBands() {
    const { pen, ink, wide } = this;
    pen.font = SMALL;
    for (const it of this.epochs) {
      const x = Math.max(this.gutter, this.xOf(this.column(it.from))), end = Math.min(wide, this.xOf(this.column(it.to)));
      if (end < this.gutter || x > wide) continue;
      pen.fillStyle = it.at % 2 ? ink.epoch1 : ink.epoch0;
      pen.fillRect(x, AXIS + 1, end - x, BAND - 3);
      pen.fillStyle = ink.ink;
      this.fitted(it.texts, x + 5, AXIS + BAND / 2, end - x - 6);
      this.spot(x, AXIS, end, AXIS + BAND, { tip: () => epochTip(it), go: it.from });
    }
    this.bands.forEach((it, at) => this.drawBand(it, this.bands.find((each, other) => other > at && each.row === it.row)));
    for (const it of this.run.rollbacks) this.drawFlag(it);
    pen.font = WORDS;
  }
  drawBand(it, next) {
    const { pen, ink } = this, y = AXIS + (it.row + 1) * BAND, end = this.xOf(this.column(it.to)) + 2;
    const x = Math.max(this.xOf(this.column(it.from)) - 2, this.gutter - 4), upto = next ? this.xOf(this.column(next.from)) - 6 : Infinity;
    if (end < this.gutter || x > this.wide) return;
    pen.fillStyle = ink.band;
    pen.globalAlpha = 0.6;
    pen.fillRect(x, this.head() - 6, end - x, this.high);
    pen.globalAlpha = 1;
    pen.fillStyle = ink.paper;
    pen.fillRect(x, y, end - x, BAND - 2);
    pen.strokeStyle = it.isLost ? ink.bad : ink.own;
    pen.setLineDash(it.isLost ? [3, 3] : []);
    pen.strokeRect(x, y + 0.5, end - x, BAND - 4);
    pen.setLineDash([]);
    pen.fillStyle = ink.ink;
    // (a text that its band has no room for stands behind it)
    const from = Math.max(x, this.gutter) + 5, isIn = it.texts.slice(0, -2).some((each) => pen.measureText(each).width < end - from - 4);
    if (isIn) this.fitted(it.texts, from, y + BAND / 2 - 1, end - from - 4);
    else this.fitted(it.texts, Math.max(end, this.gutter) + 5, y + BAND / 2 - 1, Math.min(upto, this.wide) - end - 9);
    this.spot(x, y, Math.max(end, x + 8), y + BAND, { tip: () => bandTip(it), go: it.from });
  }
  /** A rollback has the strongest mark: a flag above, and a line through all lanes. */
  drawFlag(it) {
    const { pen, ink } = this, x = this.xOf(this.column(it.at)), y = this.head() - BAND - 9;
    if (x < this.gutter || x > this.wide + 60) return;
    const text = this.scale >= 9 ? `rollback ${it.from} → ${it.to}` : "";
    pen.font = BOLD;
    const long = text ? pen.measureText(text).width + 20 : 13, start = Math.max(this.gutter, Math.min(x - 6, this.wide - long));
    pen.fillStyle = ink.bad;
    pen.fillRect(start, y, long, BAND - 1);
    pen.fillStyle = ink.paper;
    polygon(pen, [[start + 3, y + 8.5], [start + 10, y + 3.5], [start + 10, y + 13.5]]);
    pen.fill();
    if (text) pen.fillText(text, start + 14, y + BAND / 2);
    pen.font = SMALL;
    this.spot(start, y, start + long, y + BAND, { tip: () => rollbackTip(it), go: it.at });
  }
  drawRollbackLines() {
    const { pen, ink } = this;
    pen.strokeStyle = ink.bad;
    for (const it of this.run.rollbacks) {
      const x = this.xOf(this.column(it.at));
      pen.lineWidth = this.scale < 3 ? 1 : 2;
      this.path([[x, this.head() - 10], [x, this.yOf(it.node)]]);
    }
    pen.lineWidth = 1;
  }
  drawAxis() {
    const { pen, ink, wide } = this, [from, upto] = this.seen, every = niceStep(62 / this.scale);
    pen.fillStyle = ink.paper;
    pen.fillRect(0, 0, wide, AXIS - 1);
    pen.strokeStyle = ink.line;
    this.path([[0, AXIS - 1], [wide, AXIS - 1]]);
    pen.fillStyle = ink.soft;
    pen.textAlign = "center";
    for (let at = Math.ceil(from / every) * every; at <= upto; at += every) {
      const x = this.xOf(at), entry = this.entryAt[at];
      if (entry === undefined || x < this.gutter + 4) continue;
      pen.fillText(`${entry}`, x, 9);
      pen.fillText(`${this.run.columns.stamps[entry]}`, x, 22);
    }
    pen.textAlign = "left";
  }
  drawNames() {
    const { pen, ink, gutter } = this, head = this.head();
    pen.fillStyle = ink.paper;
    pen.fillRect(0, 0, gutter, this.high);
    pen.fillStyle = ink.soft;
    pen.font = SMALL;
    const rows = [["entry", 9], ["stamp", 22], ["epochs", AXIS + BAND / 2], ...(this.bandRows ? [["recoveries", AXIS + 1.5 * BAND]] : [])];
    for (const [text, y] of [...rows, ...(this.run.rollbacks.length ? [["rollbacks", head - BAND / 2 - 9]] : [])]) pen.fillText(text, 16, y);
    pen.font = WORDS;
    this.within(0, head - 4, () => this.rows.forEach((it) => this.drawName(it)));
    pen.strokeStyle = ink.line;
    this.path([[gutter, 0], [gutter, this.high]]);
  }
  drawName(row) {
    const { pen, ink, gutter } = this, y = this.head() + row.y - this.top, middle = y + row.high / 2;
    if (y > this.high || y + row.high < this.head() - 4) return;
    if (row.groups) {
      pen.fillStyle = ink.panel;
      pen.fillRect(0, y, gutter, row.high - 1);
      pen.fillStyle = ink.ink;
      this.fitted([`▸ ${rowName(row)}`, `▸ ${rowName(row).replace("epochs ", "")}`], 2, middle, gutter - 4);
      return this.spot(0, y, this.wide, y + row.high, { tip: () => foldTip(row), row, isWeak: true });
    }
    const { node, group } = row, isChosen = node === this.chosen, isFirst = this.rows.find((it) => it.group === group) === row, isLast = this.rows.findLast((it) => it.group === group) === row;
    pen.fillStyle = isChosen ? ink.now : group.epoch === null ? ink.line : ink.own;
    pen.fillRect(isChosen ? 8 : 10, y + (isFirst ? 4 : 0), isChosen ? 4 : 2, row.high - (isFirst ? 4 : 0) - (isLast ? 4 : 0));
    pen.fillStyle = node.born > this.step || node.gone <= this.step ? ink.soft : ink.ink;
    if (isFirst && group.key !== "storage servers") pen.fillText("▾", 0, middle);
    pen.font = (isChosen ? "bold " : "") + WORDS;
    pen.fillText(node.name, 16, middle, gutter - 20);
    pen.font = WORDS;
    this.spot(0, y, isFirst ? 14 : 0, y + row.high, { tip: () => `Fold ${group.key}`, fold: group });
    this.spot(isFirst ? 14 : 0, y, gutter, y + row.high, { tip: () => `${node.name}${goneText(this.run, node, this.step)}. ${KINDS[node.kind]}`, node });
  }
  /** Writes the longest of some texts that fits, with a rim that keeps it apart from lines. */
  label(texts, x, y, most = Infinity, isStrong = false) {
    const { pen, ink } = this;
    pen.font = isStrong ? BOLD : SMALL;
    const text = [texts].flat().find((it) => pen.measureText(it).width <= most);
    if (text === undefined) return (pen.font = WORDS);
    pen.strokeStyle = ink.paper;
    pen.lineWidth = 3;
    pen.strokeText(text, x, y);
    pen.lineWidth = 1;
    pen.fillStyle = isStrong ? ink.bad : ink.ink;
    pen.fillText(text, x, y);
    pen.font = WORDS;
  }
}
