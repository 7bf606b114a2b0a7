"use strict";
// The whole run at a glance: epochs, recoveries, what went wrong, and the versions that are acknowledged and applied. It
// is also the slider of the page.

const GLANCE = { epochs: 3, recoveries: 21, events: 44, chart: 66, foot: 6 };

class Overview {
  constructor(canvas, picture) {
    Object.assign(this, { canvas, picture, pen: canvas.getContext("2d"), spots: [], still: null });
    this.fit();
  }
  /** Takes the size of the canvas, and says whether it is another one. */
  fit() {
    const { clientWidth: wide, clientHeight: high } = this.canvas, isOther = wide !== this.wide || high !== this.high;
    [this.wide, this.high] = [wide, high];
    if (isOther) this.renew();
    return isOther;
  }
  /** Has the still part, which does not change from step to step, drawn anew. */
  renew() {
    this.still = null;
  }
  get left() {
    return this.picture.gutter;
  }
  get right() {
    return this.wide - (this.wide < 600 ? 34 : 48);
  }
  xOf(column) {
    return this.left + ((column + 0.5) / Math.max(1, this.picture.entryAt.length)) * (this.right - this.left);
  }
  xAt(entry) {
    return this.xOf(this.picture.column(entry));
  }
  /** The entry at a place, or the event that is drawn there. */
  entryOf(x, y) {
    const spot = y > GLANCE.recoveries ? this.spotAt(x, y) : null, { entryAt } = this.picture;
    if (spot && spot.isEvent) return spot.go;
    const column = Math.floor(((x - this.left) / (this.right - this.left)) * entryAt.length);
    return entryAt[Math.max(0, Math.min(entryAt.length - 1, column))];
  }
  spotAt(x, y) {
    return this.spots.findLast((it) => x >= it.x0 && x <= it.x1 && y >= it.y0 && y <= it.y1) ?? null;
  }
  spot(x0, y0, x1, y1, what) {
    this.spots.push({ x0, y0, x1, y1, ...what });
  }
  draw() {
    const ratio = window.devicePixelRatio || 1, [width, height] = [Math.round(this.wide * ratio), Math.round(this.high * ratio)];
    if (!width || !height) return;
    const { canvas, pen } = this;
    if (canvas.width !== width || canvas.height !== height) [canvas.width, canvas.height, this.still] = [width, height, null];
    if (!this.still) {
      pen.setTransform(ratio, 0, 0, ratio, 0, 0);
      this.drawStill();
      this.still = pen.getImageData(0, 0, width, height);
    } else pen.putImageData(this.still, 0, 0);
    pen.setTransform(ratio, 0, 0, ratio, 0, 0);
    this.drawView();
  }
  /** The part that the lanes show, and the step. */
  drawView() {
    const { pen, picture } = this, { ink } = picture, [from, upto] = picture.view(), x = this.xAt(picture.step);
    const a = this.xOf(from - 0.5), b = Math.max(a + 3, this.xOf(upto + 0.5)), high = this.high - 2;
    pen.fillStyle = ink.band;
    pen.fillRect(a, 1, b - a, high);
    pen.strokeStyle = pen.fillStyle = ink.now;
    pen.lineWidth = 1;
    pen.strokeRect(a, 1, b - a, high);
    // (what is drawn as an event there stays to be seen)
    pen.fillRect(x - 1, 0, 2, GLANCE.events - 2);
    pen.fillRect(x - 1, GLANCE.chart, 2, this.high);
    polygon(pen, [[x - 6, 0], [x + 6, 0], [x, 8]]);
    pen.fill();
  }
  drawStill() {
    const { pen, picture } = this, { ink } = picture;
    this.spots = [];
    pen.fillStyle = ink.paper;
    pen.fillRect(0, 0, this.wide, this.high);
    pen.font = SMALL;
    pen.textBaseline = "middle";
    pen.fillStyle = ink.soft;
    for (const [text, y] of [["epochs", GLANCE.epochs + 8], ["recoveries", GLANCE.recoveries + 10], ["events", GLANCE.events + 9], ["versions", GLANCE.chart + 8]]) pen.fillText(text, 16, y);
    if (this.high - GLANCE.chart > 44) this.drawKey();
    this.drawEpochs();
    this.drawRecoveries();
    this.drawChart();
    this.drawUnread();
    this.drawEvents();
  }
  /** What is not read: not yet, or since it stands behind a fault. */
  drawUnread() {
    const { pen, picture } = this, { run, ink } = picture, x = this.xOf(picture.column(run.read) - 0.5);
    if (run.read >= picture.count) return;
    pen.fillStyle = ink.panel;
    pen.fillRect(x, GLANCE.epochs, this.right - x, this.high - GLANCE.epochs - GLANCE.foot);
    pen.fillStyle = ink.soft;
    const from = this.xAt(run.read) + 12;
    this.fitted(run.fault ? ["behind the fault: not read", "not read"] : ["not read yet"], from, GLANCE.events + 9.5, this.right - from - 2);
  }
  /** What the area and the lines of the chart are. */
  drawKey() {
    const { pen, picture } = this, { ink } = picture, y = GLANCE.chart + 23;
    pen.fillText("applied", 37, y);
    pen.fillText("acknowledged", 37, y + 14);
    pen.fillStyle = ink.own;
    pen.globalAlpha = 0.35;
    pen.fillRect(16, y + 10, 16, 8);
    pen.globalAlpha = 1;
    pen.fillStyle = ink.good;
    pen.fillRect(16, y - 1, 16, 2);
  }
  fitted(texts, x, y, room) {
    const text = texts.find((it) => this.pen.measureText(it).width <= room);
    if (text) this.pen.fillText(text, x, y);
  }
  drawEpochs() {
    const { pen, picture } = this, { ink } = picture;
    for (const it of picture.epochs) {
      const a = this.xOf(picture.column(it.from) - 0.5), b = this.xOf(picture.column(it.to) + (it.to === picture.count - 1 ? 0.5 : -0.5));
      pen.fillStyle = it.at % 2 ? ink.epoch1 : ink.epoch0;
      pen.fillRect(a, GLANCE.epochs, b - a, 16);
      pen.fillRect(a, GLANCE.chart, b - a, 1);
      pen.fillStyle = ink.ink;
      this.fitted(it.texts, a + 4, GLANCE.epochs + 8.5, b - a - 5);
      this.spot(a, 0, b, GLANCE.epochs + 17, { tip: () => epochTip(it) });
    }
  }
  drawRecoveries() {
    const { pen, picture } = this, { ink } = picture, high = picture.bandRows > 2 ? 5 : picture.bandRows > 1 ? 9 : 18;
    for (const it of picture.bands) {
      const a = this.xAt(it.from), b = Math.max(a + 3, this.xAt(it.to)), y = GLANCE.recoveries + it.row * (high + 1);
      pen.strokeStyle = pen.fillStyle = it.isLost ? ink.bad : ink.own;
      pen.globalAlpha = 0.3;
      if (!it.isLost) pen.fillRect(a, y, b - a, high);
      pen.globalAlpha = 1;
      pen.setLineDash(it.isLost ? [3, 2] : []);
      pen.strokeRect(a + 0.5, y + 0.5, b - a, high - 1);
      pen.setLineDash([]);
      pen.fillStyle = ink.ink;
      if (high > 9) this.fitted(it.texts, a + 4, y + high / 2 + 0.5, b - a - 6);
      this.spot(a - 2, y, b + 2, y + high, { tip: () => bandTip(it), go: it.from, isEvent: true });
    }
  }
  /** Which versions are acknowledged (an area), and which each storage server has applied (a line). */
  drawChart() {
    const { pen, picture } = this, { run, ink } = picture, top = GLANCE.chart, foot = this.high - GLANCE.foot;
    const servers = run.config.shards.map((_, tag) => run.node({ storage: { tag } })), done = run.batches.filter((it) => it.outcome === "committed");
    const most = Math.max(1, ...servers.map((it) => it.curve.reduce((all, each) => Math.max(all, each[1]), 0)), done.reduce((all, it) => Math.max(all, it.version), 0));
    const y = (version) => foot - (version / most) * (foot - top - 5);
    this.stairs(done.map((it) => [it.ended, it.version]).sort((a, b) => a[0] - b[0]), y, true);
    pen.fillStyle = ink.own;
    pen.globalAlpha = 0.22;
    pen.lineTo(this.right, foot);
    pen.fill();
    pen.globalAlpha = 1;
    pen.strokeStyle = ink.good;
    pen.lineWidth = 1.5;
    for (const it of servers) {
      this.stairs(it.curve, y, false);
      pen.stroke();
    }
    this.drawFalls(y);
    pen.lineWidth = 1;
    pen.fillStyle = ink.soft;
    pen.fillText(`${most}`, this.right + 5, y(most));
    if (foot - top > 30) pen.fillText("0", this.right + 5, foot - 4);
    pen.strokeStyle = ink.line;
    pen.strokeRect(this.left + 0.5, top + 0.5, this.right - this.left, foot - top);
    const tip = "Versions: the area are those that are acknowledged, each line is what one storage server has applied. Where it falls in red is a rollback.";
    this.spot(this.left, top, this.right, foot, { tip: () => tip });
  }
  drawFalls(y) {
    const { pen, picture } = this;
    pen.strokeStyle = picture.ink.bad;
    pen.lineWidth = 3;
    for (const it of picture.run.rollbacks) {
      const x = this.xAt(it.at);
      pen.beginPath();
      pen.moveTo(x, y(it.from));
      pen.lineTo(x, Math.max(y(it.to), y(it.from) + 4));
      pen.stroke();
    }
  }
  /** Steps from the left to the right; those in one pixel are one. */
  stairs(points, y, isRising) {
    const { pen } = this;
    let last = this.left, high = 0, pixel = -1;
    pen.beginPath();
    pen.moveTo(this.left, y(0));
    for (const [at, version] of points) {
      const x = at < 0 ? this.left : this.xAt(at), to = isRising ? Math.max(high, version) : version;
      if (Math.floor(x) === pixel && to >= high) {
        high = to;
        continue;
      }
      pen.lineTo(x, y(high));
      pen.lineTo(x, y(to));
      [last, high, pixel] = [x, to, Math.floor(x)];
    }
    pen.lineTo(Math.max(last, this.right), y(high));
  }
  /** Rollbacks, crashes, lost logs and the fault; several in one place have a count. */
  drawEvents() {
    const { pen, picture } = this, { run, ink } = picture, y = GLANCE.events + 9, places = new Map();
    const put = (kind, at, tip) => {
      const x = this.xAt(at), key = `${kind} ${Math.floor(x / 14)}`;
      if (places.has(key)) places.get(key).count += 1;
      else places.set(key, { kind, at, x, tip, count: 1 });
    };
    for (const at of run.ends) if (at < run.read || !run.fault) put(run.entry(at).word, at, () => entryText(run, run.entry(at)));
    for (const it of run.rollbacks) put("rollback", it.at, () => rollbackTip(it));
    if (run.fault) put("fault", Math.max(0, run.fault.at), () => `The fault: ${run.fault.says}`);
    for (const it of places.values()) {
      pen.strokeStyle = pen.fillStyle = it.kind === "crashed" ? ink.soft : ink.bad;
      this.drawEvent(it, y);
      const more = it.count > 1 ? ` And ${it.count - 1} more here.` : "";
      this.spot(it.x - 8, y - 10, it.x + 8, y + 10, { tip: () => `Entry ${it.at}. ${it.tip()}${more}`, go: it.at, isEvent: true });
    }
  }
  drawEvent({ kind, x }, y) {
    const { pen, picture } = this;
    if (kind === "rollback" || kind === "fault") {
      pen.globalAlpha = 0.5;
      pen.fillRect(x - 0.5, y, 1, this.high - y - GLANCE.foot);
      pen.globalAlpha = 1;
      pen.fillRect(x - 7, y - 8, 14, 16);
      pen.fillStyle = picture.ink.paper;
      if (kind === "fault") return pen.fillText("!", x - 2, y);
      polygon(pen, [[x - 5, y], [x + 3, y - 5], [x + 3, y + 5]]);
      return pen.fill();
    }
    pen.lineWidth = 2;
    SHAPES.cross(pen, x, y, 0.9);
    pen.lineWidth = 1.4;
    if (kind === "lost") pen.strokeRect(x - 6.5, y - 6.5, 13, 13);
    pen.lineWidth = 1;
  }
}
