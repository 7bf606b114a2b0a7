"use strict";
// What keys, clicks, the play button and the address do, and the legend.

// how long the play stays at a rollback or another main event: so many times as at another entry
const LINGER = 4;

Object.assign(Page.prototype, {
  // ---- the legend

  legend() {
    const shapes = Object.keys(SHAPES), lines = ["ask", "tell", "late", "again", "lost"], bars = Object.keys(FATES).slice(0, 6);
    const shape = (name) => this.sample(termIn(...MEANINGS[name]), (pen) => SHAPES[name](pen, 17, 8, 1), name);
    const line = (name) => this.sample(termIn(...MEANINGS[name]), (pen, ink) => this.sampleLine(pen, ink, name), name);
    const bar = (name) => this.sample(termIn(`batch ${name}`, FATES[name]), (pen, ink) => this.sampleBar(pen, ink, name), name);
    at("legend").replaceChildren(...shapes.map(shape), ...lines.map(line), ...bars.map(bar));
  },

  sample(text, draw, name) {
    const canvas = element("canvas"), pen = canvas.getContext("2d"), { ink } = this.picture, ratio = window.devicePixelRatio || 1;
    [canvas.width, canvas.height] = [34 * ratio, 16 * ratio];
    pen.scale(ratio, ratio);
    pen.fillStyle = pen.strokeStyle = ["back", "cross", "lost"].includes(name) ? ink.bad : ["up", "begun", "lock"].includes(name) ? ink.now : ink.ink;
    pen.lineWidth = 1.6;
    draw(pen, ink);
    return element("span", [canvas, text], { class: "sample" });
  },

  sampleBar(pen, ink, name) {
    const { colour, dash, fill, wide } = BARS[name];
    pen.strokeStyle = pen.fillStyle = ink[colour];
    pen.lineWidth = wide || 1.2;
    pen.setLineDash(dash);
    pen.strokeRect(2, 3, 30, 10);
    pen.setLineDash([]);
    pen.lineWidth = 1.2;
    if (fill === "hatch") for (let x = 2; x < 30; x += 6) pen.beginPath(), pen.moveTo(x, 13), pen.lineTo(x + 6, 3), pen.stroke();
    pen.globalAlpha = 0.26;
    if (fill === "full") pen.fillRect(2, 3, 30, 10);
  },

  sampleLine(pen, ink, name) {
    pen.strokeStyle = pen.fillStyle = { ask: ink.ask, tell: ink.tell, late: ink.late, again: ink.again, lost: ink.bad }[name];
    pen.lineWidth = 1.2;
    const line = (y) => (pen.beginPath(), pen.moveTo(2, y), pen.lineTo(name === "lost" ? 20 : 30, y), pen.stroke());
    pen.setLineDash(name === "late" ? [1, 3] : name === "tell" ? [5, 3] : []);
    line(8);
    if (name === "again") line(11);
    pen.setLineDash([]);
    if (name === "lost") SHAPES.cross(pen, 23, 8, 0.8);
    else polygon(pen, [[33, 8], [26, 4.5], [26, 11.5]]), pen.fill();
  },

  // ---- the play

  play(is = !this.playing) {
    const button = at("play");
    if (this.playing) cancelAnimationFrame(this.playing.frame);
    this.playing = null;
    this.picture.moving = null;
    if (is && this.picture.step >= this.picture.entryAt[this.picture.entryAt.length - 1]) this.go(0);
    if (is) {
      this.playing = { since: performance.now(), frame: 0 };
      this.playOn();
    }
    button.textContent = is ? "❚❚ Pause" : "▶ Play";
    button.setAttribute("aria-pressed", is);
    this.paint();
  },

  playOn() {
    const { picture, playing, run } = this, column = Math.floor(picture.column(picture.step)), next = picture.entryAt[column + 1];
    if (next === undefined) return this.play(false);
    playing.frame = requestAnimationFrame((now) => {
      if (this.playing !== playing) return;
      const entry = run.entry(picture.step), isMain = entry.rollback || ["begun", "crashed", "lost"].includes(entry.word);
      const pause = (1000 / Number(at("speed").value)) * (isMain ? LINGER : 1), done = (now - playing.since) / pause;
      picture.moving = done < 1 && Number(at("speed").value) <= 8 && !this.isStill ? { entry: run.entry(next), done } : null;
      if (done >= 1) [playing.since] = [now, this.by(Math.max(1, Math.min(20, Math.floor(done))))];
      if (picture.moving) this.paint();
      this.playOn();
    });
  },

  faster(by) {
    const speed = at("speed");
    speed.selectedIndex = Math.max(0, Math.min(speed.options.length - 1, speed.selectedIndex + by));
  },

  // ---- the address

  /** The words behind #: what shows this moment once it is opened. */
  address() {
    const { picture, run } = this, words = new URLSearchParams();
    words.set("step", picture.step);
    if (!this.follow && picture.chosen) words.set("node", picture.chosen.name);
    if (this.sought) words.set("find", this.sought);
    if (picture.onlyNews !== run.entries.length > LONG) words.set("news", picture.onlyNews ? "1" : "0");
    if (this.isThemeSet) words.set("theme", document.documentElement.dataset.theme);
    return `#${words}`;
  },

  /** Has the address follow the moment; a browser takes only so many of these in a second. */
  tellAddress() {
    if (this.telling || !this.opened) return;
    this.telling = setTimeout(() => {
      this.telling = null;
      this.written = this.address();
      try {
        history.replaceState(null, "", this.written);
      } catch {
        // (a page without an address of its own, as in a frame, has none to change)
      }
    }, 150);
  },

  takeAddress() {
    if (location.hash === this.written) return;
    this.words = new URLSearchParams(location.hash.slice(1));
    this.follow = !this.words.has("node");
    at("follow").setAttribute("aria-pressed", this.follow);
    if (this.words.has("theme")) this.theme(this.words.get("theme"));
    this.open();
  },

  // ---- keys and clicks

  keys() {
    const { run, picture } = this, wide = (picture.wide - picture.gutter) / picture.scale;
    return {
      Home: () => this.by(-Infinity), End: () => this.by(Infinity), PageDown: () => this.by(100), PageUp: () => this.by(-100),
      ArrowDown: () => this.byLane(1), ArrowUp: () => this.byLane(-1), " ": () => this.play(), "<": () => this.faster(-1), ">": () => this.faster(1),
      "+": () => this.zoom(1.4), "=": () => this.zoom(1.4), "-": () => this.zoom(1 / 1.4), 0: () => (this.zoom(1e-9), this.pan(-Infinity)),
      "[": () => this.pan(-wide / 2), "]": () => this.pan(wide / 2), "/": () => (at("what").focus(), at("what").select()), n: () => this.next(1), p: () => this.next(-1),
      r: () => this.toRecovery(), b: () => this.toRollback(), "!": () => run.fault && this.go(run.fault.at), q: () => this.onlyNews(!picture.onlyNews),
      e: () => picture.chosen && this.fold(picture.chosen.group), f: () => this.setFollow(!this.follow), s: () => (this.story(), this.paint()),
      l: () => (at("legends").open = !at("legends").open), "?": () => (at("help").open = !at("help").open), d: () => at("theme").click(), Escape: () => this.tips.hide(),
    };
  },

  toRecovery() {
    this.toNext(this.run.recoveries.map((it) => it.begun));
  },

  toRollback() {
    this.toNext(this.run.rollbacks.map((it) => it.at));
  },

  key(event) {
    if (event.ctrlKey || event.metaKey || event.altKey) return;
    const many = event.shiftKey ? 10 : 1, { target } = event;
    if ((event.key === " " || event.key === "Enter") && target.closest("button, select, summary, input")) return;
    if (target.closest("select") && event.key !== "Escape") return;
    const does = { ArrowRight: () => this.by(many), ArrowLeft: () => this.by(-many) }[event.key] ?? this.keys()[event.key];
    if (!does) return;
    event.preventDefault();
    this.isMoved = true;
    if (!/^[ <>]$/.test(event.key) && this.playing && /^(Arrow[LR]|Home|End|Page|[rbnp!])/.test(event.key)) this.play(false);
    does();
  },

  listen() {
    const canvas = at("picture"), { picture } = this, does = (id, what) => (at(id).onclick = () => ((this.isMoved = true), what()));
    this.isStill = matchMedia("(prefers-reduced-motion: reduce)").matches;
    document.addEventListener("keydown", (event) => {
      if (event.target === at("what")) return event.key === "Escape" && canvas.focus();
      this.key(event);
    });
    at("find").onsubmit = (event) => (event.preventDefault(), this.find(at("what").value), canvas.focus());
    at("what").onfocus = () => this.showHints();
    at("legends").ontoggle = () => at("legend").hasChildNodes() || this.legend();
    const steps = { first: -Infinity, before: -1, after: 1, last: Infinity };
    for (const id in steps) does(id, () => (this.play(false), this.by(steps[id])));
    const others = { play: () => this.play(), news: () => this.onlyNews(!picture.onlyNews), follow: () => this.setFollow(!this.follow), closer: () => this.zoom(1.4), wider: () => this.zoom(1 / 1.4) };
    for (const id in others) does(id, others[id]);
    does("to-rollback", () => this.toRollback());
    does("to-recovery", () => this.toRecovery());
    does("to-fault", () => this.go(this.run.fault.at));
    does("back", () => (this.story(), this.paint()));
    does("theme", () => ((this.isThemeSet = true), this.theme(document.documentElement.dataset.theme === "dark" ? "light" : "dark"), this.tellAddress()));
    at("follow").setAttribute("aria-pressed", true);
    new ResizeObserver(() => this.fit()).observe(canvas);
    addEventListener("hashchange", () => this.takeAddress());
    this.listenCanvas(canvas);
    this.listenOverview(at("overview"));
  },

  /** Draws anew once the page gives the canvases another size. */
  fit() {
    const isOther = [this.picture, this.overview].filter((it) => it.fit()).length > 0;
    if (!isOther) return;
    this.reveal(Math.floor(this.picture.column(this.picture.step)));
    this.paint();
  },

  /** What can be sought, below the field: each starts that search. */
  showHints() {
    const rows = soughtIn(this.run).map(([what, text]) => {
      const button = element("button", [element("b", text), element("span", what)], { type: "button" });
      button.onclick = () => (this.find(text), at("picture").focus());
      return button;
    });
    at("hints").replaceChildren(element("p", "Search for:"), ...rows);
  },

  listenCanvas(canvas) {
    const { picture } = this;
    let grip = null;
    canvas.addEventListener("wheel", (event) => {
      if (event.ctrlKey || event.metaKey) return event.preventDefault(), this.zoom(event.deltaY < 0 ? 1.2 : 1 / 1.2, event.offsetX);
      if (event.shiftKey || Math.abs(event.deltaX) > Math.abs(event.deltaY)) return event.preventDefault(), this.pan((event.deltaX || event.deltaY) / picture.scale);
      const most = Math.max(0, picture.whole + picture.head() - picture.high), top = Math.max(0, Math.min(picture.top + event.deltaY, most));
      if (top === picture.top) return;
      event.preventDefault();
      picture.top = top;
      this.paint();
    }, { passive: false });
    canvas.onpointerdown = (event) => (grip = { x: event.offsetX, from: picture.x, moved: false });
    canvas.onpointermove = (event) => {
      if (!grip) return this.tips.point(event, canvas, spotAt(picture.spots, event.offsetX, event.offsetY));
      if (Math.abs(event.offsetX - grip.x) < 4) return;
      grip.moved = true;
      this.tips.hide();
      this.pan(grip.from - (event.offsetX - grip.x) / picture.scale - picture.x);
    };
    canvas.onpointerleave = canvas.onpointercancel = () => ((grip = null), this.tips.hide());
    canvas.onpointerup = (event) => {
      const { offsetX: x, offsetY: y } = event, isClick = grip && !grip.moved;
      grip = null;
      if (isClick) this.click(x, y);
    };
  },

  click(x, y) {
    const { picture } = this, spot = spotAt(picture.spots, x, y), row = picture.rowAt(y);
    this.isMoved = true;
    if (spot && spot.fold) return this.fold(spot.fold);
    if (x < picture.gutter) return row && this.clickName(row);
    if (spot && spot.go !== undefined && !spot.isWeak && !spot.line) return this.go(spot.go);
    const column = Math.round((x - picture.gutter) / picture.scale + picture.x - 0.5), entry = picture.entryAt[column];
    if (entry !== undefined) this.go(entry);
  },

  clickName(row) {
    const { picture } = this;
    if (row.node) return this.choose(row.node);
    if (row.groups.length === 1) return this.fold(row.groups[0]);
    picture.isSpread = !picture.isSpread;
    this.paint();
  },

  listenOverview(canvas) {
    const { overview } = this;
    let isHeld = false;
    const goTo = (event) => ((this.isMoved = true), this.go(overview.entryOf(event.offsetX, event.offsetY)));
    canvas.onpointerdown = (event) => {
      isHeld = true;
      canvas.setPointerCapture(event.pointerId);
      this.play(false);
      goTo(event);
    };
    canvas.onpointermove = (event) => (isHeld ? goTo(event) : this.tips.point(event, canvas, overview.spotAt(event.offsetX, event.offsetY)));
    canvas.onpointerup = canvas.onpointercancel = () => (isHeld = false);
    canvas.onpointerleave = () => this.tips.hide();
  },
});

let page = null;
unpacked(at("journals")).then(
  (data) => (page = new Page(data)),
  (fault) => ((at("verdict").className = "bad"), (at("verdict").textContent = "not read"), (at("sums").textContent = `This browser cannot unpack the run: ${fault}`))
);
