"use strict";
// The page: what stands where. What keys, clicks and the address do is in controls.js.

const at = (id) => document.getElementById(id);

// for how many milliseconds a run is read before the page first shows it, and then each time between keys and clicks; and
// how often it shows what it read meanwhile
const FIRST_READ = 30, NEXT_READ = 30, SHOW_READ = 300;
// from how many entries on the page shows those alone that bring something new
const LONG = 300;

const VERDICTS = {
  ok: "Every entry keeps the rules, and every node ends as they say.",
  bad: "The first fault: the entry that breaks the rules, or the node that ends elsewhere than they say.",
  wait: "The page reads the journals, and says then whether they keep the rules.",
};

class Page {
  constructor(data) {
    const begun = performance.now();
    this.name = at("name").textContent;
    this.run = new Run(data, false);
    this.readFor(FIRST_READ);
    this.words = new URLSearchParams(location.hash.slice(1));
    this.isThemeSet = this.words.has("theme");
    document.documentElement.dataset.theme = this.words.get("theme") || (matchMedia("(prefers-color-scheme: dark)").matches ? "dark" : "light");
    this.picture = new Picture(at("picture"), this.run, this.isNews());
    this.overview = new Overview(at("overview"), this.picture);
    Object.assign(this, { follow: true, items: [], hit: -1, asked: false, isMoved: false, sought: "", playing: null, written: null });
    this.theme(document.documentElement.dataset.theme);
    this.showFault();
    this.tips = new Tips(at("tip"));
    this.listen();
    this.open();
    this.opened = performance.now() - begun;
    this.readOn(begun);
  }

  /** Reads on for so many milliseconds, or to the end. */
  readFor(most) {
    const begun = performance.now();
    do this.run.take(200);
    while (!this.run.isDone && performance.now() - begun < most);
  }

  /** Reads a long run to its end, a part at a time, so that the page answers meanwhile; then shows all of it. */
  readOn(begun) {
    if (this.run.isDone) return this.legend(), (this.whole = performance.now() - begun);
    const read = () => {
      // (a browser seldom calls a page that nobody sees)
      this.readFor(document.hidden ? 10 * NEXT_READ : NEXT_READ);
      this.verdict();
      if (this.run.isDone || performance.now() - this.renewed > SHOW_READ) this.renew();
      this.readOn(begun);
    };
    // (it is painted before it reads on, unless nobody sees it)
    const isFirst = this.renewed === undefined && !document.hidden;
    this.renewed ??= performance.now();
    if (isFirst) requestAnimationFrame(() => setTimeout(read));
    else setTimeout(read);
  }

  /** Shows what was read meanwhile. At the end, if the user did nothing or there is a fault, it opens anew. */
  renew() {
    const { picture, run } = this, before = picture.column(picture.step) - picture.x;
    this.renewed = performance.now();
    picture.renew();
    this.overview.renew();
    if (run.isDone) this.showFault();
    if (run.isDone && (!this.isMoved || run.fault)) return this.open();
    if (run.isDone) this.story();
    // (where only news are shown, what is read takes fewer columns)
    picture.x = picture.column(picture.step) - before;
    this.go(picture.step);
  }

  /** Whether the page opens with those entries alone that bring something new. */
  isNews() {
    return this.words.has("news") ? this.words.get("news") === "1" : this.run.entries.length > LONG;
  }

  /** Where the page opens if its address does not say: at the fault, else at the first recovery, else at the end. */
  mainStep() {
    const { begins, entries, fault } = this.run;
    return fault ? fault.at : begins[0] ?? entries.length - 1;
  }

  /** Shows what the words behind # say. */
  open() {
    const { words, run, picture } = this, { fault } = run;
    if (this.isNews() !== picture.onlyNews) this.onlyNews(this.isNews());
    at("news").setAttribute("aria-pressed", picture.onlyNews);
    const step = words.has("step") ? Number(words.get("step")) : this.mainStep();
    this.story();
    picture.scale = Number(words.get("scale")) || Math.min(40, Math.max(14, (picture.wide - picture.gutter) / Math.max(1, picture.entryAt.length)));
    if (fault && fault.node) this.choose(fault.node);
    const node = [...run.nodes.values()].find((it) => it.name === words.get("node"));
    if (node) this.choose(node);
    this.go(step);
    if (words.has("find")) this.openFound(words.get("find"), words.has("step"));
    this.isMoved = false;
  }

  /** What the address seeks; the first that is found is shown from the front, as if nothing had been shown before. */
  openFound(text, isStaying) {
    const { picture } = this;
    if (!isStaying) picture.x = -1;
    this.find(text, isStaying);
    this.reveal(Math.floor(picture.column(picture.step)));
  }

  theme(name) {
    document.documentElement.dataset.theme = name;
    at("theme").textContent = name === "dark" ? "Light" : "Dark";
    this.picture.colours();
    this.overview.renew();
    if (at("legend").hasChildNodes()) this.legend();
    this.paint();
  }

  paint() {
    if (this.asked) return;
    this.asked = true;
    requestAnimationFrame(() => {
      this.asked = false;
      this.picture.draw();
      this.overview.draw();
    });
  }

  /** Goes to an entry; where only news are shown, to the last one that is shown up to there. */
  go(step) {
    const { picture, run } = this, most = picture.count - 1;
    step = Math.max(0, Math.min(most, Math.floor(step) || 0));
    picture.step = step;
    const entry = run.entry(step), column = Math.floor(picture.column(step));
    if (entry && this.follow) picture.chosen = entry.node;
    this.reveal(column);
    at("step").textContent = entry ? `Entry ${step} of ${run.entries.length}, stamp ${entry.stamp}, ${entry.node.name}` : "No entry";
    this.sayMoment(entry, step);
    const slider = at("overview");
    slider.setAttribute("aria-valuemax", Math.max(0, run.entries.length - 1));
    slider.setAttribute("aria-valuenow", step);
    slider.setAttribute("aria-valuetext", at("step").textContent);
    this.showState();
    this.markListed();
    this.tellAddress();
    this.paint();
  }

  /** What happens at the step, in words, and what its mark means. */
  sayMoment(entry, step) {
    const { run } = this, words = entry ? (step < run.read ? entryText(run, entry) : this.unread(step)) : "These journals have no entries.";
    at("words").replaceChildren(...withTerms(words));
    at("moment").classList.toggle("main", Boolean(entry && entry.rollback));
    if (!entry || step >= run.read) return at("meaning").replaceChildren();
    const { shape } = markOf(entry), [name, meaning] = meaningOfMark(entry);
    at("meaning").replaceChildren(this.sample(element("span", [element("b", name), `: ${meaning}`]), (pen) => SHAPES[shape](pen, 17, 8, 1), shape));
  }

  unread(step) {
    const { fault, isDone } = this.run, entry = this.run.entry(step);
    if (!isDone) return `Not read yet: ${entryText(this.run, entry)}`;
    return step === fault.at ? `${entryText(this.run, entry)} This is the fault.` : `It stands behind the fault, and is not read: ${entryText(this.run, entry)}`;
  }

  showState() {
    const { picture, run } = this, node = picture.chosen || picture.nodes[0];
    if (!node) return;
    const step = Math.min(picture.step, run.read - 1);
    const when = picture.step < run.read ? "after it" : run.fault ? "before the fault" : "as far as the run is read";
    at("whose").textContent = `State of ${node.name} ${when}`;
    showState(run, node, run.entries.length ? step : 0, at("state"));
  }

  /** Brings a column and the chosen lane into view. */
  reveal(column) {
    const { picture } = this, wide = (picture.wide - picture.gutter) / picture.scale;
    if (column < picture.x + 1 || column > picture.x + wide - 2) picture.x = column - wide / 2;
    picture.x = Math.max(-1, Math.min(picture.x, Math.max(-1, picture.entryAt.length + 2 - wide)));
    picture.layOut();
    const high = picture.high - picture.head(), { row } = picture.chosen || {};
    if (row && row.y < picture.top) picture.top = row.y;
    if (row && row.y + row.high > picture.top + high) picture.top = row.y + row.high - high;
    picture.top = Math.max(0, Math.min(picture.top, picture.whole - high));
  }

  by(columns) {
    const { picture } = this, column = Math.floor(picture.column(picture.step)) + columns;
    this.go(picture.entryAt[Math.max(0, Math.min(picture.entryAt.length - 1, column))]);
  }

  choose(node) {
    this.picture.chosen = node;
    this.setFollow(false);
    this.reveal(Math.floor(this.picture.column(this.picture.step)));
    this.showState();
    this.tellAddress();
    this.paint();
  }

  byLane(lanes) {
    const { picture } = this, { nodes } = picture, place = picture.chosen ? nodes.indexOf(picture.chosen) + lanes : 0;
    if (nodes[place]) this.choose(nodes[place]);
  }

  /** Opens or folds a group of lanes. */
  fold(group) {
    const { picture } = this;
    picture.folds.set(group.key, !picture.open.has(group));
    picture.layOut();
    this.paint();
  }

  setFollow(is) {
    this.follow = is;
    at("follow").setAttribute("aria-pressed", is);
    if (is) this.go(this.picture.step);
  }

  onlyNews(is) {
    this.picture.show(is);
    this.overview.renew();
    at("news").setAttribute("aria-pressed", is);
    this.picture.x = -1;
    this.go(this.picture.step);
  }

  zoom(by, around) {
    const { picture } = this, x = around ?? picture.xOf(picture.column(picture.step));
    const column = (x - picture.gutter) / picture.scale + picture.x;
    const least = (picture.wide - picture.gutter) / (picture.entryAt.length + 2);
    picture.scale = Math.max(Math.min(least, 40), Math.min(90, picture.scale * by));
    picture.x = Math.max(-1, column - (x - picture.gutter) / picture.scale);
    this.paint();
  }

  pan(columns) {
    const { picture } = this, wide = (picture.wide - picture.gutter) / picture.scale;
    picture.x = Math.max(-1, Math.min(picture.x + columns, picture.entryAt.length + 2 - wide / 2));
    this.paint();
  }

  // ---- the head

  /** The verdict, in the words of the audit. */
  verdict() {
    const { fault, isDone, read, entries } = this.run, box = at("verdict"), said = isDone ? (fault ? "bad" : "ok") : "wait";
    box.className = said;
    box.textContent = { ok: "✓ audit ok", bad: `✗ ${fault && fault.line}`, wait: `reading, ${Math.floor((100 * read) / entries.length)}%` }[said];
    box.dataset.tip = VERDICTS[said];
  }

  /** How much there is of what. */
  sums() {
    const { run, picture } = this, { entries, recoveries, rollbacks, isDone } = run;
    this.verdict();
    const counts = [countText(entries.length, "entry", "entries"), countText(picture.nodes.length, "node")];
    if (isDone && run.batches.length) counts.push(fatesText(run));
    if (isDone && recoveries.length) counts.push(countText(recoveries.length, "recovery", "recoveries"));
    if (isDone && rollbacks.length) counts.push(countText(rollbacks.length, "rollback"));
    at("sums").textContent = counts.join(" · ");
    document.title = `${at("verdict").textContent} · ${this.name} · a run of fdbrec`;
    for (const [id, is] of [["to-rollback", rollbacks.length], ["to-recovery", recoveries.length], ["to-fault", run.fault]]) at(id).hidden = !is;
  }

  showFault() {
    const { fault } = this.run, box = at("fault");
    box.hidden = !fault;
    if (!fault) return;
    const where = fault.line.startsWith("state") ? "At the end" : `Entry ${fault.at}`;
    const line = element("span", ` ${where}; fdbrec audit says: ${fault.line}.`, { class: "line" });
    box.replaceChildren(element("p", [element("strong", capital(fault.says)), line]), ...(fault.sides ? this.sides(fault.sides) : []));
  }

  /** The two sides of a fault: each in words, where they differ, and both as they stand. */
  sides({ names, places, values, words }) {
    const rows = names.flatMap((it, at) => [element("dt", capital(it)), element("dd", words[at])]);
    const whole = names.flatMap((it, at) => [element("dt", capital(it)), element("dd", element("code", JSON.stringify(values[at])))]);
    const folded = element("details", [element("summary", "Both in full"), element("dl", whole)]);
    return [element("dl", rows), ...places.map((it) => element("p", it)), folded];
  }

  // ---- lists

  story() {
    this.sought = "";
    const items = storyOf(this.run);
    const none = this.run.isDone ? "No recovery, no rollback, no crash." : "It comes once the run is read.";
    this.listItems(`The story${this.run.isDone ? "" : " so far"}`, items.length ? items : [{ head: none }]);
    this.sums();
    this.tellAddress();
  }

  /** Lists what a search finds, and goes to the first of it unless it is to stay at its step. */
  find(text, isStaying = false) {
    this.isMoved = true;
    at("what").value = this.sought = text;
    const items = found(this.run, text), count = items.filter((it) => it.at !== undefined && it.at !== null).length;
    this.listItems(count ? `Found for "${text}"` : `Nothing is found for "${text}"`, count ? items : [{ head: `Search for ${SOUGHT}.`, isHelp: true }]);
    this.picture.hits = new Set(items.map((it) => it.at));
    this.hit = -1;
    if (!isStaying) this.next(1);
    this.tellAddress();
    this.paint();
  }

  listItems(title, items) {
    this.items = items;
    this.picture.hits = new Set();
    this.hit = -1;
    at("listed").textContent = title;
    at("back").hidden = title.startsWith("The story");
    const shown = items.slice(0, 400);
    at("list").replaceChildren(...shown.map((it) => this.listed(it)));
    if (items.length > shown.length) at("list").append(element("li", `.. and ${items.length - shown.length} more`));
    this.buttons = [...at("list").querySelectorAll("button")];
    this.markListed();
  }

  listed(it) {
    if (it.head) return element("li", it.head, { class: it.isHelp ? "help" : "head", ...(it.tip ? { "data-tip": it.tip, tabindex: "0" } : {}) });
    const button = element("button", [element("span", it.at === null ? "" : `entry ${it.at}`, { class: "at" }), element("span", withTerms(it.words, true))], { type: "button" });
    button.dataset.at = it.at;
    button.disabled = it.at === null;
    button.onclick = () => ((this.isMoved = true), this.go(it.at));
    return element("li", button, it.isMain ? { class: "main" } : {});
  }

  markListed() {
    for (const it of this.buttons || []) it.setAttribute("aria-current", Number(it.dataset.at) === this.picture.step);
  }

  /** The next found item, or the one before. */
  next(by) {
    const steps = this.items.filter((it) => it.at !== undefined && it.at !== null);
    if (!steps.length) return;
    this.hit = (this.hit + by + steps.length) % steps.length;
    this.go(steps[this.hit].at);
  }

  /** The next of some entries behind the step, or the first. */
  toNext(steps) {
    const sorted = [...steps].sort((a, b) => a - b);
    if (sorted.length) this.go(sorted.find((it) => it > this.picture.step) ?? sorted[0]);
  }
}
