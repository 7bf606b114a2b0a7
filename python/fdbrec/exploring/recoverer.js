"use strict";
// A recoverer by the rules of docs/PROTOCOL.md.

class Recoverer {
  constructor(ballot, config, shape) {
    Object.assign(this, { ballot, shape, cells: config.coordinators, tags: config.shards.length, phase: "reading" });
    Object.assign(this, { reads: new Map(), replies: new Map(), written: new Set(), seeded: new Set(), marked: new Set() });
    Object.assign(this, { parent: null, plan: null, pev: null, rv: null, parts: [] });
  }
  copy() {
    const other = Object.assign(Object.create(Recoverer.prototype), this);
    for (const name of ["reads", "replies"]) other[name] = new Map(this[name]);
    for (const name of ["written", "seeded", "marked"]) other[name] = new Set(this[name]);
    other.parts = this.parts.map((it) => ({ reached: it.reached, records: [...it.records] }));
    return other;
  }
  /** The generation whose logs it locks. */
  old() {
    return newestOf(this.parent);
  }
  own() {
    return newestOf(this.plan);
  }
  isCopied() {
    return this.plan !== null && this.parts.every((it) => it.reached >= this.rv);
  }
  isChosen() {
    return this.phase === "chosen";
  }
  lose(why) {
    this.phase = "lost " + why;
  }
  hear(from, tell) {
    const [place, where] = variant(from), [kind, what] = variant(tell), [name, said] = variant(what);
    if (kind === "cell" && place === "cell" && where.index < this.cells) this.hearCell(where.index, name, said);
    if (kind === "log" && place === "log") this.hearLog(where.epoch, where.index, name, said);
  }
  hearCell(index, name, said) {
    const heard = this.phase === "reading" ? this.reads : this.written;
    if (!["reading", "writing"].includes(this.phase) || heard.has(index)) return;
    if (name === "refused") return this.lose("Outballoted");
    if (name === "two_values") return this.lose("TwoValues");
    if (this.phase === "reading" && name === "promise") this.promised(index, said);
    if (this.phase === "writing" && name === "written" && said.ballot === this.ballot) {
      this.written.add(index);
      if (2 * this.written.size > this.cells) this.phase = "chosen";
    }
  }
  promised(index, said) {
    this.reads.set(index, said);
    if (2 * this.reads.size <= this.cells) return;
    let greatest = { written: 0, value: "" };
    for (const it of this.reads.values()) if (it.written > greatest.written) greatest = it;
    this.parent = stateRead(greatest.value);
    if (this.parent === null) this.lose("BadState");
    else this.phase = "locking";
  }
  hearLog(epoch, index, name, said) {
    if (this.phase === "locking" && name === "locked" && epoch === this.old().epoch) this.replied(index, said);
    else if (this.phase === "copying" && name === "peeked" && epoch === this.old().epoch) this.copied(index, said);
    else if (this.phase === "copying" && name === "seeded" && epoch === this.ballot && this.isCopied()) {
      if (index < this.own().m) this.seeded.add(index);
      if (this.seeded.size === this.own().m) this.phase = "writing";
    } else if (this.isChosen() && name === "held" && epoch === this.ballot && index < this.own().m) {
      if (said.version === this.rv + 1) this.marked.add(index);
    }
  }
  replied(index, said) {
    const { m, k } = this.old();
    if (index >= m || this.replies.has(index)) return;
    this.replies.set(index, said);
    if (this.replies.size <= m - k) return;
    const replies = [...this.replies.values()];
    this.pev = Math.max(...replies.map((it) => it.known));
    this.rv = Math.min(...replies.map((it) => it.durable));
    const left = this.left();
    if (this.pev > this.rv) this.lose("Inconsistent");
    else if (this.ballot <= this.old().epoch) this.lose("NotLater");
    else if (left.gens.length >= 64) this.lose("TooMany");
    else this.draw(left);
  }
  draw(left) {
    const { m, k } = this.shape || this.old();
    const own = { epoch: this.ballot, first: this.pev + 1, k, m, seeded_to: this.rv };
    this.plan = { dropped: left.dropped, gens: [...left.gens, own] };
    this.parts = Array.from({ length: this.tags }, () => ({ reached: this.pev, records: [] }));
    this.phase = "copying";
  }
  /** The parent without the generations that no storage server needs any more. */
  left() {
    const shown = new Map();
    for (const it of this.replies.values())
      for (const [tag, version] of it.popped || []) shown.set(tag, Math.max(shown.get(tag) || 0, version));
    if (shown.size < this.tags) return this.parent;
    const passed = Math.min(...shown.values()), places = this.parent.gens.map((it, at) => (it.first <= passed + 1 ? at : 0));
    const drop = Math.max(...places);
    return { dropped: this.parent.dropped + drop, gens: this.parent.gens.slice(drop) };
  }
  copied(index, { tag, after, upto, records }) {
    const { m, k } = this.old(), part = this.parts[tag];
    const isHolder = (((index - tag) % m) + m) % m < k;
    if (!part || !this.replies.has(index) || !isHolder || part.reached >= this.rv) return;
    if (after !== part.reached || upto <= part.reached) return;
    part.reached = Math.min(upto, this.rv);
    part.records.push(...records.filter((it) => it.version <= this.rv));
  }
  mark() {
    const { rv, pev, ballot } = this;
    return { bodies: [], epoch: ballot, known: pev, mark: stateShown(this.plan), prev: rv, version: rv + 1 };
  }
  seedFor(index) {
    const { m, k } = this.own(), records = [];
    this.parts.forEach((part, tag) => {
      if ((((index - tag) % m) + m) % m < k)
        for (const it of part.records) records.push({ batch: it.batch, tag, version: it.version });
    });
    records.sort((a, b) => a.version - b.version || a.tag - b.tag);
    return { epoch: this.ballot, first: this.pev + 1, records, seeded_to: this.rv };
  }
  /** All asks whose tells it wants, each with its node. */
  pending() {
    const cell = (index, ask) => [{ cell: { index } }, { cell: ask }];
    const log = (epoch, index, ask) => [{ log: { epoch, index } }, { log: ask }];
    const left = (count, done) => Array.from({ length: count }, (_, at) => at).filter((at) => !done.has(at));
    const { ballot } = this;
    if (this.phase === "reading") return left(this.cells, this.reads).map((at) => cell(at, { read: { ballot } }));
    if (this.phase === "locking") {
      const { epoch, m } = this.old();
      return left(m, this.replies).map((at) => log(epoch, at, { lock: { epoch } }));
    }
    if (this.phase === "copying" && this.isCopied())
      return left(this.own().m, this.seeded).map((at) => log(ballot, at, { seed: this.seedFor(at) }));
    if (this.phase === "copying") return this.peeks(log);
    if (this.phase === "writing")
      return left(this.cells, this.written).map((at) => cell(at, { write: { ballot, value: stateSpelled(this.plan) } }));
    return this.isChosen() ? left(this.own().m, this.marked).map((at) => log(ballot, at, { push: this.mark() })) : [];
  }
  peeks(log) {
    const { epoch, m, k } = this.old(), asks = [];
    this.parts.forEach((part, tag) => {
      for (const at of part.reached < this.rv ? this.replies.keys() : [])
        if ((((at - tag) % m) + m) % m < k) asks.push(log(epoch, at, { peek: { after: part.reached, epoch, most: 100, tag } }));
    });
    return asks;
  }
  last() {
    return { phase: this.isChosen() ? `chosen pev ${this.pev} rv ${this.rv}` : this.phase };
  }
}
