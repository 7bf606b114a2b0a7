"use strict";
// The cluster: its nodes by the rules of docs/PROTOCOL.md, the messages in flight, and the journals of what the nodes
// did. It moves by choices alone (choices.js), so that a list of choices gives the same moment each time.

const CONFIG = { coordinators: 3, degree: 2, logs: 3, proxies: 2, shards: ["", "6e"] };
const SHARDS = ["a–m", "n–z"];
const MOST_PEEKED = 100;

// An epoch's number as the page has it, 1, 2, 3 and so on; and its ballot, as rules and journals have it.
const ballotOf = (number) => 256 * number + 1;
const epochOf = (ballot) => (ballot - 1) / 256;

/** Why a choice cannot be made. */
class Unfit extends Error {}

class Member {
  constructor(kind, value, machine, code, label) {
    Object.assign(
      this, { kind, value: { [kind]: value }, machine, code, label, entries: [], isGone: false, askedAgain: -1 }
    );
    this.epoch = value.epoch ?? value.ballot ?? null;
  }
  get place() {
    const [, it] = variant(this.value);
    return it.index ?? it.number ?? it.tag ?? 0;
  }
}

class World {
  constructor() {
    Object.assign(
      this, { nodes: new Map(), flight: [], sent: 0, stamp: 0, choices: [], begun: 0, news: [], changes: 0 }
    );
    Object.assign(this, { batches: [], numbered: new Map(), plans: new Map(), takers: new Map(), chosen: [FIRST] });
    const { coordinators, degree, logs, shards } = CONFIG;
    const first = { dropped: 0, gens: [{ epoch: FIRST, first: 1, k: degree, m: logs, seeded_to: 0 }] };
    for (let index = 0; index < coordinators; index++)
      this.add("cell", { index }, new Cell(stateSpelled(first)), `c${index}`, `coordinator ${index}`);
    shards.forEach(
      (_, tag) => this.add("storage", { tag }, new Storage(tag, first), `s${tag}`, `storage ${SHARDS[tag]}`)
    );
    this.plans.set(FIRST, { parent: null, pev: 0, rv: 0, state: first });
    this.makeLogs(FIRST, logs, degree);
    for (const log of this.logsOf(FIRST)) {
      log.machine.seeded({ epoch: FIRST, first: 1, records: [], seeded_to: 0 });
      log.machine.push({ bodies: [], epoch: FIRST, known: 0, mark: stateShown(first), prev: 0, version: 1 });
    }
    this.open(FIRST, logs, 1, 0);
  }

  // ---- nodes

  add(kind, value, machine, code, label) {
    const it = new Member(kind, value, machine, code, label);
    this.nodes.set(code, it);
    return it;
  }
  makeLogs(epoch, m, k) {
    for (let index = 0; index < m; index++)
      this.add("log", { epoch, index }, new Log(epoch, index, m, k), `l${epochOf(epoch)}-${index}`, `log ${index}`);
  }
  open(epoch, m, last, known) {
    const number = epochOf(epoch);
    this.add("sequencer", { epoch }, new Sequencer(last), `q${number}`, "sequencer");
    for (let at = 0; at < CONFIG.proxies; at++)
      this.add("proxy", { epoch, number: at }, new Proxy(epoch, at, m, known), `p${number}-${at}`, `proxy ${at}`);
  }
  of(kind, epoch) {
    return [...this.nodes.values()].filter((it) => it.kind === kind && (epoch === undefined || it.epoch === epoch));
  }
  logsOf(epoch) {
    return this.of("log", epoch);
  }
  /** The node of a value as journals have it. */
  nodeOf(value) {
    const [kind, it] = variant(value), number = epochOf(it.epoch ?? it.ballot ?? FIRST);
    return this.node({ cell: `c${it.index}`, storage: `s${it.tag}`, log: `l${number}-${it.index}`,
      sequencer: `q${number}`,
      proxy: `p${number}-${it.number}`, recoverer: `r${number}` }[kind]);
  }
  node(code) {
    const it = this.nodes.get(code);
    if (!it) throw new Unfit(`there is no node ${code}`);
    return it;
  }
  up(code) {
    const it = this.node(code);
    if (it.isGone) throw new Unfit(`${it.label} is gone`);
    return it;
  }

  // ---- journals

  enter(node, act) {
    this.stamp += 1;
    node.entries.push({ act, stamp: this.stamp });
  }
  /** The script of an audit: each node that did something, and where it stands now. */
  script() {
    const journals = [...this.nodes.values()].filter((it) => it.entries.length > 0 || it.kind === "storage");
    return {
      config: CONFIG,
      journals: journals.map((it) => ({ entries: it.entries, last: { [it.kind]: it.machine.last() }, node: it.value }))
    };
  }

  // ---- messages

  /** Sends a message; `of` is the ask that a tell answers. */
  send(kind, from, to, what, of = null) {
    this.sent += 1;
    this.flight.push({ id: this.sent, kind, from, to, what, of, isHeld: false, isAgain: false });
  }
  message(id) {
    const it = this.flight.find((each) => each.id === id);
    if (!it) throw new Unfit(`message ${id} is not in flight`);
    return it;
  }
  drop(it) {
    this.flight.splice(this.flight.indexOf(it), 1);
  }
  arrive(id) {
    const it = this.message(id);
    this.drop(it);
    if (it.to.isGone) return this.tell("message", { it, node: it.to, is: "void" });
    if (it.kind === "ask") this.ask(it.to, it.from, it.what);
    else this.hear(it.to, it.from, it.what);
  }
  ask(node, from, what) {
    const [kind, named] = variant(what), [word, said] = variant(named), { machine } = node;
    const before = stoodOf(node);
    const tell = { [kind]: machine.ask(word, said) };
    this.enter(node, { asked: { ask: what, from: from.value, tell } });
    this.send("tell", node, from, tell, what);
    const [told, answer] = variant(tell[kind]);
    this.noteAsked(node, from, word, said, told, answer);
    this.tell("asked", { node, from, word, said, told, answer, isNew: this.hasChanged(node, before) });
  }
  /** Whether a node stands elsewhere than before; counts how often one does. */
  hasChanged(node, before) {
    const is = !isSame(stoodOf(node), before);
    this.changes += is;
    return is;
  }
  noteAsked(node, from, word, said, told, answer) {
    if (told === "numbered" && from.batch && from.batch.request === answer.request && from.batch.version === null) {
      Object.assign(from.batch, { version: answer.version, prev: answer.prev });
      this.numbered.set(`${node.epoch}:${answer.version}`, from.batch);
    }
    if (told === "written") {
      const takers = this.takers.get(said.ballot) ?? new Set();
      this.takers.set(said.ballot, takers.add(node.place));
      if (2 * takers.size > CONFIG.coordinators && !this.chosen.includes(said.ballot)) {
        this.chosen = [...this.chosen, said.ballot].sort((a, b) => a - b);
        this.tell("chosen", { epoch: said.ballot });
      }
    }
  }
  hear(node, from, what) {
    const { kind, machine } = node, before = this.pending(node), was = stoodOf(node);
    const got = kind === "storage" ? machine.hear(from.value, what, null) : machine.hear(from.value, what);
    const outcome = kind === "proxy" ? got : null;
    this.enter(node, { heard: { from: from.value, outcome, taken: null, tell: what } });
    if (kind === "recoverer") this.grow(node);
    if (kind === "proxy") this.noteProxy(node, outcome);
    if (kind === "storage") this.noteStorage(node, from, got, was.epoch);
    this.tell("heard", { node, from, what, got, was, isNew: this.hasChanged(node, was) });
    this.sendNew(node, before);
  }
  noteProxy(node, outcome) {
    const [word] = variant(outcome), { batch } = node;
    if (word !== "waiting") Object.assign(batch, { outcome: word });
    if (word === "committed") batch.isAcknowledged = true;
  }
  /** Which batches a storage server applied, or took back. */
  noteStorage(node, from, got, epoch) {
    const { place } = node;
    got.batches = got.applied.map((version) => issuedAt(this, from.epoch, version)?.batch).filter(Boolean);
    for (const batch of got.batches) {
      batch.applied.add(place);
      batch.undone.delete(place);
    }
    if (got.cut === undefined) return;
    const isTaken = (it) => it.applied.has(place) && it.version > got.to && it.version <= got.from && lineOf(this,
      epoch).includes(it.epoch);
    got.batches = this.batches.filter(isTaken);
    for (const batch of got.batches) {
      batch.applied.delete(place);
      batch.undone.add(place);
      batch.isBroken ||= batch.isAcknowledged;
    }
  }
  /** What comes to be by a step of a recoverer: the logs of its epoch, and then its sequencer and its proxies. */
  grow(node) {
    const it = node.machine, { ballot } = it;
    if (it.plan !== null && it.isCopied() && !this.plans.has(ballot)) {
      this.plans.set(ballot, { parent: it.old().epoch, pev: it.pev, rv: it.rv, state: it.plan });
      this.makeLogs(ballot, it.own().m, it.own().k);
    }
    if (it.isChosen() && this.of("sequencer", ballot).length === 0) this.open(ballot, it.own().m, it.rv + 1, it.pev);
  }

  // ---- what nodes send of themselves

  /** All asks whose tells a proxy or a recoverer wants, each with its node. */
  pending(node) {
    if (node.kind === "recoverer") return node.machine.pending().map(([to, ask]) => [this.nodeOf(to), ask]);
    return node.kind === "proxy" && node.machine.open ? this.pendingOfProxy(node) : [];
  }
  pendingOfProxy(node) {
    const { epoch, number, request, place, known, held, batch } = node.machine;
    if (place === null) return [
      [this.node(`q${epochOf(epoch)}`), { seq: { next: { proxy: number, request, step: batch.step } } }]
    ];
    return this.logsOf(epoch).filter((it) => !held.has(it.place)).map((log) => {
      const bodies = CONFIG.shards.map(
        (begin, tag) => [tag, clipped(batch.batch, begin, CONFIG.shards[tag + 1] ?? null)]
      );
      const own = bodies.filter(([tag, part]) => part.length > 0 && log.machine.holds(tag));
      return [log, { log: { push: { bodies: own, epoch, known, mark: null, ...place } } }];
    });
  }
  sendNew(node, before) {
    if (node.isGone) return;
    for (const [to, ask] of this.pending(node))
      if (!before.some((it) => it[0] === to && isSame(it[1], ask))) this.send("ask", node, to, ask);
  }
  /** The asks that a node waits for and that are lost: neither they nor what is told to them is in flight. */
  unanswered(node) {
    const isThere = (to, ask) =>
      this.flight.some(
        (it) => (it.kind === "ask" && it.from === node && it.to === to && isSame(it.what, ask)) ||
        (it.kind === "tell" && it.to === node && it.from === to && isSame(it.of, ask))
      );
    return this.pending(node).filter(([to, ask]) => !isThere(to, ask));
  }
  again(node) {
    const asks = this.unanswered(node);
    if (!asks.length) throw new Unfit(`${node.label} waits for nothing that is lost`);
    for (const [to, ask] of asks) this.send("ask", node, to, ask);
    node.askedAgain = this.changes;
    this.tell("again", { node, asks });
  }

  // ---- the other choices

  submit(node, batch) {
    const it = node.machine;
    if (it.open || it.ended) throw new Unfit(`${node.label} ${it.ended ? "has ended" : "has a batch under way"}`);
    const before = this.pending(node), step = 1;
    it.submit({ batch, step });
    this.enter(node, { submitted: { batch, step } });
    node.batch = {
      number: this.batches.length + 1, node, epoch: node.epoch, request: it.request, batch, version: null, prev: null
    };
    Object.assign(node.batch, { outcome: null, isAcknowledged: false, applied: new Set(), undone: new Set() });
    this.batches.push(node.batch);
    this.tell("submitted", { node, batch: node.batch });
    this.sendNew(node, before);
  }
  begin(shape) {
    this.begun += 1;
    const ballot = ballotOf(this.begun + 1), m = shape ? shape.m : null;
    const node = this.add(
      "recoverer", { ballot }, new Recoverer(ballot, CONFIG, shape), `r${this.begun + 1}`, `recoverer ${this.begun + 1}`
    );
    this.enter(node, { begun: shape ? { degree: shape.k, logs: m } : {} });
    this.tell("begun", { node, shape });
    this.sendNew(node, []);
  }
  crash(node) {
    this.enter(node, { crashed: {} });
    node.isGone = ["proxy", "sequencer", "recoverer"].includes(node.kind);
    this.tell("crashed", { node });
  }
  lose(node) {
    if (node.kind !== "log") throw new Unfit(`${node.label} is no log`);
    this.enter(node, { lost: {} });
    node.isGone = true;
    this.tell("lost", { node });
  }
  /** A storage server asks a log: for records, for the mark, or to let its records go. */
  askLog(server, log, word) {
    const { tag, version, floor, state } = server.machine, { epoch } = log;
    if (
      word === "pop" &&
      !state.gens.some((it) => it.epoch === epoch)
    ) throw new Unfit(`${server.label} has no generation ${epochOf(epoch)}`);
    const ask = {
      peek: { peek: { after: version, epoch, most: MOST_PEEKED, tag } }, mark: { mark_asked: { epoch } },
      pop: { pop: { epoch, tag, through: floor } }
    };
    this.send("ask", server, log, { log: ask[word] });
    this.tell("fetch", { server, log, word });
  }

  /** Notes what happened; tale.js has the words. */
  tell(kind, what) {
    this.news.push({ kind, ...what });
  }
}

/** Where a node stands, as far as something new may be told of it. */
function stoodOf({ kind, machine: it }) {
  if (kind === "proxy") return { place: it.place, held: it.held.size, open: it.open };
  if (kind === "storage") return { version: it.version, floor: it.floor, epoch: newestOf(it.state).epoch };
  if (kind !== "recoverer") return it.last();
  const sizes = ["reads", "replies", "seeded", "written", "marked"].map((name) => it[name].size);
  return { phase: it.phase, isCopied: it.isCopied(), sizes, reached: it.parts.map((part) => part.reached) };
}
