"use strict";
// What an entry brings to the batches, the recoveries and the storage servers of its run.

Object.assign(Run.prototype, {
  asked(entry, what, tell) {
    const { at, from } = entry, sent = this.sent[entry.send], latest = from.entries[from.entries.length - 1] ?? -1;
    entry.again = Boolean(sent && sent.count > 0);
    entry.late = Boolean(sent && !sent.isWanted);
    entry.isUndated = !sent;
    if (sent) entry.x0 = sent.count === 0 ? sent.issued : latest;
    if (sent) sent.count += 1;
    entry.toldBefore = this.toldLast[entry.told];
    this.toldLast[entry.told] = at;
    this.noteAsked(entry, what, variant(tell)[1], from);
  },

  /** What an ask did to a batch or a recovery. */
  noteAsked(entry, what, told, from) {
    const { node, at } = entry, [word, said] = variant(variant(what.ask)[1]);
    if ("refused" in told || "two_values" in told) return this.noteRefused(entry, word, told);
    if (!entry.news) return;
    if (word === "next" && from.batch) Object.assign(from.batch, { given: at, version: told.numbered.version });
    if (word === "push" && said.mark !== null && from.recovery) from.recovery.mark ??= at;
    const batch = word === "push" && said.mark === null ? this.byVersion.get(`${node.what.epoch}:${said.version}`) : null;
    if (batch) batch.held.push([node, at]);
  },

  /** A refusal is news where the last one of that node and asker was another one. */
  noteRefused(entry, word, told) {
    const why = "two_values" in told ? "TwoValues" : "why" in told.refused ? whyText(told.refused.why) : `promised ${told.refused.promised}`;
    const key = `${entry.from.name} ${word} ${why}`;
    entry.why = why;
    if (entry.node.lastRefusal !== key) entry.news = true;
    entry.node.lastRefusal = key;
  },

  heard(entry, what, got) {
    const { node } = entry, last = this.toldLast[entry.told];
    let place = last;
    while (place >= 0 && this.entries[place].isHeard) place = this.entries[place].toldBefore;
    entry.again = place < 0;
    entry.x0 = place < 0 ? last : place;
    this.entries[entry.x0].isHeard = true;
    if (node.kind === "storage") this.noteStorage(entry, what, got);
    if (node.kind === "proxy") this.noteProxy(entry, got);
    if (node.kind === "recoverer") this.noteRecoverer(entry);
    entry.late = !entry.again && !entry.news && (node.kind !== "storage" || entry.why !== null);
    if (entry.news) this.entries[entry.x0].news = true;
  },

  noteStorage(entry, what, got) {
    const { node, at } = entry, { origins, curve } = node;
    entry.applied = got.applied;
    if (curve[curve.length - 1][1] !== node.machine.version) curve.push([at, node.machine.version]);
    for (const version of got.applied) {
      const batch = this.byVersion.get(`${this.originOf(got.epoch, version)}:${version}`) || null;
      origins.push([version, batch, at]);
      if (batch) batch.applied.push([node, at]);
    }
    entry.why = got.why || null;
    if (entry.why && node.lastRefusal !== entry.why) entry.news = true;
    node.lastRefusal = entry.why;
    if (got.cut === undefined || got.to >= got.from) return;
    const taken = [];
    while (origins.length && origins[origins.length - 1][0] > got.to) taken.push(origins.pop());
    for (const [, batch] of taken) if (batch) batch.undone.push([node, at]);
    entry.rollback = { at, node, from: got.from, to: got.to, versions: taken.map((it) => it[0]).reverse(), rows: got.undone };
    entry.rollback.since = taken.length ? taken[taken.length - 1][2] : null;
    entry.rollback.epoch = newestOf(stateIn(what.tell.log.marked.state)).epoch;
    this.rollbacks.push(entry.rollback);
  },

  /** The epoch that numbered a version which a log of an epoch has: that one, or the one that it was copied from. */
  originOf(epoch, version) {
    for (let plan = this.plans.get(epoch); plan && version <= plan.rv; plan = this.plans.get(epoch)) epoch = plan.parent;
    return epoch;
  },

  submitted(entry, what) {
    const { node, at } = entry;
    const batch = { number: this.batches.length + 1, node, request: node.machine.request, step: what.step, batch: what.batch, at };
    node.batch = Object.assign(batch, { given: null, version: null, numbered: null, held: [], outcome: null, ended: null, applied: [], undone: [] });
    // (until the picture shows anew what was read: a moment between may draw it already)
    batch.fate = "under way";
    this.batches.push(batch);
    this.issue(node, at);
  },

  noteProxy(entry, outcome) {
    const { node, at } = entry, { machine, batch } = node, [word] = variant(outcome);
    if (entry.news && machine.open && batch.numbered === null && machine.place !== null) {
      Object.assign(batch, { numbered: at, version: machine.place.version });
      this.byVersion.set(`${machine.epoch}:${batch.version}`, batch);
    }
    if (word !== "waiting") Object.assign(batch, { outcome: word, ended: at });
    if (entry.news) this.issue(node, at);
  },

  noteRecoverer(entry) {
    if (!entry.news) return;
    const { node, at } = entry, { machine, recovery } = node;
    if (machine.rv !== null && recovery.rv === null)
      Object.assign(recovery, { planned: at, pev: machine.pev, rv: machine.rv, parent: machine.old().epoch });
    if (machine.plan !== null && machine.isCopied() && recovery.copied === null) {
      recovery.copied = at;
      this.plans.set(machine.ballot, { parent: machine.old().epoch, rv: machine.rv, pev: machine.pev });
      this.makeLogs(machine.ballot, machine.own().m, machine.own().k, at);
    }
    if (machine.isChosen() && recovery.chosen === null) {
      recovery.chosen = at;
      this.nextOf.set(recovery.parent, recovery);
      this.open(machine.ballot, machine.own().m, machine.rv + 1, machine.pev, at);
    }
    if (machine.phase.startsWith("lost")) recovery.lost ??= at;
    this.issue(node, at);
  },
});
