"use strict";
// A band for each generation with its logs as lanes, and below them what is committed and the storage servers. Versions
// are columns, the same ones in all lanes.

const ESCAPES = { "&": "&amp;", "<": "&lt;", ">": "&gt;", '"': "&quot;" };
const escaped = (text) => String(text).replace(/[&<>"]/g, (it) => ESCAPES[it]);

/** A tag of SVG as text. */
function tag(name, attributes = {}, ...inside) {
  const given = Object.entries(attributes).filter(([, it]) => it !== null && it !== undefined && it !== false);
  const words = given.map(([key, it]) => ` ${key}="${escaped(it === true ? "" : it)}"`).join("");
  return `<${name}${words}>${inside.flat(9).join("")}</${name}>`;
}

const text = (x, y, words, kind = "", more = {}) => tag("text", { x, y, class: kind, ...more }, escaped(words));
/** A text that says more where one points at it. */
const hinted = (x, y, words, kind, hint) => tag("text", { x, y, class: `${kind} hinted` }, tag("title", {}, escaped(hint)), escaped(words));

const VERSIONS = "The numbers above the lanes are versions, the places of batches in the order of commits: the mark of each " +
  "epoch takes a version too, so batch 1 has version 2. The number in a box is the batch's own.";

/** What an epoch is called outside of this page. */
function epochHint(number) {
  return `Epoch ${number} of this page is epoch ${ballotOf(number)} in exported journals. There an epoch has the number of ` +
    `the ballot that opened it, round × 256 + recoverer: here round ${number} of recoverer 1.`;
}

const TALL = 20, PILL = 19;

const LOCK = (x, y) => tag(
  "path", { d: "M0 5h9v7h-9zM2 5v-2a2.5 2.5 0 0 1 5 0v2", class: "lock", transform: `translate(${x} ${y})` }
);
const BARS = (x, y) => tag("path", { d: "M1 0v8M5 0v8", class: "bars", transform: `translate(${x} ${y})` });

/** The lower part of the picture; board.js has the rest. */
class Bands {
  // ---- generations

  /** The generations, the oldest first, and which of them are folded: what never was chosen, once a later epoch is, and
      where there are many the oldest ones. */
  bands() {
    const { world, isNarrow, unfolded } = this, newest = world.chosen[world.chosen.length - 1];
    const bands = [...world.plans.keys()].sort((a, b) => a - b).map((epoch) => ({ epoch, cut: cutOf(world, epoch) }));
    const isOver = (it) => this.standing(it)[0] === "not chosen" && it.epoch < newest;
    const last = bands.filter((it) => !isOver(it)).slice(isNarrow ? -2 : -3);
    const keep = new Set([...last.map((it) => it.epoch), newest, ...unfolded]);
    return bands.map((it) => ({ ...it, isFolded: !keep.has(it.epoch) }));
  }
  /** An epoch's standing in a word, and its kind. */
  standing({ epoch, cut }) {
    const { world } = this, isLocked = world.logsOf(epoch).some((it) => it.machine.stopped);
    if (!world.chosen.includes(epoch)) {
      const { isGone, machine } = world.node(`r${epochOf(epoch)}`);
      return isGone || machine.phase.startsWith("lost") ? ["not chosen", "bad"] : ["planned", "soft"];
    }
    if (cut === Infinity) return isLocked ? ["locked", "bad"] : ["open", "good"];
    return cut === null ? ["not chosen", "bad"] : [`ended; taken over through ${cut}`, "soft"];
  }
  /** One line for folded generations that follow one another. */
  drawFolded(group, y) {
    const { pad, width, world, door } = this, high = 26, numbers = group.map((it) => epochOf(it.epoch));
    const [last] = numbers.slice(-1), many = `Epochs ${numbers[0]} to ${last}`;
    const words = group.length > 1 ? many : `Epoch ${last}: ${this.standing(group[0])[0]}`;
    const shown = [tag("rect", { width: width - 2 * pad, height: high, rx: 8 }), text(12, 17, `▸ ${words}`, "words")];
    this.under.push(this.button(`f:${numbers.join("-")}`, `${words}. Show.`, pad, y, "fold", shown));
    const place = { x: width - pad - door - 30, y, wide: 20, high };
    const at = { x: width - pad - door, y: y + 4, wide: door, rows: 1 };
    const isIn = (node) => node.kind !== "recoverer" && numbers.includes(epochOf(node.epoch ?? 0));
    for (const node of world.nodes.values())
      if (isIn(node)) this.anchors.set(node.code, { ...place, door: at });
    return y + high + 8;
  }
  drawBand(it, y) {
    const { world, pad, width, lane } = this, { epoch } = it, logs = world.logsOf(epoch);
    const people = [...world.of("sequencer", epoch), ...world.of("proxy", epoch)];
    const at = this.drawPeople(people, it.cut === Infinity, y), first = at + 16, low = first + logs.length * lane;
    this.bandFrame(it, y, low + 8 - y);
    this.shade(it, first, low);
    this.under.push(this.axis(at + 11));
    logs.forEach((log, number) => this.drawLog(log, first + number * lane));
    return low + 18;
  }
  /** The frame of a generation, with what is said of it. */
  bandFrame(it, y, height) {
    const { world, pad, width } = this, { m, k } = newestOf(world.plans.get(it.epoch).state);
    const [words, kind] = this.standing(it);
    this.under.push(
      tag("rect", { x: pad, y, width: width - 2 * pad, height, rx: 12, class: `band ${kind}` }),
      hinted(pad + 12, y + 19, `Epoch ${epochOf(it.epoch)}`, "epoch", epochHint(epochOf(it.epoch))),
      text(pad + 92, y + 19, this.cut(words, width - 244), `standing ${kind}`),
      text(width - pad - 12, y + 19, `m = ${m}, k = ${k}`, "shape")
    );
  }
  /** Sequencer and proxies, where they are of an open epoch or still have something to do; answers where logs begin. */
  drawPeople(people, isOpen, y) {
    const { world, pad, width } = this, gap = 8, wide = (width - 2 * pad - 20 - 2 * gap) / 3;
    const isFlying = (node) => world.flight.some((it) => it.to === node || it.from === node);
    const isBusy = (node) => isFlying(node) || (node.machine.open && !node.isGone);
    if (!people.length || !(isOpen || people.some(isBusy))) {
      const place = { x: pad + 8, y: y + 2, wide: 120, high: 20, door: { x: pad + 140, y: y + 4, wide: 160, rows: 1 } };
      for (const node of people) this.anchors.set(node.code, place);
      return y + 28;
    }
    people.forEach((it, at) => {
      const hasBatch = it.kind === "proxy" && it.machine.open;
      const token = hasBatch ? this.tokenOf(it.batch, wide - this.token - 8, 5, "") : "";
      this.box(it, pad + 10 + at * (wide + gap), y + 28, wide, this.peopleWords(it), token);
    });
    return y + 94;
  }
  peopleWords({ kind, machine: it, isGone, epoch }) {
    if (isGone) return "crashed";
    if (kind === "sequencer") return `last number ${it.latest}`;
    if (it.ended) return "ended";
    if (!it.open) return "idle";
    const all = this.world.logsOf(epoch).length;
    if (this.isNarrow) return it.place ? `v${it.place.version}: ${it.held.size}/${all}` : "number?";
    return it.place ? `version ${it.place.version}: ${it.held.size} of ${all} logs` : "waits for a number";
  }
  /** What of a generation is committed, and what of it was not taken over. */
  shade({ epoch, cut }, y, low) {
    const { world, column } = this, plan = world.plans.get(epoch), height = low - y;
    if (cut === null) return;
    const upto = cut === Infinity ? leastHeld(world, epoch) : cut, first = Math.max(plan.pev + 1, this.from);
    const [x, end] = [this.xOf(first) - column / 2, this.xOf(upto) + column / 2];
    if (end > x) this.under.push(tag("rect", { x, y, width: end - x, height, rx: 4, class: "committed" }));
    if (cut === Infinity) return;
    const most = Math.max(...world.logsOf(epoch).map((it) => it.machine.durable)), begin = Math.max(end, this.left);
    const width = most > cut ? this.xOf(most) + column / 2 - begin : 0;
    if (width > 0) this.under.push(tag("rect", { x: begin, y, width, height, class: "cutoff" }));
    if (end >= this.left) this.under.push(tag("path", { d: `M${end} ${y - 3}V${low + 3}`, class: "cut" }));
  }

  // ---- lanes

  /** A lane for a node's tokens, with its door behind. */
  rail(node, y, rows) {
    const { lane, left, right, door, label } = this, place = { x: left - label + 8, y, wide: label - 8, high: lane };
    const at = { x: right + 6, y: y + (lane - PILL) / 2, wide: door - (this.isNarrow ? 4 : 8), rows };
    this.anchors.set(node.code, { ...place, door: at });
    this.under.push(tag("path", { d: `M${left} ${y + lane / 2}H${right}`, class: "rail" }));
  }
  /** A token in its column of a lane. */
  putToken(batch, version, y, kinds, key) {
    this.over.push(this.tokenOf(batch, this.xOf(version) - this.token / 2, y + (this.lane - TALL) / 2, kinds, key));
  }
  drawLog(log, y) {
    this.rail(log, y, 1);
    this.over.push(this.logName(log, this.left - this.label + 4, y));
    for (const { batch, version, kinds } of this.tokensOf(log))
      this.putToken(batch, version, y, kinds, `t:${log.code}:${version}`);
    const strike = `M${this.left} ${y + this.lane / 2}H${this.right}`;
    if (log.isGone) this.over.push(tag("path", { d: strike, class: "strike" }));
  }
  /** A log's name with its state, or with its shards. */
  logName(log, x, y) {
    const { lane, isNarrow } = this, it = log.machine, low = lane / 2 + 4;
    const state = log.isGone ? "lost" : it.stopped ? "locked" : it.seed === null ? "no seed" : "";
    const shards = SHARDS.filter((_, shard) => it.holds(shard)).join(" ");
    const is = { gone: log.isGone, locked: it.stopped, selected: this.selected === log.code };
    const kinds = ["node lane log", ...Object.keys(is).filter((name) => is[name])].join(" ");
    const shape = tag("rect", { width: this.label - 10, height: lane - 4, y: 2, rx: 6 });
    const words = isNarrow ? state.slice(0, 4) : state || this.cut(shards, 60, 5.2);
    const lock = [LOCK(isNarrow ? 48 : 50, low - 11), isNarrow ? "" : text(64, low, state, "words")];
    const beside = state === "locked" ? lock : text(isNarrow ? 42 : 50, low, words, "words");
    const name =
      `${named(this.world, log)}: holds through version ${it.durable}, knows through ${it.known}; ` +
      `shards ${shards || "none"}${state ? `; ${state}` : ""}`;
    return this.button("n:" + log.code, name, x, y, kinds, [shape, text(8, low, log.label, "title"), beside]);
  }
  /** What a log holds: each version with its batch, and how it has it. */
  tokensOf(log) {
    const it = log.machine, cut = cutOf(this.world, log.epoch);
    if (it.seed === null) return [];
    const { seeded_to, first } = it.seed, isIn = (version) => version >= first && version <= it.durable;
    const issued = issuedOf(this.world, log.epoch).filter((each) => isIn(each.version) && this.isShown(each.version));
    return issued.filter(({ version, batch }) => batch || version > seeded_to).map(({ version, batch }) => {
      const isCopy = version <= seeded_to, tags = this.shardsOf(it, version);
      const isLetGo = tags.length > 0 && tags.every((each) => !it.isLeft(each, version));
      const isHollow = batch && !tags.length, isDead = cut !== null && version > cut;
      const kinds = [isCopy && "copy", isHollow && "hollow", isLetGo && "letgo", isDead && "dead"].filter(Boolean);
      return { version, batch, kinds: kinds.join(" ") };
    });
  }
  /** The shards of which a log has a record at a version. */
  shardsOf(log, version) {
    const { seeded_to, records } = log.seed;
    if (version <= seeded_to) return records.filter((it) => it.version === version).map((it) => it.tag);
    return (log.heldPush(version)?.bodies ?? []).map(([shard]) => shard);
  }
  /** A batch, or a mark, as a token. */
  tokenOf(batch, x, y, kinds, key = null) {
    const colour = batch ? `batch c${(batch.number - 1) % 8}` : "mark", [wide, high] = [this.token, TALL];
    const parts = [tag("title", {}, escaped(batch ? `Batch ${batch.number}: ${batchWords(batch.batch)}` : "The mark"))];
    if (batch) parts.push(tag("rect", { width: wide, height: high, rx: 5 }));
    else parts.push(tag("path", { d: `M2 0H${wide - 2}L${wide - 7} ${high / 2}L${wide - 2} ${high}H2Z` }));
    const inner = { x: 2.6, y: 2.6, width: wide - 5.2, height: high - 5.2, rx: 3, class: "inner" };
    if (kinds.includes("copy")) parts.push(tag("rect", inner));
    parts.push(text(wide / 2 - (batch ? 0 : 2), 14, batch ? batch.number : "M", "number"));
    const cross = `M3 3L${wide - 3} ${high - 3}M3 ${high - 3}L${wide - 3} 3`;
    if (/dead|undone/.test(kinds)) parts.push(tag("path", { d: cross, class: "cross" }));
    return tag("g", { class: `token ${colour} ${kinds}`, transform: `translate(${x} ${y})`, "data-key": key }, parts);
  }

  // ---- what is committed, and storage servers

  drawServers(y) {
    const { world, pad, width, left, lane, column, isNarrow } = this;
    const servers = world.of("storage"), tall = isNarrow ? 52 : 50;
    const committed = committedOf(world), first = y + 44, low = first + lane + 6 + servers.length * tall;
    const least = committed[committed.length - 1].version, wide = Math.max(0, this.xOf(least) + column / 2 - left);
    const small = isNarrow ? { style: "font-size:10.5px" } : {};
    this.under.push(
      tag("rect", { x: pad, y, width: width - 2 * pad, height: low + 4 - y, rx: 12, class: "band servers" }),
      text(pad + 12, y + 19, "Storage servers", "epoch"),
      text(width - pad - 12, y + 19, `committed through version ${least}`, "standing good end"),
      this.axis(y + 38),
      tag("rect", { x: left, y: first, width: wide, height: lane, rx: 4, class: "committed" }),
      text(left - this.label + (isNarrow ? 3 : 12), first + lane / 2 + 4, "committed", "title soft", small)
    );
    for (const it of committed.filter((each) => this.isShown(each.version))) this.drawCommitted(it, first);
    servers.forEach((it, at) => this.drawServer(it, first + lane + 6 + at * tall, tall));
    return low + 4 + pad;
  }
  drawCommitted({ version, batch }, y) {
    const x = this.xOf(version) + this.token / 2 - 3;
    this.putToken(batch, version, y, "", `t:committed:${version}`);
    if (!batch || !batch.isAcknowledged) return;
    const tick = tag("path", { d: `M${x - 2.6} ${y + 6}l2 2.2l3.4 -4`, class: "tick" });
    this.over.push(tag("circle", { cx: x, cy: y + 6, r: 5.5, class: "ack" }), tick);
  }
  drawServer(server, y, tall) {
    const { left, lane, column, world } = this, it = server.machine;
    this.rail(server, y, 2);
    this.over.push(this.serverName(server, left - this.label + 4, y, tall));
    const floor = `M${left} ${y + lane - 2}H${this.xOf(it.floor) + column / 2}`;
    if (it.floor >= this.from) this.under.push(tag("path", { d: floor, class: "floor" }));
    const applied = `M${this.xOf(it.version) + column / 2} ${y + 3}v${lane - 6}`;
    if (it.version >= this.from) this.over.push(tag("path", { d: applied, class: "applied" }));
    for (const batch of world.batches)
      if (batch.version !== null && this.isShown(batch.version)) this.drawApplied(server, batch, y);
    this.drawRows(server, y + lane + 12);
  }
  serverName({ code, label, machine: it }, x, y, tall) {
    const epoch = epochOf(newestOf(it.state).epoch);
    const kinds = `node lane storage${this.selected === code ? " selected" : ""}`;
    const shape = tag("rect", { width: this.label - 10, height: tall - 6, y: 2, rx: 6 });
    const name = `${label}: epoch ${epoch}, applied through version ${it.version}, durable through ${it.floor}`;
    const title = text(8, 18, this.isNarrow ? SHARDS[it.tag] : label, "title");
    const words = text(8, 35, `epoch ${epoch}`, "words");
    return this.button("n:" + code, name, x, y, kinds, [shape, title, words]);
  }
  drawRows(server, y) {
    const rows = [...server.machine.rows].sort((a, b) => (a[0] < b[0] ? -1 : 1));
    const words = rows.map(([key, value]) => `${letterOf(key)} = ${valueOf(value)}`).join("   ") || "no rows";
    const gone = goneFrom(this.world, server);
    const long = this.isNarrow ? "is on no log" : "is gone: it is on no log that is left";
    const shown = this.cut(gone ? `version ${gone} ${long}` : words, this.right + this.door - this.left - 8, 8);
    this.over.push(text(this.left + 4, y, shown, `rows${gone ? " bad" : ""}`, { "data-key": `v:${server.code}` }));
  }
  /** A batch in a server's lane: applied, or its place where it was taken back and nothing else is there now. */
  drawApplied(server, batch, y) {
    const { place, machine, code } = server, { version } = batch, is = batch.applied.has(place);
    const isOther = (it) => it.version === version && it !== batch && it.applied.has(place);
    if (!is && (!batch.undone.has(place) || this.world.batches.some(isOther))) return;
    const kinds = is ? (version <= machine.floor ? "durable" : "open") : "undone";
    this.putToken(batch, version, y, kinds, `t:${code}:${version}:${batch.number}`);
  }
}
