"use strict";
// What stands beside the lanes: the state of a node.

function element(name, content = "", attributes = {}) {
  const it = document.createElement(name);
  for (const each of [content].flat()) it.append(each);
  for (const key in attributes) it.setAttribute(key, attributes[key]);
  return it;
}

function countText(count, one, many = `${one}s`) {
  return `${count} ${count === 1 ? one : many}`;
}

/** The lines of a machine's state: a name with its text, in the order in which they are shown. */
function linesOf(kind, it) {
  return LINES[kind](it);
}

const LINES = {
  cell: (it) => {
    const state = stateRead(it.value);
    return { promised: `${it.promised}`, accepted: `${it.written}`, value: state ? `generations ${stateText(stateShown(state))}` : it.value || "none" };
  },
  log: (it) => ({
    durable: `${it.durable}`,
    known: `${it.known}`,
    seed: it.seed === null ? "none" : `first ${it.seed.first}, through ${it.seed.seeded_to}`,
    locked: it.stopped ? "yes: it takes no push" : "no",
    popped: [...it.popped].map(([tag, through]) => `shard ${tag} through ${through}`).join(", ") || "nothing",
    holds: `${countText(it.count, "push", "pushes")}, each shard on ${it.k} of ${it.m} logs`,
  }),
  sequencer: (it) => ({
    last: `${it.latest}`,
    requests: [...it.given].map(([proxy, each]) => `proxy ${proxy}: ${each.request} has ${each.version}`).join("; ") || "none",
  }),
  proxy: (it) => ({
    known: `${it.known}`,
    batch: it.open ? `under way, request ${it.request}` : it.ended ? "none; it takes no more" : "none",
    place: it.open && it.place ? `${it.place.version} after ${it.place.prev}` : "none",
    "held by": it.open ? `${[...it.held].sort().map((at) => `log ${at}`).join(", ") || "none"}, of ${it.m}` : "none",
  }),
  recoverer: (it) => ({
    phase: phaseText(it.last().phase),
    promised: `${it.reads.size} of ${it.cells} coordinators`,
    parent: it.parent ? `generations ${stateText(stateShown(it.parent))}` : "not read yet",
    pev: it.pev === null ? "not fixed yet" : `${it.pev}`,
    rv: it.rv === null ? "not fixed yet" : `${it.rv}`,
    copied: it.parts.map((part, tag) => `shard ${tag} through ${part.reached}`).join(", ") || "nothing",
    seeded: it.plan ? `${it.seeded.size} of ${it.own().m} logs` : "none",
    written: `${it.written.size} of ${it.cells} coordinators`,
    marked: it.plan ? `${it.marked.size} of ${it.own().m} logs` : "none",
  }),
  storage: (it) => ({
    epoch: `${newestOf(it.state).epoch}`,
    applied: `${it.version}`,
    floor: `${it.floor}`,
    state: `generations ${stateText(stateShown(it.state))}`,
    rows: `${it.rows.size}`,
    "undo rows": `${it.undo.length}`,
  }),
};

function phaseText(phase) {
  const [word, why] = phase.split(" ");
  return word === "lost" ? `lost, ${why}: ${REASONS[why] ?? ""}` : phase;
}

/** The tables of a machine's state: a caption, heads and rows. */
function tablesOf(kind, it) {
  if (kind === "log") return [["Versions held, the newest first", ["version", "after", "known", "bodies"], pushesOf(it)]];
  if (kind === "recoverer") return [["Replies of locked logs", ["log", "durable", "known"], [...it.replies].map(([at, each]) => [at, each.durable, each.known])]];
  if (kind === "proxy") return it.open ? [["Its batch", ["mutation"], it.batch.batch.map((each) => [mutationText(each)])]] : [];
  if (kind !== "storage") return [];
  const rows = [...it.rows].sort((a, b) => (a[0] < b[0] ? -1 : 1)).map(([key, value]) => [bytesText(key), bytesText(value)]);
  const undo = [...it.undo].reverse().map(([version, key, before]) => [version, bytesText(key), valueText(before)]);
  return [["Rows", ["key", "value"], rows], ["Undo rows, the newest first", ["version", "key", "value before"], undo]];
}

function pushesOf(log) {
  const found = [];
  for (let at = log.count - 1; at >= Math.max(0, log.count - 30); at--) {
    const { version, prev, known, mark, bodies } = log.held[at];
    const left = bodies.filter(([tag]) => log.isLeft(tag, version));
    const gone = left.length < bodies.length ? "let go" : "no body";
    found.push([version, prev, known, mark !== null ? "the mark" : left.length ? bodiesText(left) : gone]);
  }
  return found;
}

function tableOf([caption, heads, rows]) {
  const most = 60, shown = rows.slice(0, most).map((row) => element("tr", row.map((it) => element("td", String(it)))));
  const more = rows.length > most ? ` (${most} of ${rows.length})` : rows.length ? "" : ": none";
  const head = rows.length ? [element("thead", element("tr", heads.map((it) => element("th", termOf(it), { scope: "col" }))))] : [];
  return element("table", [element("caption", caption + more), ...head, element("tbody", shown)]);
}

/** Shows a node's state after a step, and what of it the step changed. */
function showState(run, node, step, place) {
  const old = run.linesAt(node, step - 1, linesOf), lines = run.linesAt(node, step, linesOf), list = element("dl");
  place.replaceChildren();
  if (lines === null) return place.append(element("p", "It is not there yet."));
  for (const name in lines) {
    const isNew = old !== null && old[name] !== lines[name];
    const now = withTerms(lines[name]);
    list.append(element("dt", termOf(name)), element("dd", isNew ? [element("b", now), element("span", ` (was ${old[name]})`, { class: "was" })] : now));
  }
  if (node.gone <= step) list.append(element("dt", termOf("gone")), element("dd", `${run.entries[node.gone].word} at entry ${node.gone}`));
  place.append(list, ...tablesOf(node.kind, run.machineAt(node, step)).map(tableOf));
}
