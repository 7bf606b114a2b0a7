"use strict";
// Which lanes the picture has: groups of nodes, those that are folded, and the bands of epochs and recoveries above them.

const LANE_ORDER = ["recoverer", "sequencer", "proxy", "log"];
const LEAST_LANE = 22, MOST_LANE = 44, FOLDED = 20;

/** What a node of each kind is for. */
const KINDS = {
  cell: "A coordinator (cell). A majority of the coordinators agrees on the list of generations.",
  log: "A log holds the batches of its epoch durably, until the storage servers have them.",
  sequencer: "The sequencer of an epoch gives each batch its version.",
  proxy: "A proxy takes batches from clients, has them numbered and held by all logs, and answers.",
  recoverer: "A recoverer ends an epoch: it locks the logs, decides what survives, and opens the next epoch.",
  storage: "A storage server applies the records of its shard, and takes back what an epoch did not take over.",
};

/** Storage servers, then coordinators, then epoch by epoch: of the nodes that a journal names, or that did something. */
function groupsOf(run) {
  const groups = new Map(), place = (it) => LANE_ORDER.indexOf(it.kind) * 300 + it.place[2];
  for (const node of run.nodes.values()) {
    if (node.last === undefined && node.journal.length === 0) continue;
    const key = { storage: "storage servers", cell: "coordinators" }[node.kind] ?? `epoch ${node.epoch}`;
    if (!groups.has(key)) groups.set(key, { key, epoch: node.epoch, nodes: [] });
    groups.get(key).nodes.push(node);
    node.group = groups.get(key);
  }
  const rank = (it) => ({ "storage servers": -2, coordinators: -1 }[it.key] ?? it.epoch);
  for (const it of groups.values()) it.nodes.sort((a, b) => place(a) - place(b));
  return [...groups.values()].sort((a, b) => rank(a) - rank(b));
}

/** How many of some rising numbers are from one to another. */
function countWithin(numbers, from, upto) {
  return countThrough(numbers, upto) - countThrough(numbers, from - 1);
}

/** How many entries of a group are from one to another. */
function countOf(group, from, upto) {
  return group.nodes.reduce((sum, it) => sum + countWithin(it.journal, from, upto), 0);
}

/** Which groups have lanes of their own: storage servers, the chosen node's, what the user opened, and as many of those
 * that do something in view as there is room for, first those that do most near the step. */
function openGroups(groups, { from, upto, near, chosen, folds, room, was }, shown) {
  const isSet = (it) => folds.get(it.key) ?? (it.key === "storage servers" || (chosen && chosen.group === it) || null);
  const open = new Set(groups.filter((it) => isSet(it) === true));
  let left = room - [...open].reduce((sum, it) => sum + shown(it).length, 0);
  const isBusy = (it) => isSet(it) === null && countOf(it, from, upto) > 0;
  // (one that is open stays so until another one does half as much again)
  const does = (it) => countOf(it, ...near) * (was.has(it) ? 1.5 : 1);
  const busy = groups.filter(isBusy).map((it) => [does(it), it]).sort((a, b) => b[0] - a[0]);
  for (const [, it] of busy) {
    const high = shown(it).length;
    if (high > left) continue;
    open.add(it);
    left -= high;
  }
  return open;
}

/** Whether a node is there in a part of the run, or has an entry in it. */
function isThere(node, from, upto) {
  return countWithin(node.journal, from, upto) > 0 || (node.born <= upto && node.gone >= from);
}

/** The nodes of a group that are there in view, or chosen. */
function present(group, { from, upto, chosen }) {
  return group.nodes.filter((it) => it === chosen || isThere(it, from, upto));
}

/** Rows from top to bottom: one for each node of an open group that is there, one for a folded group or several in a row. */
function rowsOf(groups, open, isSpread, shown) {
  const rows = [];
  let front = [];
  const flush = () => {
    if (front.length >= 3 && !isSpread) rows.push({ groups: front });
    else rows.push(...front.map((it) => ({ groups: [it] })));
    front = [];
  };
  for (const group of groups) {
    if ((!open.has(group) || !shown(group).length) && group.epoch !== null) front.push(group);
    else {
      flush();
      if (open.has(group)) rows.push(...shown(group).map((node) => ({ node, group })));
      else rows.push({ groups: [group] });
    }
  }
  flush();
  return rows;
}

/** Gives each row its place, and each node the middle of its row; answers how high all rows are. */
function placeRows(rows, high) {
  const folded = rows.filter((it) => it.groups).length, lanes = rows.length - folded;
  const lane = Math.max(LEAST_LANE, Math.min(MOST_LANE, (high - folded * FOLDED) / Math.max(1, lanes)));
  let y = 0;
  for (const row of rows) {
    [row.y, row.high] = [y, row.groups ? FOLDED : lane];
    y += row.high;
    for (const node of row.node ? [row.node] : row.groups.flatMap((it) => it.nodes)) [node.row, node.y] = [row, row.y + row.high / 2];
  }
  return { lane, whole: y };
}

function rowName({ groups }) {
  const [first, last] = [groups[0], groups[groups.length - 1]];
  return groups.length === 1 ? first.key : `epochs ${first.epoch} to ${last.epoch}`;
}

// ---- bands

/** Where what is known of a run ends: at its last entry, or at the first that is not read. */
function endOf(run) {
  return Math.max(0, Math.min(run.read, run.entries.length - 1));
}

/** Epochs from where each was opened to where the next one was. */
function epochsOf(run) {
  const last = endOf(run);
  const found = [{ epoch: FIRST, from: 0, to: last, m: run.config.logs, k: run.config.degree }];
  for (const it of run.recoveries.filter((each) => each.chosen !== null).sort((a, b) => a.chosen - b.chosen)) {
    found[found.length - 1].to = it.chosen;
    const { m, k } = it.node.machine.own();
    found.push({ epoch: it.ballot, from: it.chosen, to: last, m, k });
  }
  return found.map((it, at) => ({ ...it, at, texts: [`epoch ${it.epoch}`, `${it.epoch}`] }));
}

/** Recoveries from their beginning to their first mark, in rows that keep them apart. */
function bandsOf(run) {
  const ends = [], last = endOf(run);
  return run.recoveries.map((it) => {
    const to = it.mark ?? it.lost ?? last, free = ends.findIndex((end) => end < it.begun);
    const row = Math.min(free < 0 ? ends.length : free, 3);
    ends[row] = to;
    const head = `recovery ${it.ballot}`, end = bandEnd(it);
    return { from: it.begun, to, row, recovery: it, texts: [...end.map((each) => `${head}: ${each}`), head, `${it.ballot}`], isLost: it.chosen === null };
  });
}

/** How a recovery ended, from the longest text to the shortest. */
function bandEnd(it) {
  if (it.chosen !== null) return [`takes over through version ${it.rv} (pev ${it.pev}, rv ${it.rv})`, `rv ${it.rv}`];
  if (it.lost === null) return ["not done"];
  return [recoveryEnd(it), it.node.machine.phase.startsWith("lost") ? "lost" : "crashed"];
}

const OVERTAKEN = { Outballoted: "overtaken by a later one (Outballoted)" };

function recoveryEnd(it) {
  const [word, why] = it.node.machine.phase.split(" ");
  return word === "lost" ? `lost, ${OVERTAKEN[why] ?? why}` : "crashed";
}

function bandTip(it) {
  const { recovery } = it, { pev, rv } = recovery;
  const terms = pev !== null && rv !== null ? ` pev ${pev}: ${TERMS.pev} rv ${rv}: ${TERMS.rv}` : "";
  const why = recovery.node.machine.phase.split(" ")[1];
  return `${it.texts[0]}. From entry ${it.from} to ${it.to}.${it.isLost && REASONS[why] ? ` ${why}: ${REASONS[why]}.` : terms}`;
}

function niceStep(least) {
  for (let at = 1; ; at *= 10) for (const by of [1, 2, 5]) if (at * by >= least) return at * by;
}
