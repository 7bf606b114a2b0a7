"use strict";
// What is said beside the picture: what is chosen with what can be done to it, the batches, and the story.

function element(name, content = "", attributes = {}) {
  const it = document.createElement(name);
  for (const each of [content].flat()) it.append(each);
  for (const key in attributes) it.setAttribute(key, attributes[key]);
  return it;
}

/** A button that makes a choice. */
function chooser(page, label, choice, kind = "", name = label) {
  const it = element("button", label, { type: "button", "data-choice": choice, class: kind, "aria-label": name });
  it.onclick = () => page.take(choice);
  return it;
}

const pairs = (list) => element("dl", list.flatMap(([name, value]) => [element("dt", name), element("dd", value)]));
const row = (buttons, kind = "") => element("div", buttons, { class: `acts ${kind}` });
const shown = (value) => (value === null ? "nothing" : valueOf(value));

/** What is known of a node: names with values. */
const STATES = {
  cell: (_, { machine: it }) => [
    ["promised", `ballot ${epochOf(it.promised)}: every lower one is refused`],
    ["has", `the list of generations of epoch ${epochOf(it.written)}`],
    ["generations", generationWords(stateRead(it.value))],
  ],
  log: (_, { machine: it }) => [
    ["holds through", `version ${it.durable}`],
    ["knows", `through ${it.known} to be committed`],
    ["locked", it.stopped ? "yes: it takes no more pushes" : "no"],
    ["seed", seedWords(it.seed)],
    ["shards", SHARDS.filter((_, tag) => it.holds(tag)).join(", ") || "none"],
    ["let go", [...it.popped].map(([tag, through]) => `${SHARDS[tag]} through ${through}`).join(", ") || "nothing"],
  ],
  sequencer: (_, { machine: it }) => [["last number", `${it.latest}`]],
  proxy: (_, { machine: it, batch }) => [
    ["batch", it.open ? `batch ${batch.number}: ${batchWords(batch.batch)}` : `none${it.ended ? ": it has ended" : ""}`],
    ["knows", `through ${it.known} to be committed`],
    ...(it.open && it.place ? [["held by", logsWord(it.held.size, it.m)]] : []),
  ],
  recoverer: (_, { machine: it }) => [
    ["phase", it.phase],
    ["ends", it.parent ? `epoch ${epochOf(it.old().epoch)}` : "not read yet"],
    ["pev", it.pev === null ? "not fixed yet" : `${it.pev}: all through it is known to be committed`],
    ["rv", it.rv === null ? "not fixed yet" : `${it.rv}: nothing above it was acknowledged`],
    ["next shape", shapeWords(it.plan ? it.own() : it.shape)],
  ],
  storage: (_, { machine: it }) => [
    ["epoch", `${epochOf(newestOf(it.state).epoch)}`],
    ["applied", `through version ${it.version}`],
    ["durable", `through version ${it.floor}`],
    ["undo rows", it.undo.map(([at, key, old]) => `${letterOf(key)} before ${at}: ${shown(old)}`).join("; ") || "none"],
    ["rows", [...it.rows].map(([key, value]) => `${letterOf(key)} = ${valueOf(value)}`).join(", ") || "none"],
  ],
};

const shapeWords = (shape) => (shape ? `m = ${shape.m}, k = ${shape.k}` : "as before");

function seedWords(seed) {
  if (seed === null) return "none yet";
  return seed.first > seed.seeded_to ? "nothing was copied" : `versions ${seed.first} to ${seed.seeded_to} were copied`;
}

function generationWords(state) {
  return state ? state.gens.map((it) => `epoch ${epochOf(it.epoch)} (m ${it.m}, k ${it.k})`).join(", ") : "none";
}

/** What can be done to a node: words, a choice, and whether it does harm. */
function actionsOf(world, node) {
  const { kind, code, isGone } = node, found = [];
  if (isGone) return [];
  if (kind === "storage") found.push(...fetchesOf(world, node));
  if (world.unanswered(node).length) found.push(["Ask again", `a${code}`]);
  if (kind === "log") found.push(["Lose it for good", `L${code.slice(1)}`, "harm"]);
  const isForGood = ["proxy", "sequencer", "recoverer"].includes(kind);
  found.push([isForGood ? "Crash" : "Crash and come back", `k${code}`, isForGood ? "harm" : ""]);
  return found;
}

/** What a storage server can ask: records, the marks of later epochs, and to let records go. */
function fetchesOf(world, server) {
  const { tag, version, state, floor } = server.machine, own = newestOf(state).epoch, found = [];
  const at = (log) => `${tag}-${epochOf(log.epoch)}-${log.place}`;
  const holders = holdersOf(world, sourceOf(state, version + 1).epoch, tag);
  for (const log of holders) found.push([`Get records from ${named(world, log)}`, `g${at(log)}`]);
  for (const epoch of world.chosen.filter((it) => it > own).reverse())
    for (const log of world.logsOf(epoch).slice(0, 3))
      found.push([`Ask ${named(world, log)} for its mark`, `m${at(log)}`]);
  if (floor === 0) return found;
  return [...found, ...holders.map((log) => [`Have ${named(world, log)} let go through ${floor}`, `o${at(log)}`])];
}

/** The card of a message or of a node; null where it is no longer there. */
function cardOf(world, selected, page) {
  const message = world.flight.find((it) => `m${it.id}` === selected), node = world.nodes.get(selected);
  if (message) return messageCard(world, message, page);
  return node ? nodeCard(world, node, page) : null;
}

function messageCard(world, it, page) {
  const acts = [
    chooser(page, "Deliver", `d${it.id}`, "first"), chooser(page, "Lose", `x${it.id}`, "harm"),
    chooser(page, "Repeat", `t${it.id}`), chooser(page, it.isHeld ? "No longer delay" : "Delay", `h${it.id}`),
  ];
  return [element("h2", "In flight"), element("p", capital(messageWords(world, it)) + "."), row(acts)];
}

function nodeCard(world, node, page) {
  const title = capital(named(world, node)) + (node.isGone ? ", gone" : ""), { kind, machine } = node;
  const takes = kind === "proxy" && !node.isGone && !machine.open && !machine.ended;
  const acts = actionsOf(world, node).map(([label, choice, harm]) => chooser(page, label, choice, harm));
  const form = takes ? [batchForm(world, node, page)] : [];
  return [element("h2", title), pairs(STATES[kind](world, node)), ...form, ...(acts.length ? [row(acts)] : [])];
}

/** The form of a batch: mutations that are at hand, and one of its own. */
function batchForm(world, node, page) {
  const choice = (batch) => `u${node.code.slice(1)}-${batch}`, count = world.batches.length;
  const both = `Sa${(count % 90) + 10}Sn${(2 * count + 7) % 100}`;
  const ready = [`Sa${(3 * count + 5) % 100}`, `Ab${(count % 9) + 1}`, both, "Cad"];
  const buttons = ready.map((it) => chooser(page, batchWords(batchOf(it)), choice(it)));
  return element("div", [element("p", "Submit a batch:", { class: "label" }), row(buttons), ownForm(page, choice)]);
}

function ownForm(page, choice) {
  const kinds = [["S", "set"], ["A", "add to"], ["C", "clear from"]];
  const options = kinds.map(([value, words]) => element("option", words, { value }));
  const kind = element("select", options, { "aria-label": "Mutation" });
  const key = element("input", "", { value: "a", maxlength: 1, size: 1, "aria-label": "Key, one letter" });
  const label = "Number, or the last key of a clear";
  const value = element("input", "", { value: "1", maxlength: 3, size: 3, "aria-label": label });
  const submit = element("button", "Submit", { class: "first" });
  const form = element("form", [kind, key, element("span", ":"), value, submit], { class: "own" });
  form.onsubmit = (event) => {
    event.preventDefault();
    page.take(choice(`${kind.value}${key.value.toLowerCase()}${value.value.toLowerCase()}`));
  };
  return form;
}

// ---- lists

const FATES = { acknowledged: "good", committed: "good" };
const BAD_FATES = ["taken back", "not taken over", "unknown", "ended"];

/** Puts items into a list, the newest first, or says that there are none. */
function fill(place, items, none) {
  place.replaceChildren(...(items.length ? items : [element("li", none, { class: "none" })]));
}

function listBatches(world, place) {
  const items = world.batches.slice(-40).map((batch) => {
    const [fate, why] = fateOf(world, batch), kind = FATES[fate] ?? (BAD_FATES.includes(fate) ? "bad" : "");
    const said = (it, tag) => `${SHARDS[tag]}: ${batch.undone.has(tag) ? "taken back" : it || "not yet"}`;
    const servers = whereApplied(world, batch).map((it, tag) => (it === "none" ? "" : said(it, tag)));
    const token = element("span", `${batch.number}`, { class: `chip c${(batch.number - 1) % 8}` });
    const more = element("small", `${why} ${servers.filter(Boolean).join(", ")}`), is = element("strong", fate, { class: kind });
    return element("li", [token, element("div", [is, ` ${batchWords(batch.batch)}`, more])]);
  });
  fill(place, items.reverse(), "No batch yet: click a proxy.");
}

function listFlight(world, place, page) {
  const items = world.flight.map((it) => {
    const words = messageWords(world, it), delay = it.isHeld ? "No longer delay" : "Delay";
    const act = (label, letter) => chooser(page, label, `${letter}${it.id}`, "", `${label}: ${words}`);
    const acts = [act("Deliver", "d"), act("Lose", "x"), act("Repeat", "t"), act(delay, "h")];
    return element("li", [element("span", words + (it.isHeld ? " (held back)" : "")), row(acts, "small")]);
  });
  fill(place, items, "Nothing is in flight.");
}

function listStory(story, place, page) {
  const items = story.slice(-120).map(({ at, sentences }) => {
    const words = sentences.map((it) => element("span", it.text + " ", { class: it.kind }));
    const button = element("button", words, { type: "button", title: `Back to after step ${at}` });
    button.onclick = () => page.goTo(at);
    return element("li", [element("span", `${at}`, { class: "at" }), button]);
  });
  fill(place, items.reverse(), "Nothing has happened yet.");
}
