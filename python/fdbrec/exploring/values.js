"use strict";
// Bytes, batches, shards and coordinated states, by docs/FORMATS.md and docs/PROTOCOL.md. A reading of its own: it shares
// nothing with the crates, nor with python/fdbrec/reading. Bytes are lower case hex, whose order as text is that of the bytes.

const FIRST = 257;

/** The one member of an object that stands for a variant: its name and what it holds. */
function variant(value) {
  for (const name in value) return [name, value[name]];
  return ["", {}];
}

function isSame(a, b) {
  if (a === b) return true;
  if (typeof a !== "object" || typeof b !== "object" || a === null || b === null) return false;
  if (Array.isArray(a) !== Array.isArray(b)) return false;
  if (Array.isArray(a)) {
    if (a.length !== b.length) return false;
    for (let at = 0; at < a.length; at++) if (!isSame(a[at], b[at])) return false;
    return true;
  }
  let more = 0;
  for (const name in a) {
    if (!(name in b) || !isSame(a[name], b[name])) return false;
    more += 1;
  }
  for (const _ in b) more -= 1;
  return more === 0;
}

// ---- mutations and batches

function numbersOf(hex) {
  const found = [];
  for (let at = 0; at < hex.length; at += 2) found.push(parseInt(hex.slice(at, at + 2), 16));
  return found;
}

function hexOf(numbers) {
  return numbers.map((it) => it.toString(16).padStart(2, "0")).join("");
}

/** Bytes as a number, with the first byte the least: -1, 0 or 1. */
function compared(a, b) {
  for (let at = a.length - 1; at >= 0; at--) if (a[at] !== b[at]) return a[at] < b[at] ? -1 : 1;
  return 0;
}

function summed(a, b) {
  let carry = 0;
  return a.map((it, at) => ((carry = it + b[at] + (carry >> 8)), carry & 255));
}

/** The value after a combination; `old` is null where the key has none. */
function combined(name, old, param) {
  if (old === null && (name === "and" || name === "min")) return param;
  const b = numbersOf(param), had = numbersOf(old || "");
  const a = b.map((_, at) => (at < had.length ? had[at] : 0));
  const byBytes = { and: (x, y) => x & y, or: (x, y) => x | y, xor: (x, y) => x ^ y }[name];
  if (byBytes) return hexOf(a.map((it, at) => byBytes(it, b[at])));
  if (name === "add") return hexOf(summed(a, b));
  return hexOf(name === "max" ? (compared(a, b) < 0 ? b : a) : compared(a, b) < 0 ? a : b);
}

/** What a mutation that is no clear makes of its key's value; null is none. */
function valueAfter(name, what, old) {
  if (name === "set") return what.value;
  if (name === "compare_and_clear") return old === what.value ? null : old;
  return combined(name, old, what.param);
}

/** Applies a batch to rows, and answers what each key that it changed held before, as pairs by rising keys. */
function applyBatch(rows, batch) {
  const before = new Map();
  const put = (key, value) => {
    if (!before.has(key)) before.set(key, rows.has(key) ? rows.get(key) : null);
    if (value === null) rows.delete(key);
    else rows.set(key, value);
  };
  for (const mutation of batch) {
    const [name, what] = variant(mutation);
    if (name !== "clear") put(what.key, valueAfter(name, what, rows.has(what.key) ? rows.get(what.key) : null));
    else for (const key of [...rows.keys()]) if (what.begin <= key && key < what.end) put(key, null);
  }
  const changed = [...before].filter(([key, old]) => old !== (rows.has(key) ? rows.get(key) : null));
  return changed.sort((a, b) => (a[0] < b[0] ? -1 : 1));
}

/** The part of a batch that acts on the keys of a shard. */
function clipped(batch, begin, end) {
  const found = [];
  for (const mutation of batch) {
    const [name, what] = variant(mutation);
    if (name !== "clear") {
      if (begin <= what.key && (end === null || what.key < end)) found.push(mutation);
      continue;
    }
    const from = what.begin > begin ? what.begin : begin, upto = end !== null && end < what.end ? end : what.end;
    if (from < upto) found.push({ clear: { begin: from, end: upto } });
  }
  return found;
}

function keysOf(batch) {
  return batch.map((it) => variant(it)).map(([name, what]) => (name === "clear" ? what.begin : what.key));
}

/** Whether a batch has a mutation that acts on a key. */
function actsOn(batch, key) {
  return batch.some((it) => {
    const [name, what] = variant(it);
    return name === "clear" ? what.begin <= key && key < what.end : what.key === key;
  });
}

// ---- coordinated states: { dropped, gens: [{ epoch, first, k, m, seeded_to }] }

function stateIn(value) {
  return Array.isArray(value) ? { dropped: 0, gens: value } : { dropped: value.dropped, gens: value.gens };
}

function stateShown(state) {
  return state.dropped ? { dropped: state.dropped, gens: state.gens } : state.gens;
}

function hexNumber(number, bytes) {
  return number.toString(16).padStart(2 * bytes, "0");
}

function stateSpelled(state) {
  const gens = state.gens.map(
    (it) => hexNumber(it.epoch, 8) + hexNumber(it.m, 1) + hexNumber(it.k, 1) + hexNumber(it.first, 8) + hexNumber(it.seeded_to, 8)
  );
  return (state.dropped ? "02" + hexNumber(state.dropped, 8) : "01") + hexNumber(gens.length, 1) + gens.join("");
}

/** The state that bytes spell, or null. */
function stateRead(hex) {
  const part = (at, bytes) => parseInt(hex.slice(2 * at, 2 * (at + bytes)), 16);
  const form = hex.slice(0, 2), head = form === "02" ? 9 : 1;
  const dropped = form === "02" ? part(1, 8) : 0, count = part(head, 1);
  if (!["01", "02"].includes(form) || !(count >= 1 && count <= 64) || hex.length !== 2 * (head + 1 + 26 * count)) return null;
  const gens = [];
  for (let at = head + 1; at < head + 1 + 26 * count; at += 26)
    gens.push({ epoch: part(at, 8), first: part(at + 10, 8), k: part(at + 9, 1), m: part(at + 8, 1), seeded_to: part(at + 18, 8) });
  return { dropped, gens };
}

/** Whether a state goes on from another one: it begins with what it did not drop of that, one generation at least. */
function goesOn(state, own) {
  const more = state.dropped - own.dropped, left = own.gens.slice(Math.max(0, more));
  return more >= 0 && left.length > 0 && isSame(state.gens.slice(0, left.length), left);
}

function newestOf(state) {
  return state.gens[state.gens.length - 1];
}

/** The generation behind that of an epoch, or none. */
function nextOf(state, epoch) {
  const at = state.gens.findIndex((it) => it.epoch === epoch);
  return at < 0 ? undefined : state.gens[at + 1];
}

/** The last generation that starts at or below a version, or none. */
function sourceOf(state, version) {
  return [...state.gens].reverse().find((it) => it.first <= version);
}
