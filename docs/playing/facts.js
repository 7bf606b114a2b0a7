"use strict";
// What is so at a moment of the cluster, whoever knows it: what is committed, and what became of each batch.

/** What an epoch issues: versions, each with the epoch that numbered it and its batch, or none of a mark. */
function issuedOf(world, epoch) {
  const plan = world.plans.get(epoch);
  const front = plan.parent === null ? [] : issuedOf(world, plan.parent).filter((it) => it.version <= plan.rv);
  const own = [...world.numbered].filter(([key]) => key.startsWith(`${epoch}:`)).map(
    ([, batch]) => ({ version: batch.version, epoch, batch })
  );
  return [...front, { version: plan.rv + 1, epoch, batch: null }, ...own.sort((a, b) => a.version - b.version)];
}

/** The version through which the logs of an epoch all hold its chain, lost ones too. */
function leastHeld(world, epoch) {
  return Math.min(...world.logsOf(epoch).map((it) => it.machine.durable));
}

/** The committed list: what the greatest chosen epoch issued, through the least version of its logs. */
function committedOf(world) {
  const epoch = world.chosen[world.chosen.length - 1], least = leastHeld(world, epoch);
  return issuedOf(world, epoch).filter((it) => it.version <= least);
}

/** What a log of an epoch has at a version: what its epoch issued there. */
function issuedAt(world, epoch, version) {
  return issuedOf(world, epoch).find((it) => it.version === version) ?? null;
}

/** The line of an epoch: the generations from the first one to its own. */
function lineOf(world, epoch) {
  const plan = world.plans.get(epoch);
  return plan.parent === null ? [epoch] : [...lineOf(world, plan.parent), epoch];
}

/** Through which version the newest chosen epoch took over what an older epoch issued; Infinity of itself, and null
    where that epoch is none of its line. */
function cutOf(world, epoch) {
  const newest = world.chosen[world.chosen.length - 1], line = lineOf(world, newest), at = line.indexOf(epoch);
  if (at < 0) return null;
  return at === line.length - 1 ? Infinity : world.plans.get(line[at + 1]).rv;
}

/** How many logs of its generation hold a batch. */
function holdersCount(world, batch) {
  if (batch.version === null) return 0;
  return world.logsOf(batch.epoch).filter((it) => it.machine.heldPush(batch.version)).length;
}

/** Whether a batch is in the committed list. */
function isCommitted(world, batch) {
  return committedOf(world).some((it) => it.batch === batch);
}

/** Whether a chosen epoch was opened without it. */
function isCutOff(world, batch) {
  const cut = cutOf(world, batch.epoch);
  return batch.version !== null && cut !== null && batch.version > cut;
}

/** Of each storage server where a batch is: "" not there, "applied", or "durable" where it can no longer be undone. */
function whereApplied(world, batch) {
  return world.of("storage").map(({ machine: it, place }) => {
    const [begin, end] = [CONFIG.shards[place], CONFIG.shards[place + 1] ?? null];
    if (!clipped(batch.batch, begin, end).length) return "none";
    if (!batch.applied.has(place)) return "";
    return batch.version <= it.floor ? "durable" : "applied";
  });
}

/** Whether each copy of what a storage server still needs is on a lost log: from which version on. */
function goneFrom(world, server) {
  const { tag, version, state } = server.machine;
  for (const it of committedOf(world)) {
    if (it.version <= version || !it.batch) continue;
    const [begin, end] = [CONFIG.shards[tag], CONFIG.shards[tag + 1] ?? null];
    if (!clipped(it.batch.batch, begin, end).length) continue;
    const source = sourceOf(state, it.version) ?? state.gens[0];
    const newer = world.chosen.filter(
      (epoch) => epoch >= source.epoch &&
      lineOf(world, world.chosen.at(-1)).includes(epoch)
    );
    const epochs = newer.filter((epoch) => world.plans.get(epoch).pev < it.version);
    const holds = (log) => !log.isGone && log.machine.holds(tag) && log.machine.durable >= it.version &&
      log.machine.isLeft(tag, it.version);
    if (!epochs.some((epoch) => world.logsOf(epoch).some(holds))) return it.version;
  }
  return null;
}

/** The promise, looked at: each acknowledged batch is committed, and no storage server took one back. */
function promiseOf(world) {
  const kept = world.batches.filter((it) => it.isAcknowledged);
  const broken = kept.filter((it) => !isCommitted(world, it) || it.isBroken);
  return { count: kept.length, broken };
}

/** What became of a batch, in a word and in a sentence. */
function fateOf(world, batch) {
  const { version, outcome, isAcknowledged } = batch, all = world.logsOf(batch.epoch).length;
  if (isAcknowledged) return ["acknowledged", `Its client was told: committed at version ${version}.`];
  if (isCutOff(world, batch)) {
    const cut = cutOf(world, batch.epoch), said = `Version ${version} is above ${cut}, through which the next epoch ` +
      `took over.`;
    return batch.undone.size ? ["taken back", said] : ["not taken over", said];
  }
  if (isCommitted(world, batch)) return [
    "committed", "All logs hold it, or the next epoch took it over. Its client was not told."
  ];
  if (version === null) return [outcome === "ended" ? "ended" : "no number", "The sequencer has not numbered it."];
  const held = `${holdersCount(world, batch)} of ${all} logs hold it.`;
  return outcome === "ended" ? ["unknown", `Its proxy ended: nothing is said of it. ${held}`] : ["in flight", held];
}
