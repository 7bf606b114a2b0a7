"use strict";
// What happened, in words: a sentence or two for each choice, with its kind: good, bad, news or small.

const numberWord = (count) => ["no", "one", "two", "three", "four", "five", "six"][count] ?? `${count}`;
const allWord = (all) => (all === 1 ? "the one log" : all === 2 ? "both logs" : `all ${numberWord(all)} logs`);
const logsWord = (count, all) => (count === all ? allWord(all) : `${numberWord(count)} of ${numberWord(all)} logs`);
const capital = (text) => text.charAt(0).toUpperCase() + text.slice(1);

/** A node as sentences name it: with its epoch where there are logs of several. */
function named(world, node) {
  const isOfMany = world.plans.size > 1 && ["log", "proxy", "sequencer"].includes(node.kind);
  const the = node.kind === "sequencer" ? "the " : "";
  return `${the}${node.label}${isOfMany ? ` of epoch ${epochOf(node.epoch)}` : ""}`;
}

function batchName(batch) {
  return batch ? `batch ${batch.number}` : "the mark";
}

const letterOf = (hex) => String.fromCharCode(parseInt(hex, 16));

function mutationWords(mutation) {
  const [name, it] = variant(mutation);
  if (name === "clear") {
    const [from, upto] = [letterOf(it.begin), String.fromCharCode(parseInt(it.end, 16) - 1)];
    return from === upto ? `clear ${from}` : `clear ${from} to ${upto}`;
  }
  return name === "set" ? `set ${letterOf(it.key)} to ${valueOf(it.value)}`
    : `add ${valueOf(it.param)} to ${letterOf(it.key)}`;
}

const batchWords = (batch) => batch.map(mutationWords).join(", ");

/** The sentences of what a choice brought. */
function sentencesOf(world, news) {
  return news.flatMap((it) => (TALES[it.kind] ? [TALES[it.kind](world, it)].flat() : [])).filter(Boolean);
}

const good = (text) => ({ kind: "good", text });
const bad = (text) => ({ kind: "bad", text });
const told = (text) => ({ kind: "news", text });
const small = (text) => ({ kind: "small", text });

const TALES = {
  submitted: (world, { node, batch }) => told(
    `${capital(named(world, node))} takes batch ${batch.number} (${batchWords(batch.batch)}) and asks for a number.`
  ),
  begun: (world, { node, shape }) => {
    const of = shape ? `, for a generation of ${shape.m} logs with each shard on ${shape.k}` : "";
    const ballot = epochOf(node.epoch);
    return told(`${capital(node.label)} begins${of}: it reads from the coordinators under ballot ${ballot}.`);
  },
  crashed: (world, { node }) =>
    node.isGone ? bad(`${capital(named(world, node))} crashes, for good.`) : told(
      `${capital(named(world, node))} crashes and comes back with what its disk has: nothing changes.`
    ),
  lost: (world, { node }) => {
    const plan = world.plans.get(node.epoch).state, { k } = newestOf(plan),
      gone = world.logsOf(node.epoch).filter((it) => it.isGone).length;
    const rest = gone < k ? `${capital(numberWord(gone))} of them gone is fewer than k = ${k}: each shard is still ` +
      `on a log.` : `That makes ${numberWord(gone)}, and k = ${k}: some shard may now be on no log.`;
    return bad(`${capital(named(world, node))} is lost for good. ${rest}`);
  },
  again: (world, { node, asks }) => small(
    `${capital(named(world, node))} asks again: ` +
      `${asks.length === 1 ? "one ask" : `${numberWord(asks.length)} asks`} had no answer.`
  ),
  fetch: (world, { server, log, word }) => {
    const { version, floor } = server.machine, asks = {
      peek: `for what is above version ${version}`, mark: "for its mark",
      pop: `to let its records go through version ${floor}`,
    };
    return small(`${capital(server.label)} asks ${named(world, log)} ${asks[word]}.`);
  },
  message: (world, { it, is }) => {
    const what = `${messageWords(world, it)}`;
    if (is === "void") return small(`${capital(named(world, it.to))} is gone: ${what} reaches nobody.`);
    const words = { lost: "Lost on the way", twice: "It comes twice", held: "Held back", freed: "No longer held back" };
    return small(`${words[is]}: ${what}.`);
  },
  chosen: (world, { epoch }) => {
    const { parent, rv, pev } = world.plans.get(epoch);
    const left = world.batches.filter((it) => it.epoch === parent && it.version !== null && it.version > rv);
    const lost = left.length ? ` ${capital(left.map(batchName).join(" and "))} ${left.length > 1 ? "are" : "is"} ` +
      `above that, and will not survive.` : "";
    return good(
      `A majority of coordinators has it: epoch ${epochOf(epoch)} is chosen. It takes over through version ` +
        `${rv}${rv > pev ? "" : ", all known to be committed"}.${lost}`
    );
  },
  asked: (world, it) => ASKED[it.word](world, it),
  heard: (world, it) => HEARD[it.node.kind](world, it),
};

function refusalWords(world, { node, told, answer, said }) {
  if (told === "two_values") return `${capital(node.label)} refuses: it has another state under that ballot.`;
  if (answer.promised) return `${capital(node.label)} refuses ballot ${epochOf(said.ballot)}: it has promised ` +
    `ballot ${epochOf(answer.promised)}.`;
  const [why, what] = variant(answer.why), it = capital(named(world, node));
  const words = {
    stopped: "it is locked", stale: "it is further already", gap: `it holds through version ${what.durable} only`,
    unseeded: "it has no seed yet", no_mark: "it has no mark yet", too_early: `it begins at version ${what.first}`,
    removed: `what is through ${what.through} was let go`, not_mine: "it does not hold that shard",
    wrong_epoch: "that is of another epoch", seed_differs: "it has another seed",
  };
  return `${it} refuses: ${words[why] ?? why.replaceAll("_", " ")}.`;
}

const REFUSED = ["refused", "two_values"];

const ASKED = {
  next: (world, { node, from, told: word, answer }) => {
    if (REFUSED.includes(word)) return small(`${capital(named(world, node))} refuses: that request is out of turn.`);
    const batch = world.numbered.get(`${node.epoch}:${answer.version}`);
    return told(
      `${capital(named(world, node))} gives ${batchName(batch ?? from.batch)} version ${answer.version}, after ` +
        `version ${answer.prev}.`
    );
  },
  push: (world, it) => {
    const { node, said, told: word, isNew } = it, { epoch } = node;
    const issued = issuedAt(world, epoch, said.version), what = issued ? batchName(issued.batch) : "the mark";
    if (REFUSED.includes(word)) return small(
      `${refusalWords(world, it).slice(0, -1)}, so it does not hold ${what} (version ${said.version}).`
    );
    if (!isNew) return small(`${capital(named(world, node))} holds ${what} already, and says so again.`);
    const logs = world.logsOf(epoch), count = logs.filter((log) => log.machine.durable >= said.version).length;
    const of = said.mark ? ` of epoch ${epochOf(epoch)}` : "";
    const text = `${capital(named(world, node))} holds ${what}${said.mark ? of : ""} at version ${said.version}: ` +
      `${logsWord(count, logs.length)}.`;
    return count === logs.length && issued.batch && isCommitted(world, issued.batch) ? good(
      `${text} It is committed; its proxy does not know yet.`
    ) : told(text);
  },
  lock: (world, { node, answer, isNew }) =>
    isNew ? told(
      `${capital(named(world, node))} is locked: it takes no more pushes. It holds through version ` +
        `${answer.durable}, and knows through ${answer.known} to be committed.`
    ) : small(`${capital(named(world, node))} is locked already, and says the same again.`),
  seed: (world, it) => {
    if (REFUSED.includes(it.told)) return small(refusalWords(world, it));
    const name = capital(named(world, it.node)), { first, seeded_to, records } = it.said;
    if (!it.isNew) return small(`${name} has that seed already.`);
    const copied = `what was copied above version ${first - 1} through ${seeded_to}`;
    return told(`${name} takes its seed: ${records.length ? copied : "nothing was copied"}.`);
  },
  peek: (world, it) => {
    if (REFUSED.includes(it.told)) return small(refusalWords(world, it));
    const { records, upto } = it.answer, batches = records.map(
      (each) => batchName(issuedAt(world, it.node.epoch, each.version)?.batch)
    );
    return small(
      `${capital(named(world, it.node))} sends ${it.from.label} ` +
        `${batches.length ? batches.join(", ") : "no records"}: all of its shard through version ${upto}.`
    );
  },
  mark_asked: (world, it) => small(
    REFUSED.includes(it.told)
    ? refusalWords(world, it)
    : `${capital(named(world, it.node))} sends ${it.from.label} its mark.`
  ),
  pop: (world, it) => small(
    REFUSED.includes(it.told)
    ? refusalWords(world, it)
    : `${capital(named(world, it.node))} lets records of shard ${SHARDS[it.said.tag]} go through version ` +
      `${it.answer.through}.`
  ),
  read: (world, it) => (
    REFUSED.includes(it.told)
    ? bad(refusalWords(world, it))
    : told(
      `${capital(it.node.label)} promises ballot ${epochOf(it.said.ballot)}: it refuses every lower one from now on.`
    )
  ),
  write: (world, it) => {
    if (REFUSED.includes(it.told)) return bad(refusalWords(world, it));
    const count = world.takers.get(it.said.ballot).size;
    return told(
      `${capital(it.node.label)} takes the list of generations of ballot ${epochOf(it.said.ballot)}: ` +
        `${numberWord(count)} of ${numberWord(CONFIG.coordinators)}.`
    );
  },
};

const HEARD = {
  proxy: (world, { node, what, got, was, isNew }) => {
    const { batch } = node, [word, said] = variant(got), all = world.logsOf(node.epoch).length;
    if (word === "committed") return good(
      `${capital(batchName(batch))} is acknowledged at version ${said.version}: ${logsWord(all, all)} hold it.`
    );
    if (word === "ended") return bad(
      `${capital(named(world, node))} ends: a log is locked. Nothing is said of ${batchName(batch)}; it may survive ` +
        `or not.`
    );
    if (!isNew) return small(
      `${capital(named(world, node))} hears ${tellWords(world, what, null)}: it changes nothing.`
    );
    if (was.place === null) return told(
      `${capital(named(world, node))} pushes ${batchName(batch)} to ${logsWord(all, all)}.`
    );
    return told(
      `${capital(named(world, node))} knows that ${logsWord(node.machine.held.size, all)} ` +
        `${node.machine.held.size === 1 ? "holds" : "hold"} ${batchName(batch)}.`
    );
  },
  recoverer: (world, { node, what, was, isNew }) => {
    const it = node.machine, is = it.phase, name = capital(node.label);
    if (is.startsWith("lost") && !was.phase.startsWith("lost")) return bad(
      `${name} has lost: ${LOST[is.slice(5)] ?? is.slice(5)}. It does no harm.`
    );
    if (is === was.phase && it.isCopied() === was.isCopied)
      return small(
        isNew
        ? `${name} has one more answer: ${tellWords(world, what, null)}.`
        : `${name} hears ${tellWords(world, what, null)}: it changes nothing.`
      );
    return phaseWords(world, node, was);
  },
  storage: (world, it) => (variant(it.what.log)[0] === "marked" ? markedWords(world, it) : peekedWords(world, it)),
};

const LOST = {
  Outballoted: "a coordinator has promised a higher ballot", BadState: "what it read is no state",
  TwoValues: "a coordinator has another state under its ballot", TooMany: "64 generations are left",
  NotLater: "its ballot is not above the last epoch", Inconsistent: "the logs contradict one another",
};

function phaseWords(world, node, was) {
  const it = node.machine, name = capital(node.label), { m, k } = it.old(), own = it.plan && it.own();
  const said = [];
  if (was.phase === "reading") said.push(
    told(`${name} has a majority of promises, and locks the ${numberWord(m)} logs of epoch ${epochOf(it.old().epoch)}.`)
  );
  if (was.phase === "locking") {
    const copy = it.pev === it.rv ? "Nothing is in between, so nothing needs to be copied."
      : `It copies what is in between.`;
    said.push(
      told(
        `${name} has replies of ${numberWord(it.replies.size)} logs, so each shard is on one of them (m − k + 1 = ` +
          `${m - k + 1}). Through version ${it.pev} is known to be committed; above ${it.rv} nothing can be ` +
            `acknowledged. ${copy}`
      )
    );
  }
  if (!was.isCopied && it.isCopied()) said.push(
    told(`${name} seeds the ${numberWord(own.m)} logs of epoch ${epochOf(it.ballot)}.`)
  );
  if (it.phase === "writing") said.push(
    told(
      `${capital(allWord(own.m).replace("log", "new log"))} have their seeds: ${node.label} writes the list of ` +
        `generations to the coordinators.`
    )
  );
  if (it.isChosen()) said.push(
    good(
      `${name} opens epoch ${epochOf(it.ballot)}, and sends each log the mark: its first record, at version ` +
        `${it.rv + 1}.`
    )
  );
  return said;
}

function peekedWords(world, { node, from, what, got, was, isNew }) {
  const it = node.machine, name = capital(node.label);
  if (got.why) return small(
    `${name} refuses what ${named(world, from)} sent: ` +
      `${got.why === "Hole" ? "something before it is missing" : "another generation has its next version"}.`
  );
  const said = [], applied = got.batches;
  const open = got.applied.filter((version) => version > it.floor).length;
  const kept = `, and keeps undo rows: that ${open > 1 ? "they are" : "it is"} committed is not known yet`;
  if (applied.length) said.push(told(`${name} applies ${applied.map(batchName).join(" and ")}${open ? kept : ""}.`));
  if (it.floor > was.floor) said.push(
    good(
      `Through version ${it.floor} all is durable at ${node.label}: it is known to be committed, so the undo rows go.`
    )
  );
  if (!said.length) said.push(
    small(
      isNew
      ? `${name} is through version ${it.version} now: nothing there is of its shard.`
      : `${name} hears nothing new.`
    )
  );
  return said;
}

function markedWords(world, { node, got }) {
  const name = capital(node.label), it = node.machine, epoch = epochOf(newestOf(it.state).epoch);
  if (got.why) return small(`${name} refuses an older list of generations.`);
  if (got.cut === undefined) return small(`${name} has this list of generations already.`);
  const taken = got.batches;
  if (got.from === got.to) return told(`${name} moves to epoch ${epoch}. It has nothing to take back.`);
  const back = got.undone.map(
    (
      [, key, had, before]
    ) => `${letterOf(key)} goes ${had === null ? "" : `from ${valueOf(had)} `}back to ` +
      `${before === null ? "nothing" : valueOf(before)}`
  );
  const rows = back.length ? `: ${back.join(", ")}` : "";
  if (!taken.length) return told(
    `${name} goes back to version ${got.to} and moves to epoch ${epoch}. None of its rows changes.`
  );
  return bad(
    `Rollback: ${node.label} takes back ${taken.map(batchName).join(" and ")}${rows}. Epoch ${epoch} took over ` +
      `through version ${got.cut} only.`
  );
}

// ---- messages

function messageWords(world, it) {
  return it.kind === "ask" ? askWords(world, it) : `${tellWords(world, it.what, it.from)}, to ${named(world, it.to)}`;
}

function askWords(world, { from, to, what }) {
  const [word, it] = variant(variant(what)[1]), where = named(world, to), who = from.label;
  const pushed = () => (it.mark ? "the mark" : batchName(issuedAt(world, to.epoch, it.version)?.batch));
  return {
    next: () => `${who} asks ${where} for a number`,
    push: () => `${who} pushes ${pushed()}, version ${it.version}, to ${where}`,
    lock: () => `${who} locks ${where}`,
    seed: () => `${who} seeds ${where}`,
    peek: () => `${who} asks ${where} for what is above version ${it.after}`,
    mark_asked: () => `${who} asks ${where} for its mark`,
    pop: () => `${who} lets ${where} forget through version ${it.through}`,
    read: () => `${who} reads from ${where}`,
    write: () => `${who} writes to ${where}`,
  }[word]();
}

const whyWord = (why) => variant(why)[0].replaceAll("_", " ");

function tellWords(world, tell, from) {
  const [word, it] = variant(variant(tell)[1]), who = from ? `${named(world, from)}: ` : "";
  const count = (records) => (records.length ? `${records.length} record${records.length > 1 ? "s" : ""}` : "no record");
  const words = {
    numbered: () => `the number is ${it.version}`,
    held: () => `version ${it.version} is held`,
    locked: () => `locked; holds through ${it.durable}, knows ${it.known}`,
    seeded: () => "the seed is there",
    peeked: () => `${count(it.records)}, through version ${it.upto}`,
    marked: () => "the mark, with the list of generations",
    popped: () => `let go through ${it.through}`,
    promise: () => "a promise",
    written: () => "written",
    two_values: () => "refused",
    refused: () => `refused: ${"promised" in it ? `promised ballot ${epochOf(it.promised)}` : whyWord(it.why)}`,
  };
  return who + words[word]();
}

/** A message in a word or two, for its label. */
function messageLabel(it) {
  const [word, said] = variant(variant(it.what)[1]);
  const short = {
    next: "number?", push: said.mark ? "mark" : `push ${said.version}`, lock: "lock", seed: "seed",
    peek: `>${said.after}?`, mark_asked: "mark?", pop: "let go", read: "read", write: "write"
  };
  const back = {
    numbered: `no. ${said.version}`, held: `held ${said.version}`, locked: "locked", seeded: "seeded",
    peeked: said.records ? (said.records.length ? `${said.records.length} rec.` : "nothing") : "", marked: "mark",
    popped: "let go", promise: "promise", written: "written"
  };
  return (it.kind === "ask" ? short[word] : back[word]) ?? "refused";
}
