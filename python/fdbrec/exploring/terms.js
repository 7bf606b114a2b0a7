"use strict";
// The words of the page: what each means, and bytes with the text that they spell.

/** Bytes in hex, with their text where each of them can be printed. */
function bytesText(hex) {
  const text = printable(hex);
  return text === null ? hex || "(empty)" : `${hex} "${text}"`;
}

/** The text that bytes spell, or null where they are none that can be printed. */
function printable(hex) {
  const numbers = numbersOf(hex), isText = numbers.every((it) => it >= 0x20 && it < 0x7f) && numbers.some((it) => it > 0x20);
  return isText ? String.fromCharCode(...numbers) : null;
}

/** What became of a batch in the whole run: the one word that its bar, the search and the story have for it. */
const FATES = {
  acknowledged: "Every log of its epoch holds it, and its client was told so. No recovery may lose it.",
  kept: "Its client got no answer, but the next epoch took it over: it counts.",
  "taken back": "A storage server applied it before it was acknowledged, the next epoch did not take it over, and the server undid it.",
  discarded: "Its client got no answer, and the next epoch did not take it over. No storage server had applied it.",
  "outcome unknown": "Its proxy stopped without an answer to its client, and no later epoch has decided about it.",
  "under way": "At the end of the run it waits for its version or for logs to hold it.",
  "acknowledged, yet taken back": "Its client was told that it is committed, and a storage server undid it. That may only be if too many logs were lost.",
};

function fateOf(run, it) {
  if (it.undone.length) return it.outcome === "committed" ? "acknowledged, yet taken back" : "taken back";
  if (it.outcome === "committed") return "acknowledged";
  const next = run.recoveryAfter(it.node.what.epoch);
  if (next) return it.held.length && it.version <= next.rv ? "kept" : "discarded";
  return it.outcome === "ended" ? "outcome unknown" : "under way";
}

/** Why something is refused, or why a recoverer is lost. */
const REASONS = {
  Outballoted: "overtaken: a coordinator has promised a higher ballot to a later recoverer",
  TwoValues: "a coordinator holds another value under the same ballot",
  BadState: "the coordinators hold a value that is no state",
  Inconsistent: "the replies of the locked logs contradict each other",
  Spent: "there is no further version",
  NotLater: "its ballot is not above the last epoch",
  TooMany: "64 generations are left, and no more fit",
  Older: "it is the state of an earlier epoch than the server's own",
  Stranger: "it does not go on from the server's own state",
  BelowFloor: "the server would have to undo below its floor",
  NotMyGeneration: "another epoch has the next version that the server needs",
  Hole: "records are missing between what the server applied and these",
  stopped: "the log is locked by a recovery and takes no push",
  stale: "the log is past that version",
  gap: "the log lacks the version before it",
  no_mark: "the log has not got its epoch's first record yet",
  not_mine: "the log does not hold this tag",
  unseeded: "the log has not got its seed yet",
  wrong_epoch: "the log belongs to another epoch",
  too_early: "these versions are older than the log's first",
  removed: "the log has let these versions go",
  seed_differs: "the log has another seed",
  out_of_turn: "the sequencer expects the proxy's next request",
  spent: "there is no further version",
  promised: "it has promised a higher ballot",
};

/** Terms of the state and of the story: what stands at each word when one points at it or reaches it by Tab. */
const TERMS = {
  pev: "The greatest version that some locked log knew to be acknowledged. The new epoch's own versions count from the next one on.",
  rv: "The recovery version: the last version that the new epoch takes over. Each later one that was not acknowledged is discarded.",
  floor: "No undo goes below this version: all through it is known to be acknowledged.",
  applied: "The last version that the storage server has applied to its rows.",
  "undo rows": "What keys held before versions above the floor: with these the server can take them back.",
  rows: "The keys of its shard that have a value.",
  durable: "The last version that the log holds, with all before it.",
  known: "The greatest version of which it knows that it is acknowledged.",
  seed: "What a new log begins with: the versions that it takes over from the epoch before.",
  locked: "A recovery locks the logs of the old epoch, so that they take no further push.",
  popped: "Through which version the log let each shard's records go, since its server has them for good.",
  holds: "How many pushes it has, and on how many logs of its epoch the records of each shard are.",
  mark: "The first record of a new epoch. A storage server that meets it takes the epoch up, and rolls back what did not survive.",
  last: "The last version that the sequencer gave.",
  requests: "The last request of each proxy, with the version that it got.",
  batch: "Whether the proxy has a batch that is not answered yet.",
  place: "The version of its batch, and the one before it.",
  "held by": "Which logs hold its batch. If all of them do, it is acknowledged.",
  phase: "What the recoverer does: read the coordinators, lock the old logs, copy, write its epoch, and then it is chosen.",
  promised: "The highest ballot that it promised: it refuses lower ones. A majority of promises shuts out earlier recoverers.",
  accepted: "The ballot under which its value was written.",
  value: "The state that the coordinators agree on: the list of generations.",
  parent: "The state that it read, on which its own is built.",
  copied: "Through which version it has copied the records of each shard.",
  seeded: "How many logs of its new epoch have their seed.",
  written: "How many coordinators took its new state. A majority of them makes it chosen.",
  marked: "How many logs of its epoch hold the mark.",
  epoch: "A recovery ends an epoch and opens the next one, with logs, a sequencer and proxies of its own.",
  state: "The generations that the storage server knows of, one for each epoch.",
  gone: "It crashed or was lost, and does nothing any more.",
  version: "Batches are numbered by versions, which rise.",
  after: "The version before it.",
  bodies: "The parts of the batch for the shards that this log keeps.",
  "value before": "What the key held before that version: a rollback puts it back.",
};

/** What each mark and line is, for the legend and for whoever points at one. */
const MEANINGS = {
  taken: ["batch taken", "A client hands a batch to a proxy."],
  dot: ["numbered, held or applied", "A sequencer numbers a batch, a log holds it, a storage server applies it, or a node takes in a reply."],
  small: ["nothing new", "It changes nothing at its node."],
  ring: ["refused", "The node refuses, and changes nothing."],
  begun: ["recovery begins", "A recoverer begins, to end the epoch and open the next one."],
  lock: ["log locked", "The log takes no further push of its epoch."],
  seed: ["seed", "A log of the new epoch gets the versions that it takes over."],
  mark: ["mark", "A log holds the mark: its epoch's first record."],
  frame: ["ballot promised", "A coordinator promises a ballot to a recoverer, and tells it what is written."],
  square: ["state written", "A coordinator takes the state of a new epoch."],
  up: ["epoch taken up", "A storage server meets the mark of a new epoch. It had nothing to take back."],
  back: ["rollback", "A storage server takes back versions that the new epoch did not take over."],
  cross: ["crashed, lost or stopped", "A node crashes, a log is lost for good, or a proxy stops since its logs are locked."],
  ask: ["request", "From the node that sent it to the one that got it."],
  tell: ["reply", "From the node that answered to the one that heard it."],
  late: ["late", "It came when nobody waited for it any more."],
  again: ["again", "The network delivered it a second time."],
  lost: ["never came", "It was sent, and no journal has it."],
};

/** What a dot is at a node of each kind. */
const DOTS = {
  sequencer: ["numbered", "The sequencer gives the batch its version."],
  log: ["held", "The log holds the batch durably."],
  storage: ["applied", "The storage server applies the records that it had not applied yet."],
  proxy: ["reply", "The proxy takes in a reply for its batch."],
  recoverer: ["reply", "The recoverer takes in a reply that it waits for."],
  cell: ["reply", "The coordinator answers."],
};

/** Words of a text with what they mean: terms, and reasons by their names. */
const MEANT = new RegExp(`\\b(${[...Object.keys(REASONS).filter((it) => /^[A-Z]|_/.test(it)), "pev", "rv", "floor", "undo rows", "taken back", "discarded", "outcome unknown"].join("|")})\\b`, "g");

function meaningOf(word) {
  return TERMS[word] ?? REASONS[word] ?? FATES[word];
}

/** A text as nodes of the page, its terms with what they mean; they can be reached by Tab unless they stand in a button. */
function withTerms(text, isInButton = false) {
  const parts = text.split(MEANT);
  return parts.map((part, at) => (at % 2 ? termOf(part, isInButton) : part));
}

function termOf(word, isInButton = false, name = "span") {
  const meaning = meaningOf(word);
  if (!meaning) return element(name, word);
  return element(name, word, { class: "term", "data-tip": meaning, ...(isInButton ? {} : { tabindex: "0" }) });
}
