"use strict";
// The set scenes. Each is played once in a world of its own, and so becomes a list of steps: choices and two sentences.

/** Plays choices in a world and collects them into steps. */
class Script {
  constructor() {
    Object.assign(this, { world: new World(), steps: [], choices: [] });
  }
  do(...choices) {
    for (const it of choices) {
      choose(this.world, it);
      this.choices.push(it);
    }
  }
  /** Messages in flight, by a test or from or to a node, that are not held back. */
  flying(test) {
    return this.world.flight.filter((it) => !it.isHeld && test(it));
  }
  /** Delivers what passes a test, and what comes of it, the oldest first. */
  pass(test) {
    for (let found = this.flying(test)[0]; found; found = this.flying(test)[0]) this.do(`d${found.id}`);
  }
  hold(test) {
    for (const it of this.flying(test)) this.do(`h${it.id}`);
  }
  /** No longer holds back what passes a test, and delivers it. */
  free(test) {
    for (const it of this.world.flight.filter((each) => each.isHeld && test(each))) this.do(`h${it.id}`, `d${it.id}`);
  }
  /** Lets the cluster go on until all is quiet. */
  quiet() {
    for (let next = onward(this.world); next; next = onward(this.world)) this.do(next);
  }
  /** Has a storage server fetch once, and delivers only that. */
  read(choice) {
    this.do(choice);
    this.pass((it) => it.from.kind === "storage" || it.to.kind === "storage");
  }
  says(title, text) {
    this.steps.push({ choices: this.choices, title, text });
    this.choices = [];
  }
}

const of = (...codes) => (it) => codes.includes(it.from.code) || codes.includes(it.to.code);
const between = (a, b) => (it) => of(a)(it) && of(b)(it);
const not = (test) => (it) => !test(it);
const both = (...tests) => (it) => tests.every((each) => each(it));
const either = (...tests) => (it) => tests.some((each) => each(it));
const isOfStorage = (it) => it.from.kind === "storage" || it.to.kind === "storage";
const isOfLog = (it) => it.from.kind === "log" || it.to.kind === "log";
const isOfCell = (it) => it.from.kind === "cell" || it.to.kind === "cell";

const SCENES = [
  {
    name: "rollback",
    title: "The rollback",
    about:
      "A batch is acknowledged once all three logs hold it; a storage server may apply it before that. Press Next, " +
      "and watch batch 2.",
    play(it) {
      it.do("u1-0-Sa5");
      it.pass(of("p1-0"));
      it.says("Acknowledged",
        "Batch 1 sets a to 5. All three logs hold it, so its client is told: this must never be lost.");
      it.read("g0-1-0");
      it.says("Applied",
        "Storage a–m asks log 0 for what is new, and applies batch 1. It keeps an undo row, for log 0 has not heard " +
        "yet that version 2 is committed.");
      it.do("u1-0-Sa7");
      it.pass(between("p1-0", "q1"));
      it.hold(either(between("p1-0", "l1-1"), between("p1-0", "l1-2")));
      it.pass(of("p1-0"));
      it.says("One log of three",
        "Batch 2 sets a to 7, but its pushes to logs 1 and 2 are slow. Only log 0 holds it, and nothing is " +
        "acknowledged.");
      it.read("g0-1-0");
      it.says("Ahead of the others",
        "Storage a–m asks log 0 and applies batch 2: a is 7. That is allowed, since it keeps an undo row: before " +
        "version 3, a was 5.");
      it.do("kq1", "b");
      it.pass(isOfCell);
      it.pass((each) => each.kind === "ask" && each.from.code === "r2");
      it.says("A recovery",
        "The sequencer crashes, and a recoverer begins: it reads the list of generations and locks the logs. A " +
        "locked log takes no more pushes.");
      it.pass(both(of("r2"), not(isOfCell)));
      it.says("Where epoch 1 ends",
        "Logs 0 and 1 reply: they hold through version 3 and 2. An acknowledged batch is on all logs, so nothing " +
        "above the least of them, 2, was acknowledged.");
      it.pass(isOfCell);
      it.pass(both(of("r2"), isOfLog));
      it.says("Epoch 2 is chosen",
        "Two of three coordinators have the new list, so it stands, whatever crashes now. It takes over through " +
        "version 2, and each new log begins with a mark.");
      it.read("m0-2-0");
      it.says("Taken back",
        "Storage a–m hears the mark, and takes batch 2 back: a is 5 again, from its undo row. No client was ever " +
        "told that batch 2 is there.");
      it.free(of("l1-1", "l1-2"));
      it.do("u2-0-Sa9");
      it.quiet();
      it.says("It goes on",
        "The slow pushes are refused, and proxy 0 of epoch 1 ends without a word on batch 2. Version 3 is used " +
        "again, by the mark of epoch 2; batch 3 has version 4.");
    },
  },
  {
    name: "contend",
    title: "Two recoverers contend",
    about:
      "A recovery may begin at any time, and so may a second one. What keeps them from opening two epochs that " +
      "contradict one another?",
    play(it) {
      it.do("u1-0-Sa5An3");
      it.pass(not(isOfStorage));
      it.says("One batch is acknowledged",
        "Batch 1 is on all three logs. Now two recoverers begin, each unaware of the other.");
      it.do("b", "b");
      it.pass(either(between("r2", "c0"), between("r2", "c1")));
      it.says("The first one reads",
        "Coordinators 0 and 1 promise ballot 2 to recoverer 2: a majority. It may go on, as long as no higher ballot " +
        "comes.");
      it.do(...it.flying(between("r2", "c2")).map((each) => `x${each.id}`));
      it.pass(both(of("r2"), isOfLog));
      it.says("It locks and seeds",
        "Recoverer 2 locks the logs of epoch 1 and seeds three new ones. Its epoch is only a plan: no coordinator " +
        "has it yet.");
      it.pass(either(between("r3", "c1"), between("r3", "c2")));
      it.says("The second one overtakes",
        "Coordinators 1 and 2 promise ballot 3. From now on they refuse ballot 2, and that is a majority.");
      it.pass(between("r2", "c0"));
      it.pass(between("r2", "c1"));
      it.says("Outballoted",
        "Coordinator 0 takes the list of ballot 2, coordinator 1 refuses it. Recoverer 2 has lost, and one " +
        "coordinator is no majority.");
      it.pass(of("r3"));
      it.says("One epoch is chosen",
        "Recoverer 3 read before that write came, so it ends epoch 1 itself and opens epoch 3. The logs of epoch 2 " +
        "stay unused.");
      it.quiet();
      it.do("u3-0-Sn8");
      it.quiet();
      it.says("Nothing acknowledged is lost",
        "Epoch 3 took over batch 1, and goes on with batch 2. However many recoverers contend, the chosen lists of " +
        "generations are one chain.");
    },
  },
  {
    name: "late",
    title: "A late reply",
    about:
      "The reply that completes a commit arrives after its epoch has ended. May the old proxy still acknowledge the " +
      "batch?",
    play(it) {
      it.do("u1-0-Sa5");
      it.pass(between("p1-0", "q1"));
      it.pass(both(of("p1-0"), (each) => each.kind === "ask"));
      it.hold((each) => each.kind === "tell" && each.from.code === "l1-2");
      it.pass(of("p1-0"));
      it.says("Held, and not acknowledged",
        "All three logs hold batch 1, but the reply of log 2 is slow. So it is committed, and neither its proxy nor " +
        "its client knows.");
      it.do("b");
      it.pass(isOfCell);
      it.pass(both(of("r2"), isOfLog));
      it.says("A recovery comes first",
        "A recoverer locks the logs. All that reply hold batch 1, so it is copied into epoch 2, though nothing was " +
        "said of it.");
      it.pass(of("r2"));
      it.says("Epoch 2 takes it over",
        "Epoch 2 is chosen, and takes over through version 2. Its logs were seeded with batch 1: it is there before " +
        "the mark.");
      it.do("m0-2-0");
      it.pass(isOfStorage);
      it.read("g0-2-0");
      it.says("Applied",
        "Storage a–m moves to epoch 2 and reads batch 1 from a log there. For the proxy of epoch 1 it is still open.");
      it.free((each) => each.to.code === "p1-0");
      it.says("The reply arrives",
        "At last the reply of log 2 is there, and the old proxy acknowledges batch 1. That is true: a batch on all " +
        "logs is taken over by every recovery.");
      it.do("u1-0-Sb2");
      it.pass(of("p1-0"));
      it.says("But nothing new",
        "Its next batch gets a number from the old sequencer, but every log of epoch 1 is locked. The old proxy " +
        "ends, and says nothing of batch 2.");
    },
  },
  {
    name: "lost",
    title: "A log is lost",
    about:
      "The disk of one log is gone for good. With k = 2 every shard is on one more log, and a recovery finds it " +
      "there.",
    play(it) {
      it.do("u1-0-Sa5Sn8");
      it.pass(not(isOfStorage));
      it.read("g0-1-0");
      it.says("One server lags",
        "Batch 1 is acknowledged. Storage a–m has applied its part; storage n–z has not asked yet.");
      it.do("L1-1");
      it.says("Log 1 is gone",
        "Log 1 is lost, with its disk. It had both shards; but a–m is on log 0 too, and n–z on log 2.");
      it.do("u1-0-An2");
      it.pass(of("p1-0"));
      it.says("No further acknowledgement",
        "Batch 2 is on logs 0 and 2, and log 1 never answers. So nothing more is acknowledged in epoch 1.");
      it.do("b");
      it.pass(isOfCell);
      it.pass(both(of("r2"), isOfLog));
      it.says("Two of three suffice",
        "More than m − k = 1 logs replied, so every shard has a holder among them. Both hold through version 3: " +
        "batch 2 may be taken over as well.");
      it.pass(of("r2"));
      it.says("Epoch 2",
        "Epoch 2 has three whole logs again. Batch 2 survives without having been acknowledged: its client was told " +
        "nothing, so both are right.");
      it.quiet();
      it.says("Nothing is missing",
        "Storage n–z reads batch 1 and 2 from the logs that are left. Fewer than k logs were lost, so nothing " +
        "acknowledged can be.");
    },
  },
  {
    name: "shape",
    title: "A shape that changes",
    about:
      "Each generation has its own number of logs, m, and keeps each shard on k of them. A recovery can change both.",
    play(it) {
      it.do("u1-0-Sa5Sn8");
      it.quiet();
      it.says("Three logs, two copies",
        "Epoch 1 has m = 3 logs and keeps each shard on k = 2 of them. A filled token has records of the log's own " +
        "shards; a hollow one only the header.");
      it.do("u1-1-Sb1");
      it.pass(not(isOfStorage));
      it.do("b4-3");
      it.pass(isOfCell);
      it.says("A recovery with another shape",
        "Recoverer 2 was begun with m = 4 and k = 3. It ends epoch 1 by the old shape: the replies of two logs cover " +
        "each shard.");
      it.pass(both(of("r2"), isOfLog));
      it.says("Seeded by the new shape",
        "What is copied goes to the new logs by the new shape: each shard to three of four. No data moves but what " +
        "is not yet known to be committed.");
      it.pass(of("r2"));
      it.do("u2-0-Sa6Sn9");
      it.pass(of("p2-0"));
      it.says("Four logs must hold it",
        "A batch of epoch 2 is acknowledged once all four logs hold it. Storage servers have not even heard of epoch " +
        "2.");
      it.do("L2-0", "L2-1");
      it.says("Two logs are lost",
        "With k = 3 two logs may go: each shard is still on one. In epoch 1 that would have been too many.");
      it.do("b2-1");
      it.quiet();
      it.says("And a smaller one",
        "The next generation has two logs with each shard on one, and took all of it over. The servers pass through " +
        "each generation in turn.");
    },
  },
  {
    name: "gone",
    title: "k logs are lost",
    about:
      "Two logs of three are lost, and something acknowledged is gone. See why that is allowed, and what still holds.",
    play(it) {
      it.do("u1-0-Sa5Sn8");
      it.pass(not(isOfStorage));
      it.read("g0-1-0");
      it.says("Acknowledged",
        "Batch 1 is on all three logs, and its client was told. Storage a–m has applied it; storage n–z has not " +
        "asked yet.");
      it.do("L1-1");
      it.says("One log",
        "Log 1 is lost. That is fewer than k = 2, so batch 1 can still be had: its part of n–z is on log 2.");
      it.do("L1-2");
      it.says("Two logs: k of them",
        "Log 2 is lost as well, and with it the last copy of what batch 1 does to n–z. An acknowledged batch is " +
        "gone, in part.");
      it.read("g1-1-2");
      it.says("Nobody can answer",
        "Storage n–z asks, and nobody is there. The promise is kept while fewer than k logs of a generation are " +
        "lost; k says how much loss one pays for.");
      it.do("b");
      it.quiet();
      it.says("A recovery waits",
        "Only log 0 replies, and more than m − k = 1 logs must. With that one it could open an epoch in which a part " +
        "of batch 1 is missing, so the recoverer waits.");
      it.do("u1-1-Sa6");
      it.quiet();
      it.says("What still holds",
        "No one is told a falsehood: nothing else is acknowledged, no server takes batch 1 back, and storage a–m " +
        "keeps it. The cluster has stopped rather than forget.");
    },
  },
];

/** The steps of a scene. */
function stepsOf(scene) {
  if (!scene.steps) {
    const it = new Script();
    scene.play(it);
    scene.steps = it.steps;
  }
  return scene.steps;
}
