"use strict";
// Choices: what a person, a scene or a random walk does next, each a short text. An address is a list of them.
//
//   d7 deliver message 7        x7 lose it                t7 it comes twice        h7 hold it back, or no longer
//   u1-0-Sa5Ab3Cad              proxy 0 of epoch 1 takes a batch: set a to 5, add 3 to b, clear a to d
//   b, b4-3                     a recovery begins; its generation has 4 logs, each shard on 3
//   kp1-0, kl1-2 ..             proxy 0 of epoch 1 crashes, log 2 of epoch 1 crashes and comes back
//   L1-2                        log 2 of epoch 1 is lost for good
//   ap1-0, ar2                  proxy or recoverer asks again what is unanswered
//   g0-1-2, m0-1-2, o0-1-2      storage server 0 asks log 2 of epoch 1 for records, for its mark, to let go

const MUTATION = /S([a-z])(\d{1,3})|A([a-z])(\d{1,3})|C([a-z])([a-z])/g;
const BATCH = /^(?:[SA][a-z]\d{1,3}|C[a-z][a-z])+$/;

const keyHex = (letter) => hexNumber(letter.charCodeAt(0), 1);
/** A number as two bytes, the least first: how the page has values. */
const valueHex = (number) => hexOf([number & 255, number >> 8]);
const valueOf = (hex) => numbersOf(hex).reduceRight((sum, it) => 256 * sum + it, 0);

/** The batch that a text stands for. */
function batchOf(text) {
  if (!BATCH.test(text)) throw new Unfit(`${text || "nothing"} is no batch`);
  return [...text.matchAll(MUTATION)].map(([, set, value, add, param, from, upto]) => {
    if (set) return { set: { key: keyHex(set), value: valueHex(Number(value)) } };
    if (add) return { add: { key: keyHex(add), param: valueHex(Number(param)) } };
    if (from > upto) throw new Unfit(`clear ${from} to ${upto} ends before it begins`);
    return { clear: { begin: keyHex(from), end: hexNumber(upto.charCodeAt(0) + 1, 1) } };
  });
}

/** Makes a choice in a world; Unfit says why it cannot be made, and then nothing has changed. */
function choose(world, choice) {
  world.news = [];
  const [, word, rest] = /^([a-zA-Z])(.*)$/.exec(choice) || [];
  const does = CHOICES[word];
  if (!does) throw new Unfit(`${choice} is no choice`);
  does(world, rest);
  world.choices.push(choice);
  return world.news;
}

function numbersIn(text, form) {
  const found = form.exec(text);
  if (!found) throw new Unfit(`${text} is no choice`);
  return found.slice(1);
}

const ID = /^(\d{1,6})$/, FETCH = /^(\d)-(\d{1,3}-\d{1,2})$/;

function fetched(world, text, word) {
  const [tag, log] = numbersIn(text, FETCH);
  world.askLog(world.up(`s${tag}`), world.node(`l${log}`), word);
}

const CHOICES = {
  d: (world, text) => world.arrive(Number(numbersIn(text, ID)[0])),
  x: (world, text) => {
    const it = world.message(Number(numbersIn(text, ID)[0]));
    world.drop(it);
    world.tell("message", { it, is: "lost" });
  },
  t: (world, text) => {
    const it = world.message(Number(numbersIn(text, ID)[0]));
    world.send(it.kind, it.from, it.to, it.what, it.of);
    world.flight[world.flight.length - 1].isAgain = true;
    world.tell("message", { it, is: "twice" });
  },
  h: (world, text) => {
    const it = world.message(Number(numbersIn(text, ID)[0]));
    it.isHeld = !it.isHeld;
    world.tell("message", { it, is: it.isHeld ? "held" : "freed" });
  },
  u: (world, text) => {
    const [proxy, batch] = numbersIn(text, /^(\d{1,3}-\d)-(\w+)$/);
    world.submit(world.up(`p${proxy}`), batchOf(batch));
  },
  b: (world, text) => {
    const [m, k] = text ? numbersIn(text, /^(\d{1,2})-(\d{1,2})$/).map(Number) : [];
    if (text && !(1 <= k && k <= m && m <= 6)) throw new Unfit(
      `no generation has ${m} logs and each shard on ${k} of them here`
    );
    if (world.begun >= 60) throw new Unfit("sixty recoveries have begun");
    world.begin(text ? { m, k } : null);
  },
  k: (world, text) => world.crash(world.up(text)),
  L: (world, text) => world.lose(world.up(`l${text}`)),
  a: (world, text) => world.again(world.up(text)),
  g: (world, text) => fetched(world, text, "peek"),
  m: (world, text) => fetched(world, text, "mark"),
  o: (world, text) => fetched(world, text, "pop"),
};

/** The world after a list of choices. */
function replayed(choices) {
  const world = new World();
  for (const it of choices) choose(world, it);
  return world;
}

// ---- what could be chosen

const holdersOf = (world, epoch, tag) => world.logsOf(epoch).filter((it) => it.machine.holds(tag));

/** What a storage server would best ask next: a choice, or null where it has all that there is. */
function nextFetch(world, server) {
  const { tag, state, version, floor } = server.machine, own = newestOf(state).epoch;
  const isFlying = world.flight.some((it) => (it.from === server || it.to === server) && !it.isHeld);
  if (isFlying) return null;
  const text = (word, log) => `${word}${tag}-${epochOf(log.epoch)}-${log.place}`;
  const later = world.chosen.filter((epoch) => epoch > own).reverse(), isMarked = (it) => !it.isGone && it.machine.mark;
  const marked = later.flatMap((epoch) => world.logsOf(epoch)).find(isMarked);
  if (marked) return text("m", marked);
  const source = sourceOf(state, version + 1), end = (nextOf(state, source.epoch) ?? { first: Infinity }).first - 1;
  const better = holdersOf(world, source.epoch, tag).filter((it) => !it.isGone && it.machine.seed !== null);
  const news = (it) => Math.min(it.machine.durable, end) > version || Math.min(it.machine.known, version) > floor;
  const found = better.filter(news).sort((a, b) => b.machine.known - a.machine.known)[0];
  return found ? text("g", found) : null;
}

/** The choice that lets the cluster go on by itself, or null where all is quiet. Nobody asks again where nothing
    changed since it last did. */
function onward(world) {
  const flying = world.flight.find((it) => !it.isHeld);
  if (flying) return `d${flying.id}`;
  const isWorth = (it) => it.askedAgain !== world.changes && world.unanswered(it).some(([to]) => !to.isGone);
  for (const it of world.nodes.values()) if (!it.isGone && isWorth(it)) return `a${it.code}`;
  for (const server of world.of("storage")) {
    const fetch = nextFetch(world, server);
    if (fetch) return fetch;
  }
  return null;
}

// ---- a random walk

/** Numbers by a seed, from 0 to below 1 (mulberry32). */
function drawer(seed) {
  let state = seed >>> 0;
  return () => {
    state = (state + 0x6d2b79f5) >>> 0;
    let it = Math.imul(state ^ (state >>> 15), state | 1);
    it ^= it + Math.imul(it ^ (it >>> 7), it | 61);
    return ((it ^ (it >>> 14)) >>> 0) / 4294967296;
  };
}

/** A batch by chance: mostly of one or two keys, now and then a clear. */
function batchDrawn(draw) {
  const key = () => "abcdnopq"[Math.floor(8 * draw())], number = () => 1 + Math.floor(99 * draw());
  const one = () => (draw() < 0.45 ? `A${key()}${number()}` : `S${key()}${number()}`);
  if (draw() < 0.12) {
    const [from, upto] = [key(), key()].sort();
    return `C${from}${upto}`;
  }
  return draw() < 0.5 ? one() : one() + one();
}

const SHAPES = ["2-1", "2-2", "3-2", "4-2", "4-3", "5-3"];
const codeOf = (it) => it.code.slice(1);

/** What a random walk may choose, where something is there for it: each with a world, a pick of items, and numbers. */
const DRAWN = {
  onward: (world) => onward(world),
  deliver: (world, pick) => pick(world.flight.filter((it) => !it.isHeld), (it) => `d${it.id}`),
  deliverAny: (world, pick) => pick(world.flight, (it) => `d${it.id}`),
  lose: (world, pick) => pick(world.flight, (it) => `x${it.id}`),
  repeat: (world, pick) => pick(world.flight.filter((it) => !it.isAgain), (it) => `t${it.id}`),
  hold: (world, pick) => pick(world.flight, (it) => `h${it.id}`),
  submit: (world, pick, draw) => {
    const free = world.of("proxy").filter((it) => !it.isGone && !it.machine.open && !it.machine.ended);
    return pick(free, (it) => `u${codeOf(it)}-${batchDrawn(draw)}`);
  },
  again: (world, pick) => {
    const waiting = [...world.nodes.values()].filter((it) => !it.isGone && world.unanswered(it).length > 0);
    return pick(waiting, (it) => `a${it.code}`);
  },
  fetch: (world, pick) => pick(world.of("storage").map((it) => nextFetch(world, it)).filter(Boolean), (it) => it),
  fetchAny: (world, pick) => {
    const [server, log, word] = [world.of("storage"), world.of("log"), ["g", "m"]].map((it) => pick(it, (each) => each));
    return `${word}${server.place}-${codeOf(log)}`;
  },
  letGo: (world, pick) => {
    const server = pick(world.of("storage"), (it) => it), isIn = (log) => (gen) => gen.epoch === log.epoch;
    const logs = world.of("log").filter((it) => server.machine.state.gens.some(isIn(it)));
    return pick(logs, (it) => `o${server.place}-${codeOf(it)}`);
  },
  recover: (world, pick, draw) => {
    if (world.begun >= 20) return null;
    return draw() < 0.4 ? pick(SHAPES, (it) => `b${it}`) : "b";
  },
  crash: (world, pick) => pick([...world.nodes.values()].filter((it) => !it.isGone), (it) => `k${it.code}`),
  loseLog: (world, pick) => pick(world.of("log").filter((it) => !it.isGone), (it) => `L${codeOf(it)}`),
};

/** How often each of them is drawn. */
const OFTEN = {
  onward: 40, deliver: 46, deliverAny: 5, lose: 4, repeat: 3, hold: 3, submit: 9, again: 8, fetch: 12, fetchAny: 3,
  letGo: 2, recover: 1.6, crash: 0.7, loseLog: 0.3,
};

/** The next choice of a random walk. */
function drawn(world, draw) {
  const pick = (items, make) => (items.length ? make(items[Math.floor(items.length * draw())]) : null);
  const names = Object.keys(OFTEN), all = names.reduce((sum, it) => sum + OFTEN[it], 0);
  for (let tries = 0; tries < 50; tries++) {
    let at = all * draw();
    const name = names.find((it) => (at -= OFTEN[it]) < 0) ?? "onward";
    const choice = DRAWN[name](world, pick, draw);
    if (choice) return choice;
  }
  return "b";
}
