"use strict";
// The page: scenes, steps, play, what is chosen, the address, and the export.

const at = (id) => document.getElementById(id);
const SPEEDS = [900, 420, 190, 70];
const LEFT = "You left the scene and go your own way. Next brings it back to where you left.";
const OWN = {
  title: "Your own run",
  about:
    "Click a proxy to submit a batch, a message to deliver, lose, repeat or delay it, a node to crash it. " +
    "Step lets the cluster go on by itself.",
};

class Page {
  constructor() {
    this.board = new Board(at("picture"));
    this.motion = new Motion(this.board, at("ghosts"));
    Object.assign(this, { scene: null, choices: [], later: [], story: [], queue: [], selected: null });
    Object.assign(this, { timer: null, storm: null, isPlaying: false, isMoving: false, written: "" });
    const words = new URLSearchParams(location.hash.slice(1));
    const isDark = matchMedia("(prefers-color-scheme: dark)").matches;
    this.theme(words.get("theme") || (isDark ? "dark" : "light"));
    this.menu();
    this.listen();
    this.openAddress(words);
  }

  // ---- where one is

  /** Opens what an address says: a scene with a step, choices of its own, or the first scene. */
  openAddress(words) {
    const scene = SCENES.find((it) => it.name === words.get("scene"));
    const given = words.get("then") || words.get("run") || "";
    this.scene = scene ?? (words.has("run") ? null : SCENES[0]);
    const step = Math.max(0, Math.min(Number(words.get("step")) || 0, this.steps().length));
    this.stop();
    this.replay([...this.upto(step), ...given.split(".").filter(Boolean)]);
    if (words.get("select")) this.select(words.get("select"));
  }
  steps() {
    return this.scene ? stepsOf(this.scene) : [];
  }
  /** The choices of a scene's first steps. */
  upto(count) {
    return this.steps().slice(0, count).flatMap((it) => it.choices);
  }
  /** How many of the scene's steps were done, and how many choices of one's own came behind them. */
  standing() {
    let done = 0, count = 0;
    const steps = this.steps(), isSo = (choice, each) => this.choices[count + each] === choice;
    const isDone = (it) => it.choices.every(isSo);
    while (done < steps.length && isDone(steps[done])) count += steps[done++].choices.length;
    return { done, own: this.choices.slice(count) };
  }
  address() {
    const { done, own } = this.standing(), words = new URLSearchParams();
    if (this.scene) words.set("scene", this.scene.name), words.set("step", done);
    if (own.length || !this.scene) words.set(this.scene ? "then" : "run", own.join("."));
    return "#" + words;
  }
  /** Writes the address, but not at each step of many: browsers refuse that. */
  write() {
    clearTimeout(this.writing);
    this.writing = setTimeout(() => {
      this.written = this.address();
      history.replaceState(null, "", this.written);
    }, 250);
  }

  // ---- choices

  /** Takes a list of choices from the start; what cannot be made ends it, and is said. */
  replay(choices) {
    this.anew();
    for (const it of choices) {
      try {
        this.enter(it);
      } catch (fault) {
        if (!(fault instanceof Unfit)) throw fault;
        this.say(`The address has a choice that cannot be made, ${it}: ${fault.message}.`);
        break;
      }
    }
    this.show(0);
  }
  anew() {
    this.world = new World();
    [this.choices, this.story] = [[], []];
  }
  enter(choice) {
    const news = choose(this.world, choice), sentences = sentencesOf(this.world, news);
    this.choices.push(choice);
    this.story.push({ at: this.choices.length, choice, sentences, nodes: news.map((it) => it.node).filter(Boolean) });
  }
  /** Makes one choice and shows what comes of it. */
  make(choice, slow = SPEEDS[at("speed").value]) {
    const arrives = this.world.flight.find((it) => choice === `d${it.id}`);
    try {
      this.enter(choice);
    } catch (fault) {
      if (!(fault instanceof Unfit)) throw fault;
      this.say(capital(fault.message) + ".");
      return false;
    }
    this.show(slow, choice, arrives && arrives.to.code);
    return true;
  }
  /** A choice of the person. */
  take(choice) {
    this.flush();
    this.stop();
    this.later = [];
    if (this.make(choice) && this.selected && !this.isThere(this.selected)) this.select(null);
  }
  isThere(selected) {
    return this.world.nodes.has(selected) || this.world.flight.some((it) => `m${it.id}` === selected);
  }
  undo() {
    this.flush();
    this.stop();
    if (!this.choices.length) return;
    this.later.push(this.choices[this.choices.length - 1]);
    this.replay(this.choices.slice(0, -1));
  }
  goTo(count) {
    this.stop();
    this.queue = [];
    this.later = this.choices.slice(count).reverse();
    this.replay(this.choices.slice(0, count));
  }
  /** Goes on by one: what was undone, else the scene's next choice, else what the cluster does by itself. */
  step() {
    this.flush();
    this.stop();
    this.one();
  }
  one() {
    const next = this.later.pop() ?? this.nextOfScene() ?? onward(this.world);
    if (next) return this.make(next);
    this.say("All is quiet. Submit a batch, or break something.");
    return false;
  }
  nextOfScene() {
    const { done, own } = this.standing(), next = this.steps()[done];
    return next && own.every((it, each) => next.choices[each] === it) ? next.choices[own.length] : undefined;
  }

  // ---- scenes

  next() {
    if (this.queue.length) return this.flush();
    const { done, own } = this.standing();
    if (!this.scene || done >= this.steps().length) return this.step();
    if (own.length && this.nextOfScene() === undefined) return this.back(done);
    const left = this.steps()[done].choices.slice(own.length);
    [this.later, this.queue, this.aim] = [[], left, done];
    this.pace = Math.max(60, Math.min(SPEEDS[at("speed").value], 5200 / left.length));
    this.run();
  }
  back(to) {
    this.stop();
    this.queue = [];
    const { done, own } = this.standing();
    this.later = [];
    this.replay(this.upto(to ?? (own.length ? done : Math.max(0, done - 1))));
  }
  run() {
    clearTimeout(this.timer);
    if (!this.queue.length) {
      this.isMoving = false;
      this.showScene();
      this.reveal();
      return this.rest();
    }
    this.isMoving = true;
    if (!this.make(this.queue.shift(), this.pace)) this.queue = [];
    this.timer = setTimeout(() => this.run(), this.pace);
  }
  /** Does at once what is still to be shown of a step. */
  flush() {
    clearTimeout(this.timer);
    const left = this.queue;
    this.queue = [];
    this.isMoving = false;
    for (const it of left) this.enter(it);
    if (!left.length) return;
    this.show(0);
    this.rest();
  }
  /** While it plays, leaves time to read what a step says. */
  rest() {
    if (this.isPlaying) this.timer = setTimeout(() => this.playOn(), 5 * SPEEDS[at("speed").value] + 1600);
  }

  // ---- play

  play() {
    if (this.isPlaying) return this.stop();
    [this.isPlaying, this.storm] = [true, null];
    this.playOn();
    this.buttons();
  }
  playOn() {
    clearTimeout(this.timer);
    if (!this.isPlaying) return;
    if (this.scene && !this.later.length && this.nextOfScene() !== undefined) return this.next();
    if (!this.one()) return this.stop();
    this.timer = setTimeout(() => this.playOn(), SPEEDS[at("speed").value]);
  }
  /** Chooses by chance, until one stops it. */
  blow() {
    if (this.storm) return this.stop();
    this.flush();
    this.stop();
    this.later = [];
    this.storm = drawer(Math.floor(Math.random() * 4294967296));
    this.blowOn();
    this.buttons();
  }
  blowOn() {
    if (!this.storm) return;
    const slow = Math.max(60, SPEEDS[at("speed").value] * 0.7);
    this.make(drawn(this.world, this.storm), slow);
    this.timer = setTimeout(() => this.blowOn(), slow);
  }
  stop() {
    clearTimeout(this.timer);
    [this.isPlaying, this.storm, this.isMoving] = [false, null, false];
    this.buttons();
  }

  // ---- what is shown

  show(slow, choice, to) {
    const focus = this.focus();
    this.motion.before();
    this.board.draw(this.world, this.selected);
    if (slow) this.motion.after(slow, choice, to);
    this.write();
    this.showScene();
    this.showNow();
    listBatches(this.world, at("batches"));
    listFlight(this.world, at("flight"), this);
    listStory(this.story, at("story"), this);
    at("flying").textContent = this.world.flight.length;
    this.showPromise();
    this.showCard();
    this.buttons();
    if (focus) focus();
  }
  /** How to give the focus back once what has it is drawn anew; to another message where its own is gone. */
  focus() {
    const it = document.activeElement, { key } = it?.dataset ?? {}, isOfMessage = key?.startsWith("m:");
    const to = (found) => found?.focus({ preventScroll: true });
    if (at("flight").contains(it)) {
      const place = [...at("flight").querySelectorAll("button")].indexOf(it);
      return () => to([...at("flight").querySelectorAll("button")].slice(0, place + 1).pop());
    }
    if (!key && !(at("card").contains(it) && /^m\d/.test(this.selected ?? ""))) return null;
    const find = (selector) => this.board.host.querySelector(selector);
    return () => {
      const same = key && find(`[data-key="${key}"]`);
      if (at("card").hidden || key) to(same ?? (key && !isOfMessage ? null : find(".pill")));
    };
  }
  /** On a small screen, brings the node of the last step into view. */
  reveal() {
    const last = this.story[this.story.length - 1], node = last && last.nodes[last.nodes.length - 1];
    const shown = node && innerWidth <= 760 && this.board.host.querySelector(`[data-key="n:${node.code}"]`);
    if (!shown) return;
    const { top, bottom } = shown.getBoundingClientRect(), low = at("told").getBoundingClientRect().top;
    const behavior = CALM.matches ? "auto" : "smooth";
    if (top < 60 || bottom > low - 30) scrollBy({ top: (top + bottom) / 2 - low / 2 - 20, behavior });
  }
  /** How the promise stands: what was acknowledged, and whether all of it is kept. */
  showPromise() {
    const { count, broken } = promiseOf(this.world), servers = this.world.of("storage");
    const isGone = servers.some((it) => goneFrom(this.world, it) !== null), isBad = broken.length > 0 || isGone;
    const kept = isGone ? `${count} acknowledged, partly gone` : `${count} acknowledged, all kept`;
    const words = broken.length ? `${broken.length} of ${count} acknowledged not kept` : kept;
    at("promise").className = isBad ? "bad" : count ? "good" : "none";
    at("promise").textContent = count || isBad ? words : "nothing acknowledged yet";
  }
  showNow() {
    const last = this.story[this.story.length - 1], nothing = { text: "Nothing has happened yet.", kind: "small" };
    const said = last ? last.sentences : [nothing];
    at("now").replaceChildren(...said.map((it) => element("p", it.text, { class: it.kind })));
    at("count").textContent = `step ${this.choices.length}`;
  }
  /** The card of the scene: what its step says, while it is played and once it is done. */
  showScene() {
    const { done, own } = this.standing(), steps = this.steps(), said = steps[this.isMoving ? this.aim : done - 1];
    const { title, about } = this.scene ?? OWN, isOff = own.length > 0 && this.nextOfScene() === undefined;
    const isOwn = this.scene && isOff && !this.isMoving;
    const name = this.scene?.name ?? "";
    for (const it of at("scenes").children) it.setAttribute("aria-current", it.dataset.scene === name);
    at("title").textContent = said ? said.title : title;
    at("text").textContent = isOwn ? LEFT : said ? said.text : about;
    const where = this.scene ? [element("span", `${title} · `), `${done} of ${steps.length}`] : ["No scene"];
    at("place").replaceChildren(...where);
    at("dots").replaceChildren(...steps.map((_, each) => element("i", "", { class: each < done ? "done" : "" })));
    const ahead = done < steps.length ? "Next" : "Step on";
    at("next").textContent = !this.scene ? "Step" : isOwn ? "Back to the scene" : ahead;
    at("back").disabled = !this.choices.length && !done;
  }
  select(selected) {
    this.selected = selected;
    this.board.draw(this.world, selected);
    this.showCard();
  }
  showCard() {
    const card = this.selected && cardOf(this.world, this.selected, this), had = !at("card").hidden;
    at("card").hidden = !card;
    if (!card) return (this.selected = null);
    const close = element("button", "✕", { type: "button", class: "close", "aria-label": "Close" });
    const isInside = had && at("card").contains(document.activeElement);
    close.onclick = () => this.select(null);
    at("card").replaceChildren(close, ...card);
    if (isInside) this.intoCard();
    this.placeCard();
  }
  /** Gives the focus to the first thing that can be done in the card. */
  intoCard() {
    (at("card").querySelector(".acts button") ?? at("card").querySelector("button"))?.focus({ preventScroll: true });
  }
  /** Puts the card below what was chosen, or above it where there is no room; on a small screen it is at the bottom. */
  placeCard() {
    const card = at("card"), key = this.selected.replace(/^m(?=\d)/, "m:");
    const name = key === this.selected ? `n:${key}` : key;
    const shown = this.board.host.querySelector(`[data-key="${CSS.escape(name)}"]`), wide = 330;
    if (innerWidth <= 760 || !shown) return card.removeAttribute("style");
    const it = shown.getBoundingClientRect(), stage = at("stage").getBoundingClientRect(), high = card.offsetHeight;
    const x = Math.max(8, Math.min(it.left - stage.left, stage.width - wide - 8));
    const isAbove = it.bottom + high + 16 > Math.max(innerHeight, stage.bottom) && it.top - stage.top > high + 8;
    const y = isAbove ? it.top - stage.top - high - 8 : it.bottom - stage.top + 8;
    card.style.cssText = `left:${x}px;top:${y}px;width:${wide}px`;
  }
  buttons() {
    at("play").textContent = this.isPlaying ? "❚❚ Pause" : "▶ Play";
    at("storm").textContent = this.storm ? "■ Stop" : "Storm";
    at("storm").title = this.storm ? "Stop the storm (w)" : "Choices by chance: losses, crashes, recoveries (w)";
    at("storm").setAttribute("aria-pressed", Boolean(this.storm));
    at("undo").disabled = !this.choices.length;
  }
  say(words) {
    at("toast").textContent = words;
    at("toast").hidden = false;
    clearTimeout(this.quiet);
    this.quiet = setTimeout(() => (at("toast").hidden = true), 4200);
  }
  theme(name) {
    document.documentElement.dataset.theme = name;
    at("theme").textContent = name === "dark" ? "Light" : "Dark";
  }
}
