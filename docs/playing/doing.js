"use strict";
// Buttons and keys of the page, its address and its export.

const KEYS = {
  ArrowRight: (it) => it.next(),
  ArrowLeft: (it) => it.back(),
  ".": (it) => it.step(),
  ",": (it) => it.undo(),
  p: (it) => it.play(),
  s: (it) => it.submit(),
  r: (it) => it.take("b"),
  w: (it) => it.blow(),
  e: (it) => it.export(),
  c: (it) => it.share(),
  l: () => at("theme").click(),
  Escape: (it) => it.select(null),
  "?": () => (at("help").open = !at("help").open),
};

Object.assign(Page.prototype, {
  menu() {
    const button = (name, title, about) => {
      const it = element("button", title, { type: "button", "data-scene": name, title: about });
      it.onclick = () => this.open(name);
      return it;
    };
    at("scenes").replaceChildren(
      ...SCENES.map((it) => button(it.name, it.title, it.about)), button("", "Your own run", "An empty cluster")
    );
  },
  open(name) {
    this.stop();
    [this.queue, this.later, this.selected] = [[], [], null];
    this.scene = SCENES.find((it) => it.name === name) ?? null;
    this.replay([]);
  },
  /** Selects a proxy that takes a batch: one of the newest epoch where there is one. */
  submit() {
    const free = this.world.of("proxy").filter((it) => !it.isGone && !it.machine.open && !it.machine.ended);
    const node = free.find((it) => it.epoch === free[free.length - 1].epoch);
    if (!node) return this.say("No proxy takes a batch now: let the cluster go on, or begin a recovery.");
    this.flush();
    this.select(node.code);
    at("card").querySelector("button[data-choice]")?.focus();
  },
  recover() {
    const [m, k] = [Number(at("logs").value), Number(at("copies").value)], isSame = at("logs").value === "";
    at("recovery").open = false;
    this.take(isSame ? "b" : `b${m}-${Math.min(k, m)}`);
  },
  exported() {
    return JSON.stringify(this.world.script());
  },
  export() {
    const name = "fdbrec-run.json", blob = new Blob([this.exported() + "\n"], { type: "application/json" });
    const link = element("a", "", { href: URL.createObjectURL(blob), download: name });
    link.click();
    URL.revokeObjectURL(link.href);
    const judged = `bench/judge < ${name} says whether they kept the rules.`;
    this.say(`${name} has the journals of all nodes: ${judged} Epochs 1 and 2 are 257 and 513 there.`);
  },
  async share() {
    const text = location.href.split("#")[0] + this.address();
    try {
      await navigator.clipboard.writeText(text);
      this.say("The address of this moment is copied.");
    } catch {
      this.say("The address of this page is the address of this moment.");
    }
  },

  key(event) {
    const isTyped = /^(INPUT|SELECT|TEXTAREA)$/.test(event.target.tagName);
    if (event.ctrlKey || event.metaKey || event.altKey || isTyped) return;
    const shown = event.target.closest?.("[data-key]"), isButton = event.target.closest?.("button, summary, a");
    if (event.key === "Enter" || event.key === " ") {
      if (isButton || (!shown && event.key === "Enter")) return;
      event.preventDefault();
      return shown ? this.press(shown.dataset.key, true) : this.play();
    }
    const id = /^m:(\d+)$/.exec(shown?.dataset.key ?? "")?.[1] ?? /^m(\d+)$/.exec(this.selected ?? "")?.[1];
    const isOfMessage = id && "dxth".includes(event.key), does = KEYS[event.key];
    if (!isOfMessage && !does) return;
    event.preventDefault();
    if (isOfMessage) this.take(event.key + id);
    else does(this);
  },
  /** A node, a message or a folded epoch is clicked. */
  press(key, byKey = false) {
    const [kind, code] = [key[0], key.slice(2)];
    if (kind === "f") {
      for (const it of code.split("-")) this.board.unfolded.add(ballotOf(Number(it)));
      return this.show(0);
    }
    const selected = kind === "m" ? `m${code}` : code;
    this.flush();
    if (this.storm || this.isPlaying) this.stop();
    this.select(this.selected === selected ? null : selected);
    if (byKey) this.intoCard();
  },
  listen() {
    const click = {
      next: "next", back: "back", play: "play", step: "step", undo: "undo", storm: "blow", submit: "submit",
      begin: "recover", export: "export", share: "share"
    };
    for (const [id, name] of Object.entries(click)) at(id).onclick = () => this[name]();
    at("theme").onclick = () => this.theme(document.documentElement.dataset.theme === "dark" ? "light" : "dark");
    at("board").addEventListener("click", (event) => {
      const shown = event.target.closest("[data-key]");
      if (shown && shown.getAttribute("role") === "button") this.press(shown.dataset.key);
      else this.select(null);
    });
    document.addEventListener("keydown", (event) => this.key(event));
    addEventListener("hashchange", () => {
      if (location.hash !== this.written) this.openAddress(new URLSearchParams(location.hash.slice(1)));
    });
    let wide = 0;
    new ResizeObserver(() => {
      if (at("board").clientWidth === wide) return;
      wide = at("board").clientWidth;
      if (this.world) this.show(0);
    }).observe(at("board"));
  },
});

const page = new Page();
