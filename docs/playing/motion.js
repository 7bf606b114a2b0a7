"use strict";
// What moves between two pictures: messages to doors and into nodes, tokens that appear, what a rollback takes back.

const CALM = matchMedia("(prefers-reduced-motion: reduce)");

class Motion {
  constructor(board, ghosts) {
    Object.assign(this, { board, ghosts });
    this.old = new Map();
  }
  /** Keeps where everything is, before the board is drawn anew. */
  before() {
    this.old = new Map();
    for (const it of this.board.host.querySelectorAll("[data-key]"))
      this.old.set(it.dataset.key, { ...placeOf(it), shown: it });
  }
  /** Moves what moved; a move takes `slow` milliseconds, and `to` is the node at which a message arrived. */
  after(slow, choice, to) {
    if (CALM.matches || slow < 40) return;
    const now = new Map();
    for (const it of this.board.host.querySelectorAll("[data-key]")) now.set(it.dataset.key, it);
    for (const [key, it] of now) this.moved(key, it, slow);
    const shape = to && now.get(`n:${to}`)?.querySelector("rect");
    if (shape) shape.animate([{ stroke: "var(--now)", strokeWidth: "5px" }, {}], { duration: slow * 1.6 });
    for (const [key, it] of this.old) {
      const isArrived = to && key === `m:${choice.slice(1)}`;
      if (!now.has(key) && /^[mt]:/.test(key)) this.left(it, slow, isArrived ? this.board.anchors.get(to) : null);
    }
  }
  moved(key, it, slow) {
    const was = this.old.get(key), is = placeOf(it);
    if (key.startsWith("v:")) return was && was.shown.textContent !== it.textContent && flash(it, slow);
    if (!was) return this.came(key, it, is, slow);
    if (was.x !== is.x || was.y !== is.y) glide(it, was, is, slow * 0.7);
    const isUndone = it.classList.contains("undone") && !was.shown.classList.contains("undone");
    if (isUndone) this.fallen(it, was, slow);
  }
  /** Something new: a message comes from its sender, a token grows. */
  came(key, it, is, slow) {
    const message = this.board.world.flight.find((each) => `m:${each.id}` === key);
    const from = message && this.board.anchors.get(message.from.code);
    const spot = from && { x: from.x + Math.min(from.wide, 100) / 2 - 20, y: from.y + from.high / 2 - 9 };
    if (from) return glide(it, spot, is, slow, 0);
    if (!key.startsWith("t:")) return it.animate([{ opacity: 0 }, { opacity: 1 }], { duration: slow });
    const small = moment(is.x + 10, is.y + 8, "scale(.15)", { opacity: 0 });
    const great = moment(is.x - 3, is.y - 2, "scale(1.22)", { opacity: 1, offset: 0.6 });
    it.animate([small, great, moment(is.x, is.y)], { duration: slow, easing: "ease-out" });
  }
  /** A copy of what was there before, which only moves. */
  ghost(was) {
    const it = was.shown;
    it.removeAttribute("data-key");
    it.classList.add("ghost");
    this.ghosts.append(it);
    return it;
  }
  /** What is no longer there: a message goes into its node, all else falls. */
  left(was, slow, into) {
    const ghost = this.ghost(was), { x, y } = was;
    const fall = moment(x + 8, y + 46, "rotate(24deg)", { opacity: 0 }), wide = into ? Math.min(into.wide, 120) : 0;
    const end = into ? moment(into.x + wide / 2, into.y + into.high / 2, "scale(.5)", { opacity: 0.1 }) : fall;
    const how = { duration: slow * (into ? 0.6 : 1.2), easing: "ease-in", fill: "forwards" };
    ghost.animate([moment(x, y, "", { opacity: 1 }), end], how).onfinish = () => ghost.remove();
  }
  /** A batch that is taken back falls out of its lane; what is left is its crossed place. */
  fallen(it, was, slow) {
    const ghost = this.ghost(was), { x, y } = was;
    const by = (dx, dy, turn, more) => moment(x + dx, y + dy, `rotate(${turn}deg)`, more);
    const shaken = [by(0, 0, 0), by(-3, 0, -9), by(3, 0, 9), by(-3, 0, -9), by(4, -14, 12, { offset: 0.45 })];
    const how = { duration: slow * 3, easing: "ease-in", fill: "forwards" };
    ghost.animate([...shaken, by(34, 96, 130, { opacity: 0 })], how).onfinish = () => ghost.remove();
    it.animate([{ opacity: 0 }, { opacity: 0, offset: 0.5 }, { opacity: 1 }], { duration: slow * 3 });
  }
}

function placeOf(it) {
  const found = /translate\(([-\d.]+) ([-\d.]+)\)/.exec(it.getAttribute("transform") || "");
  return found ? { x: Number(found[1]), y: Number(found[2]) } : { x: 0, y: 0 };
}

/** A moment of a move. */
const moment = (x, y, more = "", rest = {}) => ({ transform: `translate(${x}px,${y}px) ${more}`, ...rest });

function glide(it, from, to, slow, opacity = 1) {
  const how = { duration: slow, easing: "cubic-bezier(.3,.7,.3,1)" };
  it.animate([moment(from.x, from.y, "", { opacity }), moment(to.x, to.y, "", { opacity: 1 })], how);
}

function flash(it, slow) {
  it.animate([{ opacity: 0.1 }, { opacity: 1 }, { opacity: 0.3 }, { opacity: 1 }], { duration: slow * 2 });
}
