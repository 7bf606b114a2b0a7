"use strict";
// What a thing means, said at the thing: where one points at it, or reaches it by Tab.

/** The thing that was drawn last at a place, or the nearest arrow. */
function spotAt(spots, x, y) {
  const strong = spots.findLast((it) => !it.line && !it.isWeak && x >= it.x0 && x <= it.x1 && y >= it.y0 && y <= it.y1);
  if (strong) return strong;
  const line = spots.findLast((it) => it.line && fromLine(it.line, x, y) < 4);
  return line ?? spots.findLast((it) => it.isWeak && x >= it.x0 && x <= it.x1 && y >= it.y0 && y <= it.y1) ?? null;
}

function fromLine([a, y0, b, y1], x, y) {
  const [dx, dy] = [b - a, y1 - y0], part = Math.max(0, Math.min(1, ((x - a) * dx + (y - y0) * dy) / (dx * dx + dy * dy || 1)));
  return Math.hypot(x - a - part * dx, y - y0 - part * dy);
}

function termIn(name, meaning) {
  return element("span", name, { class: "term", "data-tip": meaning, tabindex: "0" });
}

class Tips {
  constructor(box) {
    this.box = box;
    const over = (event) => {
      const it = event.target.closest && event.target.closest("[data-tip]");
      if (it) this.over(it);
      else if (event.target.tagName !== "CANVAS") this.hide();
    };
    document.addEventListener("pointerover", over);
    document.addEventListener("focusin", over);
    document.addEventListener("focusout", () => this.hide());
    document.addEventListener("scroll", () => this.hide(), true);
  }
  /** Says it at an element, below it or above. */
  over(it) {
    const { left, bottom, top } = it.getBoundingClientRect();
    it.setAttribute("aria-describedby", "tip");
    this.show(it.dataset.tip, left, bottom + 4, top - 4);
  }
  /** Says what a spot of a canvas is, at the pointer. */
  point(event, canvas, spot) {
    canvas.style.cursor = spot ? "pointer" : "default";
    if (!spot || !spot.tip) return this.hide();
    this.show(spot.tip(), event.clientX + 12, event.clientY + 16, event.clientY - 10);
  }
  show(text, x, below, above) {
    const { box } = this;
    box.textContent = text;
    box.hidden = false;
    const { width, height } = box.getBoundingClientRect();
    box.style.left = `${Math.max(6, Math.min(x, innerWidth - width - 6))}px`;
    box.style.top = `${below + height > innerHeight - 4 && above - height > 0 ? above - height : below}px`;
  }
  hide() {
    this.box.hidden = true;
  }
}
