"""docs/rollback.svg: README's moving picture, of the rollback in examples/audit_numbers_again.json.

What is shown, and in which order, is read off the journals by the rules in python/fdbrec/reading. A picture that does
not move shows the moment of the rollback, and so does the first of one that does."""
import json
import sys
from html import escape

from making.sources import TOP, read

SOURCE = "examples/audit_numbers_again.json"
WIDE, HIGH, LEFT, COLUMN = 820, 408, 176, 118
TOKEN, TALL = 56, 24
# for how many seconds the rollback stands still first
HOLD = 3.4
# where rows stand: what the client is told, two logs of each epoch, the storage server
ROWS = {"client": 74, (257, 0): 138, (257, 1): 170, (513, 0): 238, (513, 1): 270, "storage": 334}
COLOURS = {"1": ("#1d5fd0", "#7fb0ff"), "2": ("#b4480a", "#ffab70"), "3": ("#6b3fc4", "#c0a2ff")}
STYLE = """
text{font:14px system-ui,-apple-system,"Segoe UI","DejaVu Sans",sans-serif;fill:var(--ink)}
svg{--paper:#f4f5f3;--card:#fff;--ink:#191d23;--soft:#56606c;--line:#cfd4d9;--good:#13693a;--bad:#b42318;--on:#fff}
@media (prefers-color-scheme:dark){svg{--paper:#0f1317;--card:#171d23;--ink:#e9edf1;--soft:#a3aeba;--line:#333d48;
--good:#74d69a;--bad:#ff9a90;--on:#0c1117}}
.said{font-size:17px;font-weight:600}.soft{fill:var(--soft)}.name{font-weight:600}
.number{text-anchor:middle;font-weight:700}
.axis{fill:var(--soft);font-size:12.5px;text-anchor:middle}.bad{fill:var(--bad)}.good{fill:var(--good)}
.token rect{stroke-width:2}.full text,.mark text{fill:var(--on)}.mark path{fill:var(--ink)}.mark text{fill:var(--paper)}
.open rect,.undone rect{fill:var(--card)}.open rect{stroke-width:3.4}.undone rect{stroke-dasharray:5 4}
.cross{stroke:var(--bad);stroke-width:3;fill:none;stroke-linecap:round}.rail{stroke:var(--line);stroke-dasharray:2 5}
.band{fill:var(--card);stroke:var(--line)}.cut{stroke:var(--bad);stroke-width:2.4;stroke-dasharray:7 4}
svg>g{transform-box:fill-box;transform-origin:center}.lock{fill:none;stroke:var(--soft);stroke-width:1.6}
"""


class Film:
    """Beats, each with its seconds and words, and things with the beats at which they are there."""

    def __init__(self):
        self.beats, self.things, self.under = [], [], []

    def beat(self, seconds, words, kind=""):
        assert len(words) <= 80, f"docs/rollback.svg: no room for {words}"
        self.beats.append((seconds, words, kind))
        return len(self.beats) - 1

    def thing(self, shown, since, until=None, start=(0, 0), end=(0, 0, 0)):
        """Something that comes at one beat, by a way from `start`, and goes before another one, by a way to `end`."""
        self.things.append((shown, since, until, start, end))


# ---- what the journals say


def entries():
    """Each entry with its node and act, and the nodes by the rules as they stand after it."""
    sys.path.insert(0, f"{TOP}/python")
    from fdbrec.reading import judging
    from fdbrec.reading.events import Events

    script = json.loads(read(SOURCE))
    events = Events(script["config"])
    for _, name, act in judging.entries_of(script):
        before = events.last({"storage": {"tag": 0}})
        judging.answer_of(events, name, act)
        yield name, act, before, events.last({"storage": {"tag": 0}})


def happenings():
    """What the picture shows, in its order: a word, and what belongs to it."""
    batches, numbers, held = 0, {}, {}
    for name, act, before, after in entries():
        ((kind, node),), ((word, it),) = name.items(), act.items()
        ask, tell = (it.get(each, {}) for each in ("ask", "tell"))
        if word == "submitted":
            batches += 1
            yield "batch", batches, it["batch"]
        elif kind == "sequencer":
            numbers[node["epoch"], tell["seq"]["numbered"]["version"]] = batches
        elif kind == "log" and "push" in ask["log"]:
            version, place = ask["log"]["push"]["version"], (node["epoch"], node["index"])
            held.setdefault((place[0], version), []).append(place)
            yield "held", numbers.get((place[0], version)), (version, place, len(held[place[0], version]))
        elif kind == "log" and "lock" in ask["log"]:
            yield "locked", None, ((node["epoch"], node["index"]), tell["log"]["locked"]["durable"])
        elif kind == "log" and "seed" in ask["log"]:
            found = [(each["version"], numbers[257, each["version"]]) for each in ask["log"]["seed"]["records"]]
            yield "seeded", found, (node["epoch"], node["index"])
        elif kind == "proxy" and "committed" in it["outcome"]:
            yield "acknowledged", numbers[node["epoch"], it["outcome"]["committed"]["version"]], None
        elif kind == "recoverer" and word == "begun":
            yield "recovery", None, None
        elif kind == "storage" and after["version"] < before["version"]:
            yield "undone", numbers[before["epoch"], before["version"]], (before["version"], after)
        elif kind == "storage":
            epoch = after["epoch"]
            found = [(each["version"], numbers[epoch, each["version"]]) for each in tell["log"]["peeked"]["records"]]
            yield "applied", [each for each in found if each[0] > before["version"]], after


# ---- what is drawn


def column(version):
    return LEFT + 18 + COLUMN * (version - 1)


def token(number, kinds="full"):
    """A batch by its number, or the mark."""
    if number is None:
        shape = f'<path d="M3 0H{TOKEN - 3}L{TOKEN - 11} {TALL / 2:g}L{TOKEN - 3} {TALL}H3Z"/>'
        return f'<g class="token mark">{shape}<text class="number" x="{TOKEN / 2 - 3:g}" y="17">M</text></g>'
    cross = f'<path class="cross" d="M8 5L{TOKEN - 8} {TALL - 5}M8 {TALL - 5}L{TOKEN - 8} 5"/>'
    cross = cross if kinds == "undone" else ""
    words = f'<text class="number" x="{TOKEN / 2:g}" y="17">{number}</text>'
    return f'<g class="token b{number} {kinds}"><rect width="{TOKEN}" height="{TALL}" rx="6"/>{words}{cross}</g>'


def at(x, y, shown):
    return f'<g transform="translate({x:g} {y:g})">{shown}</g>'


def rows_text(after):
    return ", ".join(f"{bytes.fromhex(key).decode()} = {int(value, 16)}" for key, value in after["rows"])


class Drawn:
    """The film of the happenings."""

    def __init__(self):
        self.film = film = Film()
        self.start = film.beat(1.6, "A batch is acknowledged once both logs hold it.")
        self.still = None
        self.open, self.said = {}, {}
        for place, row in ROWS.items():
            if isinstance(place, tuple) and place[0] == 257:
                film.thing(at(column(1), row, token(None)), 0)
        for word, one, other in happenings():
            getattr(self, word)(one, other)
        film.beat(2.4, "No acknowledged batch is ever undone: that is proved.", "good")

    def batch(self, number, batch):
        ((_, it),) = batch[0].items()
        words = f"set {bytes.fromhex(it['key']).decode()} to {int(it['value'], 16)}"
        beat = self.film.beat(0.9, f"Batch {number}: {words}.")
        x = LEFT + 4 + 206 * (number - 1)
        self.film.thing(at(x, ROWS["client"], token(number)), beat)
        self.said[number] = (x + TOKEN + 8, beat)
        # (until it is acknowledged; one that never is stays so)
        self.open[number] = len(self.film.things)
        self.film.thing(self.words(number, "not acknowledged", "soft"), beat)

    def words(self, number, words, kind):
        return f'<text class="{kind}" x="{self.said[number][0]}" y="{ROWS["client"] + 17}">{words}</text>'

    def held(self, number, what):
        version, place, count = what
        mark = f"The new epoch begins with a mark, at version {version}."
        of_batch = f"Log {place[1]} holds batch {number}" + (": now both logs do." if count == 2 else ".")
        words = mark if number is None else of_batch
        beat = self.film.beat(0.8, words)
        x, y = column(version), ROWS[place]
        start = (0, -26) if number is None else (self.said[number][0] - TOKEN - 8 - x, ROWS["client"] - y)
        self.film.thing(at(x, y, token(number)), beat, start=start)

    def acknowledged(self, number, _):
        beat = self.film.beat(1.4, f"Both logs hold batch {number}: its client is told.", "good")
        shown, since, _, start, end = self.film.things[self.open[number]]
        self.film.things[self.open[number]] = (shown, since, beat, start, end)
        self.film.thing(self.words(number, "✓ acknowledged", "good name"), beat)

    def applied(self, found, after):
        open_too = [number for version, number in found if version > after["floor"]]
        is_ahead = open_too and self.still is None
        words = f"The storage server applies {'both' if len(found) == 2 else f'batch {found[0][1]}'}"
        words += f". Log 1 lacks batch {open_too[-1]}, so an undo row is kept." if is_ahead else "."
        beat = self.film.beat(2.4 if is_ahead else 1.5, words)
        for version, number in found:
            is_open = version > after["floor"]
            index = len(self.film.things)
            shown = at(column(version), ROWS["storage"], token(number, "open" if is_open else "full"))
            self.film.thing(shown, beat, start=(0, ROWS[257, 0] - ROWS["storage"]))
            self.open["applied", version] = index
        self.show_rows(after, beat)

    def show_rows(self, after, beat):
        """What rows the server has, from this beat on."""
        if index := self.open.get("rows"):
            shown, since, _, start, end = self.film.things[index]
            self.film.things[index] = (shown, since, beat, start, end)
        self.open["rows"] = len(self.film.things)
        place = f'x="{WIDE - 32}" y="{ROWS["storage"] + 18}" text-anchor="end"'
        text = f'<text class="said" {place}>{escape(rows_text(after))}</text>'
        self.film.thing(text, beat)

    def recovery(self, *_):
        self.film.beat(1.5, "The sequencer fails. A recovery begins, and locks the logs.")

    def locked(self, _, what):
        place, durable = what
        words = f"Log {place[1]} replies: it holds through version {durable}. More was never acknowledged."
        beat = self.film.beat(2.4, words)
        lock = '<path class="lock" d="M0 7h12v9h-12zM3 7v-3a3 3 0 0 1 6 0v3"/>'
        self.film.thing(at(LEFT - 22, ROWS[place] + 3, lock), beat)
        x = column(durable) + TOKEN + (COLUMN - TOKEN) / 2
        cut = f'<path class="cut" d="M{x:g} {ROWS[257, 0] - 8}V{ROWS[257, 1] + TALL + 8}"/>'
        hatch = f'<rect x="{x:g}" y="{ROWS[257, 0] - 5}" width="{COLUMN}" height="66" fill="url(#hatch)"/>'
        self.film.under.append((hatch, beat, None, (0, 0), (0, 0, 0)))
        self.film.thing(cut, beat)

    def seeded(self, found, place):
        beat = self.film.beat(0.8, "Epoch 2 takes over through version 2: that is copied.")
        for version, number in found:
            start = (0, ROWS[257, 1] - ROWS[place])
            self.film.thing(at(column(version), ROWS[place], token(number)), beat, start=start)

    def undone(self, number, what):
        version, after = what
        words = f"Rollback: batch {number} is not in epoch 2, so the server takes it back."
        beat = self.still = self.film.beat(3.2, words, "bad")
        index = self.open["applied", version]
        shown, since, _, start, _ = self.film.things[index]
        self.film.things[index] = (shown, since, beat, start, (46, 58, 100))
        self.film.thing(at(column(version), ROWS["storage"], token(number, "undone")), beat)
        self.show_rows(after, beat)


# ---- the picture


def frame():
    """What does not move."""
    out = [f'<rect width="{WIDE}" height="{HIGH}" rx="14" fill="var(--paper)"/>']
    for epoch in (257, 513):
        top = ROWS[epoch, 0] - 28
        out.append(f'<rect class="band" x="12" y="{top}" width="{WIDE - 24}" height="92" rx="10"/>')
        out.append(f'<text class="name" x="26" y="{top + 46}">epoch {epoch // 256}</text>')
        out += [f'<text x="{LEFT - 62}" y="{ROWS[epoch, log] + 17}">log {log}</text>' for log in (0, 1)]
    out.append(f'<rect class="band" x="12" y="{ROWS["storage"] - 14}" width="{WIDE - 24}" height="54" rx="10"/>')
    out.append(f'<text class="name" x="26" y="{ROWS["storage"] + 17}">storage server</text>')
    out.append(f'<text class="name" x="26" y="{ROWS["client"] + 17}">clients</text>')
    for row in ROWS:
        if row != "client":
            out.append(f'<path class="rail" d="M{LEFT} {ROWS[row] + TALL / 2:g}H{LEFT + 4 * COLUMN + 40}"/>')
    words = [(column(it) + TOKEN / 2, it) for it in (1, 2, 3, 4)]
    out += [f'<text class="axis" x="{x:g}" y="{ROWS[257, 0] - 11}">{it}</text>' for x, it in words]
    out.append(f'<text class="axis" x="{LEFT - 42}" y="{ROWS[257, 0] - 11}">version</text>')
    return out


def moved(x, y, turn=0):
    return f"transform:translate({x:g}px,{y:g}px)" + f" rotate({turn}deg)" * bool(turn)


def keyframes(name, spans, total, start, end, fade=0.35):
    """An animation: there in these spans of seconds, coming by a way and going by one."""
    points, here = [], "opacity:1;" + moved(0, 0)
    for since, until, comes, goes in spans:
        if comes:
            first = "opacity:1;" + moved(*start) if any(start) else here
            points += [(since, "opacity:0;" + moved(*start)), (since + 0.12, first)]
        points += [(since + (0.12 + fade * 1.4 if comes else 0), here), (until, here)]
        if goes:
            # (words, which have no end, make room at once)
            slow = 0.05 if end is None else 1.3 if any(end) else fade
            points += [(until + slow, "opacity:0;" + moved(*(end or (0, 0)))), (until + slow + 0.01, "opacity:0")]
    if points[0][0] > 0:
        points.insert(0, (0, "opacity:0"))
    said = "".join(f"{100 * min(when, total) / total:.2f}%{{{how}}}" for when, how in points if when <= total + 0.001)
    return f"@keyframes {name}{{{said}100%{{{points[-1][1]}}}}}"


def style():
    """The style of batches, light and dark, behind that of all else."""
    both = []
    for at in (0, 1):
        rows = [(f".b{it}", colours[at]) for it, colours in COLOURS.items()]
        full = "".join(f"{it}.full rect{{fill:{colour}}}{it} rect{{stroke:{colour}}}" for it, colour in rows)
        both.append(full + "".join(f"{it}:not(.full) text{{fill:{colour}}}" for it, colour in rows))
    calm = "@media (prefers-reduced-motion:reduce){g{animation:none!important}}"
    return STYLE + both[0] + f"@media (prefers-color-scheme:dark){{{both[1]}}}" + calm


def moving(drawn):
    """The styles and the things that come and go, the still of the rollback first."""
    film, starts, clock = drawn.film, [], HOLD
    for seconds, _, _ in film.beats:
        starts.append(clock)
        clock += seconds
    words = [(said(text, kind), it, it + 1, (0, 0), None) for it, (_, text, kind) in enumerate(film.beats)]
    for number, (what, since, until, start, end) in enumerate(film.under + film.things + words):
        is_still = since <= drawn.still and (until is None or until > drawn.still)
        stop = starts[until] if until is not None and until < len(starts) else clock
        spans = [(0, HOLD - 0.3, False, True)] * is_still + [(starts[since], stop, True, stop < clock)]
        opacity = "" if is_still else ' opacity="0"'
        shown = f'<g{opacity} style="animation:k{number} {clock:.1f}s linear infinite">{what}</g>'
        yield keyframes(f"k{number}", spans, clock, start, end), shown


def rollback():
    """The picture's text."""
    ways, shown = zip(*moving(Drawn()))
    hatch = (
        '<pattern id="hatch" width="9" height="9" patternUnits="userSpaceOnUse"><path d="M-2 2L2 -2M0 9L9 0M7 11L11 7" '
        'stroke="#c8554c" stroke-opacity=".55" stroke-width="1.5"/></pattern>'
    )
    size = f'width="{WIDE}" height="{HIGH}" viewBox="0 0 {WIDE} {HIGH}"'
    head = f'<svg xmlns="http://www.w3.org/2000/svg" {size} role="img">'
    title = "<title>A batch that one of two logs held is applied, and taken back after a recovery</title>"
    head += f"{title}\n<style>{style()}{''.join(ways)}</style><defs>{hatch}</defs>"
    return "\n".join([head, *frame(), *shown, "</svg>"]) + "\n"


def said(text, kind):
    return f'<text class="said {kind}" x="26" y="40">{escape(text)}</text>'
