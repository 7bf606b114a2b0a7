"""timeline < JOURNALS > PICTURE.svg: draws the journals of a run, as `fdbrec audit` reads them.

Time goes to the right, in the order of the audit, one place for each entry that shows something: asks that bring
nothing new take none. The axis has the stamps of some of these places. There is a lane for each recoverer, sequencer,
proxy, storage server and log, grouped by epoch, and one for each cell. Drawn are: batches from when a proxy took them
to when it said that they are committed (filled) or ended (hollow), or to the end of the picture where nothing was said
(dashed); what cells promised and what was written there; pulls, with the version through which they went; rollbacks,
where a storage server took up the state of a later epoch and its version fell; hears of a storage server that broke
off; what was refused, once where the same is refused again and again; recoveries from their beginning, with the shape
that they were given, to their first mark; locks; how far logs let tags go, where that rises; crashes and losses. Beside
the colour of an epoch stands how many logs its generation has and how many of them hold each tag, where the journals
tell it; below the lanes, what each mark means. Where a storage server stands is worked out here, by the rules of
docs/PROTOCOL.md, from what it heard. `explore` makes a page of the same journals, for whoever has a browser. What is no
script of `audit` is refused as the program does it: `bad script` with the place, and status 2.
"""
from xml.sax.saxutils import escape

from . import ending

STEP, LANE, LEFT, TOP = 9, 22, 190, 46
KINDS = ["recoverer", "sequencer", "proxy", "log", "storage", "cell"]
AUDITED = ["cell", "log", "sequencer", "proxy", "recoverer", "storage"]
LEGEND = [
    ("bar", "a batch that was committed; a recovery, through its first mark"),
    ("hollow", "a batch that ended"),
    ("open", "a batch of which nothing was said"),
    ("small", "a number given, or a push held"),
    ("dot", "a pull"),
    ("large", "a storage server takes up an epoch"),
    ("frame", "a cell promises a ballot"),
    ("square", "a cell takes a value"),
    ("locked", "a log is locked"),
    ("let go", "a log lets a tag go"),
    ("arrow", "a rollback"),
    ("broken", "where a hear broke off"),
    ("ring", "refused"),
    ("cross", "crashed or lost"),
]
RED, GREY = "#c00", "#888"
COLOURS = ["#4e79a7", "#f28e2b", "#59a14f", "#b07aa1", "#9c755f", "#76b7b2", "#edc948", "#e15759"]


def kind_of(value):
    """The one member of an object that stands for a variant: its name and what it holds."""
    (name, fields), = value.items()
    return name, fields


def lane_of(node):
    """Where a node's lane stands, and its name."""
    kind, fields = kind_of(node)
    epoch = fields.get("epoch", fields.get("ballot", 0))
    number = next((fields[it] for it in ("index", "number", "tag") if it in fields), 0)
    words = " ".join(str(fields[it]) for it in ("epoch", "ballot", "index", "number", "tag") if it in fields)
    return (KINDS.index(kind), epoch, number), f"{kind} {words}"


def why_of(refused):
    """Why an ask was refused: a name, and the number that stands with it."""
    if "promised" in refused:
        return f"promised {refused['promised']}"
    name, fields = kind_of(refused["why"])
    return " ".join([name, *(str(it) for it in fields.values())])


def epoch_of(node):
    _, fields = kind_of(node)
    return fields.get("epoch", fields.get("ballot"))


def place_of(node):
    """Where the audit takes a node's entries among others of their stamp."""
    (_, epoch, number), _ = lane_of(node)
    return AUDITED.index(kind_of(node)[0]), epoch, number


def shape_of(logs, degree):
    return f"{logs} log{'' if logs == 1 else 's'}, each tag on {degree}"


def shapes_in(value):
    """The shapes of all generations that stand somewhere in a value of JSON, by their epochs."""
    found = {}
    if isinstance(value, dict):
        if value.keys() >= {"epoch", "m", "k", "seeded_to"}:
            found[value["epoch"]] = shape_of(value["m"], value["k"])
        value = list(value.values())
    if isinstance(value, list):
        for it in value:
            found |= shapes_in(it)
    return found


class Server:
    """A storage server: the generations that it keeps, how many were dropped before them, the version applied and the
    floor."""

    def __init__(self, config):
        self.dropped = 0
        self.gens = [{"epoch": 257, "m": config["logs"], "k": config["degree"], "first": 1, "seeded_to": 0}]
        self.applied = self.floor = 0

    def epoch(self):
        return self.gens[-1]["epoch"]

    def end_of(self, at):
        return self.gens[at + 1]["first"] - 1 if at + 1 < len(self.gens) else None

    def refusal_of_state(self, dropped, gens):
        """Why a state is refused, and what is undone to where it is not."""
        if gens[-1]["epoch"] < self.epoch():
            return "Older", None
        if (dropped, gens) == (self.dropped, self.gens):
            return None, None
        left = self.gens[dropped - self.dropped:] if dropped >= self.dropped else []
        if not left or gens[:len(left)] != left or len(gens) == len(left):
            return "Stranger", None
        cut = gens[len(left)]["seeded_to"]
        return ("BelowFloor", None) if cut < self.floor else (None, cut)

    def source(self):
        """The place of the generation that has the next version, none where there is none."""
        return next((at for at in reversed(range(len(self.gens))) if self.gens[at]["first"] <= self.applied + 1), None)

    def refusal_of_peeked(self, epoch, peeked):
        source = self.source()
        if source is None or self.gens[source]["epoch"] != epoch:
            return "NotMyGeneration"
        return "Hole" if peeked["after"] > self.applied else None

    def pull(self, peeked, broke):
        """Takes records, whole or through the version at which it broke off."""
        end = self.end_of(self.source())
        upto = peeked["upto"] if end is None else min(peeked["upto"], end)
        self.applied = max(self.applied, upto) if broke is None else broke
        if broke is None:
            self.floor = max(self.floor, min(peeked["known"], self.applied))


class Picture:
    def __init__(self, config, journals):
        self.servers = {lane_of(it["node"])[1]: Server(config) for it in journals if "storage" in it["node"]}
        self.refusals = {}
        self.ticks = []
        self.lanes = {}
        for name in sorted((lane_of(it["node"]) for it in journals)):
            self.lanes[name[1]] = TOP + LANE * len(self.lanes)
        entries = [(e["stamp"], place_of(it["node"]), it["node"], e["act"]) for it in journals for e in it["entries"]]
        self.entries = sorted(entries, key=lambda it: it[:2])
        epochs = sorted({e for it in journals if (e := epoch_of(it["node"])) is not None})
        self.colour = {e: COLOURS[at % len(COLOURS)] for at, e in enumerate(epochs)}
        self.shapes = shapes_in(journals)
        self.popped = {}
        self.promised, self.written = {}, {}
        self.colours = {}
        self.lines = []

    def put(self, text):
        self.lines.append(text)

    def bar(self, lane, begin, end, colour, filled, title):
        y, fill = self.lanes[lane] + 4, colour if filled else "none"
        width = max(end - begin, STEP * 0.6)
        self.put(f'<rect x="{begin:.1f}" y="{y}" width="{width:.1f}" height="{LANE - 10}" rx="3" fill="{fill}" '
                 f'stroke="{colour}"><title>{escape(title)}</title></rect>')

    def open_bar(self, lane, begin, end, colour, title):
        """A batch that is under way at last: dashed, and without an end."""
        y = self.lanes[lane] + 4
        self.put(f'<path d="M{end:.1f} {y}H{begin:.1f}v{LANE - 10}H{end:.1f}" fill="none" stroke="{colour}" '
                 f'stroke-dasharray="4 3"><title>{escape(title)}</title></path>')

    def square(self, lane, x, colour, is_full, title):
        y = self.lanes[lane] + LANE / 2 - 4
        self.put(f'<rect x="{x - 3:.1f}" y="{y}" width="6" height="6" fill="{colour if is_full else "#fff"}" '
                 f'stroke="{colour}"><title>{escape(title)}</title></rect>')

    def dot(self, lane, x, colour, title, radius=3):
        y = self.lanes[lane] + LANE / 2 - 1
        self.put(f'<circle cx="{x:.1f}" cy="{y}" r="{radius}" fill="{colour}"><title>{escape(title)}</title></circle>')

    def ring(self, lane, x, colour, title, radius=3):
        y = self.lanes[lane] + LANE / 2 - 1
        self.put(f'<circle cx="{x:.1f}" cy="{y}" r="{radius}" fill="#fff" stroke="{colour}" stroke-width="1.5">'
                 f'<title>{escape(title)}</title></circle>')

    def cross(self, lane, x, title):
        y = self.lanes[lane] + LANE / 2 - 1
        self.put(f'<path d="M{x - 4:.1f} {y - 4}l8 8m0 -8l-8 8" stroke="{RED}" stroke-width="2">'
                 f'<title>{escape(title)}</title></path>')

    def arrow(self, lane, x, title):
        y = self.lanes[lane] + LANE / 2 - 1
        self.put(f'<path d="M{x - 9:.1f} {y}l7 -6v4h7v4h-7v4z" fill="{RED}"><title>{escape(title)}</title></path>')

    def refused(self, lane, x, what, why):
        """A refusal is drawn where the last refusal in this lane was another one."""
        if self.refusals.get(lane) != (what, why):
            self.refusals[lane] = (what, why)
            self.ring(lane, x, GREY, f"{what}: refused {why}")

    def draw(self):
        taken, began, x = {}, {}, LEFT
        for stamp, _, node, act in self.entries:
            lane, drawn = lane_of(node)[1], (len(self.lines), len(taken), len(began))
            kind, (word, fields) = kind_of(node)[0], kind_of(act)
            colour = self.colours[lane] = self.colour.get(epoch_of(node), "#555")
            if word == "submitted":
                taken[lane] = x
            elif word == "begun":
                began[lane] = x, f", begun with {shape_of(fields['logs'], fields['degree'])}" if fields else ""
            elif word == "crashed":
                self.cross(lane, x, "crashed")
            elif word == "lost":
                self.cross(lane, x, "lost")
            elif word == "asked":
                self.asked(kind, lane, x, colour, fields, began)
            elif kind == "proxy":
                outcome, what = kind_of(fields["outcome"])
                if outcome != "waiting":
                    title = f"committed at {what['version']}" if outcome == "committed" else "ended"
                    self.bar(lane, taken.pop(lane, x), x, colour, outcome == "committed", title)
            elif kind == "storage":
                self.storage(lane, x, fields)
            if (len(self.lines), len(taken), len(began)) != drawn:
                self.ticks.append((x, stamp))
                x += STEP
        for lane, begin in taken.items():
            self.open_bar(lane, begin, x, self.colours[lane], "nothing was said of it")
        return x

    def asked(self, kind, lane, x, colour, fields, began):
        ask, tell = kind_of(fields["ask"])[1], kind_of(fields["tell"])[1]
        word, what = kind_of(ask)
        if "refused" in tell:
            self.refused(lane, x, f"{word} of {lane_of(fields['from'])[1]}", why_of(tell["refused"]))
        elif "two_values" in tell:
            self.refused(lane, x, f"{word} of {lane_of(fields['from'])[1]}", "two_values")
        elif kind == "cell":
            self.cell(lane, x, word, what)
        elif kind == "log" and word == "lock" and "locked" in tell:
            self.dot(lane, x, RED, f"locked at durable {tell['locked']['durable']}")
        elif kind == "log" and word == "push" and "held" in tell:
            self.dot(lane, x, colour, f"holds {tell['held']['version']}", 2)
            sender = lane_of(fields["from"])[1]
            if what["mark"] is not None and sender in began:
                begin, shape = began.pop(sender)
                self.bar(sender, begin, x, colour, True, f"recovered, mark at {what['version']}{shape}")
        elif kind == "log" and "popped" in tell:
            through = tell["popped"]["through"]
            if through > self.popped.get((lane, what["tag"]), 0):
                self.popped[lane, what["tag"]] = through
                self.dot(lane, x, "#999", f"let tag {what['tag']} go through {through}", 2)
        elif kind == "sequencer" and "numbered" in tell:
            self.dot(lane, x, colour, f"numbered {tell['numbered']['version']}", 2)

    def cell(self, lane, x, word, what):
        """What a cell promised or took, once where it is asked again."""
        kept = self.promised if word == "read" else self.written
        if kept.get(lane) != what["ballot"]:
            kept[lane] = what["ballot"]
            colour = self.colour.get(what["ballot"], "#555")
            did = "took the value of" if word == "write" else "promised"
            self.square(lane, x, colour, word == "write", f"{did} {what['ballot']}")

    def storage(self, lane, x, fields):
        sender, (word, tell) = fields["from"], kind_of(fields["tell"])
        if word != "log" or "log" not in sender:
            return
        if "peeked" in tell:
            self.peeked(lane, x, sender["log"]["epoch"], tell["peeked"], fields["taken"])
        elif "marked" in tell:
            self.marked(lane, x, tell["marked"]["state"], fields["taken"])

    def peeked(self, lane, x, epoch, peeked, broke):
        server = self.servers[lane]
        why = server.refusal_of_peeked(epoch, peeked)
        if why is not None:
            self.refused(lane, x, f"records of epoch {epoch}", why)
            return
        before = server.applied
        server.pull(peeked, broke)
        if broke is not None:
            self.ring(lane, x, RED, f"pulled through {server.applied}, where it broke off", 4)
        elif server.applied > before:
            self.dot(lane, x, self.colour.get(epoch, "#555"), f"pulled through {server.applied}")

    def marked(self, lane, x, told, broke):
        server = self.servers[lane]
        dropped, gens = (told["dropped"], told["gens"]) if isinstance(told, dict) else (0, told)
        why, cut = server.refusal_of_state(dropped, gens)
        newest = gens[-1]["epoch"]
        if why is not None:
            self.refused(lane, x, f"the state of epoch {newest}", why)
        elif cut is not None:
            before, server.applied = server.applied, min(server.applied, cut) if broke is None else broke
            if broke is not None:
                self.ring(lane, x, RED, f"undone to {broke}, where it broke off before epoch {newest}", 4)
                return
            server.dropped, server.gens = dropped, gens
            if server.applied < before:
                self.arrow(lane, x, f"rolled back from {before} to {server.applied}, to epoch {newest}")
            else:
                self.dot(lane, x, self.colour.get(newest, "#555"), f"epoch {newest}", 4)

    def axis(self, y):
        """The stamps of some places, from left to right."""
        last = self.ticks[-1][0] if self.ticks else LEFT
        lines = [f'<path d="M{LEFT} {y}H{last}" stroke="#555"/>', f'<text x="10" y="{y + 14}">stamp</text>']
        for x, stamp in self.ticks[::8]:
            lines.append(f'<path d="M{x} {y}v5" stroke="#555"/><text x="{x}" y="{y + 16}" text-anchor="middle" '
                         f'fill="#555">{stamp}</text>')
        return lines

    def legend(self, y):
        """What each mark means, below the axis."""
        drawn, self.lines = self.lines, []
        colour = next(iter(self.colour.values()), "#555")
        for at, (mark, words) in enumerate(LEGEND):
            lane, x, top = f"legend {at}", 30, y + LANE * at
            self.lanes[lane] = top
            {
                "bar": lambda: self.bar(lane, x - 12, x + 12, colour, True, words),
                "hollow": lambda: self.bar(lane, x - 12, x + 12, colour, False, words),
                "open": lambda: self.open_bar(lane, x - 12, x + 12, colour, words),
                "frame": lambda: self.square(lane, x, colour, False, words),
                "square": lambda: self.square(lane, x, colour, True, words),
                "small": lambda: self.dot(lane, x, colour, words, 2),
                "dot": lambda: self.dot(lane, x, colour, words),
                "large": lambda: self.dot(lane, x, colour, words, 4),
                "locked": lambda: self.dot(lane, x, RED, words),
                "let go": lambda: self.dot(lane, x, "#999", words, 2),
                "arrow": lambda: self.arrow(lane, x, words),
                "broken": lambda: self.ring(lane, x, RED, words, 4),
                "ring": lambda: self.ring(lane, x, GREY, words),
                "cross": lambda: self.cross(lane, x, words),
            }[mark]()
            self.put(f'<text x="56" y="{top + 14}">{escape(words)}</text>')
        legend, self.lines = self.lines, drawn
        return legend

    def heads(self):
        """The epochs with their colours and shapes, and where they end."""
        lines, x = [], 10
        for epoch, colour in self.colour.items():
            words = f"epoch {epoch}" + (f": {self.shapes[epoch]}" if epoch in self.shapes else "")
            lines.append(f'<rect x="{x}" y="12" width="12" height="12" fill="{colour}"/>'
                         f'<text x="{x + 16}" y="22">{escape(words)}</text>')
            x += 30 + 6 * len(words)
        return lines, x

    def text(self):
        heads, widths = self.heads()
        right = max(self.draw() + 30, widths + 10, 480)
        foot = TOP + LANE * len(self.lanes) + 6
        height = foot + 30 + LANE * len(LEGEND) + 6
        head = [f'<svg xmlns="http://www.w3.org/2000/svg" width="{right}" height="{height}" font-family="sans-serif" '
                f'font-size="11">', f'<rect width="{right}" height="{height}" fill="#fff"/>']
        head += heads
        for lane, y in self.lanes.items():
            head.append(f'<text x="10" y="{y + 14}">{escape(lane)}</text>'
                        f'<path d="M{LEFT} {y + LANE / 2 - 1}H{right - 10}" stroke="#ddd"/>')
        return "\n".join([*head, *self.lines, *self.axis(foot), *self.legend(foot + 30), "</svg>"])


def main(words):
    ending.no_words(words, "timeline")
    script = ending.script_of("audit", ending.given())
    ending.write(Picture(script["config"], script["journals"]).text() + "\n")
    return 0


def run(words):
    return ending.run(main, __doc__, words)
