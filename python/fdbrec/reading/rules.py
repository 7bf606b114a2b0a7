"""The nodes by the rules of docs/PROTOCOL.md: what each tells, and where it then stands. A reading of its own, which
shares nothing with the crates but the rules. `Rules.take` makes one act, and complains where what is told, the outcome
or the fault is another than the rules say."""

import bisect

from . import batches

FIRST = 257


class Fault(Exception):
    """What the rules or the promises do not allow."""


def want(is_so, *what):
    if not is_so:
        raise Fault(" ".join(str(each) for each in what))


def refused(name, **what):
    return {"refused": {"why": {name: what}}}


def above(records, version):
    """How many records there are up to a version, in rising ones: the place of the first above it."""
    return bisect.bisect_left(records, (version + 1,))


class Log:
    """A log of a generation."""

    def __init__(self, epoch, index, m, k):
        self.epoch, self.index, self.m, self.k = epoch, index, m, k
        self.seed = self.mark = None
        self.pushes = {}
        self.records = {}  # by tag, in rising versions
        self.popped = {}
        self.durable = self.known = 0
        self.stopped = False

    def holds(self, tag):
        return (self.index - tag) % self.m < self.k

    def start(self, state):
        """As at the start of a world: seeded, with the mark at version 1."""
        self.take_seed({"epoch": self.epoch, "first": 1, "seeded_to": 0, "records": []})
        mark = {"bodies": [], "epoch": self.epoch, "known": 0, "prev": 0, "version": 1, "mark": batches.json_of(state)}
        self.ask("push", mark)

    def take_seed(self, seed):
        self.seed = seed
        self.durable, self.known = seed["seeded_to"], seed["first"] - 1
        for record in seed["records"]:
            self.records.setdefault(record["tag"], []).append((record["version"], record["batch"]))

    def ask(self, name, what):
        if what["epoch"] != self.epoch:
            return refused("wrong_epoch")
        if name == "seed":
            return self.seeded(what)
        if self.seed is None:
            return refused("unseeded")
        return getattr(self, name)(what)

    def is_left(self, tag, version):
        """Whether a tag's batch of a version is not popped."""
        return self.popped.get(tag, 0) < version

    def seeded(self, seed):
        if any(not self.holds(record["tag"]) for record in seed["records"]):
            return refused("not_mine")
        if self.seed is None:
            self.take_seed(seed)
        is_left = lambda each: self.is_left(each["tag"], each["version"])
        left = lambda it: {**it, "records": [each for each in it["records"] if is_left(each)]}
        return {"seeded": {}} if left(self.seed) == left(seed) else refused("seed_differs")

    def push(self, push):
        held = self.pushes.get(push["version"])
        bodies = lambda it: [body for body in it["bodies"] if self.is_left(body[0], it["version"])]
        left = lambda it: [it["prev"], it["mark"], bodies(it)]
        if held is not None and left(held) == left(push):
            return {"held": {"version": push["version"]}}
        if self.stopped:
            return refused("stopped")
        seeded_to = self.seed["seeded_to"]
        if push["prev"] < self.durable or push["mark"] is not None and push["prev"] != seeded_to:
            return refused("stale")
        if push["prev"] > self.durable:
            return refused("gap", durable=self.durable)
        if any(not self.holds(tag) for tag, _ in push["bodies"]):
            return refused("not_mine")
        if push["mark"] is None and self.durable == seeded_to:
            return refused("no_mark")
        self.pushes[push["version"]] = push
        self.mark = push["mark"] if self.mark is None else self.mark
        self.durable, self.known = push["version"], max(self.known, push["known"])
        for tag, batch in push["bodies"]:
            self.records.setdefault(tag, []).append((push["version"], batch))
        return {"held": {"version": push["version"]}}

    def lock(self, _):
        self.stopped = True
        return {"locked": {"durable": self.durable, "known": self.known, **self.shown()}}

    def shown(self):
        """What is popped, by rising tags; nothing where nothing is."""
        return {"popped": [[tag, self.popped[tag]] for tag in sorted(self.popped)]} if self.popped else {}

    def pop(self, pop):
        tag = pop["tag"]
        if not self.holds(tag):
            return refused("not_mine")
        self.popped[tag] = max(self.popped.get(tag, 0), min(pop["through"], self.known))
        records = self.records.get(tag, [])
        del records[: above(records, self.popped[tag])]
        return {"popped": {"through": self.popped[tag]}}

    def peek(self, peek):
        if not self.holds(peek["tag"]):
            return refused("not_mine")
        first = self.seed["first"]
        if peek["after"] < first - 1:
            return refused("too_early", first=first)
        if peek["after"] < self.popped.get(peek["tag"], 0):
            return refused("removed", through=self.popped[peek["tag"]])
        records = self.records.get(peek["tag"], [])
        begin = above(records, peek["after"])
        given = records[begin : begin + peek["most"]]
        upto = given[-1][0] if len(records) > begin + len(given) else self.durable
        records = [{"batch": batch, "version": version} for version, batch in given]
        told = {"after": peek["after"], "known": self.known, "records": records, "tag": peek["tag"], "upto": upto}
        return {"peeked": told}

    def mark_asked(self, _):
        return {"marked": {"state": self.mark}} if self.mark is not None else refused("no_mark")

    def last(self):
        seeded = self.seed is not None
        return {"durable": self.durable, "known": self.known, **self.shown(), "seeded": seeded, "stopped": self.stopped}


class Cell:
    """A coordinator's cell."""

    def __init__(self, value):
        self.promised = self.written = FIRST
        self.value = value

    def ask(self, name, what):
        ballot = what["ballot"]
        if ballot < self.promised:
            return {"refused": {"promised": self.promised}}
        if name == "read":
            self.promised = ballot
            return {"promise": {"value": self.value, "written": self.written}}
        if self.written == ballot and self.value != what["value"]:
            return {"two_values": {}}
        self.promised = self.written = ballot
        self.value = what["value"]
        return {"written": {"ballot": ballot}}

    def last(self):
        return {"promised": self.promised, "value": self.value, "written": self.written}


class Sequencer:
    """The one that numbers the batches of an epoch."""

    def __init__(self, last):
        self.latest = last
        self.given = {}

    def ask(self, _, what):
        given = self.given.get(what["proxy"], {"request": 0})
        if what["request"] == given["request"]:
            return {"numbered": given}
        if what["request"] != given["request"] + 1:
            return refused("out_of_turn")
        if self.latest + what["step"] >= 2**62:
            return refused("spent")
        given = {"prev": self.latest, "request": what["request"], "version": self.latest + what["step"]}
        self.given[what["proxy"]], self.latest = given, given["version"]
        return {"numbered": given}

    def last(self):
        return {"last": self.latest}


class Proxy:
    """One of those that commit batches."""

    def __init__(self, epoch, m, known):
        self.epoch, self.m, self.known = epoch, m, known
        self.request = 0
        self.open = self.ended = False
        self.place = self.prev = None
        self.held = set()

    def submit(self):
        want(not self.open and not self.ended, "a proxy took a batch while one was under way, or after its end")
        self.open, self.place, self.held = True, None, set()
        self.request += 1

    def hear(self, node, tell):
        ((kind, what),) = tell.items()
        ((name, said),) = what.items()
        why = next(iter(said["why"])) if name == "refused" and "why" in said else None
        is_sequencer = node == {"sequencer": {"epoch": self.epoch}}
        is_log = "log" in node and node["log"]["epoch"] == self.epoch and node["log"]["index"] < self.m
        if not self.open:
            return {"waiting": {}}
        if is_sequencer and name == "numbered" and self.place is None and said["request"] == self.request:
            if self.known <= said["prev"] < said["version"] <= said["prev"] + 1000000:
                self.place, self.prev = said["version"], said["prev"]
        elif is_sequencer and why == "spent" or is_log and kind == "log" and why == "stopped":
            self.open, self.ended = False, True
            return {"ended": {}}
        elif is_log and name == "held" and self.place is not None and said["version"] == self.place:
            self.held.add(node["log"]["index"])
            if len(self.held) == self.m:
                self.open, self.known = False, self.place
                return {"committed": {"version": self.place}}
        return {"waiting": {}}

    def last(self):
        return {"known": self.known}


class Recoverer:
    """One attempt to open the next epoch. `shape` is how many logs that is to have and on how many of them each tag
    stands; none is as in the epoch that it ends."""

    def __init__(self, ballot, config, shape=None):
        self.ballot, self.cells, self.shape = ballot, config["coordinators"], shape
        self.tags = len(config["shards"])
        self.m = self.k = None
        self.phase = "reading"
        self.reads, self.replies, self.written, self.seeded = {}, {}, set(), set()
        self.refused_reads = set()
        self.parent = self.state = self.pev = self.rv = None
        self.reached, self.copied = [], {}

    def is_majority(self, heard):
        return 2 * len(heard) > self.cells

    def own(self):
        """How many logs its own epoch has, and on how many of them each tag stands."""
        return self.shape or (self.m, self.k)

    def is_copied(self):
        return self.state is not None and all(each >= self.rv for each in self.reached)

    def hear(self, node, tell):
        ((kind, what),) = tell.items()
        ((name, said),) = what.items()
        ((place, where),) = node.items()
        if kind == "cell" and place == "cell" and where["index"] < self.cells:
            self.hear_cell(where["index"], name, said)
        elif kind == "log" and place == "log":
            self.hear_log(where["epoch"], where["index"], name, said)

    def hear_cell(self, index, name, said):
        if self.phase not in ("reading", "writing"):
            return
        if name in ("refused", "two_values"):
            if self.phase == "writing" and index in self.written:
                return
            if self.phase == "reading" and index in self.reads:
                return
            self.phase = "lost " + ("Outballoted" if name == "refused" else "TwoValues")
        elif self.phase == "reading" and name == "promise" and index not in self.reads:
            self.reads[index] = (said["written"], said["value"])
            if self.is_majority(self.reads):
                self.parent = batches.state_of(max(self.reads.values(), key=lambda each: each[0])[1])
                self.m, self.k = self.parent[-1][1:3]
                self.phase = "locking"
        elif self.phase == "writing" and name == "written" and said["ballot"] == self.ballot:
            self.written.add(index)
            if self.is_majority(self.written):
                self.phase = f"chosen pev {self.pev} rv {self.rv}"

    def hear_log(self, epoch, index, name, said):
        old = self.parent[-1][0] if self.parent else None
        if self.phase == "locking" and name == "locked" and epoch == old and index < self.m:
            self.replies.setdefault(index, (said["durable"], said["known"], said.get("popped", [])))
            if len(self.replies) > self.m - self.k:
                self.plan()
        elif self.phase == "copying" and name == "peeked" and epoch == old and index in self.replies:
            tag = said["tag"]
            if (index - tag) % self.m < self.k and said["after"] == self.reached[tag]:
                self.reached[tag] = max(self.reached[tag], min(said["upto"], self.rv))
        elif self.phase == "copying" and name == "seeded" and epoch == self.ballot and self.is_copied():
            self.seeded |= {index} & set(range(self.own()[0]))
            if self.is_seeded():
                self.phase = "writing"

    def is_seeded(self):
        """Whether all logs of its own epoch have their seeds."""
        return len(self.seeded) == self.own()[0]

    def plan(self):
        """What the replies say, once they cover."""
        self.pev = max(known for _, known, _ in self.replies.values())
        self.rv = min(durable for durable, _, _ in self.replies.values())
        left = self.left()
        want(self.pev <= self.rv, "the replies of one epoch's logs are inconsistent")
        if self.rv + 1 >= 2**62:
            self.phase = "lost Spent"
        elif self.ballot <= self.parent[-1][0]:
            self.phase = "lost NotLater"
        elif len(left) == 64:
            self.phase = "lost TooMany"
        else:
            self.phase = "copying"
            self.state = left.followed_by((self.ballot, *self.own(), self.pev + 1, self.rv))
            self.reached = [self.pev] * self.tags

    def left(self):
        """The parent without the generations that no storage server asks for again."""
        shown = {}
        for _, _, popped in self.replies.values():
            for tag, version in popped:
                shown[tag] = max(shown.get(tag, 0), version)
        if set(range(self.tags)) - set(shown):
            return self.parent
        last = self.passed(shown)
        places = [at for at, generation in enumerate(self.parent) if generation[3] <= last + 1]
        return self.parent.without(places[-1] if places else 0)

    def passed(self, shown):
        """The version that all storage servers are past, by what is shown of each tag."""
        return min(shown[tag] for tag in range(self.tags))

    def last(self):
        return {"phase": self.phase}


class Storage:
    """Where a storage server stands, without its rows."""

    def __init__(self, state):
        self.state = state
        self.version = self.floor = 0

    def may_break(self, node, tell, version):
        """Whether a hear breaks off at a version: one that is refused at none, one with nothing to take where it is."""
        ((_, what),) = tell.items()
        ((name, said),) = what.items()
        stops = [self.version]
        if "log" in node and name == "marked":
            state, own = batches.state_in(said["state"]), self.state[-1][0]
            if self.why_not_marked(state):
                return False
            cut = batches.cut_of(state, own) if state != self.state else None
            stops += [] if cut is None else [min(self.version, cut)]
        elif "log" in node and name == "peeked":
            if self.why_not_peeked(node["log"]["epoch"], said):
                return False
            stops += self.stops(node["log"]["epoch"], said)
        return version in stops

    def hear(self, node, tell, taken):
        """Why it does not take it."""
        ((_, what),) = tell.items()
        ((name, said),) = what.items()
        if "log" not in node or name not in ("peeked", "marked"):
            return None
        if name == "marked":
            return self.hear_marked(batches.state_in(said["state"]), taken)
        return self.hear_peeked(node["log"]["epoch"], said, taken)

    def why_not_marked(self, state):
        own = self.state[-1][0]
        if state[-1][0] < own:
            return "Older"
        if state == self.state:
            return None
        if state[-1][0] == own or not state.goes_on(self.state):
            return "Stranger"
        cut = batches.cut_of(state, own)
        return "BelowFloor" if cut is not None and cut < self.floor else None

    def hear_marked(self, state, taken):
        why = self.why_not_marked(state)
        if why or state == self.state:
            return why
        cut = batches.cut_of(state, self.state[-1][0])
        if cut is not None:
            undone = min(self.version, cut)
            want(taken is None or taken in (self.version, undone), "a mark's hear broke off elsewhere")
            if taken is None:
                self.state = state
            self.version = undone if taken is None else taken
        return None

    def why_not_peeked(self, epoch, peeked):
        if epoch != batches.source_of(self.state, self.version + 1):
            return "NotMyGeneration"
        return "Hole" if peeked["after"] > self.version else None

    def stops(self, epoch, peeked):
        """The versions at which a peek's hear can break off, and last the one at which it ends."""
        end = batches.end_of(self.state, epoch)
        within = lambda version: version if end is None else min(version, end)
        stops = [self.version]
        versions = [each["version"] for each in peeked["records"]]
        stops += [it for it in versions if self.version < it == within(it)]
        return stops + [max(stops[-1], within(peeked["upto"]))]

    def hear_peeked(self, epoch, peeked, taken):
        why = self.why_not_peeked(epoch, peeked)
        if why:
            return why
        stops = self.stops(epoch, peeked)
        want(taken is None or taken in stops, "a peek's hear broke off elsewhere")
        self.version = stops[-1] if taken is None else taken
        if taken is None:
            self.floor = max(self.floor, min(peeked["known"], self.version))
        return None
