"""A sequencer, a proxy and a recoverer, as simple as may be, by docs/PROTOCOL.md. Those that ask have `pending`, the
asks whose tells they want, each with the node that it goes to, and `hear`, which takes a tell."""

from log import holds
from states import dropped, gens, read, spelled, state_of
from storage import log, only

MOST = 2**62  # no version is as great


def clip(batch, begin, end):
    """What of a batch acts on the keys from a begin up to an end (None: no end). Hex compares as its bytes do."""
    found = []
    for mutation in batch:
        name, it = only(mutation)
        if name != "clear":
            if begin <= it["key"] and (end is None or it["key"] < end):
                found.append(mutation)
            continue
        low, high = max(begin, it["begin"]), it["end"] if end is None else min(end, it["end"])
        if low < high:
            found.append({"clear": {"begin": low, "end": high}})
    return found


class Sequencer:
    def __init__(self, last):
        self.latest, self.given = last, {}

    def ask(self, ask):
        _, it = only(ask["seq"])
        given = self.given.get(it["proxy"], {"request": 0})
        if it["request"] == given["request"]:
            return self.again(it["proxy"], given)
        if it["request"] != given["request"] + 1:
            return {"seq": {"refused": {"why": {"out_of_turn": {}}}}}
        if self.latest + it["step"] >= MOST:
            return {"seq": {"refused": {"why": {"spent": {}}}}}
        return self.next(it["proxy"], it["request"], it["step"])

    def again(self, _, given):
        return {"seq": {"numbered": given}}

    def next(self, proxy, request, step):
        given = {"prev": self.latest, "request": request, "version": self.latest + step}
        self.given[proxy], self.latest = given, given["version"]
        return {"seq": {"numbered": given}}

    def last(self):
        return {"last": self.latest}


class Proxy:
    def __init__(self, epoch, number, m, k, known, shards):
        self.epoch, self.number, self.m, self.k, self.known = epoch, number, m, k, known
        self.ends = list(zip(shards, shards[1:] + [None]))
        self.request, self.batch, self.place, self.held, self.ended = 0, None, None, set(), False

    def submit(self, batch, step):
        self.request, self.batch, self.step, self.place, self.held = self.request + 1, batch, step, None, set()

    def pending(self):
        if self.batch is None:
            return []
        if self.place is None:
            ask = {"proxy": self.number, "request": self.request, "step": self.step}
            return [({"sequencer": {"epoch": self.epoch}}, {"seq": {"next": ask}})]
        return [(log(self.epoch, at), self.push(at)) for at in range(self.m) if at not in self.held]

    def push(self, at):
        """The push to a log: a body for each tag that it holds and on whose keys the batch acts, in rising tags."""
        mine = [tag for tag in range(len(self.ends)) if holds(at, tag, self.m, self.k)]
        bodies = [[tag, clip(self.batch, *self.ends[tag])] for tag in mine]
        it = {"bodies": [body for body in bodies if body[1]], "epoch": self.epoch, "known": self.known_to_say()}
        return {"log": {"push": it | {"mark": None, "prev": self.place["prev"], "version": self.place["version"]}}}

    def known_to_say(self):
        return self.known

    def hear(self, by, tell):
        """Takes a tell and says what it now says of its batch."""
        place, where = only(by)
        name, it = only(only(tell)[1])
        if self.batch is None or where["epoch"] != self.epoch:
            return {"waiting": {}}
        if place == "sequencer":
            if name == "numbered" and self.place is None and it["request"] == self.request and self.known <= it["prev"]:
                self.place = it
            elif name == "refused" and "spent" in it["why"]:
                return self.end()
        elif name == "refused" and "stopped" in it["why"]:
            return self.end()
        elif name == "held" and self.place is not None and it["version"] == self.place["version"]:
            self.held.add(where["index"])
            if self.is_held():
                self.batch, self.known = None, it["version"]
                return {"committed": {"version": it["version"]}}
        return {"waiting": {}}

    def end(self):
        self.batch, self.ended = None, True
        return {"ended": {}}

    def is_held(self):
        return len(self.held) == self.m

    def last(self):
        return {"known": self.known}


class Recoverer:
    """One ballot's try to end an epoch and to open the next one, with `shape` (m and k) or that of the one it ends."""

    def __init__(self, ballot, cells, tags, shape=None):
        self.ballot, self.cells, self.tags, self.shape = ballot, cells, tags, shape
        self.phase = "reading"
        self.promised, self.replies, self.seeded, self.written = {}, {}, set(), set()
        self.copied, self.state = {}, None

    def pending(self):
        if self.phase in ("reading", "writing"):
            ask = {"ballot": self.ballot} | ({"value": spelled(self.state)} if self.phase == "writing" else {})
            name = "read" if self.phase == "reading" else "write"
            return [({"cell": {"index": at}}, {"cell": {name: ask}}) for at in range(self.cells)]
        if self.phase == "locking":
            return [(log(self.ends, at), {"log": {"lock": {"epoch": self.ends}}}) for at in range(self.old["m"])]
        if self.phase == "copying":
            return self.seeds() if self.is_copied() else self.peeks()
        return self.marks() if self.phase.startswith("chosen") else []

    def is_copied(self):
        return all(at >= self.rv for at in self.reached)

    def peeks(self):
        asks = []
        for tag, after in enumerate(self.reached):
            ask = {"log": {"peek": {"after": after, "epoch": self.ends, "most": 100, "tag": tag}}}
            asks += [(log(self.ends, at), ask) for at in self.replies if after < self.rv and self.has(at, tag)]
        return asks

    def has(self, at, tag):
        return holds(at, tag, self.old["m"], self.old["k"])

    def seeds(self):
        """What is copied of the tags that a log of the NEW generation holds, by version and then by tag."""
        asks, (m, k) = [], self.seed_shape()
        for at in range(self.new["m"]):
            mine = [(version, tag) for version, tag in sorted(self.copied) if holds(at, tag, m, k)]
            records = [{"batch": self.copied[it], "tag": it[1], "version": it[0]} for it in mine]
            seed = {"epoch": self.ballot, "first": self.new["first"], "records": records, "seeded_to": self.rv}
            asks.append((log(self.ballot, at), {"log": {"seed": seed}}))
        return asks

    def seed_shape(self):
        return self.new["m"], self.new["k"]

    def marks(self):
        mark = {"bodies": [], "epoch": self.ballot, "known": self.pev, "mark": self.state}
        ask = {"log": {"push": mark | {"prev": self.rv, "version": self.rv + 1}}}
        return [(log(self.ballot, at), ask) for at in range(self.new["m"])]

    def hear(self, by, tell):
        place, where = only(by)
        name, it = only(only(tell)[1])
        if place == "cell" and self.phase == "reading" and where["index"] not in self.promised:
            self.hear_promise(where["index"], name, it)
        elif place == "cell" and self.phase == "writing" and where["index"] not in self.written:
            self.hear_written(where["index"], name, it)
        elif place == "log" and self.phase == "locking" and name == "locked" and where["epoch"] == self.ends:
            self.replies.setdefault(where["index"], (it["durable"], it["known"], dict(it.get("popped", []))))
            if len(self.replies) > self.old["m"] - self.old["k"]:
                self.plan()
        elif place == "log" and self.phase == "copying" and name == "peeked" and where["epoch"] == self.ends:
            self.hear_peeked(where["index"], it)
        elif place == "log" and self.phase == "copying" and name == "seeded" and where["epoch"] == self.ballot:
            self.seeded.add(where["index"])
            if self.is_seeded():
                self.phase = "writing"

    def hear_promise(self, at, name, it):
        if name == "refused":
            self.phase = "lost Outballoted"
        elif name == "promise":
            self.promised[at] = it["written"], it["value"]
            if 2 * len(self.promised) > self.cells:
                self.parent = read(max(self.promised.values(), key=lambda pair: pair[0])[1])
                if self.parent is None:
                    self.phase = "lost BadState"
                    return
                self.old = gens(self.parent)[-1]
                self.ends, self.phase = self.old["epoch"], "locking"

    def hear_written(self, at, name, it):
        if name in ("refused", "two_values"):
            self.phase = "lost Outballoted" if name == "refused" else "lost TwoValues"
        elif name == "written" and it["ballot"] == self.ballot:
            self.written.add(at)
            if self.is_chosen():
                self.phase = f"chosen pev {self.pev} rv {self.rv}"

    def is_seeded(self):
        return len(self.seeded) == self.new["m"]

    def is_chosen(self):
        return 2 * len(self.written) > self.cells

    def plan(self):
        """What the replies come to, once they cover."""
        self.pev, self.rv = self.end()
        self.state = self.left()
        why = [
            ("Inconsistent", self.pev > self.rv),
            ("Spent", self.rv + 1 >= MOST),
            ("NotLater", self.ballot <= self.ends),
            ("TooMany", len(gens(self.state)) == 64),
        ]
        for name, is_so in why:
            if is_so:
                self.phase = "lost " + name
                return
        m, k = self.shape or (self.old["m"], self.old["k"])
        self.new = {"epoch": self.ballot, "first": self.pev + 1, "k": k, "m": m, "seeded_to": self.rv}
        self.state = state_of(gens(self.state) + [self.new], dropped(self.state))
        self.reached, self.phase = [self.pev] * self.tags, "copying"

    def end(self):
        return max(it[1] for it in self.replies.values()), min(it[0] for it in self.replies.values())

    def left(self):
        """The parent without the generations that no storage server needs, by what its logs popped of which tags."""
        shown = [[it[2][tag] for it in self.replies.values() if tag in it[2]] for tag in range(self.tags)]
        if not all(shown):
            return self.parent
        through = min(map(max, shown))
        its = gens(self.parent)
        count = max([at for at, gen in enumerate(its) if gen["first"] <= through + 1], default=0)
        return state_of(its[count:], dropped(self.parent) + count)

    def hear_peeked(self, at, it):
        tag = it["tag"]
        if at not in self.replies or not self.has(at, tag) or it["after"] != self.reached[tag]:
            return
        through = min(it["upto"], self.rv)
        for record in it["records"]:
            if record["version"] <= through:
                self.copied[record["version"], tag] = record["batch"]
        self.reached[tag] = max(self.reached[tag], through)

    def last(self):
        return {"phase": self.phase}
