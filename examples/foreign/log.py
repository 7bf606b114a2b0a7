"""A log of a generation, by the table of docs/PROTOCOL.md (Logs). Asks and tells have the form of a journal."""


# what each ask has
MEMBERS = {"seed": "epoch first records seeded_to", "push": "bodies epoch known mark prev version", "lock": "epoch"}
MEMBERS |= {"peek": "after epoch most tag", "mark_asked": "epoch", "pop": "epoch tag through"}


def holds(index, tag, m, k):
    """Whether log `index` of m holds a tag: tag t stands on the logs t, t + 1, .., t + k - 1 modulo m."""
    return (index - tag) % m < k


class Log:
    """It is seeded once, takes pushes in one chain until it is locked, and gives the records of its tags."""

    def __init__(self, epoch, index, m, k):
        self.epoch, self.index, self.m, self.k = epoch, index, m, k
        self.seed = None
        self.durable = self.known = 0
        self.stopped = False
        self.pushes = {}  # by version
        self.records = []  # (version, tag, batch), in the order of versions
        self.popped = {}  # tag: through which version

    def ask(self, ask):
        """What it tells. Refusals come in the order of the table, and change nothing."""
        ((name, what),) = ask["log"].items()
        lacking = [it for it in MEMBERS[name].split() if it not in what]
        if lacking:
            raise LookupError(f"{name} has no {lacking[0]}")
        if what["epoch"] != self.epoch:
            return self.refused("wrong_epoch")
        if self.seed is None and name != "seed":
            return self.refused("unseeded")
        return getattr(self, "on_" + name)(what)

    def tell(self, name, **what):
        return {"log": {name: what}}

    def refused(self, why, **what):
        return self.tell("refused", why={why: what})

    def is_mine(self, tag):
        return holds(self.index, tag, self.m, self.k)

    # ---- the seed

    def on_seed(self, seed):
        if not all(self.is_mine(it["tag"]) for it in seed["records"]):
            return self.refused("not_mine")
        if self.seed is None:
            self.seed = seed
            self.durable, self.known = seed["seeded_to"], seed["first"] - 1
            self.records = [(it["version"], it["tag"], it["batch"]) for it in seed["records"]]
        return self.tell("seeded") if self.left(self.seed) == self.left(seed) else self.refused("seed_differs")

    def left(self, seed):
        """A seed without what is popped of it."""
        return seed | {"records": [it for it in seed["records"] if it["version"] > self.popped.get(it["tag"], -1)]}

    # ---- pushes

    def on_push(self, push):
        if self.is_held(push):
            return self.tell("held", version=push["version"])
        if self.stopped:
            return self.refused("stopped")
        seeded_to, is_mark = self.seed["seeded_to"], push["mark"] is not None
        if push["prev"] < self.durable or is_mark and push["prev"] != seeded_to:
            return self.refused("stale")
        if push["prev"] > self.durable:
            return self.refused("gap", durable=self.durable)
        if not all(self.is_mine(tag) for tag, _ in push["bodies"]):
            return self.refused("not_mine")
        if self.durable == seeded_to and not is_mark:
            return self.refused("no_mark")
        self.keep(push)
        return self.tell("held", version=push["version"])

    def is_held(self, push):
        """Whether exactly this push is held: its known and what is popped aside."""
        held = self.pushes.get(push["version"])
        return held is not None and self.spoken(held) == self.spoken(push)

    def spoken(self, push):
        bodies = [it for it in push["bodies"] if push["version"] > self.popped.get(it[0], -1)]
        return push["prev"], push["mark"], bodies

    def keep(self, push):
        self.pushes[push["version"]] = push
        self.records += [(push["version"], tag, batch) for tag, batch in push["bodies"]]
        self.durable = push["version"]
        self.learn(push["known"])

    def learn(self, known):
        self.known = max(self.known, known)

    # ---- the end of its epoch, and what it gives

    def on_lock(self, _):
        self.stopped = True
        return self.tell("locked", durable=self.durable, known=self.known, **self.shown())

    def shown(self):
        """What is popped of which tags; the member is left out where nothing is."""
        return {"popped": [[tag, self.popped[tag]] for tag in sorted(self.popped)]} if self.popped else {}

    def on_peek(self, peek):
        tag, after, first = peek["tag"], peek["after"], self.seed["first"]
        if not self.is_mine(tag):
            return self.refused("not_mine")
        if after < first - 1:
            return self.refused("too_early", first=first)
        if after < self.popped.get(tag, 0):
            return self.refused("removed", through=self.popped[tag])
        above = [(version, batch) for version, its, batch in self.records if its == tag and version > after]
        given = above[: peek["most"]]
        upto = given[-1][0] if len(above) > len(given) else self.durable
        records = [{"batch": batch, "version": version} for version, batch in given]
        return self.tell("peeked", after=after, known=self.known, records=records, tag=tag, upto=upto)

    def on_mark_asked(self, _):
        marks = [push["mark"] for push in self.pushes.values() if push["mark"] is not None]
        return self.tell("marked", state=marks[0]) if marks else self.refused("no_mark")

    def on_pop(self, pop):
        tag = pop["tag"]
        if not self.is_mine(tag):
            return self.refused("not_mine")
        self.popped[tag] = max(self.popped.get(tag, 0), self.may_pop(pop["through"]))
        self.records = [it for it in self.records if it[1] != tag or it[0] > self.popped[tag]]
        return self.tell("popped", through=self.popped[tag])

    def may_pop(self, through):
        return min(through, self.known)

    def last(self):
        seeded = self.seed is not None
        return {"durable": self.durable, "known": self.known, "seeded": seeded, "stopped": self.stopped, **self.shown()}
