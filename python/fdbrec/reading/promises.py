"""What is promised of every run, looked at from outside: from what nodes said, and from no model of what they do.

committed   the committed list only grows, also from one epoch to the next
rows        a storage server's rows are those of the batches of its shard through its applied version
rollback    one that rolled back holds what is committed, and has applied at most the recovery version
kept        what was acknowledged is in the committed list, and no storage server that applied it takes it back
agreement   chosen states are one chain, and what logs tell, of whatever generation, is what was issued at that version
removed     no log lets go of a version above the floor of its tag's storage server, and none of these is told that what
            it asks for from its applied version on is gone; no state that is chosen drops a generation of which some
            server's floor has not come to the end
"""

from . import batches
from .rules import FIRST, want


class Promises:
    """What nodes said so far, and what follows from it. `skip` makes the fold pass over the batch of one version, to
    see that a fault is named."""

    def __init__(self, config, skip=None):
        self.skip = skip
        self.majority = config["coordinators"] // 2 + 1
        self.shards = batches.shards(config["shards"])
        first = batches.State([(FIRST, config["logs"], config["degree"], 1, 0)])
        self.states = {FIRST: first}
        self.takers = {}
        self.chosen = [FIRST]
        self.submitted, self.own, self.issued_of = {}, {FIRST: []}, {}
        self.durable = {(FIRST, index): 1 for index in range(config["logs"])}
        self.committed = [(1, None)]
        self.kept = {}
        self.stands = [(FIRST, 0) for _ in self.shards]
        self.floors = [0 for _ in self.shards]
        self.popped = {}
        self.folds = {}
        self.lost = set()

    # what an epoch issues, and what of it is committed

    def issued(self, epoch):
        """Versions and batches of an epoch: what it took over, its mark, and what its sequencer numbered."""
        if epoch not in self.issued_of:
            state = self.states[epoch]
            seeded_to = state[-1][4]
            front = [] if epoch == FIRST else [it for it in self.issued(state[-2][0]) if it[0] <= seeded_to]
            self.issued_of[epoch] = front + [(seeded_to + 1, None)] + self.own.setdefault(epoch, [])
        return self.issued_of[epoch]

    def number(self, epoch, version, batch):
        self.own.setdefault(epoch, []).append((version, batch))
        if epoch in self.issued_of:
            want(self.issued_of[epoch][-1][0] < version, "agreement: version", version, "of", epoch, "is given twice")
            self.issued_of[epoch].append((version, batch))

    def look(self):
        """Takes the committed list anew: that of the greatest chosen epoch, through the least version of its logs."""
        epoch = self.chosen[-1]
        least = min(self.durable.get((epoch, index), 0) for index in range(self.states[epoch][-1][1]))
        issued = self.issued(epoch)
        size = len(issued)
        while size and issued[size - 1][0] > least:
            size -= 1
        now = issued[:size]
        is_longer = now[: len(self.committed)] == self.committed
        want(is_longer, "committed: the list of", epoch, "does not begin with the one before")
        self.committed = now

    def is_committed(self, version, batch):
        return any(it == (version, batch) for it in reversed(self.committed))

    # rows

    def fold(self, tag, epoch, version):
        """The rows of a shard after what an epoch issued through a version."""
        issued = self.issued(epoch)
        made = self.folds.setdefault((tag, epoch), [{}])
        size = sum(1 for it in issued if it[0] <= version)
        while len(made) <= size:
            at, batch = issued[len(made) - 1]
            rows = made[-1]
            made.append(rows if batch is None or at == self.skip else batches.after(rows, batch, self.shards[tag]))
        return made[size]

    def stand(self, tag, epoch, version, rows, floor):
        """A storage server stands here, after it heard something."""
        self.floors[tag] = floor
        old_epoch, old = self.stands[tag]
        want(epoch in self.chosen, "rollback: the server of tag", tag, "keeps a state that is not chosen")
        want(epoch >= old_epoch, "rollback: the server of tag", tag, "goes back to an earlier epoch")
        wanted = self.fold(tag, epoch, version)
        want(rows == wanted, "rows: the server of tag", tag, "at", epoch, version, "holds", rows, "and not", wanted)
        if version < old:
            for at in range(version + 1, old + 1):
                # (what a later epoch has committed at this version may be an equal batch: it is not what is undone)
                held = [it for of, it in self.kept.get(at, []) if of <= old_epoch]
                want(all(it not in self.issued(old_epoch) for it in held), "kept: version", at, "is undone by tag", tag)
        if epoch != old_epoch:
            self.rolled_back(tag, old_epoch, epoch, version, rows)
        self.stands[tag] = (epoch, version)

    def rolled_back(self, tag, old_epoch, epoch, version, rows):
        cut = batches.cut_of(self.states[epoch], old_epoch)
        want(cut is not None and version <= cut, "rollback: the server of tag", tag, "stands at", version, "above", cut)
        wanted = {}
        for at, batch in self.committed:
            if at <= version and batch is not None and at != self.skip:
                wanted = batches.after(wanted, batch, self.shards[tag])
        want(rows == wanted, "rollback: the server of tag", tag, "holds", rows, "where", wanted, "is committed")

    # what is said

    def take(self, name, act):
        ((kind, what),) = act.items()
        if kind == "asked":
            self.asked(name, what)
        elif kind == "submitted":
            proxy = name["proxy"]
            self.submitted.setdefault((proxy["epoch"], proxy["number"]), []).append(what["batch"])
        elif kind == "heard" and "proxy" in name and "committed" in what["outcome"]:
            self.acknowledged(name["proxy"], what["outcome"]["committed"]["version"])
        elif kind == "lost":
            self.lost.add((name["log"]["epoch"], name["log"]["index"]))

    def acknowledged(self, proxy, version):
        """The batch that a proxy has under way is acknowledged at a version."""
        batch = self.submitted[proxy["epoch"], proxy["number"]][-1]
        is_so = self.is_committed(version, batch)
        want(is_so, "kept: version", version, "of", proxy, "is acknowledged and not committed")
        self.kept.setdefault(version, []).append((proxy["epoch"], (version, batch)))

    def asked(self, name, what):
        ((kind, ask),) = what["ask"].items()
        ((_, said),) = ask.items()
        ((_, tell),) = what["tell"].items()
        ((told, it),) = tell.items()
        if kind == "seq" and told == "numbered":
            self.numbered(name["sequencer"]["epoch"], what["from"]["proxy"]["number"], it)
        elif kind == "cell" and told == "written":
            self.written(name["cell"]["index"], it["ballot"], said["value"])
        elif kind == "log" and told in ("held", "seeded"):
            self.held(name["log"], said["seeded_to"] if told == "seeded" else it["version"])
            if told == "seeded":
                self.seed(name["log"]["epoch"], said)
        elif kind == "log" and told == "peeked":
            self.peeked(name["log"]["epoch"], it)
        elif kind == "log" and told == "popped":
            want(it["through"] <= self.floors[said["tag"]], "removed: tag", said["tag"], "is popped above its floor")
            self.popped[name["log"]["epoch"], name["log"]["index"], said["tag"]] = it["through"]
        elif kind == "log" and told == "refused" and "removed" in it["why"] and "storage" in what["from"]:
            applied = self.stands[said["tag"]][1]
            want(said["after"] < applied, "removed: tag", said["tag"], "is refused what is above", said["after"])

    def numbered(self, epoch, proxy, it):
        given = self.submitted[epoch, proxy]
        want(it["request"] <= len(given), "agreement: a number without a batch")
        if it["version"] not in [each[0] for each in self.own.get(epoch, [])]:
            self.number(epoch, it["version"], given[it["request"] - 1])

    def written(self, cell, ballot, value):
        state = batches.state_of(value)
        is_one = state[-1][0] == ballot and self.states.setdefault(ballot, state) == state
        want(is_one, "agreement: two states of", ballot)
        takers = self.takers.setdefault(ballot, set())
        takers.add(cell)
        if len(takers) == self.majority and ballot not in self.chosen:
            self.choose(ballot)

    def choose(self, ballot):
        for other in self.chosen:
            old, new = sorted((other, ballot))
            goes_on = self.states[new].begins_with(self.states[old])
            want(goes_on, "agreement: the states of", old, "and", new, "are no chain")
        first = self.states[ballot][0][3] if self.states[ballot].dropped else 0
        for tag, floor in enumerate(self.floors):
            what = "removed: tag", tag, "has version", floor, "for good, and what is below", first, "is dropped"
            want(floor + 1 >= first, *what)
        self.chosen = sorted(self.chosen + [ballot])
        self.look()

    def held(self, log, version):
        place = log["epoch"], log["index"]
        if version > self.durable.get(place, -1):
            self.durable[place] = version
            if log["epoch"] == self.chosen[-1]:
                self.look()

    def seed(self, epoch, seed):
        """What the logs of an epoch are seeded with is what was issued before."""
        for record in seed["records"]:
            self.is_issued(epoch, record["tag"], record["version"], record["batch"], seed["seeded_to"])

    def peeked(self, epoch, peeked):
        """What a log told is the tag's part of what is issued, of epochs whose state is chosen."""
        if epoch not in self.chosen:
            return
        shard = self.shards[peeked["tag"]]
        wanted = []
        for version, batch in self.issued(epoch):
            part = shard.clip(batch or []) if peeked["after"] < version <= peeked["upto"] else []
            if part:
                wanted.append({"batch": part, "version": version})
        want(peeked["records"] == wanted, "agreement: a log of", epoch, "told", peeked["records"], "and not", wanted)

    def is_issued(self, epoch, tag, version, batch, seeded_to):
        """Whether each chosen epoch before this one that has the version has this batch there."""
        for other in self.chosen:
            after = [at for at in self.chosen if other < at < epoch]
            if other < epoch and not after:
                own = [it[1] for it in self.issued(other) if it[0] == version and it[1] is not None]
                parts = [self.shards[tag].clip(each) for each in own]
                want(version <= seeded_to and parts == [batch], "agreement: a seed of", epoch, "differs at", version)

    # the end

    def end(self):
        """All that was acknowledged stands, and what servers lack can be had where fewer than k logs are lost."""
        for version, held in self.kept.items():
            is_so = all(self.is_committed(*it) for _, it in held)
            want(is_so, "kept: version", version, "was acknowledged, and is lost")
        state = self.states[self.chosen[-1]]
        if any(sum(1 for it in self.lost if it[0] == gen[0]) >= gen[2] for gen in state):
            return
        for version, _ in self.committed:
            wanted = [tag for tag, (_, applied) in enumerate(self.stands) if applied < version]
            source = batches.source_of(state, version)
            want(source or not wanted, "kept: version", version, "is of a generation that was dropped")
            for tag in wanted:
                _, m, k, _, _ = batches.generation_of(state, source)
                holders = [(source, (tag + each) % m) for each in range(k)]
                has = lambda it: self.durable.get(it, -1) >= version > self.popped.get((*it, tag), 0)
                is_there = any(it not in self.lost and has(it) for it in holders)
                want(is_there, "kept: version", version, "cannot be had for tag", tag)
