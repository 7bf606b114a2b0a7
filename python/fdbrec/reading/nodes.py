"""All nodes of a run by the rules: what each is asked and hears, act by act, against what the journals say."""

from . import batches, rules
from .rules import FIRST, want


def shape_of(begun):
    """The shape that a recoverer begins with, by what its journal says."""
    want(set(begun) in (set(), {"logs", "degree"}), "a recoverer begins with", begun)
    if not begun:
        return None
    shape = begun["logs"], begun["degree"]
    want(1 <= shape[1] <= shape[0] <= 16, "there is no shape of", begun)
    return shape


class Nodes:
    """The nodes of a config, as they stand after the acts taken so far."""

    def __init__(self, config):
        self.config = config
        self.shards = batches.shards(config["shards"])
        first = batches.State([(FIRST, config["logs"], config["degree"], 1, 0)])
        self.cells = [rules.Cell(batches.bytes_of(first)) for _ in range(config["coordinators"])]
        self.storages = [rules.Storage(first) for _ in self.shards]
        self.recoverers, self.logs, self.sequencers, self.proxies = {}, {}, {}, {}
        self.batches = {}
        self.gone = set()
        self.make_logs(first[0])
        for index in range(config["logs"]):
            self.logs[FIRST, index].start(first)
        self.open(first[0], 1, 0)

    def make_logs(self, generation):
        epoch, m, k, _, _ = generation
        for index in range(m):
            self.logs[epoch, index] = rules.Log(epoch, index, m, k)

    def open(self, generation, last, known):
        epoch, m, _, _, _ = generation
        self.sequencers[epoch] = rules.Sequencer(last)
        for number in range(self.config["proxies"]):
            self.proxies[epoch, number] = rules.Proxy(epoch, m, known)

    def node(self, name):
        """A node by its name in a journal."""
        ((kind, what),) = name.items()
        if kind == "cell":
            return self.cells[what["index"]]
        if kind == "storage":
            return self.storages[what["tag"]]
        if kind == "recoverer":
            return self.recoverers[what["ballot"]]
        if kind == "log":
            return self.logs[what["epoch"], what["index"]]
        if kind == "sequencer":
            return self.sequencers[what["epoch"]]
        return self.proxies[what["epoch"], what["number"]]

    def take(self, name, act):
        """Makes one act of a node; answers why a storage server does not take it."""
        ((kind, what),) = act.items()
        if kind == "begun":
            self.begin(name["recoverer"]["ballot"], shape_of(what))
            return None
        try:
            node = self.node(name)
        except (KeyError, IndexError):
            raise rules.Fault(f"{name} does something and is not there") from None
        want(str(name) not in self.gone, name, "does something and is gone")
        if kind == "asked":
            self.asked(name, node, what)
        elif kind == "heard":
            return self.heard(name, node, what)
        elif kind == "submitted":
            node.submit()
            self.batches[node.epoch, name["proxy"]["number"], node.request] = what["batch"]
        elif kind == "lost" or not {"cell", "log", "storage"} & set(name):
            self.gone.add(str(name))
        return None

    def begin(self, ballot, shape):
        want(ballot not in self.recoverers and ballot not in (0, FIRST), "ballot", ballot, "is used twice")
        self.recoverers[ballot] = rules.Recoverer(ballot, self.config, shape)

    def asked(self, name, node, what):
        ((kind, ask),) = what["ask"].items()
        ((word, said),) = ask.items()
        tell = {kind: node.ask(word, said)}
        want(tell == what["tell"], name, "is to tell", tell, "and tells", what["tell"])
        self.may_ask(what["from"], kind, word, said, name)

    def may_ask(self, by, kind, word, said, name):
        """Whether the rules let a node ask this."""
        ((who, it),) = by.items()
        if who == "recoverer":
            self.may_recover(self.recoverers[it["ballot"]], word, said, name)
        elif who == "proxy" and word == "push":
            self.may_push(it["epoch"], it["number"], said, name["log"]["index"])
        elif who == "storage" and word == "peek":
            want(said["tag"] == it["tag"], "a storage server peeks at another tag")
        elif who == "storage" and word == "pop":
            server = self.storages[it["tag"]]
            want(said["tag"] == it["tag"], "a storage server pops another tag")
            is_own = said["epoch"] in [each[0] for each in server.state]
            want(is_own, "a storage server pops a generation that it has not")
            want(said["through"] <= server.floor, "a storage server pops above its floor")
        else:
            want((who, word) in (("storage", "mark_asked"), ("proxy", "next")), who, "asks", word)

    def may_recover(self, recoverer, word, said, name):
        want(said.get("ballot", recoverer.ballot) == recoverer.ballot, "an ask of another ballot")
        if word == "write":
            want(recoverer.is_seeded(), "a state is written before all logs were seeded")
            want(said["value"] == batches.bytes_of(recoverer.state), "a state other than the parent's and one more")
        elif word == "seed":
            want(recoverer.is_copied(), "a seed before all is copied")
            want((said["first"], said["seeded_to"]) == (recoverer.pev + 1, recoverer.rv), "a seed of another range")
        elif word == "push":
            want(recoverer.phase.startswith("chosen"), "a mark of a state that is not chosen")
            mark = {"bodies": [], "epoch": recoverer.ballot, "known": recoverer.pev}
            mark |= {"mark": batches.json_of(recoverer.state)}
            want(said == {**mark, "prev": recoverer.rv, "version": recoverer.rv + 1}, "another mark")

    def may_push(self, epoch, number, push, index):
        """Whether a push of a proxy has its batch, split by tags."""
        numbers = self.sequencers[epoch].given[number]
        batch = self.batches[epoch, number, numbers["request"]]
        if push["version"] != numbers["version"]:
            return  # late: of an earlier batch, whose place is known no more
        log = self.logs[epoch, index]
        bodies = [[tag, shard.clip(batch)] for tag, shard in enumerate(self.shards) if log.holds(tag)]
        want(push["bodies"] == [body for body in bodies if body[1]], "a push with other bodies than its batch has")
        want(push["prev"] == numbers["prev"] and push["mark"] is None, "a push at another place")

    def heard(self, name, node, what):
        if "proxy" in name:
            outcome = node.hear(what["from"], what["tell"])
            want(outcome == what["outcome"], name, "is to say", outcome, "and says", what["outcome"])
        elif "recoverer" in name:
            self.recover(node, what)
        else:
            return node.hear(what["from"], what["tell"], what["taken"])
        return None

    def recover(self, node, what):
        was_copied, was_chosen = node.is_copied(), node.phase.startswith("chosen")
        node.hear(what["from"], what["tell"])
        if node.is_copied() and not was_copied:
            self.make_logs(node.state[-1])
        if node.phase.startswith("chosen") and not was_chosen:
            self.open(node.state[-1], node.rv + 1, node.pev)

    def last(self, name):
        """What a node's last state is to be, but for a storage server's rows."""
        ((kind, what),) = name.items()
        node = self.node(name)
        if kind == "storage":
            return {"epoch": node.state[-1][0], "floor": node.floor, "version": node.version}
        return node.last()
