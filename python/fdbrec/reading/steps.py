"""The steps of a script of `simulate` as the journals of a run, by docs/FORMATS.md and the readings of this folder."""

import json

from .events import Events, Refused


def log_of(epoch, index):
    return {"log": {"epoch": epoch, "index": index}}


class Steps:
    """A world in which each ask is told at once, and each tell heard at once."""

    def __init__(self, config):
        self.events = Events(config)
        self.storages = len(config["shards"])
        self.reads = []

    def take(self, step):
        ((word, what),) = step.items()
        try:
            getattr(self, word)(what)
        except Refused:
            pass  # a step that is refused changes nothing

    def converse(self, by, to, ask):
        """An ask that cannot come is passed over."""
        try:
            tell = self.events.deliver(by, to, ask)
            self.events.hear(by, to, tell)
        except Refused:
            pass

    def ask_each(self, name, wanted):
        """Asks what is pending of these nodes, of each once and in their order."""
        for to in [json.loads(it) for it in dict.fromkeys(json.dumps(each) for each in wanted)]:
            ask = next((ask for place, ask in self.events.pending(name) if place == to), None)
            if ask is not None:
                self.converse(name, to, ask)

    # steps

    def commit(self, it):
        name = {"proxy": {"epoch": it["epoch"], "number": it["proxy"]}}
        if not fits(it["batch"]):
            return
        self.events.submit(it["epoch"], it["proxy"], it["step"], it["batch"])
        self.ask_each(name, [{"sequencer": {"epoch": it["epoch"]}}])
        self.ask_each(name, [log_of(it["epoch"], each) for each in it["logs"]])

    def push(self, it):
        name = {"proxy": {"epoch": it["epoch"], "number": it["proxy"]}}
        if self.events.find(name).place is not None:
            self.ask_each(name, [log_of(it["epoch"], each) for each in it["logs"]])

    def of_storage(self, it, ask):
        self.converse({"storage": {"tag": it["storage"]}}, log_of(it["epoch"], it["log"]), {"log": ask})

    def server(self, it):
        return self.events.find({"storage": {"tag": it["storage"]}})

    def pull(self, it):
        after = self.server(it).version
        self.of_storage(it, {"peek": {"after": after, "epoch": it["epoch"], "most": 100, "tag": it["storage"]}})

    def mark(self, it):
        self.of_storage(it, {"mark_asked": {"epoch": it["epoch"]}})

    def pop(self, it):
        through = self.server(it).floor
        self.of_storage(it, {"pop": {"epoch": it["epoch"], "tag": it["storage"], "through": through}})

    def read(self, it):
        answer = self.events.read(it["storage"], it["key"], it["version"])
        said = {"": "-", None: "none"}.get(answer, answer)
        is_name = said[0].isupper()
        self.reads.append(f"read {it['storage']} {it['version']} {'refused ' if is_name else ''}{said}")

    def recover(self, it):
        name = {"recoverer": {"ballot": it["ballot"]}}
        if it["ballot"] not in self.events.nodes.recoverers:
            shape = {"degree": it["degree"], "logs": it["logs"]} if "logs" in it else {}
            self.events.begin(it["ballot"], **shape)
        node = self.events.nodes.recoverers[it["ballot"]]
        cells = lambda numbers: [{"cell": {"index": each}} for each in numbers]
        if node.phase == "reading":
            self.ask_each(name, cells(it["read"]))
        if node.phase == "locking":
            self.ask_each(name, [log_of(node.parent[-1][0], each) for each in it["lock"]])
        self.copy(name, node)
        if node.phase == "copying" and node.is_copied():
            self.ask_each(name, [log_of(it["ballot"], each) for each in range(node.own()[0])])
        if node.phase == "writing":
            self.ask_each(name, cells(it["write"]))
        if node.phase.startswith("chosen"):
            self.ask_each(name, [log_of(it["ballot"], each) for each in it["mark"]])

    def copy(self, name, node):
        """Its peeks, by tag and log, until none brings anything new."""
        place = lambda each: (each[1]["log"]["peek"]["tag"], each[0]["log"]["index"])
        is_new = True
        while node.phase == "copying" and not node.is_copied() and is_new:
            before = list(node.reached)
            for to, ask in sorted(self.events.pending(name), key=place):
                peek = ask["log"]["peek"]
                if node.reached[peek["tag"]] == peek["after"]:
                    self.converse(name, to, ask)
            is_new = node.reached != before

    def lose(self, it):
        self.events.lose(it["epoch"], it["log"])


def fits(batch):
    """Whether a batch is within its limits."""
    texts = [(name, value) for each in batch for what in each.values() for name, value in what.items()]
    most = {"key": 10000, "begin": 10000, "end": 10000}
    is_short = all(len(value) // 2 <= most.get(name, 100000) for name, value in texts)
    clears = [each["clear"] for each in batch if "clear" in each]
    return len(batch) <= 1000 and is_short and all(it["begin"] <= it["end"] for it in clears)


def played(script):
    """The script of an audit of what the steps come to."""
    world = Steps(script["config"])
    for step in script["steps"]:
        world.take(step)
    return world.events.script()
