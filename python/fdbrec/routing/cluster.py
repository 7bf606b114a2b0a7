"""A cluster of processes, and the network between them: what flies, what comes late or again, what stands still."""

import collections
import json
import os

from . import drawing
from .members import Members
from .processes import Trouble, spoken

FIRST = 257
FLYING = 14  # so many messages fly at most, beside those that are kept to come late
KEPT = 60


def log(epoch, index):
    return {"log": {"epoch": epoch, "index": index}}


class Message:
    """An ask or a tell on its way, or one that is kept to come later. `number` counts tells by their order."""

    def __init__(self, kind, by, to, what, number):
        self.kind, self.by, self.to, self.what, self.number = kind, by, to, what, number
        self.ends = {spoken(by), spoken(to)}


class Cluster:
    """The nodes of a world, by the seed. `commands` says by which programs each kind of node runs, `most` how many
    bytes a file of a cell or a log may have."""

    def __init__(self, seed, room, commands, has_files, most=None):
        self.seed, self.room, self.commands, self.has_files, self.most = seed, room, commands, has_files, most
        self.config = drawing.config_of(seed)
        self.counts = collections.Counter()
        self.members = Members(room, self.heed, self.counts)
        self.shapes = {FIRST: (self.config["logs"], self.config["degree"])}
        self.ends = {}  # by a recoverer's ballot: the epoch that it ends
        self.newest, self.chosen = FIRST, {}
        self.flying, self.late, self.walls, self.told, self.came = [], [], [], 0, {}
        self.turns, self.rounds, self.used = collections.Counter(), 1, {0, FIRST}
        self.open = {}  # by a proxy: whether it has a batch under way
        self.start()

    # ---- nodes

    def make(self, name, *words):
        ((kind, _),) = name.items()
        dice = drawing.Dice(self.seed, "program", spoken(name))
        command = dice.choice(self.commands[kind])
        more = ["--room", self.most] if self.most and kind in ("cell", "log") else []
        return self.members.make(name, [*command, kind, *map(str, (*words, *more))], self.has_files)

    def config_file(self, epoch):
        """The config of an epoch: the world's, with the shape of that generation. It is written once, since nodes that
        were just started may be reading it."""
        path = f"{self.room}/config-{epoch}.json"
        if os.path.exists(path):
            return path
        logs, degree = self.shapes[epoch]
        with open(path, "w", encoding="utf-8") as it:
            json.dump(self.config | {"logs": logs, "degree": degree}, it)
        return path

    def start(self):
        config = self.config_file(FIRST)
        for at in range(self.config["coordinators"]):
            self.make({"cell": {"index": at}}, "--index", at, "--start", "--config", config)
        for at in range(self.config["logs"]):
            self.make_log(FIRST, at)
        for tag in range(len(self.config["shards"])):
            self.make({"storage": {"tag": tag}}, "--tag", tag, "--config", config)
        self.open_epoch(FIRST, 1, 0)

    def make_log(self, epoch, at):
        logs, degree = self.shapes[epoch]
        words = ["--epoch", epoch, "--index", at, "--logs", logs, "--degree", degree]
        self.make(log(epoch, at), *words, *(["--start"] if epoch == FIRST else []))

    def open_epoch(self, epoch, last, known):
        """Its sequencer and its proxies, once its state is chosen."""
        config = self.config_file(epoch)
        self.make({"sequencer": {"epoch": epoch}}, "--epoch", epoch, "--last", last)
        for number in range(self.config["proxies"]):
            words = ["--epoch", epoch, "--number", number, "--known", known, "--config", config]
            self.make({"proxy": {"epoch": epoch, "number": number}}, *words)
        self.newest = max(self.newest, epoch)

    def begin(self, dice):
        """A recoverer begins, under a ballot that nobody used; sometimes under one below another's."""
        self.rounds += dice.randrange(3) > 0
        free = [it for it in range(1, 5) if self.rounds * 256 + 256 + it not in self.used]
        if not free:
            self.rounds += 1
            free = [1]
        ballot = self.rounds * 256 + 256 + dice.choice(free)
        self.used.add(ballot)
        shape = drawing.shape_of(dice)
        if shape:
            self.shapes[ballot] = shape
        words = ["--ballot", ballot, "--config", f"{self.room}/config-{FIRST}.json"]
        words += ["--logs", shape[0], "--degree", shape[1]] if shape else []
        return self.make({"recoverer": {"ballot": ballot}}, *words)

    # ---- what nodes answer

    def heed(self, it, given, entries, was):
        """Takes in an answer of a node: the tells that now fly, and what comes to be by it."""
        for entry in entries:
            if "asked" in entry["act"]:
                asked = entry["act"]["asked"]
                self.fly("hear", it.name, asked["from"], asked["tell"])
            elif "submitted" in entry["act"]:
                self.counts["submitted"] += 1
                self.open[it.text] = True
            elif "heard" in entry["act"] and entry["act"]["heard"]["outcome"]:
                self.outcome(it, entry["act"]["heard"]["outcome"])
        if it.kind == "recoverer":
            self.recover(it, was)
        elif it.kind == "storage" and was and it.stands:
            self.stand(it, was["storage"], it.stands["storage"])

    def outcome(self, it, outcome):
        if "waiting" not in outcome:
            self.open[it.text] = False
        self.counts["acknowledged"] += "committed" in outcome
        self.counts["ended"] += "ended" in outcome

    def recover(self, it, was):
        """Logs of a generation come to be when they are to be seeded, its sequencer and proxies once it is chosen."""
        ballot = it.its["ballot"]
        for to, ask in it.wants:
            word = next(iter(ask.get("log", {"": 0})))
            if word == "lock":
                self.ends[ballot] = self.opened(it, ask["log"]["lock"]["epoch"])
            if word == "seed" and self.members.find(to) is None:
                self.seeded(it, to["log"])
        phase = it.stands["recoverer"]["phase"]
        if was is None or phase == was["recoverer"]["phase"]:
            return
        self.counts["lost"] += phase.startswith("lost")
        if phase.startswith("chosen"):
            if ballot in self.chosen:
                raise Trouble(f"{it.text} is chosen a second time: {phase}")
            _, _, pev, _, rv = phase.split(" ")
            self.counts["chosen"] += 1
            self.chosen[ballot] = int(rv)
            self.shape(ballot)
            self.open_epoch(ballot, int(rv) + 1, int(pev))

    def opened(self, it, epoch):
        """An epoch that a recoverer locks, which has to be one."""
        if epoch not in self.shapes:
            raise Trouble(f"{it.text} wants to lock epoch {epoch}, which there is not")
        return epoch

    def seeded(self, it, log):
        """A log comes to be that a recoverer wants to seed."""
        ballot = it.its["ballot"]
        self.shape(ballot)
        if log["epoch"] != ballot or log["index"] >= self.shapes[ballot][0]:
            raise Trouble(f"{it.text} wants to seed log {log['epoch']} {log['index']}, which is none of its own")
        self.make_log(ballot, log["index"])

    def shape(self, ballot):
        """A generation has the shape that its recoverer was given, or that of the one which it ends."""
        self.shapes.setdefault(ballot, self.shapes[self.ends.get(ballot, FIRST)])

    def stand(self, it, was, now):
        """A storage server came to stand elsewhere."""
        if now["version"] < was["version"]:
            self.counts["rollbacks"] += 1
            self.counts["undone"] += was["version"] - now["version"]
        if now["epoch"] != was["epoch"]:
            # (a pop of a generation that it dropped would be one that it cannot give any more)
            is_pop = lambda one: one.by == it.name and "pop" in one.what.get("log", {}) and one.kind == "ask"
            self.flying = [one for one in self.flying if not is_pop(one)]
            self.late = [one for one in self.late if not is_pop(one)]
            it.wants = []

    # ---- the network

    def fly(self, kind, by, to, what):
        self.told += 1
        self.flying.append(Message(kind, by, to, what, self.told))

    def is_walled(self, message, step):
        return any(step < until and message.ends == ends for until, ends in self.walls)

    def give(self, message):
        """A message comes to its node, if that is up. What it was on its way is gone."""
        it = self.members.find(message.to)
        if it is None or it.state != "up":
            return None
        key = spoken(message.by), it.text
        if message.kind == "hear":
            self.counts["late"] += message.number < self.came.get(key, 0)
            self.came[key] = max(self.came.get(key, 0), message.number)
        word = {"hear": "tell", "ask": "ask"}[message.kind]
        self.members.give(it, {"type": message.kind, "at": self.members.stamp, "from": message.by, word: message.what})
        return it

    def collect(self):
        for it in list(self.members.all.values()):
            if it.state == "up":
                self.members.collect(it)

    def ask_wants(self, it):
        """Asks a node what it asks now, and does not wait for its answer."""
        self.turns[it.text] += 1
        body = {"type": "wants", "turn": self.turns[it.text]}
        if it.kind == "storage":
            body["newest"] = {"epoch": self.newest, "logs": self.shapes[self.newest][0]}
        self.members.give(it, body)

    def script(self):
        for it in self.members.all.values():
            if it.state == "up":
                self.members.give(it, {"type": "last"})
        self.collect()
        journals = [it.journal() for it in self.members.all.values() if it.is_there()]
        return {"config": self.config, "journals": journals}

    def batches(self):
        """How many batches were acknowledged, are waiting, and were taken back: those with a version that the next
        epoch did not take over."""
        taken = 0
        for it in self.members.of("sequencer"):
            later = [epoch for epoch in self.chosen if epoch > it.its["epoch"]]
            cut = self.chosen[min(later)] if later else None
            tells = [entry["act"]["asked"]["tell"]["seq"] for entry in it.entries if "asked" in entry["act"]]
            versions = {tell["numbered"]["version"] for tell in tells if "numbered" in tell}
            taken += sum(1 for version in versions if cut is not None and version > cut)
        known = self.counts["acknowledged"]
        return known, self.counts["submitted"] - known - taken, taken

    def close(self):
        found = [it.process for it in self.members.all.values() if it.state == "up"]
        for it in found:
            it.end()
        for it in found:
            it.close()

    def drop(self):
        for it in self.members.all.values():
            if it.process:
                it.process.drop()
