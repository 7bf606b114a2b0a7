"""Worlds that are drawn from seeds: each event has draws of its own, made of the seed and its number, so that events
can be left out and the others are drawn as before. What comes of them is worked out by the rules (`events`)."""

import json
import random

from . import batches
from .events import Events, key_of
from .rules import FIRST

BEGINS = ["", "61", "6162", "62", "63", "6361"]
# Of 1,000 events in a world of each weather, the four by turns: stormy, quiet, one in which storage servers ask seldom,
# and a small one, in which recoverers begin and end soon.
WEIGHTS = {
    "ask": (250, 320, 350, 400),
    "tell": (250, 320, 350, 400),
    "submit": (70, 80, 100, 45),
    "pull": (80, 100, 30, 40),
    "mark": (40, 40, 30, 25),
    "pop": (20, 20, 10, 15),
    "again": (110, 70, 90, 10),
    "begin": (8, 3, 4, 10),
    "late_ask": (40, 7, 5, 12),
    "late_tell": (40, 7, 5, 12),
    "stray_ask": (20, 5, 3, 8),
    "stray_tell": (20, 5, 3, 8),
    "drop": (40, 20, 18, 8),
    "crash": (9, 2, 1, 5),
    "lose": (3, 1, 1, 2),
}
SMALL = 3
# The same of worlds that are drawn apart: those in which recoveries drop generations.
DROPPING = {"ask": 450, "tell": 450, "submit": 20, "pull": 30, "mark": 60, "pop": 60, "again": 20, "begin": 16}


class Drawn:
    """A world of a seed. `lines` has what `run.Run` reads, `rows` each event as a scenario's row."""

    def __init__(self, seed):
        self.seed = seed
        self.dice = random.Random(f"{seed} config")
        self.is_small = seed % 4 == SMALL
        logs = self.logs()
        self.config = {
            "coordinators": self.coordinators(),
            "degree": self.dice.randint(1, logs),
            "logs": logs,
            "proxies": self.few(16),
            "shards": BEGINS[: self.few(6)],
        }
        self.events = Events(self.config)
        self.new_asks, self.new_tells, self.epochs = [], [], [FIRST]
        self.lines, self.rows, self.came = [], [], set()
        self.weights = [WEIGHTS[kind][seed % 4] for kind in WEIGHTS]

    # draws

    def one_of(self, number):
        return self.dice.randrange(number) == 0

    def coordinators(self):
        return self.dice.choice([1] * 4 + [3] * 8 + [5, 5, 7, 9] * (not self.is_small))

    def few(self, most):
        return self.dice.randint(1, 2 if self.is_small else most if self.one_of(8) else min(most, 4))

    def logs(self):
        if self.is_small:
            return self.dice.choice([1, 2, 2, 3])
        return self.dice.choice([1] + [2] * 4 + [3] * 4 + [4] * 3 + [5, 6] + [self.dice.randint(1, 16)] * 2)

    def is_open(self, epoch):
        return epoch in self.events.nodes.sequencers

    def epoch(self):
        """Mostly the newest that is open."""
        if self.one_of(8):
            return self.dice.choice(self.epochs)
        return max(filter(self.is_open, self.epochs))

    def shape_of(self, epoch):
        """How many logs an epoch has, and on how many of them each tag stands, so far as it is fixed."""
        recoverer = self.events.nodes.recoverers.get(epoch)
        if recoverer and recoverer.state:
            return recoverer.state[-1][1:3]
        return self.config["logs"], self.config["degree"]

    def log(self, epoch):
        """A log of an epoch, sometimes one that it has not."""
        logs, _ = self.shape_of(epoch)
        return {"log": {"epoch": epoch, "index": logs if self.one_of(50) else self.dice.randrange(logs)}}

    def tag(self):
        return self.dice.randrange(len(self.config["shards"]))

    def proxy(self):
        proxies = self.config["proxies"]
        return proxies if self.one_of(50) else self.dice.randrange(proxies)

    def recoverer(self):
        ballot = self.dice.choice(self.epochs) if self.one_of(4) else max(self.epochs)
        return {"recoverer": {"ballot": ballot}}

    def node(self):
        epoch, kind = self.epoch(), self.dice.randrange(8)
        if kind == 0:
            return {"cell": {"index": self.dice.randrange(self.config["coordinators"])}}
        if kind < 3:
            return self.log(epoch)
        if kind == 3:
            return {"sequencer": {"epoch": epoch}}
        if kind < 6:
            return {"proxy": {"epoch": epoch, "number": self.proxy()}}
        return self.recoverer() if kind == 6 else {"storage": {"tag": self.tag()}}

    def batch(self):
        """At most four mutations over few keys, so that they meet."""
        return [self.mutation() for _ in range(self.dice.randrange(5))]

    def bytes_of(self, length, values):
        return bytes(self.dice.choice(values) for _ in range(self.dice.randrange(length))).hex()

    def mutation(self):
        key, kind = self.bytes_of(3, b"abcd"), self.dice.randrange(9)
        if kind == 3:
            begin, end = sorted([key, self.bytes_of(3, b"abcd")])
            return {"clear": {"begin": begin, "end": end}}
        value = self.bytes_of(4, b"\x00\x55\xaa\xff")
        name = self.dice.choice(["add", "and", "or", "xor", "max", "min", "compare_and_clear"])
        if kind < 3 or name == "compare_and_clear":
            return {"set" if kind < 3 else name: {"key": key, "value": value}}
        return {name: {"key": key, "param": value}}

    # what is chosen: an event, or none where there is nothing of its kind

    def take(self, messages):
        """One of a list: mostly any, sometimes the newest; one of eight stays, and comes again."""
        if not messages:
            return None
        at = len(messages) - 1 if self.one_of(3) else self.dice.randrange(len(messages))
        return messages[at] if self.one_of(8) else messages.pop(at)

    def ask(self):
        if not self.new_asks:
            return self.submit() if self.is_small else self.again()
        return self.delivered(self.take(self.new_asks))

    def late_ask(self):
        return self.delivered(self.dice.choice(self.events.asks)) if self.events.asks else None

    def stray_ask(self):
        if not self.events.asks:
            return None
        by, to, ask = self.dice.choice(self.events.asks)
        other = self.node()
        return self.delivered((other, to, ask) if self.one_of(2) else (by, other, ask))

    def delivered(self, message):
        by, to, ask = message
        return "deliver", {"by": by, "to": to, "ask": ask}

    def tell(self):
        return self.heard(self.take(self.new_tells)) if self.new_tells else self.pull()

    def late_tell(self):
        return self.heard(self.dice.choice(self.events.tells)) if self.events.tells else None

    def stray_tell(self):
        if not self.events.tells:
            return None
        of, by, tell = self.dice.choice(self.events.tells)
        other = self.node()
        of, by = (other, by) if self.one_of(2) else (of, other)
        return "hear", {"by": by, "of": of, "tell": tell}

    def heard(self, message):
        """A hear; one of a storage server may break off."""
        of, by, tell = message
        given = {"by": by, "of": of, "tell": tell}
        if "storage" in by and self.one_of(6):
            given["taken"] = self.version_in(tell, self.events.nodes.storages[by["storage"]["tag"]])
        return "hear", given

    def version_in(self, tell, server):
        """A version at which a hear may break off: one of the tell, or the one applied."""
        said = tell.get("log", {})
        if self.one_of(6) or not {"peeked", "marked"} & set(said):
            return server.version
        if "peeked" in said:
            found = [each["version"] for each in said["peeked"]["records"]] + [said["peeked"]["upto"]]
        else:
            found = [each[4] for each in batches.state_in(said["marked"]["state"])]
        return self.dice.choice(found)

    def drop(self):
        self.take(self.new_asks if self.one_of(2) else self.new_tells)

    def submit(self):
        step = self.dice.choice([self.dice.randint(1, 5), 1000000 if self.one_of(5) else 1] + [1] * 8)
        return "submit", {"epoch": self.epoch(), "proxy": self.proxy(), "step": step, "batch": self.batch()}

    def holder(self, tag, epoch):
        """A log of an epoch: mostly one that holds the tag, and of two of these the one that holds more."""
        if self.one_of(10):
            return self.log(epoch)
        logs, degree = self.shape_of(epoch)
        one, other = ((tag + self.dice.randrange(degree)) % logs for _ in range(2))
        held = lambda index: log.durable if (log := self.events.nodes.logs.get((epoch, index))) else 0
        return {"log": {"epoch": epoch, "index": other if held(one) < held(other) else one}}

    def pulling(self):
        return self.tag()

    def pull(self):
        """A storage server asks a log for records: mostly for what it wants next."""
        tag = self.pulling()
        server = self.events.nodes.storages[tag]
        epoch = batches.source_of(server.state, server.version + 1) or server.state[0][0]
        epoch = self.epoch() if self.one_of(10) else epoch
        most = self.dice.randint(1, 3) if self.one_of(3) else 100
        ask = {"log": {"peek": {"after": server.version, "epoch": epoch, "most": most, "tag": tag}}}
        return self.delivered(({"storage": {"tag": tag}}, self.holder(tag, epoch), ask))

    def mark(self):
        tag, epoch = self.tag(), self.epoch()
        return self.delivered(({"storage": {"tag": tag}}, self.log(epoch), {"log": {"mark_asked": {"epoch": epoch}}}))

    def pop(self):
        """A storage server has a log let go, mostly through its floor and of a generation that it has."""
        tag = self.tag()
        server = self.events.nodes.storages[tag]
        epoch = self.epoch() if self.one_of(10) else self.dice.choice(server.state)[0]
        ask = {"log": {"pop": {"epoch": epoch, "tag": tag, "through": server.floor + self.one_of(20)}}}
        return self.delivered(({"storage": {"tag": tag}}, self.holder(tag, epoch), ask))

    def begin(self):
        """A recoverer begins, mostly of the round after the greatest; one of two with a shape of its own."""
        round_of = max(self.epochs) // 256 + self.dice.choice([-1, 0, 0, 1, 1, 1, 1, 1])
        ballot = max(1, round_of) * 256 + self.dice.randint(1, 3)
        if self.one_of(2):
            return "begin", {"ballot": ballot}
        logs = self.logs()
        return "begin", {"ballot": ballot, "degree": self.dice.randint(1, logs), "logs": logs}

    def crash(self):
        return "crash", self.node()

    def lose(self):
        return ("lose", self.log(self.epoch())["log"]) if self.one_of(3) else self.pull()

    def again(self):
        """A node asks again for something that it lacks, or where none lacks anything a proxy takes a batch."""
        nodes = self.events.nodes
        if self.one_of(2):
            names = [{"recoverer": {"ballot": each}} for each in self.epochs if each in nodes.recoverers]
            last = [it for it in names if not nodes.node(it).phase.startswith(("chosen", "lost"))][-1:]
            names = last if last and not self.one_of(4) else names and [self.dice.choice(names)]
        else:
            proxies, epoch, first = self.config["proxies"], self.epoch(), self.proxy()
            names = [{"proxy": {"epoch": epoch, "number": (first + it) % proxies}} for it in range(proxies)]
        names = [it for it in names if self.events.is_there(it)]
        asks = [(name, *each) for name in names for each in self.events.pending(name)]
        return self.delivered(self.dice.choice(asks)) if asks else self.submit()

    # what happens

    def event(self, number):
        """The event of a number, with its draws."""
        self.dice = random.Random(f"{self.seed} {number}")
        (kind,) = self.dice.choices(list(WEIGHTS), self.weights)
        chosen, said = getattr(self, kind)(), kind.replace("_", "-")
        if chosen is None:
            self.lines.append(f"none {number} {said}")
            return
        word, given = chosen
        said = "break" if "taken" in given else said
        asks, tells, turns = len(self.events.asks), len(self.events.tells), self.events.stamp
        row = self.row_of(word, given)
        wanted = self.events.happen(word, json.loads(json.dumps(given)))
        is_server = word == "hear" and "storage" in given["by"] and self.events.stamp > turns
        last = self.events.last(given["by"]) if is_server else None
        reads = list(self.reads(number, given["by"]["storage"]["tag"])) if is_server else []
        self.rows.append((*row, wanted, last, reads))
        self.new_asks += self.events.asks[asks:]
        self.new_tells += self.events.tells[tells:]
        if self.events.stamp == turns:
            self.lines.append(f"no {number} {said} {wanted}")
            return
        self.lines.append(f"done {number} {said}")
        if word == "begin":
            self.epochs.append(given["ballot"])
        if is_server:
            self.stood(given["by"]["storage"]["tag"], wanted)

    def row_of(self, word, given):
        """What a row gives: a tell by its number, where it was told; an ask by its number, where it came before."""
        given = dict(given)
        if word == "hear":
            tell = self.events.told.get(key_of(given["of"], given["by"], given["tell"]))
            tell = given["tell"] if tell is None else tell
            return word, {"by": given.pop("by"), "from": given.pop("of"), **given, "tell": tell}
        if word == "deliver":
            key = key_of(given["by"], given["to"], given["ask"])
            number = self.events.given.get(key) if key in self.came else None
            self.came.add(key)
            return word, {"from": given["by"], "to": given["to"], "ask": given["ask"] if number is None else number}
        return word, given

    def reads(self, number, tag):
        """Two reads of a storage server with their answers, drawn apart: around the versions of its batches, most of
        keys that it ever held."""
        dice, server = random.Random(f"{self.seed} {number} reads"), self.events.nodes.storages[tag]
        past = self.events.rows[tag]
        keys = sorted({key.hex() for _, rows in past for key in rows}) or [self.config["shards"][tag]]
        ends = {server.floor - 1, server.floor, server.version, server.version + 1}
        versions = sorted(it for it in ends | {at - less for at, _ in past for less in (0, 1)} if it >= 0)
        for _ in range(2):
            key, other = dice.choice(BEGINS if dice.randrange(8) == 0 else keys), dice.randrange(16) == 0
            given = {"key": key, "tag": tag + other, "version": dice.choice(versions)}
            yield given, self.events.read(**given)

    def stood(self, tag, wanted):
        where, rows = self.events.stands(tag)
        fault = f"Some({wanted['refused']})" if wanted else "None"
        self.lines.append(f"stands {where} {fault} {rows}".rstrip())

    def play(self, events, without=()):
        """So many events, but for those of some ranges."""
        for number in range(events):
            if not any(first <= number <= last for first, last in without):
                self.event(number)
        return self

    def text(self):
        """What is printed of it: its lines and the journals."""
        return "\n".join(self.lines + [json.dumps(self.events.script(), separators=(",", ":"))])


class Dropping(Drawn):
    """A world of two tags, one proxy and few logs, in which logs let go often and recoveries follow soon. The server of
    the first tag seldom asks for records, so that the two lie apart."""

    def __init__(self, seed):
        super().__init__(seed)
        self.is_small = True
        self.weights = [DROPPING.get(kind, 0) for kind in WEIGHTS]

    def coordinators(self):
        return self.dice.choice([1, 1, 3])

    def few(self, most):
        return 2 if most == len(BEGINS) else 1

    def logs(self):
        return self.dice.choice([1, 1, 1, 2])

    def pulling(self):
        return self.tag() if self.one_of(4) else 1
