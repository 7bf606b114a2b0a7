"""A cluster of processes whose logs are filled to the last byte of their files, locked, popped, and recovered from."""

import os
import tempfile

import built
import segments

from fdbrec.commands import router
from fdbrec.routing import drawing
from fdbrec.routing.story import Story

ROOM = 65536
SEED = 268  # three cells, three logs, one shard, whose tag is on logs 0 and 1, and one proxy
GROUP = 14 + 4  # bytes of a group of one record beside that
POP, LEFT = GROUP + 10, 4096  # those of a pop, and those that a push leaves free


class Filling(Story):
    """Each batch is committed before the next one. What the storage server pops, all of it of log 0, is kept back."""

    def __init__(self, *words):
        self.pops = []
        super().__init__(*words)

    def fly(self, kind, by, to, what):
        if kind == "ask" and "pop" in what.get("log", {}):
            self.pops.append((by, to, what))
        else:
            super().fly(kind, by, to, what)

    def ask_wants(self, it):
        # (by its turn it asks one of its logs or the other)
        self.turns[it.text] += it.kind == "storage" and self.newest == 257
        super().ask_wants(it)

    def node(self, kind, **its):
        return self.members.find({kind: its})

    def commit(self, size):
        """Whether a batch of one value of so many bytes is committed, rather than refused by a log that is full."""
        (proxy,), was = self.members.of("proxy"), self.counts["acknowledged"]
        batch = [{"set": {"key": "61", "value": f"{was % 256:02x}" * size}}]
        self.members.give(proxy, {"type": "submit", "at": self.members.stamp, "batch": batch, "step": 1})
        self.collect()
        for _ in range(4):
            self.exchange([proxy])
            if self.counts["acknowledged"] > was:
                self.exchange(self.active("storage"))
                return True
            if self.counts["full"]:
                return False
        raise AssertionError(f"a batch is neither committed nor refused: {self.counts}")

    def pop(self, log, count):
        """So many of the pops that a log was to be given come to it: through which version the last one was, and how
        many are wanting."""
        through = 0
        while count and self.pops:
            by, to, what = self.pops.pop(0)
            # (a pop that is asked for again changes nothing)
            if to == log.name and what["log"]["pop"]["through"] > through:
                super().fly("ask", by, to, what)
                self.exchange([])
                through, count = what["log"]["pop"]["through"], count - 1
        return through, count

    def again(self, it):
        """A node is killed, and comes back."""
        self.members.kill(it)
        self.bring_back(it)
        self.collect()


def files_of(room, log):
    owner = segments.owner_of("fdbrec", log.text, [3, 2])
    pair = []
    for end in (0, 1):
        with open(f"{room}/files/{log.text.replace(' ', '-')}.{end}", "rb") as it:
            pair.append(it.read())
    at, number = segments.current(pair, owner)
    return number, len(pair[at])


def filled(checks, command, audit, room):
    """Logs 0 and 1 take pushes until there is no room for one, and log 0 pops until there is none for one more. They
    are killed there, locked by a recovery, killed again, and log 0 is popped, for which it lets go. The next epoch goes
    on, all that was committed reaches the storage server, and all journals together are a run."""
    commands = {kind: [command] for kind in ("cell", "log", "sequencer", "proxy", "recoverer", "storage")}
    story = Filling(SEED, room, commands, True, ROOM)
    try:
        fill(checks, story, room)
        old = [story.node("log", epoch=257, index=at) for at in (0, 1)]
        last = story.begin(drawing.Dice(SEED, "ends"))
        story.members.give(last, {"type": "wants", "turn": 1})
        story.exchange([last])
        for _ in range(12):
            if story.newest == 257:
                story.exchange([last])
        stopped = [it.stands["log"]["stopped"] for it in old]
        checks.check(stopped == [True, True] and story.newest > 257, "full logs are locked:", stopped, story.newest)
        for it in old:
            story.again(it)
        left, _ = story.pop(old[0], 10**6)
        its, number = old[0].stands["log"]["popped"], files_of(room, old[0])[0]
        is_so = its == [[0, left]] and number > 1
        checks.check(is_so, "a full log that is locked is popped:", its, "and not", left, "its file is", number)
        story.calm()
        checks.check(story.counts["level"] == 1, "the storage server comes to the newest epoch:", story.counts)
        script = story.script()
        story.close()
        for its in (audit, None):
            line = router.judged(room, script, its)
            checks.check(line == "audit ok", "full logs, by", its, "are", line)
    finally:
        story.drop()


def fill(checks, story, room):
    logs = [story.node("log", epoch=257, index=at) for at in (0, 1)]
    count = 0
    while story.commit(280):
        count += 1
    sizes = [files_of(room, it) for it in logs]
    least = ROOM - LEFT - 2 * (GROUP + 50 + 280)
    is_so = all(number == 1 and least < size <= ROOM - LEFT for number, size in sizes)
    checks.check(is_so and count > 150, "after", count, "commits the files of logs are", sizes)
    most = (ROOM - sizes[0][1]) // POP
    _, lacking = story.pop(logs[0], most)
    number, size = files_of(room, logs[0])
    is_so = (number, lacking) == (1, 0) and ROOM - POP < size <= ROOM
    checks.check(is_so, "popped", most, "times a log's file is", number, size, "and", lacking, "pops are wanting")
    for it in logs:
        stood = it.stands
        story.again(it)
        checks.check(it.stands == stood, it.text, "comes back over a full file as", it.stands, "and not", stood)


def all_of(checks, command, audit):
    with tempfile.TemporaryDirectory() as room:
        os.rmdir(room)
        filled(checks, command, audit, room)
