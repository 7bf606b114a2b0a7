"""One run of a world: its lines and journals, looked at event by event."""

import collections
import json
import subprocess

from .nodes import Nodes
from .promises import Promises
from .rules import Fault, want


def audited(program, script):
    """Has a built fdbrec audit the script of a run."""
    ran = subprocess.run([program, "audit"], input=script + "\n", stdout=subprocess.PIPE, text=True)
    want(ran.stdout == "audit ok\n", "audit:", ran.stdout.strip())


def merged(script):
    """The acts of all journals in their order, each with its node, and the last states by node."""
    acts, lasts = [], []
    for journal in script["journals"]:
        acts += [(entry["stamp"], journal["node"], entry["act"]) for entry in journal["entries"]]
        lasts.append((journal["node"], journal["last"]))
    acts.sort(key=lambda each: each[0])
    return acts, lasts


def rows_of(pairs):
    return {bytes.fromhex(key): bytes.fromhex(value) for key, value in pairs}


class Run:
    """Looks at a run. `checks` are `rules`, `promises` or both; `counts` are added to."""

    def __init__(self, text, checks=("rules", "promises"), skip=None):
        *self.lines, self.script = text.splitlines()
        script = json.loads(self.script)
        self.acts, self.lasts = merged(script)
        self.nodes = Nodes(script["config"]) if "rules" in checks else None
        self.promises = Promises(script["config"], skip) if "promises" in checks else None
        self.counts = collections.Counter()
        self.undone = []
        self.stands = {tag: (257, 0, 0) for tag in range(len(script["config"]["shards"]))}
        self.number = -1

    def look(self):
        """Takes line after line; a fault names the number of the event."""
        at, fault = 0, None
        try:
            for line in self.lines:
                word, *rest = line.split(" ")
                if word == "stands":
                    self.stand(rest, fault)
                    continue
                self.number = int(rest[0])
                self.counts[rest[1], rest[2] if word == "no" else word] += 1
                if word == "done":
                    _, name, act = self.acts[at]
                    at += 1
                    fault = self.take(name, act)
            want(at == len(self.acts), "more acts than events")
            self.end()
        except (Fault, KeyError, IndexError, ValueError) as found:
            what = str(found) if isinstance(found, Fault) else f"no such thing: {found!r}"
            raise Fault(f"event {self.number}: {what}") from found

    def take(self, name, act):
        fault = self.nodes.take(name, act) if self.nodes else None
        if self.promises:
            self.promises.take(name, act)
        return fault

    def stand(self, words, fault):
        """Where a storage server stands after what it heard."""
        tag, epoch, version, floor = (int(each) for each in words[:4])
        said = None if words[4] == "None" else words[4].removeprefix("Some(").removesuffix(")")
        rows = rows_of(each.split("=") for each in words[5:])
        if self.nodes:
            want(said == fault, "the server of tag", tag, "is to answer", fault, "and answers", said)
            it = self.nodes.storages[tag]
            where = (it.state[-1][0], it.version, it.floor)
            want((epoch, version, floor) == where, "the server of tag", tag, "is to stand at", where)
        if self.promises:
            self.promises.stand(tag, epoch, version, rows, floor)
        old = self.stands[tag]
        if version < old[1]:
            self.undone.append(old[1] - version)
        if said:
            self.counts["refused by a server", said] += 1
        self.stands[tag] = (epoch, version, floor)

    def end(self):
        """The last states."""
        for name, last in self.lasts:
            ((kind, said),) = last.items()
            if self.nodes:
                wanted = self.nodes.last(name)
                seen = {key: value for key, value in said.items() if key != "rows"}
                want(seen == wanted, name, "is to stand at", wanted, "and stands at", seen)
            if kind == "storage" and self.promises:
                tag = name["storage"]["tag"]
                self.promises.stand(tag, said["epoch"], said["version"], rows_of(said["rows"]), said["floor"])
        if self.promises:
            self.promises.end()

    def ends(self):
        """How many recoveries were chosen, were lost and why, or were under way at last."""
        found = collections.Counter()
        for name, last in self.lasts:
            if "recoverer" in name:
                phase = last["recoverer"]["phase"]
                found[phase if phase.startswith("lost") else phase.split(" ")[0]] += 1
        return found
