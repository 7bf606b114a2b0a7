"""Journals for an audit: each node appends its acts to a file of its own, and `script` joins the files.

Copy this file. Enter an act inside the lock under which the node acts, and before its reply leaves the node."""
import json
import re
import threading


class Journal:
    """What one node did. A call writes one line and returns its stamp, which the node's next messages carry."""

    def __init__(self, path, node, clock=0):
        """Goes on in a file that is there. `clock`: the stamp of the act from which the node exists."""
        self.lock, self.file = threading.Lock(), open(path, "a+", encoding="ascii")
        self.file.seek(0)
        text = self.file.read()
        whole = text[: text.rfind("\n") + 1]  # a kill may have cut off the last line
        self.file.truncate(len(whole))
        self.clock = max([clock, *map(int, re.findall(r'^{"stamp":(\d+)', whole, re.M))])
        if not whole:
            self.write({"node": node})

    def write(self, line):
        self.file.write(json.dumps(line, separators=(",", ":")) + "\n")
        self.file.flush()

    def enter(self, act, seen=0):
        """An act that took in a message with the stamp `seen`."""
        with self.lock:
            self.clock = max(self.clock, seen) + 1
            self.write({"stamp": self.clock, "act": act})
            return self.clock

    def asked(self, sender, ask, tell, seen):
        return self.enter({"asked": {"from": sender, "ask": ask, "tell": tell}}, seen)

    def heard(self, sender, tell, seen, outcome=None, taken=None):
        return self.enter({"heard": {"from": sender, "tell": tell, "outcome": outcome, "taken": taken}}, seen)

    def submitted(self, batch, step):
        return self.enter({"submitted": {"batch": batch, "step": step}})

    def crashed(self):
        return self.enter({"crashed": {}})

    def close(self, last):
        """The node's last state: without it the audit says `state differs`."""
        with self.lock, self.file:
            self.write({"last": last})


def script(config, paths):
    """The script that bench/judge takes, of the journals in these files."""
    journals = []
    for path in paths:
        with open(path, encoding="ascii") as file:
            lines = [json.loads(line) for line in file if line.endswith("\n")]
        entries = [line for line in lines if "stamp" in line]
        if entries:
            journals.append({"node": lines[0]["node"], "entries": entries, "last": lines[-1].get("last")})
    return json.dumps({"config": config, "journals": journals})
