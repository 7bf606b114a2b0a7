"""What each node says that it did, as one script of `fdbrec audit`: the part to take over for a system of your own."""

import json


class Journals:
    """Entries by node, stamped by a logical clock of each node."""

    def __init__(self, config):
        self.config, self.entries, self.clock = config, {}, {}

    def there(self, name, stamp=0):
        """A node is there from the act of this stamp on: what it does comes later."""
        self.clock.setdefault(json.dumps(name), stamp)

    def enter(self, name, act, seen=0):
        """Enters an act of a node that takes a message sent at the stamp `seen`, and returns the act's stamp."""
        key = json.dumps(name)
        self.clock[key] = max(self.clock.get(key, 0), seen) + 1
        self.entries.setdefault(key, []).append({"act": act, "stamp": self.clock[key]})
        return self.clock[key]

    def now(self, name):
        """The stamp of what a node sends: that of its last act."""
        return self.clock.get(json.dumps(name), 0)

    def script(self, last_of):
        """The script; `last_of` says where a node stands at last. A node that did nothing needs no journal."""
        journals = []
        for key, entries in self.entries.items():
            name = json.loads(key)
            (kind,) = name
            journals.append({"entries": entries, "last": {kind: last_of(name)}, "node": name})
        return json.dumps({"config": self.config, "journals": journals}, sort_keys=True, separators=(",", ":"))
