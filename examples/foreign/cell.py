"""A coordinator's cell, by the table of docs/PROTOCOL.md (Cells). Asks and tells have the form of a journal."""


class Cell:
    """It keeps the greatest ballot that it promised, and the value of the last write that it took."""

    def __init__(self, ballot, value):
        """As the world starts: the first epoch's ballot has written the first state."""
        self.promised = self.written = ballot
        self.value = value

    def ask(self, ask):
        """What it tells; where the ask changes it, the change is made before it tells."""
        ((name, what),) = ask["cell"].items()
        ballot = what["ballot"]
        if self.is_below(ballot):
            return self.tell("refused", promised=self.promised)
        if name == "read":
            return self.read(ballot)
        if self.written == ballot and self.value != what["value"]:
            return self.tell("two_values")
        return self.write(ballot, what["value"])

    def is_below(self, ballot):
        return ballot < self.promised

    def read(self, ballot):
        self.promised = ballot
        return self.tell("promise", value=self.value, written=self.written)

    def write(self, ballot, value):
        self.promised = self.written = ballot
        self.value = value
        return self.tell("written", ballot=ballot)

    def tell(self, name, **what):
        return {"cell": {name: what}}

    def last(self):
        return {"promised": self.promised, "value": self.value, "written": self.written}
