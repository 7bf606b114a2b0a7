"""Mutations, batches and shards, and the coordinated state, by docs/PROTOCOL.md and docs/FORMATS.md: maps are dicts of
bytes, a batch is the list of its mutations as the JSON of a script has them."""


def hexed(text):
    return bytes.fromhex(text)


def fitted(old, length):
    """The value before, cut or filled up with zeros at its end."""
    return (old or b"")[:length].ljust(length, b"\0")


def combined(name, old, param):
    """The value after a combination."""
    size = len(param)
    if name == "and" and old is None:
        return param
    a, b = int.from_bytes(fitted(old, size), "little"), int.from_bytes(param, "little")
    number = {
        "add": (a + b) % 256**size,
        "and": a & b,
        "or": a | b,
        "xor": a ^ b,
        "max": max(a, b),
        "min": b if old is None else min(a, b),
    }[name]
    return number.to_bytes(size, "little")


def value_of(name, what, old):
    """The value of its key after a mutation that is no clear; none where it is cleared."""
    if name == "set":
        return hexed(what["value"])
    if name == "compare_and_clear":
        return None if old == hexed(what["value"]) else old
    return combined(name, old, hexed(what["param"]))


class Shard:
    """The keys from a begin up to an end; no end is above all keys."""

    def __init__(self, begin, end):
        self.begin, self.end = begin, end

    def has(self, key):
        return self.begin <= key and (self.end is None or key < self.end)

    def touches(self, mutation):
        """Whether a mutation acts on some key of the shard."""
        ((name, what),) = mutation.items()
        if name != "clear":
            return self.has(hexed(what["key"]))
        begin, end = max(hexed(what["begin"]), self.begin), hexed(what["end"])
        return begin < (end if self.end is None else min(end, self.end))

    def clip(self, batch):
        """The part of a batch that acts on the shard, as a log holds it."""
        found = []
        for mutation in batch:
            if not self.touches(mutation):
                continue
            if "clear" in mutation:
                begin, end = hexed(mutation["clear"]["begin"]), hexed(mutation["clear"]["end"])
                end = end if self.end is None else min(end, self.end)
                mutation = {"clear": {"begin": max(begin, self.begin).hex(), "end": end.hex()}}
            found.append(mutation)
        return found


def shards(begins):
    """The shards that begin at these keys, in hex."""
    keys = [hexed(each) for each in begins]
    return [Shard(begin, end) for begin, end in zip(keys, keys[1:] + [None])]


def after(contents, batch, shard):
    """What a batch makes of the contents of a shard. It is read off the whole batch, and not off its clipped part."""
    made = dict(contents)
    for mutation in batch:
        ((name, what),) = mutation.items()
        if name == "clear":
            begin, end = hexed(what["begin"]), hexed(what["end"])
            for key in [key for key in made if begin <= key < end]:
                del made[key]
            continue
        key = hexed(what["key"])
        if shard.has(key):
            value = value_of(name, what, made.get(key))
            if value is None:
                made.pop(key, None)
            else:
                made[key] = value
    return made


class State(list):
    """The generations of a coordinated state, each (epoch, m, k, first, seeded_to), and how many were dropped before
    them."""

    def __init__(self, generations, dropped=0):
        super().__init__(generations)
        self.dropped = dropped

    def __eq__(self, other):
        return list.__eq__(self, other) and self.dropped == other.dropped

    def __ne__(self, other):
        return not self == other

    __hash__ = None

    def followed_by(self, generation):
        return State([*self, generation], self.dropped)

    def without(self, count):
        """Without its first generations, so many."""
        return State(self[count:], self.dropped + count)

    def begins_with(self, own):
        """Whether it begins with what is left of another state's generations, of which it may have dropped more."""
        more = self.dropped - own.dropped
        return more >= 0 and self[: max(0, len(own) - more)] == own[more:]

    def goes_on(self, own):
        """The same, where one at least is left."""
        return self.begins_with(own) and self.dropped - own.dropped < len(own)


def state_of(text):
    """The state that a value of a cell spells."""
    data = hexed(text)
    dropped = int.from_bytes(data[1:9], "big") if data[:1] == b"\x02" else 0
    data = data[9:] if dropped else data[1:] if data[:1] == b"\x01" else b""
    if not data or len(data) != 1 + 26 * data[0]:
        raise ValueError("no coordinated state")
    found = []
    for at in range(1, len(data), 26):
        number = lambda a, b: int.from_bytes(data[at + a : at + b], "big")
        found.append((number(0, 8), number(8, 9), number(9, 10), number(10, 18), number(18, 26)))
    return State(found, dropped)


def bytes_of(state):
    """The bytes of a state, in hex."""
    parts = [b"\x02" + state.dropped.to_bytes(8, "big") if state.dropped else b"\x01", bytes([len(state)])]
    for epoch, m, k, first, seeded_to in state:
        parts.append(epoch.to_bytes(8, "big") + bytes([m, k]) + first.to_bytes(8, "big") + seeded_to.to_bytes(8, "big"))
    return b"".join(parts).hex()


def state_in(it):
    """A state in a script's JSON: the list of its generations; if some were dropped, in an object with how many."""
    dropped, items = (it["dropped"], it["gens"]) if isinstance(it, dict) else (0, it)
    return State([(each["epoch"], each["m"], each["k"], each["first"], each["seeded_to"]) for each in items], dropped)


def json_of(state):
    items = [{"epoch": e, "m": m, "k": k, "first": f, "seeded_to": s} for e, m, k, f, s in state]
    return {"dropped": state.dropped, "gens": items} if state.dropped else items


def generation_of(state, epoch):
    """The generation of an epoch of a state."""
    return next(gen for gen in state if gen[0] == epoch)


def cut_of(state, epoch):
    """The version through which the generation after an epoch took over; none of the last one."""
    places = [at for at, gen in enumerate(state) if gen[0] == epoch]
    if not places or places[0] + 1 == len(state):
        return None
    return state[places[0] + 1][4]


def end_of(state, epoch):
    """The last version of a generation's own: that before the next one's first."""
    places = [at for at, gen in enumerate(state) if gen[0] == epoch]
    if not places or places[0] + 1 == len(state):
        return None
    return state[places[0] + 1][3] - 1


def source_of(state, version):
    """The last generation that starts at or below a version."""
    found = [gen for gen in state if gen[3] <= version]
    return found[-1][0] if found else None
