"""Coordinated states: their JSON in a journal, and their bytes in the value of a cell (docs/FORMATS.md)."""

NUMBERS = ("epoch", "m", "k", "first", "seeded_to")
WIDTHS = (8, 1, 1, 8, 8)
SIZE = sum(WIDTHS)


def gens(state):
    """The generations of a state; the oldest ones may be dropped."""
    return state["gens"] if isinstance(state, dict) else state


def dropped(state):
    return state["dropped"] if isinstance(state, dict) else 0


def state_of(generations, count):
    return {"dropped": count, "gens": generations} if count else generations


def spelled(state):
    """Its bytes, in hex: format 2 if generations were dropped, and else format 1."""
    head = b"\2" + dropped(state).to_bytes(8, "big") if dropped(state) else b"\1"
    fields = [gen[name].to_bytes(width, "big") for gen in gens(state) for name, width in zip(NUMBERS, WIDTHS)]
    return (head + bytes([len(gens(state))]) + b"".join(fields)).hex()


def read(value):
    """The state that such bytes spell, or None."""
    data = bytes.fromhex(value)
    count, data = (int.from_bytes(data[1:9], "big"), data[9:]) if data[:1] == b"\2" else (0, data[1:])
    if not data or len(data) != 1 + SIZE * data[0] or data[0] == 0:
        return None
    found = []
    for at in range(1, len(data), SIZE):
        gen = {}
        for name, width in zip(NUMBERS, WIDTHS):
            gen[name], at = int.from_bytes(data[at : at + width], "big"), at + width
        found.append(gen)
    return state_of(found, count)


def goes_on(state, own):
    """Whether a state begins with what it left of another one's generations, one at least."""
    more = dropped(state) - dropped(own)
    return 0 <= more < len(gens(own)) and gens(state)[: len(gens(own)) - more] == gens(own)[more:]


def cut_of(state, epoch):
    """The version through which the generation after an epoch took over, or None."""
    places = [at for at, gen in enumerate(gens(state)) if gen["epoch"] == epoch]
    return gens(state)[places[0] + 1]["seeded_to"] if places and places[0] + 1 < len(gens(state)) else None
