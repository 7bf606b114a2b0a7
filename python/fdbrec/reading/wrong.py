"""Worlds in which nodes keep a wrong rule: runs that the promises forbid, so that it is seen that they name it."""

from . import batches, nodes, rules
from .drawing import Drawn, Dropping


def commit_by_half(proxy, node, tell):
    """A proxy says committed once half of the logs hold a version."""
    m, proxy.m = proxy.m, max(1, proxy.m // 2)
    outcome = RIGHT[rules.Proxy, "hear"](proxy, node, tell)
    proxy.m = m
    return outcome


def known_alone(recoverer):
    """The next epoch takes over what is known to be committed, and not all that may be."""
    replies = recoverer.replies
    pev = max(known for _, known, _ in replies.values())
    recoverer.replies = {at: (pev, known, popped) for at, (_, known, popped) in replies.items()}
    RIGHT[rules.Recoverer, "plan"](recoverer)
    recoverer.replies = replies


def opened_as_first(world, generation, last, known):
    """The proxies of each epoch count its logs as those of the first one."""
    epoch, _, k, first, seeded_to = generation
    RIGHT[nodes.Nodes, "open"](world, (epoch, world.config["logs"], k, first, seeded_to), last, known)


def below_promise(cell, name, what):
    """A cell takes a write below what it promised."""
    if name == "write":
        cell.promised = min(cell.promised, what["ballot"])
    return RIGHT[rules.Cell, "ask"](cell, name, what)


def never_stopped(log, _):
    """A log that is locked goes on taking pushes."""
    return {"locked": {"durable": log.durable, "known": log.known, **log.shown()}}


def popped_above_known(log, pop):
    """A log pops through what it is asked, and not through what is known."""
    known, log.known = log.known, pop["through"] + 3
    tell = RIGHT[rules.Log, "pop"](log, {**pop, "through": pop["through"] + 3})
    log.known = known
    return tell


def dropped_by_the_greatest(recoverer, shown):
    """A recoverer drops what one tag's server is past, and not what all are."""
    return max(shown[tag] for tag in range(recoverer.tags))


def newest_cut(storage, state, taken):
    """A server undoes to the last generation's cut, and not to that of the epoch that it leaves."""
    if state.goes_on(storage.state) and taken is None and state != storage.state:
        storage.version, storage.state = min(storage.version, state[-1][4]), state
        return None
    return RIGHT[rules.Storage, "hear_marked"](storage, state, taken)


def never_undone(storage, state, taken):
    """A server keeps the state that it hears, and undoes nothing."""
    if state.goes_on(storage.state) and taken is None:
        storage.state = state
        return None
    return RIGHT[rules.Storage, "hear_marked"](storage, state, taken)


WRONG = {
    commit_by_half: (rules.Proxy, "hear"),
    known_alone: (rules.Recoverer, "plan"),
    opened_as_first: (nodes.Nodes, "open"),
    below_promise: (rules.Cell, "ask"),
    never_stopped: (rules.Log, "lock"),
    popped_above_known: (rules.Log, "pop"),
    dropped_by_the_greatest: (rules.Recoverer, "passed"),
    newest_cut: (rules.Storage, "hear_marked"),
    never_undone: (rules.Storage, "hear_marked"),
}
# A rule that shows in worlds of a drawing of its own.
DRAWN = {dropped_by_the_greatest: Dropping}
RIGHT = {place: getattr(*place) for place in WRONG.values()}


def text_of(seed, events, without=(), wrong=None, drawn=None):
    """What is printed of a seed; with a wrong rule in place of the right one."""
    if wrong:
        setattr(*WRONG[wrong], lambda *words: wrong(*words))
    try:
        return (drawn or DRAWN.get(wrong, Drawn))(seed).play(events, without).text()
    finally:
        for place, right in RIGHT.items():
            setattr(*place, right)
