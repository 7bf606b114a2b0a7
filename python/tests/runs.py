"""A small run, written by hand from docs/PROTOCOL.md: one cell, one log, one shard. A batch is numbered 2, held, and
acknowledged; the storage server asks for it and applies it."""

import copy

CONFIG = {"coordinators": 1, "degree": 1, "logs": 1, "proxies": 1, "shards": [""]}
PROXY, SEQUENCER = {"proxy": {"epoch": 257, "number": 0}}, {"sequencer": {"epoch": 257}}
LOG, STORAGE = {"log": {"epoch": 257, "index": 0}}, {"storage": {"tag": 0}}
BATCH = [{"set": {"key": "61", "value": "01"}}]
NEXT = {"seq": {"next": {"proxy": 0, "request": 1, "step": 1}}}
NUMBERED = {"seq": {"numbered": {"prev": 1, "request": 1, "version": 2}}}
PUSH = {"bodies": [[0, BATCH]], "epoch": 257, "known": 0, "mark": None, "prev": 1, "version": 2}
HELD = {"log": {"held": {"version": 2}}}
PEEK = {"log": {"peek": {"after": 0, "epoch": 257, "most": 100, "tag": 0}}}
PEEKED = {"log": {"peeked": {"after": 0, "known": 0, "records": [{"batch": BATCH, "version": 2}], "tag": 0, "upto": 2}}}


def entry(stamp, word, **what):
    return {"act": {word: what}, "stamp": stamp}


def asked(stamp, by, ask, tell):
    return entry(stamp, "asked", ask=ask, tell=tell, **{"from": by})


def heard(stamp, by, tell, outcome=None):
    return entry(stamp, "heard", outcome=outcome, taken=None, tell=tell, **{"from": by})


OF_PROXY = [
    entry(1, "submitted", batch=BATCH, step=1),
    heard(3, SEQUENCER, NUMBERED, {"waiting": {}}),
    heard(5, LOG, HELD, {"committed": {"version": 2}}),
]
ENTRIES = {
    "proxy": (PROXY, OF_PROXY, {"known": 2}),
    "sequencer": (SEQUENCER, [asked(2, PROXY, NEXT, NUMBERED)], {"last": 2}),
    "log": (
        LOG,
        [asked(4, PROXY, {"log": {"push": PUSH}}, HELD), asked(6, STORAGE, PEEK, PEEKED)],
        {"durable": 2, "known": 0, "seeded": True, "stopped": False},
    ),
    "storage": (STORAGE, [heard(7, LOG, PEEKED)], {"epoch": 257, "floor": 0, "rows": [["61", "01"]], "version": 2}),
}


def script():
    """The run as a script of `audit`."""
    journals = [{"entries": its, "last": {kind: last}, "node": node} for kind, (node, its, last) in ENTRIES.items()]
    return copy.deepcopy({"config": CONFIG, "journals": journals})


def journal(script, kind):
    return next(it for it in script["journals"] if kind in it["node"])
