#!/usr/bin/env python3
"""play_library.py [--changed] [FILE..]: plays the scenarios of the machines that fdbrec.library wraps.

Every tell is compared.

The files are those of scenarios/, whose README.md says what a row is; none named: all. A row that the library does not
have is left out if it changes nothing, as `made`; else the scenario is played up to it (scenes.py has both lists). The
last line says how many scenarios and rows were played; the status is 1 where something differs, and where these are not
as many as the texts have. With --changed another value is wanted in a row of each kind, and must be told.
"""

from __future__ import annotations

import json
import os
import sys

sys.path.insert(0, os.path.dirname(os.path.dirname(os.path.realpath(__file__))))

from fdbrec import library
from tests import scenes

# names of refusals by fault: a scenario tells which one, the library that it is one
REFUSALS = {"TwoOpen", "Over", "Older", "Stranger", "BelowFloor", "NotMyGeneration", "Hole", "NotAfter", "AboveApplied"}


# ---- machines


def batch_of(mutations):
    batch = library.Batch()
    for mutation in mutations:
        ((name, it),) = mutation.items()
        if name == "clear":
            batch.clear(bytes.fromhex(it["begin"]), bytes.fromhex(it["end"]))
        else:
            operand = it["param"] if "param" in it else it["value"]
            batch.atomic(name, bytes.fromhex(it["key"]), bytes.fromhex(operand))
    return batch


def made(word, it):
    """The machine that the first row of a scenario makes."""
    keys = [bytes.fromhex(key) for key in it.get("shards", [])] if isinstance(it, dict) else []
    if word == "cell":
        return library.Cell()
    if word == "log":
        return library.Log(it["epoch"], it["index"], it["m"], it["k"])
    if word == "sequencer":
        return library.Sequencer(it["epoch"], it["last"])
    if word == "proxy":
        return library.Proxy(it["epoch"], it["number"], it["m"], it["k"], it["known"], keys)
    if word == "recoverer":
        shape = (it["logs"], it["degree"]) if "logs" in it else None
        return library.Recoverer(it["ballot"], it["coordinators"], keys, shape)
    if word == "storage":
        return library.Storage(it["tag"], it["state"])
    return library.Store()


KINDS = {library.Cell: "cell", library.Log: "log", library.Sequencer: "seq"}


def told(machine, word, it):
    """What a machine tells in a row, in the form of a scenario."""
    return CALLS[type(machine).__name__.lower(), word](machine, it)


def ask(machine, it):
    kind = KINDS[type(machine)]
    return machine.ask({kind: it})[kind]


def state(machine, _):
    ((_, last),) = machine.last().items()
    return last


def position(machine, _):
    return {name: number for name, number in state(machine, None).items() if name != "rows"}


def hear_proxy(machine, it):
    heard = machine.hear(it["from"], it["tell"])
    return {"asks": pairs(heard.asks), "outcome": heard.outcome}


def submit(machine, it):
    heard = machine.submit(it["step"], batch_of(it["batch"]))
    ((_, number),) = heard.asks
    return number


def follow(machine, it):
    heard = machine.hear({"log": {"epoch": it["epoch"], "index": 0}}, it["tell"])
    return None if heard == ([], None) else heard


def pairs(asks):
    return [list(it) for it in asks]


def get(machine, it):
    value = machine.get(bytes.fromhex(it))
    return None if value is None else value.hex()


def read(machine, it):
    begin, end = it["shard"]["begin"], it["shard"]["end"]
    shard = (bytes.fromhex(begin), None if end is None else bytes.fromhex(end))
    value = machine.read(shard, bytes.fromhex(it["key"]), it["version"])
    return None if value is None else value.hex()


CALLS = {
    ("cell", "ask"): ask,
    ("log", "ask"): ask,
    ("sequencer", "ask"): ask,
    ("proxy", "hear"): hear_proxy,
    ("proxy", "submit"): submit,
    ("recoverer", "hear"): lambda machine, it: pairs(machine.hear(it["from"], it["tell"]).asks),
    ("proxy", "pending"): lambda machine, _: pairs(machine.next()),
    ("recoverer", "pending"): lambda machine, _: pairs(machine.next()),
    ("storage", "follow"): follow,
    ("storage", "hear"): follow,
    ("storage", "next"): lambda machine, _: machine.next()[0][1],
    ("storage", "position"): position,
    ("storage", "read"): read,
    ("storage", "rows"): lambda machine, _: state(machine, None)["rows"],
    ("store", "apply"): lambda machine, it: machine.apply(it["version"], batch_of(it["batch"])),
    ("store", "undo"): lambda machine, it: machine.undo_to(it),
    ("store", "forget"): lambda machine, it: machine.forget_through(it),
    ("store", "get"): get,
} | {(kind, "state"): state for kind in ("cell", "log", "sequencer", "proxy", "recoverer")}


def play(scenario, rows=None):
    """Plays a scenario, or these rows of it: how many were played, and (line, told, wanted) of the first that does not
    hold."""
    rows, count = scenes.of_library(scenario) if rows is None else rows, 0
    if not rows:
        return 0, None
    with made(scenario.about, scenes.value(scenario.rows[0].given)) as machine:
        for row in rows:
            try:
                said = told(machine, row.word, scenes.value(row.given))
            except library.Refused:
                said = "refused"
            except library.Fault as fault:
                said = type(fault).__name__
            want = scenes.value(row.wanted)
            if json.dumps(said, sort_keys=True) != json.dumps("refused" if refuses(want) else want, sort_keys=True):
                return count, (row.line, said, want)
            count += 1
    return count, None


def tell_changes(paths):
    """Of each kind of row one in which something else is wanted is told, in its line."""
    kinds = scenes.kinds(scenes.of_library, paths)
    bad = 0
    for name, scenario, rows in kinds:
        (changed,), row = scenes.changed(rows), rows[-1]
        _, differs = play(scenario, changed)
        if differs is None or differs[0] != row.line:
            bad += 1
            print(f"{name}:{row.line}: {row.word} of {scenario.about}: another value that is wanted is not told")
    print(f"{len(kinds)} kinds of rows, changed: {bad} not told")
    return 1 if bad or not kinds else 0


def refuses(want):
    return isinstance(want, str) and want in REFUSALS


def main(words):
    paths = [it for it in words if it != "--changed"]
    if "--changed" in words:
        return tell_changes(paths)
    played, bad = scenes.Count(), 0
    for path in paths or scenes.files():
        for scenario in scenes.read(path):
            count, differs = play(scenario)
            played.add(count)
            if differs:
                bad += 1
                line, said, wanted = differs
                print(f"{os.path.basename(path)}:{line}: {scenario.name}: told {json.dumps(said)}")
                print(f"    wanted {json.dumps(wanted)}")
    _, _, texts, _, _ = scenes.counts(paths)
    if played != texts and not bad:
        print(f"the texts have {texts} that the library has calls for")
    print(f"{played} played; {bad} differ")
    return 1 if bad or played != texts or not played.rows else 0


if __name__ == "__main__":
    sys.exit(main(sys.argv[1:]))
