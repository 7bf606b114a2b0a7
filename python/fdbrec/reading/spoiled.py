"""Runs that are spoiled on purpose, in a copy of what was drawn: each must be found, by its name."""

import copy
import functools
import json

from . import batches, wrong
from .drawing import Drawn, Dropping
from .rules import FIRST, Fault
from .run import Run


def acts_of(script, kind):
    """The acts of a kind in the journals, by their stamps, each with its node."""
    found = [
        (entry["stamp"], journal["node"], entry["act"][kind])
        for journal in script["journals"]
        for entry in journal["entries"]
        if kind in entry["act"]
    ]
    return [each[1:] for each in sorted(found, key=lambda each: each[0])]


def tells(script, name):
    """What was told under this name, in the order of the run."""
    for node, act in acts_of(script, "asked"):
        ((_, tell),) = act["tell"].items()
        if name in tell:
            yield node, act, tell[name]


def a_row(lines, script):
    """A server's row has another value."""
    at = [place for place, line in enumerate(lines) if line.startswith("stands") and "=" in line]
    if not at:
        return False
    lines[at[-1]] += "07"
    return True


def above_the_cut(lines, script):
    """A server that rolled back stands one version further: at the mark, which changes no row."""
    stood = {}
    for place, line in enumerate(lines):
        words = line.split(" ")
        if words[0] == "stands":
            if words[2] != stood.get(words[1], "257"):
                words[3] = str(int(words[3]) + 1)
                epoch = int(words[2])
                cuts = [batches.state_in(it["state"]) for _, _, it in tells(script, "marked")]
                if any(state[-1][0] == epoch and state[-1][4] + 1 == int(words[3]) for state in cuts):
                    lines[place] = " ".join(words)
                    return True
            stood[words[1]] = words[2]
    return False


def too_early(lines, script):
    """A proxy of the first epoch says committed where not all logs hold the version, then or later."""
    holders = {}
    for node, _, held in tells(script, "held"):
        if node["log"]["epoch"] == FIRST:
            holders.setdefault(held["version"], set()).add(node["log"]["index"])
    for node, act in acts_of(script, "heard"):
        tell = act["tell"].get("log", {})
        is_waiting = "proxy" in node and act["outcome"] == {"waiting": {}} and "held" in tell
        if is_waiting and node["proxy"]["epoch"] == FIRST:
            version = tell["held"]["version"]
            if len(holders[version]) < script["config"]["logs"]:
                act["outcome"] = {"committed": {"version": version}}
                return True
    return False


def a_record(lines, script):
    """A log tells a record of another batch, and the one who asked hears that."""
    for _, _, peeked in tells(script, "peeked"):
        if peeked["records"]:
            peeked["records"][0]["batch"] = [{"set": {"key": "61", "value": "0707"}}]
            return True
    return False


def further(lines, script):
    """A log that is locked tells one version more than it holds."""
    for _, _, locked in tells(script, "locked"):
        locked["durable"] += 1
        return True
    return False


def less_taken_over(lines, script):
    """The state that is written takes over one version less, where that is acknowledged."""
    outcomes = [act["outcome"] or {} for _, act in acts_of(script, "heard")]
    kept = [it["committed"]["version"] for it in outcomes if "committed" in it]
    for _, act, _ in tells(script, "written"):
        ask = act["ask"]["cell"]["write"]
        state = batches.state_of(ask["value"])
        epoch, m, k, first, seeded_to = state[-1]
        if seeded_to in kept and first <= seeded_to:
            short = batches.bytes_of(batches.State([*state[:-1], (epoch, m, k, first, seeded_to - 1)], state.dropped))
            old = ask["value"]
            for _, other, _ in tells(script, "written"):
                if other["ask"]["cell"]["write"]["value"] == old:
                    other["ask"]["cell"]["write"]["value"] = short
            return True
    return False


SPOILS = [
    (a_row, "promises", "rows: "),
    (above_the_cut, "promises", "rollback: "),
    (too_early, "promises", "kept: "),
    (a_record, "promises", "agreement: "),
    (less_taken_over, "promises", "committed: "),
    (too_early, "rules", "is to say"),
    (a_record, "rules", "is to tell"),
    (further, "rules", "is to tell"),
    (above_the_cut, "rules", "is to stand at"),
]


def found(text, checks, skip=None):
    """The fault of what was printed."""
    try:
        Run(text, (checks,), skip).look()
    except Fault as fault:
        return str(fault)
    return None


def spoiled(worlds, seeds, spoil, checks, name):
    """Whether a run that is spoiled so is found to be so, in the first seed that can be."""
    for seed in seeds:
        text = worlds.text(seed, worlds.events, ())
        *lines, script = text.splitlines()
        script = json.loads(script)
        if spoil(lines, script):
            fault = found("\n".join(lines + [json.dumps(script)]), checks)
            print(f"{spoil.__name__}, by {checks}, in seed {seed}: {fault}")
            return fault is not None and name in fault
    print(f"{spoil.__name__}: no seed can be spoiled so")
    return False


def passed_over(worlds, seeds):
    """Whether a reading that passes over a batch is named in some seed; the events by which it is are made few."""
    worlds = copy.copy(worlds)
    worlds.skip, worlds.checks, worlds.audit = 3, ("promises",), None
    for seed in seeds:
        fault = worlds.fault(seed, list(range(worlds.events)))
        if fault:
            kept = worlds.shrunk(seed)
            print(f"version 3 passed over, in seed {seed}: {fault}")
            print(f"    the same by {len(kept)} events: {worlds.fault(seed, kept)}")
            return len(kept) < worlds.events // 4
    return False


def turned(worlds, seeds, rule):
    """Whether a run in which nodes keep a wrong rule is named by the promises in some seed, and by few events."""
    worlds = copy.copy(worlds)
    worlds.text, worlds.checks, worlds.audit = functools.partial(wrong.text_of, wrong=rule), ("promises",), None
    for seed in seeds:
        fault = worlds.fault(seed, list(range(worlds.events)))
        if fault:
            kept = worlds.shrunk(seed)
            print(f"{rule.__name__}, in seed {seed}: {fault}")
            print(f"    the same by {len(kept)} events: {worlds.fault(seed, kept)}")
            return len(kept) < worlds.events // 4
    print(f"{rule.__name__}: not found")
    return False


def is_right(seeds, events):
    """Whether the readings find nothing where nodes keep the rules."""
    texts = [wrong.text_of(seed, events, drawn=drawn) for seed in seeds for drawn in (Drawn, Dropping)]
    faults = [found(text, checks) for text in texts for checks in ("rules", "promises")]
    print(f"{len(faults)} readings of what is played by the rules, {len(faults) - faults.count(None)} with a fault")
    return faults.count(None) == len(faults)


def test(worlds, seeds):
    """The status: 0 where each is found."""
    good = [is_right(seeds[:10], worlds.events)]
    good += [turned(worlds, seeds, rule) for rule in wrong.WRONG]
    good += [spoiled(worlds, seeds, *each) for each in SPOILS] + [passed_over(worlds, seeds)]
    print(f"{sum(good)} of {len(good)} as it is to be")
    return 0 if all(good) else 1
