"""Drawn worlds as scenarios: texts that `crates/test_scenarios` plays, with what is wanted worked out by the rules."""

import json
import re

WIDTH = 120
LETTERS = "abcdefghijklmnopqrstuvwxyz"


def json_of(it):
    return json.dumps(it, separators=(",", ":"))


def name_of(node):
    """The name that stands for a node in the rows of a file; none is the beginning of another."""
    ((kind, it),) = node.items()
    first, *rest = it.values()
    if kind in ("cell", "storage"):
        return f"{kind}{LETTERS[first]}" if first < 26 else None
    return f"{kind}{first}{LETTERS[rest[0] if rest else 0]}"


def rows_of(world):
    """The rows of a world's scenario: the config, each event, where a storage server stands where it came to stand
    elsewhere, with reads of it, and at the end where each node stands, how many turns there were and what comes of all
    events anew."""
    found = [f"world {json_of(world.config)}"]
    stood = {}
    for word, given, wanted, last, reads in world.rows:
        found.append(f"{word} {json_of(given)} -> {json_of(wanted)}")
        if last is not None and stood.get(json_of(given["by"])) != last:
            stood[json_of(given["by"])] = last
            found.append(f"state {json_of(given['by'])} -> {json_of(last)}")
            found += [f"read {json_of(it)} -> {json_of(answer)}" for it, answer in reads]
    events = world.events
    for text in sorted(events.journals):
        name = json.loads(text)
        if "storage" not in name:
            found.append(f"state {json_of(name)} -> {json_of(events.last(name))}")
    found.append(f"turns -> {events.stamp}")
    refused = [at for at, row in enumerate(world.rows) if isinstance(row[2], str)]
    again = {"event": refused[0], "why": world.rows[refused[0]][2]} if refused else events.stamp
    return found + [f"replay -> {json_of(again)}"]


def wrapped(row):
    """The lines of a row, which goes on behind commas that stand in no text, and before its arrow."""
    lines, line = [], "    "
    for part in re.findall(r'(?: -> )?(?:"[^"]*"|(?! -> )[^,"])+,?', row):
        if len(line) + len(part) > WIDTH and line.strip():
            lines.append(line.rstrip())
            line = "        "
        line += part if line.strip() else part.lstrip()
    return lines + [line]


# nodes, the bytes of a cell's value, and coordinated states
NODES = r'\{"(?:cell|log|sequencer|proxy|recoverer|storage)":\{(?:"\w+":\d+,?)+\}\}'
BYTES = r"\b(?:01|02[0-9a-f]{16})[0-9a-f]{2}(?:[0-9a-f]{52})+"
STATES = r'\[\{"epoch":\d+,"m":\d+,[^]]*\]'


def found_in(pattern, text, times):
    """What a pattern finds so many times or more."""
    counts = {}
    for it in re.findall(pattern, text):
        counts[it] = counts.get(it, 0) + 1
    return sorted(it for it in counts if counts[it] >= times)


def names_in(texts):
    """The names of what stands in some rows three times or more, and of bytes of states, which no line could have: each
    with what it stands for. The bytes are those of generations, which have names too."""
    text = "\n".join(texts)
    nodes = {node: name_of(json.loads(node)) for node in found_in(NODES, text, 3)}
    names = [(name, node) for node, name in nodes.items() if name]
    values = found_in(BYTES, text, 1)
    fronts = {it: 4 if it.startswith("01") else 20 for it in values}
    pieces = {it: re.findall(".{52}", it[fronts[it] :]) for it in values}
    gens = sorted({each for it in values for each in pieces[it]})
    names += [(f"gen{number:03}", it) for number, it in enumerate(gens)]
    of_gens = {it: f"$gen{number:03}" for number, it in enumerate(gens)}
    spelled = {it: it[: fronts[it]] + "".join(of_gens[each] for each in pieces[it]) for it in values}
    names += [(f"bytes{number:03}", spelled[it]) for number, it in enumerate(values)]
    states = found_in(STATES, text, 3)
    names += [(f"state{number:03}", it) for number, it in enumerate(states)]
    stands = {name: it for name, it in names} | {f"bytes{number:03}": it for number, it in enumerate(values)}
    return names, {it: f"${name}" for name, it in stands.items() if not name.startswith("gen")}


def page(title, prose, worlds):
    """The text of a file of scenarios: worlds, each with its heading."""
    each = [(heading, rows_of(world)) for heading, world in worlds]
    names, stands = names_in([row for _, rows in each for row in rows])
    lines = [f"# {title}", "", *prose, ""]
    for name, it in names:
        lines += wrapped(f"let {name} = {it}")
    # (a longer text first: a value may begin with another one)
    any_of_them = re.compile("|".join(re.escape(it) for it in sorted(stands, key=len, reverse=True)))
    for heading, rows in each:
        lines += ["", f"## {heading}", ""]
        for row in rows:
            lines += wrapped(any_of_them.sub(lambda found: stands[found[0]], row))
    return "\n".join(lines) + "\n"
