"""Scenarios (scenarios/README.md): what their texts say, and who plays which row.

What the C library has calls for is played over it, from Python (play_library.py) and from Rust. All else is played by
the program test_scenarios (play_scenarios.py), which is asked row by row. Each row has a player; `counts` says how many
each is to play.
"""

from __future__ import annotations

import glob
import json
import os
import re
from typing import NamedTuple

TOP = os.path.dirname(os.path.dirname(os.path.dirname(os.path.realpath(__file__))))
SCENARIOS = f"{TOP}/scenarios"

# The rows of each machine for which the C library has calls, by the word of the first row.
LIBRARY = {
    "cell": {"ask", "state"},
    "log": {"ask", "state"},
    "sequencer": {"ask", "state"},
    "proxy": {"submit", "hear", "pending", "state"},
    "recoverer": {"hear", "pending", "state"},
    "storage": {"hear", "follow", "next", "position", "rows", "read"},
    "store": {"apply", "undo", "forget", "get"},
}
# Rows for which it has none, and that change nothing: they are left out there, and others follow.
UNCHANGING = {"made", "generation", "generations", "copied", "take_back", "failed", "state", "rows", "kept", "undone"}
UNCHANGING |= {"get_at", "range", "lent", "lent_rows", "lent_bytes"}
# Machines of which test_scenarios plays only the scenarios with a row for which the library has no call, and the rows
# that it has of them. Of all others it plays each row.
APART = {
    "cell": set(),
    "log": {"ask", "state", "take_back", "made"},
    "sequencer": set(),
    "proxy": {"made"},
    "recoverer": {"hear", "generation", "copied", "made"},
}

# How many times a row has its bytes read.
EACH_BYTE = {"changed": 512, "without": 100, "fronts": 100, "sweep": 100}


class Row(NamedTuple):
    """A row: its line, its word, what is given with it, and what is wanted, as texts; None if it has no arrow."""

    line: int
    word: str
    given: str
    wanted: str | None


class Scenario(NamedTuple):
    name: str
    line: int
    rows: list[Row]

    @property
    def about(self):
        """The word of the first row."""
        return self.rows[0].word


class Bad(Exception):
    """A line that is in no form, or a scenario without rows: the line, and why."""


def files():
    """The paths of all files of scenarios."""
    return sorted(set(glob.glob(f"{SCENARIOS}/*.md")) - {f"{SCENARIOS}/README.md"})


def read(path):
    with open(path, encoding="utf-8") as it:
        return scenarios(it.read())


def scenarios(text):
    """The scenarios of a text."""
    names, found, row = {}, [], None
    for number, line in enumerate([*text.splitlines(), ""], 1):
        if re.match(r" {5,}\S", line):
            if row is None:
                raise Bad(number, "no row goes on here")
            row[1] += f" {line.strip()}"
            continue
        if row:
            take(row, names, found)
            row = None
        if line.startswith("## "):
            found.append(Scenario(line[3:].strip(), number, []))
        elif line.startswith("    ") and line.strip():
            row = [number, line.strip()]
        elif re.match(r"\s+\S", line) or '{"' in line:
            raise Bad(number, "a row begins with four blanks, and prose with none and has no JSON")
    for scenario in found:
        whole(scenario)
    return found


def take(row, names, found):
    number, text = row
    if not found:
        let = re.fullmatch(r"let ([^=]*)=(.*)", text, re.S)
        name = let and let[1].strip()
        if not name or any(name.startswith(it) or it.startswith(name) for it in names):
            raise Bad(number, "this is not let NAME = TEXT, or the name begins as another one")
        names[name] = filled(number, let[2].strip(), names)
        return
    left, arrow, wanted = filled(number, text, names).partition("->")
    word, _, given = left.strip().partition(" ")
    found[-1].rows.append(Row(number, word, given.strip(), wanted.strip() if arrow else None))


def filled(number, text, names):
    """A text in which what a name stands for is in the place of `$NAME`. No name begins with another one."""
    first, *rest = text.split("$")
    for piece in rest:
        name = next((it for it in names if piece.startswith(it)), None)
        if name is None:
            raise Bad(number, f"no let NAME = TEXT gives ${piece[:20]}")
        first += names[name] + piece[len(name) :]
    return first


def whole(scenario):
    rows = scenario.rows
    if len(rows) < 2:
        raise Bad(scenario.line, "a scenario without rows that compare anything")
    for row in rows:
        if (row.wanted is None) != (row is rows[0]):
            raise Bad(row.line, "the first row makes something and has no arrow; each other one has one")
    return scenario


# ---- who plays what


def is_apart(scenario):
    """Whether the library alone plays a scenario."""
    about = scenario.about
    return about in APART and all(row.word in LIBRARY[about] for row in scenario.rows[1:])


def of_player(scenario):
    """The rows that test_scenarios plays."""
    if is_apart(scenario):
        return []
    has = APART.get(scenario.about)
    return [row for row in scenario.rows[1:] if has is None or row.word in has]


def of_library(scenario):
    """The rows that are played over the C library: up to the first one for which it has no call and that changes
    something."""
    calls, found = LIBRARY.get(scenario.about), []
    for row in scenario.rows[1:] if calls else []:
        if row.word in calls:
            found.append(row)
        elif row.word not in UNCHANGING:
            break
    return found


def unplayed(scenario):
    """The rows that nobody plays."""
    played = {row.line for row in (*of_player(scenario), *of_library(scenario))}
    return [row for row in scenario.rows[1:] if row.line not in played]


class Count:
    """How many scenarios, and how many of their rows."""

    def __init__(self, scenarios=0, rows=0):
        self.scenarios, self.rows = scenarios, rows

    def add(self, rows):
        self.scenarios += rows > 0
        self.rows += rows

    def __eq__(self, other):
        return (self.scenarios, self.rows) == (other.scenarios, other.rows)

    def __str__(self):
        return f"{self.scenarios:,} scenarios, {self.rows:,} rows"


def counts(paths=None):
    """Worked out from the texts alone: how many scenarios and rows there are, how many are played by test_scenarios,
    over the C library, and over it alone; and the places of those that nobody plays."""
    every, player, library, alone, nobody = Count(), Count(), Count(), Count(), []
    for path in paths or files():
        for scenario in read(path):
            every.add(len(scenario.rows) - 1)
            by_player, by_library = of_player(scenario), of_library(scenario)
            player.add(len(by_player))
            library.add(len(by_library))
            lines = {row.line for row in by_player}
            alone.add(sum(row.line not in lines for row in by_library))
            nobody += [f"{os.path.basename(path)}:{row.line}" for row in unplayed(scenario)]
    return every, player, library, alone, nobody


def cost(rows):
    """About how long rows take, in bytes that the program is asked."""
    return sum(len(row.given) * EACH_BYTE.get(row.word, 1) + len(row.wanted or "") for row in rows)


def kinds(rows_of, paths=None):
    """Of each kind of row, by the words of the first row and of its own, the one with the least before it: the name of
    its file, its scenario, and the rows up to it. `rows_of` are those of a scenario that are looked at."""
    found = {}
    for path in paths or files():
        for scenario in read(path):
            rows = rows_of(scenario)
            for at, row in enumerate(rows, 1):
                kind, price = (scenario.about, row.word), cost(rows[:at])
                if kind not in found or price < found[kind][0]:
                    found[kind] = (price, (os.path.basename(path), scenario, rows[:at]))
    return [it for _, it in found.values()]


def changed(rows):
    """Rows in which something else is wanted of the last one: in its answer, and of a sweep in those within it."""
    yield [*rows[:-1], other(rows[-1])]
    if rows[-1].word == "sweep":
        it = json.loads(rows[-1].given)
        for name, at in (("asks", 0), ("asks", -1), ("then", 0), ("then", -1)):
            asks = [list(ask) for ask in it[name]]
            asks[at][2] = another(asks[at][2])
            yield [*rows[:-1], rows[-1]._replace(given=json.dumps({**it, name: asks}))]


def other(row):
    """A row of which something else is wanted."""
    return row._replace(wanted=json.dumps(another(json.loads(row.wanted))))


def another(it):
    if isinstance(it, bool) or it is None:
        return not it
    if isinstance(it, list):
        return [*it, 0]
    if isinstance(it, dict):
        return {**it, "other": 0}
    return it + 1 if isinstance(it, int) else f"{it}0"


def value(text):
    """The JSON that is given with a row, or wanted; None where nothing is given."""
    return json.loads(text) if text else None
