"""Journals as they are given: in one script of `audit`, or as lines, an entry each, in one or several files. `Journals`
keeps each entry in little room, and hands all of them out in the order of an audit.

A line is one object, of three kinds:

    {"config":CONFIG}                      the config, in the first line of the first file; in others it may stand again
    {"act":ACT,"node":NODE,"stamp":N}      an entry of a node; the stamps of a node rise
    {"last":LAST,"node":NODE}              where a node was at last, behind its entries
"""
import array
import json
import re

from . import forms, places, quick, schemas, values

KINDS = ("cell", "log", "sequencer", "proxy", "recoverer", "storage")
READ = json.JSONDecoder().decode
ENCODE = json.JSONEncoder(sort_keys=True, separators=(",", ":")).encode
REF = "audit.json#/$defs/"
# the end of an entry's line: its node and its stamp
TAIL = re.compile(rb',"node":(\{"[a-z]{1,9}":\{[a-z0-9":,]{1,80}\}\}),"stamp":([0-9]{1,13})\}\s*\Z')
# a kind of line: the member by which it is known, its form, and what its members are of
LINES = (
    ("config", forms.members(config=forms.CONFIG), {"config": "common.json#/$defs/config"}),
    ("act", forms.members(act=forms.ACT, node=forms.NODE, stamp=forms.number(0, 2**40 - 1)),
     {"act": REF + "act", "node": REF + "node"}),
    ("last", forms.members(last=forms.or_null(forms.LAST), node=forms.NODE),
     {"last": REF + "last", "node": REF + "node"}),
)
NO_LINE = ", wanted an object of config, of act, node, stamp, or of last, node"


class BadScript(Exception):
    """Why a script is none: the place, what is there, and what is wanted."""


def place_of(name):
    """What nodes are ordered by: their kind, and its numbers in the order of their names (epoch before index)."""
    ((kind, it),) = name.items()
    return KINDS.index(kind), [it[each] for each in sorted(it)]


class Journals:
    """Config, journals with their nodes and last states, and entries: of each its stamp, the number of its journal and
    its act; of lines the text of the act, since values take ten times the room. `is_late` says that such texts are
    looked at when they are taken: what is bad is then known late, and where, `lines` says."""

    def __init__(self):
        self.config, self.names, self.lasts, self.is_late = None, [], [], False
        self.known, self.newest = {}, []  # of lines: the journal of a node; its newest stamp, or None if it is closed
        self.stamps, self.owners, self.acts = array.array("q"), array.array("l"), []

    def journal(self, name, last=None):
        """The number of a journal that is new."""
        self.names.append(json.loads(ENCODE(name)))
        self.lasts.append(last)
        self.newest.append(-1)
        return len(self.names) - 1

    def node(self, name):
        """The number of the journal of a node."""
        text = ENCODE(name)
        if text not in self.known:
            self.known[text] = self.journal(name)
        return self.known[text]

    def enter(self, owner, stamp, act):
        self.stamps.append(stamp)
        self.owners.append(owner)
        self.acts.append(act)

    def order(self):
        """The numbers of journals in the order of their nodes, and those of entries in theirs."""
        places = [place_of(it) for it in self.names]
        ranks = {json.dumps(place): rank for rank, place in enumerate(sorted(places))}
        rank = [ranks[json.dumps(place)] for place in places]
        keys = [stamp * len(rank) + rank[owner] for stamp, owner in zip(self.stamps, self.owners)]
        return sorted(range(len(rank)), key=rank.__getitem__), sorted(range(len(keys)), key=keys.__getitem__)

    # ---- a script

    def script(self, value):
        """Takes a script of `audit`. A node may have several journals in it: the audit says so of it."""
        self.config = value["config"]
        for journal in value["journals"]:
            owner = self.journal(journal["node"], journal["last"])
            for entry in journal["entries"]:
                self.enter(owner, entry["stamp"], entry["act"])
        return self

    def act(self, number):
        """The act of an entry."""
        act = self.acts[number]
        if isinstance(act, dict):
            return act
        if not self.is_late:
            return READ(act.decode())
        try:
            value = schemas.read(act)
        except schemas.Bad as why:
            raise BadScript(str(why)) from None
        if not quick.is_of(value, REF + "act"):
            raise BadScript("an act of another form")
        return value

    # ---- lines

    def line(self, data, number, where):
        """Takes a line."""
        try:
            value = schemas.read(data)
        except schemas.Bad as why:
            raise BadScript(where + (places.said_by(LINES[1][1], data, number) or str(why))) from None
        kind, form, parts = next((it for it in LINES if isinstance(value, dict) and it[0] in value), LINES[1])
        if not isinstance(value, dict) or kind not in value:
            raise BadScript(f"{where}line {number}, column 1: {values.said((), value, NO_LINE)}")
        is_of = len(value) == len(form[1]) and all(it in value for it in form[1])
        is_null = kind == "last" and is_of and value["last"] is None
        is_of = is_of and all(is_null and name == "last" or quick.is_of(value[name], of) for name, of in parts.items())
        stamp = value.get("stamp", 0)
        if not is_of or type(stamp) is not int or not 0 <= stamp < 2**40:
            together = f"line {number}, column 1: found an object{places.NOT_TOGETHER}"
            raise BadScript(where + (places.said_by(form, data, number) or together))
        lack = getattr(self, f"take_{kind}")(value)
        if lack:
            raise BadScript(f"{where}line {number}: {lack}")

    def take_config(self, value):
        if self.config is not None and value["config"] != self.config:
            return "config: found another one than before"
        self.config = value["config"]
        return None

    def take_act(self, value):
        owner, stamp = self.node(value["node"]), value["stamp"]
        if self.newest[owner] is None:
            return f"found an entry of {ENCODE(value['node'])} behind its last state"
        if stamp <= self.newest[owner]:
            return f"stamp: found {stamp}, wanted a number above {self.newest[owner]}"
        self.newest[owner] = stamp
        self.enter(owner, stamp, ENCODE(value["act"]).encode())
        return None

    def take_last(self, value):
        owner = self.node(value["node"])
        if self.newest[owner] is None:
            return f"found a second last state of {ENCODE(value['node'])}"
        self.newest[owner], self.lasts[owner] = None, value["last"]
        return None


    def late_lines(self, files, heed):
        """The same as `lines`, of lines whose members stand in order; the form of acts is looked at late."""
        self.is_late, count, owners = True, 0, {}
        for _, data in files:
            for line in data.split(b"\n"):
                count += 1
                if count % 10_000 == 0:
                    heed(count)
                found = TAIL.search(line, max(0, len(line) - 200)) if line.startswith(b'{"act":') else None
                if not found:
                    if line.strip():
                        self.line(line, count, "")
                    continue
                if found[1] not in owners:
                    node = json.loads(found[1].decode())
                    if not quick.is_of(node, REF + "node"):
                        raise BadScript("a node of another form")
                    owners[found[1]] = self.node(node)
                owner, stamp = owners[found[1]], int(found[2])
                if self.newest[owner] is None or stamp <= self.newest[owner] or stamp >= 2**40:
                    raise BadScript("a stamp that does not rise, or an entry behind a last state")
                self.newest[owner] = stamp
                self.enter(owner, stamp, line[7 : found.start()])
        if self.config is None:
            raise BadScript("no line has the config")
        return self

    def lines(self, files, heed):
        """Takes files of lines, each a name and its bytes; `heed` is told now and then how many lines are taken."""
        count = 0
        for name, data in files:
            where = f"{name}, " if len(files) > 1 else ""
            for number, line in enumerate(data.split(b"\n"), 1):
                if line.strip():
                    self.line(line, number, where)
                count += 1
                if count % 10_000 == 0:
                    heed(count)
        if self.config is None:
            raise BadScript("no line has the config")
        return self


def are_lines(data):
    """Whether input is lines: there are several, and the first one is an object that is no script."""
    first, _, rest = data.partition(b"\n")
    if len(first) > 1_000_000 or not rest.strip():
        return False
    try:
        value = json.loads(first.decode("utf-8"))
    except (ValueError, RecursionError):
        return False
    return isinstance(value, dict) and "journals" not in value and any(kind in value for kind, _, _ in LINES)
