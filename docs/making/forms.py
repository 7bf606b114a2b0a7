"""The table of forms as the program test_forms prints it: its rows in docs/FORMATS.md, and the schemas made of it."""
import json
import re

from making.sources import read

PRINTED = "crates/test_forms/stdout"

# Where forms stand in the table: the names of members, a number in an array of fixed length, * for an item of a list,
# and [ for the array where an array or an object may stand.
ACT = "audit journals * entries * act"
ASK, TELL = f"{ACT} asked ask", f"{ACT} asked tell"
# what the rows of the page are called, and their forms
ROWS = [
    ("node", "audit journals * node"), ("act", ACT), ("ask", ASK), ("tell", TELL),
    ("ask of a cell", f"{ASK} cell"), ("tell of a cell", f"{TELL} cell"),
    ("ask of a log", f"{ASK} log"), ("tell of a log", f"{TELL} log"), ("why of a log", f"{TELL} log refused why"),
    ("ask of a sequencer", f"{ASK} seq"), ("tell of a sequencer", f"{TELL} seq"),
    ("why of a sequencer", f"{TELL} seq refused why"),
    ("outcome", f"{ACT} heard outcome"), ("last state", "audit journals * last"),
]
# wrappers of a form
AROUND = ("part", "or null", "maybe")


class Forms:
    """The forms of the scripts of all commands."""

    def __init__(self):
        self.scripts = json.loads(read(PRINTED))

    def at(self, path):
        """The form of a place."""
        name, *steps = path.split()
        form = self.scripts[name]
        for step in steps:
            while form[0] in AROUND or form[0] == "either" and step != "[":
                form = form[-1]
            form = form[1] if step in "*[" else form[1][int(step) if step.isdigit() else step]
        while form[0] in AROUND:
            form = form[1]
        return form

    def words(self, path):
        """A variant as the page has it: each name with its members."""
        return ", ".join(f"`{it}`{content(form)}" for it, form in self.at(path)[1].items())


def content(form):
    if form[0] != "object":
        return ""
    named = [name + ("?" if it[0] == "maybe" else "") for name, it in form[1].items()]
    return " {" + ", ".join(named) + "}" if named else ""


def formats(text):
    """The page with the rows of its table of forms."""
    forms = Forms()
    rows = "".join(f"| {name} | {forms.words(path)} |\n" for name, path in ROWS)
    return re.sub(r"(\| What \| Forms \|\n\|---\|---\|\n)(?:\|.*\n)+", lambda it: it[1] + rows, text)


# ---- schemas

MORE = "docs/making/schemas.json"
# for readers and other validators, and as data of the package
FOLDERS = ("docs/schema", "python/fdbrec/scripts/schemas")
SCRIPTS = ("apply", "end", "simulate", "audit")
LOG_ASK, LOG_TELL, STATE = f"{ASK} log", f"{TELL} log", f"{TELL} log marked state"
STEPS = "simulate steps *"
# The definitions of each schema, and where their forms stand. An equal form is referred to in the same schema, one of
# common.json in all of them; but one in ONLY by members of these names alone.
DEFS = {
    "common": {
        "version": "apply ops * undo to",
        "step": f"{STEPS} commit step",
        "epoch": f"{STEPS} commit epoch",
        "ballot": f"{STEPS} recover ballot",
        "cell": f"{STEPS} recover read *",
        "log": f"{STEPS} lose log",
        "proxy": f"{STEPS} commit proxy",
        "tag": f"{STEPS} pull storage",
        "hex": f"{STEPS} read key",
        "mutation": "apply ops * apply batch *",
        "operand": "apply ops * apply batch * add",
        "batch": "apply ops * apply batch",
        "config": "simulate config",
    },
    "apply": {"operation": "apply ops *"},
    "end": {"reply": "end replies *"},
    "simulate": {
        "step": STEPS,
        "asked": f"{STEPS} pull",
        "logs": f"{STEPS} push logs",
        "cells": f"{STEPS} recover read",
    },
    "audit": {
        "journal": "audit journals *",
        "entry": "audit journals * entries *",
        "node": "audit journals * node",
        "act": ACT,
        "outcome": f"{ACT} heard outcome",
        "ask": ASK,
        "tell": TELL,
        "cell_ask": f"{ASK} cell",
        "cell_value": f"{ASK} cell write value",
        "cell_tell": f"{TELL} cell",
        "log_ask": LOG_ASK,
        "seed": f"{LOG_ASK} seed",
        "seed_record": f"{LOG_ASK} seed records *",
        "push": f"{LOG_ASK} push",
        "body": f"{LOG_ASK} push bodies *",
        "popped": f"{LOG_TELL} locked popped",
        "state": STATE,
        "generations": f"{STATE} [",
        "generation": f"{STATE} [ *",
        "log_tell": LOG_TELL,
        "peeked": f"{LOG_TELL} peeked",
        "peeked_record": f"{LOG_TELL} peeked records *",
        "log_refusal": f"{LOG_TELL} refused why",
        "seq_ask": f"{ASK} seq",
        "request": f"{ASK} seq next request",
        "seq_tell": f"{TELL} seq",
        "last": "audit journals * last",
    },
}
ONLY = {"proxy": ("proxy", "number"), "request": ("request",)}
# Definitions that there are once more with the limits of a batch, and the members of these that are keys.
LIMITED, KEYS = ("mutation", "operand"), ("key", "begin", "end")
BYTES = {"type": "string", "pattern": "^([0-9a-f]{2})*$"}


class Schemas:
    """What the forms of the table are as schemas. What the table does not say is in MORE, by file, definition and path:
    words, limits that come of several members, and definitions of their own."""

    def __init__(self):
        self.forms, self.more, self.named = Forms(), json.loads(read(MORE)), {}
        for file, places in DEFS.items():
            for name, path in places.items():
                self.named.setdefault(json.dumps(self.forms.at(path)), []).append((file, name))

    def page(self, file):
        """A schema as a file has it."""
        text = {"$schema": "https://json-schema.org/draft/2020-12/schema"}
        more = self.more[file]
        if file in SCRIPTS:
            text |= {"title": f"A script of fdbrec {file}"}
            text |= self.made(file, self.forms.scripts[file], "", True)
        text |= more.get("", {})
        defs = {name: self.made(file, self.forms.at(path), name, True) for name, path in DEFS[file].items()}
        defs |= {f"limited_{name}": limited(defs[name]) for name in LIMITED if name in defs}
        defs |= {name: {} for name in more if name and name not in defs}
        text["$defs"] = {name: self.with_more(it, more.get(name, {})) for name, it in defs.items()}
        return json.dumps(text, indent=2, ensure_ascii=False) + "\n"

    def with_more(self, it, more):
        """A definition with what stands in MORE at its paths."""
        for path, said in more.items():
            at = it
            for step in path.split("/") if path else []:
                at = at[int(step) if isinstance(at, list) else step]
            if {"$ref", "anyOf", "enum", "type"} & set(said):
                at.clear()
            at.update(said)
        return it

    def reference(self, file, form, member):
        """The definition that a member's form has, if there is one."""
        found = [it for it in self.named.get(json.dumps(form), []) if it[0] in (file, "common")]
        found = [it for it in found if member in ONLY.get(it[1], (member,))]
        where, name = found[-1] if found else (None, None)
        return found and {"$ref": f"{'' if where == file else where + '.json'}#/$defs/{name}"}

    def made(self, file, form, member="", is_whole=False):
        """The schema of a member's form as it is seen from a file; what has a definition is referred to."""
        if not is_whole and (known := self.reference(file, form, member)):
            return known
        kind, rest = form[0], form[1:]
        if kind in ("part", "maybe"):
            return self.made(file, rest[0], member)
        if kind == "or null":
            return {"anyOf": [{"type": "null"}, self.made(file, rest[0], member)]}
        if kind == "either":
            return {"anyOf": [self.made(file, it) for it in rest]}
        if kind == "list":
            return {"type": "array", "items": self.made(file, rest[0])}
        if kind == "tuple":
            parts = [self.made(file, it) for it in rest[0]]
            return {"type": "array", "prefixItems": parts, "minItems": len(parts), "maxItems": len(parts)}
        return self.of_members(file, kind, rest[0]) if kind in ("object", "one of") else plain(kind, rest)

    def of_members(self, file, kind, members):
        if not members and file == "audit":
            return {"$ref": "#/$defs/nothing"}
        it = {"type": "object", "properties": {name: self.made(file, form, name) for name, form in members.items()}}
        if kind == "one of":
            it |= {"minProperties": 1, "maxProperties": 1}
        else:
            it["required"] = [name for name, form in members.items() if form[0] != "maybe"]
        return it | {"additionalProperties": False}


def plain(kind, rest):
    """The schema of a form that holds no others."""
    if kind == "hex":
        return BYTES | ({} if rest[0] is None else {"maxLength": 2 * rest[0]})
    if kind == "number":
        return {"type": "integer", "minimum": rest[0], "maximum": rest[1]}
    if kind == "or zero":
        return {"anyOf": [{"const": 0}, plain("number", rest)]}
    return {"type": {"flag": "boolean", "text": "string"}[kind]}


def limited(it, member=""):
    """A definition of mutations in which byte strings have their limits, by the members that they are."""
    if isinstance(it, dict) and "$ref" in it:
        name = it["$ref"].removeprefix("#/$defs/")
        name = f"limited_{name}" if name in LIMITED else "key" if member in KEYS else "value"
        return {"$ref": f"#/$defs/{name}"}
    return {name: limited(each, name) for name, each in it.items()} if isinstance(it, dict) else it


def schemas():
    """The text of each schema that is made of the table."""
    made = Schemas()
    pages = {f"{folder}/{file}.json": made.page(file) for file in DEFS for folder in FOLDERS}
    return pages | {f"{FOLDERS[1]}/cluster.json": read(f"{FOLDERS[0]}/cluster.json")}
