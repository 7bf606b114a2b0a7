"""The scripts of this repository, which docs/schema/validate looks at without words: those of examples/, the forms that
tests take or call bad, and, where the whole program is built, what it prints of clusters."""
import json
import os
import re
import subprocess
import sys

TOP = os.path.dirname(os.path.dirname(os.path.dirname(os.path.realpath(__file__))))
sys.path.insert(0, f"{TOP}/python")

from fdbrec.scripts import schemas  # noqa: E402


def examples():
    """Each script of examples/, with its command."""
    folder = f"{TOP}/examples"
    for name in sorted(os.listdir(folder)):
        if name.endswith(".json"):
            words = f"{folder}/{name.removesuffix('.json')}.words"
            command = content(words).decode().split()[0] if os.path.isfile(words) else "apply"
            if command != "cluster":
                yield command, f"{folder}/{name}"


def content(path):
    with open(path, "rb") as it:
        return it.read()


CONFIG = '{"coordinators":1,"degree":1,"logs":1,"proxies":1,"shards":[""]}'
CELL = '{"cell":{"index":0}}'
JOURNALS = '{"config":%s,"journals":[%%s]}' % CONFIG
JOURNAL = JOURNALS % ('{"entries":[%%s],"last":%%s,"node":%s}' % CELL)
ACT = JOURNAL % ('{"act":%s,"stamp":1}', "null")
ASKED = ACT % ('{"asked":{"ask":%%s,"from":%s,"tell":%%s}}' % CELL)

# the commands whose scripts stand in rows of scenarios, and the files of these
SCENARIOS = (("apply", "apply_scripts"), ("apply", "apply_forms"), ("apply", "apply_deep"), ("end", "end_scripts"))
TELL, ASK = '{"cell":{"two_values":{}}}', '{"cell":{"read":{"ballot":513}}}'
NODES = JOURNALS % '{"entries":[],"last":null,"node":%s}'

# the lists of forms that are bad, and the script in which one stands
LISTS = (
    ("TEXTS", "%s"),
    ("CONFIGS", '{"config":%s,"journals":[]}'),
    ("JOURNALS", JOURNALS),
    ("NODES", NODES),
    ("LASTS", JOURNAL % ("", "%s")),
    ("ENTRIES", JOURNAL % ("%s", "null")),
    ("ACTS", ACT),
    ("ASKS", ASKED % ("%s", TELL)),
    ("TELLS", ASKED % (ASK, "%s")),
)


def rows_of(name):
    """The word of each row of a file of scenarios, what is given, and what is wanted or None, as texts."""
    names, rows = {}, []
    for line in content(f"{TOP}/scenarios/{name}.md").decode().splitlines():
        if line.startswith("     ") and rows:
            rows[-1] += " " + line.strip()
        elif line.startswith("    "):
            rows.append(line.strip())
    for row in rows:
        text = re.sub(r"\$([a-z]+\d*)", lambda it: value_of(names, it[1]), row)
        if text.startswith("let "):
            name, stands_for = text[4:].split("=", 1)
            names[name.strip()] = stands_for.strip()
        else:
            asked, arrow, wanted = text.partition("->")
            word, _, given = asked.strip().partition(" ")
            yield word, given.strip(), wanted.strip() if arrow else None


def value_of(names, text):
    """What a name stands for with which a text begins, and the rest of the text."""
    name = next(it for it in names if text.startswith(it))
    return names[name] + text[len(name) :]


def tested():
    """Each form of the tests in a script, with its command and whether it is taken."""
    for command, name in SCENARIOS:
        for word, given, wanted in rows_of(name):
            if word in ("run", "text") and wanted is not None:
                yield command, wanted.startswith("["), given if word == "run" else json.loads(given)
    for word, given, wanted in rows_of("audit_scripts"):
        if wanted is None:
            it = json.loads(given)
            place = it.replace("form", "%s") if isinstance(it, str) else given.replace('"form"', "%s")
        elif word in ("kept", "read"):
            yield "audit", wanted != '"bad script"', place.replace("%s", given)
    bad = json.loads(content(f"{TOP}/tests/forms.json"))
    for name, script in LISTS:
        for form in bad[name]:
            yield "audit", False, script.replace("%s", form)
    for row in json.loads(content(f"{TOP}/tests/ends.json")):
        command, is_bad = (row["words"] or [""])[0], row["says"] == "bad script"
        if command in ("apply", "end", "simulate", "audit") and (is_bad or not row["says"]):
            yield command, not is_bad, row["input"]


def printed(runs):
    """What the program prints of clusters, where it is built."""
    program = f"{TOP}/crates/fdbrec/out/fdbrec"
    for turns in (200, 1000, 3000)[:runs] if os.access(program, os.X_OK) else ():
        words = [program, "cluster", "--journal", "--turns", str(turns), "--storages", "3"]
        yield from subprocess.run(words, stdout=subprocess.PIPE, check=True).stdout.splitlines()


def all_of_them(runs):
    count, faults = [0, 0, 0, 0], []
    for command, path in examples():
        count[0] += 1
        if why := schemas.fault_of(command, content(path)):
            faults.append(f"{os.path.relpath(path, TOP)} is no script of {command}: {why}")
    for command, is_taken, text in tested():
        count[2 - is_taken] += 1
        why = schemas.fault_of(command, text)
        if why and is_taken:
            faults.append(f"a script of {command} that the tests take is refused: {why}: {text}")
        if not why and not is_taken:
            faults.append(f"a script of {command} that the tests call bad is taken: {text}")
    for text in printed(runs):
        count[3] += 1
        if why := schemas.fault_of("cluster", text):
            faults.append(f"what fdbrec cluster --journal printed is not of cluster: {why}")
    for it in faults:
        print(it)
    print(
        f"{count[0]} examples, {count[1]} forms that tests take, {count[2]} that they call bad, {count[3]} journals of "
        f"clusters: {len(faults)} faults"
    )
    return 1 if faults else 0
