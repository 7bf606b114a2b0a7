"""Runs of tools/router, side by side."""

import concurrent.futures
import json
import re
import subprocess
import sys
import tempfile

import built

sys.path.insert(0, f"{built.TOP}/examples/foreign")

import zoo

ROUTER, FOREIGN = f"{built.TOP}/tools/router", f"{built.TOP}/examples/foreign/node"
JUDGE = f"{built.TOP}/bench/judge"


class Ran:
    """A run: its status, the lines that it printed, and the counts by their words."""

    def __init__(self, room, words):
        self.words, self.room = words, room
        how = {"capture_output": True, "text": True, "timeout": built.patience(250)}
        ran = subprocess.run([ROUTER, *words, "--dir", room], **how)
        self.status, self.lines, self.errors = ran.returncode, ran.stdout.splitlines(), ran.stderr
        counts = next((line for line in self.lines if " kills, " in line), "")
        self.counts = {word: int(number) for number, word in re.findall(r"(\d+) ([^,]+)", counts)}

    def judged(self):
        """What bench/judge says of its journals."""
        with open(f"{self.room}/journals.json", encoding="utf-8") as it:
            return subprocess.run([JUDGE], stdin=it, capture_output=True, text=True).stdout.strip()

    def entry(self):
        """The entry that the line names, as bench/entry prints it, or the line itself."""
        at = re.fullmatch(r".* at (\d+)", self.lines[0])
        if not at:
            return self.lines[0]
        with open(f"{self.room}/journals.json", encoding="utf-8") as it:
            return subprocess.run([f"{built.TOP}/bench/entry", at[1]], stdin=it, capture_output=True, text=True).stdout


def runs(checks, cases, *then):
    """Runs cases two at a time, each a name with its words, and has each run looked at by these functions."""
    with tempfile.TemporaryDirectory() as room, concurrent.futures.ThreadPoolExecutor(2) as pool:
        begun = [(name, pool.submit(Ran, f"{room}/{at}", words)) for at, (name, words) in enumerate(cases)]
        for name, it in begun:
            for each in then:
                each(checks, name, it.result())


def is_run(checks, name, ran):
    """A run that is right: its status, its three lines, and counts that go together."""
    is_so = ran.status == 0 and ran.lines[:1] == ["audit ok"]
    checks.check(is_so, name, ran.words, ran.status, ran.lines, ran.errors[-400:])
    is_so = ran.lines[1:2] == [f"journals: {ran.room}/journals.json"]
    checks.check(is_so, name, "says where its journals lie:", ran.lines)
    is_so = ran.counts.get("batches acknowledged", 0) > 0 and ran.counts.get("recoveries chosen", 0) > 0
    checks.check(is_so, name, "did too little:", ran.counts)


def is_full(checks, name, ran):
    """Logs had no room for some lines."""
    checks.check(ran.counts.get("refused as Full", 0) > 0, name, "is never full:", ran.counts)


def are_agreed(checks, name, ran):
    """The audit and bench/judge say the same line."""
    said = ran.judged() if ran.lines else None
    checks.check(ran.lines[:1] == [said], name, "is judged otherwise by bench/judge:", ran.lines[:1], said)


def is_found(checks, name, ran):
    """A bug that is found: at a node of its kind, or at an entry that it is to blame for."""
    line, kinds = ran.lines[0] if ran.lines else "", set(zoo.BUGS[name].nodes)
    checks.check(ran.status == 1 and line != "audit ok", name, "is not found:", ran.lines, ran.errors[-400:])
    if line.startswith("tell differs"):
        at = re.search(r"node (\{.*?\}\}): ", ran.entry())
        checks.check(at and set(json.loads(at[1])) <= kinds, name, "is found at another node:", line, ran.entry()[:200])
    elif line.startswith("state differs"):
        checks.check(line.split(" ")[3] in kinds, name, "is found at another node:", line)
    else:
        checks.check(line.startswith("not a run at "), name, "ended otherwise:", line, ran.errors[-400:])


def bug_words(name, others, seed=1, steps=2500):
    """The words of a run in which the nodes of a bug's kinds have it; others run by another program."""
    words = ["--seed", str(seed), "--steps", str(steps), "--kills", "0", "--store", "memory"]
    words += [it for kind in zoo.BUGS[name].nodes for it in ("--node", f"{kind}={FOREIGN} --bug {name}")]
    return words + ["--node", others]
