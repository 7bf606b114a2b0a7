"""What the tests of the page of a run share: runs, the pages that bench/explore makes of them, and a browser."""
import json
import os
import subprocess
import sys
import tempfile

TOP = os.path.dirname(os.path.dirname(os.path.realpath(__file__)))
sys.path.insert(0, f"{TOP}/python")

import browser
from fdbrec.commands import explore

SET = lambda key, value: {"set": {"key": key, "value": value}}
COMMIT = lambda epoch, batch, logs: {"commit": {"batch": batch, "epoch": epoch, "logs": logs, "proxy": 0, "step": 1}}
PULL = lambda epoch, log, tag=0: {"pull": {"epoch": epoch, "log": log, "storage": tag}}
CONFIG = {"coordinators": 3, "degree": 2, "logs": 2, "proxies": 1, "shards": [""]}
PLAIN = {
    "config": CONFIG,
    "steps": [
        COMMIT(257, [SET("61", "01")], [0, 1]),
        PULL(257, 0),
        COMMIT(257, [{"add": {"key": "61", "param": "05"}}, SET("62", "07")], [0, 1]),
        PULL(257, 1),
        COMMIT(257, [{"clear": {"begin": "62", "end": "63"}}], [0, 1]),
        PULL(257, 0),
    ],
}


class Fault(Exception):
    """What is not as it must be."""


def want(is_so, *what):
    if not is_so:
        raise Fault(" ".join(str(each) for each in what))


def same(got, wanted, what):
    want(got == wanted, f"{what} is {got!r}, and {wanted!r} is expected")


def example(name):
    with open(f"{TOP}/examples/{name}", encoding="utf-8") as it:
        return it.read()


def foreign():
    """A run of examples/foreign, in which a log is lost, and the recoverer of ballot 513 overtaken by that of 514."""
    words = [f"{TOP}/examples/foreign/cluster", "--seed", "1"]
    return subprocess.run(words, capture_output=True, text=True, check=True).stdout


def explored(script, *words):
    return subprocess.run([f"{TOP}/bench/explore", *words], input=script, capture_output=True, text=True)


def page(room, script, name, *words):
    """The page that bench/explore makes of a script."""
    ran = explored(script, *words)
    want(ran.returncode == 0 and not ran.stderr, "bench/explore ended with", ran.returncode, ran.stderr.strip())
    path = f"{room}/{name}.html"
    with open(path, "w", encoding="utf-8") as it:
        it.write(ran.stdout)
    return path


def state(it):
    """The lines of the state that is shown, by their names, each as it now is."""
    value = "(it.nextSibling.querySelector('b') || it.nextSibling).innerText"
    return dict(it.value(f"[...document.querySelectorAll('#state dt')].map((it) => [it.innerText, {value}])"))


def table(it, number):
    rows = f"[...document.querySelectorAll('#state table')[{number}].querySelectorAll('tbody tr')]"
    return it.value(f"{rows}.map((row) => [...row.children].map((each) => each.innerText))")


def listed(it):
    return it.value("[...document.querySelectorAll('#list li')].map((each) => each.innerText.replace(/\\s+/g, ' '))")


def search(it, text):
    it.key("/")
    it.type(text)
    it.value("document.getElementById('find').requestSubmit()")


def is_drawn(it, entry):
    """Whether something is drawn at the place of an entry, beside the lines of its lane and of the step."""
    it.settle()
    place = f"""(() => {{ const p = page.picture, e = page.run.entries[{entry}], r = window.devicePixelRatio || 1;
        const x = Math.round(p.xOf(p.column({entry})) * r), y = Math.round(p.yOf(e.node) * r);
        const spot = (dx, dy) => [...p.pen.getImageData(x + dx, y + dy, 1, 1).data].slice(0, 3).join();
        return [x, y, spot(0, 0) !== spot(14, 0) || spot(0, -3) !== spot(14, -3)]; }})()"""
    return it.value(place)


def broken():
    """The rollback's journals, but its server keeps the row that it is to take back: told to have been cut off at 3."""
    script = json.loads(example("audit_numbers_again.json"))
    for journal in script["journals"]:
        if journal["node"] == {"log": {"epoch": 257, "index": 0}}:
            peeked = next(e for e in journal["entries"] if "peek" in e["act"]["asked"]["ask"]["log"])
            peeked["act"]["asked"]["tell"]["log"]["peeked"]["records"].pop()
    return script


def tried(name, tests, words):
    """Tries some tests in one browser, or those of them that are named; answers the status."""
    if browser.program() is None:
        print(f"{name}: skipped: no browser here: apt-get install chromium (Debian's package chromium)")
        return 77
    try:
        with tempfile.TemporaryDirectory() as room, browser.Browser() as it:
            for test in tests:
                if not words or test.__name__ in words:
                    test(it, room)
                    print(f"{name}: {test.__name__}: as expected")
    except (Fault, browser.Fault) as fault:
        print(f"{name}: {fault}")
        return 1
    return 0
