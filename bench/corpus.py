"""The scripts that stand in the repository, and made ones, for bench/fuzz and bench/twins."""
import json
import os
import re
import subprocess
import sys
import tempfile

BENCH = os.path.dirname(os.path.realpath(__file__))
TOP = os.path.dirname(BENCH)
sys.path[:0] = [os.path.join(TOP, "docs"), os.path.join(TOP, "python")]

from making import validated  # noqa: E402

COMMANDS = ("apply", "end", "simulate", "audit")
# Scenarios have values 1,000 levels deep.
sys.setrecursionlimit(20_000)
# Scripts that are made: by what, with which words, for which command.
MADE = [("scripts", [kind, "30", "1"], "apply") for kind in ("small", "undos", "forgets")]
MADE += [("steps", [kind, "40", str(seed)], "simulate") for kind in ("chaos", "shapes", "pops", "reads") for seed in range(1, 9)]
MADE += [("steps", ["recoveries", "30", "1"], "simulate"), ("steps", ["replies", "20", "1"], "end")]
MADE += [("journals", ["60"], "audit")]


def corpus(made=()):
    """Of each command that reads: the words of examples; scripts of the examples, of scenarios, of tests, and made ones;
    and what the tests call bad."""
    found = {name: ([], [], []) for name in COMMANDS}
    data = os.path.join(TOP, "examples")
    for name in sorted(os.listdir(data)):
        if not name.endswith(".json"):
            continue
        words = os.path.join(data, name[:-5] + ".words")
        words = bytes_of(words).decode().split() if os.path.exists(words) else ["apply"]
        if words[0] in found:
            found[words[0]][0].append(words)
            found[words[0]][1].append(bytes_of(os.path.join(data, name)))
    for words, script in played():
        found[words[0]][0].append(words)
        found[words[0]][1].append(json.dumps(script, separators=(",", ":")).encode())
    for name, is_taken, script in forms():
        if name in found:
            found[name][1 if is_taken else 2].append(script)
    with tempfile.TemporaryDirectory() as folder:
        path = os.path.join(folder, "script")
        for maker, words, name in made:
            subprocess.run([os.path.join(BENCH, maker), *words, path], check=True, stdout=subprocess.DEVNULL)
            found[name][1].append(bytes_of(path))
    return found


def scenarios():
    """Each scenario, as its rows with the names in them put in: the word of each, what is given with it and what is
    wanted, both as the values that they are."""
    folder = os.path.join(TOP, "scenarios")
    for file in sorted(os.listdir(folder)):
        if file != "README.md":
            before, *each = re.split(r"^## .*$", bytes_of(os.path.join(folder, file)).decode(), flags=re.M)
            names = {}
            for row in rows_of(before):
                name, _, text = row.removeprefix("let ").partition(" = ")
                names[name] = expanded(text, names)
            for text in each:
                yield [parts_of(expanded(row, names)) for row in rows_of(text)]


def rows_of(text):
    """The rows of a text: lines of four blanks, which go on in those of more."""
    rows = []
    for line in text.split("\n"):
        if line.startswith("     "):
            rows[-1] += " " + line.strip()
        elif line.startswith("    "):
            rows.append(line.strip())
    return rows


def expanded(text, names):
    """A text with what its names stand for. No name begins with another one."""
    for name, stands in names.items():
        text = text.replace("$" + name, stands)
    return text


def parts_of(row):
    asked, _, wanted = row.partition("->")
    word, _, given = asked.strip().partition(" ")
    return word, *(value_of(each) for each in (given, wanted))


def value_of(text):
    """The value that a text of a row is, or the text, if it is a script that is no JSON."""
    try:
        return json.loads(text) if text.strip() else None
    except ValueError:
        return text


def pieces():
    """What the scenarios are given and tell, each value once, as bytes of JSON."""
    found = {}
    for rows in scenarios():
        for _, *both in rows:
            for each in both:
                if isinstance(each, dict) and each:
                    found[json.dumps(each).encode()] = None
    return list(found)


def played():
    """The scenarios of stores and of ends as scripts: the words of each, and the script."""
    for (subject, made, _), *rows in scenarios():
        if subject == "store":
            made = [STORES[word](given) for word, given, _ in rows if word in STORES]
            yield ["apply"], {"ops": made}
        elif subject == "end_tally":
            replies = [[it["log"], it["durable"], it["known"]] for word, it, _ in rows if word == "reply"]
            yield ["end", "--logs", str(made["m"]), "--degree", str(made["k"])], {"replies": replies}


STORES = {
    "apply": lambda it: {"apply": it},
    "undo": lambda it: {"undo": {"to": it}},
    "forget": lambda it: {"forget": {"through": it}},
    "advance": lambda it: {"advance": {"version": it}},
}


def bytes_of(path):
    with open(path, "rb") as file:
        return file.read()


def forms():
    """Each script that the tests take or call bad: its command, whether it is taken, and its bytes."""
    for command, is_taken, script in validated.tested():
        yield command, is_taken, script.encode()
