"""Lines played to nodes: those of `lines.py`, those of journals that fdbrec.reading draws, and bad ones."""

import json
import os
import resource
import subprocess
import sys
import tempfile

import built
import lines
import lines_ahead

sys.path.insert(0, f"{built.TOP}/python")

from fdbrec.reading import judging
from fdbrec.reading.drawing import Drawn

PATIENCE = built.patience(60)


def text(it):
    return json.dumps(it, separators=(",", ":"), sort_keys=True)


def answers(words, given):
    """The lines that a process answers to these, as bytes; its status at the end, and what it complains of."""
    ran = subprocess.run(words, input=b"".join(it + b"\n" for it in given), capture_output=True, timeout=PATIENCE)
    return ran.stdout.split(b"\n")[:-1], (ran.returncode, ran.stderr)


def line(name, number, body):
    return text({"body": body | {"msg_id": number}, "dest": name, "src": "router"}).encode()


def with_config(words, config, room):
    if config is None:
        return words
    with open(f"{room}/config.json", "w", encoding="utf-8") as it:
        json.dump(config, it)
    return words + ["--config", f"{room}/config.json"]


# ---- by hand


def is_answer(found, wanted, is_exact):
    """Whether a line is the one that is wanted: to the byte, or by its content, with asks of before among its wants."""
    its = json.loads(found)
    if wanted["body"]["type"] == "error" and "text" not in wanted["body"]:
        wanted = wanted | {"body": wanted["body"] | {"text": its["body"].get("text")}}
    if is_exact:
        return found == text(wanted).encode()
    least, asks = wanted["body"].get("wants", []), its["body"].get("wants", [])
    rest = [text(it | {"body": it["body"] | {"wants": 0}}) for it in (its, wanted)]
    return all(ask in asks for ask in least) and rest[0] == rest[1]


ALL = ("cell", "log", "sequencer", "proxy", "recoverer", "storage")


def by_hand(checks, command, is_exact, kinds=ALL, files=(False, True)):
    """The scripts of lines.py; a node with a file answers the same."""
    for title, (words, config, rows) in lines.SCRIPTS.items():
        if words.split()[0] not in kinds:
            continue
        for is_filed in files:
            with tempfile.TemporaryDirectory() as room:
                has_files = is_filed and words.split()[0] in ("cell", "log", "storage")
                more = ["--dir", room, "--make"] if has_files else []
                if is_filed and not more:
                    continue
                words_of = with_config([*command, *words.split(), *more], config, room)
                played(checks, title, words_of, rows, is_exact)


def played(checks, title, words, rows, is_exact, name=None):
    """Gives a process the lines of some rows, and compares its answers."""
    name = name or lines.NAMES[title]
    given = [line(name, number, body) for number, (body, _) in enumerate(rows)]
    found, end = answers(words, given)
    checks.check(end == (0, b"") and len(found) == len(rows), title, "ended with", end, len(found))
    for number, (it, (body, answer)) in enumerate(zip(found, rows)):
        wanted = {"body": answer | {"in_reply_to": number}, "dest": "router", "src": name}
        is_so = is_answer(it, wanted, is_exact)
        checks.check(is_so, title, text(body), "answers", it, "and not", text(wanted))


def again(checks, command, is_exact, scripts):
    """Scripts of nodes over files that are started again, each process over what the one before left."""
    for title, (words, config, processes) in scripts.items():
        with tempfile.TemporaryDirectory() as room:
            os.mkdir(f"{room}/files")
            words_of = with_config([*command, *words.split(), "--dir", f"{room}/files"], config, room)
            for at, rows in enumerate(processes):
                played(checks, title, words_of + ["--make"] * (at == 0), rows, is_exact)


def ahead(checks, command, is_exact):
    """The scripts of lines_ahead.py, in memory, and over files from process to process."""
    for title, (words, name, config, rows) in lines_ahead.SCRIPTS.items():
        with tempfile.TemporaryDirectory() as room:
            words_of = with_config([*command, *words.split()], config, room)
            played(checks, title, words_of, rows, is_exact, name)
    for title, (words, name, config, processes) in lines_ahead.AGAIN.items():
        with tempfile.TemporaryDirectory() as room:
            os.mkdir(f"{room}/files")
            words_of = with_config([*command, *words.split(), "--dir", f"{room}/files"], config, room)
            for at, rows in enumerate(processes):
                played(checks, title, words_of + ["--make"] * (at == 0), rows, is_exact, name)


# ---- on a full disk


def full(checks, command):
    """Cells and logs whose file has room for a part of a script, and mostly for a part of a line at its end. Each ends
    with status 3 once there is no room, and at its next start it stands where it last said that it stood."""
    for title in ("a cell", "a log"):
        words, config, rows = lines.SCRIPTS[title]
        its = [(number, body) for number, (body, _) in enumerate(rows) if body["type"] == "ask"]
        asks = [line(lines.NAMES[title], number, body) for number, body in its]
        with tempfile.TemporaryDirectory() as room:
            words = with_config([*command, *words.split()], config, room)
            size = filled(checks, words, title, f"{room}/whole", asks, None)
            for part in range(1, 9):
                filled(checks, words, title, f"{room}/{part}", asks, size * part // 9)


def filled(checks, words, title, folder, asks, most):
    """Gives a node some lines, whose file may have so many bytes, and starts it again. Returns how many it has."""
    os.mkdir(folder)
    words = [*words, "--dir", folder]
    limit = (lambda: resource.setrlimit(resource.RLIMIT_FSIZE, (most, most))) if most else None
    given = b"\n".join(asks) + b"\n"
    ran = subprocess.run([*words, "--make"], input=given, capture_output=True, timeout=PATIENCE, preexec_fn=limit)
    (name,) = os.listdir(folder)
    size = os.path.getsize(f"{folder}/{name}")
    lasts = [it["last"] for it in (json.loads(it)["body"] for it in ran.stdout.splitlines()) if "last" in it]
    found, end = answers(words, [line(lines.NAMES[title], 0, {"type": "init"})])
    stands = [json.loads(it)["body"]["last"] for it in found]
    is_so = ran.returncode == (3 if most else 0) and stands == (lasts[-1:] or stands) and end == (0, b"")
    what = ("ended with", ran.returncode, lasts[-1:], "and is then", stands, end)
    checks.check(is_so, title, "with room for", most, *what)
    return size


# ---- drawn


def words_of(events, name):
    """The words of a node of a drawn world."""
    ((kind, it),) = name.items()
    words = [kind, *(word for each in sorted(it) for word in (f"--{each}", it[each]))]
    if kind == "log":
        node = events.nodes.logs[it["epoch"], it["index"]]
        words += ["--logs", node.m, "--degree", node.k]
    first = kind == "cell" or kind == "log" and it["epoch"] == 257
    rv = pev = None
    if kind in ("sequencer", "proxy"):
        recoverer = events.nodes.recoverers.get(it["epoch"])
        pev, rv = (recoverer.pev, recoverer.rv) if recoverer else (0, 0)
        words += ["--last", rv + 1] if kind == "sequencer" else ["--known", pev]
    return [str(word) for word in words] + (["--start"] if first else [])


def config_of(events, name):
    """The config that it is given: that of the world, and for a proxy with the shape of its epoch."""
    if "proxy" not in name:
        return events.config
    log = events.nodes.logs[name["proxy"]["epoch"], 0]
    return events.config | {"logs": log.m, "degree": log.k}


def line_of(act, stamp):
    """The line by which an act comes to be, or None where none does."""
    ((kind, it),) = act.items()
    if kind == "asked":
        return {"type": "ask", "at": stamp - 1, "from": it["from"], "ask": it["ask"]}
    if kind == "heard" and it["taken"] is None:
        return {"type": "hear", "at": stamp - 1, "from": it["from"], "tell": it["tell"]}
    if kind == "submitted":
        return {"type": "submit", "at": stamp - 1} | it
    return {"type": "begin", "at": stamp - 1} if kind == "begun" else None


def shape_words(journal):
    begun = [it["act"]["begun"] for it in journal["entries"] if "begun" in it["act"]]
    return [str(word) for it in begun for name in it for word in (f"--{name}", it[name])]


def drawn(checks, command, seeds, events=400):
    """Each node of worlds that fdbrec.reading draws is given what it was asked and heard there, and has to enter the
    same. A crash is passed over, since it changes nothing; a node whose hear broke off is left there."""
    for seed in seeds:
        world = Drawn(seed).play(events).events
        for journal in world.script()["journals"]:
            name, entries = journal["node"], journal["entries"]
            parts = [at for at, it in enumerate(entries) if it["act"].get("heard", {}).get("taken") is not None]
            entries = entries[: parts[0]] if parts else entries
            played = [(line_of(it["act"], it["stamp"]), it) for it in entries]
            played = [(body, it) for body, it in played if body]
            with tempfile.TemporaryDirectory() as room:
                its = [*command, *words_of(world, name), *shape_words(journal)]
                config = None if {"log", "sequencer"} & set(name) else config_of(world, name)
                words, spoken = with_config(its, config, room), judging.spoken(name)
                bodies = [body for body, _ in played] + [{"type": "last"}]
                found, end = answers(words, [line(spoken, at, body) for at, body in enumerate(bodies)])
            checks.check(end == (0, b"") and len(found) == len(bodies), "seed", seed, spoken, "ended with", end)
            for it, (body, entry) in zip(found, played):
                its = json.loads(it)["body"]
                is_so = its.get("entry") == entry
                checks.check(is_so, "seed", seed, spoken, text(body), "enters", it, "and not", text(entry))
            if found and not parts:
                its = json.loads(found[-1])["body"]
                checks.check(its.get("last") == journal["last"], "seed", seed, spoken, "stands at", found[-1])


# ---- bad lines, and ends

BAD = [
    (b"", None, 12),
    (b"x", None, 12),
    (b"{", None, 12),
    (b"[]", None, 12),
    (b'"cell 0"', None, 12),
    (b"\xff\xfe", None, 12),
    (b"[" * 5000, None, 12),
    (b'{"src":"router","dest":"cell 0","body":{"type":"last"}}', None, 12),
    (b'{"src":"router","dest":"cell 0","body":{"type":"last","msg_id":"1"}}', None, 12),
    (b'{"src":"router","dest":"cell 0","body":{"type":"last","msg_id":-1}}', None, 12),
    (b'{"src":"router","dest":"cell 0","body":{"type":"last","msg_id":9007199254740992}}', None, 12),
    (b'{"src":"router","dest":"cell 0","body":{"msg_id":1}}', 1, 12),
    (b'{"src":"router","dest":"cell 1","body":{"type":"last","msg_id":2}}', 2, 12),
    (b'{"src":"router","dest":"cell 0","body":{"type":"sing","msg_id":9007199254740991}}', 9007199254740991, 10),
    (b'{"src":"router","dest":"cell 0","body":{"type":"submit","msg_id":3,"at":1,"batch":[],"step":1}}', 3, 10),
]


# so many members that no line has that whoever compares each with all others is not done in time
MANY = b"".join(b'"m%d":0,' % number for number in range(300_000))
LONG = [
    (b'{%b"src":"router","dest":"cell 0","body":{"type":"last","msg_id":4}}' % MANY, 4, 12),
    (b'{"src":"router","dest":"cell 0","body":{%b"type":"last","msg_id":5}}' % MANY, 5, 12),
]


def bad_lines(checks, command, bad=BAD):
    """Each is answered by an error with its code, and changes nothing."""
    with tempfile.TemporaryDirectory() as room:
        words = with_config([*command, "cell", "--index", "0", "--start"], lines.CONFIG, room)
        found, end = answers(words, [it for it, _, _ in bad] + [line("cell 0", 4, {"type": "last"})])
    checks.check(end == (0, b"") and len(found) == len(bad) + 1, "bad lines:", len(found), "answers, and the end", end)
    for it, (given, number, code) in zip(found, bad):
        body = json.loads(it)["body"]
        is_so = body["type"] == "error" and body["code"] == code and body.get("in_reply_to") == number and body["text"]
        checks.check(is_so, given[:100], "is answered by", it)
    last = json.loads(found[-1])["body"] if found else {}
    checks.check(last.get("last") == lines.cell(257, 257, lines.ONE), "after bad lines it stands at", last)


def ends(checks, command):
    """A node ends with status 0 at the end of its input, and by itself where nobody reads what it answers."""
    with tempfile.TemporaryDirectory() as room:
        words = with_config([*command, "cell", "--index", "0", "--start"], lines.CONFIG, room)
        found, end = answers(words, [])
        checks.check((found, end) == ([], (0, b"")), "without a line it ended with", end, found)
        one, other = os.pipe()
        os.close(one)
        given = line("cell 0", 1, {"type": "last"}) + b"\n"
        ran = subprocess.run(words, input=given, stdout=other, stderr=subprocess.PIPE, timeout=PATIENCE)
        os.close(other)
        checks.check(ran.returncode == 4, "without a reader it ended with", ran.returncode, ran.stderr[-300:])
        ran = subprocess.run([*words[:-1], f"{room}/none"], input=b"", capture_output=True, timeout=PATIENCE)
        checks.check(ran.returncode > 0 and ran.stdout == b"", "without its config it ended with", ran)
