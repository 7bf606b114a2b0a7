"""Nodes of the built program over files of the host, and lines in and out that fail: each end with its text and its
status. What stands in the files is in tests/nodes_kept.py."""

import itertools
import json
import os
import resource
import shutil
import signal
import sqlite3
import subprocess
import tempfile

import built
import lines
import segments
from lines_played import PATIENCE, line

CELL = ["cell", "--index", "0"]
LOG = ["log", "--epoch", "513", "--index", "0", "--logs", "4", "--degree", "2"]
STORAGE = ["storage", "--tag", "0"]
FILES = {"cell": ("cell-0.0", "cell-0.1"), "log": ("log-513-0.0", "log-513-0.1"), "storage": ("storage-0",)}
OLD = {"cell": "cell-0", "log": "log-513-0"}
NUMBERS = {"cell": ("--index",), "log": ("--epoch", "--index"), "storage": ("--tag",)}
MAKE, ADOPT = ["--make"], ["--adopt"]
NO_FILE = "no file: its folder is missing, or it is no plain file of ours, or a database's"
BUSY, BROKEN, FAILED = "a file is in use", "a file is damaged, or none of such a node", "a file failed"
UNMADE = "no files of this node: --make makes them, --adopt takes over that of version 0.2"
MISSING, THERE = "one of this node's two files is missing", "this node has files: none is made in their place"
STRANGER = "a file is another node's, or another cluster's"
NO_ROOM = "too little room: --room has to be greater"
INIT = {"type": "init", "last": True}


def name_of(kind):
    """The name in lines of the node that words name."""
    return " ".join([kind[0], *(kind[kind.index(word) + 1] for word in NUMBERS[kind[0]])])


class Files:
    """A folder, with a config in it, and the program."""

    def __init__(self, checks, command, room):
        self.checks, self.command, self.room = checks, command, room
        with open(f"{room}/config.json", "w", encoding="utf-8") as it:
            json.dump(lines.CONFIG, it)

    def words(self, kind, folder):
        more = ["--config", f"{self.room}/config.json"] if kind[0] == "storage" and "--config" not in kind else []
        if kind[0] in OLD and "--room" not in kind:
            # (a program that is compiled without proofs takes long to set aside 256 MiB twice)
            more += ["--room", "1048576"]
        return [*self.command, *kind, *more, *(["--dir", f"{self.room}/{folder}"] if folder else [])]

    def run(self, kind, folder, given=(), **how):
        """What a process answers to bodies of lines, its status, and what it complains of."""
        text = b"".join(line(name_of(kind), at, body) + b"\n" for at, body in enumerate(given))
        ran = subprocess.run(self.words(kind, folder), input=text, capture_output=True, timeout=PATIENCE, **how)
        return [json.loads(it)["body"] for it in ran.stdout.splitlines()], ran.returncode, ran.stderr.decode().strip()

    def each(self, kind, folder, given):
        """What a process answers to bodies of lines of which each waits for the answer before it, and its status."""
        pipes = {"stdin": subprocess.PIPE, "stdout": subprocess.PIPE}
        found = []
        with subprocess.Popen(self.words(kind, folder), **pipes) as child:
            for at, body in enumerate(given):
                child.stdin.write(line(name_of(kind), at, body) + b"\n")
                child.stdin.flush()
                found.append(json.loads(child.stdout.readline())["body"])
            child.stdin.close()
        return found, child.returncode

    def ends(self, kind, folder, status, text, title):
        found = self.run(kind, folder)
        wanted = "ended with", found, "and not", status, text
        self.checks.check(found == ([], status, text), title, kind[0], *kind[-2:], *wanted)

    def make(self, name, content):
        os.makedirs(os.path.dirname(f"{self.room}/{name}"), exist_ok=True)
        with open(f"{self.room}/{name}", "wb") as it:
            it.write(content)

    def pair(self, folder, kind=LOG):
        """What is in the two files of a node."""
        found = content(f"{self.room}/{folder}")
        return tuple(found.get(name, b"") for name in FILES[kind[0]])


def content(folder):
    """What is in a folder, but for empty files."""
    found = {}
    for name in sorted(os.listdir(folder)):
        with open(f"{folder}/{name}", "rb") as it:
            found[name] = it.read()
    return {name: it for name, it in found.items() if it}


def refused(checks, command):
    """Folders and files that are none for a node are refused by name, and left as they were."""
    with tempfile.TemporaryDirectory() as room:
        files = Files(checks, command, room)
        files.make("plain", b"x")
        for kind in (CELL, LOG, STORAGE):
            files.ends(kind, "none", 3, UNMADE, "without its folder")
            files.ends([*kind, *MAKE], "none", 2, NO_FILE, "made without its folder")
            files.ends(kind, "plain", 2, NO_FILE, "with a file for its folder")
            files.ends([*kind, *MAKE], "plain", 2, NO_FILE, "made with a file for its folder")
        checks.check(sorted(os.listdir(room)) == ["config.json", "plain"], "a refusal made", os.listdir(room))
        for name in itertools.chain(*FILES.values()):
            os.makedirs(f"{room}/folders/{name}")
        for kind in (CELL, LOG, STORAGE):
            files.ends(kind, "folders", 2, NO_FILE, "with a folder for its file")
            files.ends([*kind, *MAKE], "folders", 2, NO_FILE, "made over a folder")
        for name in itertools.chain(*FILES.values()):
            files.make(f"texts/{name}", b"no file of a node" * 20)
        was = content(f"{room}/texts")
        for kind in (CELL, LOG, STORAGE):
            files.ends(kind, "texts", 3, BROKEN, "with a text for its file")
            files.ends([*kind, *MAKE], "texts", 3, BROKEN, "made over a text")
        checks.check(content(f"{room}/texts") == was, "texts that were refused are other ones")
        bad_words(files)
        made_once(files)
        missing(files)
        of_others(files)
        earlier(files)
        in_use(files)


def bad_words(files):
    """Words about files that do not go together, or are beyond their limits."""
    os.mkdir(f"{files.room}/words")
    for kind in (CELL, LOG, STORAGE):
        for folder, more in (
            ("", MAKE),
            ("", ADOPT),
            ("words", [*MAKE, *ADOPT]),
            ("words", [*MAKE, "--cluster", ""]),
            ("words", [*MAKE, "--cluster", "a" * 17]),
            ("words", [*MAKE, "--cluster", "\u00e9" * 9]),
            ("", ["--cluster", "a" * 17]),
            ("words", [*MAKE, "--room", "65535"]),
            ("words", [*MAKE, "--room", str(2**40 + 1)]),
        ):
            found, status, text = files.run([*kind, *more], folder)
            is_so = (found, status) == ([], 2) and text.startswith("error: ") and "--help" in text
            files.checks.check(is_so, kind[0], more, "ended with", found, status, text)
    found, status, text = files.run([*STORAGE, *MAKE, "--room", "65536"], "words")
    is_so = (found, status) == ([], 2) and text.startswith("error: ")
    files.checks.check(is_so, "a database has no room: ended with", found, status, text)
    found = files.run([*LOG, *MAKE, "--cluster", "\u00e9" * 8, "--room", str(2**40)], "words")
    # (as many bytes as a name may have; and a machine has not so much memory as a file may have)
    is_so = found == ([], 0, "") or found[:2] == ([], 3) and found[2].endswith("out of memory")
    files.checks.check(is_so, "a terabyte of room: ended with", found)
    files.ends([*LOG, *MAKE, "--cluster", "\u00e9" * 8], "words", 0, "", "a cluster of 16 bytes:") if found[1] else None
    files.ends([*LOG, "--cluster", "\u00e9" * 8], "words", 0, "", "a cluster of 16 bytes:")


def made_once(files):
    """Files are made if that is said and there are none; those that hold nothing yet are made anew."""
    checks, room = files.checks, files.room
    os.mkdir(f"{room}/once")
    for kind in (CELL, LOG, STORAGE):
        files.ends(kind, "once", 3, UNMADE, "before its files are made")
        checks.check(not content(f"{room}/once").keys() & set(FILES[kind[0]]), kind[0], "made a file unasked")
        files.ends([*kind, *MAKE], "once", 0, "", "made")
        files.ends([*kind, *MAKE], "once", 3, THERE, "made twice")
        files.ends(kind, "once", 0, "", "over its files")
    wanted = sorted(it for name in itertools.chain(*FILES.values()) for it in (name, f"{name}-wal"))
    checks.check(sorted(os.listdir(f"{room}/once")) == wanted, "the folder has", os.listdir(f"{room}/once"))
    was = content(f"{room}/once")
    for name, text in was.items():
        whole = name.endswith("-wal") or name == "storage-0"
        checks.check(whole or len(text) < 100, "a file that was just made has", len(text), "bytes:", name)
    # what a crash may leave while they are made: nothing, a byte, or a file of no groups, of each
    empty = segments.file_of([])
    rows = built.share(itertools.product((CELL, LOG), (None, b"", b"\0", empty), (None, b"", b"\0", empty)), 8)
    for at, (kind, one, two) in enumerate(rows):
        folder, lacking = f"begun-{at}", (one, two).count(None)
        os.mkdir(f"{room}/{folder}")
        for name, text in zip(FILES[kind[0]], (one, two)):
            if text is not None:
                files.make(f"{folder}/{name}", text)
        files.ends(kind, folder, 3, MISSING if lacking == 1 else UNMADE, f"over {one} and {two}")
        left = [name for name in FILES[kind[0]] if os.path.exists(f"{room}/{folder}/{name}")]
        checks.check(len(left) == 2 - lacking, "a refusal made a file:", left)
        files.ends([*kind, *MAKE], folder, 0, "", f"made over {one} and {two}")
        wanted = tuple(was[it] for it in FILES[kind[0]])
        checks.check(files.pair(folder, kind) == wanted, "made otherwise over", one, two)
    files.make("begun/storage-0", b"")
    files.ends(STORAGE, "begun", 3, UNMADE, "over an empty file")
    files.ends([*STORAGE, *MAKE], "begun", 0, "", "made over an empty file")
    # a folder whose name is nearly as long as a name may be
    os.mkdir(f"{room}/{'a' * 251}")
    for kind in (CELL, LOG, STORAGE):
        files.ends([*kind, *MAKE], "a" * 251, 0, "", "made in a folder of a long name")
        files.ends(kind, "a" * 251, 0, "", "in a folder of a long name")


def missing(files):
    """A node one of whose files is gone, or both: nothing is made in their place unasked."""
    checks, room = files.checks, files.room
    os.mkdir(f"{room}/whole")
    for kind, asks in ((CELL, [lines.CELLS[3][0]]), (LOG, [lines.LOGS[2][0], lines.LOGS[4][0]])):
        files.run([*kind, *MAKE], "whole", asks)
        for gone in (FILES[kind[0]][:1], FILES[kind[0]][1:], FILES[kind[0]]):
            shutil.rmtree(f"{room}/gone", ignore_errors=True)
            shutil.copytree(f"{room}/whole", f"{room}/gone")
            for name in gone:
                os.remove(f"{room}/gone/{name}")
            was = sorted(os.listdir(f"{room}/gone"))
            files.ends(kind, "gone", 3, UNMADE if len(gone) == 2 else MISSING, f"without {gone}")
            its = sorted(os.listdir(f"{room}/gone"))
            checks.check(its == was, "without", gone, "it made", its)
    for name in FILES["storage"]:
        files.run([*STORAGE, *MAKE], "whole", [lines.STORAGES[2][0]])
        os.remove(f"{room}/whole/{name}")
        files.ends(STORAGE, "whole", 3, UNMADE, "without its database")
        checks.check(not os.path.exists(f"{room}/whole/{name}"), "a database was made unasked")


def of_others(files):
    """Files of another node, of another cluster, or of another shape are refused and keep their content, and so is
    another database."""
    checks, room = files.checks, files.room
    for folder in ("made", "other"):
        os.mkdir(f"{room}/{folder}")
    given = {"type": "ask", "at": 1, "from": lines.RECOVERER}
    files.run([*CELL, *MAKE], "made", [given | {"ask": lines.read(513)}])
    files.run([*LOG, *MAKE], "made", [given | {"ask": lines.SEED}])
    files.run([*STORAGE, *MAKE], "made", [lines.STORAGES[2][0]])
    made = content(f"{room}/made")
    wanted = set(itertools.chain(*FILES.values()))
    checks.check(set(made) >= wanted, "files were not made:", set(made))
    log = lambda epoch, index, m, k: ["log", "--epoch", epoch, "--index", index, "--logs", m, "--degree", k]
    with open(f"{room}/shards.json", "w", encoding="utf-8") as it:
        json.dump(lines.HALVES, it)
    # the words of another node, and the names by which it takes files for its own
    for kind, names in (
        (["cell", "--index", "1"], {"cell-0": "cell-1"}),
        (CELL, {"log-513-0": "cell-0"}),
        (LOG, {"cell-0": "log-513-0"}),
        (log("513", "1", "4", "2"), {"log-513-0": "log-513-1"}),
        (log("769", "0", "4", "2"), {"log-513-0": "log-769-0"}),
        (log("513", "0", "4", "3"), {"log-513-0": "log-513-0"}),
        (log("513", "0", "5", "2"), {"log-513-0": "log-513-0"}),
        ([*CELL, "--cluster", "another"], {"cell-0": "cell-0"}),
        ([*LOG, "--cluster", "fdbre"], {"log-513-0": "log-513-0"}),
        ([*LOG, "--cluster", "fdbrecs"], {"log-513-0": "log-513-0"}),
        (["storage", "--tag", "1", "--config", f"{room}/shards.json"], {"storage-0": "storage-1"}),
        ([*STORAGE, "--cluster", "another"], {"storage-0": "storage-0"}),
        ([*STORAGE, "--config", f"{room}/shards.json"], {"storage-0": "storage-0"}),
    ):
        ((its, other),) = names.items()
        shutil.rmtree(f"{room}/swapped", ignore_errors=True)
        for end in ("",) if kind[0] == "storage" else (".0", ".1"):
            files.make(f"swapped/{other}{end}", made[its + end])
        was = content(f"{room}/swapped")
        for words in (kind, [*kind, *MAKE], *([[*kind, *ADOPT]] if kind[0] == "storage" else [])):
            files.ends(words, "swapped", 3, STRANGER, f"over files of {its}")
        checks.check(content(f"{room}/swapped") == was, "files of", its, "are changed by", kind)
    files.make("swapped/storage-0", made["cell-0.0"])
    for words in (STORAGE, [*STORAGE, *MAKE]):
        files.ends(words, "swapped", 3, BROKEN, "over a cell's file")
    checks.check(content(f"{room}/swapped")["storage-0"] == made["cell-0.0"], "a cell's file is changed")
    for name in FILES["cell"]:
        files.make(f"swapped/{name}", made["storage-0"])
    files.ends(CELL, "swapped", 3, BROKEN, "over a database")
    of_programs(files)


def of_programs(files):
    """Databases of other programs: one that says of no program, and one that says of another."""
    checks, room = files.checks, files.room
    for application, words in ((0, ((3, UNMADE), (3, THERE), (3, BROKEN))), (1, ((3, BROKEN),) * 3)):
        database = sqlite3.connect(f"{room}/other/storage-0")
        database.execute("CREATE TABLE IF NOT EXISTS t (x)")
        database.execute(f"PRAGMA application_id = {application}")
        database.commit()
        database.close()
        was = content(f"{room}/other")["storage-0"]
        for more, (status, text) in zip(([], MAKE, ADOPT), words):
            files.ends([*STORAGE, *more], "other", status, text, f"over a database of the program {application}")
            checks.check(content(f"{room}/other")["storage-0"] == was, "another database was changed", more)


def whose(cluster, tag, shards):
    """What the header of a storage server's database says of whose it is, by docs/FORMATS.md."""
    name, begins = f"storage {tag}".encode(), [bytes.fromhex(it) for it in shards]
    its = [cluster.encode().ljust(16, b"\0"), segments.spelled(len(name), 4), name, b"\1"]
    its += [segments.spelled(len(begins[tag]), 8), begins[tag]]
    its += [b"\1" + begins[tag + 1]] if tag + 1 < len(begins) else []
    return segments.crc32c(b"".join(its))


def header(path):
    """What SQLite says of a database: its application, whose it is, and how long a page is."""
    database = sqlite3.connect(path)
    found = [
        database.execute(f"PRAGMA {name}").fetchone()[0] for name in ("application_id", "user_version", "page_size")
    ]
    database.close()
    return tuple(it % 2**32 for it in found)


def databases(checks, command):
    """The database of a storage server says whose it is. One that says nothing, of version 0.2, is taken over, once."""
    with tempfile.TemporaryDirectory() as room:
        files = Files(checks, command, room)
        with open(f"{room}/shards.json", "w", encoding="utf-8") as it:
            json.dump(lines.HALVES, it)
        for tag, cluster, config in (
            (0, "fdbrec", "config"),
            (1, "fdbrec", "shards"),
            (0, "another cluster", "shards"),
        ):
            shards = (lines.CONFIG if config == "config" else lines.HALVES)["shards"]
            kind, folder = ["storage", "--tag", str(tag), "--cluster", cluster], f"{tag} of {cluster}"
            kind += ["--config", f"{room}/{config}.json"]
            os.mkdir(f"{room}/{folder}")
            path = f"{room}/{folder}/storage-{tag}"
            files.run([*kind, *MAKE], folder, [it[0] for it in lines.STORAGES[:3]] if config == "config" else [INIT])
            found, status, text = files.run(kind, folder, [INIT])
            checks.check((len(found), status, text) == (1, 0, ""), "over its database it answers", found, status, text)
            wanted = 0x66646272, whose(cluster, tag, shards), 1024
            checks.check(header(path) == wanted, "the database of", folder, "says", header(path), "and not", wanted)
            # as version 0.2 left it
            database = sqlite3.connect(path)
            database.execute("PRAGMA application_id = 0")
            database.execute("PRAGMA user_version = 0")
            database.close()
            files.ends(kind, folder, 3, UNMADE, "over a database of version 0.2")
            files.ends([*kind, *MAKE], folder, 3, THERE, "made over a database of version 0.2")
            checks.check(header(path) == (0, 0, 1024), "a refusal wrote", header(path))
            its = files.run([*kind, *ADOPT], folder, [INIT])
            checks.check(its == (found, 0, ""), "taken over it answers", its, "and not", found)
            checks.check(header(path) == wanted, "taken over it says", header(path), "and not", wanted)
            files.ends([*kind, *ADOPT], folder, 3, THERE, "taken over twice")
            its = files.run(kind, folder, [INIT])
            checks.check(its == (found, 0, ""), "over what was taken over it answers", its, "and not", found)
        # what a kill leaves while files are made: the first page alone
        with open(f"{room}/0 of fdbrec/storage-0", "rb") as it:
            page = bytearray(it.read(1024))
        # (one page, its first schema, and no table)
        page[24:28] = page[92:96] = bytes(4)
        page[28:44] = bytes(3) + b"\1" + bytes(11) + b"\1"
        page[100:] = b"\r" + bytes(4) + b"\4" + bytes(918)
        files.make("bare/storage-0", page)
        files.ends(STORAGE, "bare", 3, UNMADE, "over its first page alone")
        files.ends([*STORAGE, *ADOPT], "bare", 3, UNMADE, "taken over from its first page alone")
        files.ends([*STORAGE, *MAKE], "bare", 0, "", "made over its first page alone")
        files.ends(STORAGE, "bare", 0, "", "over its files")
        # a database that is empty beside a log that holds none is nobody's: none is made of it
        files.make("empty/storage-0", b"")
        files.make("empty/storage-0-wal", b"no log")
        files.ends(STORAGE, "empty", 3, UNMADE, "over an empty database beside a log")
        files.ends([*STORAGE, *MAKE], "empty", 3, THERE, "made over an empty database beside a log")
        files.ends([*STORAGE, *ADOPT], "empty", 3, UNMADE, "taken over from an empty database beside a log")


def earlier(files):
    """Files that are put back: one of the two in the other's place, which is told; and both, which no file tells."""
    checks, room = files.checks, files.room
    _, is_turned = turned(files, "now", 2)
    checks.check(is_turned, "the files did not let go")
    pair, owner = files.pair("now"), segments.owner_of("fdbrec", "log 513 0", [4, 2])
    at, number = segments.current(pair, owner)
    checks.check(number == 3 and at == 0, "the current file is", number, "on device", at)
    for newer, older in (pair, pair[::-1]):
        for name in FILES["log"]:
            files.make(f"older/{name}", older if newer is pair[0] else newer)
        files.ends(LOG, "older", 3, BROKEN, "with the same file twice")
    # the older file alone, beside one that holds nothing: as if it had never let go
    for name, text in zip(FILES["log"], (segments.file_of([]), pair[1])):
        files.make(f"early/{name}", text)
    log = segments.log_of(segments.records_of((segments.file_of([]), pair[1]), owner), 513, 0, 4, 2)
    found, status, text = files.run(LOG, "early", [INIT])
    its = [it.get("last") for it in found]
    checks.check((its, status, text) == ([{"log": log.last()}], 0, ""), "over an earlier file it stands at", its, text)


def pushes(count, size, known=lambda version: version - 1, first=11):
    """Bodies of lines that push batches of so many bytes to a log that has its mark, from a version on."""
    for version in range(first, first + count):
        batch = [{"set": {"key": f"{version % 256:02x}", "value": f"{version % 251:02x}" * size}}]
        ask = lines.push(version, version + 1, known(version), [[0, batch]])
        yield {"type": "ask", "at": 9, "from": lines.proxy(513), "ask": ask}


def pop(through, tag=0):
    return {"type": "ask", "at": 9, "from": lines.STORAGE, "ask": lines.pop(tag, through)}


def lock(epoch=513):
    return {"type": "ask", "at": 9, "from": {"recoverer": {"ballot": 769}}, "ask": lines.lock(epoch)}


BEGUN = [lines.LOGS[2][0], lines.LOGS[4][0]]  # a seed and a mark
LITTLE = [*LOG, "--room", "65536"]


def turned(files, folder, times, size=1000, each=15):
    """A log with little room is pushed to, with pops behind, until it has let go so often. The lines that it was given,
    and whether it came to that."""
    owner, given = segments.owner_of("fdbrec", "log 513 0", [4, 2]), list(BEGUN)
    os.mkdir(f"{files.room}/{folder}")
    files.run([*LITTLE, *MAKE], folder, given)
    first = 11
    for _ in range(8 * times):
        more = [*pushes(each, size, first=first), pop(first + each - 5)]
        files.run(LITTLE, folder, more)
        given, first = given + more, first + each
        if segments.current(files.pair(folder), owner)[1] > times:
            return given, True
    return given, False


def in_use(files):
    """Two processes at one file: the second one is refused, and the first goes on."""
    os.mkdir(f"{files.room}/shared")
    for kind, name in ((CELL, "cell 0"), (LOG, "log 513 0"), (STORAGE, "storage 0")):
        pipes = {"stdin": subprocess.PIPE, "stdout": subprocess.PIPE, "stderr": subprocess.PIPE}
        first = subprocess.Popen(files.words([*kind, *MAKE], "shared"), **pipes)
        first.stdin.write(line(name, 0, INIT) + b"\n")
        first.stdin.flush()
        is_there = json.loads(first.stdout.readline())["body"]["type"] == "init_ok"
        files.ends(kind, "shared", 3, BUSY, "beside another process")
        files.ends([*kind, *MAKE], "shared", 3, BUSY, "made beside another process")
        out, errors = first.communicate(line(name, 1, {"type": "last"}) + b"\n", PATIENCE)
        is_so = is_there and json.loads(out)["body"]["type"] == "last_ok" and (first.returncode, errors) == (0, b"")
        files.checks.check(is_so, kind[0], "that has its file ended with", first.returncode, out, errors)


def failed(checks, command):
    """A host that refuses a write: the ask is answered by error 13, the process ends, and what was answered before is
    there at the next start."""

    def limited():
        signal.signal(signal.SIGXFSZ, signal.SIG_IGN)
        resource.setrlimit(resource.RLIMIT_FSIZE, (2000, 2000))

    with tempfile.TemporaryDirectory() as room:
        files = Files(checks, command, room)
        os.mkdir(f"{room}/files")
        big = [{"set": {"key": "61", "value": "00" * 3000}}]
        push = lines.asked(9, lines.proxy(513), lines.push(11, 13, 11, [[0, big]]), 10, {}, {})
        # (a line between the mark and the push, which would otherwise be one group)
        bodies = [lines.LOGS[2][0], lines.LOGS[4][0], {"type": "last"}, push[0]]
        found, status, text = files.run([*LOG, *MAKE], "files", [*bodies, INIT], preexec_fn=limited)
        types = [(it["type"], it.get("code"), it.get("text")) for it in found]
        wanted = [("ask_ok", None, None), ("ask_ok", None, None), ("last_ok", None, None), ("error", 13, FAILED)]
        checks.check((types, status, text) == (wanted, 3, FAILED), "a write that is refused:", types, status, text)
        found, status, text = files.run(LOG, "files", [INIT, {"type": "back", "at": 9}, lines.LOGS[5][0]])
        stands = [it.get("last") for it in found]
        wanted = [lines.log_last(11, 9), lines.log_last(11, 9), lines.log_last(13, 11)]
        checks.check((stands, status, text) == (wanted, 0, ""), "after it the log stands at", stands, status, text)


def full(checks, command):
    """A log without room: a push that would need a byte more is refused and changes nothing, and one that needs none
    more is taken. It leaves 4,096 bytes free, so that a log without room is locked, popped and locked again."""

    def body(size):
        big = [{"set": {"key": "61", "value": "00" * size}}]
        return lines.asked(9, lines.proxy(513), lines.push(11, 13, 11, [[0, big]]), 10, {}, {})[0]

    with tempfile.TemporaryDirectory() as room:
        files = Files(checks, command, room)
        os.mkdir(f"{room}/files")
        owner = segments.owner_of("fdbrec", "log 513 0", [4, 2])
        files.run([*LITTLE, *MAKE], "files", BEGUN)
        state = segments.records_of(files.pair("files"), owner)
        begun = segments.file_of([[segments.header(2, owner), *state]])
        # (a push of one set of a byte's key is a record of 42 bytes and its value, with 4 bytes before it in a group of
        # 14 bytes; it comes into a file that has let go of what it can)
        most = 65536 - 4096 - len(begun) - 14 - 4 - 42
        found, status, text = files.run(LITTLE, "files", [body(most + 1), INIT])
        types = [(it["type"], it.get("code"), it.get("text")) for it in found]
        is_so = types == [("error", 14, "Full"), ("init_ok", None, None)] and (status, text) == (0, "")
        checks.check(is_so, "a push without room:", types, status, text)
        checks.check(found[-1].get("last") == lines.log_last(11, 9), "it changed the log:", found[-1])
        left = segments.records_of(files.pair("files"), owner)
        checks.check(left == state, "it changed the records:", left)
        found, status, text = files.run(LITTLE, "files", [body(most), INIT])
        types = [(it["type"], it.get("last")) for it in found]
        size = max(map(len, files.pair("files")))
        is_so = types[0][0] == "ask_ok" and types[1:] == [("init_ok", lines.log_last(13, 11))] and size == 65536 - 4096
        checks.check(is_so, "a push with just room:", size, types)
        more = lines.asked(9, lines.proxy(513), lines.push(13, 14, 11), 10, {}, {})[0]
        kinds = lambda found: [it.get("text", it["type"]) for it in found[0]]
        found = files.run(LITTLE, "files", [more, lock(), lock(), pop(11), pop(11), lock(), INIT])
        is_so = kinds(found) == ["Full", *["ask_ok"] * 5, "init_ok"] and found[1:] == (0, "")
        checks.check(is_so, "a log that is full, locked and popped:", found)
        is_so = found[0][-1].get("last") == lines.log_last(13, 11, True, popped=[[0, 11]])
        checks.check(is_so, "a log that is full, locked and popped, stands at", found[0][-1])
        never_popped(files)
        only_pops(files, owner)


def filled(files, folder, size):
    """A log that is never popped is pushed to until it refuses. Its last version, and the line that it refused. (Those
    behind that line have a gap before them.)"""
    os.mkdir(f"{files.room}/{folder}")
    files.run([*LITTLE, *MAKE], folder, BEGUN)
    given = list(pushes(65536 // size, size))
    found, status, text = files.run(LITTLE, folder, [*given, INIT])
    told = [it.get("text", it["type"]) for it in found]
    at = told.index("Full") if "Full" in told else len(told) - 2
    last = found[-1]["last"]["log"]["durable"]
    is_so = 20 < at and told.count("Full") == 1 and (last, status, text) == (11 + at, 0, "")
    files.checks.check(is_so, "pushes until it is full:", at, "of", len(told), "through", last, status, text)
    return last, given[at]


def never_popped(files):
    """It is locked then, popped and locked again; once its state is little enough, it lets go, and takes more pops. A
    log that was not locked takes pushes again."""
    for is_locked in (False, True):
        folder = f"never-{is_locked}"
        last, refused_line = filled(files, folder, 500)
        asks = [lock()] * is_locked + [pop(12), lock(), pop(14)] if is_locked else [pop(12), pop(14)]
        found = files.run(LITTLE, folder, [*asks, INIT])
        told = [it["type"] for it in found[0]]
        is_so = told == ["ask_ok"] * len(asks) + ["init_ok"] and found[1:] == (0, "")
        files.checks.check(is_so, "a full log, locked", is_locked, "is told", found)
        wanted = lines.log_last(last, last - 2, is_locked, popped=[[0, 14]])
        its = found[0][-1]["last"]
        files.checks.check(its == wanted, "a full log stands at", its, "and not", wanted)
        more = [*(pop(version) for version in range(15, last - 2)), lock() if is_locked else refused_line, INIT]
        found = files.run(LITTLE, folder, more)
        told = [it.get("text", it["type"]) for it in found[0]]
        is_so = told == ["ask_ok"] * (len(more) - 1) + ["init_ok"] and found[1:] == (0, "")
        files.checks.check(is_so, "a full log that is popped, locked", is_locked, "is told", told, found[1:])
        last += not is_locked
        wanted = lines.log_last(last, last - 2, is_locked, popped=[[0, last - 3 - (not is_locked)]])
        its = found[0][-1]["last"]
        files.checks.check(its == wanted, "popped to its end it stands at", its, "and not", wanted)


def only_pops(files, owner):
    """A log that is full takes pops until not one more fits into its file, and lets go for the next one, although what
    is left takes more than half of its room: the push that was refused is taken then. It is locked, too, and that is
    there at the next start."""
    last, refused_line = filled(files, "pops", 100)
    size = len(files.pair("pops")[0])
    # (a pop is a record of 10 bytes, with 4 bytes before it in a group of 14 bytes)
    most = (65536 - size) // 28
    for given, number in (([pop(12 + at) for at in range(most)], 1), ([pop(12 + most)], 2)):
        found, status, text = files.run(LITTLE, "pops", given)
        told = [it.get("text", it["type"]) for it in found]
        is_so = told == ["ask_ok"] * len(given) and (status, text) == (0, "")
        files.checks.check(is_so and most > 140, len(given), "pops of a full log are told", told, status, text)
        at = segments.current(files.pair("pops"), owner)
        files.checks.check(at == ((number - 1) % 2, number), "behind them the current file is", at, "and not", number)
    sizes = list(map(len, files.pair("pops")))
    is_so = sizes[0] == size + 28 * most > 65536 - 28 and 32768 < sizes[1] < 61440
    files.checks.check(is_so, "pops to the last byte, and one behind them: the files have", sizes, "bytes")
    found = files.run(LITTLE, "pops", [refused_line, lock(), lock(), INIT])
    told = [it.get("text", it["type"]) for it in found[0]]
    is_so = told == ["ask_ok", "ask_ok", "ask_ok", "init_ok"] and found[1:] == (0, "")
    files.checks.check(is_so, "a push and a lock behind pops without room are told", told, found[1:])
    log = segments.log_of(segments.records_of(files.pair("pops"), owner), 513, 0, 4, 2)
    is_so = {"log": log.last()} == found[0][-1]["last"] and log.stopped and log.durable == last + 1
    files.checks.check(is_so, "its file has", log.last(), "and not", found[0][-1])


def together(checks, command):
    """Lines that a log over its files reads at once, which it takes as groups: it answers as if they had come one by
    one, and its file has the same records, in fewer groups."""
    by, pop = lines.proxy(513), {"log": {"pop": {"epoch": 513, "tag": 0, "through": 11}}}
    asks = [lines.push(at, at + 1, 11, [[0, lines.BATCH]]) for at in range(11, 81)]
    asks += [lines.PEEK, lines.push(90, 91, 11), lines.push(81, 82, 81), lines.push(20, 21, 11, [[0, lines.BATCH]])]
    asks += [lines.push(82, 83, 81), lines.PEEK, lines.PEEK, pop, lines.push(83, 84, 81), lines.PEEK]
    given = list(BEGUN)
    given += [{"type": "ask", "at": at % 7, "from": by, "ask": its} for at, its in enumerate(asks)]
    with tempfile.TemporaryDirectory() as room:
        files = Files(checks, command, room)
        for folder in ("once", "each"):
            os.mkdir(f"{room}/{folder}")
        once, each = files.run([*LOG, *MAKE], "once", given), files.each([*LOG, *MAKE], "each", given)
        checks.check(once == (*each, "") and each[1] == 0, "at once a log answers", once, "and one by one", each)
        owner = segments.owner_of("fdbrec", "log 513 0", [4, 2])
        pairs = files.pair("once"), files.pair("each")
        records = [segments.records_of(pair, owner) for pair in pairs]
        checks.check(records[0] == records[1], "given lines at once a log has other records than given them one by one")
        counts = [len(segments.groups_in(pair[0])) for pair in pairs]
        # (the header, a seed, a mark, 73 pushes, and a pop; a push with a gap before it and one that is held are none)
        checks.check(counts[1] == 77 and counts[0] < 20, "groups of lines given at once, and one by one:", counts)


def lines_that_fail(checks, command):
    """Lines in and out that fail, or are cut off."""
    words, given = [*command, *CELL], line("cell 0", 1, {"type": "last"})
    with tempfile.TemporaryDirectory() as room:
        cut = given + b"\n" + given[:-9]
        for text, answers in ((given, ["last_ok"]), (cut, ["last_ok", "error"]), (given[:-1], ["error"])):
            ran = subprocess.run(words, input=text, capture_output=True, timeout=PATIENCE)
            found = [json.loads(it)["body"]["type"] for it in ran.stdout.splitlines()]
            is_so = (found, ran.returncode, ran.stderr) == (answers, 0, b"")
            checks.check(is_so, text[-40:], "without its end is answered by", found, ran.returncode, ran.stderr)
        with open("/dev/full", "wb") as full:
            ran = subprocess.run(words, input=given + b"\n", stdout=full, stderr=subprocess.PIPE, timeout=PATIENCE)
        is_so = (ran.returncode, ran.stderr) == (4, b"output failed\n")
        checks.check(is_so, "on a full device it ended with", ran.returncode, ran.stderr)
        folder = os.open(room, os.O_RDONLY)
        ran = subprocess.run(words, stdin=folder, capture_output=True, timeout=PATIENCE)
        os.close(folder)
        is_so = (ran.returncode, ran.stdout, ran.stderr) == (4, b"", b"input failed\n")
        checks.check(is_so, "reading a folder it ended with", ran.returncode, ran.stdout, ran.stderr)
        answered_before(checks, Files(checks, command, room))


def answered_before(checks, files):
    """An answer that nobody takes: what was done stands in the file, and is answered at the next start."""
    os.mkdir(f"{files.room}/files")
    ask = lines.CELLS[3][0]
    with open("/dev/full", "wb") as full:
        text = line("cell 0", 1, ask) + b"\n"
        words = files.words([*CELL, *MAKE], "files")
        ran = subprocess.run(words, input=text, stdout=full, stderr=subprocess.PIPE, timeout=PATIENCE)
    checks.check(ran.returncode == 4, "on a full device it ended with", ran.returncode, ran.stderr)
    found, status, text = files.run(CELL, "files", [INIT])
    stands = [it.get("last") for it in found]
    wanted = [lines.cell(513, 513, lines.TWO)]
    checks.check((stands, status, text) == (wanted, 0, ""), "after it the cell stands at", stands, status, text)


# ---- kills inside an ask and inside a hear

PUSH = lines.asked(9, lines.proxy(513), lines.push(11, 13, 11, [[0, lines.BATCH]]), 10, {}, {})
# two records, what is complete beyond them, and what is known: four calls of the store
PULL = lines.peeked(0, 2, 5, (2, lines.BATCH), (3, lines.SET))
NOT_BEGUN = "nothing of it"


def hear(by, tell):
    return {"type": "hear", "at": 9, "from": by, "tell": tell, "last": True}


def sweeps():
    """Of each: the kind; lines to a first process; the line in which the next one is killed; what may be found then,
    each state with what is entered of a hear: where it stopped, None for all of it."""
    yield CELL, [], lines.CELLS[3][0], [(lines.cell(0, 0, ""), 0), (lines.cell(513, 513, lines.TWO), 0)]
    logs = [lines.LOGS[2][0], lines.LOGS[4][0]]
    yield LOG, logs, PUSH[0], [(lines.log_last(11, 9), 0), (lines.log_last(13, 11), 0)]
    first, two, three = lines.stands(257, 0, 0), lines.stands(257, 2, 0, k61="01"), lines.stands(257, 3, 0, k61="02")
    five, known = lines.stands(257, 5, 0, k61="02"), lines.stands(257, 5, 2, k61="02")
    stages = [(first, NOT_BEGUN), (two, 2), (three, 3), (five, 5), (known, None)]
    yield STORAGE, [], hear(lines.log(257, 0), PULL), stages
    # (the cut of its epoch is 2: it is undone, and then has the state of the next epoch)
    undone = [(three, NOT_BEGUN), (two, 2), (lines.AFTER, None)]
    yield STORAGE, [hear(lines.log(257, 0), lines.PULLED)], hear(lines.log(513, 0), lines.CUT), undone


def killed(checks, command, every=1):
    """A node is killed at each write and each sync of its file, in an ask or a hear: what is found then is a state on
    the way, and what is entered of a hear is what led there; an ask is then done, or done again."""
    with tempfile.TemporaryDirectory() as room:
        library = f"{room}/killed.so"
        its = ["cc", "-shared", "-fPIC", "-o", library, f"{built.TOP}/bench/killed.c", "-ldl"]
        subprocess.run(its, check=True, capture_output=True)
        files = Files(checks, command, room)
        for at, (kind, before, body, stages) in enumerate(sweeps()):
            os.mkdir(f"{room}/before-{at}")
            files.run([*kind, *MAKE], f"before-{at}", [INIT, *before])
            met = set()
            for call in ("pwrite64", "fdatasync"):
                for number in itertools.count(1, every):
                    its = os.environ | {"LD_PRELOAD": library, "KILLED": f"{call}:{number}"}
                    shutil.copytree(f"{room}/before-{at}", f"{room}/now")
                    found, status, text = files.run(kind, "now", [INIT, body], env=its)
                    title = f"{kind[0]}, sweep {at}, {call} {number}:"
                    checks.check(status in (0, -signal.SIGKILL), title, "ended with", status, text)
                    if status == -signal.SIGKILL:
                        met.add(back(files, title, kind, found, body, stages))
                    shutil.rmtree(f"{room}/now")
                    if status != -signal.SIGKILL:
                        break
            is_so = every > 1 or met >= set(range(len(stages)))
            checks.check(is_so, kind[0], "sweep", at, "met", met, "of", len(stages))


def back(files, title, kind, answered, body, stages):
    """The node is started again: which of the states it has."""
    is_open, is_hear = len(answered) < 2, body["type"] == "hear"
    line_of = {"type": "back", "at": 9}
    if is_open and is_hear:
        version = stages[0][0]["storage"]["version"]
        line_of["hearing"] = {"from": body["from"], "tell": body["tell"], "version": version}
    found, status, text = files.run(kind, "now", [INIT, line_of, body])
    is_so = (len(found), status, text) == (3, 0, "")
    files.checks.check(is_so, title, "started again it ended with", status, text, found)
    if len(found) != 3:
        return None
    lasts = [last for last, _ in stages]
    at = lasts.index(found[0]["last"]) if found[0]["last"] in lasts else None
    files.checks.check(at is not None and (is_open or at == len(stages) - 1), title, "it is found at", found[0]["last"])
    acts = [next(iter(it["act"])) for it in found[1].get("entries", [])]
    taken = [it["act"]["heard"]["taken"] for it in found[1].get("entries", []) if "heard" in it["act"]]
    is_part = is_open and is_hear and at is not None and stages[at][1] != NOT_BEGUN
    wanted = (["heard", "crashed"], [stages[at][1]]) if is_part else (["crashed"], [])
    files.checks.check((acts, taken) == wanted, title, "found at", found[0]["last"], "it enters", acts, taken)
    # (asked again it comes to the last state; a hear that is told again too, from wherever it was)
    is_so = found[2].get("last") == lasts[-1]
    files.checks.check(is_so, title, "asked again it is at", found[2].get("last"), "and not", lasts[-1])
    return at
