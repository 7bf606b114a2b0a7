"""Runs of a program with one of its allocations refused, for bench/memory and bench/refused."""
import concurrent.futures
import contextlib
import os
import re
import subprocess
import tempfile

BENCH = os.path.dirname(os.path.abspath(__file__))
COUNT = re.compile(rb"\nallocations (\d+) refused (\d+)\n\Z")
# How long a run may take: by the clock, which it may share with many.
SECONDS = 600
# What a test ends with that had no memory itself: the name of such an error, whole.
WANT = re.compile(rb"^error: (?:AllocFailed|AllocError|Memory|Err\((?:AllocError|Memory)\))(?!\w)", re.M)
# What a test says that made a call again which had found no memory.
AGAIN = re.compile(rb"^again$", re.M)


class Ended:
    """How a run ended: its status, what it said on its streams, how many allocations it made, and how many of them were
    refused."""

    def __init__(self, status, said, complained, made, denied=1):
        self.status, self.said, self.complained, self.made, self.denied = status, said, complained, made, denied


@contextlib.contextmanager
def library():
    """The library that refuses, compiled."""
    with tempfile.TemporaryDirectory() as folder:
        path = os.path.join(folder, "refuse.so")
        source = os.path.join(BENCH, "refuse.c")
        subprocess.run(["cc", "-O2", "-Wall", "-shared", "-fPIC", "-o", path, source], check=True)
        yield path


def ended(words, script, given, cwd):
    """A run with such an environment. None where it has no end."""
    given = {**os.environ, **given}
    try:
        ran = subprocess.run(words, env=given, input=script, capture_output=True, timeout=SECONDS, check=False, cwd=cwd)
    except subprocess.TimeoutExpired:
        return None
    found = COUNT.search(ran.stderr)
    complained = ran.stderr[: found.start()] if found else ran.stderr
    made, denied = (int(it) for it in found.groups()) if found else (None, None)
    return Ended(ran.returncode, ran.stdout, complained, made, denied)


def run(words, script, path, number, cwd=None):
    """A run whose allocation of this number is refused; with 0 it has all of its memory. None where it has no end."""
    return ended(words, script, {"LD_PRELOAD": path, "REFUSE": str(number)}, cwd)


def places(words, script, path, cwd=None):
    """The sites at which a run with all of its memory takes some, each with how often: see refuse.c."""
    with tempfile.NamedTemporaryFile() as file:
        given = {**os.environ, "LD_PRELOAD": path, "REFUSE": "0", "REFUSE_SITES": file.name}
        ran = subprocess.run(words, env=given, input=script, capture_output=True, timeout=SECONDS, check=False, cwd=cwd)
        found = [line.split() for line in file.read().decode().splitlines()]
    return ran, {name: int(count) for name, count in found}


def at_place(words, script, path, site, number, goes_on, cwd=None):
    """A run in which the allocation of this number among those of a site is refused, or where it goes on, each from that
    number on. None where it has no end."""
    how = "REFUSE_FROM" if goes_on else "REFUSE"
    return ended(words, script, {"LD_PRELOAD": path, "REFUSE_SITE": site, how: str(number)}, cwd)


LINE = re.compile(rb"(\d+) (\d+) ([01]) (\d+) (\d+) ([0-9a-f]{16}) (new|known)\n")


def copied(words, script, path, start, step, cwd=None):
    """Runs whose allocations of the numbers start, start + step and so on are refused, each in a copy that a program of
    one thread makes of itself there: each number with how its run ended. None where the program does not end well."""
    with tempfile.TemporaryDirectory() as folder:
        names = [os.path.join(folder, name) for name in ("in", "out", "err", "found")]
        with open(names[0], "wb") as file:
            file.write(script)
        given = {**os.environ, "LD_PRELOAD": path, "REFUSE": str(start), "REFUSE_STEP": str(step), "REFUSE_TO": names[3]}
        with open(names[0], "rb") as said, open(names[1], "wb") as out, open(names[2], "wb") as err:
            subprocess.run(words, env=given, stdin=said, stdout=out, stderr=err, check=False, cwd=cwd)
        with open(names[2], "rb") as file:
            if not COUNT.search(file.read()):
                return None
        with open(names[3], "rb") as file:
            return list(found_in(file.read()))


def found_in(text):
    """The lines of a file of refuse.c, each with what its copy wrote."""
    at, known = 0, {}
    while at < len(text):
        line = LINE.match(text, at)
        number, status, has_ended, out, err = (int(it) for it in line.groups()[:5])
        at = line.end()
        if line[7] == b"new":
            known[line[6]] = text[at : at + out], text[at + out : at + out + err]
            at += out + err
        said, complained = known[line[6]]
        yield number, Ended(os.waitstatus_to_exitcode(status), said, complained, 0 if has_ended else None)


def each(numbers, jobs, does):
    """What a function makes of each number, so many at a time, in their order."""
    with concurrent.futures.ThreadPoolExecutor(jobs) as pool:
        yield from zip(numbers, pool.map(does, numbers))


# ---- how a run ended: "same", "wanted" (memory), or else what is wrong with it


# what is said of operations that are refused, before a run ends
REFUSALS = re.compile(rb"(?:ops\[[0-9]+\]: [^\n]*\n)*")


def of_program(ended, first):
    if ended.status == 3:
        if ended.complained[REFUSALS.match(ended.complained).end() :] != b"out of memory\n":
            return f"status 3, and it says {ended.complained[:200]}"
        return "wanted" if first.said.startswith(ended.said) else "status 3, and other lines"
    is_same = (ended.status, ended.said, ended.complained) == (first.status, first.said, first.complained)
    return "same" if is_same else f"status {ended.status}, with what no run with all of its memory says"


def of_files(ended, first):
    """A store in files that is refused memory, and again where it is asked whether it works, may be told as failed."""
    is_failed = ended.status == 3 and b"store failed: " in ended.complained
    return "wanted" if is_failed and first.said.startswith(ended.said) else of_program(ended, first)


# (a cluster's answer does not tell memory from a thread, a node or a store)
UNMADE = b"out of memory, or a thread, a node or a store could not be made, or one failed\n"


def of_cluster(ended, _):
    if ended.status == 3:
        is_bare = not ended.said and ended.complained in (b"out of memory\n", UNMADE)
        return "wanted" if is_bare else "status 3, and lines"
    is_ok = ended.said == b"audit ok\n" or ended.said.startswith(b'{"config":{')
    return "same" if ended.status == 0 and is_ok and not ended.complained else f"status {ended.status}"


def of_player(ended, first):
    """A scenario that does not hold is told as such; one without memory for itself ends the program."""
    if (ended.status, ended.said) == (first.status, first.said):
        return "same"
    is_front = ended.status == 1 and first.said.startswith(ended.said)
    is_end = is_front and re.search(rb"out of memory|AllocError|Memory", ended.complained)
    return "wanted" if is_end else f"status {ended.status}"


MISSED = re.compile(rb"^! a row without memory changed .*\n(?:! left\n)*", re.M)


def of_housed(ended, first):
    """A node with its journal may have entered an ask for whose answer there was no memory. The player, which looks how
    many entries there are, then finds another number than before, and leaves that scenario."""
    missed = MISSED.search(ended.said)
    if ended.status != 0 or not missed:
        return of_player(ended, first)
    before, left, behind = ended.said[: missed.start()], missed[0].count(b"\n"), ended.said[missed.end() :]
    lines = first.said.splitlines(keepends=True)
    many = before.count(b"\n")
    is_right = b"".join(lines[:many]) == before and b"".join(lines[many + left :]) == behind
    return "wanted" if is_right else "another scenario does not hold"


def of_test(ended, _):
    said = ended.said + ended.complained
    if ended.status == 0 and b"test result: ok" in said:
        return "same"
    return "wanted" if ended.status == 101 and WANT.search(said) else f"status {ended.status}"
