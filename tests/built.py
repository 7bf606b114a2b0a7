"""What several tests of tests/ need: built programs, and the end of a test that lacks one."""

import fcntl
import os
import random
import re
import shutil
import subprocess
import sys
import tempfile
import time

sys.dont_write_bytecode = True
TOP = os.path.dirname(os.path.dirname(os.path.realpath(__file__)))
sys.path[:0] = [f"{TOP}/tools", f"{TOP}/python"]

from launcher import archive as archives  # noqa: E402
from launcher import unproved  # noqa: E402
from tests import play_scenarios, scenes  # noqa: E402


def skip(why):
    """Ends the test as one that is skipped."""
    print(why)
    sys.exit(77)


def uses():
    """What each crate of crates.txt uses: libraries of the repository and of the kit."""
    with open(f"{TOP}/crates.txt", encoding="utf-8") as it:
        lines = [line.split("#")[0].partition(":") for line in it]
    return {name.split()[0]: rest.split() for name, _, rest in lines if name.split()}


def below(crate):
    """A crate and all that it stands on, by crates.txt."""
    known, found, todo = uses(), set(), [crate]
    while todo:
        each = todo.pop()
        if each in known and each not in found:
            found.add(each)
            todo += known[each]
    return sorted(found)


def newer(crates, made):
    """A source of these crates that is newer than what was made of them, or None."""
    built = os.stat(made).st_mtime
    for each in crates:
        for folder, _, names in os.walk(f"{TOP}/crates/{each}/src"):
            for name in sorted(names):
                if os.stat(f"{folder}/{name}").st_mtime > built:
                    return os.path.relpath(f"{folder}/{name}", TOP)
    return None


def program(crate="fdbrec"):
    """The program of a crate: that which the environment's BUILT_NAME names, the name in capitals; or the proved one,
    as `rt ci` and `rt run` leave it; or one that was compiled without proofs and kept. Where there is none the test is
    skipped."""
    given = os.environ.get(f"BUILT_{crate.upper()}")
    if given:
        return os.path.abspath(given)
    path = f"{TOP}/crates/{crate}/out/{crate}"
    if os.access(path, os.X_OK) and not newer(below(crate), path):
        return os.path.abspath(path)
    found = unproved.kept(crate)
    if not found:
        why = "./test compiles it, which needs a Rattle kit" if not shutil.which("rt") else "./test compiles it"
        skip(f"there is no program of crates/{crate}, or a source is newer: {why}")
    return found


def patience(seconds):
    """How long a program may take: checked ones take some times as long as proved ones."""
    return seconds * 6 if "TEST_SHARE" in os.environ else seconds


def share(rows, least=1):
    """The rows that are run: all of them; or over programs that are compiled without proofs, whose checks make them
    slow, a share that is drawn by the seed of ./test. It has at least so many rows."""
    seed, part = os.environ.get("TEST_SEED"), os.environ.get("TEST_SHARE")
    rows = list(rows)
    if seed is None or part is None:
        return rows
    count = min(len(rows), max(least, round(len(rows) / int(part))))
    chosen = sorted(random.Random(f"{seed} {sys.argv[0]}").sample(range(len(rows)), count))
    return [rows[at] for at in chosen]


def every(rows, step):
    """The rows that are run where one says nothing without its neighbours: all of them; or over programs that are
    compiled without proofs each so many-th one, and the last."""
    rows = list(rows)
    return rows if "TEST_SHARE" not in os.environ else [*rows[:-1:step], rows[-1]]


def there(crate="fdbrec"):
    """The built program of a crate, or None, where a test has something else to look at then."""
    path = os.environ.get(f"BUILT_{crate.upper()}", f"{TOP}/crates/{crate}/out/{crate}")
    return program(crate) if os.access(path, os.X_OK) else None


def seeds(first, last):
    """The seeds from one to another, as bench scripts read them; over programs that are compiled without proofs a run
    of them, of which the seed of ./test says where it begins."""
    chosen = share(range(first, last + 1))
    return f"{first}-{last}" if len(chosen) > last - first else f"{chosen[0]}-{min(last, chosen[0] + len(chosen) - 1)}"


def archive(crate):
    """The same of a crate that is a static library, as ./build-library leaves it. Of such a crate `rt ci` leaves only
    the libraries below it; over these it is made here. A second test waits until that is done."""
    given = os.environ.get(f"BUILT_{crate.upper()}")
    if given:
        return os.path.abspath(given)
    path = f"{TOP}/crates/{crate}/out/lib{crate}.a"
    os.makedirs(os.path.dirname(path), exist_ok=True)
    with open(f"{os.path.dirname(path)}/lock-archive", "w", encoding="utf-8") as lock:
        fcntl.flock(lock, fcntl.LOCK_EX)
        if not os.path.exists(path) or newer(below(crate), path):
            return make_archive(crate, path)
    return path


def rlib(crate):
    """The folder of a crate's library."""
    return f"{TOP}/crates/{crate}/out/rlib/{crate}.rlib"


def make_archive(crate, path):
    """Proves and compiles a static library over the libraries below it, as `rt ci` leaves them. If one is not there, or
    is older than its source, it is the archive that was compiled without proofs, or the test is skipped: to prove them
    all takes hours."""
    libraries = [it for it in below(crate) if it != crate]
    lacking = [it for it in libraries if not os.path.isdir(rlib(it)) or newer([it], rlib(it))]
    if lacking:
        found = archives.kept(crate)
        if found:
            return found
        lost = os.path.relpath(rlib(lacking[0]), TOP)
        skip(f"{os.path.relpath(path, TOP)} is not built (./build-library), nor is {lost} below it (rt ci)")
    if shutil.which("rt") is None:
        skip(f"{os.path.relpath(path, TOP)} is not built, and the command rt is not on the PATH")
    told = subprocess.run(["rt", "doc"], stdout=subprocess.PIPE, check=True, text=True)
    kit = os.path.dirname(told.stdout.strip())
    words = [f"{kit}/bin/rattle", "build", "--crate-name", crate, "src/lib.rt", "--crate-type", "staticlib"]
    for it in ["std", *uses()[crate]]:
        words += ["--extern", f"{it}={rlib(it) if it in libraries else f'{kit}/rlibs/{it}.rlib'}"]
    for folder in [f"{kit}/rlibs", *(os.path.dirname(rlib(it)) for it in libraries)]:
        words += ["-L", f"dependency={folder}"]
    words += ["--antt-project", f"{kit}/rattle/logic/antt-project.json", "--logic-built", f"{kit}/logic_built"]
    words += ["--links", f"{crate}=", "--jobs", str(min(2, len(os.sched_getaffinity(0))))]
    words += ["--toolchain", f"{kit}/toolchain", "--backend", "llvm", "-o", f"{path}.new"]
    began = time.monotonic()
    ran = subprocess.run(words, cwd=f"{TOP}/crates/{crate}", stdout=subprocess.PIPE, stderr=subprocess.STDOUT)
    if ran.returncode != 0:
        print(ran.stdout.decode(errors="replace")[-3000:])
        print(f"{os.path.relpath(path, TOP)}: rattle build ended with status {ran.returncode}")
        sys.exit(1)
    os.replace(f"{path}.new", path)
    print(f"{os.path.relpath(path, TOP)} was proved and compiled in {time.monotonic() - began:.0f} s", flush=True)
    return path


def passes(words, **how):
    """Runs a script of the repository, whose lines go on as they are; the test fails where it does."""
    ran = subprocess.run(words, cwd=TOP, stdin=subprocess.DEVNULL, **how)
    if ran.returncode != 0:
        print(f"{' '.join(words)} ended with status {ran.returncode}")
        sys.exit(1)


class Checks:
    """Counts what is as it is to be, and says what is not."""

    def __init__(self):
        self.good, self.bad = 0, 0

    def check(self, is_so, *what):
        self.good, self.bad = self.good + bool(is_so), self.bad + (not is_so)
        if not is_so:
            print("WRONG:", *what, flush=True)

    def end(self, what):
        print(f"{self.good} {what} as they are to be, {self.bad} not")
        sys.exit(1 if self.bad else 0)


def name_changed_rows(checks, player, text, changes):
    """That a row of scenarios in which something else is wanted is named. Each change of a file's text is what it is, a
    pattern, and what stands in place of what this finds first."""
    for what, pattern, change in share(changes):
        changed, count = re.subn(pattern, change, text, count=1, flags=re.M)
        at = next((n for n, (a, b) in enumerate(zip(text.split("\n"), changed.split("\n")), 1) if a != b), 0)
        checks.check(count == 1 and is_told(player, changed, at), what, "changed in line", at, "is not told")


def is_told(player, text, at):
    """Whether a row that is wrong is told: of a text, the last one that begins in this line or before."""
    scenario = [it for it in scenes.scenarios(text) if it.line <= at][-1]
    rows = [it for it in scenes.of_player(scenario) if it.line <= at]
    with play_scenarios.Player(player) as asked:
        _, differs = play_scenarios.play(asked, scenario, rows)
    return differs is not None and differs[0] == rows[-1].line
