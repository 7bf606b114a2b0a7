"""Runs of a built fdbrec and of its two twins that are measured, for bench/twins, bench/profile and bench/growth: the
scripts that all read, seconds and memory, and instructions (valgrind)."""
import argparse
import fcntl
import glob
import os
import re
import shutil
import subprocess
import sys
import tempfile
import textwrap

BENCH = os.path.dirname(os.path.realpath(__file__))
TOP = os.path.dirname(BENCH)
BUILT = os.path.join(TOP, "crates", "fdbrec", "out", "fdbrec")
# Both twins and the stopwatch are built by one `cargo build --release` in bench/twin.
BUILDS = os.path.join(BENCH, "twin", "target", "release")
MEASURE = os.path.join(BUILDS, "measure")
TWIN = os.path.join(BUILDS, "twin")
FDBREC, PLAIN, BY_HAND = "fdbrec", "plain twin", "twin by hand"
TWINS = {PLAIN: TWIN, BY_HAND: os.path.join(BUILDS, "twin_by_hand")}
PAGE = os.path.join(TOP, "docs", "PERFORMANCE.md")


def fail(why):
    sys.exit(f"{os.path.relpath(sys.argv[0], TOP)}: {why}")


# ---- what is needed


def words(usage):
    """The words that each of these scripts has."""
    parser = argparse.ArgumentParser(usage=usage)
    parser.add_argument("--program", type=os.path.abspath, default=BUILT)
    parser.add_argument("--seed", type=int, default=1)
    parser.add_argument("--write", nargs="?", const=PAGE, metavar="PAGE")
    parser.add_argument("--alone", action="store_true")
    return parser


def programs_of(options):
    """The programs that are compared, by name; --alone leaves the twins."""
    return TWINS if options.alone else {FDBREC: options.program, **TWINS}


def ready(options):
    """Names all that is missing at once, or else builds the twins."""
    crates = {"librust-serde-json-dev": ("serde_json", "serde", "itoa", "ryu"), "librust-hex-dev": ("hex",)}
    missing = [f"the command {name}" for name in ("cargo", "rustc", "valgrind") if not shutil.which(name)]
    missing += [f"the sources of {crate}: apt-get install {package}" for package, names in crates.items()
                for crate in names if not glob.glob(f"/usr/share/cargo/registry/{crate}-[0-9]*")]
    if not options.alone and not (os.path.isfile(options.program) and os.access(options.program, os.X_OK)):
        missing.append(f"a program: '{options.program}' is none (./fdbrec builds one)")
    if options.write and not os.path.isfile(options.write):
        missing.append(f"the page '{options.write}'")
    if missing:
        fail("; ".join(["missing", *missing]))
    subprocess.run(["cargo", "build", "--release", "--offline", "--quiet"], cwd=os.path.join(BENCH, "twin"), check=True)


# ---- scripts


def make(maker, size, seed, path, program):
    """Writes a script; that of a cluster is what the program prints of its own run of so many turns, and that of a
    world what the plain twin enters of its own simulation."""
    if maker == ["cluster"]:
        given = [program, "cluster", "--journal", "--turns", str(size), "--recoveries", "2", "--batches", str(size)]
        with open(path, "wb") as file:
            subprocess.run(given, check=True, stdout=file)
        return
    if maker[0] == "world":
        with tempfile.NamedTemporaryFile() as steps, open(path, "wb") as file:
            make(["steps", maker[1]], size, seed, steps.name, program)
            subprocess.run([TWIN, "simulate", "--journal"], stdin=steps, check=True, stdout=file)
        return
    seeded = [str(seed)] if maker[0] in ("scripts", "steps") else []
    given = [os.path.join(BENCH, maker[0]), *maker[1:], str(size), *seeded, path]
    subprocess.run(given, check=True, stdout=subprocess.DEVNULL)


# ---- measuring


def measured(program, given, script, lines):
    """Seconds of a processor and peak memory in MiB of one run, which writes its lines to a file."""
    ran = subprocess.run([MEASURE, script, lines, program, *given], check=True, capture_output=True, text=True)
    _, busy, peak = ran.stdout.split()
    return float(busy), int(peak) / 1024


def instructions(program, given, script):
    """Millions of instructions of one run. Threads run one at a time there."""
    counter = ["valgrind", "--tool=cachegrind", "--cache-sim=no", "--cachegrind-out-file=/dev/null"]
    with open(script, "rb") as file:
        ran = subprocess.run(counter + [program, *given], stdin=file, capture_output=True, check=False)
    found = re.search(rb"I\s+refs:\s+([0-9,]+)", ran.stderr)
    if ran.returncode or not found:
        fail(f"{program} {' '.join(given)} was not counted: {ran.stderr[-400:].decode(errors='replace')}")
    return int(found[1].replace(b",", b"")) / 1e6


def same(one, other):
    with open(one, "rb") as file, open(other, "rb") as again:
        return file.read() == again.read()


# ---- what is said of it


def table(head, rows):
    """A table of Markdown; all columns but the first one hold numbers."""
    lines = [f"| {' | '.join(each)} |" for each in (head, *rows)]
    return "\n".join([lines[0], f"|---{'|---:' * (len(head) - 1)}|", *lines[1:]])


def wrapped(text, indent=""):
    return textwrap.fill(text, 120, subsequent_indent=indent, break_long_words=False, break_on_hyphens=False)


def write(page, name, text):
    """Puts a text into a page, between the marks of the script of this name."""
    begin, last = f"<!-- bench/{name}: from here -->\n", "<!-- to here -->\n"
    with open(page, "r+", encoding="utf-8") as it:
        # (two scripts may write into one page)
        fcntl.flock(it, fcntl.LOCK_EX)
        head, start, rest = it.read().partition(begin)
        _, end, tail = rest.partition(last)
        if not (start and end):
            fail(f"{page} has not the marks {begin.strip()} and {last.strip()}")
        it.seek(0)
        it.write(f"{head}{start}{text}{end}{tail}")
        it.truncate()
    print(f"\nbench/{name}: wrote {page}")
