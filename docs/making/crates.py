"""The crates: what each is and uses, its size and its minutes (docs/tables --crates; docs/making/minutes.txt)."""
import os
import re
import sys

from making.definitions import Module
from making.layers import FAMILIES, family_of
from making.sources import TOP, files_of, read, wrapped

MINUTES = "docs/making/minutes.txt"
MINUTES_HEAD = "# minutes of a processor that each crate's own proof took, as docs/tables --log wrote them"
COLUMNS = "code", "definitions", "proofs", "tests", "minutes", "first check", "a change"
HEAD = (
    "Code, definitions and proofs are counted in lines. Minutes are those of one processor, from the runs of the gate "
    "that docs/GATE.md names. A crate's own minutes are the proof of a library; for a crate of tests its build and its "
    "run too; for a program both compilers too. A crate without minutes was in none of these runs. A first check of a "
    "crate also proves every crate below it; after a change in it every crate above it is proved again.",
    "'on' names the crates that a crate uses, without those that another one of them stands on already.",
)


def sentence(text):
    """The first sentence of a comment."""
    return re.split(r"(?<=[^.])\. ", text, maxsplit=1)[0].rstrip(".")


def head_of(crate):
    """The comment with which the source of a crate begins."""
    for name in ("lib.rt", "main.rt"):
        path = f"crates/{crate}/src/{name}"
        if os.path.isfile(f"{TOP}/{path}"):
            lines = read(path).split("\n")
            end = next(at for at, it in enumerate(lines) if not it.startswith("//!"))
            return " ".join(it[3:].strip() for it in lines[:end])
    return ""


def lines_in(crate, part, ending):
    return sum(read(it).count("\n") for it in files_of(f"crates/{crate}/{part}", ending))


def sizes(crate):
    """Lines of code, of definitions and of proofs, and tests."""
    tests = sum(len(re.findall(r"^#\[test\]", read(it), re.M)) for it in files_of(f"crates/{crate}/src", ".rt"))
    code = [lines_in(crate, "src", ".rt"), lines_in(crate, "specs", ".antt"), lines_in(crate, "proofs", ".antt")]
    return code + [tests]


def minutes(crates, log=None):
    """What each crate took: as a log has it, or else as the file has it."""
    if log:
        return {it: log.minutes(it) for it in crates.names}
    text = read(MINUTES)
    if re.search("^(?:<<<<<<<|>>>>>>>)", text, re.M):
        sys.exit(f"{MINUTES}: a merge is under way there, and the minutes would be lost: take one side first")
    took = {it[1]: float(it[2]) for it in re.finditer(r"^(\w+) (\d+\.\d)$", text, re.M)}
    return {it: took.get(it, 0) for it in crates.names}


def minutes_text(took):
    """The file: a line `CRATE MINUTES` for each crate that has some."""
    return "\n".join([MINUTES_HEAD, *(f"{crate} {it:.1f}" for crate, it in took.items() if round(it, 1))]) + "\n"


class Minutes:
    """What each crate took, and with the crates below it (a first check) or above it (a change)."""

    def __init__(self, crates, took):
        # (in tenths, as whole numbers: so no order of adding shows)
        self.own = {it: round(10 * took[it]) for it in crates.names}
        self.below = {it: crates.below(it) | {it} for it in crates.names}

    def first(self, name):
        # (a half is rounded up, as ./fdbrec does)
        return (sum(self.own[it] for it in self.below[name]) + 5) // 10

    def change(self, name):
        return (sum(took for it, took in self.own.items() if name in self.below[it]) + 5) // 10


def faults(crates):
    """The crates whose source does not say what they are."""
    return [f"crates/{it}/src: the source begins with no comment" for it in crates.names if not head_of(it)]


def listed(crates, named):
    """Some crates, or all, by families, of each the lowest first: lines of `docs/tables --crates`."""
    took = Minutes(crates, minutes(crates))
    chosen = [it for it in crates.names if not named or it in named]
    counts = {it: sizes(it) for it in chosen}
    wide = max(len(it) for it in chosen) + 2
    for it in HEAD:
        yield from [*wrapped(it).split("\n"), ""]
    yield " " * wide + "".join(f"{it:>13}" for it in COLUMNS)
    for family, _, _ in reversed(FAMILIES):
        names = [it for it in chosen if family_of(it) == family]
        if names:
            yield from ["", family]
        for name in names:
            numbers = [f"{it:,}" if it else "" for it in counts[name]]
            numbers += [f"{took.own[name] / 10:.1f}" if took.own[name] else "", took.first(name), took.change(name)]
            yield f"{name:{wide}}" + "".join(f"{it:>13}" for it in numbers)
            yield from wrapped(sentence(head_of(name)) + ".", "    ", "    ").split("\n")
            if on := crates.direct(name):
                yield from wrapped("on " + ", ".join(on), "    ", "    ").split("\n")
    code, definitions, proofs, tests = (sum(it[at] for it in counts.values()) for at in range(4))
    yield ""
    yield (
        f"in all {len(chosen)} crates, {code:,} lines of code, {definitions:,} of definitions and {proofs:,} of "
        f"proofs, {tests} tests, {sum(took.own[it] for it in chosen) / 10:.0f} minutes"
    )


def modules(crates, named):
    """What each module of definitions of some crates states, or of all: lines of `docs/tables --modules`."""
    for crate in named or crates.names:
        for file in files_of(f"crates/{crate}/specs", ".antt"):
            name = os.path.basename(file).removesuffix(".antt")
            if name != "Lib":
                yield f"{crate}/specs/{name}.antt: {sentence(Module(crate, name, read(file)).head)}"
