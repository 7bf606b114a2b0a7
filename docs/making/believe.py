"""docs/BELIEVE.md: what someone must read in order to know what the theorems say."""
import os
import re
import textwrap

from making.definitions import Closure, uses_of
from making.sources import TOP, WIDTH, clauses_of, wrapped

HEADLINE = ("fr_run_headline", "laws.rt", ("headline_law", "safety_law"))
STATEMENTS = (
    ("Headline", "Headline"),
    ("Safety", "EveryMomentIsSafe"),
    ("Safety", "IsSafe"),
    ("Safety", "AreOrdered"),
)
RUN = ("fr_runtime", "cluster.rt", "run")
BESIDE = (
    ("fr_run_outcomes", "laws.rt", ("once_law", "lost_law")),
    ("fr_run_outcomes", "serving.rt", ("serving_law", "loss_law", "snapshot_law", "read_law")),
    (
        "fr_run_outcomes",
        "progress.rt",
        (
            "pending_law",
            "reading_law",
            "locking_law",
            "copying_law",
            "seeding_law",
            "writing_law",
            "recovery_law",
            "hearing_law",
            "marking_law",
            "pulling_law",
            "return_law",
        ),
    ),
    ("fr_run_outcomes", "example.rt", ("pops_law",)),
    ("fr_run_commits", "laws.rt", ("service_law",)),
    ("fr_run_history", "laws.rt", ("real_time_law", "history_law", "machine_law")),
    ("fr_run_history", "example.rt", ("late_law",)),
)
RUN_TYPES = (
    ("fr_runtime_threads", "Rack"),
    ("fr_runtime_threads", "Workload"),
    ("fr_runtime_station", "Faults"),
    ("fr_runtime", "Report"),
    ("fr_world", "World"),
    ("fr_audit_journal", "Journal"),
)


def said(closure, key):
    """What stands beside a definition: its comment, or else its type."""
    crate, module, name = key
    if module is None:
        _, kind, comment, _ = closure.code.items[crate, name]
        return comment or f"a {kind} of the code"
    comment, lines = closure.modules[crate][module].defined[name]
    if comment:
        return comment
    more = next((at for at, it in enumerate(lines) if at and not it.startswith(" ")), len(lines))
    kinds = r"^(?:(?:abbrev|unfoldable|pub|record|data) )+"
    is_type = " : " in lines[0] and not lines[0].endswith(" where")
    signature = " ".join(it.strip() for it in lines[:more]) if is_type else lines[0].removesuffix(" where")
    return f"`{re.sub(kinds, '', signature)}`"


def listed(closure, keys):
    """The definitions of a closure that are not listed yet, by crate and module, lowest first."""
    lines, last = [], None
    places = {it[:2]: number for number, it in enumerate(keys)}
    for crate in closure.crates.names:
        groups = {it[:2] for it in keys if it[0] == crate}
        for group in sorted(groups, key=lambda it: (depth_of(closure, *it), places[it])):
            if crate != last:
                lines += ["", f"### {crate}"]
            last = crate
            lines += [""] + head_of(closure, *group)
            mine = [it for it in keys if it[:2] == group]
            lines += [wrapped(f"**{it[2]}**: {said(closure, it)}", "- ", "  ") for it in mine]
    return lines


def depth_of(closure, crate, name):
    """How many modules of its crate stand below one, and none of its types."""
    module = name and closure.modules[crate].get(name)
    if not module:
        return 0
    paths = [path for path, _ in module.taken.values()] + list(module.aliases.values())
    lows = {it.split(".")[3] for it in paths if it.startswith(f"Rattle.{crate}.specs.")} - {"declared"}
    return 1 + max((depth_of(closure, crate, it) for it in lows), default=0)


def head_of(closure, crate, module):
    if module is None:
        return [f"*Types of the code* ([crates/{crate}/src](../crates/{crate}/src)):", ""]
    head = closure.modules[crate][module].head
    return [wrapped(f"[{module}](../crates/{crate}/specs/{module}.antt). {head}".strip()), ""]


def statement(closure, crate, module, name):
    """A definition as it stands in its file."""
    comment, lines = closure.modules[crate][module].defined[name]
    return [wrapped(comment, "    -- ", "    -- ")] + [broken(f"    {it}") for it in lines]


def broken(line):
    """A line of at most 120 columns, broken where its operands end."""
    deep = len(line) - len(line.lstrip()) + 4
    return textwrap.fill(line, WIDTH, subsequent_indent=" " * deep, break_long_words=False, break_on_hyphens=False)


BELIEVE = """# What must be believed

A proof says that a statement follows. What the statement means is for its reader to judge, and rests on each
definition that it names and on those that these name. This page has all of them: who goes through it has read all that
the main theorem, the contract of a running cluster and the laws beside them mean, with what is trusted. The proofs
need not be read, nor the code, nor any other definition: those are checked by the prover.

It is made by `docs/tables` from the sources. A definition stands below those that it names, by crate and by module, so
that it can be read from here to the end, and the text of each is in the file that stands above it. The types of the
code that definitions speak of stand first in their crate; contracts see one as its model. Where a definition has no
comment its type is said.

## The statement of the main theorem
"""

THEOREM = (
    "It is what `{laws}` of [{path}](../{path}) ensure. Their clauses, and then the first of what they name as it "
    "stands in its file:"
)

RUN_TEXT = """
## The contract of a running cluster

What `Cluster::run` of [crates/{crate}/src/{file}](../crates/{crate}/src/{file}) ensures of
what it answers: the journals of its nodes are a run of the world, so all that is proved of every run holds of it; what
each workload was told is what the journals have; and each recoverer that was to begin did.
"""

BESIDE_TEXT = """
## The laws beside the main theorem

Laws of every run that nothing else stands on: what comes of batches and of recoveries, what serving logs and storage
servers answer from, what recoverers wait for, and a run that has what these speak of. Their clauses, by crate:
"""

TRUSTED = """
## What is trusted

- **The logic**, and the prover that checks proofs in it: `rt version` names it, and `fdbrec --version` too.
- **What the prover says of code**: that a function whose proof passed does what its contract says, for every input and
  every schedule of its threads, once it is compiled; with it the compilers, LLVM's among them.
- **What the standard library and the crates of the kit ensure**: their contracts are proved in the kit and not here.
  Those that the programs and fr_c stand on: {kit}.
- **The C library and the operating system**; that memory which was given is kept; of a disk, that it does what
  `Device` of fr_record says. Of a file of the host (`fr_host`): that what the host answered
  when the file was read, at its open, is what the file holds; that nobody else writes it; and that a crash leaves of it
  what the model of `sqlite_disk` allows. That the contracts over such a file speak of the file is this premise, and no
  proof.
- **Of the library for C** (fr_c): that callers keep what [LIBRARY.md](LIBRARY.md#what-the-caller-owes) says they owe;
  the header, which `./check` compares with the exports; the bindings of Rust and Python; the kit's part in C, which
  calls `malloc`.
- **The words of std** that the definitions above use, which mean what their names say: see below.

Nothing is proved of what threads do when: that a recovery or a pull ever comes to an end, that nothing waits for ever,
that memory or a disk is there. Nodes do not lie, and a lost log does not come back.

## Words of std
"""


def believe(crates, code):
    closure = Closure(crates, code)
    crate, file, laws = HEADLINE
    text = code.texts[f"crates/{crate}/src/{file}"]
    for law in laws:
        closure.take_all(contract_of(text, law), *uses_of(text))
    theorem = list(closure.order)
    at_run = f"crates/{RUN[0]}/src/{RUN[1]}"
    clauses = closure.take_contract(at_run, RUN[2], RUN_TYPES)
    more = closure.order[len(theorem) :]
    lines = BELIEVE.split("\n")
    lines += [wrapped(THEOREM.format(laws="` and `".join(laws), path=f"crates/{crate}/src/{file}")), ""]
    for law in laws:
        lines += [broken(f"    {it.strip()}") for it in contract_of(text, law).split("\n")] + [""]
    for module, name in STATEMENTS:
        lines += statement(closure, crate, module, name) + [""]
    lines += counted("## The definitions of the main theorem", theorem) + listed(closure, theorem)
    lines += RUN_TEXT.format(crate=RUN[0], file=RUN[1]).split("\n")
    lines += [broken(f"    {it.strip()}") for it in clauses.split("\n")] + [""]
    lines += counted("## What it names beside those of the main theorem", more) + listed(closure, more)
    clauses, rest = beside(closure, code)
    lines += BESIDE_TEXT.split("\n") + clauses
    lines += counted("## What they name beside those above", rest) + listed(closure, rest)
    built = programs(crates) + crates.static
    used = {it for name in built for below in crates.below(name) | {name} for it in crates.kit[below]}
    lines += wrap_items(TRUSTED.format(kit=", ".join(sorted(used))))
    for path, names in sorted(closure.std.items()):
        lines.append(wrapped(f"{path}: {', '.join(sorted(names))}", "- ", "  "))
    return "\n".join(lines) + "\n"


def beside(closure, code):
    """The clauses of the laws that stand beside the theorem, and the definitions that only these rest on."""
    known, lines = len(closure.order), []
    for crate, file, laws in BESIDE:
        path = f"crates/{crate}/src/{file}"
        text = code.texts[path]
        lines += [wrapped(f"`{'`, `'.join(laws)}` of [{path}](../{path}):"), ""]
        for law in laws:
            closure.take_all(contract_of(text, law), *uses_of(text))
            lines += [broken(f"    {it.strip()}") for it in contract_of(text, law).split("\n")] + [""]
    return lines, closure.order[known:]


def counted(title, keys):
    places = len({it[:2] for it in keys if it[1]})
    types = len([it for it in keys if it[1] is None])
    seen = "1 type of the code, seen as its model" if types == 1 else f"{types} types of the code, seen as their models"
    return [title, "", f"{len(keys) - types} definitions in {places} modules, and {seen}."]


def contract_of(text, function):
    at = text.index(f"pub fn {function}")
    return clauses_of(text[at : text.index("\n{", at)])


def wrap_items(text):
    """Wraps the items of a list anew, once a text was put into one."""
    return [wrapped(it, "", "  ") if len(it) > WIDTH else it for it in text.split("\n")]


def programs(crates):
    return [it for it in crates.names if os.path.isfile(f"{TOP}/crates/{it}/src/main.rt") and it.startswith("fdbrec")]
