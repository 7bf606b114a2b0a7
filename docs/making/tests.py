"""The lists of tests (docs/tables --tests): the scenarios, the crates of tests and the programs of tests/."""
import os
import re
import sys

from making.sources import TOP, files_of, read, wrapped

sys.path.insert(0, f"{TOP}/python")
from tests import scenes  # noqa: E402

SCENARIOS = "scenarios"


def scenarios():
    """The files of scenarios, by subject, with how many scenarios and rows they have."""
    counts, groups = {}, {}
    for path in scenes.files():
        rows = [len(it.rows) - 1 for it in scenes.read(path)]
        counts[os.path.basename(path)] = [len(rows), sum(rows)]
    for file, (count, rows) in counts.items():
        title = read(f"{SCENARIOS}/{file}").split("\n")[0].removeprefix("# ")
        about = re.split(r": |, from seeds", title)[0]
        group = groups.setdefault(about, [[], 0, 0])
        group[0].append(file)
        group[1] += count
        group[2] += rows
    for about, (named, count, rows) in groups.items():
        counted = f"{count} scenario{'s' * (count > 1)}, {rows:,} rows"
        yield from wrapped(f"{about}: {', '.join(named)}: {counted}", "    ", "        ").split("\n")
    sums = [sum(it[at] for it in counts.values()) for at in (0, 1)]
    yield f"    in all {sums[0]:,} scenarios, {sums[1]:,} rows"


def tests_of(crate):
    """Each module of a crate that has tests, with their names."""
    for file in files_of(f"crates/{crate}/src", ".rt"):
        names = re.findall(r"^#\[test\]\n(?:#.*\n)*(?:pub )?fn (\w+)", read(file), re.M)
        if names:
            yield file.removeprefix(f"crates/{crate}/src/").removesuffix(".rt"), names


def names_of(crate):
    for module, names in tests_of(crate):
        yield from (f"{crate}/src/{module}.rt: {it.replace('_', ' ')}" for it in names)


def about(program):
    """The first sentence of the text at the head of a program of tests/."""
    lines = read(program).split("\n")[1:]
    if lines[0].startswith("#"):
        text = " ".join(it.lstrip("# ") for it in lines[: next(at for at, it in enumerate(lines) if it[:1] != "#")])
    else:
        found = re.search(r'"""(.*?)"""', "\n".join(lines), re.S)
        text = found[1] if found else "it does not say what it is"
    first = re.split(r"(?<=[.])\s", " ".join(text.split()), maxsplit=1)[0].rstrip(".")
    return re.sub(r"^tests/\w+(?: \[[^]]*\])?: ", "", first)


def programs():
    """The programs of tests/, each with what it says of itself."""
    names = sorted(it for it in os.listdir(f"{TOP}/tests") if "." not in it and os.path.isfile(f"{TOP}/tests/{it}"))
    for it in names:
        if it != "run":
            yield from wrapped(f"{it}: {about(f'tests/{it}')}", "    ", "        ").split("\n")


def tests(crates, named):
    """All lists, or the names of the tests of some crates: lines of `docs/tables --tests`."""
    if named:
        for crate in named:
            yield from names_of(crate)
        return
    yield "Scenarios (scenarios/), which tests/scenarios and tests/bindings play. A row is one thing asked."
    yield from scenarios()
    yield from ["", "Crates of tests, each test by its name:"]
    for crate in crates.names:
        yield from (f"    {it}" for it in names_of(crate))
    yield from ["", "Programs of tests/, which ./test runs, each by the first sentence of its own text:"]
    yield from programs()
