"""The crates of the repository as files: what each stands on, whether its program is built, how long that takes."""
import os

TOP = os.path.dirname(os.path.dirname(os.path.dirname(os.path.realpath(__file__))))
MINUTES = "docs/making/minutes.txt"


def uses(top=TOP):
    """What each crate of crates.txt uses: libraries of the repository and of the kit, lowest crates first."""
    with open(f"{top}/crates.txt", encoding="utf-8") as it:
        lines = [line.split("#")[0].partition(":") for line in it]
    return {name.split()[0]: rest.split() for name, _, rest in lines if name.split()}


def needed(crate, top=TOP):
    """A crate and all crates that it stands on, lowest first."""
    known, found = uses(top), {}

    def visit(each):
        if each in known and each not in found:
            for below in known[each]:
                visit(below)
            found[each] = True

    visit(crate)
    return list(found)


def minutes_of(crate, top=TOP):
    """How many processor minutes a program takes from nothing: the sum over its crates of what was measured."""
    with open(f"{top}/{MINUTES}", encoding="utf-8") as it:
        rows = [line.split() for line in it if not line.startswith("#")]
    tenths = {row[0]: round(10 * float(row[1])) for row in rows if len(row) > 1}
    return (sum(tenths.get(each, 0) for each in needed(crate, top)) + 5) // 10


def program_of(crate, top=TOP):
    """Where the proved program of a crate is, once it is built."""
    return f"{top}/crates/{crate}/out/{crate}"


def mark_of(crate, top=TOP):
    """A file as old as the moment at which the build of that program began."""
    return f"{top}/crates/{crate}/out/build_began"


def files_of(crate, parts=("src",), top=TOP):
    """The files and folders of these parts of a crate. Folders are named too, so that a file that went is seen."""
    for part in parts:
        for folder, inside, names in os.walk(f"{top}/crates/{crate}/{part}"):
            inside.sort()
            yield folder
            yield from (f"{folder}/{name}" for name in sorted(names))


def is_built(crate, top=TOP):
    """Whether the proved program of a crate is there, and no file that it was made of is newer than its build."""
    program, mark = program_of(crate, top), mark_of(crate, top)
    if not os.access(program, os.X_OK) or not os.path.exists(mark):
        return False
    began = os.stat(mark).st_mtime_ns
    parts = ("src", "specs", "proofs")
    if os.stat(f"{top}/crates.txt").st_mtime_ns > began:
        return False
    return all(os.stat(path).st_mtime_ns <= began for it in needed(crate, top) for path in files_of(it, parts, top))
