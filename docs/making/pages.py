"""What a run of the gate took, the paragraph of docs/GATE.md on it, and the minutes in other pages."""
import re
import sys

from making.sources import read, wrapped


# what a crate may take
CRATE_UNITS = 4


class Log:
    """What bench/gate wrote of a run, or was put together of several that shared the work: seconds of a processor by
    kind of work and crate. Of several there is a line `parts DAY PROCESSORS RUNS COUNT SECONDS`: beside them fr_base
    was proved so many times, in so many seconds on average."""

    def __init__(self, path):
        self.took, self.run, self.parts = {}, [], []
        with open(path, encoding="utf-8") as lines:
            for line in lines:
                words = line.split()
                if words[0] == "run":
                    self.run = words[1:]
                elif words[0] == "parts":
                    self.parts = words[1:]
                else:
                    self.took[words[0], words[1]] = float(words[2]) / 60

    def minutes(self, crate):
        return sum(self.took.get((kind, crate), 0) for kind in ("proof", "tests", "program"))

    def of_kind(self, kind):
        return sum(minutes for (it, _), minutes in self.took.items() if it == kind)

    def chain(self, crates):
        """The crates that wait for one another longest, with the edits of the last one, and their minutes."""
        longest = {}
        for it in sorted(crates.names, key=crates.level):
            took, names = max((longest[low] for low in crates.named[it]), default=(0, []))
            longest[it] = (took + self.minutes(it), names + [it])
        ends = [(took + self.took.get(("edits", it), 0), names) for it, (took, names) in longest.items()]
        return max(ends)

    def over(self, crates, unit):
        """The crates that took more than so many units, the dearest first."""
        took = sorted(((self.minutes(it) / unit, it) for it in crates.names), reverse=True)
        named = [f"{it} {units:.1f}" for units, it in took if units > CRATE_UNITS]
        return f"Above {CRATE_UNITS} units: {', '.join(named) or 'none'}."

    def said(self, crates):
        """The paragraph of docs/GATE.md."""
        unit = self.took.get(("proof", "fr_base"), 0) or 1
        if self.parts:
            day, processors, runs, count, seconds = self.parts
            unit = float(seconds) / 60
        whole = sum(self.took.values())
        kinds = (("libraries", "proof"), ("tests", "tests"), ("programs", "program"), ("edits", "edits"))
        parts = [f"{name} {self.of_kind(kind):.0f}" for name, kind in kinds]
        took, names = self.chain(crates)
        if self.parts:
            how = (
                f"Measured in {'a run' if runs == '1' else 'runs'} of the gate on {day}, on {processors} processors "
                "beside other work; each crate was proved from nothing once. All"
            )
            mean = f"{unit:.2f} minutes, the mean of {count} proofs"
        else:
            commit, day, processors, seconds, status = self.run
            ended = "passed" if status == "0" else "was cut off" if status == "cut" else "failed"
            how = (
                f"Measured in a run of the gate from nothing on {day}, over commit {commit}, on {processors} "
                f"processors: it {ended} after {int(seconds) / 60:.0f} minutes. It"
            )
            mean = f"{unit:.1f} minutes"
        return wrapped(
            f"{how} took {whole:.0f} minutes of a processor: {', '.join(parts)}, and {self.of_kind('rest'):.0f} for "
            f"the sums of libraries. One unit is the time of fr_base's own proof in the same run, here {mean}. The "
            f"whole took {whole / unit:.0f} units. The longest chain of crates that wait for one another took "
            f"{took / unit:.0f} ({', '.join(names)}). {self.over(crates, unit)}"
        )


RUN_START, RUN_END = "<!-- docs/tables --log: from here -->", "<!-- to here -->"


def gate(crates, log):
    """docs/GATE.md with the paragraph of a log, or else as it stands."""
    text = read("docs/GATE.md")
    if not log:
        return text
    head, _, rest = text.partition(RUN_START)
    return f"{head}{RUN_START}\n{log.said(crates)}\n{RUN_END}{rest.partition(RUN_END)[2]}"


# pages in which a number before `<!-- first check of CRATE -->` or `<!-- change in CRATE -->` is made of the minutes
MINUTED = ("README.md", "docs/START.md", "docs/NODES.md", "docs/LIBRARY.md")
MINUTE = re.compile(r"\d+(?=<!-- (first check of|change in) (\w+) -->)")


def minuted(path, took):
    """A page with the minutes of the crates that it names."""
    text, of = read(path), {"first check of": took.first, "change in": took.change}
    for it in MINUTE.finditer(text):
        if it[2] not in took.own:
            sys.exit(f"{path}: a comment has the minutes of {it[2]}, which is no crate")
    return MINUTE.sub(lambda it: str(of[it[1]](it[2])), text)


# pages that have a module of definitions whole but for its imports, folded to their width: before the block stands a
# comment `<!-- whole: PATH -->`
WHOLE = re.compile(r"<!-- whole: (\S+) -->\n\n((?:    .*\n|\n)+)")


def unfolded(text):
    """The words of a module, or of a block that quotes it, without imports and the marks of comments."""
    lines = [it for it in text.split("\n") if not it.startswith("use ")]
    return [it for it in " ".join(lines).split() if it != "--"]


def whole_faults(path):
    """What a page has of a module that is not in it, or the other way round, as one fault."""
    faults = []
    for it in WHOLE.finditer(read(path)):
        head, _, module = read(it[1]).partition("\n")
        if unfolded(it[2]) != unfolded(module) or not head.startswith("-- "):
            faults.append(f"{path}: what stands below `whole: {it[1]}` is not that module without its imports")
    return faults
