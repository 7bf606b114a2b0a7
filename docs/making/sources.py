"""The files of the repository, and the crates of crates.txt."""
import os
import re
import textwrap

TOP = os.path.dirname(os.path.dirname(os.path.dirname(os.path.realpath(__file__))))
WIDTH = 120


def read(path):
    with open(f"{TOP}/{path}", encoding="utf-8") as it:
        return it.read()


def files_of(folder, ending):
    found = []
    for place, folders, names in os.walk(f"{TOP}/{folder}"):
        folders.sort()
        found += [os.path.relpath(f"{place}/{it}", TOP) for it in sorted(names) if it.endswith(ending)]
    return found


def clauses_of(contract):
    """What a contract ensures: each clause as one line, over however many it is laid out."""
    found = re.findall(r"\bensures .*?(?=\n\s*(?:ensures|requires)\b|\Z)", contract, re.S)
    for it in found:
        if it.count("{") != it.count("}"):
            raise ValueError(f"a clause without its end: {it}")
    return "\n".join(" ".join(it.split()) for it in found)


def wrapped(text, first="", rest=""):
    return textwrap.fill(
        text, WIDTH, initial_indent=first, subsequent_indent=rest, break_long_words=False, break_on_hyphens=False
    )


class Crates:
    """crates.txt: the crates in its order, and which of them each names."""

    def __init__(self):
        lines = [it.partition("#")[0] for it in read("crates.txt").split("\n")]
        named = {it.split(":")[0].split()[0]: it.split(":")[1].split() for it in lines if ":" in it}
        self.kit = {name: [it for it in all_named if it not in named] for name, all_named in named.items()}
        self.named = {name: [it for it in all_named if it in named] for name, all_named in named.items()}
        self.names = list(named)
        self.static = [it.split(":")[0].split()[0] for it in lines if it.split(":")[0].endswith(" staticlib")]

    def below(self, name, seen=None):
        """All crates that this one stands on."""
        seen = set() if seen is None else seen
        for it in self.named[name]:
            if it not in seen:
                seen.add(it)
                self.below(it, seen)
        return seen

    def direct(self, name):
        """Those that it names and that no other of them stands on."""
        others = [self.below(it) for it in self.named[name]]
        return [it for it in self.names if it in self.named[name] and not any(it in other for other in others)]

    def level(self, name):
        return 1 + max((self.level(it) for it in self.named[name]), default=-1)
