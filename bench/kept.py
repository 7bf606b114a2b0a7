"""What a program keeps in a file of the host, for bench/kills and bench/power: the store of `apply --db`, or records."""
import json
import os
import re
import subprocess


class Wrong(Exception):
    pass


class Damaged(Wrong):
    """Files that are none, where a loss of power came before they were made."""


def run(words, text="", **more):
    return subprocess.run(words, input=text, capture_output=True, text=True, timeout=120, **more)


class Kept:
    """What a program is given and tells, by numbers from 1 on, and what stands in its file then."""

    ENDS = ("", "-wal")  # of the names of its two files
    BEGINS = ("a fresh file", "a file that is there")

    def __init__(self, program):
        self.program = os.path.realpath(program)

    def begin(self, which, path, count):
        """Makes what a run begins with: nothing, or what an earlier one left. Up to which number that is."""
        if which == 0:
            return 0
        done = self.play(self.words(path), 1, count)
        if done.returncode != 0:
            raise Wrong(f"the first script ends with {done.returncode}: {done.stderr.strip()}")
        return count

    def play(self, words, first, last, **more):
        """Gives the program the numbers from first to last: how it ended."""
        return run(words, self.text(first, last), **more)

    def are_made(self, pair):
        """Whether files are so far that no crash leaves any but whole ones."""
        return True

    def ended(self, which, path):
        """Looks at what a run left that came to its end."""

    def look(self, path, copy, told):
        """Up to which number a file has what was given, if this is right after so much was told."""
        there = self.read(copy, told)
        if not told <= there <= told + 1:
            raise Wrong(f"told {told}, and {self.READER} finds {there}")
        self.show(path, there)
        return there

    def go_on(self, path, there):
        on = self.play(self.words(path), there + 1, there + 1)
        if on.returncode != 0 or self.told(on.stdout) != there + 1:
            raise Wrong(f"it does not go on from {there}: {on.stdout.strip()} {on.stderr.strip()}")


class Store(Kept):
    """The store of `apply --store sql --db FILE`: numbers are versions, and sqlite3 reads it too."""

    NAME, READER, TOOLS = "s.db", "sqlite3", ("sqlite3",)

    def words(self, path):
        return [self.program, "apply", "--store", "sql", "--db", path]

    def text(self, first, last):
        ops = []
        for version in range(first, last + 1):
            mutation = {"set": {"key": "%02x" % (version % 5), "value": "%016x" % version}}
            ops.append({"apply": {"version": version, "batch": [mutation]}})
        return json.dumps({"ops": ops})

    def rows(self, version):
        """The rows after the versions up to this one: key and value as they are printed."""
        made = {}
        for v in range(1, version + 1):
            made["%02x" % (v % 5)] = "%016x" % v
        return [f"{key} {made[key]}" for key in sorted(made)]

    def told(self, out):
        found = re.findall(r"^ok (\d+) ", out, re.M)
        return int(found[-1]) if found else 0

    def read(self, copy, _):
        if not os.path.exists(copy):
            return 0
        seen = run(["sqlite3", copy, "SELECT applied FROM meta; PRAGMA integrity_check"])
        lines = seen.stdout.split()
        # (a file whose making was cut off: the program alone makes it whole)
        if "no such table" in seen.stderr or "not a database" in seen.stderr:
            return 0
        if seen.returncode != 0 or len(lines) != 2 or lines[1] != "ok":
            raise Wrong(f"sqlite3 says {lines} {seen.stderr.strip()}")
        return int(lines[0])

    def show(self, path, there):
        shown = run([self.program, "rows", "--db", path])
        # (before the tables are made no store is there to be shown)
        if shown.returncode != 0 and (there, shown.returncode) != (0, 2):
            raise Wrong(f"rows ends with {shown.returncode}: {shown.stderr.strip()}")
        lines = shown.stdout.splitlines()
        if self.told(shown.stdout) != there or lines[1:] != self.rows(there):
            raise Wrong(f"sqlite3 finds {there}, rows shows {lines}")


class Records(Kept):
    """The record file of a built example_records: numbers are counts, and it is read here by docs/FORMATS.md too."""

    NAME, READER, TOOLS = "r.rec", "a reader of frames", ()

    def words(self, path):
        return [self.program, path]

    def record(self, number):
        # (lengths of all kinds, none among them)
        return f"{number} " + "x" * (number * number % 50) if number % 4 else ""

    def text(self, first, last):
        return "".join(self.record(number) + "\n" for number in range(first, last + 1))

    def told(self, out):
        found = re.findall(r"^kept (\d+): ", out, re.M)
        return int(found[-1]) if found else 0

    def read(self, copy, _):
        if not os.path.exists(copy):
            return 0
        with open(copy, "rb") as file:
            content = file.read()
        place, found = 0, 0
        while place < len(content) and content[place] == 1:
            end = place + 5 + int.from_bytes(content[place + 1 : place + 5], "big")
            # (the first byte alone is what is left of a file whose making was cut off)
            if end >= len(content):
                if len(content) == 1:
                    return 0
                raise Wrong(f"record {found + 1} is cut off")
            found += 1
            if content[place + 5 : end].decode() != self.record(found):
                raise Wrong(f"record {found} is {content[place + 5:end]}")
            place = end
        return found

    def show(self, path, there):
        shown = run(self.words(path))
        wanted = [f"found {there}"] + [f"  {self.record(number)}" for number in range(1, there + 1)]
        if shown.returncode != 0 or shown.stdout.splitlines() != wanted * 2:
            raise Wrong(f"{there} records are there, and it shows {shown.stdout.strip()} {shown.stderr.strip()}")
