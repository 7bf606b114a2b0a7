"""play_scenarios.py [--player FILE] [--transcript] [FILE..] | --sample: has a test_scenarios play rows of scenarios.

The files are those of scenarios/, whose README.md says what a row is; none named: all. The program is asked row by row,
and what it tells is compared here. If no program is named, it is compiled without proofs, and kept. A line for each
scenario says how many of its rows were played, or which one differs; the last one, how many that were. The status is 1
where a row differs, cannot be read, or is played by nobody.
With --transcript nothing is compared: it prints the lines that the program is asked. --sample writes what `rt ci` runs
the program on, and what it must print: of each word of first rows the scenario with the fewest rows.
"""

from __future__ import annotations

import argparse
import concurrent.futures
import itertools
import json
import os
import subprocess
import sys
import tempfile

sys.path.insert(0, os.path.dirname(os.path.dirname(os.path.realpath(__file__))))

from tests import scenes

JOBS = min(4, len(os.sched_getaffinity(0)))
# bytes that are written before an answer is read: a pipe of Linux holds twice as many, however they are cut
AHEAD = 2**15
# bytes above which lines are put into a file for a run of their own
LONG = 2**17


class Unplayed(Exception):
    """The program cannot play a row: what it says of it."""


class Player:
    """A program test_scenarios that runs, and all lines that it was asked."""

    def __init__(self, program):
        pipe = subprocess.PIPE
        self.process = subprocess.Popen([program], stdin=pipe, stdout=pipe, stderr=pipe)
        self.program, self.made, self.asked = program, "", []

    def __enter__(self):
        return self

    def __exit__(self, *_):
        self.process.stdin.close()
        self.process.stdout.close()
        self.process.stderr.close()
        self.process.wait()

    def says(self, lines):
        """What it answers to lines, one after the other; an empty line has no answer. Many are written before the first
        answer is read: as many as a pipe holds."""
        ahead, size = [], 0
        for line in lines:
            if ahead and size + len(line) > AHEAD:
                yield from self.answers(ahead)
                ahead, size = [], 0
            ahead.append(line)
            size += len(line) + 1
        yield from self.answers(ahead)

    def answers(self, lines):
        """Its answers to lines that fit into a pipe. All of them are read before the first one is given."""
        self.asked += lines
        self.process.stdin.write("".join(f"{it}\n" for it in lines).encode())
        self.process.stdin.flush()
        for said in [self.process.stdout.readline() for line in lines if line]:
            yield answer(said, self.process.stderr)

    def says_anew(self, lines):
        """Its answers to lines about what is made anew. Where they are long another run is asked them over a file,
        since it reads a pipe byte by byte."""
        lines = list(lines)
        if sum(map(len, lines)) < LONG:
            yield from self.says(lines)
            return
        self.asked += ["", self.made, *lines]
        with tempfile.TemporaryFile() as asked, tempfile.TemporaryFile() as errors:
            asked.write("".join(f"{it}\n" for it in [self.made, *lines]).encode())
            asked.seek(0)
            ran = subprocess.run([self.program], stdin=asked, stdout=subprocess.PIPE, stderr=errors)
            errors.seek(0)
            said = iter(ran.stdout.splitlines(keepends=True))
            for line in [self.made, *filter(None, lines)]:
                told = answer(next(said, b""), errors)
                if line is not self.made:
                    yield told
        if ran.returncode != 0:
            raise Unplayed(f"test_scenarios ended with status {ran.returncode}")

    def make(self, word, given=""):
        """Ends the scenario before, and begins one: what it answers."""
        self.made = line_of(word, given)
        (said,) = self.says(["", self.made])
        return said

    def tells(self, lines):
        """What it tells in rows."""
        return map(json.loads, self.says(lines))

    def tells_anew(self, lines):
        """The same about what is made anew."""
        return map(json.loads, self.says_anew(lines))

    def tell(self, word, given=""):
        """What it tells in a row."""
        (told,) = self.tells([line_of(word, given)])
        return told

    def tell_of(self, word, it):
        return self.tell(word, "" if it is None else written(it))

    def end(self):
        """Whether it ends well once there are no more rows."""
        self.process.stdin.close()
        return self.process.wait() == 0


def answer(said, errors):
    """An answer, without the end of its line."""
    said = said.decode()
    if not said.endswith("\n"):
        raise Unplayed(f"test_scenarios ended: {errors.read().decode().strip()}")
    if said.startswith("! "):
        raise Unplayed(said[2:].strip())
    return said[:-1]


def line_of(word, given=""):
    return f"{word} {given}".strip()


def written(it):
    """JSON as the program writes it: without blanks, and members in order."""
    return json.dumps(it, separators=(",", ":"), sort_keys=True, ensure_ascii=False)


# ---- rows for which the program is asked more than one, or another one


class Told:
    """What plays a scenario: the program, what the first row gives, and what is kept from row to row."""

    def __init__(self, player, first):
        self.player, self.first, self.replies = player, first, []

    def does(self, row):
        """What plays a row that the program is not asked as it stands."""
        return DOES.get((self.first.word, row.word)) or DOES.get(("*", row.word))

    def rows(self, rows):
        """What comes of rows, one after the other. Those that are asked as they stand are asked at once."""
        if not any(map(self.does, rows)):
            yield from self.player.tells_anew(line_of(row.word, row.given) for row in rows)
            return
        for does, some in itertools.groupby(rows, self.does):
            if does is None:
                yield from self.player.tells([line_of(row.word, row.given) for row in some])
            else:
                for row in some:
                    yield does(self, row.given)


# Scripts of commands.


def ran(told, scripts):
    """What comes of scripts: of each the fault, or none, and the lines that it prints. One is run once more with a
    member in front of its first one, which that one replaces, so that it is read by way of the tree of its JSON."""
    member = b'{"ops":0,' if told.first.word == "apply" else b'{"replies":0,'
    asked = []
    for script in scripts:
        asked.append(line_of("bytes", written(script.hex())))
        if script.startswith(b"{"):
            asked.append(line_of("bytes", written((member + script[1:]).hex())))
    found, answers = [], told.player.tells_anew(asked)
    for script in scripts:
        fault, text = next(answers)
        if script.startswith(b"{") and next(answers) != [fault, text]:
            raise Unplayed(f"read by way of the tree of its JSON it is another script: {script}")
        if fault == "bad script" and text:
            raise Unplayed(f"a script that is none prints something: {script}")
        found.append((fault, text))
    return found


def run(told, script):
    ((fault, text),) = ran(told, [script])
    if fault is not None:
        return fault
    if text and not text.endswith("\n"):
        raise Unplayed("the last line does not end")
    return text.split("\n")[:-1]


def fronts(told, script):
    found = ran(told, [script[:length] for length in range(len(script))])
    return next((length for length, (fault, _) in enumerate(found) if fault != "bad script"), None)


def others(right):
    """Bytes in which each one is changed to each value: its place, and what they are then."""
    return [(at, right[:at] + bytes([byte]) + right[at + 1 :]) for at in range(len(right)) for byte in range(256)]


def changed(told, script):
    """Each byte of a script is changed to each other one, and read both ways."""
    ran(told, [it for _, it in others(script)])


def without(told, script):
    """Each byte of a script is taken out, and the rest read both ways."""
    ran(told, [script[:at] + script[at + 1 :] for at in range(len(script))])


# Replies to a lock, of which `end` prints what end follows.


def reply(told, given):
    it = json.loads(given)
    told.replies.append([it["log"], it["durable"], it["known"]])
    return end_in(ends(told)[-1])


def end(told, _):
    """The end of now, which a refused reply leaves as it was."""
    return end_in(next((it for it in reversed(ends(told)) if not it.startswith("refused")), "none"))


def ends(told):
    return run(told, written({"replies": told.replies}).encode())


def end_in(line):
    word, *rest = line.split(" ")
    if word == "pev":
        return {"pev": int(rest[0]), "rv": int(rest[2])}
    return {"none": None, "inconsistent": "Inconsistent", "refused": rest and rest[0]}[word]


# Bytes of which each is changed to each value.


def misread(told, given):
    """None if bytes that are changed are refused, or read as what they spell; else a place and its byte."""
    about, tried = told.first.word, others(bytes.fromhex(json.loads(given)))
    answers = told.player.tells_anew(line_of("read", written(wrong.hex())) for _, wrong in tried)
    read = [(at, wrong, it) for (at, wrong), it in zip(tried, answers) if not isinstance(it, str)]
    asked = []
    for _, _, it in read:
        asked += ["", line_of(about, written(it["batch"] if about == "batch" else it)), "bytes"]
    answers = told.player.says([*asked, "", line_of(about, told.first.given)])
    for at, wrong, it in read:
        made, spelled = next(answers), json.loads(next(answers))
        used = it["used"] if about == "batch" else len(wrong)
        if made != "made" or spelled != wrong[:used].hex():
            list(answers)
            return [at, wrong[at]]
    return None


# Scripts of audits: a form stands in the place of another in a script.


def place(told):
    given = json.loads(told.first.given)
    text, form = (given, "form") if isinstance(given, str) else (written(given), '"form"')
    before, found, behind = text.partition(form)
    if not found:
        raise Unplayed('a form stands in the place of "form"')
    return before, behind


def in_place(told, form):
    before, behind = place(told)
    return before + form + behind


def kept(told, given):
    script = in_place(told, written(json.loads(given)))
    (text,) = read_scripts(told, [script])
    return None if text == script else form_of(told, text)


def read(told, form):
    (text,) = read_scripts(told, [in_place(told, form)])
    return form_of(told, text)


def read_scripts(told, scripts):
    """What is written of scripts, of each that is one."""
    return told.player.tells_anew(line_of("bytes", written(it.encode().hex())) for it in scripts)


def form_of(told, text):
    """The form in its place in a script that is written of one that was read; as a text where it is not written as JSON
    is."""
    before, behind = place(told)
    if text is None:
        return "bad script"
    if text.startswith(before) and text[len(before) :].endswith(behind):
        text = text[len(before) : len(text) - len(behind)]
    try:
        it = json.loads(text)
    except ValueError:
        return text
    return it if written(it) == text else text


def audit_fronts(told, form):
    script = in_place(told, form)
    found = list(read_scripts(told, [script[:at] for at in range(len(script))]))
    return next((at for at, text in enumerate(found) if text is not None), None)


# Files of which each call of the device fails in turn.


def sweep(told, given):
    """How many calls the asks make: each fails in turn, alone, or with all behind it, and then comes a crash."""
    it = json.loads(given)
    count = calls(told, it, "once", 255)
    for byte in (0, 1, 255):
        if calls(told, it, "from", byte) != count:
            raise Unplayed("a device that fails for good is called more often")
    return count


def calls(told, it, plan, byte):
    for call in range(1, 257):
        if not meets(told, it, plan, call, byte):
            return call - 1
    raise Unplayed("these are more than 255 calls")


def meets(told, it, plan, call, byte):
    """Whether a call of the device fails under a file that is made and asked. What it acknowledged is there behind a
    crash. A device that fails while the file is made holds none."""
    player = told.player
    player.make(told.first.word, told.first.given)
    if (made := player.tell_of("format", {plan: call})) == "Device":
        return True
    same(made, None)
    has_failed, asked = ask_all(player, it["asks"])
    for word, behind in (("close", None), ("crash", byte), ("open", None)):
        same(player.tell_of(word, behind), None)
    for word, given, wanted in it["asks"][asked:] + it["then"]:
        same(player.tell_of(word, given), wanted)
    return has_failed


def ask_all(player, asks):
    """Asks up to what the device lets: whether it failed, and how many asks were told. After a fault the file refuses,
    is opened again, and is asked again."""
    has_failed = False
    for number, (word, given, wanted) in enumerate(asks):
        said = player.tell_of(word, given)
        if said == "Device":
            has_failed = True
            same(player.tell_of(word, given), "Failed")
            if player.tell("reopen") == "Device":
                return True, number
            said = player.tell_of(word, given)
        same(said, wanted)
    return has_failed, len(asks)


def same(said, wanted):
    if written(said) != written(wanted):
        raise Unplayed(f"in a sweep, told {written(said)}, wanted {written(wanted)}")


def of_script(does):
    return lambda told, given: does(told, given.encode())


DOES = {
    ("*", "sweep"): sweep,
    ("batch", "changed"): misread,
    ("coordinated_state", "changed"): misread,
    ("end_tally", "reply"): reply,
    ("end_tally", "state"): end,
    ("audit_script", "kept"): kept,
    ("audit_script", "read"): read,
    ("audit_script", "fronts"): audit_fronts,
}
for COMMAND in ("apply", "end"):
    DOES |= {
        (COMMAND, "run"): of_script(run),
        (COMMAND, "text"): lambda told, given: run(told, json.loads(given).encode()),
        (COMMAND, "bytes"): lambda told, given: run(told, bytes.fromhex(json.loads(given))),
        (COMMAND, "fronts"): of_script(fronts),
        (COMMAND, "changed"): of_script(changed),
        (COMMAND, "without"): of_script(without),
    }


# ---- scenarios


BEGUN = {
    "stores": ["store", "tables"],
    "housed_cell": ["housed_cell", "housed_cell_file"],
    "housed_log": ["housed_log", "housed_log_file"],
    "end_tally": ["end"],
}


def begins(first):
    """The first rows with which the program plays a scenario, as (word, what is given). Some are played twice: in
    memory, and in tables or over a file."""
    word, given = first.word, first.given
    if word == "housed_log" and "once" in json.loads(given):
        word = "failing_log"
    if word == "audit_script":
        given = ""
    return [(it, given) for it in BEGUN.get(word, [word])]


def play(player, scenario, rows=None):
    """Plays a scenario, or these rows of it: how many were compared, and of the first that differs its line and what is
    said of it. Each row is compared once more with something else that is wanted, which must differ."""
    rows = scenes.of_player(scenario) if rows is None else rows
    wanted = [written(json.loads(row.wanted)) for row in rows]
    for word, given in begins(scenario.rows[0]) if rows else []:
        told, fault = told_of(player, scenario.rows[0], word, given, rows)
        at = differing(told, wanted)
        if at is not None:
            return at, (rows[at].line, f"told {told[at]}\n    wanted {wanted[at]}")
        if fault:
            return len(told), fault
        for other in changes_untold(told, rows, wanted):
            return other, (rows[other].line, "something else that is wanted does not differ")
    return len(rows), None


def told_of(player, first, word, given, rows):
    """What comes of rows, as texts, up to one that cannot be played: its line and why."""
    told, is_made = [], False
    try:
        is_made = player.make(word, given) == "made"
        for said in Told(player, first).rows(rows):
            told.append(written(said))
        return told, None
    except Unplayed as fault:
        why = str(fault)
    except (ValueError, KeyError, TypeError) as fault:
        why = f"this is not in the form that scenarios/README.md gives it: {fault!r}"
    return told, (rows[len(told)].line if is_made else first.line, why)


def differing(told, wanted):
    """The first place at which something else is told than is wanted."""
    return next((at for at, (one, other) in enumerate(zip(told, wanted)) if one != other), None)


def changes_untold(told, rows, wanted):
    """The places of rows that do not differ alone where something else is wanted of them."""
    for at, row in enumerate(rows):
        others = [*wanted[:at], written(json.loads(scenes.other(row).wanted)), *wanted[at + 1 :]]
        if differing(told, others) != at:
            yield at


def play_file(program, name, found):
    """Plays scenarios of a file: the lines that are said of it, how many scenarios and rows were compared, and the
    lines that the program was asked."""
    lines, count = [], scenes.Count()
    with Player(program) as player:
        for scenario in found:
            played, differs = play(player, scenario)
            count.add(played)
            if differs:
                lines.append(f"{name}:{differs[0]}: {differs[1]}")
            elif scenes.unplayed(scenario):
                lines.append(f"{name}:{scenes.unplayed(scenario)[0].line}: nobody plays this row")
            elif played:
                lines.append(f"{name}: {scenario.name}: {played} rows")
        if not player.end():
            lines.append(f"{name}:1: test_scenarios ended with status {player.process.returncode}")
        return lines, count, player.asked


def is_fault(line):
    """Whether a line says that a row differs."""
    return line.split(": ")[0].rpartition(":")[2].isdigit()


def play_files(program, files, whole):
    """Has a built test_scenarios play scenarios, by the names of their files: the lines that are said of them. What is
    played is added to a count."""
    program = os.path.abspath(program)
    order = sorted(files, key=lambda name: -sum(scenes.cost(it.rows) for it in files[name]))
    with concurrent.futures.ThreadPoolExecutor(JOBS) as pool:
        said = dict(zip(order, pool.map(lambda name: play_file(program, name, files[name]), order)))
    for _, count, _ in said.values():
        whole.scenarios, whole.rows = whole.scenarios + count.scenarios, whole.rows + count.rows
    return [line for name in files for line in said[name][0]]


def played(program, pages):
    """Has a built test_scenarios play texts of scenarios, by their names: of each the lines that tell what differs, if
    there are some."""
    files = {name: scenes.scenarios(text) for name, text in pages.items()}
    faults = [it for it in play_files(program, files, scenes.Count()) if is_fault(it)]
    found = {name: [it for it in faults if it.startswith(f"{name}:")] for name in pages}
    return {name: "\n".join(lines).split("\n") for name, lines in found.items() if lines}


def names():
    """The files of which the program plays a row."""
    has_rows = lambda path: any(scenes.of_player(it) for it in scenes.read(path))  # noqa: E731
    return [os.path.basename(it) for it in filter(has_rows, scenes.files())]


def transcript(program, name):
    """The lines that the program is asked where a file of scenarios is played, as bytes."""
    asked = play_file(program, name, scenes.read(f"{scenes.SCENARIOS}/{name}"))[2]
    return "".join(f"{it}\n" for it in asked).encode()


def sample():
    """The input and the output of a run with the shortest scenario of each kind, by the texts alone; of those that are
    played as they stand."""
    found = {}
    for path in scenes.files():
        for scenario in scenes.read(path):
            rows = scenes.of_player(scenario)
            is_plain = not any((word, row.word) in DOES for word in ("*", scenario.about) for row in rows)
            if rows and is_plain and scenario.about != "audit_script":
                found.setdefault(scenario.about, []).append((len(rows), scenario))
    asked, told = [], []
    for about in sorted(found):
        _, scenario = min(found[about], key=lambda it: it[0])
        for word, given in begins(scenario.rows[0]):
            rows = scenes.of_player(scenario)
            asked += [f"{word} {given}".strip(), *(f"{row.word} {row.given}".strip() for row in rows), ""]
            told += ["made", *(written(json.loads(row.wanted)) for row in rows)]
    return "".join(f"{it}\n" for it in asked), "".join(f"{it}\n" for it in told)


SAMPLE = [f"{scenes.TOP}/crates/test_scenarios/{name}" for name in ("stdin", "stdout")]


def compiled():
    """The program, compiled without proofs if it is not kept; None if it cannot be."""
    sys.path.insert(0, f"{scenes.TOP}/tools")
    from launcher import unproved

    return unproved.keep("test_scenarios", lambda said: print(said, file=sys.stderr))


def main(words):
    its = argparse.ArgumentParser(usage=__doc__)
    its.add_argument("--player")
    its.add_argument("--transcript", action="store_true")
    its.add_argument("--sample", action="store_true")
    its.add_argument("files", nargs="*")
    chosen = its.parse_args(words)
    if chosen.sample:
        for path, text in zip(SAMPLE, sample()):
            with open(path, "w", encoding="utf-8") as it:
                it.write(text)
        return 0
    player = chosen.player or compiled()
    if not player:
        its.error("test_scenarios cannot be compiled, which needs a Rattle kit, and --player names no program")
    files, lines, whole = {}, [], scenes.Count()
    for path in chosen.files or scenes.files():
        try:
            files[os.path.basename(path)] = scenes.read(path)
        except scenes.Bad as bad:
            lines.append(f"{os.path.basename(path)}:{bad.args[0]}: {bad.args[1]}")
    if chosen.transcript:
        for name, found in files.items():
            print("\n".join([*lines, *play_file(player, name, found)[2]]))
        return 1 if lines else 0
    lines += play_files(player, files, whole)
    bad = sum(is_fault(it) for it in lines)
    print("\n".join(lines))
    print(f"{whole} played by test_scenarios; {bad} differ")
    return 1 if bad or not whole.rows else 0


if __name__ == "__main__":
    sys.exit(main(sys.argv[1:]))
