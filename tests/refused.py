"""What is no script of `audit`: bench/judge refuses it as the program does, with status 2, no line, and on standard
error `bad script` with the place. What is wanted is in tables: `forms.json` and rows of scenarios (that it is bad),
`places.json` (to the letter), and ROWS below, by docs/FORMATS.md. So do bench/entry, bench/explore, bench/timeline."""

import json
import os
import pty
import re
import subprocess
import sys

import built

sys.path.insert(0, f"{built.TOP}/docs")
from making import validated

BENCH = f"{built.TOP}/bench"
EXAMPLE = "examples/audit_numbers_again.json"
SECONDS = 20  # (a script that is refused is refused at once, also on a machine with other work)


def changed(old, new):
    """The example with another text in the place of one, or with more members somewhere."""

    def change(text):
        assert old in text, old
        return text.replace(old, new, 1).encode()

    return change


def reversed_entries(text):
    script = json.loads(text)
    script["journals"][1]["entries"].reverse()
    return json.dumps(script).encode()


STAMP = ", wanted a number from 0 to 1099511627775 in digits alone"
FIRST = '"stamp":1}'
# what is changed, how, and what is said behind the line and the column
ROWS = (
    ("entries in falling stamps", reversed_entries, "journals[1]: found an object, whose parts do not go together"),
    ("a stamp twice", changed('"stamp":3}', FIRST), "journals[0]: found an object, whose parts do not go together"),
    ("a stamp of -1", changed(FIRST, '"stamp":-1}'), f"journals[0].entries[0].stamp: found -1{STAMP}"),
    ("a stamp of 1.0", changed(FIRST, '"stamp":1.0}'), f"journals[0].entries[0].stamp: found 1.0{STAMP}"),
    ("a stamp of true", changed(FIRST, '"stamp":true}'), f"journals[0].entries[0].stamp: found true{STAMP}"),
    ("a degree of true", changed('"degree":2', '"degree":true'),
     "config.degree: found true, wanted a number from 1 to 16 in digits alone"),
    ("a further member", changed('{"config"', '{"extra":0,"config"'),
     'extra: found "extra", wanted an object of config, journals'),
    ("a comment", changed(FIRST, '"comment":"first","stamp":1}'),
     'journals[0].entries[0].comment: found "comment", wanted an object of act, stamp'),
    ("many coordinators", changed('"coordinators":3', '"coordinators":100000001'),
     "config.coordinators: found 100000001, wanted a number from 1 to 9 in digits alone"),
    ("a byte order mark", lambda text: b"\xef\xbb\xbf" + text.encode(),
     "found a byte order mark; save the script as UTF-8 without one"),
    ("UTF-16", lambda text: text.encode("utf-16"), "found a byte that is no UTF-8, which is no JSON here"),
    ("Latin-1", lambda text: text.replace('"61"', '"\u00e9"', 1).encode("latin-1"),
     "journals[0].entries[0].act.submitted.batch[0].set.key: found a byte that is no UTF-8, which is no JSON here"),
    ("deep arrays", lambda _: b"[" * 100_000, "[0]" * 127 + ": found an array, which is no JSON here"),
    ("another command's script", lambda _: b'{"ops":[]}', 'ops: found "ops", wanted an object of config, journals'),
    ("the first half of a name", lambda text: text[:15].encode(), 'config: found "coo, which is no JSON here'),
)


def ran(words, data):
    """The status of a command, what it printed and what it complained of."""
    try:
        it = subprocess.run(words, input=data, capture_output=True, timeout=SECONDS)
    except subprocess.TimeoutExpired:
        return None, b"", f"not ended after {SECONDS} seconds"
    return it.returncode, it.stdout, it.stderr.decode(errors="replace")


def rows():
    """What is bad: what it is, its bytes, and what is said of it, None where no table has that."""
    with open(f"{built.TOP}/{EXAMPLE}", encoding="utf-8") as it:
        example = it.read()
    for what, change, says in ROWS:
        yield what, change(example), says and re.compile(r"(?:line \d+, column \d+: )" + re.escape(says))
    for command, is_taken, text in validated.tested():
        if command == "audit" and not is_taken:
            yield text[:100], text.encode(), None
    with open(f"{built.TOP}/tests/places.json", encoding="utf-8") as it:
        for row in json.load(it):
            data = row["script"].encode() if "script" in row else bytes.fromhex(row["bytes"])
            if row["command"] == "audit":
                yield data[:100], data, re.compile(re.escape(row["says"]))


def look(checks, pool, program):
    """Each row by the judge, and by the program if there is one."""

    def look_at(row):
        what, data, says = row
        status, printed, complaint = ran([f"{BENCH}/judge"], data)
        first = complaint.split("\n")[0]
        is_so = (status, printed) == (2, b"") and first.startswith("bad script: ") and "Traceback" not in complaint
        checks.check(is_so, "bench/judge takes", what, status, printed, complaint[-300:])
        is_said = says is None or says.fullmatch(first.removeprefix("bad script: "))
        checks.check(is_said, "bench/judge says of", what, first, "and not", says and says.pattern)
        by_program = ran([program, "audit"], data) if program else None
        is_alike = by_program in (None, (status, printed, first + "\n")) or data == b"" and by_program[0] == 2
        checks.check(is_alike, "the program says of", what, by_program, "and bench/judge", first)

    list(pool.map(look_at, rows()))


def by_hand(checks):
    """The commands that read the same scripts; words that are none; an empty input; a terminal."""
    bad = [(what, data) for what, data, _ in rows()][: len(ROWS)] + [("nothing", b"")]
    for name in ("entry 0", "explore", "timeline"):
        for what, data in bad:
            status, printed, complaint = ran([*f"{BENCH}/{name}".split()], data)
            is_so = (status, printed) == (2, b"") and complaint.startswith("bad script: ")
            checks.check(is_so, name, "takes", what, status, printed[:80], complaint[-300:])
    found = ran([f"{BENCH}/judge", f"{built.TOP}/{EXAMPLE}"], b"")
    checks.check(found == (0, b"audit ok\n", ""), "bench/judge of a file says", found)
    for name in ("judge", "explore", "timeline"):
        found = ran([f"{BENCH}/{name}", f"{built.TOP}/{EXAMPLE}"], b"")
        is_so = found[:2] == (2, b"") and f"bench/{name} < {built.TOP}/{EXAMPLE}\n" in found[2]
        checks.check(is_so or name == "judge", name, "of a file says", found)
        found = ran([f"{BENCH}/{name}"], b"")
        checks.check(found == (2, b"", "bad script: standard input is empty\n"), name, "of nothing says", found)
        one, other = pty.openpty()
        os.write(one, b"\x04")
        it = subprocess.run([f"{BENCH}/{name}"], stdin=other, capture_output=True, timeout=SECONDS)
        lines = it.stderr.decode().split("\n")
        checks.check(lines[0] == "reading a script from the terminal", name, "of a terminal says", lines)
        os.close(one), os.close(other)
    with open("/dev/full", "wb") as full, open(f"{built.TOP}/{EXAMPLE}", "rb") as script:
        it = subprocess.run([f"{BENCH}/judge"], stdin=script, stdout=full, stderr=subprocess.PIPE, timeout=SECONDS)
    is_so = (it.returncode, it.stderr) == (4, b"output failed: No space left on device\n")
    checks.check(is_so, "bench/judge on a full device says", it.returncode, it.stderr)
