"""What every command does alike: it reads standard input, takes its script, and ends with a status.

0 done, 1 what was read differs, 2 bad words or a bad script, 3 out of memory, 4 `input failed` or `output failed`: as
`fdbrec audit` has them."""
import gzip
import os
import sys
import zlib

from ..scripts import places, quick, schemas
from ..scripts.collected import BadScript

MARKS = {it: "it is UTF-16: save it as UTF-8" for it in (b"\xff\xfe", b"\xfe\xff")}


class BadWords(Exception):
    """Why the words of a command are none."""


class Failed(Exception):
    """Why input or output failed."""


def given():
    """The bytes of standard input."""
    if sys.stdin is None:
        raise Failed("input failed: standard input is closed")
    if sys.stdin.isatty():
        print("reading a script from the terminal", file=sys.stderr, flush=True)
    try:
        return sys.stdin.buffer.read()
    except OSError as why:
        raise Failed(f"input failed: {why.strerror}") from None


def content(path):
    """The bytes of a file, or of standard input, `-`; if they are packed by gzip, what they were."""
    data = given() if path == "-" else bytes_of(path)
    if data[:2] != b"\x1f\x8b":
        return data
    try:
        return gzip.decompress(data)
    except (OSError, EOFError, zlib.error) as why:
        raise Failed(f"{path}: it is no whole file of gzip: {why}") from None


def bytes_of(path):
    try:
        with open(path, "rb") as it:
            return it.read()
    except OSError as why:
        raise Failed(f"{path}: {why.strerror}") from None


def write(text):
    """Writes text to standard output, all of it."""
    if sys.stdout is None:
        raise Failed("output failed: standard output is closed")
    try:
        sys.stdout.write(text)
        sys.stdout.flush()
    except OSError as why:
        raise Failed(f"output failed: {why.strerror}") from None


def run_script_of(data):
    """The script of a run, and the command that takes it: `simulate` if it has steps, else `audit`."""
    try:
        value = schemas.read(data)
    except schemas.Bad:
        value = None
    command = "simulate" if isinstance(value, dict) and "steps" in value else "audit"
    return command, script_of(command, data)


def script_of(command, data):
    """The script that bytes are, as `fdbrec COMMAND` takes it."""
    try:
        value = schemas.read(data)
    except schemas.Bad as why:
        raise BadScript(place_of(command, data) or str(why)) from None
    if not quick.is_of(value, f"{command}.json"):
        raise BadScript(place_of(command, data) or schemas.lack_of(value, command))
    return value


def place_of(command, data):
    """Where a script is bad, as the program says it, and what may be done about it."""
    said = places.said_of(command, data)
    tip = next((tip for mark, tip in MARKS.items() if data.startswith(mark)), None)
    return f"{said}\n{tip}" if said and tip else said


def called(name):
    """How a command was called: by a script of that name, or as one of the package."""
    return sys.argv[0] if os.path.basename(sys.argv[0]) == name else f"python3 -m fdbrec {name}"


def no_words(words, name):
    """Refuses words of a command that has none."""
    if words and os.path.exists(words[0]):
        raise BadWords(f"{called(name)} reads standard input: {called(name)} < {words[0]}")
    if words:
        raise BadWords(f"unexpected word {words[0]!r}: {name} reads standard input, and has no words but --help")


def run(main, page, words):
    """Runs a command, `main` over its words, to its status. `page` is its help."""
    try:
        if words == ["--help"]:
            write(page)
            return 0
        return main(words)
    except (BadWords, BadScript, Failed) as why:
        print("bad script: " * isinstance(why, BadScript) + str(why), file=sys.stderr)
        return 4 if isinstance(why, Failed) else 2
    except MemoryError:
        print("out of memory", file=sys.stderr)
        return 3
    except KeyboardInterrupt:
        return 130
    finally:
        leave()


def leave():
    """What could not be written to standard output is not tried again at the end, which would print a traceback."""
    try:
        sys.stdout.flush()
    except (OSError, AttributeError):
        os.dup2(os.open(os.devnull, os.O_WRONLY), 1)
