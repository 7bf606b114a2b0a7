"""What words name, looked at before anything is built: the file of a store, and the script on standard input. What the
program would refuse in a moment is refused at once."""
import os
import sys

from . import crates

HEAD = b"SQLite format 3\0"
TABLES = ["kv", "undo", "meta"]
LONGEST = 255


class Refused(Exception):
    """What is refused: the text for standard error, and the status."""

    def __init__(self, text, status):
        super().__init__(text)
        self.text, self.status = text, status


def quoted(name):
    """A name as the program writes it, in quotes, with what cannot be seen escaped."""
    plain = {"\0": "\\0", "\t": "\\t", "\n": "\\n", "\r": "\\r", '"': '\\"', "\\": "\\\\"}
    seen = (plain.get(it) or (it if it.isprintable() else f"\\u{{{ord(it):x}}}") for it in name)
    return '"' + "".join(seen) + '"'


def unopened(name, why):
    return Refused(f"store not opened: {why}: {quoted(name)}", 2)


def no_store(name):
    return Refused(f"no store: the file holds no database, or that of something else: {quoted(name)}", 2)


def look_at_store(command, name):
    """Refuses a name at which no store can be opened, by the program's own words. A missing file is made by apply, and
    by it alone. Where it is not sure, the program decides."""
    if not name:
        raise unopened(name, "the name is empty")
    if len(os.fsencode(os.path.basename(name))) > LONGEST - len("-journal"):
        raise unopened(name, "the name is too long")
    if not os.path.lexists(name):
        look_at_folder(command, name)
    elif os.path.isdir(name):
        raise unopened(name, "it is a folder")
    elif os.path.isfile(name):
        wanted = os.R_OK | (os.W_OK if command == "apply" else 0)
        if not os.access(name, wanted):
            raise unopened(name, "no right to read and write it" if command == "apply" else "no right to read it")
        look_inside(command, name)
    elif os.path.exists(name):
        raise unopened(name, "it, or its log, is no plain file")


def look_at_folder(command, name):
    """Refuses the name of a file that is missing, where it cannot be made."""
    folder = os.path.dirname(name) or "."
    if os.path.lexists(f"{os.path.realpath(name)}-wal") or os.path.lexists(folder) and not os.path.isdir(folder):
        return
    if command == "rows":
        raise unopened(name, "there is no such file")
    if not os.path.isdir(folder):
        raise unopened(name, "its folder is missing")
    if not os.access(folder, os.W_OK | os.X_OK):
        raise unopened(name, "no right to make files in its folder")


def look_inside(command, name):
    """Refuses a file that can be seen to hold no store."""
    with open(name, "rb") as it:
        head = it.read(len(HEAD))
    real = os.path.realpath(name)
    if os.path.exists(f"{real}-wal") and os.path.getsize(f"{real}-wal") > 0 or not head and command == "apply":
        return
    if head != HEAD:
        raise no_store(name)
    import sqlite3  # (where it is wanted alone: it takes as long as all else)

    try:
        its = sqlite3.connect(f"file:{name.replace('?', '%3f').replace('#', '%23')}?mode=ro&immutable=1", uri=True)
        tables = [row[0] for row in its.execute("SELECT name FROM sqlite_master WHERE type = 'table' ORDER BY rowid")]
        its.close()
    except sqlite3.Error:
        return  # (the program says what is wrong with it)
    if tables and tables != TABLES and not os.path.lexists(f"{real}-journal"):
        raise no_store(name)


def read_input():
    """All of standard input. Where it is a directory, ./fdbrec has put an empty file in its place, and says so."""
    if os.environ.get("FDBREC_INPUT") == "directory":
        raise Refused("input failed: Is a directory", 4)
    try:
        return sys.stdin.buffer.read()
    except AttributeError:
        raise Refused("input failed: standard input is closed", 4) from None
    except OSError as why:
        raise Refused(f"input failed: {why.strerror}", 4) from None


def look_at_script(command, given):
    """Refuses what is no script of a command, by the place at which it is none."""
    lack = lack_of_script(command, given)
    if lack:
        raise Refused(lack.decode().rstrip("\n"), 2)


def lack_of_script(command, given, top=crates.TOP):
    """The line by which the program refuses a script, or None."""
    sys.path.insert(0, f"{top}/python")
    from fdbrec.commands import ending

    try:
        ending.script_of(command, given)
    except ending.BadScript as why:
        return f"bad script: {why}\n".encode(errors="backslashreplace")
    return None
