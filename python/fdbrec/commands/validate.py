"""validate SCHEMA FILE..: whether scripts have the forms that the schemas of docs/schema say.

SCHEMA is apply, end, simulate, audit or cluster, and FILE a script, - for standard input. A line says of each that has
another form where, and the status is then 1. It is 2 for bad words, 4 if a file cannot be read.
"""
from ..scripts import schemas
from . import ending

NAMES = ("apply", "end", "simulate", "audit", "cluster")


def main(words):
    if not words:
        raise ending.BadWords("no schema is named: validate SCHEMA FILE..")
    if words[0] not in NAMES:
        raise ending.BadWords(f"there is no schema {words[0]!r}: {', '.join(NAMES)}")
    if not words[1:]:
        raise ending.BadWords(f"no file is named: validate {words[0]} FILE.., - for standard input")
    status = 0
    for path in words[1:]:
        why = schemas.fault_of(words[0], ending.content(path))
        if why:
            ending.write(f"{path} is no script of {words[0]}: {why}\n")
            status = 1
    return status


def run(words):
    return ending.run(main, __doc__, words)
