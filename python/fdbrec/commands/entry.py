"""entry N.. < JOURNALS: the entries of these numbers, as `fdbrec audit` counts them, each with its node and its stamp.

All entries are taken by their stamps, those of one stamp by their nodes (cells, logs, sequencers, proxies, recoverers,
storage servers, and of one kind by their numbers), and counted from 0. The status is 1 if there is no such entry, 2
for bad words or a bad script, which is refused as `fdbrec audit` does it, 4 if input or output fails.
"""
import json
import sys

from ..reading import judging
from . import ending


def main(words):
    strange = [word for word in words if not (word.isascii() and word.isdecimal())]
    if strange or not words:
        why = f"{strange[0]!r} is no number of an entry" if strange else "there is no number of an entry"
        raise ending.BadWords(f"{why}: entry N.. < JOURNALS")
    entries = judging.entries_of(ending.script_of("audit", ending.given()))
    text = lambda it: json.dumps(it, separators=(",", ":"))
    for at in map(int, words):
        if at >= len(entries):
            print(f"there is no entry {at}: there are {len(entries)}", file=sys.stderr)
            return 1
        stamp, node, act = entries[at]
        ending.write(f"entry {at}, stamp {stamp}, node {text(node)}: {text(act)}\n")
    return 0


def run(words):
    return ending.run(main, __doc__, words)
