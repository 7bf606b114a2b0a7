"""judge [--report FILE] [FILE..]: the line of `fdbrec audit`, and what it says of a fault, by the reading of the rules
in fdbrec/reading.

It needs no built program, and nothing about it is proved. The journals are standard input, or these files (- is
standard input), each as it is or packed by gzip. They are one script of `audit`, or lines, an entry each, in one or
several files. A line is one object, of three kinds:

    {"config":CONFIG}                      the config: in the first line, and again wherever else it is wanted
    {"act":ACT,"node":NODE,"stamp":N}      an entry of a node; the stamps of a node rise from line to line
    {"last":LAST,"node":NODE}              where a node was at last, behind its entries

--report FILE also writes the verdict to FILE: as JUnit XML if its name ends in .xml, with a test case for each node,
else as JSON. On a terminal a long input shows how far it is.

What is no script is refused first, as the program refuses it: `bad script` with the place. The status is 0 if the line
is `audit ok`, 1 if it is another one, 2 for a bad script or bad words, 3 out of memory, 4 if input or output fails.
"""
import gc
import os
import sys
import time

from ..reading import judging
from ..scripts import collected
from . import ending, reports
from .progress import Progress


def parsed(words):
    """The files, and the report's name or None."""
    files, report, rest = [], None, list(words)
    if rest[:1] == ["audit"] and not os.path.exists("audit"):
        del rest[0]
    while rest:
        word = rest.pop(0)
        if word == "--report":
            if not rest or report is not None:
                raise ending.BadWords("--report has the name of one file")
            report = rest.pop(0)
        elif word.startswith("-") and word != "-":
            raise ending.BadWords(f"unexpected argument '{word}': judge --help says which there are")
        else:
            files.append(word)
    return files or ["-"], report


def taken(files, progress):
    """The journals that files have, and the verdict on them. Lines are looked at as they are judged, which is quicker;
    where one is bad, or there is a fault, all are looked at before anything is said."""
    contents = [(path, ending.content(path)) for path in files]
    if len(contents) == 1 and not collected.are_lines(contents[0][1]):
        journals = collected.Journals().script(ending.script_of("audit", contents[0][1]))
        return journals, verdict_of(journals, progress)
    heed = lambda count: progress.show(f"{count:,} lines are read")
    try:
        journals = collected.Journals().late_lines(contents, heed)
        verdict = verdict_of(journals, progress)
        if verdict.line == "audit ok":
            return journals, verdict
    except collected.BadScript:
        pass
    journals = collected.Journals().lines(contents, heed)
    return journals, verdict_of(journals, progress)


def verdict_of(journals, progress):
    count = len(journals.stamps)
    return judging.verdict_of(journals, lambda at: progress.show(f"{at:,} of {count:,} entries are judged"))


def judged(files, report, progress):
    """The verdict on the journals of files. A report has it too, also where they are no script."""
    journals, began = None, time.monotonic()
    try:
        journals, verdict = taken(files, progress)
    except collected.BadScript as why:
        progress.end()
        if report:
            reports.write(report, judging.Verdict("bad script", str(why)), None, time.monotonic() - began)
        raise
    progress.end()
    if report:
        reports.write(report, verdict, journals, time.monotonic() - began)
    return verdict


def main(words):
    files, report = parsed(words)
    gc.disable()  # (what is read has no cycles, and a million entries would be walked again and again)
    verdict = judged(files, report, Progress())
    ending.write(f"{verdict.line}\n")
    if verdict.why:
        print(f"fdbrec: {verdict.why}", file=sys.stderr)
    return 0 if verdict.line == "audit ok" else 1


def run(words):
    return ending.run(main, __doc__, words)
