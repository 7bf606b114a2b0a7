"""A verdict as a file: JUnit XML, with a test case for each node, or JSON."""
import collections
import json
import os
import re
from xml.sax.saxutils import escape, quoteattr

from ..reading.judging import spoken
from . import ending

BEHIND = "not judged: a fault was found before"


def write(path, verdict, journals, seconds):
    """Writes a report. It is there whole, or not at all."""
    cases = cases_of(verdict, journals)
    text = junit(verdict, cases, seconds) if path.endswith(".xml") else plain(verdict, journals, cases, seconds)
    try:
        with open(f"{path}.new", "w", encoding="utf-8") as it:
            it.write(text)
        os.replace(f"{path}.new", path)
    except OSError as why:
        raise ending.Failed(f"{path}: {why.strerror}") from None


def cases_of(verdict, journals):
    """Each node as it is spoken, with how many entries it has, and whether it is right, at fault or not judged."""
    if journals is None:
        return []
    counts, found = collections.Counter(journals.owners), {}
    for owner in journals.order()[0]:
        name = spoken(journals.names[owner])
        found[name] = found.get(name, 0) + counts[owner]
    faulty = spoken(verdict.node) if verdict.node else None
    rest = "right" if verdict.line == "audit ok" else "not judged"
    return [(name, count, "at fault" if name == faulty else rest) for name, count in found.items()]


def plain(verdict, journals, cases, seconds):
    status = {"audit ok": 0, "bad script": 2}.get(verdict.line, 1)
    its = {"line": verdict.line, "status": status, "why": verdict.why, "entry": verdict.entry, "node": verdict.node}
    its |= {"entries": len(journals.stamps) if journals else None, "seconds": round(seconds, 3)}
    its["nodes"] = [{"node": name, "entries": count, "is": how} for name, count, how in cases]
    return json.dumps(its, indent=1) + "\n"


def junit(verdict, cases, seconds):
    is_script = verdict.line != "bad script"
    skipped = sum(how == "not judged" for _, _, how in cases)
    # (a node that only a state names has no journal)
    if verdict.node and not any(how == "at fault" for _, _, how in cases):
        cases = [*cases, (spoken(verdict.node), 0, "at fault")]
    lines = [] if is_script else [case("script", 0, "error", verdict)]
    for name, count, how in cases:
        lines.append(case(name, count, {"right": "", "at fault": "failure", "not judged": "skipped"}[how], verdict))
    counts = f'tests="{len(lines)}" failures="{int(is_script and verdict.line != "audit ok")}" '
    counts += f'errors="{int(not is_script)}" skipped="{skipped}" time="{seconds:.3f}"'
    inside = "\n".join(lines)
    suite = f'<testsuite name="fdbrec judge" {counts}>\n{inside}\n</testsuite>'
    return f'<?xml version="1.0" encoding="UTF-8"?>\n<testsuites>\n{suite}\n</testsuites>\n'


def case(name, count, how, verdict):
    head = f'<testcase classname="fdbrec.{name.split(" ")[0]}" name={quoteattr(name)} assertions="{count}"'
    if how == "skipped":
        return f"{head}><skipped message={quoteattr(BEHIND)}/></testcase>"
    if not how:
        return f"{head}/>"
    # (XML has no words for some characters)
    why = re.sub(r"[^\t\n\x20-\ud7ff\ue000-\ufffd]", "?", verdict.why or "")
    return f"{head}><{how} message={quoteattr(verdict.line)}>{escape(why)}</{how}></testcase>"
