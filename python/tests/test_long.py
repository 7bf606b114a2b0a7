"""Journals as lines, in several files, packed, and what is reported of them: python3 -m unittest."""

import gzip
import json
import os
import re
import subprocess
import sys
import tempfile
import unittest
import xml.etree.ElementTree

from fdbrec.scripts import quick, schemas
from tests import runs

FOLDER = os.path.dirname(os.path.dirname(os.path.realpath(__file__)))


class Lines(unittest.TestCase):
    """Lines as `json` writes them, with blanks and members in any order."""

    blank, dump = " ", staticmethod(json.dumps)

    def lines_of(self, script):
        """The lines of each node, by its kind."""
        found = {}
        for journal in script["journals"]:
            node = journal["node"]
            (kind,) = node
            found[kind] = [self.dump({**entry, "node": node}) for entry in journal["entries"]]
            found[kind].append(self.dump({"last": journal["last"], "node": node}))
        return found

    def setUp(self):
        self.config = self.dump({"config": runs.CONFIG})
        self.room = tempfile.TemporaryDirectory()
        self.addCleanup(self.room.cleanup)

    def file(self, name, data):
        path = os.path.join(self.room.name, name)
        with open(path, "wb") as it:
            it.write(data if isinstance(data, bytes) else data.encode())
        return path

    def judge(self, *words, given=b""):
        words = [sys.executable, "-m", "fdbrec", "judge", *words]
        it = subprocess.run(words, input=given, capture_output=True, cwd=FOLDER, timeout=100)
        return it.returncode, it.stdout.decode(), it.stderr.decode()

    def test_lines_of_all_nodes_are_judged_as_a_script_is(self):
        lines = [self.config, *(line for its in self.lines_of(runs.script()).values() for line in its)]
        self.assertEqual(self.judge(given="\n".join(lines).encode()), (0, "audit ok\n", ""))
        self.assertEqual(self.judge(given=gzip.compress("\n".join(lines).encode())), (0, "audit ok\n", ""))

    def test_each_node_may_have_a_file(self):
        found = self.lines_of(runs.script())
        files = [self.file(kind, "\n".join([self.config, *its, ""])) for kind, its in found.items()]
        self.assertEqual(self.judge(*files), (0, "audit ok\n", ""))
        found["sequencer"][0] = found["sequencer"][0].replace(f'version":{self.blank}2', 'version":3')
        self.file("sequencer", "\n".join([self.config, *found["sequencer"]]))
        status, line, _ = self.judge(*files)
        self.assertEqual((status, line), (1, "tell differs at 1\n"))

    def test_a_journal_that_is_not_closed_is_named(self):
        found = self.lines_of(runs.script())
        lines = [self.config, *(line for its in found.values() for line in its[:-1])]
        status, line, why = self.judge(given="\n".join(lines).encode())
        self.assertEqual((status, line), (1, "state differs at log 257 0\n"))
        self.assertIn("its journal was not closed", why)

    def test_bad_lines_are_named(self):
        proxy = self.lines_of(runs.script())["proxy"]
        it = self.blank
        other = self.config.replace(f'"logs":{it}1', '"logs":2')
        rows = (
            ([self.config, proxy[0].replace(f'stamp":{it}1', 'stamp":"1"')], 'line 2: stamp: found "1", wanted a'),
            ([self.config, proxy[0].replace(f'step":{it}1', 'step":0')], "line 2: act.submitted.step: found 0, wanted"),
            ([self.config, proxy[1], proxy[0]], "line 3: stamp: found 1, wanted a number above 3"),
            ([self.config, proxy[3], proxy[0]], "line 3: found an entry of"),
            ([self.config, proxy[3], proxy[3]], "line 3: found a second last state of"),
            ([self.config, proxy[0], "{"], "line 3: found the end of the script, which is no JSON here"),
            ([self.config, proxy[0], "[]"], "line 3: found an array, wanted an object of config, of act, node, stamp"),
            ([self.config, proxy[0], other], "line 3: config: found another one than before"),
            (proxy, "no line has the config"),
        )
        for lines, says in rows:
            status, said, why = self.judge(given="\n".join(lines).encode())
            self.assertEqual((status, said), (2, ""), lines)
            self.assertTrue(re.sub(r", column \d+", "", why).startswith(f"bad script: {says}"), (says, why))

    def test_a_bad_line_is_named_also_where_the_rest_is_a_run_or_has_a_fault(self):
        it = self.blank
        whole = [self.config, *(line for its in self.lines_of(runs.script()).values() for line in its)]
        # (of the log two entries)
        swapped = [*whole[:7], whole[8], whole[7], *whole[9:]]
        more = [whole[0], whole[1].replace(f'step":{it}1', f'step":{it}1,"z":0'), *whole[2:]]
        faulty = [line.replace(f'outcome":{it}null', f'outcome":{it}null,"z":0') for line in whole]
        faulty[5] = faulty[5].replace(f'version":{it}2', f'version":{it}3')  # (of the sequencer)
        rows = ((swapped, "stamp: found 4, wanted a number above 6"), (more, 'found "z"'), (faulty, 'found "z"'))
        for lines, says in rows:
            status, said, why = self.judge(given="\n".join(lines).encode())
            self.assertEqual((status, said), (2, ""))
            self.assertIn(says, why)

    def test_reports(self):
        good = self.file("run.json", json.dumps(runs.script()))
        spoilt = runs.script()
        runs.journal(spoilt, "log")["entries"][1]["act"]["asked"]["tell"]["log"]["peeked"]["upto"] = 3
        bad = self.file("bad.json", json.dumps(spoilt))
        report = os.path.join(self.room.name, "report")
        self.assertEqual(self.judge("--report", f"{report}.xml", good)[0], 0)
        suite = xml.etree.ElementTree.parse(f"{report}.xml").getroot()[0]
        self.assertEqual((suite.get("tests"), suite.get("failures"), len(suite)), ("4", "0", 4))
        self.assertEqual(self.judge("--report", f"{report}.xml", bad)[:2], (1, "tell differs at 5\n"))
        suite = xml.etree.ElementTree.parse(f"{report}.xml").getroot()[0]
        failures = [(it.get("name"), it[0].get("message")) for it in suite if len(it) and it[0].tag == "failure"]
        self.assertEqual((suite.get("failures"), suite.get("skipped")), ("1", "3"))
        self.assertEqual(failures, [("log 257 0", "tell differs at 5")])
        self.assertEqual(self.judge("--report", f"{report}.json", bad)[0], 1)
        with open(f"{report}.json", encoding="utf-8") as it:
            found = json.load(it)
        wanted = {"line": "tell differs at 5", "status": 1, "entry": 5, "node": runs.LOG, "entries": 7}
        self.assertEqual({name: found[name] for name in wanted}, wanted)
        self.assertEqual(self.judge("--report", f"{report}.xml", given=b"{")[0], 2)
        suite = xml.etree.ElementTree.parse(f"{report}.xml").getroot()[0]
        self.assertEqual((suite.get("errors"), suite[0][0].tag), ("1", "error"))

    def test_files_that_are_not_there(self):
        status, said, why = self.judge("/no/such/file")
        self.assertEqual((status, said, why), (4, "", "/no/such/file: No such file or directory\n"))
        good = self.file("run.json", json.dumps(runs.script()))
        status, _, why = self.judge("--report", "/no/such/folder/report.xml", good)
        self.assertEqual((status, why), (4, "/no/such/folder/report.xml: No such file or directory\n"))
        half = self.file("half.gz", gzip.compress(json.dumps(runs.script()).encode())[:-9])
        status, _, why = self.judge(half)
        self.assertEqual(status, 4)
        self.assertIn("half.gz: it is no whole file of gzip", why)


class Compact(Lines):
    """Lines without blanks, with their members in order: these are read in less time."""

    blank = ""
    dump = staticmethod(json.JSONEncoder(sort_keys=True, separators=(",", ":")).encode)


class Quick(unittest.TestCase):
    """The quick functions say of each value what the schemas say."""

    def test_each_member_of_a_run_in_turn(self):
        spoils = (None, True, -1, 2**62, "0", "6G", [], {}, {"more": 0})
        script, count = runs.script(), 0
        for path in list(paths(script)):
            for spoilt in spoils:
                changed = runs.script()
                it = changed
                for name in path[:-1]:
                    it = it[name]
                it[path[-1]] = spoilt
                is_so = schemas.lack_of(changed, "audit") is None
                self.assertEqual(quick.is_of(changed, "audit.json"), is_so, (path, spoilt))
                count += not is_so
        self.assertGreater(count, 500)


def paths(value, path=()):
    """The path of each value inside one."""
    for name in value if isinstance(value, dict) else range(len(value)) if isinstance(value, list) else ():
        yield (*path, name)
        yield from paths(value[name], (*path, name))


if __name__ == "__main__":
    unittest.main()
