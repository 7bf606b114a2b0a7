"""The commands, each as a process: python3 -m unittest."""

import json
import os
import subprocess
import sys
import tempfile
import unittest

from tests import runs

FOLDER = os.path.dirname(os.path.dirname(os.path.realpath(__file__)))


def ran(*words, given=b""):
    """The status, standard output and standard error of a command."""
    words = [sys.executable, "-m", "fdbrec", *words]
    it = subprocess.run(words, input=given, capture_output=True, cwd=FOLDER, timeout=100)
    return it.returncode, it.stdout.decode(), it.stderr.decode()


class Commands(unittest.TestCase):
    script = json.dumps(runs.script()).encode()

    def test_judge(self):
        self.assertEqual(ran("judge", given=self.script), (0, "audit ok\n", ""))

    def test_entry(self):
        wanted = 'entry 1, stamp 2, node {"sequencer":{"epoch":257}}: {"asked":'
        status, said, _ = ran("entry", "1", given=self.script)
        self.assertEqual((status, said[: len(wanted)]), (0, wanted))
        status, said, why = ran("entry", "7", given=self.script)
        self.assertEqual((status, said, why), (1, "", "there is no entry 7: there are 7\n"))

    def test_explore_and_timeline(self):
        for name, begins, ends in (("explore", "<!DOCTYPE html>", "</html>"), ("timeline", "<svg", "</svg>")):
            status, said, _ = ran(name, given=self.script)
            self.assertEqual(status, 0)
            self.assertTrue(said.startswith(begins) and said.rstrip().endswith(ends))
            status, said, why = ran(name, given=self.script.replace(b'"degree"', b'"degre"'))
            self.assertEqual((status, said, why[:11]), (2, "", "bad script:"))

    def test_validate(self):
        with tempfile.TemporaryDirectory() as room:
            with open(f"{room}/a.json", "wb") as it:
                it.write(b'{"ops":[{"undo":{"to":"1"}}]}')
            status, said, _ = ran("validate", "apply", f"{room}/a.json")
        self.assertEqual(status, 1)
        self.assertTrue(said.startswith(f"{room}/a.json is no script of apply: at /ops/0"), said)

    def test_words_that_are_none(self):
        for words, says in (
            ((), "python3 -m fdbrec COMMAND"),
            (("juge",), "there is no command 'juge'"),
            (("entry",), "there is no number of an entry"),
            (("router", "--node", "lag=x"), "there is no kind lag"),
        ):
            status, said, why = ran(*words)
            self.assertEqual((status, said), (2, ""))
            self.assertIn(says, why)


if __name__ == "__main__":
    unittest.main()
