"""What the judge says of a small run, of that run spoilt, and of what is no script: python3 -m unittest."""

import json
import unittest

from fdbrec.commands import ending
from fdbrec.reading import judging
from tests import runs


def judged(script):
    return judging.judged(ending.script_of("audit", json.dumps(script).encode()))


class Judge(unittest.TestCase):
    def test_a_run_is_one(self):
        self.assertEqual(judged(runs.script()), ("audit ok", None))

    def test_a_tell_that_the_rules_do_not_allow_is_named(self):
        script = runs.script()
        runs.journal(script, "sequencer")["entries"][0]["act"]["asked"]["tell"]["seq"]["numbered"]["version"] = 3
        line, why = judged(script)
        self.assertEqual(line, "tell differs at 1")
        self.assertIn('by the rules {"seq":{"numbered":{"prev":1,"request":1,"version":2}}}', why)

    def test_what_was_never_sent_is_no_run(self):
        script = runs.script()
        runs.journal(script, "log")["entries"][0]["act"]["asked"]["ask"]["log"]["push"]["bodies"] = []
        line, why = judged(script)
        self.assertEqual(line, "not a run at 3")
        self.assertIn("this was never sent", why)

    def test_a_last_state_that_differs_is_named(self):
        script = runs.script()
        runs.journal(script, "storage")["last"]["storage"]["rows"] = [["61", "02"]]
        self.assertEqual(judged(script)[0], "state differs at storage 0")

    def test_a_batch_that_one_log_of_one_does_not_hold_is_not_acknowledged(self):
        script = runs.script()
        script["journals"] = [it for it in script["journals"] if "log" not in it["node"]]
        self.assertEqual(judged(script)[0], "not a run at 3")

    def test_what_is_no_script_is_refused_with_its_place(self):
        text = json.dumps(runs.script(), separators=(",", ":"))
        rows = (
            (text.replace('"degree":1', '"degree":true'), "column 38: config.degree: found true, wanted a number"),
            (text.replace('"stamp":5', '"stamp":2'), "journals[0]: found an object, whose parts do not go together"),
            (text.replace('"step":1}', '"step":1,"z":0}', 1), 'submitted.z: found "z", wanted an object of batch'),
            ("\ufeff" + text, "line 1, column 1: found a byte order mark; save the script"),
            ("", "standard input is empty"),
        )
        for script, says in rows:
            with self.assertRaises(ending.BadScript) as found:
                ending.script_of("audit", script.encode())
            self.assertIn(says, str(found.exception))

    def test_utf_16_is_refused(self):
        with self.assertRaises(ending.BadScript):
            ending.script_of("audit", json.dumps(runs.script()).encode("utf-16"))


if __name__ == "__main__":
    unittest.main()
