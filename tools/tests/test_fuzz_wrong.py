"""Tests of wrong implementations: what is planted shows, is refused, and leaves nothing behind."""

import unittest

from surbeldoi.fuzz.planted import WRONG, Wrong, planted
from surbeldoi.fuzz.scenes import random_scene
from surbeldoi.fuzz.wrong import judge_wrong, played
from surbeldoi.model.painting import over
from surbeldoi.script.scenes import read_scene

SEEDS = range(1, 13)


class Table(unittest.TestCase):
    def test_each_has_a_name_of_its_own(self):
        names = [fault.name for fault in WRONG]
        self.assertEqual(len(set(names)), len(names))
        self.assertGreater(len(names), 100)

    def test_what_is_planted_is_taken_out_again(self):
        scene = read_scene(random_scene(8))
        before = played(scene)
        for fault in WRONG:
            if fault.owner is not None:
                with self.assertRaises(KeyError), planted(fault):
                    raise KeyError
        self.assertEqual(played(scene), before)


class Judged(unittest.TestCase):
    def test_what_shows_is_refused_or_free(self):
        judged = judge_wrong(SEEDS)
        for one in judged:
            self.assertTrue(one.is_right(), one.text())
        self.assertGreater(sum(one.shown() > 0 for one in judged), 45)

    def test_what_seldom_shows_is_refused_by_examples(self):
        names = ("what was below a destroyed layer stands at the root", "a new parent takes a layer from what it is relative to", "a layer that gets a z stays relative",
                 "a layer that is relative to a hidden one is shown", "a mirror with copies inside", "a copy has the place of its original",
                 "copies are older than all layers", "a merge takes the earlier time",
                 "an arrival passed over: of those that are ready the first waits for the vsync behind the last one",
                 "a vsync stops after one commit, and passes over an arrival before it",
                 "a circle of modes: two actors call two queues, and each is the first on one of them",
                 "a release before its frame: the compositor gives back what is not yet queued")
        found = judge_wrong((), [fault for fault in WRONG if fault.name in names])
        self.assertEqual(len(found), len(names))
        for one in found:
            self.assertTrue(one.shown() and one.is_right(), one.text())

    def test_what_only_the_order_refuses(self):
        for name, part in (("an arrival passed over", "passed over"), ("a vsync stops after one commit", "passed over"),
                           ("a circle of modes", "one order"), ("a release before its frame", "one order")):
            one = judge_wrong((), [fault for fault in WRONG if fault.name.startswith(name)])[0]
            self.assertEqual(set(one.verdicts), {part}, name)

    def test_what_is_said(self):
        free = next(fault for fault in WRONG if fault.free and fault.name.startswith("a vsync commits one"))
        refused = next(fault for fault in WRONG if fault.name == "a REPL is left out")
        never = Wrong("nothing is wrong", None, None, lambda scene, records: records)
        taken_as_wrong = free._replace(free="")
        said = [(one.is_right(), one.text()) for one in judge_wrong(range(1, 30), [free, refused, never, taken_as_wrong])]
        self.assertTrue(said[0][0] and said[0][1].startswith("free: a vsync commits one transaction at most: refused ") and ", by passed over: how soon " in said[0][1], said[0])
        self.assertTrue(said[1][0] and said[1][1].startswith("a REPL is left out: refused 5 of 5 times, by "), said[1])
        self.assertEqual(said[2], (True, "never shown: nothing is wrong"))
        self.assertTrue(not said[3][0] and said[3][1].startswith("NOT REFUSED: ") and "; accepted for the scenes " in said[3][1], said[3])

    def test_a_check_that_fails_is_not_right(self):
        broken = Wrong("no fields", None, None, lambda scene, records: [record._replace(fields={}) if record.tag == "ARRV" else record for record in records])
        one = judge_wrong(range(1, 3), [broken])[0]
        self.assertFalse(one.is_right())
        self.assertIn("the check fails", one.text())

    def test_pixels_are_as_they_were(self):
        self.assertEqual(over(b"\x00\x00\x00\xff", b"\x80\x00\x00\x80", 255), b"\x80\x00\x00\xff")


if __name__ == "__main__":
    unittest.main()
