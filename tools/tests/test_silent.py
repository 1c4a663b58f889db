"""Tests of where the vsyncs of a run were that took nothing, and so have no record."""

import unittest

from surbeldoi.script.scenes import read_scene
from surbeldoi.view import silent
from surbeldoi.view.course import Course
from tests.test_checking import played
from tests.test_course import scene

# A transaction that is desired for vsync 4, and an actor that waits for the other; turns of both, and three vsyncs at the end.
WAITING = b"""scene 1 4 4 1000000
timeline 1
actor 1
tx 1
set 1 1 create colour 0
desire 1 4000000
apply 1 token 1
actor 2
wait 1 1
actor 3
signal 1 1
order v 1*4 v*2 2 v 2 3 v 2*5 v*3
end
"""


def moments(script, records):
    return [(moment.number, moment.is_silent, len(moment.held), [actor for actor, *_ in moment.waits]) for moment in Course(records, script).moments]


class Silent(unittest.TestCase):
    def test_of_a_play_the_order_tells(self):
        self.assertEqual(moments(WAITING, played(WAITING)), [
            (1, True, 0, [2]), (2, True, 1, [2]), (3, True, 1, [2]), (4, False, 0, [2]), (5, True, 0, []), (6, True, 0, []), (7, True, 0, []), (8, True, 0, []), (None, False, 0, [])])

    def test_in_rounds_behind_the_order(self):
        script = WAITING.replace(b"order v 1*4 v*2 2 v 2 3 v 2*5 v*3\n", b"")
        self.assertEqual([one[:3] for one in moments(script, played(script))], [(1, True, 0), (2, True, 0), (3, True, 0), (4, False, 0), (None, False, 0)])

    def test_of_a_stream_that_was_cut_off_those_before_its_end(self):
        told = played(WAITING)
        cut = told[:next(place for place, one in enumerate(told) if one.tag == "VSYN") + 1]
        self.assertEqual([number for number, *_ in moments(WAITING, cut)], [1, 2, 3, 4, None])

    def test_of_a_live_run_the_numbers_tell(self):
        told = played(WAITING)
        replies, others = ([one for one in told if (one.tag == "REPL") == is_reply] for is_reply in (True, False))
        place = next(place for place, one in enumerate(others) if one.tag == "ARRV")
        live = others[:place] + replies + others[place:]
        self.assertEqual([one[:3] for one in moments(WAITING, live)], [(1, True, 0), (2, True, 0), (3, True, 0), (4, False, 0), (None, False, 0)])

    def test_so_many_are_told_at_most(self):
        script = WAITING.replace(b"v*3\nend", b"v*256 " * 20 + b"\nend")
        found, left_out = silent.silent_in_play(read_scene(script), played(script), True)
        self.assertEqual((len(found), left_out, found[-1][1]), (silent.MOST, 20 * 256 + 4 - silent.MOST, silent.MOST + 1))

    def test_records_of_another_order_have_none(self):
        told = played(WAITING)
        wrong = [one._replace(fields={**one.fields, "number": 1}) if one.tag == "VSYN" else one for one in told]
        self.assertEqual(silent.silent_in_play(read_scene(WAITING), [told[0], told[-1], *wrong], True).found, [])

    def test_scenes_without_such_vsyncs(self):
        for name in ("held.sf", "phone.sf", "windows.sf", "late.sf"):
            self.assertFalse(any(is_silent for _, is_silent, *_ in moments(scene(name), played(scene(name)))), name)


if __name__ == "__main__":
    unittest.main()
