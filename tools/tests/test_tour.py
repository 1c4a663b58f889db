"""Tests of the tour: what it says of scenes, the records of half a transaction, and that its wrong body fits its file."""

import contextlib
import io
import os
import re
import tempfile
import unittest
from unittest import mock

from surbeldoi import TOP
from surbeldoi.check.checking import checked
from surbeldoi.check.ordering import Refused
from surbeldoi.commands import edits, tour
from tests.test_checking import played
from tests.test_course import scene
from tests.test_scenes import SCENES

QUIET = tour.Options(browser=False, proof=False, waits=False)


def said(does, *given):
    """What something prints, and what it answers."""
    out = io.StringIO()
    with contextlib.redirect_stdout(out):
        answer = does(*given)
    return out.getvalue(), answer


class Tour(unittest.TestCase):
    def test_a_scene_is_told_by_the_first_sentence_of_its_comment(self):
        self.assertEqual(tour.first_sentence(scene("camera.sf")), "A camera is faster than its viewer.")
        self.assertEqual(tour.first_sentence(b"# One, two\n# three: \n# four. Five.\nscene 1\n# Six.\n"), "One, two three: four.")
        for name in SCENES:
            self.assertRegex(tour.first_sentence(scene(name)), r"^[A-Z].*\.$", name)

    def test_half_a_transaction_is_refused_for_its_frame_alone(self):
        told, right = tour.torn_records(scene("phone.sf"), 2), played(scene("phone.sf"))
        differ = [(one.tag, one.fields["number"]) for one, other in zip(told, right) if one.fields != other.fields]
        self.assertEqual((len(told), differ), (len(right), [("FRAM", 2)]))
        with self.assertRaises(Refused) as refused:
            checked(scene("phone.sf"), told, False, False)
        self.assertEqual(refused.exception.part, "frames")

    def test_it_is_shown_with_its_vsync_and_pixel(self):
        text, failed = said(tour.show_half, QUIET)
        self.assertEqual(failed, 0)
        self.assertRegex(text, r"(?m)^vsync 2, pixel \d+ \d+: [0-9a-f]{8}, where the whole transaction makes it [0-9a-f]{8}$")
        self.assertRegex(text, r"(?m)^records.py check, .*: refused: frames: ")
        self.assertIn("accepted: 46 replies, 2 vsyncs", text)

    def test_its_wrong_body_fits_its_file(self):
        self.assertEqual(list(edits.applied(tour.path_of_edit())), [os.path.join("src", f"{tour.MODULE}.rt")])

    def test_it_is_tried_on_a_copy(self):
        with tempfile.TemporaryDirectory() as room, mock.patch.object(tour.subprocess, "run") as ran:
            tour.try_body(room)
            self.assertEqual(ran.call_args.args, (["rt", "check", "--only", tour.MODULE],))
            with open(os.path.join(ran.call_args.kwargs["cwd"], "src", f"{tour.MODULE}.rt"), encoding="utf-8") as file:
                self.assertIn("mul(255, alpha)", file.read())

    def test_a_body_that_is_refused_and_one_that_is_not(self):
        for answer, text, failed in ((1, "note: it is not proved that this holds", 0), (0, "proved", 1), (1, "no such module", 1)):
            with mock.patch.object(tour, "try_body", return_value=(answer, text)), mock.patch.object(tour.shutil, "which", return_value="rt"):
                told, status = said(tour.show_body, QUIET)
            self.assertEqual(status, failed, text)
            self.assertIn("- let cover = mul(src.a, alpha);", told)
            self.assertRegex(told, r"refused, after \d+ seconds")

    def test_without_the_kit_it_says_so(self):
        with mock.patch.object(tour.shutil, "which", return_value=None):
            text, failed = said(tour.show_body, QUIET)
        self.assertEqual(failed, 0)
        self.assertIn("rt, the command of Rattle's kit, is not on the path", text)

    def test_scenes_that_were_not_played_are_counted(self):
        with mock.patch.object(tour, "page_of", side_effect=lambda name: None if name == "ball.sf" else os.path.join(TOP, "view.html")):
            text, failed = said(tour.show_scenes, QUIET)
        self.assertEqual((failed, len(re.findall(r"view\.html", text)), len(re.findall("was not played", text))), (1, len(SCENES) - 1, 1))


if __name__ == "__main__":
    unittest.main()
