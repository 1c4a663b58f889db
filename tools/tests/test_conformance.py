"""Tests of conformance.py, with compositors that are right, wrong, or can not play all scenes."""

import contextlib
import io
import os
import sys
import tempfile
import unittest
from unittest import mock

from surbeldoi import TOP
from surbeldoi.commands import conformance
from surbeldoi.judging import suite
from surbeldoi.judging.suite import NOT_SAID, NOTHING, RIGHT, WRONG, Result, forms_of, random_results, rows, worked_scenes, wrong_by_form
from surbeldoi.script.scenes import read_scene

# A compositor over the tools' own player, which shows no alpha of layers, and can't play mirrors.
COMPOSITOR = """
import re
import sys
sys.path.insert(0, {tools!r})
from surbeldoi.judging.played import Played
from surbeldoi.script.scenes import read_scene
script = sys.stdin.buffer.read()
if b"mirror" in script:
    sys.stderr.write("mirrors")
    sys.exit(77)
if {is_wrong}:
    script = re.sub(rb" alpha [0-9]+", b" alpha 255", script)
shown = Played(read_scene(script)).shown()
sys.stdout.buffer.write(b"".join(fields["pixels"] for moment in shown for tag, fields in moment.outputs if tag in ("FRAM", "FRAD")))
"""


def result(verdict, *forms, name="a scene"):
    return Result(name, b"", verdict, "", frozenset(forms))


class Suite(unittest.TestCase):
    def test_the_forms_of_a_script_are_those_of_its_lines(self):
        for name, text, forms in (
                ("declarations", b"scene 2 1 1 1000000\ntimeline 1\ndisplay 2 1 1 0\npicture 1 1 1 format rgbx\nfill 0 0 1 1 00000000\nend\n",
                 {"timeline", "display", "format rgbx"}),
                ("a plain picture", b"picture 1 1 1\n", set()),
                ("changes", b"set 1 1 create colour 0\nset 1 1 crop none\nset 1 1 crop 0 0 1 1\nset 1 1 z -1\n", {"create colour", "crop none", "crop", "z"}),
                ("changes as they are committed", b"set 1 create buffer none\nset 4294967295 alpha 3\n", {"create buffer", "alpha"}),
                ("parts in brackets", b"queue b 1 time 4 crop 0 0 1 1 fence 1 1\nacquire 1 as b at 4\nqueue 1 4 4\n",
                 {"queue", "queue with time", "queue with crop", "queue with fence", "acquire", "acquire with at"}),
                ("frames", b"picture 1 4 2\nshow 1 1 0 0 4 2\nshow 1 1 0 0 4 1\n", {"show a frame", "show a part of a frame"}),
                ("comments and turns", b"# set 1 1 z 4\n\norder v\nvsync 4\nactor 1\nend\n", set())):
            with self.subTest(name):
                self.assertEqual(forms_of(text), forms)

    def test_the_table_counts_the_verdicts_of_each_form(self):
        results = [result(RIGHT, "z"), result(WRONG, "z", "crop"), result(NOT_SAID, "mirror"), result(NOTHING, "z"), result(WRONG, "crop")]
        self.assertEqual(rows(results), [("all", 4, 1, 2, 1), ("crop", 2, 0, 2, 0), ("z", 2, 1, 1, 0), ("mirror", 1, 0, 0, 1)])

    def test_the_wrong_scenes_of_each_form_are_found(self):
        results = [result(RIGHT, "z", name="1"), result(WRONG, "crop", name="2"), result(WRONG, "crop", "z", name="3")]
        self.assertEqual({form: [each.name for each in found] for form, found in wrong_by_form(results).items()}, {"crop": ["2", "3"], "z": ["3"]})

    def test_random_scenes_come_until_so_many_were_played(self):
        for name, verdicts, wanted, taken in (("enough", [RIGHT, NOT_SAID, WRONG, NOTHING, RIGHT], 2, 3), ("none", [NOT_SAID] * 100, 2, 60)):
            with self.subTest(name):
                self.assertEqual(len(list(random_results(map(result, verdicts), wanted))), taken)

    def test_worked_scenes_are_scenes(self):
        scenes = dict(worked_scenes())
        self.assertGreater(len(scenes), 200)
        for name in ("scenes/red.sf", "crates/test_program/data/a-ball.sf"):
            self.assertIn(name.replace("/", os.sep), scenes)
        self.assertNotIn(os.path.join("crates", "test_program", "data", "4097-steps.sf"), scenes)


class Command(unittest.TestCase):
    def setUp(self):
        folder = tempfile.TemporaryDirectory()
        self.addCleanup(folder.cleanup)
        self.folder = folder.name
        for name, is_wrong in (("right.py", False), ("wrong.py", True)):
            with open(os.path.join(self.folder, name), "w") as file:
                file.write(COMPOSITOR.format(tools=os.path.join(TOP, "tools"), is_wrong=is_wrong))

    def told(self, name, *words):
        """The status of the command on some worked scenes, and what it says."""
        worked = tuple(os.path.join("scenes", scene + ".sf") for scene in ("red", "held", "external"))
        worked += tuple(os.path.join("crates", "test_program", "data", name + ".sf") for name in ("a-layer-of-half-alpha", "an-opaque-layer-of-half-alpha"))
        out, err = io.StringIO(), io.StringIO()
        with mock.patch.object(suite, "WORKED", worked), contextlib.redirect_stdout(out), contextlib.redirect_stderr(err):
            status = conformance.main([*words, "--raw", "--keep", os.path.join(self.folder, "kept"), "--", sys.executable, "-B", os.path.join(self.folder, name)])
        return status, out.getvalue().splitlines(), err.getvalue()

    def test_a_right_compositor_has_a_table_without_wrong_ones(self):
        status, lines, said = self.told("right.py", "--random", "2")
        self.assertEqual((status, said), (0, ""))
        self.assertEqual(lines[0].split(), "form scenes right wrong could not be said".split())
        _, scenes, right, wrong, not_said = lines[1].split()
        self.assertEqual((wrong, int(scenes)), ("0", int(right) + int(not_said)))
        self.assertGreaterEqual(int(right), 5)

    def test_a_wrong_one_is_made_smaller_and_kept(self):
        status, lines, said = self.told("wrong.py", "--random", "0")
        self.assertEqual(status, 1)
        self.assertIn("a-layer-of-half-alpha.sf is wrong: vsync 1, the display", said)
        self.assertIn(["alpha", "3", "0", "2", "1"], [line.split() for line in lines])
        self.assertIn(["mirror", "1", "0", "0", "1"], [line.split() for line in lines])
        self.assertIn("could not be said: mirrors (1)", lines)
        left = next(line for line in lines if line.startswith("alpha: "))
        self.assertIn("alpha.sf", left)
        self.assertTrue(any(line.startswith("opaque: none is wrong because of it; ") for line in lines), lines)
        with open(os.path.join(self.folder, "kept", "alpha.sf"), "rb") as file:
            script = file.read()
        self.assertIn("alpha", forms_of(script))
        self.assertLess(len(script.splitlines()), 12)
        read_scene(script)

    def test_wrong_words_are_told(self):
        for name, words, why in (("no command", ["--"], "the command that is judged"), ("no --", [], "the command that is judged"),
                                 ("a count", ["--random", "-1", "--", "true"], "--random"), ("no jobs", ["--jobs", "0", "--", "true"], "--jobs")):
            with self.subTest(name), contextlib.redirect_stderr(io.StringIO()) as err:
                self.assertEqual(conformance.main(words), 2)
                self.assertIn(why, err.getvalue())
                self.assertEqual(err.getvalue().count("\n"), 1)

    def test_a_command_that_is_not_there_is_told(self):
        with contextlib.redirect_stderr(io.StringIO()) as err, mock.patch.object(suite, "WORKED", (os.path.join("scenes", "red.sf"),)):
            self.assertEqual(conformance.main(["--random", "0", "--", os.path.join(self.folder, "away")]), 2)
        self.assertIn("No such file", err.getvalue())


if __name__ == "__main__":
    unittest.main()
