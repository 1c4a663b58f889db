"""Tests of the peer over wlroots, where Debian's libwlroots-dev of version 0.15 is installed."""

import glob
import os
import shutil
import subprocess
import tempfile
import unittest

from surbeldoi import TOP
from surbeldoi.fuzz.scenes import random_scene
from surbeldoi.judging.suite import NOT_SAID, NOTHING, RIGHT, WRONG, Way, judged

PEER = os.path.join(TOP, "peers", "wlroots")
SKIPPED = 77
# Scenes that it can play and that meet none of its two faults.
PLAYED = ("ball", "camera", "glass", "held", "late", "panes", "phone", "picture", "red", "refusals", "sizes", "stuck", "whole-or-nothing")


def contents(*path):
    with open(os.path.join(TOP, *path), "rb") as file:
        return file.read()


class Wlroots(unittest.TestCase):
    @classmethod
    def setUpClass(cls):
        cls.folder = tempfile.TemporaryDirectory()
        cls.addClassCleanup(cls.folder.cleanup)
        cls.program = os.path.join(cls.folder.name, "peer")
        if not shutil.which("pkg-config") or not (shutil.which("cc") or shutil.which("gcc")):
            raise unittest.SkipTest("there is no pkg-config or no C compiler")
        ended = subprocess.run(["sh", os.path.join(PEER, "build"), cls.program], stderr=subprocess.PIPE, text=True)
        if ended.returncode == SKIPPED:
            raise unittest.SkipTest(ended.stderr.strip())
        if ended.returncode or ended.stderr:
            raise AssertionError(f"it is not built: {ended.stderr}")

    def judged(self, script, *words):
        return judged(Way([self.program, *words], True, False, 0, 60), "a scene", script)

    def test_what_it_can_play_is_right_to_the_last_bit(self):
        for name in PLAYED:
            with self.subTest(name):
                result = self.judged(contents("scenes", name + ".sf"))
                self.assertEqual((result.verdict, result.words[:19]), (RIGHT, "right: frames alone"))

    def test_what_its_scene_has_no_word_for_it_says(self):
        for name, reason in (("windows", "layers that are relative to others"), ("formats", "alpha of a frame, or over other layers"), ("drag", "mirrors"),
                             ("capture", "captures")):
            with self.subTest(name):
                result = self.judged(contents("scenes", name + ".sf"))
                self.assertEqual((result.verdict, result.words), (NOT_SAID, reason))

    def test_both_faults_show_and_are_gone_around(self):
        for path in sorted(glob.glob(os.path.join(PEER, "*.sf"))):
            with self.subTest(path):
                script = contents(path)
                self.assertEqual(self.judged(script).verdict, WRONG)
                self.assertEqual(self.judged(script, "around").verdict, RIGHT)

    def test_random_scenes_are_right_where_both_faults_are_gone_around(self):
        verdicts = [self.judged(random_scene(seed), "around") for seed in range(1, 81)]
        self.assertEqual([result.words for result in verdicts if result.verdict == WRONG], [])
        self.assertGreater(len([result for result in verdicts if result.verdict == RIGHT]), 15)
        self.assertLess(len([result for result in verdicts if result.verdict == NOTHING]), 40)


if __name__ == "__main__":
    unittest.main()
