"""Tests of the shrinker: what it leaves of scenes and of other scripts, and shrink.py."""

import contextlib
import io
import os
import sys
import tempfile
import unittest

from surbeldoi.commands import shrink
from surbeldoi.fuzz.coverage import Watched
from surbeldoi.fuzz.faults import faulty_script
from surbeldoi.fuzz.scenes import random_scene
from surbeldoi.fuzz.shrinking import shrunk
from surbeldoi.script.first_fault import first_fault
from surbeldoi.script.scenes import read_scene

BUSY = b"""scene 2 30 20 16666667
timeline 7
display 3 4 4 1
# a comment
queue 9 008 8
queue 4 3 3
picture 12 8 8 format rgbx
fill 1 1 2 2 12345678
picture 2 3 3
actor 7
connect 9
dequeue 9 as one size 8 8
request one
draw one 12
queue one 12 time 900 crop 1 1 2 2 fence 7 3 fence 7 4
acquire 9 as two at 1000
signal 7 4
release two fence 7 9
actor 3
connect 4
tx 5
set 5 70 create colour 0
set 5 70 colour 11223344
apply 5 token 800
order 7*4 3*3 v 7*8 3*2 v
end
"""


def mets(*thing):
    """Fails where the play of a scene meets a thing."""
    def fails(script):
        play = Watched(read_scene(script))
        list(play.records())
        return play.met[thing] > 0
    return fails


def shows_frame(script):
    return any(tag == "FRAM" for tag, _ in Watched(read_scene(script)).records())


CASES = (
    ("a step", lambda script: b"signal" in script, "scene 1 1 1 1000000\ntimeline 1\nactor 1\nsignal 1 0\nend\n"),
    ("a line of the head", lambda script: b"display" in script, "scene 2 1 1 1000000\ndisplay 2 1 1 0\nend\n"),
    ("a frame that is shown", shows_frame, "scene 1 1 1 1000000\nactor 1\ntx 1\napply 1 token 1\nend\n"),
    ("a move of a slot", mets("slot", "queued", "acquired", 13),
     "scene 1 1 1 1000000\nqueue 1 1 1\npicture 1 1 1\nactor 1\nconnect 1\ndequeue 1 as a\nrequest a\nqueue a 1\nacquire 1 as b\nend\n"),
    ("a fence that is handed on", mets("event", "an acquire tells a fence"),
     "scene 1 1 1 1000000\ntimeline 1\nqueue 1 1 1\npicture 1 1 1\nactor 1\nconnect 1\ndequeue 1 as a\nrequest a\nqueue a 1 fence 1 1\nacquire 1 as b\nend\n"),
)


class Scenes(unittest.TestCase):
    def test_what_is_left(self):
        for name, fails, wanted in CASES:
            self.assertEqual(shrunk(BUSY, fails).decode(), wanted, name)

    def test_a_scene_stays_a_scene(self):
        for seed in (1, 3, 6):
            script, asked = random_scene(seed), []

            def fails(smaller):
                asked.append(first_fault(smaller))
                return smaller.count(b"\n") > 12
            small = shrunk(script, fails, 30)
            self.assertEqual(set(asked), {None}, f"seed {seed}")
            self.assertLessEqual(len(asked), 32, f"seed {seed}")
            self.assertLessEqual(small.count(b"\n"), script.count(b"\n"), f"seed {seed}")

    def test_what_fails_no_more_without_comments_stays_as_it_is(self):
        self.assertEqual(shrunk(BUSY, lambda script: b"comment" in script), BUSY)

    def test_a_faulty_script_keeps_its_fault(self):
        for seed in (3, 5, 9):
            script = faulty_script(seed)
            cause = first_fault(script) and first_fault(script).cause
            small = shrunk(script, lambda smaller: first_fault(smaller) is not None and first_fault(smaller).cause == cause) if cause else script
            self.assertLessEqual(len(small), len(script), f"seed {seed}")
            self.assertEqual(first_fault(small) and first_fault(small).cause, cause, f"seed {seed}")


class Command(unittest.TestCase):
    def call(self, *given, script=BUSY):
        out, err = io.TextIOWrapper(io.BytesIO()), io.StringIO()
        with tempfile.TemporaryDirectory() as folder, contextlib.redirect_stdout(out), contextlib.redirect_stderr(err):
            path = os.path.join(folder, "busy.sf")
            with open(path, "wb") as file:
                file.write(script)
            status = shrink.main([word.replace("SCENE", path) for word in given])
        return status, out.buffer.getvalue().decode(), err.getvalue()

    def test_by_standard_input_and_by_a_file(self):
        no_draw = "import sys; sys.exit(3 if b'draw' in (open(sys.argv[1], 'rb') if sys.argv[1:] else sys.stdin.buffer).read() else 0)"
        for more in ((), ("{}",)):
            status, out, err = self.call("SCENE", "--asks", "25", "--", sys.executable, "-c", no_draw, *more)
            self.assertEqual(status, 0, err)
            self.assertIn("draw ", out)
            self.assertLess(len(out), len(BUSY) // 2)
            self.assertIn(f"are {len(out)} now", err)
            self.assertIsNone(first_fault(out.encode()))

    def test_only_what_ends_as_it_did_for_the_whole_fails(self):
        other_way = "import sys; sys.exit(3 if sys.stdin.buffer.read().count(b'\\n') > 20 else 4)"
        status, out, _ = self.call("SCENE", "--asks", "8", "--", sys.executable, "-c", other_way)
        self.assertEqual((status, out.count("\n") > 20), (0, True))

    def test_what_takes_too_long_fails(self):
        status, out, _ = self.call("SCENE", "--asks", "1", "--seconds", "1", "--", sys.executable, "-c", "import time; time.sleep(20)")
        self.assertEqual((status, len(out) < len(BUSY)), (0, True))

    def test_what_is_wrong(self):
        self.assertEqual(self.call("SCENE", "--", sys.executable, "-c", "pass")[:2], (1, ""))
        for given in (("SCENE",), ("no such file", "--", "true"), ("SCENE", "--asks", "0", "--", "true"), ("SCENE", "--", "no-such-command")):
            status, out, err = self.call(*given)
            self.assertEqual((status, out, err.count("\n")), (2, "", 1), given)
        self.assertEqual(self.call("--help")[0], 0)


if __name__ == "__main__":
    unittest.main()
