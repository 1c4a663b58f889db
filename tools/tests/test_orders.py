"""Tests of orders that nobody counts."""

import contextlib
import io
import textwrap
import unittest

from surbeldoi.asking.orders import MOST_TIMES, WIDTH, order_lines, with_order
from surbeldoi.commands import order
from surbeldoi.model.playing import Play
from surbeldoi.script.scenes import read_scene
from surbeldoi.script.scripts import bytes_of
from tests.test_checking import contents, played, verdict
from tests.test_course import scene
from tests.test_records import Case
from tests.test_why import TIMED, small_scripts

# A scene and the order that is written for it.
ORDERS = (
    ("glass.sf", ["order 1*4 v 1*4 v"]),
    ("windows.sf", ["order 1*28 v 1*3 v 1*3 v 1*5 v"]),
    ("late.sf", ["order 1*10 2*7 3*5 v 1 v"]),
    ("held.sf", ["order 1*10 2*6 3 v 1*6 v"]),
    ("stuck.sf", ["order 1*14 2*5 v 2 v"]),
)
CLIENT = ("crates", "test_program", "data", "a-clients-window.sf")


def lines_for(script):
    return order_lines(read_scene(script))


def ordered(script):
    """A script with the order that is written for it."""
    return bytes_of(with_order(script, lines_for(script)))


def first_frame(script):
    """The number of the vsync that shows the first frame of a play."""
    return next((fields["number"] for tag, fields in Play(read_scene(script)).records() if tag == "FRAM"), None)


class Orders(unittest.TestCase):
    def test_each(self):
        for name, lines in ORDERS:
            self.assertEqual(lines_for(scene(name)), lines, name)

    def test_an_actor_that_waited_goes_on_before_the_vsync(self):
        script = b"scene 1 1 1 1000000\ntimeline 1\nactor 1\nwait 1 2\ntx 1\napply 1 token 1\nactor 2\nsignal 1 2\nend\n"
        self.assertEqual(lines_for(script), ["order 2 1*3 v"])

    def test_an_actor_that_has_applied_waits_for_the_vsync(self):
        self.assertEqual(lines_for(TIMED), ["order 1*3 2 v 1 v"])

    def test_many_turns_and_lines(self):
        steps = "\n".join(f"signal 1 {value}" for value in range(600))
        script = f"scene 1 1 1 1000000\ntimeline 1\nactor 1\n{steps}\nend\n".encode()
        self.assertEqual(lines_for(script), [f"order 1*{MOST_TIMES} 1*{MOST_TIMES} 1*88 v"])
        steps = "\n".join("tx 1\napply 1 token 1" for _ in range(60))
        lines = lines_for(f"scene 1 1 1 1000000\nactor 1\n{steps}\nend\n".encode())
        self.assertTrue(len(lines) > 1 and all(len(line) <= WIDTH for line in lines), lines)
        self.assertEqual(" ".join(line[len("order "):] for line in lines), " ".join(["1*2 v"] * 60))

    def test_a_client_shows_its_first_frame_soon(self):
        script = contents(*CLIENT)
        self.assertEqual((lines_for(script), first_frame(script), first_frame(ordered(script))), (["order 1*16 v 1 v"], 17, 2))

    def test_each_script_is_a_scene_with_its_order(self):
        for name, script in small_scripts():
            self.assertIsNone(verdict(ordered(script), played(ordered(script)), is_play=True), name)
            without = bytes_of(with_order(script, []))
            self.assertLessEqual(first_frame(ordered(script)) or 0, first_frame(without) or 1 << 32, name)


class Documents(unittest.TestCase):
    def test_the_page_beside_android_has_the_order_of_its_client(self):
        page = contents("docs", "ANDROID.md").decode()
        script = contents(*CLIENT)
        (line,) = lines_for(script)
        self.assertIn(f"`{line}`, and the frame comes at vsync {first_frame(ordered(script))}", page)
        self.assertIn(f"That is vsync {first_frame(script)}", page)
        unfenced = script.replace(b" fence 1 1", b"", 1)
        self.assertIn(f"Without the fence it comes at vsync {first_frame(ordered(unfenced))}.", page)

    def test_the_examples_of_the_page_on_scripts_have_the_orders_that_are_written(self):
        blocks = [textwrap.dedent(block) for block in contents("docs", "SCRIPT.md").decode().split("\n\n") if block.startswith("    ")]
        whole = [block for block in blocks if "\norder " in block and "\nend" in block]
        self.assertEqual(len(whole), 2)
        for block in whole:
            self.assertIn("\n".join(lines_for(block.encode())), block)


class Command(Case):
    def order(self, *words):
        out, err = io.TextIOWrapper(io.BytesIO(), encoding="utf-8"), io.StringIO()
        with contextlib.redirect_stdout(out), contextlib.redirect_stderr(err):
            status = order.main(list(words))
        return status, out.buffer.getvalue().decode(), err.getvalue()

    def test_an_order(self):
        self.assertEqual(self.order(self.file(scene("held.sf"))), (0, "order 1*10 2*6 3 v 1*6 v\n", ""))

    def test_the_whole_scene(self):
        script = scene("glass.sf")
        self.assertEqual(self.order("--whole", self.file(script)), (0, script.decode(), ""))

    def test_what_is_no_scene(self):
        self.assertEqual(self.order(self.file(b"odd\n")), (2, "", "order.py: line 1 is none of a scene at its place: odd\n"))
        self.assertEqual(self.order("--odd")[0], 2)


if __name__ == "__main__":
    unittest.main()
