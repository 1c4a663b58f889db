"""Tests of what two runs have that is different, and of what is told of it."""

import json
import unittest

from surbeldoi.asking.diff import data_of, lines_of
from surbeldoi.asking.differences import Compared
from tests.test_checking import played
from tests.test_course import scene
from tests.test_records import Case, run
from tests.test_why import as_live, bytes_of

# A producer and a consumer; the consumer acquires one step earlier in the second order.
QUEUES = """scene 1 8 8 16666667
queue 1 8 8
picture 1 8 8
fill 0 0 8 8 ff0000ff
picture 2 8 8
fill 0 0 4 8 00ff00ff
fill 4 0 4 8 ff0000ff
actor 1
connect 1
async 1 1
dequeue 1 as a
request a
draw a 1
queue a 1
dequeue 1 as a
request a
draw a 2
queue a 2
actor 2
acquire 1 as i
tx 1
set 1 1 create buffer 0
buffer 1 1 i
apply 1 token 1
order {}
end
"""
LATE, EARLY = (QUEUES.format(order).encode() for order in ("1*10 2*5 v", "1*6 2*5 1*4 v"))


def differences(left, right, script):
    return list(Compared(left, right, script).all())


def changed(records, tag, at, **fields):
    """Records of which the one with this tag that so many stand before has other fields."""
    places = [place for place, one in enumerate(records) if one.tag == tag]
    one = records[places[at]]
    return [*records[:places[at]], one._replace(fields={**one.fields, **fields}), *records[places[at] + 1:]]


class Differences(unittest.TestCase):
    def test_runs_that_are_the_same(self):
        for name in ("glass.sf", "held.sf", "camera.sf", "external.sf", "refusals.sf", "stuck.sf"):
            told = played(scene(name))
            self.assertEqual(differences(told, played(scene(name)), scene(name)), [], name)
            self.assertEqual(differences(told, as_live(played(scene(name))), scene(name)), [], f"{name}, live")
            self.assertEqual(differences(as_live(played(scene(name))), told, scene(name)), [], f"live, {name}")

    def test_what_the_order_of_calls_leads_to(self):
        """The script is that of both but for its order."""
        found = differences(played(EARLY), played(LATE), LATE)
        self.assertEqual((found[0].kind, found[0].where), ("call", "queue 1, call 6"))
        self.assertEqual((found[0].left, found[0].right),
                         ("acquire slot 0 frame 1 by actor 2 step 1 (line 20: acquire 1 as i)", "dequeue slot 1 by actor 1 step 7 (line 15: dequeue 1 as a)"))
        by_where = {one.where: one for one in found}
        acquired = by_where["actor 2 step 1 (line 20: acquire 1 as i)"]
        self.assertEqual((acquired.left, acquired.right), ("done: slot 0, frame 1, picture 1, dropped 0", "done: slot 1, frame 2, picture 2, dropped 0"))
        frame = by_where["the own display at vsync 1: 32 of 64 pixels, the first at 0 0"]
        self.assertEqual((frame.left, frame.right, frame.more),
                         ("ff0000ff", "00ff00ff", "layer 1 has ff0000ff of picture 1 there in one run, and layer 1 has 00ff00ff of picture 2 in the other"))

    def test_a_pixel_that_is_wrong_in_one(self):
        script = scene("glass.sf")
        right = played(script)
        frame = [one for one in right if one.tag == "FRAM"][1].fields["pixels"]
        wrong = changed(played(script), "FRAM", 1, pixels=frame[:8] + b"\x01\x02\x03\xff" + frame[12:])
        (found,) = differences(right, wrong, script)
        self.assertEqual(found, ("frame", "the own display at vsync 2: 1 of 3072 pixels, the first at 2 0", "40007fff", "010203ff",
                                 "the layers are the same in both, and make it 40007fff"))

    def test_a_transaction_at_another_vsync(self):
        script = scene("glass.sf")
        later = changed(changed(played(script), "VSYN", 1, number=3, expected=50000001), "FRAM", 1, number=3)
        found = differences(played(script), later, script)
        self.assertEqual([(one.kind, one.left, one.right) for one in found], [("transaction", "vsync 2: committed", "vsync 3: committed")])

    def test_transactions_that_one_shows_together(self):
        script = scene("glass.sf")
        records = played(script)
        _, second = [place for place, one in enumerate(records) if one.tag == "VSYN"]
        replies, commits = ([one for one in records if one.tag == tag] for tag in ("REPL", "COMM"))
        together = as_live(records[:1] + replies + [records[second], *commits] + records[second + 2:])
        found = differences(records, together, script)
        self.assertEqual([(one.kind, one.where, one.left, one.right) for one in found if one.kind == "frame"],
                         [("frame", "vsync 1", "shows what line 8 made", "never shows that")])

    def test_a_step_that_one_run_does_not_do(self):
        script = scene("held.sf")
        stuck = scene("held.sf").replace(b"signal 1 5", b"wait 1 5", 1)
        found = differences(played(script), played(stuck), script)
        self.assertEqual((found[0].kind, found[0].where, found[0].left), ("step", "actor 3 step 1 (line 37: signal 1 5)", "done"))
        self.assertIn(("frame", "vsync 2"), [(one.kind, one.where) for one in found])
        held = next(one for one in found if one.kind == "transaction")
        self.assertTrue(held.right.startswith("waits to the end: "), held)

    def test_left_and_right_change_places(self):
        for left, right in ((played(EARLY), played(LATE)), (played(LATE), as_live(played(EARLY)))):
            one, other = differences(left, right, LATE), differences(right, left, LATE)
            self.assertEqual(sorted((found.kind, found.left, found.right) for found in one if found.kind == "step"),
                             sorted((found.kind, found.right, found.left) for found in other if found.kind == "step"))


class Command(Case):
    def diff(self, left, right, *words, name="glass.sf"):
        return run("diff", "--script", self.file(scene(name), "script"), *words, self.file(bytes_of(left), "left"), self.file(bytes_of(right), "right"))

    def test_the_same(self):
        script = scene("glass.sf")
        self.assertEqual(self.diff(played(script), played(script)), (0, "nothing differs\n", ""))
        self.assertEqual(json.loads(self.diff(played(script), played(script), "--json")[1]), {"same": True, "first": None, "then": []})

    def test_what_differs(self):
        right = played(scene("glass.sf"))
        wrong = changed(right, "FRAM", 0, pixels=bytes(4) + right[next(at for at, one in enumerate(right) if one.tag == "FRAM")].fields["pixels"][4:])
        status, out, err = self.diff(right, wrong)
        self.assertEqual((status, err), (1, ""))
        self.assertEqual(out.splitlines()[:3], ["first: the own display at vsync 1: 1 of 3072 pixels, the first at 0 0", "  left:  0000ffff", "  right: 00000000"])
        self.assertEqual(json.loads(self.diff(right, wrong, "--json")[1])["first"]["kind"], "frame")

    def test_a_run_that_does_not_fit_its_script(self):
        """Such a one is compared record by record."""
        right = played(scene("held.sf"))
        wrong = changed(right, "REPL", 5, values=[(9,), (9,), (1,), (0,)])
        for left, other, told in ((right, wrong, "left"), (wrong, right, "right")):
            status, out, err = self.diff(left, other, name="held.sf")
            self.assertEqual((status, err), (1, ""), told)
            self.assertIn("first: record 7, REPL\n", out)
            self.assertIn(f"{told}:".ljust(7) + "reply of actor 1, step 6: Ok (0 1 1 0 1 5)", out)
            self.assertIn("the script is not the one of these records: actor 1 step 6 (line 18: acquire 1 as i)", out)

    def test_many_differences_are_counted(self):
        found = differences(played(EARLY), played(LATE), LATE)
        many = found[:1] + found[1:2] * 20
        text = list(lines_of(many))
        self.assertIn("behind it: 20 steps", text)
        self.assertEqual(text[-1], "  and 8 more, which --json tells")
        self.assertEqual(len(data_of(many)["then"]), 20)

    def test_what_can_not_be_told(self):
        script = scene("glass.sf")
        status, out, err = self.diff(played(scene("held.sf")), played(scene("held.sf")))
        self.assertEqual((status, out), (2, ""))
        self.assertIn("the script is not the one of these records", err)
        status, out, err = self.diff(played(script)[:5], played(script))
        self.assertEqual((status, out), (2, ""))
        self.assertIn("left: the stream ends without DONE", err)


if __name__ == "__main__":
    unittest.main()
