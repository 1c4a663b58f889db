"""Tests of a run followed from vsync to vsync: its transactions, its layer tree, what waits, and its queues."""

import os
import subprocess
import unittest

from surbeldoi.commands import run
from surbeldoi.model.holds import Seen, why_held
from surbeldoi.model.outputs import on_stack
from surbeldoi.model.painting import Placements, clip_of, mul as product
from surbeldoi.model.trees import after, draw_order
from surbeldoi.records.pictures import rows_of
from surbeldoi.records.stream import FORMS, PIXELS, U32, Rows, read
from surbeldoi.script.scenes import read_scene
from surbeldoi.view.course import Content, Course, NoCourse
from tests.test_checking import SECOND, played

PROGRAM = run.built(run.TOP)


def scene(name):
    with open(os.path.join(run.TOP, "scenes", name), "rb") as file:
        return file.read()


def encoded_number(text, size):
    return int(text).to_bytes(size, "big")


def encoded_pixels(words):
    return b"".join(int(count) * bytes.fromhex(colour) for count, colour in (word.split("*") for word in words))


def encoded(line):
    """The record of a line as `records.py lines` writes it."""
    head, *entries = line.split(" | ")
    tag, *words = head.split()
    body = b""
    for _, form in FORMS[tag]:
        if form == PIXELS:
            body += encoded_pixels(words)
        elif not isinstance(form, Rows):
            body += encoded_number(words.pop(0), form)
        else:
            rows = [word.split("=") for word in words] if tag in ("REPL", "VSYN") else [entry.split() for entry in entries]
            body += encoded_number(len(rows), U32)
            body += b"".join(encoded_number(*pair) for row in rows for pair in zip(row, form.columns))
    return tag.encode() + encoded_number(len(body), U32) + body


def stream(*parts):
    """The bytes of the records of lines, each part one line or several."""
    return b"".join(encoded(line) for part in parts for line in part.strip().splitlines())


def course(data, script):
    records, _ = read(data)
    return Course(records, script)


def own(moment):
    """What the own display shows at a moment."""
    return moment.outputs[0]


def course_of(script):
    return Course(played(script), script)


# The runs of two scenes.
HELD = stream(
    "SCEN 1 96 64 16666667\nREPL 1 1 0\nREPL 1 2 0 0 1 1\nREPL 1 3 0 0 1 96 64\nREPL 1 4 0\nREPL 1 5 0 0 1\nREPL 1 6 0 0 1 1 0 1 5",
    *(f"REPL 1 {step} 0" for step in (7, 8, 9)), "REPL 1 10 0 1", *(f"REPL 1 {step} 0" for step in range(11, 16)), "REPL 1 16 0 2",
    *(f"REPL 2 {step} 0" for step in range(1, 6)), "REPL 2 6 0 3",
    "VSYN 1 16666667 1=0\nCOMM 2 3 0 0\nFRAM 1 5568*000000ff 576*20c020ff\nREPL 3 1 0",
    "VSYN 2 33333334 1=5\nCOMM 1 1 0 0 | 1 1 1 1 0 0 96 64\nCOMM 1 2 0 0",
    f"FRAM 2 576*c02020ff 976*304878ff {'32*f0d060ff 64*304878ff ' * 31}32*f0d060ff 1008*304878ff 576*20c020ff",
    "ARRV | 1 10 1 | 1 16 1 | 2 6 2\nHIST 1 | 1 1 1 0 4294967295 0 | 1 2 5 0 0 0 | 1 3 6 0 0 0 | 1 5 7 0 0 1 | 1 6 13 0 0 1\nHOLD\nSTUK\nDONE")
REJECTED = stream(
    "SCEN 1 64 48 16666667\nREPL 1 1 0\nREPL 1 2 0\nREPL 1 3 0\nREPL 1 4 0 1\nVSYN 1 16666667\nCOMM 1 1 0 0\nFRAM 1 3072*ff0000ff",
    "REPL 1 5 0\nREPL 1 6 0\nREPL 1 7 0\nREPL 1 8 0 2\nVSYN 2 33333334\nCOMM 1 2 1 2\nARRV | 1 4 1 | 1 8 1\nHOLD\nSTUK\nDONE")


def shown_point(orient, width, height, u, v):
    """The pixel of a crop that shows with an orientation so far from the left and from the top of its box. It is found back: each
    quarter turn is undone, and then the mirror."""
    wide, high = (height, width) if orient % 2 else (width, height)
    for _ in range(orient % 4):
        u, v, wide, high = v, wide - 1 - u, high, wide
    return (width - 1 - u if orient > 3 else u), v


def seen_as(form, digits):
    """A colour as a picture's format has it."""
    red, green, blue, alpha = bytes.fromhex(digits)
    if form == "rgb565":
        red, green, blue = red >> 3 << 3 | red >> 5, green >> 2 << 2 | green >> 6, blue >> 3 << 3 | blue >> 5
    return red, green, blue, alpha if form == "rgba" else 255


def painted(drawn, pictures, width, height):
    """What a display shows of layers, one pixel after another, as docs/SCRIPT.md says it."""
    def pixel_of(layer, x, y):
        if layer.content is None:
            return bytes.fromhex(layer.colour)
        picture, (left, top, wide, high) = pictures[layer.content.picture], layer.content.crop
        column, row = shown_point(layer.orient, wide, high, x - layer.place[0], y - layer.place[1])
        covering = [fill for fill in picture.fills if fill[0] <= left + column < fill[0] + fill[2] and fill[1] <= top + row < fill[1] + fill[3]]
        return seen_as(picture.format, covering[-1][4] if covering else "00000000")

    rows = [[[0, 0, 0, 255] for _ in range(width)] for _ in range(height)]
    known = {}
    for layer in drawn:
        left, top, wide, high = layer.clip
        for y in range(top, top + high):
            for x in range(left, left + wide):
                red, green, blue, alpha = known.get((layer, x, y)) or known.setdefault((layer, x, y), pixel_of(layer, x, y))
                own, under = (red, green, blue, 255 if layer.opaque else alpha), rows[y][x]
                cover = product(own[3], layer.alpha)
                rows[y][x] = [min(255, product(one, layer.alpha) + product(below, 255 - cover)) for one, below in zip(own, under)]
    return b"".join(bytes(pixel) for row in rows for pixel in row)


class Held(unittest.TestCase):
    """The run of scenes/held.sf."""

    @classmethod
    def setUpClass(cls):
        cls.course = course(HELD, scene("held.sf"))
        cls.first, cls.second, cls.end = cls.course.moments

    def test_moments(self):
        self.assertEqual([(moment.number, moment.time, own(moment).frame, own(moment).is_new) for moment in self.course.moments],
                         [(1, 16666667, 0, True), (2, 33333334, 1, True), (None, None, 1, False)])
        self.assertEqual((self.course.fault, self.course.is_live), (None, False))

    def test_what_waits_and_why(self):
        fence, behind = self.first.held
        self.assertEqual(fence[:2], (1, "Fence"))
        self.assertIn("timeline 1 has not reached 5, it is at 0", fence.text)
        self.assertIn("it is raised by actor 3 step 1 (line 37: signal 1 5)", fence.text)
        self.assertEqual(behind, (2, "Behind", "it is behind arrival 1 of its token"))
        self.assertEqual((self.second.held, self.end.held), ([], []))

    def test_commits(self):
        self.assertEqual([[commit.arrival for commit in moment.commits] for moment in self.course.moments], [[3], [1, 2], []])

    def test_operations_are_the_lines_of_their_steps(self):
        arrival = self.course.reader.arrivals[2]
        lines = [self.course.script.step(operation.actor, operation.step).text() for operation in arrival.operations]
        self.assertEqual(lines, ["set 1 2 create colour 0", "set 1 2 colour c02020ff", "set 1 2 crop 0 0 96 6", "set 1 2 z 2"])
        self.assertEqual(self.course.reader.arrivals[1].frames(), [(1, (1, 1))])

    def test_layers(self):
        self.assertEqual([(layer.number, depth) for layer, depth in self.second.outline], [(2, 0), (3, 0), (1, 0)])
        self.assertEqual([(drawn.layer, drawn.clip) for drawn in own(self.second).drawn], [(1, (0, 0, 96, 64)), (3, (0, 58, 96, 6)), (2, (0, 0, 96, 6))])
        self.assertEqual(own(self.second).drawn[0].content, Content(1, 1, 1, (0, 0, 96, 64), "i"))

    def test_the_frames_are_those_of_the_layers(self):
        for moment in (self.first, self.second):
            pixels = painted(own(moment).drawn, self.course.declarations.pictures, 96, 64)
            self.assertEqual(rows_of(pixels, 96), rows_of(self.course.frames[own(moment).frame], 96))

    def test_slots(self):
        (queue,) = self.course.queues
        self.assertEqual(queue.changes, [[1, 0, "dequeued", 0], [3, 0, "queued", 1], [4, 0, "acquired", 1]])
        self.assertEqual(queue.moments, [0] * 5)


def turning(orient):
    """A scene that shows a crop of a picture with an orientation, on a display of its own."""
    return f"""scene 2 5 6 1000000
queue 1 4 5
picture 1 4 5 format {("rgba", "rgbx", "rgb565")[orient % 3]}
fill 0 0 4 5 102030ff
fill 1 0 1 2 a04070c0
fill 2 3 2 1 8060ffff
fill 1 2 1 1 ff7f3f80
actor 1
connect 1
dequeue 1 as s
request s
draw s 1
queue s 1 crop 1 0 3 4
acquire 1 as i
tx 1
set 1 1 create buffer 0
set 1 1 position 1 -1
set 1 1 orient {orient}
buffer 1 1 i
apply 1 token 1
end
""".encode()


class Second(unittest.TestCase):
    """What version 2 shows, followed over the plays of the tools' own player."""

    def assert_painted(self, script):
        """Each image is that of the layers that are rebuilt, and each hit meets the one in front."""
        followed, count = Course(played(script), script), 0
        self.assertIsNone(followed.fault)
        for moment in followed.moments:
            for place, output in zip(followed.places, moment.outputs):
                if output.is_new:
                    pixels = painted(output.drawn, followed.declarations.pictures, place.width, place.height)
                    self.assertEqual(pixels, followed.frames[output.frame], f"vsync {moment.number}, {place.of}")
                    count += 1
        return followed, count

    def test_displays_captures_and_mirrors(self):
        followed, count = self.assert_painted(SECOND)
        self.assertEqual([place.of for place in followed.places], [("FRAM", 0), ("FRAD", 2), ("FRAD", 5), ("CAPT", 1), ("CAPT", 2), ("CAPT", 3)])
        self.assertEqual(count, 10)
        first, second, rejecting, end = followed.moments
        self.assertEqual([(output.frame, output.is_new, output.is_missing) for output in first.outputs],
                         [(0, True, False), (1, True, False), (2, True, False), (3, True, False), (None, False, False), (4, True, False)])
        self.assertEqual([output.frame for output in second.outputs], [5, 6, 7, 8, None, 9])
        self.assertEqual([(output.frame, output.is_new) for output in rejecting.outputs], [(output.frame, False) for output in second.outputs])
        self.assertEqual([output.drawn for output in end.outputs], [output.drawn for output in second.outputs])
        self.assertEqual([moment.hits for moment in followed.moments], [{1: 0, 4: 2}, {1: 0, 4: 0}, {1: 0, 4: 0}, {1: 0, 4: 0}])

    def test_a_copy_is_told_by_its_original_and_its_mirror(self):
        moment = course_of(SECOND).moments[0]
        self.assertEqual([(drawn.layer, drawn.mirror, drawn.place) for drawn in own(moment).drawn], [(2, None, (0, 0)), (2, 3, (1, 0))])

    def test_each_orientation_and_format(self):
        for orient in range(8):
            with self.subTest(orient=orient):
                self.assertEqual(self.assert_painted(turning(orient))[1], 1)

    def test_an_image_that_was_cut_off_is_missing(self):
        told = played(SECOND)
        place = [one.tag for one in told].index("CAPT")
        cut = Course(told[:place], SECOND)
        self.assertEqual([output.is_missing for output in cut.moments[0].outputs], [False, False, False, True, False, True])


class Other(unittest.TestCase):
    def test_a_rejected_transaction_changes_nothing(self):
        rejected = course(REJECTED, scene("whole-or-nothing.sf"))
        first, second, _ = rejected.moments
        self.assertEqual(second.commits, [(2, 1, 2, "the layer, or the parent or relative that it names, is not there")])
        self.assertEqual((second.outline, own(second).drawn, own(second).is_new), (first.outline, own(first).drawn, False))

    def test_another_script_or_no_run_is_told(self):
        for data, name in ((HELD, "phone.sf"), (HELD, "red.sf"), (stream("SFLT 1 1 2"), "held.sf")):
            with self.assertRaises(NoCourse, msg=name):
                course(data, scene(name))

    def test_replies_that_cannot_be_are_told_and_nothing_is_made_of_them(self):
        """The page of such records is not made, however large their numbers are."""
        told, script = "the script is not the one of these records: ", scene("held.sf")
        reply = stream("REPL 1 16 0 2")
        for data, why in (
            (HELD.replace(reply, stream("REPL 1 16 0 8589934592")), "actor 1 step 16 (line 28: apply 1 token 1): it was told arrival 8589934592, and the arrivals have it as 2"),
            (HELD[:HELD.index(b"ARRV")].replace(reply, stream("REPL 1 16 0 8589934592")),
             "actor 1 step 16 (line 28: apply 1 token 1): it was told arrival 8589934592, and the script applies 3 transactions"),
            (HELD.replace(reply, stream("REPL 1 16 0")), "actor 1 step 16 (line 28: apply 1 token 1): it has 0 values, and a step that sends a transaction has one"),
            (HELD.replace(stream("REPL 1 7 0"), stream("REPL 1 6 13\nREPL 1 7 0")), "actor 1, step 6: step 7 is due"),
            (HELD.replace(stream("REPL 1 6 0 0 1 1 0 1 5"), stream("REPL 1 6 0 0")),
             "actor 1 step 6 (line 18: acquire 1 as i): it has 1 values, and a step of this form that is done has 4 and the points of a fence"),
            (HELD.replace(stream("REPL 1 7 0\nREPL 1 8 0"), stream("REPL 1 8 0\nREPL 1 7 0")), "actor 1, step 8: step 7 is due"),
            (HELD.replace(stream("REPL 3 1 0"), stream("REPL 9 1 0")), "it has no step 1 of actor 9"),
            (HELD.replace(stream("REPL 3 1 0"), stream("REPL 3 1 0\nREPL 3 2 0")), "it has no step 2 of actor 3"),
            (HELD.replace(stream("SCEN 1 96 64 16666667"), stream("SCEN 1 0 64 16666667")), "SCEN says [1, 0, 64, 16666667], and the script [1, 96, 64, 16666667]"),
            (HELD[:HELD.index(b"STUK")] + stream("STUK | 1 99\nDONE"), "it has no step 99 of actor 1"),
            (HELD[:HELD.index(b"HIST")] + stream("HIST 2\nHOLD\nSTUK\nDONE"), "there is no queue 2"),
        ):
            with self.subTest(why=why), self.assertRaises(NoCourse) as raised:
                course(data, script)
            self.assertEqual(str(raised.exception), told + why)

    def test_a_commit_that_the_tree_does_not_take_is_told_and_the_rest_goes_on(self):
        """So is one that would make a layer its own ancestor, which has no place then."""
        head = b"scene 1 2 1 1000000\nactor 1\ntx 1\nset 1 1 create colour 0\nset 1 2 create colour 1\napply 1 token 1\ntx 1\n"
        for change in (b"set 1 1 reparent 2", b"set 1 9 z 1", b"set 1 9 create colour 7", b"set 1 1 relative 2 1"):
            script = head + change + b"\napply 1 token 1\norder 1*4 v 1*3 v\nend\n"
            records = played(script)
            rejected = [record for record in records if record.tag == "COMM"][1]
            self.assertNotEqual(rejected.fields["result"], 0)
            rejected.fields["result"] = 0
            lied = Course(records, script)
            self.assertEqual(lied.fault, "the operations of arrival 2 do not fit the layers that are there, from operation 1 on")
            self.assertEqual([own(moment).drawn is None for moment in lied.moments], [False, True, True], change)

    def test_a_live_run_whose_arrivals_go_through_a_queue_is_followed(self):
        records, _ = read(HELD)
        for record in records:
            if record.tag == "REPL" and (record.fields["actor"], record.fields["step"]) in ((1, 10), (1, 16), (2, 6)):
                record.fields["values"][:] = [(0,)]
        through = Course(records, scene("held.sf"))
        self.assertIsNone(through.fault)
        self.assertEqual(sorted(through.reader.arrivals), [1, 2, 3])

    def test_a_stream_that_is_cut_off_is_followed_as_far_as_it_goes(self):
        cut = course(HELD[:HELD.index(b"ARRV")], scene("held.sf"))
        self.assertEqual([moment.number for moment in cut.moments], [1, 2, None])
        self.assertEqual(own(cut.moments[1]).drawn, own(course(HELD, scene("held.sf")).moments[1]).drawn)

    def test_a_frame_that_was_cut_off_is_missing(self):
        cut = course(HELD[:HELD.rindex(b"FRAM") + 100], scene("held.sf"))
        self.assertEqual([own(moment)[:3] for moment in cut.moments], [(0, True, False), (0, False, True), (0, False, True)])

    def test_a_live_run_tells_its_replies_behind_its_vsyncs(self):
        records, _ = read(HELD)
        replies = [record for record in records if record.tag == "REPL"]
        head, middle, tail = records[:1], [record for record in records[1:] if record.tag in ("VSYN", "COMM", "FRAM")], records[-5:]
        live = Course(head + middle + replies + tail, scene("held.sf"))
        self.assertTrue(live.is_live)
        self.assertEqual([own(moment).drawn for moment in live.moments], [own(moment).drawn for moment in course(HELD, scene("held.sf")).moments])
        self.assertEqual(live.moments[0].held, [])

    def test_operations_that_do_not_fit_are_told_and_the_rest_goes_on(self):
        missing = HELD.replace(stream("COMM 2 3 0 0"), stream("COMM 2 7 0 0"))
        broken = course(missing, scene("held.sf"))
        self.assertEqual(broken.fault, "the records do not tell the operations of arrival 7")
        self.assertEqual([own(moment).drawn for moment in broken.moments], [None, None, None])
        self.assertEqual(len(broken.frames), 2)

    def test_a_name_may_be_a_word_of_the_forms(self):
        script = b"scene 1 1 1 1000000\nqueue 1 1 1\nactor 1\nconnect 1\ndequeue 1 as as\ncancel as\nend\n"
        self.assertEqual(course_of(script).reader.actors[1].names, {})

    def test_who_waits_is_told_at_each_vsync(self):
        script = (b"scene 1 2 1 1000000\ntimeline 1\nactor 1\nwait 1 5\ntx 1\napply 1 token 1\nactor 2\ntx 1\nset 1 1 create colour 0\napply 1 token 1\n"
                  b"signal 1 3\ntx 1\napply 1 token 1\nend\n")
        data = stream("SCEN 1 2 1 1000000\nREPL 2 1 0\nREPL 2 2 0\nREPL 2 3 0 1\nVSYN 1 1000000 1=0\nCOMM 1 1 0 0\nFRAM 1 2*000000ff\nREPL 2 4 0\nREPL 2 5 0",
                      "REPL 2 6 0 2\nVSYN 2 2000000 1=3\nCOMM 1 2 0 0\nFRAM 2 2*000000ff\nARRV | 2 3 1 | 2 6 1\nHOLD\nSTUK | 1 1\nDONE")
        waiting = [moment.waits for moment in course(data, script).moments]
        self.assertEqual(waiting, [[(1, 1, f"timeline 1 has not reached 5, it is at {value}")] for value in (0, 3, 3)])


class Merging(unittest.TestCase):
    """What a transaction has, by its steps."""

    def arrival(self, *steps):
        lines = [b"scene 1 2 1 1000000", b"actor 1", *[step.encode() for step in steps], b"end"]
        replies = "\n".join(f"REPL 1 {number} 0" + (" 1" if step.startswith("apply") else "") for number, step in enumerate(steps, 1))
        return course(stream("SCEN 1 2 1 1000000", replies, "DONE"), b"\n".join(lines)).reader.arrivals[1]

    def changes(self, arrival):
        return [(operation.layer, " ".join(operation.change)) for operation in arrival.operations]

    def test_a_change_takes_the_place_of_an_earlier_one_of_its_kind(self):
        arrival = self.arrival("tx 1", "set 1 1 z 1", "set 1 2 z 2", "set 1 1 crop 0 0 1 1", "set 1 1 relative 2 5", "set 1 1 crop none", "apply 1 token 1")
        self.assertEqual(self.changes(arrival), [(2, "z 2"), (1, "relative 2 5"), (1, "crop none")])

    def test_creating_and_destroying_take_no_place(self):
        arrival = self.arrival("tx 1", "set 1 1 create colour 0", "set 1 1 z 1", "set 1 1 destroy", "set 1 1 create colour 0", "set 1 1 z 2", "apply 1 token 1")
        self.assertEqual(self.changes(arrival), [(1, "create colour 0"), (1, "destroy"), (1, "create colour 0"), (1, "z 2")])

    def test_a_merge_puts_operations_behind_and_keeps_the_later_time(self):
        arrival = self.arrival("tx 1", "tx 02", "set 1 1 z 1", "desire 1 7", "barrier 1 1 3", "set 2 1 z 4", "desire 2 9", "desire 2 5", "barrier 2 2 4",
                               "merge 1 2", "apply 1 token 1")
        self.assertEqual(self.changes(arrival), [(1, "z 4")])
        self.assertEqual((arrival.desired, [barrier[:2] for barrier in arrival.barriers]), (7, [(1, 3), (2, 4)]))

    def test_a_step_that_was_refused_changes_nothing(self):
        script = b"scene 1 2 1 1000000\nactor 1\ntx 1\nset 1 1 z 1\nset 2 1 z 2\napply 1 token 1\nend\n"
        data = stream("SCEN 1 2 1 1000000\nREPL 1 1 0\nREPL 1 2 0\nREPL 1 3 15\nREPL 1 4 0 1\nDONE")
        self.assertEqual(self.changes(course(data, script).reader.arrivals[1]), [(1, "z 1")])


def operations(*changes):
    """The operations of changes, each a layer and the words behind it."""
    lines = ["scene 1 1 1 1000000", "actor 1", *(f"set 1 {layer} {change}" for layer, change in changes), "end"]
    return [step.args[1:3] for step in read_scene("\n".join(lines).encode()).actors[1]]


class Trees(unittest.TestCase):
    def tree(self, *changes):
        tree, cause, _ = after({}, operations(*changes), 256)
        self.assertEqual(cause, 0)
        return tree

    def order(self, *changes):
        return [layer.number for layer in draw_order(self.tree(*changes))]

    def test_by_z_and_then_by_age(self):
        self.assertEqual(self.order((2, "create colour 0"), (1, "create colour 0"), (3, "create colour 0"), (1, "z 1"), (3, "z -1")), [3, 2, 1])

    def test_children_below_zero_are_behind_their_parent(self):
        self.assertEqual(self.order((1, "create colour 0"), (2, "create colour 1"), (3, "create colour 1"), (3, "z -1"), (4, "create colour 0")), [3, 1, 2, 4])

    def test_a_relative_is_drawn_with_what_it_is_relative_to(self):
        changes = (1, "create colour 0"), (2, "create colour 0"), (3, "create colour 1"), (3, "relative 2 -1")
        self.assertEqual(self.order(*changes), [1, 3, 2])
        self.assertEqual(self.order(*changes, (3, "z 0")), [1, 3, 2])
        self.assertEqual(self.order(*changes, (2, "hidden 1")), [1])

    def test_what_hidden_and_lost_layers_hide(self):
        changes = (1, "create container 0"), (2, "create colour 1"), (3, "create colour 2"), (4, "create colour none")
        self.assertEqual(self.order(*changes), [1, 2, 3])
        self.assertEqual(self.order(*changes, (1, "hidden 1")), [])
        self.assertEqual(self.order(*changes, (2, "reparent none")), [1])
        self.assertEqual(self.order(*changes, (4, "reparent 3")), [1, 2, 3, 4])

    def test_what_a_destroyed_layer_leaves(self):
        tree = self.tree((1, "create container 0"), (2, "create colour 1"), (3, "create colour 0"), (3, "relative 1 4"), (1, "destroy"))
        self.assertEqual((tree[2].parent, tree[3].relative, tree[3].z), (None, None, 4))
        self.assertEqual([layer.number for layer in draw_order(tree)], [3])

    def test_place_crop_and_alpha_come_from_the_parents(self):
        tree = self.tree((1, "create container 0"), (1, "position 10 20"), (1, "crop 0 0 30 30"), (1, "alpha 128"),
                         (2, "create colour 1"), (2, "position -5 5"), (2, "crop 0 0 100 10"), (2, "alpha 128"))
        placed = Placements(tree).of(tree[2])
        self.assertEqual((placed[:3], clip_of(tree[2], placed, 64, 48)), ((5, 25, 64), (10, 25, 40, 35)))

    def test_a_display_shows_its_stack(self):
        tree = self.tree((1, "create colour 0"), (2, "create colour 1"), (3, "create colour 0"))
        shown = [[one.number for one in on_stack(stacks, Placements(tree), draw_order(tree), stack)] for stacks, stack in (({}, 0), ({}, 7), ({1: 7, 2: 5}, 7), ({1: 7, 2: 5}, 5))]
        self.assertEqual(shown, [[1, 2, 3], [], [1, 2], []])

    def test_what_has_nothing_to_show(self):
        self.assertEqual([layer.has_content() for layer in self.tree((1, "create container 0"), (2, "create buffer 0"), (3, "create colour 0")).values()], [False, False, True])

    def test_products_are_rounded(self):
        self.assertEqual([product(a, b) for a, b in ((255, 255), (255, 7), (128, 128), (1, 127), (1, 128))], [255, 7, 64, 0, 1])


class Holds(unittest.TestCase):
    def test_each_hold_in_its_order(self):
        script = (b"scene 1 2 1 1000000\ntimeline 1\nqueue 1 2 1\npicture 1 2 1\nactor 1\nconnect 1\ndequeue 1 as a\nrequest a\nqueue a 1 fence 1 4\nacquire 1 as b\n"
                  b"tx 1\nbuffer 1 5 b\nbarrier 1 6 3\napply 1 token 1\nend\n")
        data = stream("SCEN 1 2 1 1000000\nREPL 1 1 0\nREPL 1 2 0 0 1 1\nREPL 1 3 0 0 1 2 1\nREPL 1 4 0 0 1\nREPL 1 5 0 0 1 1 0 1 4\nREPL 1 6 0\nREPL 1 7 0",
                      "REPL 1 8 0\nREPL 1 9 0 1\nDONE")
        reader = course(data, script).reader
        arrival, queued = reader.arrivals[1], reader.frames[1, 1]
        layers, _, _ = after({}, operations((5, "create buffer 0"), (5, "backpressure 1")), 256)

        def hold(time=10, first=1, reached=0, drawn=None, shown=None, latched=(), desired=None):
            queued.drawn, arrival.txn.desired = drawn, desired
            return why_held(arrival, Seen(time, {1: reached}, reader.frames, 0, shown or {}, layers, set(latched), {1: first}))

        self.assertEqual(hold(first=9), (1, 0, 0))
        self.assertEqual(hold(desired=1_000_000_010), (2, 1_000_000_010, 0))
        self.assertEqual(hold(desired=1_000_000_011), (3, 1, 4))
        self.assertEqual(hold(desired=10), (3, 1, 4))
        self.assertEqual(hold(reached=4), (4, 1, 1))
        self.assertEqual(hold(reached=4, drawn=0), (5, 6, 3))
        self.assertEqual(hold(reached=4, drawn=0, shown={6: 2}), (5, 6, 3))
        self.assertEqual(hold(reached=4, drawn=0, shown={6: 3}, latched=[5]), (6, 5, 0))
        self.assertEqual(hold(reached=4, drawn=0, shown={6: 3}, latched=[5], desired=1), None)
        self.assertEqual(hold(reached=4, drawn=0, shown={6: 3}), None)


class QueueSlots(unittest.TestCase):
    HEAD = "scene 1 2 1 1000000\nqueue 1 2 1\npicture 1 2 1\nactor 1\nconnect 1\n"

    def queue(self, *steps):
        script = (self.HEAD + "\n".join(steps) + f"\norder 1*{len(steps) + 1}\nend\n").encode()
        return course_of(script).queues[0]

    def changes(self, *steps):
        """The changes of slots: each as its call, its slot, its state and its frame."""
        queue = self.queue(*steps)
        self.assertIsNone(queue.fault)
        return queue.changes

    def test_a_frame_that_takes_anothers_place_frees_its_slot(self):
        changes = self.changes("async 1 1", "dequeue 1 as a", "request a", "draw a 1", "queue a 1", "dequeue 1 as a", "request a", "draw a 1", "queue a 1")
        self.assertEqual(changes, [[2, 0, "dequeued", 0], [4, 0, "queued", 1], [5, 1, "dequeued", 0], [7, 0, "free", 0], [7, 1, "queued", 2]])

    def test_frames_that_an_acquire_drops_free_their_slots(self):
        frames = [step for name in "ab" for step in (f"dequeue 1 as {name}", f"request {name}", f"draw {name} 1")]
        changes = self.changes("maxdequeued 1 2", *frames, "queue a 1 time 5", "queue b 1 time 7", "acquire 1 as i at 9")
        self.assertEqual(changes[-2:], [[8, 0, "free", 0], [8, 1, "acquired", 2]])

    def test_refused_calls_change_nothing(self):
        self.assertEqual(self.changes("acquire 1 as a", "connect 1", "dequeue 1 as a size 0 4"), [])

    def test_a_disconnect_frees_what_was_lent_and_abandoning_all(self):
        changes = self.changes("maxdequeued 1 2", "dequeue 1 as a", "request a", "draw a 1", "dequeue 1 as b", "queue a 1", "disconnect 1", "abandon 1")
        self.assertEqual(changes[-2:], [[6, 1, "free", 0], [7, 0, "free", 0]])

    def test_a_history_that_does_not_fit_is_told_from_there_on(self):
        script = (self.HEAD + "dequeue 1 as a\ncancel a\norder 1*3\nend\n").encode()
        for column, value, fault in (
            (4, 1, "call 2, dequeue, has Ok, slot 1, frame 0, where the calls before make it Ok, slot 0, frame 0"),
            (1, 9, "call 2, dequeue, is none that was made"),
        ):
            records = played(script)
            (history,) = [record for record in records if record.tag == "HIST"]
            calls = [list(call) for call in history.fields["calls"]]
            calls[1][column] = value
            history.fields["calls"] = [tuple(call) for call in calls]
            (queue,) = Course(records, script).queues
            self.assertEqual((queue.fault, queue.changes), (fault, []))


@unittest.skipUnless(PROGRAM, "sf_main is not built")
class Played(unittest.TestCase):
    """Runs of the program: the layers that are rebuilt show the frames that it wrote."""

    def played(self, script, *words):
        data = subprocess.run([PROGRAM, *words], input=script, stdout=subprocess.PIPE, timeout=60).stdout
        return course(data, script)

    def assert_painted(self, followed):
        self.assertIsNone(followed.fault)
        size = followed.scene["width"], followed.scene["height"]
        for moment in followed.moments:
            if own(moment).is_new:
                pixels = painted(own(moment).drawn, followed.declarations.pictures, *size)
                self.assertTrue(pixels == followed.frames[own(moment).frame], f"vsync {moment.number}")

    def test_the_frames_of_small_scenes(self):
        for name in ("windows.sf", "glass.sf", "late.sf", "sizes.sf", "refusals.sf", "panes.sf", "picture.sf"):
            with self.subTest(name=name):
                self.assert_painted(self.played(scene(name)))

    def test_the_frames_of_a_live_run(self):
        for name in ("windows.sf", "late.sf"):
            with self.subTest(name=name):
                self.assert_painted(self.played(scene(name), "--run", "live"))

    def test_each_transaction_that_is_left_at_a_vsync_has_its_reason(self):
        for name in ("held.sf", "late.sf", "camera.sf", "stuck.sf", "windows.sf"):
            for moment in self.played(scene(name)).moments:
                for hold in moment.held:
                    self.assertTrue(hold.name, f"{name}: {hold}")


if __name__ == "__main__":
    unittest.main()
