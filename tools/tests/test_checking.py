"""Tests of records.py check: what it accepts, and what it refuses, part by part."""

import contextlib
import io
import os
import tempfile
import unittest

from surbeldoi import TOP
from surbeldoi.check.checking import NoRun, checked
from surbeldoi.check.ordering import Refused
from surbeldoi.commands import records
from surbeldoi.model.playing import Play
from surbeldoi.records.stream import OUTPUTS, Record
from surbeldoi.script.scenes import NoScene, read_scene


def contents(*path):
    with open(os.path.join(TOP, *path), "rb") as file:
        return file.read()


def record(tag, fields):
    return Record(tag, fields, b"", False, [])


def played(script):
    """The records of the play of a script, by the player of the tools."""
    return [record(*told) for told in Play(read_scene(script)).records()]


def verdict(script, told, is_play=False, is_live=False, is_queue=False):
    """The part for which records are refused, or None."""
    try:
        checked(script, told, is_play, is_live, is_queue)
    except Refused as refused:
        return refused.part
    return None


def found(told, tag, at=0):
    """The place of the record with this tag that so many stand before."""
    return [place for place, one in enumerate(told) if one.tag == tag][at]


def without(tag, at=0):
    return lambda told: told[:found(told, tag, at)] + told[found(told, tag, at) + 1:]


def doubled(tag, at=0):
    return lambda told: told[:found(told, tag, at)] + told[found(told, tag, at):][:1] + told[found(told, tag, at):]


def moved(tag, at, by):
    """The record stands so many places later."""
    def change(told):
        place = found(told, tag, at)
        left = told[:place] + told[place + 1:]
        return left[:place + by] + [told[place]] + left[place + by:]
    return change


def with_fields(tag, at, edit):
    """A record with other fields: `edit` changes them."""
    def change(told):
        place = found(told, tag, at)
        fields = dict(told[place].fields)
        edit(fields)
        return told[:place] + [record(tag, fields)] + told[place + 1:]
    return change


def with_number(tag, at, name, by=1):
    return with_fields(tag, at, lambda fields: fields.update({name: fields[name] + by}))


def with_rows(tag, at, name, edit):
    return with_fields(tag, at, lambda fields: fields.update({name: edit(list(fields[name]))}))


def with_row(tag, at, name, row, column, by=1):
    """A number of a row is another."""
    def edit(rows):
        numbers = list(rows[row])
        numbers[column] += by
        return rows[:row] + [tuple(numbers)] + rows[row + 1:]
    return with_rows(tag, at, name, edit)


def without_row(tag, at, name, row):
    return with_rows(tag, at, name, lambda rows: rows[:row] + rows[row + 1:])


def with_pixel(tag, at=0, byte=0):
    def edit(fields):
        fields["pixels"] = fields["pixels"][:byte] + bytes([fields["pixels"][byte] ^ 1]) + fields["pixels"][byte + 1:]
    return with_fields(tag, at, edit)


def done_after_all(told):
    """The first step that is stuck is done, and its actor has no step left."""
    actor, step = told[found(told, "STUK")].fields["stuck"][0]
    told = without_row("STUK", 0, "stuck", 0)(told)
    place = found(told, "ARRV")
    return told[:place] + [record("REPL", {"actor": actor, "step": step, "status": 0, "values": []})] + told[place:]


def two(first, second):
    return lambda told: second(first(told))


# Two actors: a frame with a fence, one that is drawn late, a rejected transaction, one that a barrier holds for good, one that
# is behind it, and a wait that nobody ends. The vsyncs see timeline 1 at 0, at 5 and at 7.
BUSY = b"""scene 1 4 2 1000000
timeline 1
timeline 2
queue 1 2 2
queue 2 2 2
picture 1 2 2
fill 0 0 2 1 102030ff
picture 2 2 2
fill 0 0 2 2 80808080
actor 1
connect 1
maxdequeued 1 3
dequeue 1 as s
request s
draw s 1
queue s 1 fence 1 5
acquire 1 as i
tx 1
set 1 1 create buffer 0
buffer 1 1 i
apply 1 token 2
dequeue 1 as s
request s
queue s 2 crop 0 0 1 2
acquire 1 as i
tx 1
buffer 1 1 i
apply 1 token 2
signal 1 5
draw s 2
signal 1 7
actor 2
tx 1
set 1 2 create colour 0
set 1 2 colour ff0000ff
set 1 2 z -1
apply 1 token 4
tx 1
set 1 9 destroy
apply 1 token 1
tx 1
barrier 1 1 9
apply 1 token 3
tx 1
apply 1 token 3
wait 2 1
order 1*11 2*5 v 1*8 v 2*3 v 2*20 1*2 v
end
"""
# A draw that an older owed one of the same buffer stops.
OWED = b"""scene 1 1 1 1000000
queue 1 1 1
picture 1 1 1
actor 1
connect 1
dequeue 1 as s
request s
queue s 1
acquire 1 as i
release i
dequeue 1 as t
draw t 1
end
"""
# A buffer that is detached behind the signal of its fence.
DETACHED = b"""scene 1 1 1 1000000
timeline 1
queue 1 1 1
picture 1 1 1
actor 1
connect 1
dequeue 1 as s
request s
draw s 1
queue s 1 fence 1 3
acquire 1 as i
cdetach i as b
signal 1 3
cdetach i as b
end
"""
# Two actors that call two queues, each in its order.
CROSSED = b"""scene 1 1 1 1000000
queue 1 1 1
queue 2 1 1
actor 1
maxdequeued 1 2
maxdequeued 2 3
actor 2
maxdequeued 2 4
maxdequeued 1 5
order 1*2 2*2
end
"""
# A dequeue that waits for a slot for good.
BLOCKED = b"""scene 1 1 1 1000000
queue 1 1 1
actor 1
connect 1
dequeue 1 as a
dequeue 1 as b
dequeuewait 1 as c
end
"""
# What version 2 has besides: further displays, captures, one of them of a layer that is never there, hits, a mirror, an actor with a
# high number, a turned picture of another format; and a vsync that commits and one that rejects.
SECOND = b"""scene 2 3 2 1000000
display 5 2 1 7
display 2 1 1 0
stack 9 7
capture 3 2 2 3
capture 2 8 1 1
capture 1 1 2 2
hit 4 0 0
hit 1 2 1
mirror 3 1
queue 1 2 1
picture 1 2 1 format rgb565
fill 0 0 1 1 64656680
actor 33
connect 1
dequeue 1 as s
request s
draw s 1
queue s 1
acquire 1 as i
tx 1
set 1 1 create container 0
set 1 2 create buffer 1
set 1 2 orient 5
buffer 1 2 i
set 1 3 create container 0
set 1 3 position 1 0
set 1 9 create colour 0
set 1 9 colour 00ff00ff
apply 1 token 1
tx 1
set 1 2 position 0 1
apply 1 token 1
tx 1
set 1 8 destroy
apply 1 token 1
order 33*16 v 33*3 v 33*3 v
end
"""
REFUSED_OF_SECOND = {
    "order": [with_number("FRAD", 0, "number"), with_number("CAPT", 1, "number"), with_number("HITS", 0, "number"), moved("FRAD", 0, -2),
              moved("HITS", 3, 1), with_number("SCEN", 0, "version", -1)],
    "frames": [with_pixel("FRAM"), with_pixel("FRAD"), with_pixel("FRAD", 1, 7), with_pixel("FRAD", 3), with_pixel("CAPT", 0, 15), with_pixel("CAPT", 3, 3),
               with_number("HITS", 0, "layer"), with_fields("HITS", 1, lambda fields: fields.update(layer=0)), with_number("HITS", 3, "layer", 9),
               without("FRAM"), without("FRAD"), without("FRAD", 1), without("CAPT", 0), without("CAPT", 3), without("HITS", 0), without("HITS", 3),
               doubled("FRAM"), doubled("FRAD", 1), doubled("CAPT", 1), doubled("HITS", 1), moved("FRAM", 0, 1), moved("FRAD", 0, 1), moved("FRAD", 1, 1),
               moved("CAPT", 0, 1), moved("CAPT", 1, 1), moved("HITS", 0, 1), with_number("FRAD", 0, "display"), with_number("CAPT", 0, "capture"),
               with_number("HITS", 0, "hit"), with_fields("CAPT", 0, lambda fields: fields.update(pixels=fields["pixels"][:-4])),
               with_fields("FRAD", 0, lambda fields: fields.update(pixels=fields["pixels"] * 2)),
               lambda told: told[:found(told, "ARRV")] + [told[found(told, "HITS")]._replace(fields={"hit": 1, "number": 3, "layer": 0})] + told[found(told, "ARRV"):]],
}
REFUSED = {
    "order": [without("DONE"), without("SCEN"), doubled("SCEN"), without("STUK"), moved("FRAM", 0, -1), with_number("FRAM", 0, "number"),
              with_number("SCEN", 0, "width"), with_number("SCEN", 0, "period"), moved("DONE", 0, -1), doubled("DONE"),
              moved("ARRV", 0, 1), with_number("SCEN", 0, "version")],
    "replies": [without("REPL", 3), doubled("REPL", 3), moved("REPL", 2, 1), with_number("REPL", 0, "actor", 8), with_number("REPL", 0, "status"),
                with_row("REPL", 2, "values", 0, 0), with_row("REPL", 2, "values", 1, 0), with_row("REPL", 2, "values", 2, 0, -1),
                with_row("REPL", 6, "values", 2, 0), with_row("REPL", 6, "values", 3, 0), with_row("REPL", 6, "values", 5, 0),
                without_row("REPL", 2, "values", 0), with_number("REPL", 11, "step")],
    "arrive": [without_row("ARRV", 0, "arrivals", 1), with_row("ARRV", 0, "arrivals", 0, 2), with_row("ARRV", 0, "arrivals", 0, 1),
               with_row("ARRV", 0, "arrivals", 0, 0), with_rows("ARRV", 0, "arrivals", lambda rows: rows[:1] + rows),
               with_row("ARRV", 0, "arrivals", 0, 0, 8), with_row("REPL", 10, "values", 0, 0)],
    "vsyncs": [with_number("VSYN", 1, "expected"), with_row("VSYN", 1, "timelines", 0, 1), with_row("VSYN", 1, "timelines", 0, 0, 2),
               without_row("VSYN", 1, "timelines", 0), two(with_number("VSYN", 0, "number", 9), with_number("FRAM", 0, "number", 9)),
               two(with_number("VSYN", 0, "number", -1), with_number("FRAM", 0, "number", -1)),
               two(with_row("VSYN", 0, "timelines", 0, 1, 7), with_row("VSYN", 1, "timelines", 0, 1, 0))],
    "commits": [with_number("COMM", 0, "result"), with_number("COMM", 2, "result", -1), with_number("COMM", 2, "operation"), with_number("COMM", 1, "arrival"),
                with_number("COMM", 1, "token"), with_row("COMM", 1, "buffers", 0, 0), with_row("COMM", 1, "buffers", 0, 2),
                with_row("VSYN", 1, "timelines", 0, 1, -5), doubled("COMM", 0)],
    "calls": [without_row("HIST", 0, "calls", 0), with_rows("HIST", 0, "calls", lambda rows: rows[:1] + rows), with_row("HIST", 0, "calls", 2, 4),
              with_row("HIST", 0, "calls", 0, 0, 8), with_row("HIST", 0, "calls", 0, 3), with_row("HIST", 0, "calls", 2, 2), with_row("HIST", 0, "calls", 4, 5),
              with_rows("HIST", 0, "calls", lambda rows: rows[1:2] + rows[:1] + rows[2:]), with_rows("HIST", 0, "calls", lambda rows: rows[:-1]),
              without("HIST", 1), doubled("HIST", 1), with_number("HIST", 1, "queue"), moved("HIST", 0, 1)],
    "frames": [with_pixel("FRAM", 0, 5), without("FRAM"), without("FRAM", 2), doubled("FRAM")],
    "buffers": [with_row("COMM", 1, "buffers", 0, 3), with_row("COMM", 1, "buffers", 0, 4), with_row("COMM", 3, "buffers", 0, 6)],
    "holds": [without_row("HOLD", 0, "held", 0), with_row("HOLD", 0, "held", 0, 1, -1), with_row("HOLD", 0, "held", 0, 3), with_row("HOLD", 0, "held", 1, 1),
              with_rows("HOLD", 0, "held", lambda rows: rows[::-1]), with_row("HOLD", 0, "held", 1, 0)],
    "ends": [without_row("STUK", 0, "stuck", 0), with_rows("STUK", 0, "stuck", lambda rows: rows + rows), with_row("STUK", 0, "stuck", 0, 1),
             with_row("STUK", 0, "stuck", 0, 0, -1)],
    "traces": [done_after_all],
}


class Parts(unittest.TestCase):
    def test_a_play_is_accepted(self):
        for script in (BUSY, OWED, DETACHED, BLOCKED):
            self.assertIsNone(verdict(script, played(script), is_play=True))

    def test_each_part_refuses_what_it_has_to(self):
        told = played(BUSY)
        for part, changes in REFUSED.items():
            for number, change in enumerate(changes):
                with self.subTest(part=part, number=number):
                    self.assertEqual(verdict(BUSY, change(told)), part)

    def test_what_version_2_shows(self):
        told = played(SECOND)
        self.assertEqual([one.tag for one in told if one.tag in OUTPUTS], ["FRAM", "FRAD", "FRAD", "CAPT", "CAPT", "HITS", "HITS"] * 2)
        self.assertEqual(checked(SECOND, told, True, False), "22 replies, 3 vsyncs, 3 commits, 6 frames, 4 captures, 4 hits")
        for part, changes in REFUSED_OF_SECOND.items():
            for number, change in enumerate(changes):
                with self.subTest(part=part, number=number):
                    self.assertEqual(verdict(SECOND, change(told)), part)

    def test_a_draw_before_an_older_one(self):
        self.assertEqual(verdict(OWED, done_after_all(played(OWED))), "turns")

    def test_a_detach_whose_fence_the_actor_has_shown(self):
        told = played(DETACHED)
        late = two(without("REPL", 8), without_row("HIST", 0, "calls", 5))(told)
        place = found(late, "ARRV")
        late = late[:place] + [record("REPL", {"actor": 1, "step": 9, "status": 11, "values": []})] + late[place:]
        self.assertEqual(verdict(DETACHED, late), "traces")

    def test_a_dequeue_that_has_to_wait_and_is_refused(self):
        told = played(BLOCKED)
        refused = with_fields("HIST", 0, lambda fields: fields["calls"].append((1, 4, 5, 13, 4294967295, 0)))(done_after_all(told))
        place = [at for at, one in enumerate(refused) if one.tag == "REPL"][-1]
        refused[place].fields["status"] = 13
        self.assertEqual(verdict(BLOCKED, refused), "traces")

    def test_a_step_that_is_stuck_though_it_is_ready(self):
        told = without("REPL", 8)(played(DETACHED))
        self.assertEqual(verdict(DETACHED, two(without_row("HIST", 0, "calls", 5), with_rows("STUK", 0, "stuck", lambda rows: [(1, 9)]))(told)), "ends")

    def test_what_is_free(self):
        told = played(BUSY)
        for change in (moved("REPL", 10, 1), moved("REPL", 16, -3), with_row("VSYN", 2, "timelines", 0, 1, 2)):
            self.assertIsNone(verdict(BUSY, change(told)))
            self.assertEqual(verdict(BUSY, change(told), is_play=True), "play")

    def test_neighbours_in_a_history_are_free_where_no_reply_changes(self):
        told = with_rows("HIST", 1, "calls", lambda rows: rows[::-1])(played(CROSSED))
        self.assertIsNone(verdict(CROSSED, told))
        self.assertEqual(verdict(CROSSED, told, is_play=True), "play")
        self.assertEqual(verdict(CROSSED, with_rows("HIST", 0, "calls", lambda rows: rows[::-1])(played(CROSSED))), "one order")

    def test_replies_of_a_live_run_stand_behind_its_vsyncs(self):
        told = played(BUSY)
        replies = sorted((one for one in told if one.tag == "REPL"), key=lambda one: (one.fields["actor"], one.fields["step"]))
        rest = [one for one in told if one.tag != "REPL"]
        place = found(rest, "ARRV")
        self.assertEqual(verdict(BUSY, told, is_live=True), "live")
        self.assertIsNone(verdict(BUSY, rest[:place] + replies + rest[place:], is_live=True))
        self.assertEqual(verdict(BUSY, rest[:place] + replies[::-1] + rest[place:], is_live=True), "replies")

    def test_senders_through_a_queue_are_told_no_place(self):
        told = played(BUSY)
        sent = {(actor, step) for actor, step, _ in told[found(told, "ARRV")].fields["arrivals"]}
        places = [at for at, one in enumerate(told) if one.tag == "REPL" and (one.fields["actor"], one.fields["step"]) in sent]
        self.assertGreater(len(places), 1)
        for place in places:
            self.assertEqual(verdict(BUSY, told, is_queue=True), "arrive", place)
            told[place].fields["values"] = [(0,)]
            self.assertEqual(verdict(BUSY, told), "arrive", place)
        self.assertIsNone(verdict(BUSY, told, is_queue=True))

    def test_a_stream_that_ends_too_early(self):
        for count in (1, 5, 20):
            with self.assertRaises(Refused):
                checked(BUSY, played(BUSY)[:count], False, False)

    def test_no_scene_or_no_run(self):
        for script in (b"", b"scene 1 1 1 1000000\n", b"scene 3 1 1 1000000\nend\n", BUSY.replace(b"z -1", b"orient 8"), BUSY.replace(b"picture 2", b"picture 1")):
            with self.assertRaises(NoScene):
                checked(script, played(BUSY), False, False)
        for told in ([], [record("SUMM", {})]):
            with self.assertRaises(NoRun):
                checked(BUSY, told, False, False)


def called(*words):
    """The status of a call, and what it wrote on both streams."""
    out, err = io.StringIO(), io.StringIO()
    with contextlib.redirect_stdout(out), contextlib.redirect_stderr(err):
        status = records.main(list(words))
    return status, out.getvalue(), err.getvalue()


class Calls(unittest.TestCase):
    def setUp(self):
        self.folder = tempfile.TemporaryDirectory()
        self.addCleanup(self.folder.cleanup)
        page = contents("docs", "RECORDS.md").decode().split("## A whole stream")[1]
        blocks = [[line[4:] for line in block.splitlines()] for block in page.split("\n\n") if block.startswith("    ")]
        self.script, self.stream = self.file("red.sf", "\n".join(blocks[0]).encode()), bytes.fromhex("".join(blocks[1]))

    def file(self, name, data):
        path = os.path.join(self.folder.name, name)
        with open(path, "wb") as file:
            file.write(data)
        return path

    def test_the_stream_of_the_page_is_accepted(self):
        status, out, err = called("check", "--script", self.script, "--play", self.file("red.bin", self.stream))
        self.assertEqual((status, out, err), (0, "accepted: 4 replies, 1 vsyncs, 1 commits, 1 frames\n", ""))

    def test_a_refusal_says_the_part_the_record_and_why(self):
        changed = self.stream.replace(bytes.fromhex("ff0000ffff0000ff"), bytes.fromhex("ff0000ffff0100ff"))
        status, out, err = called("check", "--script", self.script, self.file("red.bin", changed))
        self.assertEqual((status, out, err), (1, "refused: frames: record 8, FRAM: the pixel at 1 0 is ff0100ff, where the layers make it ff0000ff\n", ""))
        status, out, _ = called("check", "--script", self.script, self.file("cut.bin", self.stream[:-1]))
        self.assertEqual((status, out), (1, "refused: order: record 12, DONE: the stream ends inside it, after 7 bytes\n"))

    def test_no_scene_no_records_and_wrong_words(self):
        stream = self.file("red.bin", self.stream)
        for words in (("check",), ("check", stream), ("check", "--script"),
                      ("check", "--script", self.script, stream, stream), ("check", "--script", self.script, "--fast", stream),
                      ("check", "--script", os.path.join(self.folder.name, "none.sf"), stream),
                      ("check", "--script", self.file("no.sf", b"scene 1 1 1 1000000\n"), stream),
                      ("check", "--script", self.script, self.file("empty.bin", b""))):
            with self.subTest(words=words):
                status, out, err = called(*words)
                self.assertEqual((status, out), (2, ""))
                self.assertTrue(err)


if __name__ == "__main__":
    unittest.main()
