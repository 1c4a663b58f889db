"""Tests of answers to why: waits, changes, the command and its JSON."""

import glob
import json
import os
import re
import textwrap
import unittest

from surbeldoi import TOP
from surbeldoi.asking.answers import Answers
from surbeldoi.asking.reasons import Asked, NotTold
from surbeldoi.asking.telling import lines_text, told
from surbeldoi.asking.turns import turns_of
from surbeldoi.model.playing import Play
from surbeldoi.records.stream import FORMS, PIXELS, Rows
from surbeldoi.records.wording import HOLDS
from surbeldoi.script.scenes import read_scene
from tests.test_checking import played, record
from tests.test_course import scene
from tests.test_records import Case, run

DATA = os.path.join(TOP, "crates", "test_program", "data")
MOST_BYTES = 2500


def small_scripts():
    """The names and the contents of the shorter scripts of test_program that are scenes."""
    for path in sorted(glob.glob(os.path.join(DATA, "*.sf"))):
        if os.path.getsize(path) <= MOST_BYTES:
            with open(path, "rb") as file:
                script = file.read()
            try:
                read_scene(script)
            except Exception:  # pylint: disable=broad-except
                continue
            yield os.path.basename(path), script


def body_of(form, value):
    if form == PIXELS:
        return value
    if not isinstance(form, Rows):
        return value.to_bytes(form, "big")
    return len(value).to_bytes(4, "big") + b"".join(number.to_bytes(size, "big") for row in value for number, size in zip(row, form.columns))


def bytes_of(records):
    """The stream of records."""
    bodies = [(one.tag, b"".join(body_of(form, one.fields[name]) for name, form in FORMS[one.tag])) for one in records]
    return b"".join(tag.encode() + len(body).to_bytes(4, "big") + body for tag, body in bodies)


def as_live(records):
    """The records of a play as those of a live run: the replies stand behind the last vsync, by actor and step."""
    replies = sorted((one for one in records if one.tag == "REPL"), key=lambda one: (one.fields["actor"], one.fields["step"]))
    others = [one for one in records if one.tag != "REPL"]
    end = next(at for at, one in enumerate(others) if one.tag == "ARRV")
    return others[:end] + replies + others[end:]


def answers_of(script, records=None):
    return Answers(Asked(records or played(script), script))


def text_of(answer):
    json.dumps(answer)
    return "\n".join(told(answer))


class PlayTold(Play):
    """A play that notes at how many vsyncs each step was done, and what each vsync left waiting."""

    def __init__(self, script):
        super().__init__(read_scene(script))
        self.done, self.left = {}, {}

    def turn(self, actor):
        for tag, fields in super().turn(actor):
            self.done[fields["actor"], fields["step"]] = self.vsyncs
            yield tag, fields

    def vsync(self):
        yield from super().vsync()
        self.left[self.vsyncs] = {number: HOLDS[hold] for number, hold, *_ in self.held}


def numbered_back(records):
    """A stream whose last vsync has the number of the one before."""
    *_, last = [one for one in records if one.tag == "VSYN"]
    last.fields["number"] -= 1
    return records


class Turns(unittest.TestCase):
    def test_steps_and_holds_are_those_of_the_play(self):
        """What is found from records alone is what the player itself did, at each vsync."""
        names = [name for name, _ in small_scripts()]
        self.assertGreater(len(names), 100)
        for name, script in small_scripts():
            play = PlayTold(script)
            records = [record(*one) for one in play.records()]
            waiting = Asked(records, script).waiting
            self.assertEqual(waiting.turns.done, play.done, name)
            found = {vsync: {} for vsync in play.left}
            for number in waiting.reader.arrivals:
                for wait in waiting.waits_of(number):
                    for vsync in range(wait.first, wait.last + 1):
                        found[vsync][number] = wait.need.kind
            last = max(found)
            self.assertEqual({vsync: held for vsync, held in found.items() if vsync < last}, {vsync: held for vsync, held in play.left.items() if vsync < last}, name)

    def test_records_in_another_order_are_no_turns(self):
        script = scene("glass.sf")
        self.assertIsNone(turns_of(read_scene(script), numbered_back(played(script))))


# A script, what is asked, and what the answer has.
ASKED = (
    ("held.sf", lambda answers: answers.arrival(1), (
        "arrival 1 of token 1: actor 1 step 10 (line 22: apply 1 token 1), before vsync 1",
        "vsync 1 leaves it waiting: the fence of queue 1 frame 1 (line 17: queue s 1 fence 1 5) needs timeline 1 at 5, and it is at 0",
        "ended by actor 3 step 1 (line 37: signal 1 5), done between vsyncs 1 and 2", "vsync 2 commits it", "behind it under its token: arrival 2",
        "it changes layer 1 (lines 20 to 21)")),
    ("held.sf", lambda answers: answers.arrival(2), ("it is behind arrival 1 (line 22: apply 1 token 1) of its token 1", "it waits as long as arrival 1 does")),
    ("held.sf", lambda answers: answers.arrival(3), ("no vsync leaves it waiting", "vsync 1 commits it")),
    ("late.sf", lambda answers: answers.arrival(1), ("queue 1 frame 1 (line 17: queue s 1) is not drawn", "ended by actor 1 step 11 (line 24: draw s 1)")),
    ("late.sf", lambda answers: answers.arrival(2), ("layer 1 has not shown frame 1, it has shown none so far", "arrival 1 (line 23: apply 1 token 1) brings it")),
    ("refusals.sf", lambda answers: answers.arrival(3), (
        "vsync 1 rejects it at operation 2 (line 68: set 1 1 colour ffffffff): a layer of this kind does not take it",)),
    ("phone.sf", lambda answers: answers.layer(6, over=4), (
        "layer 6 on the own display after vsync 2: shown", "in front of layer 4: layer 6 and layer 4 both have z 0 at the root, and layer 6 was created later",
        "kind      buffer (line 538: set 1 6 create buffer 0)", "frame     queue 4 frame 1, picture 5 (line 539: buffer 1 6 dialog)")),
    ("windows.sf", lambda answers: answers.layer(3), (
        "layer 3 on the own display after vsync 4: not shown: it has no parent (line 57: set 1 2 destroy)",)),
    ("windows.sf", lambda answers: answers.layer(4, 3), (
        "position  0 10, comes to 44 58: 44 48 of layer 2 + 0 10 of its own (line 41: set 1 4 position 0 10)",
        "alpha     255, comes to 128: 128 of layer 2 x 255 of its own", "area      no crop, comes to 56 x 38 at 44 58: clipped by layer 2")),
    ("windows.sf", lambda answers: answers.vsync(4, 3), (
        "committed: arrival 4 of token 1, actor 1 step 39 (line 58: apply 1 token 1)", "layer 2: container -> gone (line 57: set 1 2 destroy)",
        "layer 4: parent layer 2 -> the root (line 55: set 1 4 reparent 0)", "layer 4: position 0 10 -> 4 4 (line 56: set 1 4 position 4 4)",
        "layer 5: parent layer 2 -> none (line 57: set 1 2 destroy)", "so layer 5: shown -> not shown: it has no parent", "so layer 4: alpha 128 -> 255",
        "the own display: 5728 of 11520 pixels are others in 96 x 88 at 4 4")),
    ("windows.sf", lambda answers: answers.vsync(1), ("layer 2: none -> container (line 34: set 1 2 create container 0)", "layer 2: position 0 0 -> 8 8")),
    ("glass.sf", lambda answers: answers.pixel(3, 4), (
        "pixel 3 4 of the own display after vsync 2: 40007fff", "000000ff  the display is opaque black", "0000ffff  layer 1: 0000ffff: it covers what is behind it",
        "line 7: set 1 1 colour 0000ffff", "40007fff  layer 2: 40000080: it is added to 127 of 255 of what is behind it", "the frame has this colour")),
    ("phone.sf", lambda answers: answers.pixel(120, 240), (
        "layer 6: picture 5 has f4f4f8ff here: it covers what is behind it\n            line 539: buffer 1 6 dialog", "not here: layer 4: it covers 240 x 20 at 0 0",
        "line 537: set 1 5 colour 00000090\n            in front of the one before: layer 5 and layer 3 both have z 0 at the root, and layer 5 was created later")),
    ("windows.sf", lambda answers: answers.pixel(60, 50, 3), (
        "layer 3: 3060c0ff times alpha 128 of 255 is 18306080: it is added to 127 of 255", "not here: layer 8: it covers 120 x 12 at 0 84")),
    ("external.sf", lambda answers: answers.pixel(20, 30, None, ("FRAD", 2)), ("of display 2", "not here: layer 1: it is on stack 0, and display 2 shows stack 1")),
    ("stuck.sf", lambda answers: answers.step(1, 15), (
        "actor 1 step 15 (line 29: dequeuewait 1 as s): it waits to the end of the run", "slot 0 is acquired with frame 1, on layer 1",
        "slot 1 is acquired with frame 2, which actor 2 keeps as kept", "slot 2 is queued with frame 3 by actor 1 step 14", "nobody gives one back")),
    ("stuck.sf", lambda answers: answers.step(1, 16), ("it has no turn: step 15 of its actor waits to the end",)),
    ("refusals.sf", lambda answers: answers.step(1, 26), ("refused before vsync 1: Empty: number 1 holds no transaction: no `tx 1` before",)),
    ("refusals.sf", lambda answers: answers.step(1, 30), ("Occupied: number 1 holds a transaction already, which line 53 began",)),
    ("refusals.sf", lambda answers: answers.step(1, 32), ("Empty: b holds nothing: the last step with it is line 48, release b",)),
    ("refusals.sf", lambda answers: answers.step(1, 8), ("Occupied: a holds a lent buffer already, since line 22",)),
    ("camera.sf", lambda answers: answers.step(1, 11), ("done between vsyncs 1 and 2: slot 0, buffer 1, new 0",)),
    ("held.sf", lambda answers: answers.step(1, 5), (
        "done before vsync 1: slot 0, frame 1", "drawn by actor 1 step 4 (line 16: draw s 1)", "acquired by actor 1 step 6 (line 18: acquire 1 as i)",
        "shown on layer 1 by arrival 1: vsync 2 committed it")),
)
# What is asked that a run does not tell, and why.
NOT_TOLD = (
    ("glass.sf", lambda answers: answers.pixel(64, 0), "64 0 is outside of the own display, which has 64 x 48 pixels"),
    ("glass.sf", lambda answers: answers.layer(1, 0), "no vsync up to 0 committed or rejected anything: the first that did is vsync 1"),
    ("glass.sf", lambda answers: answers.layer(1, None, ("FRAD", 3)), "the scene has no display 3"),
    ("glass.sf", lambda answers: answers.layer(1, None, ("CAPT", 3)), "the scene has no capture 3"),
    ("glass.sf", lambda answers: answers.arrival(3), "the run has 2 arrivals, and none is arrival 3"),
    ("glass.sf", lambda answers: answers.step(2, 1), "the script has no actor 2"),
    ("glass.sf", lambda answers: answers.step(1, 9), "actor 1 has 8 steps, and none is step 9"),
    ("windows.sf", lambda answers: answers.layer(4, over=3), "layer 3 is not shown, so none is in front of the other: it has no parent"),
)
TIME = b"""scene 1 4 4 1000000
actor 1
tx 1
desire 1 3500000
apply 1 token 1
wait 1 2
actor 2
signal 1 2
order 1*3 v*5 1 v 2 v
end
"""
TIMED = TIME.replace(b"1000000\nactor", b"1000000\ntimeline 1\nactor", 1)
HELD_FOR_GOOD = scene("late.sf").replace(b"draw s 1\n", b"", 1)
# A producer waits for a buffer that a vsync gives back.
FULL = b"""scene 1 4 4 1000000
queue 1 4 4
picture 1 4 4
actor 1
connect 1
dequeuewait 1 as a
request a
draw a 1
queue a 1
dequeuewait 1 as a
request a
draw a 1
queue a 1
dequeuewait 1 as a
actor 2
acquire 1 as i
tx 1
set 1 1 create buffer 0
buffer 1 1 i
apply 1 token 1
acquire 1 as i
tx 1
buffer 1 1 i
apply 1 token 1
order 1*5 2*5 v 1*4 2*2 1 v 2*2 v 1
end
"""
PRESSURE = b"""scene 1 8 8 16666667
queue 1 8 8
picture 1 8 8
actor 1
connect 1
maxacquired 1 3
disconnect 1
maxacquired 1 3
connect 1
maxdequeued 1 3
dequeue 1 as a
request a
draw a 1
queue a 1
dequeue 1 as b
request b
draw b 1
queue b 1
acquire 1 as a
acquire 1 as b
tx 1
set 1 1 create buffer 0
set 1 1 backpressure 1
buffer 1 1 a
apply 1 token 1
tx 1
buffer 1 1 b
apply 1 token 2
order 1*40 v v
end
"""


class Why(Case):
    def test_each_question(self):
        for name, ask, texts in ASKED:
            text = text_of(ask(answers_of(scene(name))))
            for wanted in texts:
                self.assertIn(wanted, text, f"{name}: {text}")

    def test_what_is_not_told(self):
        for name, ask, text in NOT_TOLD:
            with self.assertRaises(NotTold, msg=name) as told_not:
                ask(answers_of(scene(name)))
            self.assertEqual(str(told_not.exception), text)

    def test_vsyncs_without_records_count(self):
        text = text_of(answers_of(TIMED).arrival(1))
        self.assertIn("vsyncs 1 to 3 leave it waiting: it is desired for 3500000 ns", text)
        self.assertIn("vsync 4 is the first that is expected at that time or later", text)
        self.assertIn("vsync 4 commits it", text)

        text = text_of(answers_of(TIMED.replace(b"order 1*3", b"order v 1*3", 1)).vsync(5, 0))
        self.assertIn("committed: arrival 1 of token 1", text)
        script = TIMED.replace(b"tx 1\n", b"tx 1\nset 1 1 create colour 0\napply 1 token 1\ntx 1\n", 1).replace(b"1*3", b"1*6", 1)
        text = text_of(answers_of(script).vsync(2))
        self.assertEqual(text, "vsync 2 commits and rejects nothing: all is as after vsync 1\n  left waiting: arrival 2: it is desired for 3500000 ns")

    def test_copies_in_mirrors(self):
        script = scene("external.sf")
        asked = answers_of(script)
        copied = next(drawn for moment in asked.course.moments for output in moment.outputs for drawn in output.drawn or () if drawn.mirror is not None)
        self.assertIn(f"copies    mirror {copied.mirror} shows a copy of it", text_of(asked.layer(copied.layer, None, ("FRAD", 2))))

    def test_a_step_that_waits_for_a_value(self):
        text = text_of(answers_of(TIMED).step(1, 4))
        self.assertIn("its first turn is between vsyncs 5 and 6, and it has to wait", text)
        self.assertIn("it needs timeline 1 at 2", text)
        self.assertIn("ended by actor 2 step 1 (line 9: signal 1 2), done between vsyncs 6 and 7", text)

    def test_the_first_of_several_turns_in_which_a_step_waits(self):
        answer = answers_of(TIMED.replace(b"v*5 1 v 2 v", b"v*5 1 v 1 v 2 v", 1)).step(1, 4)
        self.assertEqual((answer["waited_from"], answer["vsyncs"]), (5, 8))

    def test_a_layer_that_is_covered_from_a_vsync_on(self):
        steps = ["tx 1", "set 1 9 create colour 0", "apply 1 token 1", "tx 1", "set 1 8 create colour 0", "apply 1 token 1"]
        script = "\n".join(["scene 1 4 4 1000000", "actor 1", *steps, "order 1*3 v 1*3 v", "end", ""]).encode()
        self.assertIn("so layer 9: shown -> not shown: covered by layer 8", text_of(answers_of(script).vsync(2)))

    def test_a_wait_is_told_anew_where_what_it_waits_for_comes_nearer(self):
        script = scene("held.sf").replace(b"signal 1 5\norder 1*16 2*6 v 3 v", b"signal 1 3\nsignal 1 5\norder 1*16 2*6 v v 3 v 3 v", 1)
        waits = answers_of(script).arrival(1)["waits"]
        self.assertEqual([(wait["first"], wait["last"], wait["text"][-10:]) for wait in waits], [(1, 2, "it is at 0"), (3, 3, "it is at 3")])

    def test_a_step_that_waits_for_a_buffer(self):
        self.assertEqual(text_of(answers_of(FULL).step(1, 10)).split("\n"), [
            "actor 1 step 10 (line 14: dequeuewait 1 as a): done between vsyncs 3 and 4: slot 0, buffer 1, new 0",
            "  its first turn is between vsyncs 1 and 2, and it has to wait", "  queue 1 had no free slot", "    ended by vsync 3: release slot 0 frame 1"])

    def test_backpressure(self):
        text = text_of(answers_of(PRESSURE).arrival(2))
        self.assertIn("vsync 1 leaves it waiting: layer 1 got a frame in this vsync already, and has backpressure", text)
        self.assertIn("vsync 2 commits it", text)

    def test_what_never_ends(self):
        script = scene("late.sf").replace(b"draw s 1\n", b"", 1)
        self.assertIn("no step draws it", text_of(answers_of(script).arrival(1)))
        self.assertIn("no vsync takes it up to the end", text_of(answers_of(script).arrival(1)))
        script = scene("held.sf").replace(b"signal 1 5", b"signal 1 4", 1)
        text = text_of(answers_of(script).arrival(1))
        self.assertIn("needs timeline 1 at 5, and it is at 0", text)
        self.assertIn("vsyncs 2 to 3 leave it waiting: the fence of queue 1 frame 1 (line 17: queue s 1 fence 1 5) needs timeline 1 at 5, and it is at 4", text)
        self.assertIn("no step raises timeline 1 so far", text)

    def test_live_runs(self):
        script = scene("held.sf")
        text = text_of(answers_of(script, as_live(played(script))).arrival(1))
        for wanted in ("do not tell which vsyncs left it waiting; it needed", "timeline 1 at 5, for the fence of queue 1 frame 1", "(line 37: signal 1 5)",
                       "vsync 2 commits it"):
            self.assertIn(wanted, text)
        script = scene("late.sf")
        live = answers_of(script, as_live(played(script)))
        self.assertIn("queue 1 frame 1 (line 17: queue s 1) drawn", text_of(live.arrival(1)))
        self.assertIn("frame 1 of layer 1", text_of(live.arrival(2)))
        self.assertIn("done: slot 0, frame 1", text_of(live.step(1, 4)))

    def test_a_frame_that_is_not_what_its_layers_make(self):
        script = scene("glass.sf")
        records = played(script)
        frame = [one for one in records if one.tag == "FRAM"][1]
        frame.fields["pixels"] = b"\x01\x02\x03\xff" + frame.fields["pixels"][4:]
        self.assertIn("the frame has 010203ff, which is not what the layers make", text_of(answers_of(script, records).pixel(0, 0)))

    def test_a_slot_that_no_queue_has(self):
        """A reply that was changed does not end what follows it."""
        script = scene("held.sf")
        records = played(script)
        dequeued = [one for one in records if one.tag == "REPL"][1]
        dequeued.fields["values"] = [(4294967295,), (1,), (1,)]
        asked = Asked(records, script)
        self.assertIn("where the calls before make it", asked.course.runs[1].fault)

    def test_a_refusal_that_no_queue_makes(self):
        script = scene("held.sf")
        records = played(script)
        (history,) = [one for one in records if one.tag == "HIST"]
        caller, step, kind, *_ = history.fields["calls"][2]
        history.fields["calls"][2] = (caller, step, kind, 1, 4294967295, 0)
        requested = [one for one in records if one.tag == "REPL"][2]
        requested.fields.update(status=1, values=[])
        asked = Asked(records, script)
        self.assertIn("call 3, request, has Stale", asked.course.runs[1].fault)
        self.assertEqual(asked.refusal_text(1, 3, 1), "Stale: the frame that it names is not the slot's any more")

    def test_holds_and_frames_that_no_run_has(self):
        """What was changed in a stream is not told, and all else is."""
        script = HELD_FOR_GOOD
        records = played(script)
        (held,) = [one for one in records if one.tag == "HOLD"]
        held.fields["held"] = [(1, 0, 1, 1), (2, 1, 0, 0), (9, 4, 7, 7), (1, 4, 7, 7)]
        answers = answers_of(script, records)
        self.assertEqual(answers.waiting.held_text(1), "the records do not tell why")
        self.assertEqual(answers.waiting.held_text(9), "the records do not tell why")
        self.assertIn("no vsync takes it", text_of(answers.arrival(2)))
        answers.asked.course.reader.frames.clear()
        self.assertEqual(list(answers.waiting.needs_of(answers.course.reader.arrivals[1])), [])
        self.assertEqual(answers.waiting.drawing(1, 1), [])

    def test_a_run_without_vsyncs(self):
        script = scene("held.sf")
        answer = answers_of(script, [one for one in played(script) if one.tag not in ("VSYN", "COMM", "FRAM")]).vsync()
        self.assertEqual((answer["vsync"], answer["held"], answer["changes"]), (None, [], []))
        self.assertIn("no vsync committed or rejected anything", text_of(answer))

    def test_lines_in_runs(self):
        for lines, text in (([], ""), ([4], "4"), ([4, 5, 6, 9], "4 to 6, 9"), ([1, 3], "1, 3")):
            self.assertEqual(lines_text(lines), text)

    def ask(self, name, *words, data=None):
        script = self.file(scene(name), name)
        return run("why", "--script", script, *words, self.file(data or bytes_of(played(scene(name)))))

    def test_the_command(self):
        status, out, err = self.ask("glass.sf", "--pixel", "3,4")
        self.assertEqual((status, err), (0, ""))
        self.assertIn("40007fff", out)
        for words, start in ((["--layer", "2"], "layer 2 on the own display after vsync 2: shown"), (["--arrival", "1"], "arrival 1 of token 1"),
                             (["--step", "1.3"], "actor 1 step 3 (line 7: set 1 1 colour 0000ffff): done"), (["--vsync", "1"], "what is different after vsync 1"),
                             (["--vsync", "7"], "vsync 7 commits and rejects nothing: all is as after vsync 2"),
                             (["--vsync", "7", "--since", "1"], "what is different after vsync 2 (vsync 7 committed and rejected nothing), since vsync 1"),
                             (["--since", "0"], "what is different after vsync 2, since the beginning")):
            status, out, err = self.ask("glass.sf", *words)
            self.assertEqual((status, out[:len(start)], err), (0, start, ""), words)

    def test_the_answers_of_the_page_on_viewing(self):
        with open(os.path.join(TOP, "docs", "VIEWING.md"), encoding="utf-8") as file:
            blocks = [textwrap.dedent(block).strip("\n").split("\n") for block in re.split(r"\n\n", file.read()) if block.startswith("    tools/records.py why")]
        self.assertEqual(len(blocks), 3)
        for command, *lines in blocks:
            words = command.split()
            status, out, err = self.ask(os.path.basename(words[3]), *words[4:-1])
            self.assertEqual((status, out.splitlines(), err), (0, lines, ""), command)

    def test_its_json(self):
        for words, ask in ((["--pixel", "3,4"], "pixel"), (["--layer", "2"], "layer"), (["--arrival", "1"], "arrival"), (["--step", "1.3"], "step"), ([], "vsync")):
            status, out, err = self.ask("glass.sf", "--json", *words)
            self.assertEqual((status, json.loads(out)["ask"], err), (0, ask, ""), words)
        pixel = json.loads(self.ask("glass.sf", "--json", "--pixel", "3,4")[1])
        self.assertEqual((pixel["ends"], pixel["told"]), ("40007fff", "40007fff"))
        self.assertEqual([(step["layer"], step["origin"]["line"]) for step in pixel["steps"]], [(1, 7), (2, 11)])
        names = set(re.findall(r'"(\w+)":', self.ask("held.sf", "--json", "--arrival", "1")[1]))
        self.assertFalse([name for name in names if name != name.lower()])

    def test_wrong_words(self):
        for words, text in ((["--pixel", "3"], "argument --pixel: 3 is not of the form X,Y"), (["--step", "1,2"], "argument --step: 1,2 is not of the form A.K"),
                            (["--layer", "0"], "argument --layer: 0 is no number from 1 to 4294967295"), (["--over", "1"], "--over is asked with --layer"),
                            (["--layer", "1", "--arrival", "1"], "argument --arrival: not allowed with argument --layer"),
                            (["--layer", "1", "--since", "1"], "--since is asked with --vsync alone")):
            status, out, err = self.ask("glass.sf", *words)
            self.assertEqual((status, out), (2, ""), words)
            self.assertIn(text, err)

    def test_what_the_run_does_not_tell_has_a_status(self):
        self.assertEqual(self.ask("glass.sf", "--arrival", "9"), (1, "", "records.py: the run has 2 arrivals, and none is arrival 9\n"))
        status, out, err = self.ask("glass.sf", data=bytes_of(played(scene("held.sf"))))
        self.assertEqual((status, out), (1, ""))
        self.assertIn("records.py: the script is not the one of these records", err)

    def test_turns_behind_the_end_of_a_run_that_was_cut_off(self):
        script = scene("held.sf")
        records = played(script)
        cut = records[:next(at for at, one in enumerate(records) if one.tag == "REPL" and one.fields["actor"] == 3)]
        waiting = Asked(cut, script).waiting
        self.assertEqual((waiting.turns.vsyncs, waiting.turns.waited, waiting.waits_of(1)[0][:2]), (1, {}, (1, 1)))

    def test_a_run_that_was_cut_off(self):
        data = bytes_of(played(scene("glass.sf")))
        status, out, err = self.ask("glass.sf", "--layer", "1", data=data[:len(data) // 2 + 100])
        self.assertEqual(status, 1)
        self.assertIn("layer 1 on the own display after vsync 1: shown", out)
        self.assertIn("the stream ends inside it", err)


if __name__ == "__main__":
    unittest.main()
