"""Tests of records as text and as a timeline with the words of their script."""

import contextlib
import io
import json
import unittest
from collections import defaultdict

from surbeldoi.asking.flows import trace_of
from surbeldoi.asking.naming import sentences_of
from surbeldoi.asking.reasons import Asked
from surbeldoi.commands.run import Scene, leave
from surbeldoi.records.stream import read
from surbeldoi.records.timeline import ACTORS, COMPOSITOR, trace
from tests.test_checking import contents, played
from tests.test_course import scene
from tests.test_records import Case, run
from tests.test_scenes import SCENES
from tests.test_why import FULL, TIMED, as_live, bytes_of

# What the sentences of a scene have.
SENTENCES = (
    ("held.sf", "REPL reply of actor 1 step 6 (line 18: acquire 1 as i): Ok: slot 0, frame 1, picture 1, dropped 0, fence timeline 1 at 5"),
    ("held.sf", "COMM token 1, arrival 1 (line 22: apply 1 token 1): committed, layer 1 shows queue 1 frame 1 picture 1 crop 0 0 96 64 "
                "(line 21: buffer 1 1 i)"),
    ("held.sf", "    3 of token 2: actor 2 step 6 (line 35: apply 1 token 2)"),
    ("held.sf", "    actor 1 step 5 (line 17: queue s 1 fence 1 5): queue slot 0 frame 1: Ok"),
    ("ball.sf", "    vsync 2: release slot 0 frame 1: Ok"),
    ("refusals.sf", "REPL reply of actor 1 step 26 (line 50: set 1 1 create buffer 0): Empty: number 1 holds no transaction: no `tx 1` before"),
    ("refusals.sf", "COMM token 1, arrival 3 (line 69: apply 1 token 1): rejected, operation 2 (line 68: set 1 1 colour ffffffff): "
                    "a layer of this kind does not take it"),
    ("stuck.sf", "STUK stuck actor 1 step 15 (line 29: dequeuewait 1 as s): queue 1 has no free slot: slot 0 is acquired with frame 1, on layer 1; "
                 "slot 1 is acquired with frame 2, which actor 2 keeps as kept; slot 2 is queued with frame 3 by actor 1 step 14 (line 28: queue s 3)"),
    ("red.sf", "HOLD held none"),
)
HELD_FOR_GOOD = scene("late.sf").replace(b"draw s 1\n", b"", 1)


def sentences(script):
    records = played(script)
    return sentences_of(records, Asked(records, script))


def events_of(script):
    records = played(script)
    return trace_of(records, Asked(records, script))["traceEvents"]


class Sentences(Case):
    def test_each_kind(self):
        for name, wanted in SENTENCES:
            lines = "\n".join(sentences(scene(name))).split("\n")
            self.assertIn(wanted, lines, name)

    def test_what_is_held(self):
        text = "\n".join(sentences(HELD_FOR_GOOD))
        self.assertIn("HOLD held arrival 1 (line 23: apply 1 token 1): Undrawn: queue 1 frame 1 (line 17: queue s 1) is not drawn, arrival 2", text)

    def test_each_record_of_all_scenes_is_told(self):
        for name in SCENES:
            script = contents("scenes", name)
            for records in (played(script), as_live(played(script))):
                lines = list(sentences_of(records, Asked(records, script)))
                self.assertEqual([line[:4] for line in lines], [one.tag for one in records], name)

    def test_the_command(self):
        script, data = self.file(scene("held.sf"), "script"), self.file(bytes_of(played(scene("held.sf"))))
        status, out, err = run("dump", "--script", script, data)
        self.assertEqual((status, err), (0, ""))
        self.assertIn("(line 22: apply 1 token 1): Ok: arrival 1\n", out)
        status, out, err = run("dump", "--script", self.file(scene("glass.sf"), "other"), data)
        self.assertEqual((status, out), (1, ""))
        self.assertIn("the script is not the one of these records", err)

    def test_what_run_leaves_has_the_words_of_the_script(self):
        script = scene("held.sf")
        for told, wanted in ((script, "(line 22: apply 1 token 1)"), (scene("glass.sf"), "REPL reply of actor 1, step 10: Ok (1)")):
            with contextlib.redirect_stdout(io.StringIO()), contextlib.redirect_stderr(io.StringIO()):
                leave(read(bytes_of(played(script)))[0], Scene("held.sf", told), self.folder)
            with open(self.path("dump.txt"), encoding="utf-8") as file:
                self.assertIn(wanted, file.read())
            with open(self.path("trace.json"), encoding="utf-8") as file:
                self.assertEqual("apply 1 token 1" in file.read(), told == script)

    def test_a_script_that_is_no_scene(self):
        fault = self.file(b"SFLT\0\0\0\x0c\0\0\0\x01\0\0\0\x01\0\0\0\x02", "fault")
        self.assertEqual(run("dump", "--script", self.file(b"odd\n", "script"), fault)[:2], (0, "SFLT script fault at line 1, word 1: unknown word\n"))


def of_kind(events, *kinds):
    return [event for event in events if event["ph"] in kinds]


def chains(events):
    """The points of the arrows, each as the names of the slices that they lie in."""
    slices = defaultdict(list)
    for event in of_kind(events, "X"):
        slices[event["pid"], event["tid"]].append(event)
    found = defaultdict(list)
    for point in of_kind(events, "s", "t", "f"):
        within = [one for one in slices[point["pid"], point["tid"]] if one["ts"] <= point["ts"] <= one["ts"] + one["dur"]]
        found[point["id"]].append((point, min(within, key=lambda one: one["dur"])["name"] if within else None))
    return found


class Arrows(Case):
    def test_from_queue_to_frame(self):
        events = events_of(scene("held.sf"))
        found = {points[0][0]["name"]: [name for _, name in points] for points in chains(events).values()}
        self.assertEqual(found, {
            "queue 1 frame 1": ["queue s 1 fence 1 5", "acquire 1 as i", "apply 1 token 1", "arrival 1 committed", "frame 2"],
            "arrival 1 waits for it": ["signal 1 5", "arrival 1 committed"]})

    def test_what_a_step_waits_for(self):
        events = events_of(TIMED)
        found = {points[0][0]["name"]: [name for _, name in points] for points in chains(events).values()}
        self.assertEqual(found, {"actor 1 waits for it": ["signal 1 2", "wait 1 2"]})
        (waits,) = [event for event in of_kind(events, "X") if event["name"] == "waits: wait 1 2"]
        self.assertEqual((waits["pid"], waits["tid"], waits["args"]["why"]), (ACTORS, 1, "it needs timeline 1 at 2"))

    def test_a_buffer_that_comes_back(self):
        found = {points[0][0]["name"]: [name for _, name in points] for points in chains(events_of(FULL)).values()}
        self.assertEqual(found["actor 1 waits for it"], ["vsync 3", "dequeuewait 1 as a"])

    def test_vsyncs_that_only_hold_something(self):
        events = events_of(TIMED)
        vsyncs = [event for event in of_kind(events, "X") if event["cat"] == "vsync"]
        self.assertEqual([(event["name"], event["ts"]) for event in vsyncs],
                         [("vsync 1: nothing new", 1000), ("vsync 2: nothing new", 2000), ("vsync 3: nothing new", 3000), ("vsync 4", 4000)])
        self.assertEqual(vsyncs[0]["args"]["waiting"], ["arrival 1: it is desired for 3500000 ns"])
        (waits,) = [event for event in of_kind(events, "X") if event["cat"] == "held"]
        self.assertEqual((waits["name"], waits["ts"], waits["dur"], waits["pid"]), ("arrival 1 waits (Time)", 1000, 3000, COMPOSITOR))

    def test_times_and_slices_of_all_scenes(self):
        """Events stand in the order of their times, slices of a track lie in one another or apart, and each point of an arrow is in a slice, none
        before the one that it comes from."""
        for name in SCENES:
            script = contents("scenes", name)
            for records in (played(script), as_live(played(script))):
                self.check(trace_of(records, Asked(records, script))["traceEvents"], name)

    def check(self, events, name):
        times = [event["ts"] for event in events if "ts" in event]
        self.assertEqual(times, sorted(times), name)
        tracks = defaultdict(list)
        for event in of_kind(events, "X"):
            self.assertGreaterEqual(event["dur"], 0, name)
            tracks[event["pid"], event["tid"]].append((event["ts"], -event["dur"]))
        for track, slices in tracks.items():
            ends = []
            for start, length in sorted(slices):
                while ends and ends[-1] <= start + 1e-6:
                    ends.pop()
                self.assertTrue(not ends or start - length <= ends[-1] + 1e-6, f"{name}: {track} at {start}")
                ends.append(start - length)
        for points in chains(events).values():
            self.assertNotIn(None, [slice_name for _, slice_name in points], name)
            self.assertEqual([point["ph"] for point, _ in points], ["s"] + ["t"] * (len(points) - 2) + ["f"], name)

    def test_the_order_of_events_without_a_script(self):
        times = [event["ts"] for event in trace(played(scene("camera.sf")))["traceEvents"] if "ts" in event]
        self.assertEqual(times, sorted(times))

    def test_the_command(self):
        status, out, err = run("trace", "--script", self.file(scene("held.sf"), "script"), self.file(bytes_of(played(scene("held.sf")))))
        self.assertEqual((status, err), (0, ""))
        self.assertIn("queue s 1 fence 1 5", [event["name"] for event in json.loads(out)["traceEvents"]])


if __name__ == "__main__":
    unittest.main()
