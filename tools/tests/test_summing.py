"""Tests of `records.py summary`: what a run comes to."""

import unittest

from surbeldoi.records.stream import read
from surbeldoi.records.summing import summed
from tests.test_checking import played
from tests.test_records import LONG, NO_SLOT, OUTPUTS, RED, Case, record, run

ALL_HELD = b"".join([
    record("ARRV", 6, 1, 4, 1, 1, 5, 1, 1, 6, 2, 1, 7, 3, 2, 1, 4, 2, 2, 5),
    record("HOLD", 6, 1, 4, (1,), (2,), 2, 1, (0,), (0,), 3, 2, (9000000,), (0,), 4, 3, (5,), (7,), 5, 5, (8,), (3,), 6, 6, (8,), (0,)),
])

# Three actors that wait in each of the ways that there are.
WAITING_SCRIPT = b"""# skipped
scene 1 4 4 16666667
timeline 1
queue 1 4 4
queue 2 4 4
picture 1 4 4
actor 1
connect 1
dequeue 1 as s

cancel s fence 1 9
# skipped as well
\tdequeue 1   as s
draw s 1
request s
actor 2
signal 1 2
wait 1 5
actor 3
connect 2
dequeue 2 as a
dequeue 2 as b
dequeuewait 2 as t
connect 1
tx 1
end
"""


def lines(data, script=None):
    return list(summed(read(data)[0], script))


class Summed(unittest.TestCase):
    def test_a_red_layer(self):
        self.assertEqual(lines(RED), [
            "display 2 x 1, a vsync each 16666667 ns",
            "1 frame at 1 vsync with commits, the last of them vsync 1",
            "1 step answered, 0 of them refused",
            "1 commit, 0 of them rejected",
        ])

    def test_a_long_run(self):
        self.assertEqual(lines(LONG), [
            "display 2 x 1, a vsync each 1000000 ns",
            "2 frames at 2 vsyncs with commits, the last of them vsync 3",
            "4 steps answered, 1 of them refused (1 WouldBlock)",
            "  refused: actor 2 step 1: WouldBlock: no slot is free",
            "3 commits, 1 of them rejected (1 wrong kind)",
            "  rejected: arrival 2 of token 2, actor 2 step 1: at operation 3, a layer of this kind does not take it",
            "held: arrival 4: it is desired for 5000 ns",
            "stuck: actor 2 step 2 waits",
            "queue 3: 5 calls, 1 of them refused; 1 frame queued, 0 acquired, 1 released, 1 never acquired",
            "  done: 1 connect, 1 dequeue, 1 queue, 1 release",
            "  refused: 1 dequeue WouldBlock",
        ])

    def test_what_version_2_shows(self):
        self.assertEqual(lines(OUTPUTS)[1:6], [
            "2 frames at 2 vsyncs with commits, the last of them vsync 2",
            "display 2: 2 frames",
            "display 5: 2 frames",
            "capture 1: 1 frame",
            "hit 3: layer 9 from vsync 1, no layer from vsync 2",
        ])

    def test_of_many_changes_of_a_hit_some_are_told(self):
        told = lines(b"".join(record("HITS", 1, number, number // 2) for number in range(1, 30)))
        self.assertTrue(told[0].startswith("hit 1: no layer from vsync 1, layer 1 from vsync 2, layer 2 from vsync 4, "))
        self.assertTrue(told[0].endswith("layer 9 from vsync 18, and 5 changes more"), told)

    def test_each_reason_to_wait(self):
        self.assertEqual([line.split(": ")[2] for line in lines(ALL_HELD)], [
            "queue 1 frame 2 is not drawn", "it is behind arrival 1 of its token", "it is desired for 9000000 ns",
            "timeline 5 has not reached 7", "layer 8 has not shown frame 3, nor any other", "layer 8 got a frame in this vsync already",
        ])
        self.assertTrue(lines(ALL_HELD)[1].startswith("held: arrival 2 of token 1, actor 1 step 5: "))

    def test_the_frame_that_is_not_drawn_has_somebody_who_queued_it(self):
        history = record("HIST", 1, 1, 3, 12, 7, 0, 4, (2,))
        self.assertIn("held: arrival 1 of token 1, actor 1 step 4: queue 1 frame 2 is not drawn; actor 3 step 12 queued it",
                      lines(ALL_HELD + history))

    def test_a_barrier_names_the_greatest_frame_that_was_shown(self):
        shown = record("COMM", 9, 9, 0, 0, 2, 8, 1, (2,), 1, 0, 0, 1, 1, 8, 1, (1,), 1, 0, 0, 1, 1)
        rejected = record("COMM", 9, 10, 1, 1, 1, 8, 1, (7,), 1, 0, 0, 1, 1)
        told = lines(shown + rejected + ALL_HELD)
        self.assertIn("held: arrival 5 of token 4, actor 2 step 1: layer 8 has not shown frame 3, but frame 2", told)

    def test_a_reason_that_has_no_name(self):
        self.assertEqual(lines(record("HOLD", 1, 1, 9, (3,), (4,))), ["held: arrival 1: reason 9, values 3 and 4"])

    def test_of_many_rejects_some_are_told(self):
        told = lines(b"".join(record("COMM", 1, number, 2, 1, 0) for number in range(1, 14)))
        self.assertEqual(told[0], "13 commits, 13 of them rejected (13 layer exists)")
        self.assertEqual(told[1], "  rejected: arrival 1: at operation 1, a layer with this number is there already")
        self.assertEqual((len(told), told[-1]), (12, "  and 3 more"))

    def test_numbers_without_a_name(self):
        told = lines(record("REPL", 1, 1, 99, 0) + record("COMM", 1, 1, 98, 1, 0))
        self.assertIn("  refused: actor 1 step 1: number 99", told)
        self.assertIn("  rejected: arrival 1: at operation 1, cause 98", told)

    def test_a_script_that_is_none(self):
        self.assertEqual(lines(record("SFLT", 3, 1, 2)), ["no scene: fault at line 3, word 1"])
        self.assertEqual(lines(record("SFLT", 0, 0, 9)), ["no scene"])

    def test_a_run_that_is_sums_alone(self):
        self.assertEqual(lines(record("SUMM", *((number,) for number in range(8)))), [
            "summary replies 0, vsyncs 1, commits 2, rejected 3, frames 4, pixel sum 5, held 6, stuck 7"])

    def test_a_queue_without_calls(self):
        self.assertEqual(lines(record("HIST", 2, 0)), ["queue 2: 0 calls, 0 of them refused; 0 frames queued, 0 acquired, 0 released"])
        self.assertEqual(lines(record("HIST", 2, 1, 1, 1, 1, 0, NO_SLOT, (0,))), [
            "queue 2: 1 call, 0 of them refused; 0 frames queued, 0 acquired, 0 released", "  done: 1 connect"])

    def test_no_line_of_a_queue_is_long(self):
        calls = [(1, step, 1 + step % 16, step % 5 * 3 and 10 + step % 5, NO_SLOT, (0,)) for step in range(1, 200)]
        told = lines(record("HIST", 2, len(calls), *(number for call in calls for number in call)))
        self.assertLess(max(map(len, told)), 120)
        self.assertGreater(len(told), 5)

    def test_that_no_frame_was_shown_is_told(self):
        told = lines(record("SCEN", 1, 2, 1, (1000000,)) + record("REPL", 1, 1, 15, 0) + record("DONE"))
        self.assertEqual(told[:2], ["display 2 x 1, a vsync each 1000000 ns", "no frame was shown"])
        self.assertNotIn("no frame was shown", lines(RED))


class WithItsScript(unittest.TestCase):
    """With the script, each step is named by its line and its words, and who waits or was refused has a reason."""

    def of(self, script, word):
        """The lines that begin with a word, of what a play of a script comes to."""
        return [line for line in summed(played(script), script) if line.strip().startswith(word)]

    def test_why_each_actor_is_stuck(self):
        self.assertEqual(self.of(WAITING_SCRIPT, "stuck"), [
            "stuck: actor 1 step 5 (line 14: draw s 1) waits: its buffer's fence is not signalled:"
            " timeline 1 has not reached 9, it is at 2; 1 step behind it",
            "stuck: actor 2 step 2 (line 18: wait 1 5) waits: timeline 1 has not reached 5, it is at 2",
            "stuck: actor 3 step 4 (line 23: dequeuewait 2 as t) waits: queue 2 has no free slot: 2 dequeued; 2 steps behind it",
        ])

    def test_a_draw_without_an_open_fence_waits_for_who_had_the_buffer(self):
        script = (b"scene 1 4 4 1000000\nqueue 1 4 4\npicture 1 4 4\nactor 1\nconnect 1\nasync 1 1\ndequeue 1 as a\nrequest a\nqueue a 1\ndequeue 1 as b\nrequest b\n"
                  b"draw b 1\nqueue b 1\ndequeue 1 as c\ndraw c 1\nend\n")
        self.assertEqual(self.of(script, "stuck"), ["stuck: actor 1 step 11 (line 15: draw c 1) waits: queue 1 frame 1 had its buffer before, and is not drawn"])

    def test_where_the_slots_are_is_told(self):
        head = b"scene 1 4 4 1000000\nqueue 1 4 4\npicture 1 4 4\nactor 1\nconnect 1\n"
        frame = b"dequeue 1 as a\nrequest a\ndraw a 1\nqueue a 1\n"
        for steps, told in (
            (frame + b"acquire 1 as i\n" + frame, "1 acquired, 1 queued"),
            (b"maxdequeued 1 3\n" + frame + frame + b"dequeue 1 as b\ndequeue 1 as c\n", "2 dequeued, 2 queued"),
            (b"async 1 1\n" + frame + b"acquire 1 as i\n" + frame + b"acquire 1 as j\n" + frame, "2 acquired, 1 queued"),
        ):
            script = head + steps + b"dequeuewait 1 as t\nend\n"
            self.assertTrue(self.of(script, "stuck")[0].endswith(f"queue 1 has no free slot: {told}"), self.of(script, "stuck"))

    def test_another_script_is_told_and_not_used(self):
        self.assertEqual(lines(record("STUK", 1, 9, 4), WAITING_SCRIPT), [
            "the script is not the one of these records (it has no step 4 of actor 9): what follows is told without it", "stuck: actor 9 step 4 waits"])
        for script, why in (
            (b"", "the script ends without the line end"),
            (WAITING_SCRIPT.replace(b"4 4 16666667", b"4 4 16666666"), "SCEN says [1, 4, 4, 16666667], and the script [1, 4, 4, 16666666]"),
            (WAITING_SCRIPT.replace(b"signal 1 2", b"apply 1 token 1"),
             "actor 2 step 1 (line 17: apply 1 token 1): it was told Ok [], where what the actor holds makes it Empty []"),
        ):
            with self.subTest(why=why):
                self.assertEqual([line for line in summed(played(WAITING_SCRIPT), script) if "script" in line or "stuck" in line], [
                    f"the script is not the one of these records ({why}): what follows is told without it",
                    "stuck: actor 1 step 5 waits", "stuck: actor 2 step 2 waits", "stuck: actor 3 step 4 waits"])

    def test_rejects_are_named_by_their_line_and_that_of_their_operation(self):
        script = b"scene 1 4 4 1000000\nactor 1\ntx 1\nset 1 1 create colour 0\nset 1 7 z 1\napply 1 token 1\nend\n"
        self.assertEqual(self.of(script, "rejected"), [
            "  rejected: arrival 1 of token 1, actor 1 step 4 (line 6: apply 1 token 1): at operation 2 (line 5: set 1 7 z 1),"
            " the layer, or the parent or relative that it names, is not there"])

    def test_what_is_held_is_named_by_its_line(self):
        script = b"scene 1 4 4 1000000\nactor 1\ntx 1\nbarrier 1 7 3\napply 1 token 1\nend\n"
        self.assertEqual(self.of(script, "held"), ["held: arrival 1 of token 1, actor 1 step 3 (line 5: apply 1 token 1): layer 7 has not shown frame 3, nor any other"])


# The refusals of steps: the steps of an actor behind `connect 1`, of which the last is refused, and why.
HEAD = "scene 1 4 4 1000000\ntimeline 1\nqueue 1 4 4\nqueue 2 4 4\npicture 1 4 4\npicture 2 8 8\npicture 3 4 4\nactor 1\nconnect 1\n"
LENT, FRAME = "dequeue 1 as s; request s; draw s 1", "dequeue 1 as s; request s; draw s 1; queue s 1; acquire 1 as s"
REFUSALS = (
    # What the actor holds.
    ("set 1 7 create buffer 0", "Empty: number 1 holds no transaction: no `tx 1` before"),
    ("tx 1; apply 1 token 1; set 1 7 z 1", "Empty: number 1 holds no transaction: line 11 applied it, and no `tx 1` stands between"),
    ("tx 1; merge 1 2", "Empty: number 2 holds no transaction: no `tx 2` before"),
    ("tx 1; tx 1", "Occupied: number 1 holds a transaction already, which line 10 began"),
    ("tx 1; merge 1 1", "BadValue: a transaction is not merged into itself"),
    ("dequeue 1 as s size 1 0; request s", "Empty: s holds nothing: no step before gave it anything"),
    (f"{LENT}; queue s 1; request s", "Empty: s holds nothing: the last step with it is line 13, queue s 1"),
    (f"{FRAME}; request s", "Empty: s holds a frame, and the step needs a lent buffer"),
    ("dequeue 1 as s; request s; queue s 1; release s", "Empty: s holds a frame whose draw is owed, and the step needs a frame"),
    ("dequeue 1 as s; dequeue 1 as s", "Occupied: s holds a lent buffer already, since line 10"),
    ("dequeue 1 as s; draw s 2", "BadValue: picture 2 is 8 x 8, and the buffer 4 x 4"),
    (f"{LENT}; queue s 3", "BadValue: picture 1 was drawn in it, and not 3"),
    ("dequeue 1 as s; request s; queue s 1; draw s 3", "BadValue: the frame was queued with picture 1, and not 3"),
    # What the queue is.
    ("connect 1", "BadValue: actor 1 is connected to queue 1 already"),
    ("dequeue 2 as t", "NoInit: actor 1 is not connected to queue 2"),
    ("abandon 2; connect 2", "NoInit: queue 2 is abandoned"),
    ("dequeue 1 as s size 0 9", "BadValue: a size of 0 x 9 is none: 1 to 512 each, or 0 0"),
    ("dequeue 1 as s; queue s 1", "BadValue: the buffer was not requested: a new buffer needs a `request` before it is queued"),
    ("dequeue 1 as s; request s; queue s 2", "BadValue: picture 2 is 8 x 8, and the buffer 4 x 4"),
    (f"{LENT}; queue s 1 crop 1 0 4 4", "BadValue: the crop 1 0 4 4 is not inside the buffer of 4 x 4"),
    (f"{LENT}; maxdequeued 1 64", "BadValue: 64 is not from 1 to 63"),
    ("dequeue 1 as s; dequeue 1 as t; maxdequeued 1 1", "BadValue: queue 1 has lent 2 buffers"),
    ("maxacquired 1 3", "InvalidOperation: actor 1 is connected to queue 1, and the limit is set before"),
    (f"{LENT}; queue s 1; dequeue 1 as s; dequeue 1 as t", "InvalidOperation: queue 1 has lent 1 of at most 1, and a frame was queued"),
    ("dequeue 1 as s; dequeue 1 as t; dequeue 1 as u", "WouldBlock: queue 1 has no free slot: 2 lent"),
    ("acquire 1 as i", "NoBuffer: no frame waits in queue 1"),
    (f"{LENT}; queue s 1 time 9; acquire 1 as i at 5", "PresentLater: frame 1 of queue 1 is for 9 ns, later than 5"),
    ("dequeue 1 as s; disconnect 1; connect 1; request s", "Empty: s holds nothing: the last step with it is line 10, dequeue 1 as s"),
    (f"{LENT}; pdetach s as l; dequeue 1 as s; dequeue 1 as t; pattach 1 l as u", "WouldBlock: queue 1 has no free slot: 2 lent"),
)


class Refused(unittest.TestCase):
    """Each refused step is told with its line and why."""

    def told(self, *steps):
        script = (HEAD + "\n".join(steps) + f"\norder 1*{len(steps) + 1}\nend\n").encode()
        return [line for line in summed(played(script), script) if line.startswith(("  refused: actor", "  and"))]

    def test_why(self):
        for text, why in REFUSALS:
            with self.subTest(steps=text):
                steps = text.split("; ")
                told = self.told(*steps)
                self.assertEqual(told[-1:], [f"  refused: actor 1 step {len(steps) + 1} (line {len(steps) + 9}: {steps[-1]}): {why}"])

    def test_of_many_some_are_told(self):
        told = self.told(*["tx 1"] * 16)
        self.assertEqual((len(told), told[-1]), (11, "  and 5 more"))


class Command(Case):
    def test_the_command(self):
        status, out, err = run("summary", self.file(LONG))
        self.assertEqual((status, err), (0, ""))
        self.assertTrue(out.startswith("display 2 x 1"))

    def test_with_a_script(self):
        with open(self.path("a.sf"), "wb") as file:
            file.write(WAITING_SCRIPT)
        status, out, err = run("summary", "--script", self.path("a.sf"), self.file(record("SCEN", 1, 4, 4, (16666667,)) + record("STUK", 1, 2, 1) + record("DONE")))
        self.assertEqual((status, err), (0, ""))
        self.assertIn("stuck: actor 2 step 1 (line 17: signal 1 2) waits; 1 step behind it", out)

    def test_wrong_words_and_files(self):
        self.assertEqual(run("summary", "--script")[0], 2)
        self.assertEqual(run("summary", self.file(LONG), "more")[0], 2)
        self.assertEqual(run("dump", "--script", "a.sf", self.file(LONG))[0], 2)
        self.assertEqual(run("summary", "--script", self.path("none.sf"), self.file(LONG))[0], 2)


if __name__ == "__main__":
    unittest.main()
