"""Tests of live runs of sf_main beside plays of the same scripts; they need the program that `rt run` or `rt ci` built."""

import os
import subprocess
import unittest

from surbeldoi.commands import run
from surbeldoi.records import stream

PROGRAM = run.built(run.TOP)
SCRIPTS = os.path.join(run.TOP, "crates", "test_program", "data")
QUEUE, ACQUIRE, RELEASE = 7, 13, 14
MOST_ACQUIRED = 2
# How many steps behind an acquire these scripts apply the transaction that shows the frame.
ACQUIRE_TO_APPLY = 3


class Told:
    """What the records of a run tell. A step is a pair of its actor and its number."""

    def __init__(self, data):
        records, of_stream = stream.read(data)
        self.faults = stream.faults(records, of_stream)
        self.replies, self.commits, self.histories, self.frames = [], [], [], []
        self.arrivals, self.held, self.stuck = [], [], []
        shown = {}
        for record in records:
            fields = record.fields
            if record.tag == "REPL":
                self.replies.append(((fields["actor"], fields["step"]), fields["status"], tuple(value for value, in fields["values"])))
            elif record.tag == "COMM":
                self.commits.append(fields)
                shown = shown_with(shown, fields)
            elif record.tag == "FRAM":
                self.frames.append((shown, fields["pixels"]))
            elif record.tag == "HIST":
                self.histories.append(fields["calls"])
            elif record.tag in ("ARRV", "HOLD", "STUK"):
                name = {"ARRV": "arrivals", "HOLD": "held", "STUK": "stuck"}[record.tag]
                setattr(self, name, fields[name])
        self.by_step = {step: (status, values) for step, status, values in self.replies}


def shown_with(shown, commit):
    """What is on the display behind a commit: under each token whether something came, and the last picture of it."""
    pictures = [row[3] for row in commit["buffers"]]
    return {**shown, commit["token"]: pictures[-1] if pictures else shown.get(commit["token"])}


def replies_owed(live, play, is_queue=False):
    """The replies of the play by their steps, but to each step that sent a transaction off its place among the arrivals of the run, from 1,
    or 0 where transactions arrive through a queue."""
    places = {(actor, step): (0, (0 if is_queue else place,)) for place, (actor, step, _) in enumerate(live.arrivals, 1)}
    return {**play.by_step, **places}


def untold_calls(told):
    """The calls on queues that are not answered as the steps that made them are; the compositor's are not refused."""
    for calls in told.histories:
        for caller, step, _, status, _, _ in calls:
            if status != (told.by_step[caller, step][0] if caller else 0):
                yield caller, step, status


def in_order(calls):
    """Whether each caller makes its calls in the order of its steps, and the frames of a queue are numbered as they are queued and go through
    acquires and releases in this order, never with more than two acquired. No call is refused."""
    steps, last, held = {}, {QUEUE: 0, ACQUIRE: 0, RELEASE: 0}, 0
    for caller, step, kind, status, _, frame in calls:
        if status or step < steps.get(caller, 0):
            return False
        steps[caller] = step
        if kind not in last:
            continue
        after = {QUEUE: frame == last[QUEUE] + 1, ACQUIRE: frame <= last[QUEUE], RELEASE: frame <= last[ACQUIRE]}[kind]
        held += {QUEUE: 0, ACQUIRE: 1, RELEASE: -1}[kind]
        if not after or frame <= last[kind] or not 0 <= held <= MOST_ACQUIRED:
            return False
        last[kind] = frame
    return True


def token_order(told):
    """Whether the commits of each token are of its arrivals, and come in the order of these."""
    last = {}
    for commit in told.commits:
        token, arrival = commit["token"], commit["arrival"]
        if not 0 < arrival <= len(told.arrivals) or told.arrivals[arrival - 1][2] != token or arrival <= last.get(token, 0):
            return False
        last[token] = arrival
    return True


def acquired_for(told, commit):
    """The frame and the picture that the actor of a commit acquired for it, if it did."""
    actor, step, _ = told.arrivals[commit["arrival"] - 1]
    values = told.by_step.get((actor, step - ACQUIRE_TO_APPLY), (0, ()))[1]
    return [values[1:3]] if len(values) > 2 and values[2] else []


def unlike_frames(live, play):
    """How many frames have other pixels than the play's frame with the same pictures on the display."""
    return sum(1 for shown, pixels in live.frames for other, wanted in play.frames if shown == other and pixels != wanted)


def told_by(name, *words):
    with open(os.path.join(SCRIPTS, f"{name}.sf"), "rb") as script:
        ended = subprocess.run([PROGRAM, *words], stdin=script, stdout=subprocess.PIPE, stderr=subprocess.PIPE, timeout=60)
    return ended.returncode, ended.stderr, Told(ended.stdout)


@unittest.skipUnless(PROGRAM, "sf_main is not built")
class Live(unittest.TestCase):
    def run_beside_play(self, name, is_queue=False):
        """A live run and the play of a script, after all was judged that holds of both of them whatever the schedule is."""
        status, err, play = told_by(name)
        self.assertEqual((status, err, play.faults), (0, b"", []))
        status, err, live = told_by(name, "--run", "live", *(("--intake", "queue") if is_queue else ()))
        self.assertEqual((status, err, live.faults), (0, b"", []))
        self.assertEqual([step for step, _, _ in live.replies], sorted(play.by_step), "replies by actor and step")
        self.assertEqual(sorted(live.arrivals), sorted(play.arrivals))
        self.assertEqual(live.by_step, replies_owed(live, play, is_queue))
        self.assertEqual((live.held, live.stuck), (play.held, play.stuck))
        self.assertEqual(list(untold_calls(live)), [])
        return live, play

    def judge_frames(self, name, replies, arrivals, is_queue=False):
        """A run in which each transaction is committed, and each buffer was acquired for it."""
        live, play = self.run_beside_play(name, is_queue)
        self.assertEqual((len(live.replies), len(live.arrivals), live.held, live.stuck), (replies, arrivals, [], []))
        self.assertEqual(sorted(commit["arrival"] for commit in live.commits), list(range(1, arrivals + 1)), "each is committed once")
        self.assertEqual({commit["result"] for commit in live.commits}, {0})
        self.assertTrue(token_order(live))
        self.assertTrue(all(in_order(calls) for calls in live.histories))
        for commit in live.commits:
            self.assertEqual([row[2:4] for row in commit["buffers"]], acquired_for(live, commit))
        self.assertEqual(unlike_frames(live, play), 0)
        self.assertIn(live.frames[-1][0], [shown for shown, _ in play.frames], "what the last frame shows")
        return live, play

    def test_a_phones_screen(self):
        for is_queue in (False, True, True, False, True):
            with self.subTest(is_queue=is_queue):
                self.judge_frames("phone", 983, 123, is_queue)

    def test_two_producers_that_wait_for_the_compositor(self):
        for _ in range(5):
            live, play = self.judge_frames("producers-with-two-buffers", 492, 62)
            self.assertEqual(live.frames[-1][1], play.frames[-1][1], "the last frame is the play's")

    def test_actors_that_wait_for_one_another(self):
        for name in ("sixteen-actors-in-a-ring", "a-signal-that-is-held-back", "a-wait-that-never-ends"):
            with self.subTest(name=name):
                live, play = self.run_beside_play(name, name.startswith("sixteen"))
                self.assertEqual({status for _, status, _ in live.replies} or {0}, {0})
                self.assertEqual(live.frames, play.frames)


class Judging(unittest.TestCase):
    """What is no right run is told from one: each part of a judgement can fail."""

    def test_calls_on_a_queue(self):
        right = [(1, 4, QUEUE, 0, 0, 1), (1, 5, ACQUIRE, 0, 0, 1), (1, 9, QUEUE, 0, 1, 2), (1, 10, ACQUIRE, 0, 1, 2), (0, 1, RELEASE, 0, 0, 1)]
        self.assertTrue(in_order(right))
        for place in range(len(right)):
            refused = list(right)
            refused[place] = right[place][:3] + (13,) + right[place][4:]
            self.assertFalse(in_order(refused), place)
        for place in (0, 2, 3):
            self.assertFalse(in_order(right[:place] + right[place + 1:] + [(0, 2, RELEASE, 0, 1, 2)]), place)
        self.assertFalse(in_order(right[:2] + [right[3], right[2]]))
        self.assertFalse(in_order(right + [right[-1]]))
        self.assertFalse(in_order(right[:4] + [(1, 12, QUEUE, 0, 2, 3), (1, 13, ACQUIRE, 0, 2, 3)]), "three are acquired")
        self.assertFalse(in_order([(1, 5, 5, 0, 0, 0), (1, 4, 6, 0, 0, 0)]), "a step goes back")

    def told(self, **fields):
        told = Told(b"")
        told.arrivals = [(1, 4, 1), (2, 4, 2), (1, 8, 1)]
        told.replies = [((1, 4), 0, (1,)), ((1, 5), 0, ()), ((2, 4), 0, (2,)), ((1, 8), 0, (3,))]
        told.commits = [{"token": token, "arrival": arrival, "result": 0, "buffers": []} for token, arrival in ((2, 2), (1, 1), (1, 3))]
        for name, value in fields.items():
            setattr(told, name, value)
        told.by_step = {step: (status, values) for step, status, values in told.replies}
        return told

    def test_commits_of_a_token(self):
        self.assertTrue(token_order(self.told()))
        for pairs in (((1, 3), (1, 1)), ((1, 1), (1, 1)), ((1, 2),), ((1, 4),), ((1, 0),)):
            commits = [{"token": token, "arrival": arrival} for token, arrival in pairs]
            self.assertFalse(token_order(self.told(commits=commits)), pairs)

    def test_replies(self):
        play = self.told()
        for arrivals, places in ((play.arrivals, (1, 2, 3)), ([(2, 4, 2), (1, 4, 1), (1, 8, 1)], (2, 1, 3))):
            one, two, three = places
            owed = {(1, 4): (0, (one,)), (1, 5): (0, ()), (2, 4): (0, (two,)), (1, 8): (0, (three,))}
            self.assertEqual(replies_owed(self.told(arrivals=arrivals), play), owed)
            unplaced = {step: (0, (0,) * len(values)) for step, (_, values) in owed.items()}
            self.assertEqual(replies_owed(self.told(arrivals=arrivals), play, True), unplaced)

    def test_calls_are_answered_as_their_steps(self):
        for call, count in (((1, 5, 5, 0, 0, 0), 0), ((0, 1, 14, 0, 0, 1), 0), ((1, 5, 5, 13, 0, 0), 1), ((0, 1, 14, 1, 0, 1), 1)):
            self.assertEqual(len(list(untold_calls(self.told(histories=[[call]])))), count, call)

    def test_frames_with_the_same_pictures(self):
        play = self.told(frames=[({1: 5}, b"one"), ({1: 6}, b"two")])
        for frames, count in (([({1: 5}, b"one")], 0), ([({1: 7}, b"three")], 0), ([({1: 5}, b"two")], 1), ([({1: 6}, b"twO"), ({1: 5}, b"one")], 1)):
            self.assertEqual(unlike_frames(self.told(frames=frames), play), count, frames)
        self.assertEqual(shown_with({1: 5}, {"token": 1, "buffers": []}), {1: 5})
        self.assertEqual(shown_with({1: 5}, {"token": 2, "buffers": []}), {1: 5, 2: None})
        self.assertEqual(shown_with({1: 5}, {"token": 1, "buffers": [(1, 1, 3, 6, 0, 0, 1, 1)]}), {1: 6})


if __name__ == "__main__":
    unittest.main()
