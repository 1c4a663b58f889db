"""Tests of what records.py check says of the order of a run: nothing comes before itself, and no vsync passes over an arrival."""

import unittest

from surbeldoi.check.checking import checked
from surbeldoi.check.circles import Events, Part
from surbeldoi.check.events import Happened
from surbeldoi.check.learning import Signals
from surbeldoi.check.ordering import Ordered, Refused
from surbeldoi.fuzz.scenes import random_scene
from surbeldoi.model.playing import Play
from surbeldoi.model.transactions import TIME
from surbeldoi.script.scenes import read_scene
from tests.test_checking import contents, found, played, record, verdict, with_rows

ONE_ORDER, PASSED_OVER, LEARNED = "one order", "passed over", "learned"
# Two actors set the modes of two queues.
MODES = b"""scene 1 1 1 1000000
queue 1 1 1
queue 2 1 1
actor 1
async 1 0
async 2 0
actor 2
async 2 0
async 1 0
order 1*2 2*2
end
"""
# The second vsync destroys the layer that shows the frame of the first one.
GOING = b"""scene 1 1 1 1000000
queue 1 1 1
picture 1 1 1
actor 1
connect 1
dequeue 1 as s
request s
draw s 1
queue s 1
acquire 1 as i
tx 1
set 1 1 create buffer 0
buffer 1 1 i
apply 1 token 1
tx 1
set 1 1 destroy
apply 1 token 1
order 1*10 v 1*3 v
end
"""
# Each of two actors sends a transaction: the first one behind its call, the second one before it.
SENT = b"""scene 1 1 1 1000000
queue 1 1 1
actor 1
async 1 0
tx 1
apply 1 token 1
actor 2
tx 1
apply 1 token 2
async 1 0
order 1*3 2*3
end
"""
# Two queues of which each has a frame on a layer; then the frame of the second one goes, then that of the first one.
FRAMES = b"""scene 1 1 1 1000000
queue 1 1 1
queue 2 1 1
queue 3 1 1
picture 1 1 1
actor 1
connect 1
dequeue 1 as s
request s
draw s 1
queue s 1
acquire 1 as a
connect 2
dequeue 2 as s
request s
draw s 1
queue s 1
acquire 2 as b
tx 1
"""
LEAVING = FRAMES + b"""set 1 1 create buffer 0
buffer 1 1 a
set 1 2 create buffer 0
buffer 1 2 b
apply 1 token 1
tx 1
set 1 2 destroy
apply 1 token 1
tx 1
set 1 1 destroy
apply 1 token 1
async 1 0
async 2 0
order 1*18 v 1*3 v 1*3 v 1*2
end
"""
# A merge gives two frames of two queues back in one step.
MERGED = FRAMES + b"""buffer 1 1 a
buffer 1 2 b
dequeue 1 as s
request s
draw s 1
queue s 1
acquire 1 as a
dequeue 2 as s
request s
draw s 1
queue s 1
acquire 2 as b
tx 2
buffer 2 1 a
buffer 2 2 b
merge 1 2
async 3 0
actor 2
async 3 0
async 2 0
order 1*30 2*2
end
"""


# An actor waits for what it signals itself.
OWN_POINT = b"scene 1 1 1 1000000\ntimeline 1\nactor 1\nwait 1 1\nsignal 1 1\nend\n"


def done_at_once(told):
    """All steps of that actor are done."""
    place = found(told, "ARRV")
    done = [record("REPL", {"actor": 1, "step": step, "status": 0, "values": []}) for step in (1, 2)]
    return with_rows("STUK", 0, "stuck", lambda rows: [])(told[:place] + done + told[place:])


def refusal(script, told):
    """What the check says of records that it refuses."""
    try:
        checked(script, told, False, False)
    except Refused as refused:
        return str(refused)
    return None


def swapped(queue, at):
    """Two calls of a queue that are neighbours change places."""
    return with_rows("HIST", queue - 1, "calls", lambda rows: rows[:at] + [rows[at + 1], rows[at]] + rows[at + 2:])


def first_of_all(queue, at, status):
    """A call stands in front of all others of its queue, with another status."""
    return with_rows("HIST", queue - 1, "calls", lambda rows: [(*rows[at][:3], status, *rows[at][4:])] + rows[:at] + rows[at + 1:])


def told_nothing(told):
    """The same records where transactions arrive through a queue."""
    sent = {(actor, step) for actor, step, _ in told[found(told, "ARRV")].fields["arrivals"]}
    return [record(one.tag, {**one.fields, "values": [(0,)]}) if one.tag == "REPL" and (one.fields["actor"], one.fields["step"]) in sent else one for one in told]


def place_of(script, queue, caller, step):
    """The place, from 0, of a call in the history of a queue."""
    calls = played(script)[found(played(script), "HIST", queue - 1)].fields["calls"]
    return next(at for at, call in enumerate(calls) if call[:2] == (caller, step))


# Runs whose parts all hold but for one order of what happened; where transactions arrive through a queue, some fit one.
CIRCLES = (
    ("two actors set the modes of two queues in two orders", MODES, swapped(1, 0), ONE_ORDER),
    ("a release before its frame was queued", GOING, first_of_all(1, 5, 1), ONE_ORDER),
    ("a call behind the one of an actor whose transaction arrived later", SENT, swapped(1, 0), None),
    ("a release behind a call that comes behind one of the next vsync", LEAVING, swapped(2, place_of(LEAVING, 2, 0, 2)), ONE_ORDER),
    ("a call that comes before one of several of a step, and behind one of the next step", MERGED, swapped(2, place_of(MERGED, 2, 1, 29)), ONE_ORDER),
)
# Changes of these runs that some order explains.
ORDERED = (
    ("neighbours of one history", MODES, swapped(2, 0)),
    ("the calls of one actor all before those of the other", MODES, lambda told: swapped(1, 0)(swapped(2, 0)(told))),
    ("a release behind a call that nothing ties to a later vsync", LEAVING, swapped(1, place_of(LEAVING, 1, 0, 3))),
    ("a call before one of several of a step", MERGED, lambda told: swapped(3, 0)(swapped(2, place_of(MERGED, 2, 1, 29))(told))),
)


class Order(unittest.TestCase):
    def both_ways(self, script, change):
        """What is said of a changed run where senders are told places, and where they are not."""
        told = change(played(script))
        return verdict(script, told), verdict(script, told_nothing(told), is_queue=True)

    def test_what_no_order_explains_is_refused(self):
        for name, script, change, by_queue in CIRCLES:
            with self.subTest(name=name):
                self.assertEqual(self.both_ways(script, lambda told: told), (None, None))
                self.assertEqual(self.both_ways(script, change), (ONE_ORDER, by_queue))

    def test_what_an_order_explains_is_accepted(self):
        for name, script, change in ORDERED:
            with self.subTest(name=name):
                self.assertEqual(self.both_ways(script, change), (None, None))

    def test_a_circle_is_told(self):
        self.assertEqual(refusal(GOING, first_of_all(1, 5, 1)(played(GOING))), "one order: record 22, HIST of queue 1, call 1: no order of what happened fits: "
                         "the release of frame 1 of queue 1 by vsync 2 comes before actor 1, step 6 (line 10: acquire) by HIST of queue 1; "
                         "that comes before arrival 2 of actor 1, step 13 (line 17: apply) by the steps of actor 1; "
                         "that comes before vsync 2, which commits it; "
                         "and that comes before the release of frame 1 of queue 1 by vsync 2, which it makes")

    def test_events_have_few_links(self):
        for seed in range(1, 30):
            scene = read_scene(random_scene(seed))
            shown = Ordered([record(*told) for told in Play(scene).records()]).shown(scene)
            events = Happened(shown, True).events
            self.assertLess(sum(map(len, events.links)), 4 * len(events.events) + 1, seed)
            self.assertEqual(events.circle(), [], seed)


# An actor waits for a point that another one signals behind a call.
WAITED = b"""scene 1 1 1 1000000
timeline 1
queue 1 1 1
actor 1
wait 1 1
async 1 0
actor 2
async 1 0
signal 1 1
order 2*2 1*2
end
"""
# A vsync sees a value that an actor signals behind a call, and gives a frame back.
SAW = GOING.replace(b"queue 1 1 1\n", b"timeline 1\nqueue 1 1 1\n", 1).replace(b"order 1*10 v 1*3 v\n", b"actor 2\nasync 1 0\nsignal 1 5\norder 1*10 v 1*3 2*2 v\n")
# A frame is drawn late, behind a call, by another actor than the one that shows it. The second vsync gives it back.
DREW_LATE = b"""scene 1 1 1 1000000
queue 1 1 1
picture 1 1 1
actor 1
connect 1
dequeue 1 as s
request s
queue s 1
async 1 0
draw s 1
actor 2
acquire 1 as i
tx 1
set 1 1 create buffer 0
buffer 1 1 i
apply 1 token 1
tx 1
set 1 1 destroy
apply 1 token 1
order 1*4 2*5 1*2 v 2*3 v
end
"""
# A buffer goes to another queue while its draw is owed, and is drawn there behind it.
DREW_AGAIN = b"""scene 1 1 1 1000000
queue 1 1 1
queue 2 1 1
picture 1 1 1
actor 1
connect 1
dequeue 1 as s
request s
queue s 1
async 1 0
draw s 1
actor 2
acquire 1 as i
cdetach i as b
connect 2
pattach 2 b as t
draw t 1
async 1 0
order 1*4 2*4 1*2 2*2
end
"""
# A buffer is detached whose fence another actor signals; and one whose fence nobody has to look at, as it is not requested.
DETACHED = b"""scene 1 1 1 1000000
timeline 1
queue 1 1 1
picture 1 1 1
actor 1
connect 1
dequeue 1 as s
request s
draw s 1
queue s 1 fence 1 1
acquire 1 as i
cdetach i as b
async 1 0
actor 2
async 1 0
signal 1 1
order 1*6 2*2 1*2
end
"""
REFUSED = DETACHED.replace(b"queue s 1 fence 1 1", b"queue s 1").replace(
    b"cdetach i as b\n", b"disconnect 1\nrelease i fence 1 1\nconnect 1\ndequeue 1 as s\npdetach s as b\n").replace(b"order 1*6 2*2 1*2", b"order 1*12 2*2")
# Changed runs that no order explains, once what is known without a call has its place; and one of which it cannot be told who signalled.
UNLEARNED = (
    ("a call behind a wait, before one that came before the signal", WAITED, swapped(1, 0), LEARNED),
    ("the same where two actors signal", WAITED.replace(b"order", b"actor 3\nsignal 1 1\norder"), swapped(1, 0), None),
    ("the same where the other one signals less", WAITED.replace(b"wait 1 1", b"wait 1 2").replace(b"signal 1 1\norder", b"signal 1 3\nactor 3\nsignal 1 1\norder"),
     swapped(1, 0), LEARNED),
    ("a release by a vsync, before a call that came before the value that it saw", SAW, swapped(1, place_of(SAW, 1, 2, 1)), LEARNED),
    ("the same where it signals 0", SAW.replace(b"signal 1 5", b"signal 1 0"), swapped(1, place_of(SAW, 1, 2, 1)), None),
    ("a release of a frame, before a call that came before its draw", DREW_LATE,
     swapped(1, place_of(DREW_LATE, 1, 1, 5)), LEARNED),
    ("a call behind a detach, before one that came before the signal", DETACHED,
     lambda told: swapped(1, place_of(DETACHED, 1, 2, 1) + 1)(swapped(1, place_of(DETACHED, 1, 2, 1))(told)), LEARNED),
    ("a detach that looks at no fence, before its signal", REFUSED, lambda told: told, None),
    ("a call behind a draw, before one that came before the draw owed before", DREW_AGAIN, swapped(1, place_of(DREW_AGAIN, 1, 1, 5)), LEARNED),
)


class Learning(unittest.TestCase):
    def test_what_is_known_without_a_call_has_its_place(self):
        for name, script, change, part in UNLEARNED:
            with self.subTest(name=name):
                self.assertIsNone(verdict(script, played(script), is_play=True))
                self.assertEqual(verdict(script, change(played(script))), part)

    def test_a_wait_for_what_its_actor_signals_later(self):
        self.assertEqual(verdict(OWN_POINT, done_at_once(played(OWN_POINT))), LEARNED)

    def test_who_signalled_first(self):
        signals = Signals([(1, 3, 7, 5), (1, 2, 7, 4), (1, 6, 7, 5), (2, 1, 7, 2), (2, 4, 8, 5), (3, 1, 8, 5), (1, 1, 9, 0)])
        for timeline, value, of_value, at_least in ((7, 5, (1, 3), (1, 3)), (7, 4, (1, 2), (1, 2)), (7, 3, None, (1, 2)), (7, 2, (2, 1), None), (7, 1, None, None),
                                                    (7, 6, None, None), (8, 5, None, None), (8, 1, None, None),
                                                    (9, 1, None, None), (9, 0, None, None), (10, 0, None, None)):
            self.assertEqual((signals.of_value(timeline, value), signals.at_least(timeline, value)), (of_value, at_least), (timeline, value))


class Circles(unittest.TestCase):
    def events(self, links):
        """Events a, b, .. with these links, each two letters and a reason."""
        events = Events()
        for letter in sorted({letter for link in links for letter in link[:2]}):
            events.add(letter)
        for earlier, later, why in links:
            events.link(events.events.index(earlier), events.events.index(later), why)
        return events

    def test_where_there_is_none(self):
        for links in ((), ("ab1",), ("ab1", "ac1", "bd1", "cd1"), ("ab1", "ab2", "bc1", "ac1")):
            self.assertEqual(self.events(links).circle(), [], links)

    def test_neighbours_with_one_reason_are_one_part(self):
        for links, parts in ((("ab1", "ba2"), {Part("a", "b", "1"), Part("b", "a", "2")}),
                             (("ab1", "bc1", "cd2", "da2"), {Part("a", "c", "1"), Part("c", "a", "2")}),
                             (("bc1", "cd2", "da2", "ab1"), {Part("a", "c", "1"), Part("c", "a", "2")}),
                             (("ab1", "bc2", "cd3", "da4", "bd5", "ee9")[:5], {Part("a", "b", "1"), Part("b", "d", "5"), Part("d", "a", "4")})):
            self.assertEqual(set(self.events(links).circle()), parts, links)

    def test_what_leads_to_a_circle_and_from_it_is_none_of_it(self):
        circle = self.events(("ab1", "bc1", "cd1", "dc2", "de1", "ef1")).circle()
        self.assertEqual(set(circle), {Part("c", "d", "1"), Part("d", "c", "2")})

    def test_reasons_change_as_seldom_as_can_be(self):
        circle = self.events(("ab1", "bc1", "cd1", "de1", "ea2", "ac3", "ce4")).circle()
        self.assertEqual(set(circle), {Part("a", "e", "1"), Part("e", "a", "2")})


class Leaving(Play):
    """A play whose vsyncs leave some arrivals, though they may be ready."""

    def __init__(self, scene, left):
        super().__init__(scene)
        self.left = left

    def hold(self, txn):
        left = (one for pending in self.world.pending.values() for number, one in pending if number in self.left.get(self.vsyncs, ()))
        return (TIME, 0, 0) if any(one is txn for one in left) else super().hold(txn)


def leaving(script, left):
    return [record(*told) for told in Leaving(read_scene(script), left).records()]


def colours(*lines):
    """Actors that each send one transaction that creates a layer, under tokens of their numbers; each with these lines before it is sent."""
    actors = [f"actor {actor}\ntx 1\nset 1 {actor} create colour 0\n{more}apply 1 token {actor}\n" for actor, more in enumerate(lines, 1)]
    turns = [f"{actor}*{3 + more.count(chr(10))}" for actor, more in enumerate(lines, 1)]
    return ("scene 1 1 1 1000000\n" + "".join(actors) + f"order {' '.join(turns)} v v v v\nend\n").encode()


HEAD = "scene 1 1 1 1000000\ntimeline 1\nqueue 1 1 1\npicture 1 1 1\n"
LAST = "actor 9\ntx 1\nset 1 9 create colour 0\napply 1 token 9\n"
SHOW = "acquire 1 as i\ntx 1\nset 1 1 create buffer 0\nbuffer 1 1 i\napply 1 token 1\n"


def showing(first, order, others=""):
    """An actor with these steps, whose transaction shows a frame, maybe others, and one that sends a transaction behind it."""
    return f"{HEAD}actor 1\nconnect 1\ndequeue 1 as s\nrequest s\n{first}{others}{LAST}order {order} 9*3 v v v\nend\n".encode()


DRAWN = showing("draw s 1\nqueue s 1\n" + SHOW, "1*10")
FENCED = showing("draw s 1\nqueue s 1 fence 1 1\n" + SHOW + "signal 1 1\n", "1*10")
SIGNALLED = showing("draw s 1\nqueue s 1 fence 1 1\n" + SHOW + "signal 1 1\n", "1*11")
PASSED_ON = showing("draw s 1\nqueue s 1\n", "1*5 2*5", "actor 2\n" + SHOW)
OWED_BEFORE = showing("queue s 1\nacquire 1 as i\ntx 1\nset 1 1 create buffer 0\nbuffer 1 1 i\ndraw s 1\napply 1 token 1\n", "1*10")
OWED_BEHIND = showing("queue s 1\n" + SHOW + "draw s 1\n", "1*10")
OWED_BY_ANOTHER = showing("queue s 1\ndraw s 1\n", "1*4 2*7 1*1", "actor 2\ntx 2\ntx 3\n" + SHOW)
BARRED = (HEAD + "actor 1\ntx 1\nbarrier 1 1 1\napply 1 token 8\nconnect 1\ndequeue 1 as s\nrequest s\ndraw s 1\nqueue s 1\n" + SHOW + LAST
          + "order 1*8 9*3 v 1*5 v v v\nend\n").encode()
PRESSED = (HEAD + "actor 1\nconnect 1\nmaxdequeued 1 2\ndequeue 1 as s\nrequest s\ndraw s 1\nqueue s 1\nacquire 1 as i\ndequeue 1 as s\nrequest s\ndraw s 1\n"
           "queue s 1\nacquire 1 as j\ntx 1\nset 1 1 create buffer 0\nset 1 1 backpressure 1\nbuffer 1 1 i\napply 1 token 1\ntx 1\nbuffer 1 1 j\napply 1 token 2\n"
           + LAST + "order 1*20 9*3 v v v\nend\n").encode()
TWICE = colours("", "").replace(b"apply 1 token 1\n", b"apply 1 token 1\ntx 1\napply 1 token 1\n").replace(b"1*3", b"1*5")
BEHIND = TWICE.replace(b"apply 1 token 1\n", b"desire 1 2000000\napply 1 token 1\n", 1).replace(b"1*5", b"1*6")
# Scenes, which arrivals which of their vsyncs leave, and what is said of it.
PASSING = (
    ("the first of two", colours("", ""), {1: {1}}, PASSED_OVER),
    ("the first of two, behind the second one's vsync", colours("", ""), {1: {1, 2}, 2: {1}}, PASSED_OVER),
    ("the second of two", colours("", ""), {1: {2}}, None),
    ("both", colours("", ""), {1: {1, 2}}, None),
    ("the second of three", colours("", "", ""), {1: {2}}, PASSED_OVER),
    ("the first of three, and then the second", colours("", "", ""), {1: {1, 2, 3}, 2: {2, 3}}, None),
    ("one that waits for its time", colours("desire 1 2000000\n", ""), {}, None),
    ("one whose time has come", colours("desire 1 2000000\n", "", ""), {1: {3}, 2: {1}}, PASSED_OVER),
    ("one whose time has come, by a vsync that commits nothing", colours("desire 1 2000000\n", ""), {2: {1}}, None),
    ("one behind one that waits for its time", BEHIND, {}, None),
    ("one behind one that waited for its time, once that is committed", BEHIND, {2: {2}}, PASSED_OVER),
    ("one behind one that the same vsync commits", TWICE, {1: {2}}, PASSED_OVER),
    ("a frame that the sender drew", DRAWN, {1: {1}}, PASSED_OVER),
    ("a frame whose fence is not signalled", FENCED, {}, None),
    ("a frame whose fence is signalled", SIGNALLED, {1: {1}}, PASSED_OVER),
    ("a frame that was drawn and queued by another actor", PASSED_ON, {1: {1}}, None),
    ("a frame that the sender drew late, and before it was sent", OWED_BEFORE, {1: {1}}, PASSED_OVER),
    ("a frame that the sender drew behind that", OWED_BEHIND, {1: {1}}, None),
    ("a frame that another actor drew late", OWED_BY_ANOTHER, {1: {1}}, None),
    ("one that a barrier holds", BARRED, {}, None),
    ("one whose barrier is met", BARRED, {2: {1}}, PASSED_OVER),
    ("one whose barrier is met later", BARRED, {2: {3}}, None),
    ("one that backpressure holds", PRESSED, {}, None),
    ("one that backpressure holds no more", PRESSED, {1: {3}, 2: {2}}, PASSED_OVER),
)


class Passing(unittest.TestCase):
    def test_who_may_be_left(self):
        for name, script, left, part in PASSING:
            with self.subTest(name=name):
                self.assertIsNone(verdict(script, leaving(script, {}), is_play=True))
                told = leaving(script, left)
                self.assertEqual(told != leaving(script, {}), bool(left))
                self.assertEqual((verdict(script, told), verdict(script, told_nothing(told), is_queue=True)), (part, part))

    def test_who_passes_whom_is_told(self):
        self.assertEqual(refusal(DRAWN, leaving(DRAWN, {1: {1}})), "passed over: record 15, VSYN: vsync 1 passes over arrival 1 under token 1, of actor 1, step 10 "
                         "(line 15: apply): nothing holds it, what it shows was written by its sender, and vsync 1 committed "
                         "arrival 2 under token 9, of actor 9, step 3 (line 19: apply)")


class Page(unittest.TestCase):
    def test_what_the_page_shows_is_said(self):
        section = contents("docs", "RECORDS.md").decode().split("## Checking a run\n")[1]
        blocks = [" ".join(line.strip() for line in block.splitlines()) for block in section.split("\n\n") if block.startswith("    ")]
        self.assertEqual(blocks, ["refused: " + said for said in (
            refusal(MODES, swapped(1, 0)(played(MODES))), refusal(colours("", ""), leaving(colours("", ""), {1: {1}})),
            refusal(OWN_POINT, done_at_once(played(OWN_POINT))))])


if __name__ == "__main__":
    unittest.main()
