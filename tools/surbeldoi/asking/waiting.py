"""Why a transaction or a step waits, who brings about what it waits for, and when the wait ends.

The records tell the holds of the end alone. What a vsync left waiting follows from the steps that were done before it, as docs/SCRIPT.md
says it under The vsync; when that was the order of a play tells. Of a live run it is not told when a step was done: there a wait is
explained by what the transaction or the step needed, and by who brought that about.
"""

from functools import cached_property
from typing import NamedTuple, Optional

from surbeldoi.asking.turns import turns_of
from surbeldoi.model.holds import Seen, why_held
from surbeldoi.model.slots import ACQUIRED, FREE
from surbeldoi.model.steps import Frame, Lent, Owing
from surbeldoi.model.transactions import BARRIER, FENCE
from surbeldoi.model.waits import makers_of
from surbeldoi.records.wording import HOLDS, call_name

COMPOSITOR = 0
# The calls that set how many slots a queue has.
SETTING = (3, 4, 11)


class Doer(NamedTuple):
    """A step or a vsync that brings something about: the actor, or 0 for the compositor; the step with its line and its words, or the
    number of the vsync; whether it was done; and how many vsyncs were before, None where that is not told."""

    actor: int
    step: int
    line: int
    text: str
    is_done: bool
    vsyncs: Optional[int]

    def name(self):
        if self.actor == COMPOSITOR:
            return f"vsync {self.step}{': ' + self.text if self.text else ''}"
        return f"actor {self.actor} step {self.step} (line {self.line}: {self.text})"

    def when(self):
        if not self.is_done:
            return "which is not done"
        if self.actor == COMPOSITOR or self.vsyncs is None:
            return ""
        return f"done between vsyncs {self.vsyncs} and {self.vsyncs + 1}" if self.vsyncs else "done before vsync 1"

    def sentence(self):
        when = self.when()
        return self.name() + (f", {when}" if when else "")


class Need(NamedTuple):
    """What a transaction or a step waits for: the name of the hold, or the first word of the step; what is wanted, in a sentence; who
    brings it about, and where nobody does, or nobody has to, what is to be said of that."""

    kind: str
    text: str
    by: list
    more: str


class Wait(NamedTuple):
    """The vsyncs, from the first to the last, that left something waiting for the same reason."""

    first: int
    last: int
    need: Need


class Vsyncs:
    """Follows a run from vsync to vsync: what the steps so far made, the arrivals that are not taken yet, and of each layer the greatest frame
    that was committed for it."""

    def __init__(self, waiting):
        self.waiting, self.course = waiting, waiting.course
        self.reader = self.course.new_reader()
        self.left = [(waiting.vsyncs_before(reply.actor, reply.step) or 0, reply) for reply in reversed(self.course.replies)]
        self.moments = {moment.number: moment for moment in self.course.moments if moment.number is not None}
        self.pending, self.known, self.shown = {}, 0, {}

    def see(self, vsync):
        """What a vsync sees of the transactions that it leaves waiting."""
        while self.left and self.left[-1][0] < vsync:
            before, reply = self.left.pop()
            self.reader.read(*reply[:4], before)
        for number in list(self.reader.arrivals)[self.known:]:
            self.pending[number] = self.reader.arrivals[number]
        self.known = len(self.reader.arrivals)
        moment, latched = self.moments.get(vsync), set()
        for commit in moment.commits if moment else ():
            latched |= self.take(commit)
        layers = {layer.number: layer for layer, _ in moment.outline} if moment and moment.outline else {}
        first = {}
        for number in sorted(self.pending):
            first.setdefault(self.pending[number].token, number)
        return Seen(vsync * self.waiting.period, self.reader.signalled, self.reader.frames, vsync - 1, self.shown, layers, latched, first)

    def take(self, commit):
        """Takes a transaction out of those that wait, and answers the layers that it has frames for."""
        arrival = self.pending.pop(commit.arrival, None)
        frames = arrival.frames() if arrival and commit.cause is None else []
        for layer, (_, frame) in frames:
            self.shown[layer] = max(frame, self.shown.get(layer, 0))
        return {layer for layer, _ in frames}


def so_far(hold, seen):
    """How far it is what a transaction is held for."""
    if hold and hold[0] == FENCE:
        return seen.timelines.get(hold[1], 0)
    return seen.shown.get(hold[1]) if hold and hold[0] == BARRIER else None


class Waiting:
    """What waits in a run."""

    def __init__(self, asked):
        self.asked, self.course, self.reader = asked, asked.course, asked.course.reader
        self.turns = None if self.course.is_live else turns_of(asked.scene, self.course.records)
        self.period = self.course.scene["period"]
        self.taken = {commit.arrival: (moment, commit) for moment in self.course.moments for commit in moment.commits}
        self.replies = {(reply.actor, reply.step): reply for reply in self.course.replies}

    @property
    def last(self):
        """The last vsync of which something is told."""
        recorded = [moment.number for moment in self.course.moments if moment.number is not None]
        return max([self.turns.vsyncs if self.turns else 0, *recorded])

    # Who does what, and when.

    def vsyncs_before(self, actor, step):
        """How many vsyncs were before a step was done, None where that is not told."""
        if self.turns:
            return self.turns.done.get((actor, step))
        reply = self.replies.get((actor, step))
        if reply is None or self.course.is_live:
            return None
        return self.course.moments[reply.moment - 1].number if reply.moment else 0

    def doer(self, actor, number):
        step, reply = self.course.script.step(actor, number), self.replies.get((actor, number))
        return Doer(actor, number, step.line, step.text(), reply is not None and reply.status == 0, self.vsyncs_before(actor, number))

    def steps(self, word):
        """All steps with this first word, each as actor, number and words."""
        return [(actor, number, step.words) for actor, steps in self.course.script.steps.items()
                for number, step in enumerate(steps, 1) if step.words[0] == word]

    def signals(self, timeline, value):
        """Who raises a timeline that far: the step that did so first, or those that would."""
        wanted = [(actor, number) for actor, number, words in self.steps("signal") if int(words[1]) == timeline and int(words[2]) >= value]
        doers = [self.doer(*step) for step in wanted]
        done = [doer for doer in doers if doer.is_done]
        if not done:
            return doers
        place = {(reply.actor, reply.step): at for at, reply in enumerate(self.course.replies)}
        return [min(done, key=lambda doer: place[doer.actor, doer.step])]

    def drawing(self, queue, frame):
        """Who draws a frame that is queued before it is drawn: the next draw into what its name holds."""
        if (queue, frame) not in self.reader.frames:
            return []
        actor, number = self.reader.frames[queue, frame].by
        name = self.course.script.step(actor, number).words[1]
        steps = self.course.script.steps[actor]
        return next(([self.doer(actor, later)] for later in range(number + 1, len(steps) + 1)
                     if steps[later - 1].words[:2] == ["draw", name]), [])

    def frame_text(self, queue, frame):
        """A frame, and the step that queued it."""
        queued = self.reader.frames.get((queue, frame))
        step = self.course.script.step(*queued.by) if queued else None
        return f"queue {queue} frame {frame}" + (f" (line {step.line}: {step.text()})" if step else "")

    def arrival_text(self, number):
        arrival = self.reader.arrivals.get(number)
        step = self.course.script.step(arrival.actor, arrival.step) if arrival else None
        return f"arrival {number}" + (f" (line {step.line}: {step.text()})" if step else "")

    # The transactions that wait.

    def waits_of(self, number):
        """The vsyncs that left an arrival waiting, and why."""
        return self.spans.get(number, [])

    def vsyncs(self):
        """The vsyncs of which it is told what was before them."""
        if self.course.is_live:
            return []
        return range(1, self.last + 1) if self.turns else [moment.number for moment in self.course.moments if moment.number is not None]

    @cached_property
    def spans(self):
        """The vsyncs that left each arrival waiting, and why."""
        vsyncs, spans, last = Vsyncs(self), {}, {}
        for vsync in self.vsyncs():
            seen = vsyncs.see(vsync)
            for number, arrival in vsyncs.pending.items():
                hold = why_held(arrival, seen)
                cause = hold, seen.first[arrival.token], so_far(hold, seen)
                of_arrival = spans.setdefault(number, [])
                if last.get(number) == cause:
                    of_arrival[-1] = of_arrival[-1]._replace(last=vsync)
                else:
                    of_arrival.append(Wait(vsync, vsync, self.need(arrival, hold, seen)))
                    last[number] = cause
        return spans

    def need_at_end(self, arrival):
        """Why an arrival waits at the end, by the records; None where it does not."""
        hold = next((tuple(hold) for number, *hold in self.course.run.held if number == arrival.number), None)
        return self.need(arrival, hold, self.end) if hold else None

    def held_text(self, number):
        """Why an arrival waits at the end, in words."""
        arrival = self.reader.arrivals.get(number)
        need = self.need_at_end(arrival) if arrival else None
        return f"{need.kind}: {need.text}" if need and need.kind else "the records do not tell why"

    @cached_property
    def end(self):
        """What the last vsync sees."""
        first = {}
        for number, arrival in sorted(self.reader.arrivals.items()):
            if number not in self.taken:
                first.setdefault(arrival.token, number)
        return Seen(0, self.reader.signalled, self.reader.frames, 0, self.course.shown, {}, set(), first)

    def needs_of(self, arrival):
        """What an arrival needed that was committed: of a live run it is not told which vsyncs it waited for."""
        if arrival.desired is not None:
            yield Need("Time", f"a vsync that is expected at {arrival.desired} ns or later", [], "")
        for _, frame in arrival.frames():
            queued = self.reader.frames.get(frame)
            if queued is None:
                continue
            for timeline, value in sorted(queued.points.items()):
                yield Need("Fence", f"timeline {timeline} at {value}, for the fence of {self.frame_text(*frame)}", self.signals(timeline, value), "")
            drawn = self.asked.ways[frame].drawn
            if drawn and drawn > queued.by:
                yield Need("Undrawn", f"{self.frame_text(*frame)} drawn", [self.doer(*drawn)], "")
        for barrier in arrival.barriers:
            yield Need("Barrier", f"frame {barrier.frame} of layer {barrier.layer}", [], self.barrier_text(barrier.layer, barrier.frame))

    def need(self, arrival, hold, seen):
        """A hold with its two values, told with who ends it."""
        name = HOLDS.get(hold[0]) if hold else None
        if name is None:
            return Need("", "the records do not tell why", [], "")
        return getattr(self, "need_" + name.lower())(arrival, seen, *hold[1:])

    def need_behind(self, arrival, seen, *_):
        first = seen.first.get(arrival.token, 0)
        return Need("Behind", f"it is behind {self.arrival_text(first)} of its token {arrival.token}", [], f"it waits as long as arrival {first} does")

    def need_time(self, arrival, seen, time, _):
        return Need("Time", f"it is desired for {time} ns", [], f"vsync {-(-time // self.period)} is the first that is expected at that time or later")

    def need_fence(self, arrival, seen, timeline, value):
        frame = next((frame for _, frame in arrival.frames() if frame in seen.frames and seen.frames[frame].points.get(timeline) == value), None)
        whose = self.frame_text(*frame) if frame else "a frame"
        by = self.signals(timeline, value)
        return Need("Fence", f"the fence of {whose} needs timeline {timeline} at {value}, and it is at {seen.timelines.get(timeline, 0)}", by,
                    "" if by else f"no step raises timeline {timeline} so far")

    def need_undrawn(self, arrival, seen, queue, frame):
        by = self.drawing(queue, frame)
        return Need("Undrawn", f"{self.frame_text(queue, frame)} is not drawn", by, "" if by else "no step draws it")

    def need_barrier(self, arrival, seen, layer, frame):
        shown = f"its greatest frame so far is {seen.shown[layer]}" if layer in seen.shown else "it has shown none so far"
        return Need("Barrier", f"layer {layer} has not shown frame {frame}, {shown}", [], self.barrier_text(layer, frame))

    def barrier_text(self, layer, frame):
        """The transaction that meets a barrier."""
        meets = next((number for number, other in sorted(self.reader.arrivals.items())
                      if any(of == layer and got[1] >= frame for of, got in other.frames())), None)
        return f"{self.arrival_text(meets)} brings it" if meets else "no transaction that was applied brings it"

    def need_pressure(self, arrival, seen, layer, _):
        return Need("Pressure", f"layer {layer} got a frame in this vsync already, and has backpressure", [], "the next vsync takes it, if nothing else holds it")

    # The steps that wait.

    def step_wait(self, actor, number):
        """What a step waits for, by what there is when it is done, or at the end; None where it waits for nothing."""
        words = self.course.script.step(actor, number).words
        if words[0] == "wait":
            return self.point_need(int(words[1]), int(words[2]))
        if words[0] == "dequeuewait":
            return self.slot_need(actor, number, int(words[1]))
        return self.draw_need(actor, number, words[1]) if words[0] == "draw" else None

    def point_need(self, timeline, value, whose="it needs"):
        by = self.signals(timeline, value)
        return Need("Fence", f"{whose} timeline {timeline} at {value}", by, "" if by else f"no step raises timeline {timeline} so far")

    def slot_need(self, actor, number, queue):
        """The slot that a dequeue waits for, and who gave it back."""
        calls = next((one for one in self.course.queues if one.number == queue), None)
        if calls is None:
            return None
        at = next((at for at, call in enumerate(calls.calls) if call[:2] == (actor, number)), None)
        if at is not None:
            freed = [change for change in calls.changes if change[0] < at and change[2] == FREE or calls.calls[change[0]][2] in SETTING]
            by = [self.caller(calls.calls[freed[-1][0]])] if freed else []
            return Need("Slot", f"queue {queue} had no free slot", by, "")
        return Need("Slot", f"queue {queue} has no free slot: {'; '.join(self.slot_texts(calls))}", [], "nobody gives one back")

    def caller(self, call):
        """Who made a call of a history."""
        caller, step, kind, _, slot, frame = call
        return Doer(COMPOSITOR, step, 0, call_name(kind, slot, frame), True, step) if caller == COMPOSITOR else self.doer(caller, step)

    def slot_texts(self, queue):
        """Where each slot of a queue is at the end that is not free, and by whom."""
        last = {slot: (call, state, frame) for call, slot, state, frame in queue.changes}
        for slot, (call, state, frame) in sorted(last.items()):
            if state != FREE:
                where = self.whereabouts(queue.number, frame) if state == ACQUIRED else ""
                yield f"slot {slot} is {state}" + (f" with frame {frame}" if frame else "") + (where or f" by {self.caller(queue.calls[call]).name()}")

    def whereabouts(self, queue, frame):
        """Where a frame that was acquired is at the end."""
        outline = self.course.moments[-1].outline or ()
        layer = next((layer.number for layer, _ in outline if layer.content and layer.content[:2] == (queue, frame)), None)
        if layer is not None:
            return f", on layer {layer}"
        waiting = next((number for number, arrival in self.reader.arrivals.items()
                        if number not in self.taken and (queue, frame) in [shown for _, shown in arrival.frames()]), None)
        if waiting:
            return f", in {self.arrival_text(waiting)}, which waits"
        for actor, state in self.reader.actors.items():
            name = next((name for name, held in state.names.items() if isinstance(held, Frame) and (held.queue, held.frame) == (queue, frame)), None)
            if name:
                return f", which actor {actor} keeps as {name}"
            number = next((number for number, txn in state.transactions.items() if (queue, frame) in [(shown.queue, shown.frame) for _, shown in txn.buffers()]), None)
            if number:
                return f", in transaction {number} of actor {actor}, which is not applied"
        return ""

    def before(self, actor, number):
        """What there is before a step, as far as that is told, or at the end."""
        reader = self.course.new_reader()
        for reply in self.course.replies:
            if (reply.actor, reply.step) == (actor, number):
                break
            reader.read(*reply)
        return reader

    def draw_need(self, actor, number, name):
        """What the draw into what a name holds waits for: the fence of its buffer, or an earlier draw into it."""
        reader = self.before(actor, number)
        token = reader.actors[actor].names.get(name)
        if not isinstance(token, (Lent, Owing)):
            return None
        makers = makers_of(reader.attachings)
        owing = next((owing for owing in reader.owed_now() if makers.is_older(owing, token)), None)
        if owing:
            return Need("Undrawn", f"{self.frame_text(owing.queue, owing.frame)} had its buffer before, and is not drawn", self.drawing(owing.queue, owing.frame), "")
        if not token.fence:
            return None
        timeline, value = min(token.fence.items())
        return self.point_need(timeline, value, f"the buffer of {name} came with a fence, which needs")
