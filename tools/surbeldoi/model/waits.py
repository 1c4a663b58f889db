"""Who waits: the actors whose next step cannot be done, and what it waits for."""

from bisect import bisect_right
from collections import Counter, deque

from surbeldoi.model.makers import Makers
from surbeldoi.model.queues import WOULD_BLOCK, open_point
from surbeldoi.model.slots import STATES

NO_LIMIT = 1 << 64


def makers_of(attachings, most=NO_LIMIT):
    """Who made the buffers that were attached."""
    makers = Makers(most)
    for token, loose in attachings:
        makers.attached(token, loose)
    return makers


def slots_text(queue):
    """How many of the slots of a queue are in which state, but for free ones."""
    counts = Counter(STATES[slot.state] for slot in queue.slots if slot.state)
    return ", ".join(f"{count} {state}" for state, count in sorted(counts.items()))


class Waiting:
    """The desk for steps that are not taken now: it makes no calls, and tells what waits, by what the steps so far have made. `followed` is
    what followed them, and `queues` has the queues after their calls."""

    def __init__(self, followed, makers, queues):
        self.followed, self.makers, self.queues, self.why = followed, makers, queues, None

    def point_text(self, timeline, value):
        return f"timeline {timeline} has not reached {value}, it is at {self.followed.values.get(timeline, 0)}"

    def waits_for(self, actor, fence):
        point = open_point(fence, self.followed.values)
        if point:
            self.why = ("" if actor.next_step().verb == "wait" else "its buffer's fence is not signalled: ") + self.point_text(*point)
        return point is not None

    def waits_to_enter(self, actor, token):
        owing = next((owing for owing in self.followed.owed_now() if self.makers.is_older(owing, token)), None)
        if owing:
            self.why = f"queue {owing.queue} frame {owing.frame} had its buffer before, and is not drawn"
        return owing is not None

    def blocks(self, actor, queue, call):
        if queue not in self.queues:
            return False
        if self.queues[queue].refusal(actor.number, call) != WOULD_BLOCK:
            return False
        self.why = f"queue {queue} has no free slot: {slots_text(self.queues[queue])}"
        return True

    def waits(self, actor):
        """Whether the next step of an actor has to wait; `why` says then what for."""
        self.why = None
        return actor.next_step() is not None and actor.waits(self)

    def why_at(self, number, step):
        """What the step at which an actor is told to be stuck waits for; empty where it does not wait."""
        actor = self.followed.actors.get(number)
        return self.why if actor and actor.place() == step and self.waits(actor) else ""


class Waits:
    """Notes of a course, at each moment but the last, which actors could not do their next step, and why."""

    def __init__(self, course):
        self.course, self.reader = course, course.new_reader()
        self.runs = {queue.number: course.runs[queue.number].again(self.reader) for queue in course.queues}

    def note(self):
        replies = deque(self.course.replies)
        for place, moment in enumerate(self.course.moments[:-1]):
            while replies and replies[0].moment <= place:
                self.reader.read(*replies.popleft())
            for queue in self.course.queues:
                self.runs[queue.number].follow(bisect_right(queue.moments, place))
            self.note_at(moment)

    def note_at(self, moment):
        waiting = Waiting(self.reader, makers_of(self.reader.attachings), {number: run.queue for number, run in self.runs.items()})
        for number, actor in self.reader.actors.items():
            if waiting.waits(actor):
                moment.waits.append((number, actor.place(), waiting.why))
