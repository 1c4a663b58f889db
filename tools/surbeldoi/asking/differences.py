"""What two runs of one script have that is different: the first thing, in the order in which one of them has it, and all that follows.

Runs are compared by what they tell of the same step, of the same transaction, of the calls on the same queue, and of what is shown once the same
transactions are committed. So a play can be compared with a live run, whose vsyncs have other numbers and whose replies stand at its
end. There a step is put before the first transaction of its actor that was applied behind it.
"""

from typing import NamedTuple

from surbeldoi.asking.changes import pixels_of
from surbeldoi.asking.places import place_name
from surbeldoi.asking.reasons import Asked, NotTold
from surbeldoi.records.wording import call_name
from surbeldoi.view.viewing import values_text

COMPOSITOR = 0
BYTES = 4
APPLY = "apply"


class Difference(NamedTuple):
    """Something that two runs tell otherwise: what it is of, where, and what each of the two has there; and what is to be said of it."""

    kind: str
    where: str
    left: str
    right: str
    more: str


class Event(NamedTuple):
    """Something that a run has: a reply, by its step, or a vsync, by the place of its moment."""

    kind: str
    of: object


class Side:
    """One of the two runs."""

    def __init__(self, records, script):
        self.asked = Asked(records, script)
        self.course = self.asked.course
        self.replies = {(reply.actor, reply.step): reply for reply in self.course.replies}
        arrivals = self.course.reader.arrivals
        self.applied = {number: (arrival.actor, arrival.step) for number, arrival in arrivals.items()}
        self.taken = {self.applied.get(commit.arrival): (moment, commit) for moment in self.course.moments for commit in moment.commits}
        self.held = {self.applied.get(hold.arrival): hold for hold in self.course.moments[-1].held}
        self.stuck = {(actor, step): text for actor, step, text in self.course.moments[-1].waits}
        self.states = dict(self.shown_states())

    def shown_states(self):
        """For the transactions that are committed so far, as a set, the place of the moment that shows what they make."""
        so_far = set()
        for at, moment in enumerate(self.course.moments[:-1]):
            so_far.update(self.applied.get(commit.arrival) for commit in moment.commits)
            if any(output.is_new for output in moment.outputs):
                yield frozenset(so_far), at

    def step_text(self, actor, number):
        return self.course.script.step_text(actor, number)

    def steps_text(self, steps):
        """Some steps, by their lines."""
        lines = sorted(self.course.script.step(*step).line for step in steps if step)
        return "nothing" if not lines else ("line " if len(lines) == 1 else "lines ") + ", ".join(map(str, lines))

    # Its events in their order.

    def events(self):
        """The replies and the vsyncs in order."""
        if not self.course.is_live:
            yield from self.told_events()
            return
        left = {actor: [reply.step for reply in self.course.replies if reply.actor == actor] for actor in self.course.script.steps}
        for at, moment in enumerate(self.course.moments[:-1]):
            for commit in moment.commits:
                actor, last = self.applied.get(commit.arrival, (None, 0))
                while left.get(actor) and left[actor][0] <= last:
                    yield Event("reply", (actor, left[actor].pop(0)))
            yield Event("vsync", at)
        yield from (Event("reply", (actor, step)) for actor, steps in left.items() for step in steps)

    def told_events(self):
        """The events of a run whose records stand in their order."""
        replies = list(self.course.replies)
        for at in range(len(self.course.moments)):
            while replies and replies[0].moment <= at:
                reply = replies.pop(0)
                yield Event("reply", (reply.actor, reply.step))
            if at + 1 < len(self.course.moments):
                yield Event("vsync", at)

    # What it tells.

    def reply_text(self, step, is_told_by_arrival=True):
        """What became of a step."""
        reply = self.replies.get(step)
        if reply is None:
            return "not done" if step not in self.stuck else "waits to the end" + (f": {self.stuck[step]}" if self.stuck[step] else "")
        if reply.status:
            return f"refused: {self.asked.refusal_text(*step, reply.status)}"
        word = self.course.script.step(*step).words[0]
        values = "" if word == APPLY and not is_told_by_arrival else values_text(word, reply.values)
        return f"done{': ' + values if values else ''}"

    def outcome(self, step, with_vsync):
        """What became of the transaction that a step applied."""
        if step in self.taken:
            moment, commit = self.taken[step]
            arrival = self.course.reader.arrivals.get(commit.arrival)
            shown = arrival.frames() if arrival else ()
            frames = ", ".join(f"layer {layer} shows queue {queue} frame {frame}" for layer, (queue, frame) in shown)
            what = f"rejected at operation {commit.operation}: {commit.cause}" if commit.cause else "committed" + (f": {frames}" if frames else "")
            return (f"vsync {moment.number}: " if with_vsync else "") + what
        hold = self.held.get(step)
        return "not applied" if step not in self.applied.values() else f"waits to the end{': ' + hold.text if hold else ''}"

    def calls(self):
        """The calls on each queue, each as what tells it from others: who made it at which step, or the compositor with the frame, and its kind;
        with the step or the vsync, and the call in words."""
        for queue in self.course.queues:
            yield queue.number, [((caller, step if caller else frame, kind), (caller, step), call_name(kind, slot, frame))
                                 for caller, step, kind, _, slot, frame in queue.calls]


class Compared:
    """Compares two runs of one script."""

    def __init__(self, left, right, script):
        self.left, self.right = Side(left, script), Side(right, script)
        self.is_by_turns = not (self.left.course.is_live or self.right.course.is_live)
        # The run whose order counts, and the other one.
        self.base, self.other = (self.right, self.left) if self.left.course.is_live and not self.right.course.is_live else (self.left, self.right)
        self.calls = dict(self.differing_calls())

    def difference(self, kind, where, of_base, of_other, more=""):
        left, right = (of_base, of_other) if self.base is self.left else (of_other, of_base)
        return Difference(kind, where, left, right, more)

    def all(self):
        """All that is different, in the order of the run whose order counts."""
        for event in self.base.events():
            if event.kind == "reply":
                yield from self.of_step(event.of)
            else:
                yield from self.of_moment(event.of)
        done = set(self.base.replies)
        for step in sorted(set(self.other.replies) - done):
            yield from self.of_step(step)
        yield from self.of_end()

    # Steps and calls.

    def of_step(self, step):
        if step in self.calls:
            yield self.calls[step]
        told = [side.reply_text(step, self.is_by_turns) for side in (self.base, self.other)]
        if told[0] != told[1]:
            yield self.difference("step", self.base.step_text(*step), *told)

    def differing_calls(self):
        """Of each queue the first call at whose place the other run has another one, by the step or the vsync of the call."""
        others = dict(self.other.calls())
        for queue, calls in self.base.calls():
            of_other = others.get(queue, [])
            at = next((at for at, (key, *_) in enumerate(calls) if at >= len(of_other) or of_other[at][0] != key), None)
            if at is not None:
                told = self.call_text(self.base, calls, at), self.call_text(self.other, of_other, at)
                yield calls[at][1], self.difference("call", f"queue {queue}, call {at + 1}", *told)

    @staticmethod
    def call_text(side, calls, at):
        if at >= len(calls):
            return "no call"
        _, (caller, step), name = calls[at]
        return f"{name} by {side.step_text(caller, step) if caller else f'vsync {step}'}"

    # Vsyncs.

    def of_moment(self, at):
        moment = self.base.course.moments[at]
        if (COMPOSITOR, moment.number) in self.calls:
            yield self.calls[COMPOSITOR, moment.number]
        for commit in moment.commits:
            step = self.base.applied.get(commit.arrival)
            if step is None:
                continue
            told = [side.outcome(step, self.is_by_turns) for side in (self.base, self.other)]
            if told[0] != told[1]:
                yield self.difference("transaction", self.base.step_text(*step), *told)
        yield from self.of_images(at)

    def of_images(self, at):
        """What is shown otherwise once the transactions of a moment and those before are committed."""
        state = next((state for state, place in self.base.states.items() if place == at), None)
        if state is None:
            return
        number = self.base.course.moments[at].number
        if state not in self.other.states:
            yield self.difference("frame", f"vsync {number}", f"shows what {self.base.steps_text(state)} made", "never shows that", "")
            return
        for of_place, place in enumerate(self.base.course.places):
            yield from self.of_image(at, self.other.states[state], of_place, place)

    def of_image(self, at, other_at, of_place, place):
        """How the images of a place differ, where they do."""
        sides = ((self.base, at), (self.other, other_at))
        frames = [side.course.moments[moment].outputs[of_place].frame for side, moment in sides]
        where = f"{place_name(place)} at vsync {self.base.course.moments[at].number}"
        if None in frames:
            if frames[0] != frames[1]:
                yield self.difference("frame", where, *("none" if frame is None else "a frame" for frame in frames))
            return
        images = [side.course.frames[frame] for (side, _), frame in zip(sides, frames)]
        if images[0] == images[1]:
            return
        pixels = pixels_of(place_name(place), place, *images)
        first = next(start for start in range(0, len(images[0]), BYTES) if images[0][start:start + BYTES] != images[1][start:start + BYTES])
        x, y = first // BYTES % place.width, first // BYTES // place.width
        where += f": {pixels.different} of {pixels.of} pixels, the first at {x} {y}"
        yield self.difference("frame", where, *(image[first:first + BYTES].hex() for image in images), self.why_pixel(sides, of_place, x, y))

    def why_pixel(self, sides, of_place, x, y):
        """Why a pixel is another one in the other run: the first layer that does something else there, or that one frame is not what its
        layers make."""
        try:
            painted = [side.asked.looked(at, of_place).painted(x, y) for side, at in sides]
        except NotTold:
            return ""
        for step, other in zip(*painted):
            if step != other:
                texts = [f"layer {one.layer} has {one.colour}" + (f" of picture {one.picture}" if one.picture is not None else "") for one in (step, other)]
                return "{} there in one run, and {} in the other".format(*(texts if self.base is self.left else texts[::-1]))
        if len(painted[0]) != len(painted[1]):
            longer = max(painted, key=len)
            return f"layer {longer[min(map(len, painted))].layer} is there in one run alone"
        made = painted[0][-1].after if painted[0] else "000000ff"
        return f"the layers are the same in both, and make it {made}"

    # The end.

    def of_end(self):
        """What is left at the end in one of them alone."""
        for step in sorted(set(self.base.applied.values()) | set(self.other.applied.values())):
            if step not in self.base.taken:
                told = [side.outcome(step, self.is_by_turns) for side in (self.base, self.other)]
                if told[0] != told[1]:
                    yield self.difference("transaction", self.base.step_text(*step), *told)
        for step in sorted(set(self.base.stuck) ^ set(self.other.stuck)):
            if step not in self.base.replies and step not in self.other.replies:
                yield self.difference("step", self.base.step_text(*step), *(self.ending(side, step) for side in (self.base, self.other)))
        for state in [state for state in self.other.states if state not in self.base.states]:
            number = self.other.course.moments[self.other.states[state]].number
            yield self.difference("frame", f"vsync {number}", "never shows that", f"shows what {self.other.steps_text(state)} made")

    @staticmethod
    def ending(side, step):
        return f"waits to the end: {side.stuck[step]}" if step in side.stuck else "not reached"
