"""Where each step of a run stands in time.

A vsync stands at the time at which its frame is expected. What it does takes the first part of the time to the next one, and the steps
between two vsyncs are spread evenly over the rest, in their order. Between which vsyncs a step of a play was done follows from the order of the
script; of a live run it is not told, and there a step stands as late as those allow that came of it: before the vsync that committed what its actor
applied behind it, before the step that acquired its frame, and before the step that waited for its value.
"""

from collections import deque

from surbeldoi.asking.waiting import COMPOSITOR

# Which part of the time between two vsyncs is the vsync's own.
PART = 5


class Times:
    """The times of a run, in nanoseconds. `steps` has the start of each step that is told, and `spans` how long it lasts."""

    def __init__(self, waiting):
        self.waiting, self.course, self.period = waiting, waiting.course, waiting.period
        self.vsyncs = {moment.number: moment.time for moment in self.course.moments if moment.number is not None}
        self.last = waiting.last
        before = self.before_live() if self.course.is_live else {step: waiting.vsyncs_before(*step) or 0 for step in waiting.replies}
        self.steps, self.spans, of_gap = {}, {}, {}
        for step in self.in_order(before):
            of_gap.setdefault(before[step], []).append(step)
        for vsyncs, steps in of_gap.items():
            self.spread(steps, vsyncs)
        self.end = (max([self.last, *of_gap], default=0) + 1) * self.period

    def spread(self, steps, vsyncs):
        """Spreads steps over the time behind so many vsyncs."""
        start = vsyncs * self.period + (self.period // PART if vsyncs else 0)
        span = ((vsyncs + 1) * self.period - start) // (len(steps) + 1)
        for place, step in enumerate(steps):
            self.steps[step], self.spans[step] = start + span * place + span // 2, span

    def of_caller(self, caller, step):
        """When a call of a queue was made."""
        if caller != COMPOSITOR:
            return self.steps.get((caller, step), self.end)
        return self.vsyncs.get(step, step * self.period) + self.period // (2 * PART)

    # Live runs.

    def in_order(self, before):
        """The steps in an order in which they may have been done: in that of their replies, where it is told."""
        if not self.course.is_live:
            return [(reply.actor, reply.step) for reply in self.course.replies]
        gaps = {}
        for step in sorted(before):
            gaps.setdefault(before[step], {}).setdefault(step[0], deque()).append(step)
        placed, causes = {}, self.causes()
        for _, of_actors in sorted(gaps.items()):
            self.place(of_actors, placed, causes)
        return list(placed)

    @staticmethod
    def place(of_actors, placed, causes):
        """Places the steps of some actors behind those that were placed before: an actor's as long as what it needs was placed."""
        while any(of_actors.values()):
            count = len(placed)
            for steps in of_actors.values():
                while steps and (steps[0] not in causes or causes[steps[0]] in placed):
                    placed[steps.popleft()] = True
            if len(placed) == count:
                placed[next(steps for steps in of_actors.values() if steps).popleft()] = True

    def causes(self):
        """Of each step that acquired a frame the one that queued it."""
        return {way.acquired: way.queued for way in self.waiting.asked.ways.values() if way.acquired}

    def before_live(self):
        """How many vsyncs are before each step of a live run at the most."""
        taken = {number: moment.number - 1 for number, (moment, _) in self.waiting.taken.items()}
        most = {(reply.actor, reply.step): self.last for reply in self.course.replies}
        for number, arrival in self.course.reader.arrivals.items():
            needed = [(doer.actor, doer.step) for need in self.waiting.needs_of(arrival) for doer in need.by if doer.is_done]
            for step in [(arrival.actor, arrival.step), *needed]:
                most[step] = min(most[step], taken.get(number, self.last))
        is_changed = True
        while is_changed:
            is_changed = self.lower(most)
        return most

    def lower(self, most):
        """Brings steps before those that come of them, and answers whether there were such."""
        pairs = [((actor, step), (actor, step + 1)) for actor, step in most] + [(way.queued, way.acquired) for way in self.waiting.asked.ways.values()]
        is_changed = False
        for earlier, later in sorted((pair for pair in pairs if pair[1] in most), reverse=True):
            if most[later] < most[earlier]:
                most[earlier], is_changed = most[later], True
        return is_changed
