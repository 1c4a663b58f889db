"""What steps and vsyncs of a run learn without a call: that a point is signalled, where one actor alone can have done it, and that a
draw is done."""

from bisect import bisect_left

from surbeldoi.check.events import Learned
from surbeldoi.check.tracing import Kept, is_fenced

SAW, WAITED, DREW, SHOWED = "which saw its value", "which waited for its point", "which waited for its draw", "which commits its frame"


class Signals:
    """Which step first signalled what, of one actor alone."""

    def __init__(self, signalled):
        """`signalled` has the actor, the step, the timeline and the value of each signal. Each timeline is at 0 without one."""
        self.exact, self.values, self.least = {}, {}, {}
        by_value = {}
        for actor, step, timeline, value in signalled:
            if value:
                self.exact.setdefault((timeline, value), []).append((actor, step))
                by_value.setdefault(timeline, []).append((value, actor, step))
        for timeline, signals in by_value.items():
            self.note(timeline, sorted(signals, reverse=True))

    def note(self, timeline, signals):
        """Notes, of each value of a timeline, the first step that signalled as much, or None where several actors did."""
        first, self.values[timeline], self.least[timeline] = signals[0][1:], [], []
        for value, actor, step in signals:
            first = min(first, (actor, step)) if first and first[0] == actor else None
            self.values[timeline].append(-value)
            self.least[timeline].append(first)

    def of_value(self, timeline, value):
        """The first step that signalled this value, or None."""
        steps = self.exact.get((timeline, value), ())
        return min(steps) if len({actor for actor, _ in steps}) == 1 else None

    def at_least(self, timeline, value):
        """The first step that signalled this value or more, or None."""
        count = bisect_left(self.values.get(timeline, ()), 1 - value)
        return self.least[timeline][count - 1] if count else None


def at(reply):
    return reply.fields["actor"], reply.fields["step"]


def by_points(traces, signals):
    """What steps learn by fences."""
    for steps in traces.passed.values():
        for passed in steps:
            fence = passed.fence if not isinstance(passed, Kept) else passed.token.fence if passed.is_made and is_fenced(passed) else {}
            for timeline, value in fence.items():
                yield signals.at_least(timeline, value), at(passed.reply), WAITED


def by_draws(traces, makers):
    """What draws learn that enter pixels: of those that were owed before, the last one is done, which was so of the one before it."""
    owed = {}
    for one in traces.owed.values():
        maker, turn = makers.turn_of(one.owing)
        owed.setdefault(maker, {})[turn] = one.paid
    turns = {maker: sorted(paid) for maker, paid in owed.items()}
    for reply, token in traces.entered:
        maker, turn = makers.turn_of(token)
        before = bisect_left(turns.get(maker, ()), turn)
        if before:
            yield min(owed[maker][turns[maker][before - 1]], default=None), at(reply), DREW


def by_vsyncs(traces, vsyncs, signals):
    """What vsyncs learn: the values that they saw, and that what they commit is drawn."""
    paid = {(one.owing.queue, one.owing.frame): one.paid for one in traces.owed.values()}
    for vsync in vsyncs:
        number = vsync.record.fields["number"]
        for timeline, value in vsync.record.fields["timelines"]:
            yield signals.of_value(timeline, value), number, SAW
        for commit in vsync.commits:
            for _, queue, frame, *_ in commit.fields["buffers"]:
                yield min(paid.get((queue, frame), ()), default=None), number, SHOWED


def learned_in(traces, makers, vsyncs):
    """What was learned without a call in a run."""
    signals = Signals(traces.signalled)
    told = [*by_points(traces, signals), *by_draws(traces, makers), *by_vsyncs(traces, vsyncs, signals)]
    return [Learned(*one) for one in told if one[0] is not None and one[0] != one[1]]
