"""Whether a vsync passes over an arrival, that is, leaves it though nothing holds it and a later one is committed."""

from heapq import heappop, heappush

from surbeldoi.check.events import by_text
from surbeldoi.check.ordering import Refused
from surbeldoi.model.transactions import BARRIER, UNDRAWN, hold_of


class Passing:
    """Asks at the end of each vsync about each arrival that is the first of its token without a commit, where a later one is committed:
    something has to hold it. A vsync has seen the frames as written that their sender had written itself; of all others that none of its
    commits shows it may have seen none. A frame that is queued drawn counts as written only behind its call, so that others may send it before."""

    def __init__(self, traces, vsyncs, senders):
        self.vsyncs, self.senders, self.pending = vsyncs, senders, vsyncs.pending
        # Who wrote each frame at which step: who queued it, and who drew it where that was owed.
        self.writers = {frame: [by] for frame, by in traces.queued.items()}
        self.writers.update(((owed.owing.queue, owed.owing.frame), owed.paid) for owed in traces.owed.values())
        # The greatest arrival that is committed, by which vsync; and the first arrivals of tokens that are not below it, as a heap.
        self.greatest, self.committed_by = 0, 0
        self.above = sorted(left[-1] for left in self.pending.of_token.values())
        # Those below that are asked about at the next vsync, and those that a barrier holds, by its layer. What a write holds is asked no more.
        self.asked, self.barred = [], {}
        # The first arrival that a vsync passes over, as what refuses it.
        self.passed = None

    def check(self):
        """No vsync that was looked at passes over an arrival."""
        if self.passed:
            raise self.passed

    def look(self, vsync):
        """Looks at the end of a vsync, which is the last one that was checked."""
        for commit in vsync.commits:
            self.note(commit.fields["token"], commit.fields["arrival"])
        for layer in self.vsyncs.stage.fresh:
            self.asked += self.barred.pop(layer, ())
        asked, self.asked = sorted(set(self.asked)), []
        for number in asked:
            if self.is_first(number):
                self.ask(number, vsync.record)

    def refused(self, number, record):
        txn, vsyncs = self.vsyncs.arrivals[number - 1][1], self.vsyncs
        why = "nothing holds it" + (", what it shows was written by its sender" if txn.buffers() else "")
        return Refused("passed over", record.text(), f"vsync {vsyncs.number} passes over {self.text(number)}: {why}, and vsync {self.committed_by} "
                       f"committed {self.text(self.greatest)}")

    def note(self, token, arrival):
        """Notes a commit: the next arrival of its token comes first, and what is below it is asked about."""
        left = self.pending.of_token[token]
        if left:
            heappush(self.above, left[-1])
        if arrival > self.greatest:
            self.greatest, self.committed_by = arrival, self.vsyncs.number
        while self.above and self.above[0] < self.greatest:
            self.asked.append(heappop(self.above))

    def is_first(self, number):
        token, _ = self.vsyncs.arrivals[number - 1]
        return self.pending.of_token[token][-1:] == [number]

    def ask(self, number, record):
        """What holds an arrival at the end of a vsync."""
        txn, vsyncs = self.vsyncs.arrivals[number - 1][1], self.vsyncs
        hold = hold_of(txn, lambda frame: self.is_written(frame, number), vsyncs.stage, vsyncs.seen, record.fields["expected"])
        if hold is None:
            self.passed = self.passed or self.refused(number, record)
        elif hold[0] == BARRIER:
            self.barred.setdefault(hold[1], []).append(number)
        elif hold[0] != UNDRAWN:
            self.asked.append(number)

    def is_written(self, frame, number):
        """Whether the sender of an arrival wrote a frame in an earlier step."""
        actor, step, _ = self.senders[number - 1]
        return any(by == actor and at < step for by, at in self.writers[frame.queue, frame.frame])

    def text(self, number):
        actor, step, token = self.senders[number - 1]
        return f"arrival {number} under token {token}, of {by_text(self.vsyncs.scene, actor, step)}"
