"""The calls on the queues of a run: each history has the calls that steps and vsyncs made, answered as those before say."""

from surbeldoi.check.ordering import Refused
from surbeldoi.check.tracing import step_text
from surbeldoi.model.queues import RELEASE, WOULD_BLOCK, Queue
from surbeldoi.model.steps import frame_call
from surbeldoi.records.wording import CALLS, NO_SLOT, STATUSES, named

COMPOSITOR = 0


class History:
    """The calls on a queue, as those who made them made them, in the order of the queue's record."""

    def __init__(self, traces, record, released):
        self.traces, self.record, self.number = traces, record, record.fields["queue"]
        self.queue = Queue(traces.scene.queues[self.number])
        self.released = [(vsync, frame_call(RELEASE, frame, {} if is_read else frame.fence)) for vsync, frame, is_read in reversed(released)]
        self.made = {actor: list(reversed(calls)) for actor, calls in traces.calls[self.number].items()}
        self.where = record.text()

    def refused(self, why):
        return Refused("calls", self.where, why)

    def next_call(self, caller):
        """The next call of a caller, with its step, and how a step made it."""
        if caller == COMPOSITOR:
            if not self.released:
                raise self.refused("no vsync gives back a further frame")
            return (*self.released.pop(), None)
        if not self.made.get(caller):
            raise self.refused(f"actor {caller} made no further call on this queue")
        made = self.made[caller].pop()
        return made.step, made.call, made

    def check(self):
        for place, entry in enumerate(self.record.fields["calls"], 1):
            self.where = f"{self.record.text()} of queue {self.number}, call {place}"
            self.check_entry(*entry)
        self.where = f"{self.record.text()} of queue {self.number}"
        left = [(COMPOSITOR, *call, None) for call in self.released[-1:]]
        left += [(actor, made[-1].step, made[-1].call, made[-1]) for actor, made in self.made.items() if made]
        for caller, step, call, _ in left:
            raise self.refused(f"the call {named(CALLS, call.kind)} of {caller_text(caller, step)} is missing")

    def check_entry(self, caller, step, kind, *told):
        due, call, made = self.next_call(caller)
        if (step, kind) != (due, call.kind):
            raise self.refused(f"it is {named(CALLS, kind)} of {caller_text(caller, step)}, who makes {named(CALLS, call.kind)} next, as {caller_text(caller, due)}")
        reply = self.queue.reply(caller, call)
        if made and made.may_block and reply.status == WOULD_BLOCK:
            raise Refused("traces", step_text(self.traces.scene, made.reply), "it is refused for want of a free slot, where it has to wait")
        if told != (reply.status, reply.slot, reply.frame):
            raise self.refused(f"it has {answer_text(*told)}, where the calls before make it {answer_text(reply.status, reply.slot, reply.frame)}")
        if made and made.reply:
            self.check_reply(made.reply, reply)
        if made and made.token:
            made.token.buffer, made.token.came_requested, made.token.frames = reply.buffer, reply.requested, reply.frames

    def check_reply(self, record, reply):
        """The step's reply says what the queue replied."""
        told, values = record.fields["status"], [value for value, in record.fields["values"]]
        if told != reply.status:
            raise Refused("replies", step_text(self.traces.scene, record), f"it says {named(STATUSES, told)}, where the calls before make it {named(STATUSES, reply.status)}")
        if values != reply.values:
            raise Refused("replies", step_text(self.traces.scene, record), f"it has the values {values}, where the calls before make them {reply.values}")


def caller_text(caller, step):
    return f"actor {caller}, step {step}" if caller else f"the compositor, vsync {step}"


def answer_text(status, slot, frame):
    return f"{named(STATUSES, status)}, {'no slot' if slot == NO_SLOT else f'slot {slot}'}, frame {frame}"


def check_histories_are_due(scene, histories):
    queues = [history.fields["queue"] for history in histories]
    if queues != sorted(scene.queues):
        where = histories[0].text() if histories else "the stream"
        raise Refused("calls", where, f"there are histories of the queues {queues}, and the scene has {sorted(scene.queues)}")
