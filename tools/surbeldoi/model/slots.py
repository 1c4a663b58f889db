"""The slots of a queue, followed through the calls of its history by the model of a queue."""

from typing import NamedTuple

from surbeldoi.model.queues import ACQUIRED as IS_ACQUIRED, NO_SLOT, OK, QUEUED as IS_QUEUED, RELEASE, Queue
from surbeldoi.model.refusals import why_refused
from surbeldoi.model.steps import frame_call
from surbeldoi.records.wording import CALLS, STATUSES, named

FREE, DEQUEUED, QUEUED, ACQUIRED = STATES = "free", "dequeued", "queued", "acquired"
COMPOSITOR = 0


class Entry(NamedTuple):
    """A call of a history."""

    caller: int
    step: int
    kind: int
    status: int
    slot: int
    frame: int

    def answer(self):
        slot = "no slot" if self.slot == NO_SLOT else f"slot {self.slot}"
        return f"{named(STATUSES, self.status)}, {slot}, frame {self.frame}"


class QueueRun:
    """A queue whose history is followed, call by call. Each change of a slot is noted as the number of the call, from 0, the slot, its
    state and its frame; and why calls of steps were refused. Where the history does not fit the calls that were made, `fault` says so, and
    nothing more is followed."""

    def __init__(self, number, size, calls, reader):
        self.number, self.size, self.queue, self.calls, self.reader = number, size, Queue(size), [Entry(*call) for call in calls], reader
        self.at, self.changes, self.reasons, self.fault = 0, [], {}, None
        self.released, self.taken, self.states = [], {}, {}

    def release(self, frame, is_read):
        """A vsync gave back a frame."""
        self.released.append(frame_call(RELEASE, frame, {} if is_read else frame.fence))

    def made(self, entry):
        """The call of an entry, by who made it, and what it gave where it is told; None where there is none."""
        at = self.taken.get(entry.caller, 0)
        self.taken[entry.caller] = at + 1
        if entry.caller == COMPOSITOR:
            return (self.released[at], None) if at < len(self.released) else (None, None)
        calls = self.reader.calls[self.number].get(entry.caller, ())
        made = calls[at] if at < len(calls) else None
        return (made.call, made.token) if made and made.step == entry.step else (None, None)

    def take(self):
        """Follows the next call."""
        entry, place = self.calls[self.at], self.at
        self.at += 1
        call, token = (None, None) if self.fault else self.made(entry)
        if self.fault or call is None or call.kind != entry.kind:
            self.fault = self.fault or f"call {place + 1}, {named(CALLS, entry.kind)}, is none that was made"
            return
        reply = self.queue.reply(entry.caller, call)
        due = Entry(*entry[:3], reply.status, reply.slot, reply.frame)
        if entry != due:
            self.fault = f"call {place + 1}, {named(CALLS, entry.kind)}, has {entry.answer()}, where the calls before make it {due.answer()}"
            return
        if entry.status != OK and entry.caller != COMPOSITOR:
            self.reasons[entry.caller, entry.step] = why_refused(self.number, self.queue, entry.caller, call, entry.status)
        if token:
            token.buffer, token.came_requested, token.frames = reply.buffer, reply.requested, reply.frames
        self.note(place)

    def note(self, place):
        """Notes which slots a call changed."""
        now = {at: (STATES[slot.state], slot.frame if slot.state in (IS_QUEUED, IS_ACQUIRED) else 0) for at, slot in enumerate(self.queue.slots) if slot.state}
        for at in sorted(self.states.keys() | now.keys()):
            if self.states.get(at) != now.get(at):
                self.changes.append([place, at, *now.get(at, (FREE, 0))])
        self.states = now

    def follow(self, until=None):
        """Follows the calls that are left, or the first ones up to a number of them."""
        until = len(self.calls) if until is None else until
        while self.at < until:
            self.take()

    def again(self, reader):
        """The same queue before its first call, beside what follows the replies again."""
        run = QueueRun(self.number, self.size, self.calls, reader)
        run.released = self.released
        return run
