"""A queue of buffers on one thread: what it replies to each call, after the calls before."""

from typing import NamedTuple

(OK, STALE, NO_BUFFER, PRESENT_LATER) = range(4)
(NO_INIT, BAD_VALUE, INVALID_OPERATION, WOULD_BLOCK, NO_SLOT_FREE) = range(10, 15)
(CONNECT, DISCONNECT, MAX_DEQUEUED, ASYNC, DEQUEUE, REQUEST, QUEUE, CANCEL, DETACH, ATTACH, MAX_ACQUIRED, ABANDON, ACQUIRE, RELEASE,
 DETACH_READ, ATTACH_READ) = range(1, 17)
OF_PRODUCER = (DISCONNECT, DEQUEUE, REQUEST, QUEUE, CANCEL, DETACH, ATTACH)
FREE, DEQUEUED, QUEUED, ACQUIRED = range(4)
SLOTS, MOST_PIXELS, SECOND = 64, 512, 1_000_000_000
NO_SLOT = 4294967295


def merged(fence, other):
    """The points of two fences, of each timeline the greatest value."""
    both = dict(fence)
    for timeline, value in other.items():
        both[timeline] = max(value, both.get(timeline, 0))
    return both


def fence_of(points):
    """The fence of these points; a point of value 0 adds nothing."""
    fence = {}
    for timeline, value in points:
        if value > fence.get(timeline, 0):
            fence[timeline] = value
    return fence


def open_point(fence, values):
    """The lowest timeline of a fence that has not reached its value, with this value, or None."""
    return next(((timeline, fence[timeline]) for timeline in sorted(fence) if values.get(timeline, 0) < fence[timeline]), None)


def points_of(fence):
    return [number for point in sorted(fence.items()) for number in point]


class Call(NamedTuple):
    """A call: its kind, and what the kind needs of a slot, a frame, the number and size of a buffer, a number, a picture with
    its number and size, a present time, a crop, and a fence."""

    kind: int
    slot: int = NO_SLOT
    frame: int = 0
    buffer: int = 0
    size: tuple = (0, 0)
    number: int = 0
    picture: tuple = (0, (0, 0))
    time: int = None
    crop: tuple = (0, 0, 0, 0)
    fence: dict = {}


class Reply(NamedTuple):
    """A reply: the status, the slot and the frame as a history shows them, the values of a step, and of what was given the
    number of its buffer, whether it was requested, its fence and its crop; and how many frames the queue had got so far."""

    status: int
    slot: int = NO_SLOT
    frame: int = 0
    values: list = []
    buffer: int = 0
    requested: bool = False
    fence: dict = {}
    crop: tuple = None
    frames: int = 0


class Slot:
    def __init__(self):
        self.state, self.buffer, self.size, self.requested, self.fence, self.frame = FREE, 0, None, False, {}, 0

    def empty(self):
        self.state, self.buffer, self.size, self.requested, self.fence = FREE, 0, None, False, {}


class Item(NamedTuple):
    """A frame that waits; `time` is None where it is automatic."""

    slot: int
    frame: int
    picture: int
    time: int
    crop: tuple
    fence: dict
    may_be_replaced: bool

    def present_time(self):
        return self.time or 0


class Queue:
    """A queue of this size. Slots that are FREE and have a buffer stand in `freed`, the one that came back longest ago first."""

    def __init__(self, size):
        self.size, self.slots, self.freed, self.items = size, [Slot() for _ in range(SLOTS)], [], []
        self.max_acquired, self.max_dequeued, self.is_async = 1, 1, 0
        self.producer, self.is_abandoned, self.was_queued, self.frames, self.buffers = None, False, False, 0, 0

    def usable(self):
        return self.max_acquired + self.max_dequeued + self.is_async

    def count(self, state):
        return [slot.state for slot in self.slots].count(state)

    def forbids(self, usable):
        """So many usable slots are too many, or leave out one that is not FREE."""
        return usable > SLOTS or any(slot.state != FREE for slot in self.slots[usable:])

    def has_free(self):
        return any(slot.state == FREE for slot in self.slots[:self.usable()])

    def free_without_buffer(self):
        return next((at for at, slot in enumerate(self.slots[:self.usable()]) if slot.state == FREE and not slot.buffer), None)

    def holds(self, call, state):
        """The slot of a call is in a state with the call's buffer. The calls on frames name no buffer: the frame tells it."""
        if call.slot >= SLOTS:
            return False
        slot = self.slots[call.slot]
        return slot.state == state and (call.buffer or slot.buffer) == slot.buffer and slot.size == call.size

    def refusal(self, caller, call):
        """Why a call is refused, by the first cause that is met, or OK."""
        if self.is_abandoned or call.kind in OF_PRODUCER and self.producer != caller:
            return NO_INIT
        return TESTS[call.kind](self, call)

    def test_nothing(self, call):
        return OK

    def test_connect(self, call):
        return BAD_VALUE if self.producer is not None else OK

    def test_max_dequeued(self, call):
        wrong = not 1 <= call.number <= 63 or call.number < self.count(DEQUEUED)
        return BAD_VALUE if wrong or self.forbids(self.max_acquired + call.number + self.is_async) else OK

    def test_async(self, call):
        return BAD_VALUE if self.forbids(self.max_acquired + self.max_dequeued + call.number) else OK

    def test_lending(self, call):
        if self.was_queued and self.count(DEQUEUED) >= self.max_dequeued:
            return INVALID_OPERATION
        return OK if self.has_free() else WOULD_BLOCK

    def test_dequeue(self, call):
        width, height = call.size
        wrong = (width == 0) != (height == 0) or max(width, height) > MOST_PIXELS
        return BAD_VALUE if wrong else self.test_lending(call)

    def test_lent(self, call):
        return OK if self.holds(call, DEQUEUED) else BAD_VALUE

    def test_requested(self, call):
        return OK if self.holds(call, DEQUEUED) and self.slots[call.slot].requested else BAD_VALUE

    def test_queue(self, call):
        (x, y, width, height), (of_width, of_height) = call.crop, call.size
        fits = width and height and x + width <= of_width and y + height <= of_height
        return self.test_requested(call) if fits and call.picture[1] == call.size else BAD_VALUE

    def test_max_acquired(self, call):
        if not 1 <= call.number <= 62:
            return BAD_VALUE
        if self.producer is not None:
            return INVALID_OPERATION
        return BAD_VALUE if self.forbids(call.number + self.max_dequeued + self.is_async) else OK

    def test_taking(self):
        return INVALID_OPERATION if self.count(ACQUIRED) >= self.max_acquired + 1 else OK

    def test_acquire(self, call):
        if self.test_taking() or not self.items:
            return self.test_taking() or NO_BUFFER
        time = self.items[self.dropped(call.number)].present_time()
        return OK if call.number == 0 or time <= call.number or time > call.number + SECOND else PRESENT_LATER

    def test_taken(self, call):
        if call.slot >= SLOTS:
            return BAD_VALUE
        if self.slots[call.slot].frame != call.frame:
            return STALE
        return OK if self.holds(call, ACQUIRED) else BAD_VALUE

    def test_attach_read(self, call):
        return self.test_taking() or (OK if self.has_free() else NO_SLOT_FREE)

    def dropped(self, expected):
        """How many frames an acquire drops that expects this time."""
        count = 0
        while expected and count + 1 < len(self.items) and self.items[count].time is not None:
            second = self.items[count + 1].present_time()
            if not second <= expected <= second + SECOND:
                break
            count += 1
        return count

    def reply(self, caller, call):
        """The reply to a call, which is then made."""
        status = self.refusal(caller, call)
        if status == OK:
            return DOES[call.kind](self, caller, call)
        return Reply(status, call.slot, call.frame)

    def make(self, at, size, requested):
        """A new buffer in a slot."""
        slot = self.slots[at]
        self.buffers += 1
        slot.buffer, slot.size, slot.requested, slot.fence = self.buffers, size, requested, {}

    def take_free(self, at):
        """A slot that is lent or acquired is none of those that came back."""
        if at in self.freed:
            self.freed.remove(at)

    def give_back(self, at, fence=None):
        """A buffer comes back to its slot, with this fence or with the one that the slot has."""
        slot = self.slots[at]
        slot.state, slot.fence = FREE, slot.fence if fence is None else fence
        self.freed.append(at)

    def empty(self, at):
        self.slots[at].empty()
        self.take_free(at)

    def empty_unusable(self):
        for at in range(self.usable(), SLOTS):
            self.empty(at)

    def do_connect(self, caller, call):
        self.producer, self.was_queued = caller, False
        return Reply(OK)

    def do_disconnect(self, caller, call):
        for at, slot in enumerate(self.slots):
            slot.requested = False
            if slot.state in (FREE, DEQUEUED):
                self.empty(at)
        self.producer = None
        return Reply(OK)

    def do_max_dequeued(self, caller, call):
        self.max_dequeued = call.number
        self.empty_unusable()
        return Reply(OK)

    def do_max_acquired(self, caller, call):
        self.max_acquired = call.number
        self.empty_unusable()
        return Reply(OK)

    def do_async(self, caller, call):
        self.is_async = call.number
        self.empty_unusable()
        return Reply(OK)

    def do_abandon(self, caller, call):
        for at in range(SLOTS):
            self.empty(at)
        self.items, self.is_abandoned = [], True
        return Reply(OK)

    def do_dequeue(self, caller, call):
        at = self.freed[0] if self.freed else self.free_without_buffer()
        size, slot = (self.size if call.size == (0, 0) else call.size), self.slots[at]
        self.take_free(at)
        is_new = slot.size != size
        if is_new:
            self.make(at, size, False)
        fence, slot.fence, slot.state = slot.fence, {}, DEQUEUED
        values = [at, slot.buffer, int(is_new)] + points_of(fence)
        return Reply(OK, at, 0, values, slot.buffer, slot.requested, fence, frames=self.frames)

    def do_attach(self, caller, call):
        at = self.free_without_buffer()
        at = self.freed[0] if at is None else at
        self.take_free(at)
        is_read, slot = call.kind == ATTACH_READ, self.slots[at]
        self.make(at, call.size, not is_read)
        slot.state, slot.frame = (ACQUIRED, 0) if is_read else (DEQUEUED, slot.frame)
        return Reply(OK, at, 0, [at] if is_read else [at, slot.buffer], slot.buffer, slot.requested, frames=self.frames)

    def do_request(self, caller, call):
        slot = self.slots[call.slot]
        slot.requested = True
        return Reply(OK, call.slot, 0, [call.slot, slot.buffer, *slot.size])

    def do_queue(self, caller, call):
        self.frames += 1
        slot = self.slots[call.slot]
        slot.state, slot.fence, slot.frame, self.was_queued = QUEUED, call.fence, self.frames, True
        if self.items and self.items[-1].may_be_replaced:
            self.give_back(self.items.pop().slot)
        self.items.append(Item(call.slot, self.frames, call.picture[0], call.time, call.crop, call.fence, bool(self.is_async)))
        return Reply(OK, call.slot, self.frames, [call.slot, self.frames])

    def do_give_back(self, caller, call):
        self.give_back(call.slot, call.fence)
        return Reply(OK, call.slot, call.frame)

    def do_detach(self, caller, call):
        self.empty(call.slot)
        return Reply(OK, call.slot, call.frame)

    def do_acquire(self, caller, call):
        dropped = self.dropped(call.number)
        for item in self.items[:dropped]:
            self.give_back(item.slot)
        item, self.items = self.items[dropped], self.items[dropped + 1:]
        slot = self.slots[item.slot]
        slot.state, slot.fence = ACQUIRED, {}
        values = [item.slot, item.frame, item.picture, dropped] + points_of(item.fence)
        return Reply(OK, item.slot, item.frame, values, slot.buffer, False, item.fence, item.crop)


TESTS = {
    CONNECT: Queue.test_connect, DISCONNECT: Queue.test_nothing, MAX_DEQUEUED: Queue.test_max_dequeued, ASYNC: Queue.test_async,
    DEQUEUE: Queue.test_dequeue, REQUEST: Queue.test_lent, QUEUE: Queue.test_queue, CANCEL: Queue.test_lent, DETACH: Queue.test_requested,
    ATTACH: Queue.test_lending, MAX_ACQUIRED: Queue.test_max_acquired, ABANDON: Queue.test_nothing, ACQUIRE: Queue.test_acquire,
    RELEASE: Queue.test_taken, DETACH_READ: Queue.test_taken, ATTACH_READ: Queue.test_attach_read,
}
DOES = {
    CONNECT: Queue.do_connect, DISCONNECT: Queue.do_disconnect, MAX_DEQUEUED: Queue.do_max_dequeued, ASYNC: Queue.do_async,
    DEQUEUE: Queue.do_dequeue, REQUEST: Queue.do_request, QUEUE: Queue.do_queue, CANCEL: Queue.do_give_back, DETACH: Queue.do_detach,
    ATTACH: Queue.do_attach, MAX_ACQUIRED: Queue.do_max_acquired, ABANDON: Queue.do_abandon, ACQUIRE: Queue.do_acquire,
    RELEASE: Queue.do_give_back, DETACH_READ: Queue.do_detach, ATTACH_READ: Queue.do_attach,
}
