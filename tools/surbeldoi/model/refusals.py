"""Why a step was refused, in a sentence: by what its actor holds, or by the state of the queue that it calls."""

from surbeldoi.model import queues
from surbeldoi.model.queues import BAD_VALUE, INVALID_OPERATION, MOST_PIXELS, NO_BUFFER, NO_INIT, NO_SLOT_FREE, PRESENT_LATER, SLOTS, STALE, WOULD_BLOCK
from surbeldoi.model.steps import EMPTY, OCCUPIED, Frame, Lent, Loose, Owing

# What a name holds, in words.
HELD = {Lent: "a lent buffer", Owing: "a frame whose draw is owed", Frame: "a frame", Loose: "a detached buffer"}
# What a step needs of the name that stands at this place among its words.
NEEDED = {"request": (1, Lent), "draw": (1, Lent), "queue": (1, Lent), "cancel": (1, Lent), "pdetach": (1, Lent), "pattach": (2, Loose),
          "release": (1, Frame), "cdetach": (1, Frame), "cattach": (2, Loose), "buffer": (3, Frame)}
# The steps on a transaction, each with the places of its numbers among the words.
ON_TRANSACTION = {"set": (1,), "desire": (1,), "barrier": (1,), "buffer": (1,), "merge": (1, 2), "apply": (1,)}
STATES = "free", "lent", "waiting as frames", "with the consumer"


def size_text(size):
    return f"{size[0]} x {size[1]}"


# What the actor holds.


def why_not_called(actor, step, status, last_done):
    """Why a step was refused that made no call. `last_done(fits)` is the last step before that was done and whose words fit."""
    if status == EMPTY:
        return why_empty(actor, step, last_done)
    if status == OCCUPIED:
        return why_occupied(actor, step, last_done)
    return why_bad_value(actor, step)


def why_empty(actor, step, last_done):
    words = (step.verb, *step.args)
    for place in ON_TRANSACTION.get(step.verb, ()):
        number = words[place]
        if number not in actor.transactions:
            sent = last_done(lambda other: other[0] == "apply" and int(other[1]) == number)
            begun = last_done(lambda other: other[0] == "tx" and int(other[1]) == number)
            if sent and begun:
                return f"number {number} holds no transaction: line {sent.line} applied it, and no `tx {number}` stands between"
            return f"number {number} holds no transaction: no `tx {number}` before"
    place, kind = NEEDED[step.verb]
    name = words[place]
    if name in actor.names:
        return f"{name} holds {HELD[type(actor.names[name])]}, and the step needs {HELD[kind]}"
    last = last_done(lambda other: name in other[1:])
    return f"{name} holds nothing" + (f": the last step with it is line {last.line}, {' '.join(last.words)}" if last else ": no step before gave it anything")


def why_occupied(actor, step, last_done):
    if step.verb == "tx":
        begun = last_done(lambda other: other[0] == "tx" and int(other[1]) == step.args[0])
        return f"number {step.args[0]} holds a transaction already" + (f", which line {begun.line} began" if begun else "")
    name = step.args[-1]
    given = last_done(lambda other: "as" in other and other[other.index("as") + 1:][:1] == [name])
    return f"{name} holds {HELD[type(actor.names[name])]} already" + (f", since line {given.line}" if given else "")


def why_bad_value(actor, step):
    token = actor.names.get(step.args[-1] if step.verb == "buffer" else step.args[0])
    if step.verb == "merge":
        return "a transaction is not merged into itself"
    if step.verb == "buffer":
        return "it was attached by the consumer, and is no frame"
    if step.verb in ("pdetach", "cdetach"):
        return "its fence is not signalled yet"
    picture = step.args[1]
    if isinstance(token, Owing):
        return f"the frame was queued with picture {token.picture}, and not {picture}"
    if step.verb == "queue":
        return f"picture {token.drawn} was drawn in it, and not {picture}"
    return f"picture {picture} is {size_text(actor.pictures[picture])}, and the buffer {size_text(token.size)}"


# What the queue is.


def why_refused(number, queue, caller, call, status):
    """Why a queue of this number refuses a call, where it has just this state."""
    if status == NO_INIT:
        return why_no_init(number, queue, caller)
    reason = {BAD_VALUE: why_bad_call, INVALID_OPERATION: why_limited, WOULD_BLOCK: why_full, NO_SLOT_FREE: why_full, NO_BUFFER: why_nothing_waits,
              PRESENT_LATER: why_later, STALE: why_stale}.get(status)
    return reason(number, queue, call) if reason else None


def why_no_init(number, queue, caller):
    if queue.is_abandoned:
        return f"queue {number} is abandoned"
    by = f": actor {queue.producer} is" if queue.producer is not None else ""
    return f"actor {caller} is not connected to queue {number}{by}"


def why_bad_call(number, queue, call):
    if call.kind == queues.CONNECT:
        return f"actor {queue.producer} is connected to queue {number} already"
    if call.kind in (queues.MAX_DEQUEUED, queues.MAX_ACQUIRED, queues.ASYNC):
        return why_bad_setting(number, queue, call)
    if call.kind == queues.DEQUEUE:
        return f"a size of {size_text(call.size)} is none: 1 to {MOST_PIXELS} each, or 0 0"
    if call.kind == queues.QUEUE:
        return why_bad_queue(queue, call)
    if call.slot >= SLOTS or not queue.holds(call, queues.DEQUEUED if call.kind in queues.OF_PRODUCER else queues.ACQUIRED):
        return f"slot {call.slot} of queue {number} does not hold this buffer any more"
    return "the buffer was not requested"


def why_bad_queue(queue, call):
    (x, y, width, height), (_, size) = call.crop, call.picture
    if not width or not height or x + width > call.size[0] or y + height > call.size[1]:
        return f"the crop {x} {y} {width} {height} is not inside the buffer of {size_text(call.size)}"
    if size != call.size:
        return f"picture {call.picture[0]} is {size_text(size)}, and the buffer {size_text(call.size)}"
    if queue.holds(call, queues.DEQUEUED):
        return "the buffer was not requested: a new buffer needs a `request` before it is queued"
    return f"slot {call.slot} does not hold this buffer any more"


def why_bad_setting(number, queue, call):
    most = {queues.MAX_DEQUEUED: 63, queues.MAX_ACQUIRED: 62}.get(call.kind, 1)
    if call.kind != queues.ASYNC and not 1 <= call.number <= most:
        return f"{call.number} is not from 1 to {most}"
    lent = queue.count(queues.DEQUEUED)
    if call.kind == queues.MAX_DEQUEUED and call.number < lent:
        return f"queue {number} has lent {lent} buffers"
    return f"queue {number} would have more than {SLOTS} slots, or lose one that is not free"


def why_limited(number, queue, call):
    if call.kind == queues.MAX_ACQUIRED:
        return f"actor {queue.producer} is connected to queue {number}, and the limit is set before"
    if call.kind in (queues.ACQUIRE, queues.ATTACH_READ):
        return f"of queue {number}, {queue.count(queues.ACQUIRED)} of at most {queue.max_acquired + 1} frames are acquired"
    return f"queue {number} has lent {queue.count(queues.DEQUEUED)} of at most {queue.max_dequeued}, and a frame was queued"


def why_full(number, queue, call):
    slots = [slot.state for slot in queue.slots[:queue.usable()]]
    where = ", ".join(f"{slots.count(state)} {text}" for state, text in enumerate(STATES) if slots.count(state))
    return f"queue {number} has no free slot: {where}"


def why_nothing_waits(number, queue, call):
    return f"no frame waits in queue {number}"


def why_later(number, queue, call):
    item = queue.items[queue.dropped(call.number)]
    return f"frame {item.frame} of queue {number} is for {item.present_time()} ns, later than {call.number}"


def why_stale(number, queue, call):
    return f"slot {call.slot} of queue {number} has frame {queue.slots[call.slot].frame} by now, and not {call.frame}"
