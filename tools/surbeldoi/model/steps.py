"""The step table: what each step of an actor does with the actor's names and transaction numbers, and which calls it makes.

A desk answers what a step asks of the world, so that `Actor.take` is the same for a run that is played and for one of
which only the records are there: whether a dequeue blocks, a fence is waited for, a draw waits to enter its pixels
(`blocks`, `waits_for`, `waits_to_enter`) or a detach keeps its buffer (`keeps`), the reply to a call (`reply`), a queue's size
and the number of a transaction that is sent (`size_of`, `send`). It is told what else a step does: `gave`, `attached`,
`owes`, `drawn`, `written`, `signal`, `release_unread`.
"""

from surbeldoi.model import queues
from surbeldoi.model.queues import BAD_VALUE, OK, Call, fence_of, merged
from surbeldoi.model.transactions import SHOW, Barrier, Operation, Transaction

EMPTY, OCCUPIED = 15, 16


class Lent:
    """A lent buffer. `asked` tells that it was requested since it was lent, `drawn` which picture was drawn in it last, and `drawn_at` at
    which step."""

    def __init__(self, queue, reply, size):
        self.queue, self.slot, self.size, self.fence, self.frames = queue, reply.slot, size, reply.fence, reply.frames
        self.buffer, self.came_requested, self.asked, self.drawn, self.drawn_at = reply.buffer, reply.requested, False, None, None


class Shown:
    """What a name holds of a frame: one whose draw is owed, or one to be shown."""


class Owing(Shown):
    """The draw of a frame that was queued undrawn."""

    owed = True

    def __init__(self, lent, frame, picture):
        self.queue, self.lent, self.frame, self.picture = lent.queue, lent, frame, picture
        self.fence, self.size = lent.fence, lent.size

    @property
    def buffer(self):
        return self.lent.buffer


class Frame(Shown):
    """A frame that was acquired, or a buffer that the consumer attached, whose frame number is 0."""

    owed = False

    def __init__(self, queue, reply, frame, size, picture):
        self.queue, self.slot, self.frame, self.size, self.picture = queue, reply.slot, frame, size, picture
        self.crop, self.fence, self.buffer = reply.crop, reply.fence, reply.buffer


class Loose:
    """A buffer in no queue, with what it was in its last one."""

    def __init__(self, was):
        self.was, self.size = was, was.size


def lent_call(kind, lent, **more):
    return Call(kind, slot=lent.slot, buffer=lent.buffer, size=lent.size, **more)


def dequeue_call(step):
    return Call(queues.DEQUEUE, size=step.more.get("size", [(0, 0)])[0])


def frame_call(kind, frame, fence):
    return Call(kind, slot=frame.slot, frame=frame.frame, size=frame.size, fence=fence)


class Answer:
    """The answer of a step: its status and values, and whether it is a call's."""

    def __init__(self, status, values=(), is_of_call=False):
        self.status, self.values, self.is_of_call = status, list(values), is_of_call


class Actor:
    """What an actor's names and transaction numbers hold, and how many steps it has done. A name that holds nothing is not
    in `names`. The methods `waits_at_` of a step say whether it has to wait, and change nothing; the methods `do_` answer it."""

    def __init__(self, number, steps, pictures):
        self.number, self.steps, self.pictures = number, steps, pictures
        self.done, self.names, self.transactions = 0, {}, {}

    def next_step(self):
        return self.steps[self.done] if self.done < len(self.steps) else None

    def take(self, desk):
        """Takes the next step. Its answer, or None where it has to wait."""
        if self.waits(desk):
            return None
        step = self.next_step()
        answer = getattr(self, "do_" + step.verb)(desk, step, *step.args)
        self.done += 1
        return answer

    def waits(self, desk):
        """Whether the next step has to wait."""
        step = self.next_step()
        asks = getattr(self, "waits_at_" + step.verb, None)
        return asks is not None and asks(desk, step, *step.args)

    def held(self, name, *kinds):
        token = self.names.get(name)
        return token if isinstance(token, kinds) else None

    def is_taken(self, name, emptied=None):
        return name != emptied and name in self.names

    def place(self):
        """The number of the step that is taken."""
        return self.done + 1

    def gave(self, desk, name, token):
        """A call gave what a name holds from now on."""
        self.names[name] = token
        desk.gave(token)

    def setting(self, desk, queue, call):
        reply = desk.reply(self, queue, call)
        return Answer(reply.status, reply.values, True)

    def do_connect(self, desk, step, queue):
        return self.setting(desk, queue, Call(queues.CONNECT))

    def do_disconnect(self, desk, step, queue):
        answer = self.setting(desk, queue, Call(queues.DISCONNECT))
        if answer.status == OK:
            self.names = {name: token for name, token in self.names.items() if not (isinstance(token, Lent) and token.queue == queue)}
        return answer

    def do_maxdequeued(self, desk, step, queue, count):
        return self.setting(desk, queue, Call(queues.MAX_DEQUEUED, number=count))

    def do_async(self, desk, step, queue, flag):
        return self.setting(desk, queue, Call(queues.ASYNC, number=flag))

    def do_maxacquired(self, desk, step, queue, count):
        return self.setting(desk, queue, Call(queues.MAX_ACQUIRED, number=count))

    def do_abandon(self, desk, step, queue):
        return self.setting(desk, queue, Call(queues.ABANDON))

    def waits_at_dequeuewait(self, desk, step, queue, name):
        return not self.is_taken(name) and desk.blocks(self, queue, dequeue_call(step))

    def do_dequeue(self, desk, step, queue, name):
        if self.is_taken(name):
            return Answer(OCCUPIED)
        call = dequeue_call(step)
        size, reply = call.size, desk.reply(self, queue, call)
        if reply.status == OK:
            self.gave(desk, name, Lent(queue, reply, desk.size_of(queue) if size == (0, 0) else size))
        return Answer(reply.status, reply.values, True)

    do_dequeuewait = do_dequeue

    def do_request(self, desk, step, name):
        lent = self.held(name, Lent)
        if lent is None:
            return Answer(EMPTY)
        reply = desk.reply(self, lent.queue, lent_call(queues.REQUEST, lent))
        lent.asked = lent.asked or reply.status == OK
        return Answer(reply.status, reply.values, True)

    def can_not_show(self, token, picture):
        if isinstance(token, Owing):
            return token.picture != picture
        return self.pictures[picture][:2] != token.size

    def refusal_of_draw(self, name, picture):
        token = self.held(name, Lent, Owing)
        if token is None:
            return EMPTY
        return BAD_VALUE if self.can_not_show(token, picture) else OK

    def waits_at_draw(self, desk, step, name, picture):
        if self.refusal_of_draw(name, picture) != OK:
            return False
        token = self.names[name]
        is_first = isinstance(token, Owing) or token.drawn is None
        return is_first and (desk.waits_for(self, token.fence) or desk.waits_to_enter(self, token))

    def do_draw(self, desk, step, name, picture):
        status = self.refusal_of_draw(name, picture)
        if status != OK:
            return Answer(status)
        token = self.names[name]
        if isinstance(token, Owing):
            desk.drawn(self, token)
            del self.names[name]
        else:
            token.drawn, token.drawn_at = picture, self.place()
        return Answer(OK)

    def do_queue(self, desk, step, name, picture):
        lent = self.held(name, Lent)
        if lent is None:
            return Answer(EMPTY)
        if lent.drawn not in (None, picture):
            return Answer(BAD_VALUE)
        more = step.more
        crop = more.get("crop", [(0, 0) + lent.size])[0]
        call = lent_call(queues.QUEUE, lent, picture=(picture, self.pictures[picture][:2]), time=more.get("time", [(None,)])[0][0], crop=crop,
                         fence=fence_of(more.get("fence", [])))
        reply = desk.reply(self, lent.queue, call)
        if reply.status == OK and lent.drawn is None:
            self.names[name] = Owing(lent, reply.frame, picture)
            desk.owes(self, self.names[name])
        elif reply.status == OK:
            del self.names[name]
            desk.written(lent.queue, reply.frame)
        return Answer(reply.status, reply.values, True)

    def do_cancel(self, desk, step, name):
        lent = self.held(name, Lent)
        if lent is None:
            return Answer(EMPTY)
        fence = fence_of(step.more.get("fence", []))
        fence = merged(fence, lent.fence) if lent.drawn is None else fence
        reply = desk.reply(self, lent.queue, lent_call(queues.CANCEL, lent, fence=fence))
        if reply.status == OK:
            del self.names[name]
        return Answer(reply.status, reply.values, True)

    def detach(self, desk, name, to, call):
        """A buffer leaves its queue, where the call is not refused."""
        token = self.names[name]
        reply = desk.reply(self, token.queue, call)
        if reply.status == OK:
            del self.names[name]
            self.names[to] = Loose(token)
        return Answer(reply.status, reply.values, True)

    def do_pdetach(self, desk, step, name, to):
        lent = self.held(name, Lent)
        if lent is None or self.is_taken(to, name):
            return Answer(EMPTY if lent is None else OCCUPIED)
        if desk.keeps(self, lent, queues.DETACH):
            return Answer(BAD_VALUE)
        return self.detach(desk, name, to, lent_call(queues.DETACH, lent))

    def do_cdetach(self, desk, step, name, to):
        frame = self.held(name, Frame)
        if frame is None or self.is_taken(to, name):
            return Answer(EMPTY if frame is None else OCCUPIED)
        if desk.keeps(self, frame, queues.DETACH_READ):
            return Answer(BAD_VALUE)
        return self.detach(desk, name, to, frame_call(queues.DETACH_READ, frame, {}))

    def attach(self, desk, queue, name, to, kind):
        """A loose buffer comes into a queue, where the call is not refused."""
        loose = self.held(name, Loose)
        if loose is None or self.is_taken(to, name):
            return Answer(EMPTY if loose is None else OCCUPIED)
        reply = desk.reply(self, queue, Call(kind, size=loose.size))
        if reply.status == OK:
            del self.names[name]
            self.gave(desk, to, Lent(queue, reply, loose.size) if kind == queues.ATTACH else Frame(queue, reply, 0, loose.size, 0))
            desk.attached(self.names[to], loose)
        return Answer(reply.status, reply.values, True)

    def do_pattach(self, desk, step, queue, name, to):
        return self.attach(desk, queue, name, to, queues.ATTACH)

    def do_cattach(self, desk, step, queue, name, to):
        return self.attach(desk, queue, name, to, queues.ATTACH_READ)

    def do_acquire(self, desk, step, queue, name):
        if self.is_taken(name):
            return Answer(OCCUPIED)
        reply = desk.reply(self, queue, Call(queues.ACQUIRE, number=step.more.get("at", [(0,)])[0][0]))
        if reply.status == OK:
            picture = reply.values[2]
            self.gave(desk, name, Frame(queue, reply, reply.frame, self.pictures[picture][:2], picture))
        return Answer(reply.status, reply.values, True)

    def do_release(self, desk, step, name):
        frame = self.held(name, Frame)
        if frame is None:
            return Answer(EMPTY)
        fence = merged(fence_of(step.more.get("fence", [])), frame.fence)
        reply = desk.reply(self, frame.queue, frame_call(queues.RELEASE, frame, fence))
        if reply.status == OK:
            del self.names[name]
        return Answer(reply.status, reply.values, True)

    def do_signal(self, desk, step, timeline, value):
        desk.signal(self, timeline, value)
        return Answer(OK)

    def waits_at_wait(self, desk, step, timeline, value):
        return desk.waits_for(self, fence_of([(timeline, value)]))

    def do_wait(self, desk, step, timeline, value):
        return Answer(OK)

    def do_tx(self, desk, step, number):
        if number in self.transactions:
            return Answer(OCCUPIED)
        self.transactions[number] = Transaction()
        return Answer(OK)

    def operation(self, layer, change):
        """An operation of the step that is taken."""
        return Operation(layer, change, (self.number, self.place()))

    def do_set(self, desk, step, number, layer, change):
        if number not in self.transactions:
            return Answer(EMPTY)
        self.transactions[number].add(self.operation(layer, change))
        return Answer(OK)

    def do_desire(self, desk, step, number, time):
        if number not in self.transactions:
            return Answer(EMPTY)
        self.transactions[number].desired = time
        return Answer(OK)

    def do_barrier(self, desk, step, number, layer, frame):
        if number not in self.transactions:
            return Answer(EMPTY)
        self.transactions[number].barriers.append(Barrier(layer, frame, (self.number, self.place())))
        return Answer(OK)

    def release_unread(self, desk, frames):
        """Frames whose places in a transaction others took go back with their own fences; what the queue says is not told."""
        for frame in frames:
            desk.release_unread(self, frame, frame_call(queues.RELEASE, frame, frame.fence))

    def do_buffer(self, desk, step, number, layer, name):
        frame = self.held(name, Frame)
        if number not in self.transactions or frame is None:
            return Answer(EMPTY)
        if frame.frame == 0:
            return Answer(BAD_VALUE)
        del self.names[name]
        self.release_unread(desk, self.transactions[number].add(self.operation(layer, (SHOW, frame))))
        return Answer(OK)

    def do_merge(self, desk, step, number, other):
        if number not in self.transactions or other not in self.transactions:
            return Answer(EMPTY)
        if number == other:
            return Answer(BAD_VALUE)
        self.release_unread(desk, self.transactions[number].merge(self.transactions[other]))
        self.transactions[other] = Transaction()
        return Answer(OK)

    def do_apply(self, desk, step, number, token):
        if number not in self.transactions:
            return Answer(EMPTY)
        return Answer(OK, [desk.send(self, token, self.transactions.pop(number))])
