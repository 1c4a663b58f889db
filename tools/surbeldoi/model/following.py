"""Actors followed by the replies to their steps: what each step did, by what its record says."""

from typing import NamedTuple

from surbeldoi.model import queues
from surbeldoi.model.queues import BAD_VALUE, OK, QUEUE, Reply
from surbeldoi.model.steps import Actor

# How many values an Ok reply has at least, by the call; what comes behind them are the points of a fence.
VALUES = {queues.DEQUEUE: 3, queues.REQUEST: 4, queues.QUEUE: 2, queues.ATTACH: 2, queues.ACQUIRE: 4, queues.ATTACH_READ: 1}
WITH_FENCE = (queues.DEQUEUE, queues.ACQUIRE)


class Made:
    """A call that a step made: the step's number and its reply, if it is the step's own; and what it gave, if it gave something."""

    def __init__(self, step, call, reply, may_block):
        self.step, self.call, self.reply, self.may_block, self.token = step, call, reply, may_block, None


class Told(NamedTuple):
    """What a record says of a step: its actor, its number, its status and its values."""

    actor: int
    step: int
    status: int
    values: list


def pairs(values):
    return zip(values[::2], values[1::2])


class Follower:
    """Follows the actors of a scene. It is the desk that answers their steps, by what is told of the step that is taken. A subclass says
    what of a step that is told could not be: `refused` makes what is raised then, of a part of the meaning and the reason."""

    def __init__(self, scene):
        self.scene, self.told = scene, None
        self.calls = {queue: {actor: [] for actor in scene.actors} for queue in scene.queues}
        self.actors = {number: Actor(number, scene.actors[number], scene.pictures) for number in sorted(scene.actors)}
        # Who queued each frame of each queue, and at which step; what timelines have reached; and which frames are drawn.
        self.queued, self.values, self.is_drawn = {}, {}, set()
        # The kinds of the calls that a step made on a queue, by the queue, the actor and the step.
        self.entries = {}

    def index(self, queue, calls):
        """Notes which calls a history has, and which call queued each frame."""
        for caller, step, kind, status, _, frame in calls:
            self.entries.setdefault((queue, caller, step), set()).add(kind)
            if (kind, status) == (QUEUE, OK):
                self.queued.setdefault((queue, frame), (caller, step))

    def makes(self, actor, token, kind):
        """Whether the step that is taken makes a call of a kind on the queue of what a name holds, as far as that is told."""
        return kind in self.entries.get((token.queue, actor.number, actor.place()), ()) or self.told.status != BAD_VALUE

    def reply_to(self):
        """What notes of calls have in the place of the reply to the step that is taken."""
        return self.told

    def take(self, told):
        """Takes the step of an actor that this is told of, and answers what the step table answers."""
        self.told = told
        return self.actors[told.actor].take(self)

    def check_count(self, kind):
        count, least = len(self.told.values), VALUES.get(kind, 0)
        if count < least or (count != least and (kind not in WITH_FENCE or (count - least) % 2)):
            raise self.refused("replies", f"it has {count} values, and a step of this form that is done has {least}"
                               + (" and the points of a fence" if kind in WITH_FENCE else ""))

    def queueing(self, queue, frame):
        """The picture and the crop of the step that queued a frame."""
        caller, number = self.queued.get((queue, frame), (0, 0))
        steps = self.scene.actors.get(caller, [])
        step = steps[number - 1] if 0 < number <= len(steps) else None
        if step is None or step.verb != "queue":
            raise self.refused("calls", f"no step queued frame {frame} by the history of queue {queue}")
        picture = step.args[1]
        return picture, step.more.get("crop", [(0, 0, *self.scene.pictures[picture][:2])])[0]

    def acquired(self, queue, values):
        frame, picture = values[1], values[2]
        of_step, crop = self.queueing(queue, frame)
        if picture != of_step:
            raise self.refused("replies", f"it says picture {picture}, and the step that queued frame {frame} has picture {of_step}")
        return Reply(OK, values[0], frame, values, fence=dict(pairs(values[4:])), crop=crop)

    def reply(self, actor, queue, call):
        """What is told of the reply to a call of the step."""
        self.calls[queue][actor.number].append(Made(actor.place(), call, self.reply_to(), actor.next_step().verb == "dequeuewait"))
        status, values = self.told.status, self.told.values
        if status != OK:
            return Reply(status, values=values)
        self.check_count(call.kind)
        if call.kind == queues.ACQUIRE:
            return self.acquired(queue, values)
        slot = values[0] if values else queues.NO_SLOT
        return Reply(OK, slot, values[1] if call.kind == QUEUE else 0, values, buffer=values[1] if call.kind in (queues.DEQUEUE, queues.ATTACH) else 0,
                     fence=dict(pairs(values[3:])) if call.kind == queues.DEQUEUE else {})

    def release_unread(self, actor, frame, call):
        self.calls[frame.queue][actor.number].append(Made(actor.place(), call, None, False))

    def gave(self, token):
        self.calls[token.queue][self.told.actor][-1].token = token

    def attached(self, token, loose):
        pass

    def blocks(self, actor, queue, call):
        return False

    def size_of(self, queue):
        return self.scene.queues[queue]

    def waits_for(self, actor, fence):
        return False

    def waits_to_enter(self, actor, token):
        return False

    def owes(self, actor, owing):
        pass

    def drawn(self, actor, owing):
        self.written(owing.queue, owing.frame)

    def written(self, queue, frame):
        self.is_drawn.add((queue, frame))

    def is_written(self, frame):
        return (frame.queue, frame.frame) in self.is_drawn

    def signal(self, actor, timeline, value):
        self.values[timeline] = max(value, self.values.get(timeline, 0))
