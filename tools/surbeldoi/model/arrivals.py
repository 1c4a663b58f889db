"""The transactions and the frames of a run, found from its script and the replies to its steps by the step table."""

from typing import NamedTuple, Optional

from surbeldoi.model.following import Follower, Told
from surbeldoi.model.queues import OK, QUEUE, Reply
from surbeldoi.model.refusals import why_not_called
from surbeldoi.model.steps import Lent, Shown
from surbeldoi.model.transactions import SHOW
from surbeldoi.records.wording import STATUSES, named

__all__ = ["Arrival", "Barrier", "Lent", "Misfit", "Operation", "QueuedFrame", "Reader", "Shown"]


class Misfit(Exception):
    """A reply that its step cannot have had after those before, as a sentence with the step."""


class Operation(NamedTuple):
    """An operation of a transaction: the layer, the words of the change, the frame that a `buffer` shows, and who made it."""

    layer: int
    change: tuple
    frame: Optional[tuple]
    actor: int
    step: int


class Barrier(NamedTuple):
    """A layer, the frame that has to be committed for it, and the step that asked for it."""

    layer: int
    frame: int
    actor: int
    step: int


class Arrival(NamedTuple):
    """A transaction that was applied, as its lines have it and as the model does. `moment` is how many vsyncs stand before it."""

    number: int
    actor: int
    step: int
    token: int
    operations: list
    barriers: list
    desired: Optional[int]
    moment: int
    txn: object

    def frames(self):
        """The frames that it shows, in the order of its operations, each with its layer."""
        return [(operation.layer, operation.frame) for operation in self.operations if operation.frame is not None]


class Refusal(NamedTuple):
    """A step that was refused: the status, and why where the step itself tells, and not the queue that it calls."""

    status: int
    why: Optional[str]


class QueuedFrame:
    """A frame that was queued: what it shows, the points of its fence, who queued it in which slot, who drew it, and at how many vsyncs
    it was drawn, None as long as it is not."""

    def __init__(self, picture, crop, points, slot, by):
        self.picture, self.crop, self.points, self.slot, self.by, self.drawn, self.drawn_by = picture, crop, points, slot, by, None, None

    def is_drawn(self, moment):
        return self.drawn is not None and self.drawn <= moment


class Reader(Follower):
    """Follows the replies of a run to the steps of its script, one after another. Where the records tell them, `histories` has the calls
    of each queue, and `arrivals` the actor, the step and the token of each transaction that arrived."""

    def __init__(self, script, scene, histories=None, arrivals=()):
        super().__init__(scene)
        self.script, self.moment, self.is_told = script, 0, bool(histories)
        self.arrivals, self.frames, self.owed, self.attachings, self.refusals = {}, {}, [], [], {}
        self.numbers = {(actor, step): number for number, (actor, step, _) in enumerate(arrivals, 1)}
        self.most = sum(step.verb == "apply" for steps in scene.actors.values() for step in steps)
        for queue, calls in (histories or {}).items():
            self.index(queue, calls)

    @property
    def signalled(self):
        """What each timeline has reached."""
        return self.values

    def refused(self, part, why):
        return Misfit(f"{self.script.step_text(self.told.actor, self.told.step)}: {why}")

    def read(self, actor, number, status, values, moment):
        """Takes the next reply to a step of an actor, which stands behind so many vsyncs."""
        self.told, self.moment = Told(actor, number, status, list(values)), moment
        of = self.actors.get(actor)
        if of is None or number != of.place() or of.next_step() is None:
            raise Misfit(f"actor {actor}, step {number}: " + ("there is no such actor" if of is None else f"step {of.place()} is due" if of.next_step()
                                                              else "the actor has no step left"))
        answer = self.take(self.told)
        if answer is None or not answer.is_of_call and (answer.status, answer.values) != (status, self.told.values):
            raise self.refused("replies", f"it was told {named(STATUSES, status)} {values}, where what the actor holds makes it "
                               f"{named(STATUSES, answer.status)} {answer.values}")
        if status != OK:
            self.refusals[actor, number] = Refusal(status, None if answer.is_of_call else self.why_refused(status))

    def why_refused(self, status):
        """Why the step that was refused before any call was, by what its actor holds."""
        actor = self.actors[self.told.actor]
        return why_not_called(actor, self.scene.actors[actor.number][self.told.step - 1], status, self.last_done)

    def last_done(self, fits):
        """The last step of the actor before the one that is told whose words fit and that was done, or None."""
        actor = self.told.actor
        return next((step for number, step in self.script.before(actor, self.told.step) if (actor, number) not in self.refusals and fits(step.words)), None)

    # What steps ask and tell.

    def reply(self, actor, queue, call):
        reply = super().reply(actor, queue, call)
        if call.kind == QUEUE and reply.status == OK:
            lent, by = actor.names[actor.next_step().args[0]], (actor.number, actor.place())
            self.queued.setdefault((queue, reply.frame), by)
            frame = self.frames[queue, reply.frame] = QueuedFrame(call.picture[0], call.crop, call.fence, reply.slot, by)
            frame.drawn_by = None if lent.drawn is None else (actor.number, lent.drawn_at)
        return reply

    def acquired(self, queue, values):
        """A frame that is acquired; where no history tells who queued it, the whole of its picture."""
        if self.is_told or (queue, values[1]) in self.queued:
            return super().acquired(queue, values)
        if values[2] not in self.scene.pictures:
            raise self.refused("replies", f"there is no picture {values[2]}")
        return Reply(OK, values[0], values[1], values, fence=dict(zip(values[4::2], values[5::2])), crop=(0, 0, *self.scene.pictures[values[2]][:2]))

    def keeps(self, actor, token, kind):
        return not self.makes(actor, token, kind)

    def attached(self, token, loose):
        self.attachings.append((token, loose))

    def owes(self, actor, owing):
        self.owed.append(owing)

    def owed_now(self):
        """The draws that nobody has done."""
        return self.owed

    def drawn(self, actor, owing):
        self.owed.remove(owing)
        super().drawn(actor, owing)
        self.frames[owing.queue, owing.frame].drawn_by = (actor.number, actor.place())

    def written(self, queue, frame):
        super().written(queue, frame)
        self.frames[queue, frame].drawn = self.moment

    def number_of(self, actor):
        """The number of the transaction that the step sends; 0 where it is not told, as where transactions arrive through a queue."""
        told, number = self.told.values[0], self.numbers.get((actor.number, actor.place()), 0)
        if number and told not in (0, number):
            raise self.refused("replies", f"it was told arrival {told}, and the arrivals have it as {number}")
        if told > self.most:
            raise self.refused("replies", f"it was told arrival {told}, and the script applies {self.most} transactions")
        return number or told

    def send(self, actor, token, txn):
        if len(self.told.values) != 1:
            raise self.refused("replies", f"it has {len(self.told.values)} values, and a step that sends a transaction has one")
        number = self.number_of(actor)
        if number:
            barriers = [Barrier(layer, frame, *by) for layer, frame, by in txn.barriers]
            self.arrivals[number] = Arrival(number, actor.number, actor.place(), token, [self.shown(operation) for operation in txn.made_by()], barriers,
                                            txn.desired, self.moment, txn)
        return self.told.values[0]

    def shown(self, operation):
        """An operation with the words of its line."""
        name, *values = operation.change
        if name == SHOW:
            return Operation(operation.layer, ("buffer",), (values[0].queue, values[0].frame), *operation.by)
        return Operation(operation.layer, tuple(self.script.step(*operation.by).words[3:]), None, *operation.by)
