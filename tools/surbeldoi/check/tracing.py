"""The traces of a run's actors, found from their script and their replies: which calls each step made, what it sent, what it
waited for, and which frames it drew."""

from typing import NamedTuple

from surbeldoi.check.ordering import Refused
from surbeldoi.model import queues
from surbeldoi.model.following import Follower, Told
from surbeldoi.model.queues import merged
from surbeldoi.model.steps import Lent
from surbeldoi.records.wording import STATUSES, named

class Sent(NamedTuple):
    """A transaction that a step sent, with the number that the step was told."""

    step: int
    token: int
    txn: object
    reply: object


class Entered(NamedTuple):
    """A draw that entered pixels: the reply of the step, and what its name held."""

    reply: object
    token: object


class Owed(NamedTuple):
    """A draw that was owed, and who did it at which step, if it was done."""

    owing: object
    paid: list


class Passed(NamedTuple):
    """A step that waited for a fence, showed one, or took a buffer out of its queue."""

    reply: object
    fence: dict


class Kept(NamedTuple):
    """A detach: what the name held, whether it was requested by then, and whether the call was made."""

    reply: object
    token: object
    asked: bool
    is_made: bool


def step_text(scene, reply):
    """A reply's record, with its step and the line of it."""
    actor, number = reply.fields["actor"], reply.fields["step"]
    step = scene.actors[actor][number - 1]
    return f"{reply.text()} (actor {actor}, step {number}, line {step.line}: {step.verb})"


class Traces(Follower):
    """The traces of all actors, found by their replies and by which calls the histories have."""

    def __init__(self, scene, shown):
        super().__init__(scene)
        self.reply_now, self.signals, self.signalled = None, {}, []
        self.sent = {actor: [] for actor in scene.actors}
        self.passed = {actor: [] for actor in scene.actors}
        self.entered, self.owed, self.attachings = [], {}, []
        for history in shown.histories:
            self.index(history.fields["queue"], history.fields["calls"])

    def reply_to(self):
        return self.reply_now

    def refused(self, part, why):
        return Refused(part, step_text(self.scene, self.reply_now), why)

    def follow(self, reply):
        """Takes the step of an actor that this record replies to."""
        fields, self.reply_now = reply.fields, reply
        answer = self.take(Told(fields["actor"], fields["step"], fields["status"], [value for value, in fields["values"]]))
        if answer.is_of_call:
            return
        if answer.status != self.told.status:
            raise self.refused("replies", f"it says {named(STATUSES, self.told.status)}, where what the actor holds makes the step {named(STATUSES, answer.status)}")
        if answer.values != self.told.values:
            raise self.refused("replies", f"it has the values {self.told.values}, where {answer.values} are due")

    def attached(self, token, loose):
        self.attachings.append((token, loose))

    def waits_for(self, actor, fence):
        self.passed[actor.number].append(Passed(self.reply_now, fence))
        return False

    def waits_to_enter(self, actor, token):
        self.entered.append(Entered(self.reply_now, token))
        return False

    def keeps(self, actor, token, kind):
        is_made = self.makes(actor, token, kind)
        self.passed[actor.number].append(Kept(self.reply_now, token, isinstance(token, Lent) and token.asked, is_made))
        return not is_made

    def owes(self, actor, owing):
        self.owed[owing] = Owed(owing, [])

    def owed_now(self):
        """The draws that nobody did."""
        return [owed.owing for owed in self.owed.values() if not owed.paid]

    def drawn(self, actor, owing):
        self.owed[owing].paid.append((actor.number, actor.place()))
        super().drawn(actor, owing)

    def signal(self, actor, timeline, value):
        super().signal(actor, timeline, value)
        self.signals.setdefault(timeline, {0}).add(value)
        self.signalled.append((actor.number, actor.place(), timeline, value))
        self.passed[actor.number].append(Passed(self.reply_now, queues.fence_of([(timeline, value)])))

    def send(self, actor, token, txn):
        values = self.told.values
        if len(values) != 1:
            raise self.refused("replies", f"it has {len(values)} values, and a step that sends a transaction has one")
        self.sent[actor.number].append(Sent(actor.place(), token, txn, self.reply_now))
        return values[0]


def check_places(scene, replies):
    """Each actor's replies are to its first steps, each once and in order."""
    due = {actor: 1 for actor in scene.actors}
    for reply in replies:
        actor, step = reply.fields["actor"], reply.fields["step"]
        if actor not in due:
            raise Refused("replies", reply.text(), f"the scene has no actor {actor}")
        if step != due[actor] or step > len(scene.actors[actor]):
            what = f"step {due[actor]} is due" if due[actor] <= len(scene.actors[actor]) else "it has no step left"
            raise Refused("replies", reply.text(), f"it is to step {step} of actor {actor}, of which {what}")
        due[actor] += 1


def traces_of(scene, shown):
    """The traces of a run, found actor by actor."""
    check_places(scene, shown.replies)
    traces = Traces(scene, shown)
    for reply in sorted(shown.replies, key=lambda reply: reply.fields["actor"]):
        traces.follow(reply)
    return traces


def check_fences(scene, traces):
    """What a step waited for is signalled in the end. A detach that was refused without a call has a fence that the actor's
    earlier steps did not show to be signalled, and one that was not has a fence that is signalled in the end."""
    for actor in traces.passed.values():
        known = {}
        for passed in actor:
            known = merged(known, check_kept(scene, traces, passed, known) if isinstance(passed, Kept) else check_passed(scene, traces, passed))


def check_passed(scene, traces, passed):
    """A step's fence, which has to be signalled."""
    point = queues.open_point(passed.fence, traces.values)
    if point:
        raise Refused("traces", step_text(scene, passed.reply), f"it is done, and waits for timeline {point[0]} to reach {point[1]}, which it never does")
    return passed.fence


def is_fenced(kept):
    """Whether a detach has to look at the fence of its buffer."""
    return not isinstance(kept.token, Lent) or kept.asked or kept.token.came_requested


def check_kept(scene, traces, kept, known):
    """The points that a detach shows, where `known` are those that the steps before have shown."""
    if kept.is_made:
        return check_passed(scene, traces, Passed(kept.reply, kept.token.fence)) if is_fenced(kept) else {}
    if not is_fenced(kept):
        raise Refused("traces", step_text(scene, kept.reply), "it made no call, and does so only for a buffer that was requested")
    if queues.open_point(kept.token.fence, known) is None:
        raise Refused("traces", step_text(scene, kept.reply), "it is refused without a call, though steps before have shown its fence to be signalled")
    return {}
