"""What runs have met, counted: every status of every step, change, hold, reject, record and move of a slot; and what they have not.

A thing that is met is a tuple, with the name of its kind first.
"""

from collections import Counter

from surbeldoi.model.playing import COMPOSITOR, Play, World
from surbeldoi.model.queues import ACQUIRE, ATTACH, ATTACH_READ, DEQUEUE, OK, QUEUE
from surbeldoi.model.steps import Owing
from surbeldoi.model.trees import below
from surbeldoi.records.wording import CALLS, FAULTS, HOLDS, REJECTS, STATUSES

STATUSES_OF = {
    "connect": (0, 10, 11), "disconnect": (0, 10), "maxdequeued": (0, 10, 11), "async": (0, 10, 11), "dequeue": (0, 10, 11, 12, 13, 16),
    "dequeuewait": (0, 10, 11, 12, 16), "request": (0, 10, 15), "draw": (0, 11, 15), "queue": (0, 10, 11, 15), "cancel": (0, 10, 15),
    "pdetach": (0, 10, 11, 15, 16), "pattach": (0, 10, 12, 13, 15, 16), "maxacquired": (0, 10, 11, 12), "abandon": (0, 10),
    "acquire": (0, 2, 3, 10, 12, 16), "release": (0, 10, 15), "cdetach": (0, 10, 11, 15, 16), "cattach": (0, 10, 12, 14, 15, 16), "signal": (0,),
    "wait": (0,), "tx": (0, 16), "desire": (0, 15), "buffer": (0, 11, 15), "barrier": (0, 15), "merge": (0, 11, 15), "apply": (0, 15), "set": (0, 15),
}
WAITING = ("dequeuewait", "draw", "wait")
CHANGES = ("create container", "create colour", "create buffer", "destroy", "reparent", "z", "relative", "position", "crop", "crop none", "alpha",
           "hidden", "opaque", "colour", "backpressure", "orient")
RECORDS = ("SCEN", "REPL", "VSYN", "COMM", "FRAM", "FRAD", "CAPT", "HITS", "ARRV", "HIST", "HOLD", "STUK", "DONE")
# The states of slots, and their moves with the calls that make them; where a slot stays free, it loses its buffer.
STATES = ("free", "dequeued", "queued", "acquired")
MOVES = tuple((before, after, call) for before, after, calls in (
    ("free", "dequeued", (5, 10)), ("free", "acquired", (16,)), ("free", "free", (2, 3, 4, 11, 12)), ("dequeued", "queued", (7,)),
    ("dequeued", "free", (2, 8, 9, 12)), ("queued", "acquired", (13,)), ("queued", "free", (7, 12, 13)), ("acquired", "free", (12, 14, 15))) for call in calls)
# What happens inside a play and stands in no record by itself.
EVENTS = (
    "a dequeue lends a buffer again", "a dequeue replaces a buffer of another size", "a dequeue hands out a fence", "an acquire tells a fence",
    "a buffer is lent whose draw is owed", "a frame is replaced", "a frame is replaced after the mode was set back", "an acquire drops one frame",
    "an acquire drops several frames", "an attach drops a buffer", "a vsync releases a frame that was shown", "a vsync releases a frame that was not shown",
    "a vsync is refused a release", "a step releases a frame that another replaces", "a step is refused such a release", "a vsync commits several transactions",
    "a vsync commits two of a token", "a commit shows several frames", "a transaction is empty", "a commit comes at a later vsync", "a vsync shows nothing",
    "a frame is queued undrawn", "an owed draw is done", "a buffer is drawn again", "a drawn buffer is cancelled", "an undrawn buffer is cancelled with a fence",
    "a drawn buffer is detached", "a frame is released undrawn", "a frame is detached undrawn", "a mirror shows a copy", "mirrors show several copies", "a mirror is copied",
)


def expected(live=False):
    """All that runs are to meet: of live runs, what their records tell."""
    for verb, statuses in STATUSES_OF.items():
        yield from (("step", verb, status) for status in statuses)
    yield from (("change", name) for name in CHANGES)
    yield from (("commit", result) for result in (0, *REJECTS))
    yield from (("record", tag) for tag in RECORDS)
    yield from (("held at the end", hold) for hold in (1, 3, 4, 5))
    yield from (("stuck", verb) for verb in WAITING)
    yield from (("call", kind) for kind in CALLS)
    if not live:
        yield from (("held in a vsync", hold) for hold in HOLDS)
        yield from (("waits", verb) for verb in WAITING)
        yield from (("slot", *move) for move in MOVES)
        yield from (("event", event) for event in EVENTS)


def change_name(change):
    """A change by its words, as far as they tell its form."""
    if change[0] == "create":
        return f"create {change[1]}"
    return "crop none" if change == ("crop", None) else change[0]


def met_in_records(scene, records):
    """What the records of a run of a scene tell."""
    met = Counter()
    for record in records:
        fields = record.fields
        met["record", record.tag] += 1
        if record.tag == "REPL":
            step = scene.actors[fields["actor"]][fields["step"] - 1]
            met["step", step.verb, fields["status"]] += 1
            if step.verb == "set" and fields["status"] == OK:
                met["change", change_name(step.args[2])] += 1
        elif record.tag == "COMM":
            met["commit", fields["result"]] += 1
        elif record.tag == "HIST":
            met.update(("call", call[2]) for call in fields["calls"])
        elif record.tag == "HOLD":
            met.update(("held at the end", row[1]) for row in fields["held"])
        elif record.tag == "STUK":
            met.update(("stuck", scene.actors[actor][step - 1].verb) for actor, step in fields["stuck"])
    return met


class WatchedWorld(World):
    """The world of a play, whose calls are watched."""

    def __init__(self, scene, met):
        super().__init__(scene)
        self.met, self.shown = met, set()

    def call(self, caller, step, queue, call):
        there = self.queues[queue]
        before, waits = [(slot.state, slot.buffer) for slot in there.slots], list(there.items)
        reply = super().call(caller, step, queue, call)
        if reply.status == OK:
            after = [(slot.state, slot.buffer) for slot in there.slots]
            self.met.update(("slot", STATES[was[0]], STATES[now[0]], call.kind) for was, now in zip(before, after) if was != now)
            self.note(NOTES.get(call.kind, nothing)(self, there, queue, reply, before, waits))
        if caller == COMPOSITOR:
            self.note(self.released(reply, (queue, call.frame) in self.shown))
        return reply

    def released(self, reply, was_shown):
        yield "a vsync releases a frame that was shown", reply.status == OK and was_shown
        yield "a vsync releases a frame that was not shown", reply.status == OK and not was_shown
        yield "a vsync is refused a release", reply.status != OK

    def note(self, events):
        self.met.update(("event", event) for event, is_met in events if is_met)

    def dequeued(self, there, queue, reply, before, waits):
        had = before[reply.slot][1]
        yield "a dequeue lends a buffer again", not reply.values[2]
        yield "a dequeue replaces a buffer of another size", had and reply.values[2]
        yield "a dequeue hands out a fence", reply.fence
        yield "a buffer is lent whose draw is owed", any((owing.queue, owing.buffer) == (queue, reply.buffer) for owing in self.owed)

    def attached_buffer(self, there, queue, reply, before, waits):
        yield "an attach drops a buffer", before[reply.slot][1]

    def queued(self, there, queue, reply, before, waits):
        is_replaced = len(there.items) == len(waits)
        yield "a frame is replaced", is_replaced
        yield "a frame is replaced after the mode was set back", is_replaced and not there.is_async

    def acquired(self, there, queue, reply, before, waits):
        yield "an acquire tells a fence", reply.fence
        yield "an acquire drops one frame", reply.values[3] == 1
        yield "an acquire drops several frames", reply.values[3] > 1

    def send(self, actor, token, txn):
        self.note([("a transaction is empty", not txn.places)])
        return super().send(actor, token, txn)

    def release_unread(self, actor, frame, call):
        reply = self.call(actor.number, actor.place(), frame.queue, call)
        self.note([("a step releases a frame that another replaces", reply.status == OK), ("a step is refused such a release", reply.status != OK)])


def nothing(*_):
    return ()


NOTES = {DEQUEUE: WatchedWorld.dequeued, ATTACH: WatchedWorld.attached_buffer, ATTACH_READ: WatchedWorld.attached_buffer, QUEUE: WatchedWorld.queued,
         ACQUIRE: WatchedWorld.acquired}


class Watched(Play):
    """A play of a scene, and what it met: `met`."""

    def __init__(self, scene):
        super().__init__(scene)
        self.met, self.began = Counter(), {}
        self.world = WatchedWorld(scene, self.met)

    def turn(self, actor):
        step = actor.next_step()
        token = actor.names.get(step.args[0]) if step else None
        was_drawn = getattr(token, "drawn", None)
        arrived, told = len(self.world.arrivals), list(super().turn(actor))
        if step and not told:
            self.met["waits", step.verb] += 1
        elif step and told[0][1]["status"] == OK:
            self.world.note(self.of_step(step.verb, token, was_drawn))
        if len(self.world.arrivals) > arrived:
            self.began[len(self.world.arrivals)] = self.vsyncs
        return told

    def of_step(self, verb, token, was_drawn):
        """What a step that was done met by what its name held before."""
        yield "a frame is queued undrawn", verb == "queue" and was_drawn is None
        yield "an owed draw is done", verb == "draw" and isinstance(token, Owing)
        yield "a buffer is drawn again", verb == "draw" and was_drawn is not None
        yield "a drawn buffer is cancelled", verb == "cancel" and was_drawn is not None
        yield "an undrawn buffer is cancelled with a fence", verb == "cancel" and was_drawn is None and token.fence
        yield "a drawn buffer is detached", verb == "pdetach" and was_drawn is not None
        if verb in ("release", "cdetach") and token.frame and not self.world.is_written(token):
            yield ("a frame is released undrawn" if verb == "release" else "a frame is detached undrawn"), True

    def decide(self):
        self.world.shown = {(frame.queue, frame.frame) for frame, _ in self.stage.on.values()}
        commits = super().decide()
        self.met.update(("held in a vsync", row[1]) for row in self.held)
        self.world.note(self.of_commits([fields for _, fields in commits]))
        return commits

    def of_commits(self, commits):
        yield "a vsync commits several transactions", len(commits) > 1
        yield "a vsync commits two of a token", len({fields["token"] for fields in commits}) < len(commits)
        yield "a vsync shows nothing", commits and all(fields["result"] for fields in commits)
        for fields in commits:
            yield "a commit shows several frames", len(fields["buffers"]) > 1
            yield "a commit comes at a later vsync", self.began[fields["arrival"]] + 1 < self.vsyncs
        if any(not fields["result"] for fields in commits):
            yield from self.of_mirrors(self.stage.tree)

    def of_mirrors(self, tree):
        """What the mirrors of a tree show."""
        showing = [(mirror, number) for mirror, number in self.scene.mirrors.items()
                   if number in tree and mirror in tree and tree[mirror].kind == "container"]
        yield "a mirror shows a copy", showing
        yield "mirrors show several copies", len(showing) > 1
        copied = {layer.number for _, number in showing for layer in below(tree, number)}
        yield "a mirror is copied", any(mirror in copied for mirror, _ in showing)


def share(count, of):
    """A count per thousand, with as many digits as say something."""
    each = 1000 * count / of
    return f"{each:.0f}" if each >= 10 or each == int(each) else f"{each:.2g}"


def line(title, met, of, things):
    """A line of the table: what was met of these things, each with its name."""
    told = [f"{name} {share(met[thing], of)}" for thing, name in things if met[thing]]
    return [f"{title}: {', '.join(told)}"] if told else []


def table(met, of):
    """Lines that tell what so many runs have met, each number per thousand runs."""
    lines = []
    for verb, statuses in STATUSES_OF.items():
        lines += line(verb, met, of, [(("step", verb, status), STATUSES[status]) for status in statuses])
    lines += line("changes", met, of, [(("change", name), name) for name in CHANGES])
    lines += line("commits", met, of, [(("commit", 0), "committed")] + [(("commit", result), f"rejected for {name}") for result, name in REJECTS.items()])
    lines += line("records", met, of, [(("record", tag), tag) for tag in RECORDS])
    lines += line("calls", met, of, [(("call", kind), name) for kind, name in CALLS.items()])
    for where in ("held in a vsync", "held at the end"):
        lines += line(where, met, of, [((where, hold), name) for hold, name in HOLDS.items()])
    for what in ("waits", "stuck"):
        lines += line(what, met, of, [((what, verb), verb) for verb in WAITING])
    for before, after in dict.fromkeys(move[:2] for move in MOVES):
        lines += line(f"slots from {before} to {after}", met, of, [(("slot", *move), CALLS[move[2]]) for move in MOVES if move[:2] == (before, after)])
    lines += line("events", met, of, [(("event", event), event) for event in EVENTS])
    for cause, name in FAULTS.items():
        firsts = sorted(thing[1] for thing in met if thing[0] == "fault" and thing[2] == cause)
        lines += line(name, met, of, [(("fault", first, cause), first or "no word") for first in firsts])
    return lines


def name_of(thing):
    """A thing that may be met, in words."""
    names = {"step": STATUSES, "commit": REJECTS, "call": CALLS, "slot": CALLS, "fault": FAULTS, "held in a vsync": HOLDS, "held at the end": HOLDS}.get(thing[0], {})
    return " ".join(str(names.get(word, word) if place == len(thing) - 1 else word) for place, word in enumerate(thing))
