"""The play of a scene: the picks of its order, then rounds, on one thread. Its records, each as a tag and fields."""

from surbeldoi.model.commits import Stage
from surbeldoi.model.makers import Makers
from surbeldoi.model.outputs import Outputs
from surbeldoi.model.queues import RELEASE, WOULD_BLOCK, Queue, open_point
from surbeldoi.model.steps import Actor, Lent, frame_call
from surbeldoi.model.transactions import BEHIND, TIME, hold_of

COMPOSITOR = 0
NO_LIMIT = 1 << 64


class World:
    """The queues with their histories, the values of timelines, what arrived and what was written. It is the desk of all actors."""

    def __init__(self, scene):
        self.scene, self.values, self.arrivals, self.pending = scene, {}, [], {}
        self.queues = {number: Queue(size) for number, size in scene.queues.items()}
        self.histories = {number: [] for number in sorted(scene.queues)}
        self.actors = {number: Actor(number, scene.actors[number], scene.pictures) for number in sorted(scene.actors)}
        self.makers, self.owed, self.is_drawn = Makers(NO_LIMIT), [], set()

    def call(self, caller, step, queue, call):
        reply = self.queues[queue].reply(caller, call)
        self.histories[queue].append((caller, step, call.kind, reply.status, reply.slot, reply.frame))
        return reply

    def reply(self, actor, queue, call):
        return self.call(actor.number, actor.place(), queue, call)

    def release_unread(self, actor, frame, call):
        self.reply(actor, frame.queue, call)

    def blocks(self, actor, queue, call):
        return self.queues[queue].refusal(actor.number, call) == WOULD_BLOCK

    def size_of(self, queue):
        return self.scene.queues[queue]

    def gave(self, token):
        pass

    def attached(self, token, loose):
        self.makers.attached(token, loose)

    def waits_for(self, actor, fence):
        return open_point(fence, self.values) is not None

    def waits_to_enter(self, actor, token):
        return any(self.makers.is_older(owing, token) for owing in self.owed)

    def keeps(self, actor, token, kind):
        is_fenced = not isinstance(token, Lent) or token.asked or token.came_requested
        return is_fenced and open_point(token.fence, self.values) is not None

    def owes(self, actor, owing):
        self.owed.append(owing)

    def drawn(self, actor, owing):
        self.owed.remove(owing)
        self.written(owing.queue, owing.frame)

    def written(self, queue, frame):
        self.is_drawn.add((queue, frame))

    def is_written(self, frame):
        return (frame.queue, frame.frame) in self.is_drawn

    def signal(self, actor, timeline, value):
        self.values[timeline] = max(value, self.values.get(timeline, 0))

    def send(self, actor, token, txn):
        self.arrivals.append((actor.number, actor.place(), token))
        self.pending.setdefault(token, []).append((len(self.arrivals), txn))
        return len(self.arrivals)


def buffer_row(layer, frame):
    return (layer, frame.queue, frame.frame, frame.picture, *frame.crop)


class Play:
    """A play so far: its world, its commits, and what its last vsync left waiting."""

    def __init__(self, scene):
        self.scene, self.world, self.stage, self.vsyncs, self.held = scene, World(scene), Stage(scene.most_layers()), 0, []
        self.outputs = Outputs(scene)

    def turn(self, actor):
        """One try of an actor's next step: its reply, or nothing."""
        if actor.next_step() is None:
            return
        answer = actor.take(self.world)
        if answer is not None:
            yield "REPL", {"actor": actor.number, "step": actor.done, "status": answer.status, "values": [(value,) for value in answer.values]}

    def hold(self, txn):
        return hold_of(txn, self.world.is_written, self.stage, self.world.values, self.vsyncs * self.scene.period)

    def next_token(self):
        """The lowest token whose first transaction nothing holds, or None."""
        return next((token for token in sorted(self.world.pending) if self.hold(self.world.pending[token][0][1]) is None), None)

    def commit(self, token):
        """Commits the first transaction of a token. Its record, and the frames that go back."""
        pending = self.world.pending[token]
        number, txn = pending.pop(0)
        if not pending:
            del self.world.pending[token]
        result, operation, gone = self.stage.commit(txn)
        rows = [buffer_row(*buffer) for buffer in txn.buffers()]
        return ("COMM", {"token": token, "arrival": number, "result": result, "operation": operation, "buffers": rows}), gone

    def decide(self):
        """Commits what is ready, and notes why the rest waits. The records of the commits."""
        self.stage.begin(self.vsyncs)
        commits, gone = [], []
        while (token := self.next_token()) is not None:
            commit, leaving = self.commit(token)
            commits, gone = commits + [commit], gone + leaving
        self.held = sorted((number, *(self.hold(txn) if at == 0 else (BEHIND, 0, 0)))
                           for pending in self.world.pending.values() for at, (number, txn) in enumerate(pending))
        for frame, is_read in gone:
            self.world.call(COMPOSITOR, self.vsyncs, frame.queue, frame_call(RELEASE, frame, {} if is_read else frame.fence))
        return commits

    def vsync(self):
        self.vsyncs += 1
        seen = [(timeline, self.world.values.get(timeline, 0)) for timeline in self.scene.timelines]
        commits = self.decide()
        if commits:
            yield "VSYN", {"number": self.vsyncs, "expected": self.vsyncs * self.scene.period, "timelines": seen}
            yield from commits
        if any(fields["result"] == 0 for _, fields in commits):
            yield from self.outputs.due(self.stage.tree, self.vsyncs)

    def picks(self):
        for number, times in self.scene.order:
            for _ in range(times):
                yield from self.vsync() if number == COMPOSITOR else self.turn(self.world.actors[number])

    def round(self):
        for actor in self.world.actors.values():
            yield from self.turn(actor)
        yield from self.vsync()

    def closing(self):
        world = self.world
        yield "ARRV", {"arrivals": world.arrivals}
        for queue, calls in world.histories.items():
            yield "HIST", {"queue": queue, "calls": calls}
        yield "HOLD", {"held": self.held}
        yield "STUK", {"stuck": [(actor.number, actor.done + 1) for actor in world.actors.values() if actor.next_step() is not None]}
        yield "DONE", {}

    def records(self):
        """All records, in order."""
        yield "SCEN", {"version": self.scene.version, "width": self.scene.width, "height": self.scene.height, "period": self.scene.period}
        yield from self.picks()
        is_quiet = False
        while not is_quiet:
            shown = list(self.round())
            yield from shown
            is_quiet = not shown and all(hold != TIME for _, hold, _, _ in self.held)
        yield from self.closing()
