"""Plans: steps that an actor takes one after another to come to what single steps seldom come to.

A plan is a generator of steps. Each is taken, or waits, before the next one is asked for; a plan ends where what it needs is not
there.
"""

from surbeldoi.fuzz.forms import step
from surbeldoi.model.steps import Frame, Lent, Loose
from surbeldoi.model.transactions import Transaction

NO_TRANSACTION = Transaction()


class Plans:
    """The plans of the actors of a scene."""

    def __init__(self, dice, author):
        self.dice, self.author, self.words, self.scene, self.play = dice, author, author.words, author.scene, author.play

    def producing(self, actor):
        """A queue whose producer this actor is, or becomes; None where there is none."""
        queues = self.play.world.queues
        mine = [number for number, queue in queues.items() if not queue.is_abandoned and queue.producer in (None, actor.number)]
        return self.dice.one(mine) if mine else None

    def connected(self, actor, number):
        """The actor becomes the producer of a queue."""
        if self.play.world.queues[number].producer != actor.number:
            yield step("connect", number)

    def number(self, actor):
        """A transaction number that holds nothing."""
        return self.dice.one([number for number in range(1, 65) if number not in actor.transactions])

    def lent(self, actor, number, **more):
        """A buffer is lent and requested; what follows may look for its name in `found`."""
        found = self.words.name(actor)
        yield step(self.dice.one(("dequeue", "dequeuewait")), number, found, **more)
        token = actor.names.get(found)
        if isinstance(token, Lent) and not token.came_requested:
            yield step("request", found)
        return found if isinstance(actor.names.get(found), Lent) else None

    def queued(self, actor, number, **more):
        """A frame is queued, mostly drawn before."""
        name = yield from self.lent(actor, number)
        if name is None or actor.names[name].size not in self.words.by_size:
            return None
        picture = self.words.picture(actor.names[name].size)
        is_drawn = not self.words.is_often(0.2, "owing")
        if is_drawn:
            yield step("draw", name, picture)
        yield step("queue", name, picture, **more)
        return name

    def acquired(self, actor, number, **more):
        name = self.words.name(actor)
        yield step("acquire", number, name, **more)
        return name if isinstance(actor.names.get(name), Frame) else None

    def applied(self, actor, changes, token=None):
        """A transaction of these changes, each a layer and a change, or a layer and the name of a frame."""
        number = self.number(actor)
        yield step("tx", number)
        for layer, change in changes:
            yield step("buffer", number, layer, change) if isinstance(change, str) else step("set", number, layer, change)
        yield step("apply", number, token or self.dice.one(self.author.setting.tokens))

    def opening(self, actor):
        """Layers are created, with some changes."""
        changes, number = self.author.changes, self.number(actor)
        yield step("tx", number)
        for _ in range(self.dice.between(1, len(self.author.setting.layers))):
            changes.look(actor.transactions.get(number, NO_TRANSACTION))
            if not changes.missing():
                break
            layer, change = changes.create()
            yield step("set", number, layer, change)
            for seen in changes.to_be_seen(layer, change[1]):
                yield step("set", number, layer, seen)
            for _ in range(self.dice.below(3)):
                yield step("set", number, layer, changes.usual(layer))
        yield step("apply", number, self.dice.one(self.author.setting.tokens))

    def showing(self, actor):
        """A layer of the tree that shows frames; one is created where there is none. Answers its number."""
        showing = [layer.number for layer in self.play.stage.tree.values() if layer.kind == "buffer"]
        self.author.changes.look(NO_TRANSACTION)
        missing = self.author.changes.missing()
        if showing and self.dice.chance(0.9) or not missing:
            return self.dice.one(showing or self.author.setting.layers)
        layer = self.dice.one(missing)
        yield from self.applied(actor, [(layer, ("create", "buffer", 0))])
        return layer

    def frames(self, actor):
        """Frames go their whole way, one after another, and come back."""
        number = self.producing(actor)
        if number is None:
            return
        yield from self.connected(actor, number)
        layer = yield from self.showing(actor)
        for _ in range(self.dice.between(1, 6)):
            yield from self.queued(actor, number, **self.words.fence())
            frame = yield from self.acquired(actor, number)
            if frame is None:
                return
            yield from self.applied(actor, [(layer, self.author.changes.usual(layer)), (layer, frame)] if self.dice.chance(0.3) else [(layer, frame)])

    def piling(self, actor):
        """Several frames wait, at times of their own, and one that is due behind them is acquired."""
        number = self.producing(actor)
        if number is None:
            return
        many, now = self.dice.between(2, 5), (self.play.vsyncs + 1) * self.scene.period
        yield from self.connected(actor, number)
        yield step("maxdequeued", number, many + 1)
        for at in range(many):
            timed = self.dice.chance(0.85)
            yield from self.queued(actor, number, **({"time": [(now + at,)]} if timed else {}))
        yield from self.acquired(actor, number, at=[(now + self.dice.between(0, many + 1),)])

    def shrinking(self, actor):
        """Several buffers come back, and a limit of their queue falls."""
        number = self.producing(actor)
        if number is None:
            return
        yield from self.connected(actor, number)
        yield step("maxdequeued", number, 3)
        yield step("async", number, 1)
        names = []
        for _ in range(self.dice.between(2, 4)):
            names.append((yield from self.lent(actor, number)))
        for name in self.dice.shuffled([name for name in names if name]):
            yield step("cancel", name, **self.words.fence())
        yield self.dice.one((step("maxdequeued", number, 1), step("async", number, 0)))

    def narrowing(self, actor):
        """Frames come back to a queue without producer, whose max acquired falls."""
        number = self.producing(actor)
        if number is None or self.play.world.queues[number].producer is not None:
            return
        yield step("maxacquired", number, 3)
        yield step("connect", number)
        yield step("maxdequeued", number, 3)
        for _ in range(3):
            yield from self.queued(actor, number)
        frames = []
        for _ in range(3):
            frames.append((yield from self.acquired(actor, number)))
        yield step("maxdequeued", number, 1)
        yield step("disconnect", number)
        for name in self.dice.shuffled([name for name in frames if name]):
            yield step("release", name, **self.words.fence())
        yield step("maxacquired", number, 1)

    def pressing(self, actor):
        """Two frames for a layer with backpressure arrive for one vsync."""
        number = self.producing(actor)
        if number is None:
            return
        yield from self.connected(actor, number)
        layer = yield from self.showing(actor)
        yield step("maxdequeued", number, 3)
        yield from self.applied(actor, [(layer, ("backpressure", 1))])
        frames = []
        for _ in range(2):
            yield from self.queued(actor, number)
            frames.append((yield from self.acquired(actor, number)))
        for name in frames:
            if name:
                yield from self.applied(actor, [(layer, name)])

    def moving(self, actor):
        """A buffer leaves its queue and comes into one again, both as the producer's and as the consumer's."""
        number = self.producing(actor)
        if number is None:
            return
        yield from self.connected(actor, number)
        name = yield from self.lent(actor, number)
        for _ in range(self.dice.between(1, 4)):
            token = actor.names.get(name)
            if isinstance(token, (Lent, Frame)):
                yield step("pdetach" if isinstance(token, Lent) else "cdetach", name, name)
            elif isinstance(token, Loose):
                yield step(self.dice.one(("pattach", "cattach")), self.dice.one(list(self.scene.queues)), name, name)
            else:
                return

    def owing(self, actor):
        """A frame is queued undrawn and comes back, and its buffer is lent again before the draw is done."""
        number = self.producing(actor)
        if number is None:
            return
        yield from self.connected(actor, number)
        name = yield from self.lent(actor, number)
        if name is None or actor.names[name].size not in self.words.by_size:
            return
        picture = self.words.picture(actor.names[name].size)
        yield step("queue", name, picture)
        frame = yield from self.acquired(actor, number)
        if frame:
            yield step(*self.dice.one((("release", frame), ("cdetach", frame, frame))))
        if isinstance(actor.names.get(frame), Loose):
            yield step("pattach", number, frame, frame)
        else:
            yield from self.lent(actor, number)
        if self.dice.chance(0.7):
            yield step("draw", name, picture)

    def replacing(self, actor):
        """A frame takes the place of another one in a transaction, whose queue may be abandoned by then."""
        number = self.producing(actor)
        if number is None:
            return
        yield from self.connected(actor, number)
        yield step("maxdequeued", number, 2)
        layer, into = (yield from self.showing(actor)), self.number(actor)
        yield step("tx", into)
        for again in range(2):
            yield from self.queued(actor, number)
            frame = yield from self.acquired(actor, number)
            if frame and again and self.words.is_often(0.3, "ends"):
                yield step("abandon", number)
            if frame:
                yield step("buffer", into, layer, frame)
        yield step("apply", into, self.dice.one(self.author.setting.tokens))

    def overtaking(self, actor):
        """A frame that was queued in asynchronous mode is replaced, in this mode or the other."""
        number = self.producing(actor)
        if number is None:
            return
        yield from self.connected(actor, number)
        yield step("maxdequeued", number, 2)
        yield step("async", number, 1)
        for _ in range(2):
            yield from self.queued(actor, number)
            yield step("async", number, self.dice.below(2))

    def plan(self, actor):
        """A plan for an actor, by the manner of the scene."""
        of = self.author.of
        frames, loose, settings = of("frames"), of("loose"), of("settings")
        return self.dice.weighted([(1 + of("layers"), self.opening), (2 * frames, self.frames), (0.5 * of("times"), self.piling), (0.4 * settings, self.shrinking),
                                   (0.3 * settings, self.narrowing), (0.4 * frames, self.pressing), (0.4 * loose, self.moving),
                                   (0.3 * frames, self.replacing), (0.3 * settings, self.overtaking), (0.4 * of("owing"), self.owing)])(actor)
