"""Random steps of actors. Each is chosen by what its actor and the queues hold by then, so that scenes come to what takes many
steps; seldom by nothing, so that they come to each refusal.

The play that is looked at is the one that the scene's order gives. It only guides: whatever was chosen, the script is a scene.
"""

from surbeldoi.fuzz.blind import Blind
from surbeldoi.fuzz.changes import Changes
from surbeldoi.fuzz.forms import names_of, step
from surbeldoi.fuzz.plans import NO_TRANSACTION, Plans
from surbeldoi.fuzz.setting import size
from surbeldoi.model.playing import Play
from surbeldoi.model.queues import ACQUIRED, SECOND
from surbeldoi.model.steps import Frame, Lent, Loose, Owing
from surbeldoi.script.scenes import MOST_NAMES, RANGES, U64

NAMES = ("s", "i", "b", "frame", "as", "fence", "time", "crop", "size", "at", "token", "none", "v", "end", "tx", "Z9_", "a_name_of_16_let", "q2", "x", "y")
LAST_TIME = RANGES["TIME"][1]
MOST_TRIES = 5


class NoOutputs:
    """In place of what vsyncs show: a play that only guides needs no frames."""

    def due(self, tree, number):
        return ()


class Guide(Play):
    """The play of a scene that is being written."""

    def __init__(self, scene):
        super().__init__(scene)
        self.outputs = NoOutputs()


class Words:
    """What the words of steps may mean: names, points, times, sizes."""

    def __init__(self, dice, manner, scene, play):
        self.dice, self.manner, self.scene, self.play = dice, manner, scene, play
        self.names = {actor: dice.some(NAMES, dice.between(2, 8)) for actor in scene.actors}
        self.promised, self.by_size = [], {}
        for number, picture in scene.pictures.items():
            self.by_size.setdefault(picture[:2], []).append(number)

    def is_often(self, share, name):
        """Chance of this share, more or less often by the scene's manner."""
        return self.dice.chance(min(0.8, share * self.manner.of(name)))

    def name(self, actor):
        """A name to be given: one that holds nothing, or seldom one that holds something."""
        free = [name for name in self.names[actor.number] if name not in actor.names]
        return self.dice.one(self.names[actor.number] if not free or self.is_often(0.08, "wrong") else free)

    def detached(self, actor, name):
        """A name for what another name holds: perhaps this one itself."""
        return self.dice.one(self.names[actor.number]) if self.is_often(0.1, "wrong") else name if self.dice.chance(0.3) else self.name(actor)

    def value(self, timeline):
        """A value that a timeline has, or is near."""
        if self.dice.chance(0.03):
            return self.dice.edge(0, U64)
        at = self.play.world.values.get(timeline, 0)
        return min(max(0, at + self.dice.weighted([(2, 0), (4, 1), (2, 2), (1, 5), (1, -1)])), U64)

    def point(self):
        timeline = self.dice.one(self.scene.timelines)
        self.promised.append((timeline, self.value(timeline)))
        return self.promised[-1]

    def left(self):
        """A point that some step named and no step has signalled, or any."""
        values = self.play.world.values
        left = [point for point in self.promised if values.get(point[0], 0) < point[1]]
        return self.dice.one(left) if left and self.dice.chance(0.8) else self.point()

    def fence(self):
        """The points of a step, as what it has in brackets."""
        if not self.scene.timelines or not self.is_often(0.25, "fences"):
            return {}
        return {"fence": [self.point() for _ in range(self.dice.one((1, 1, 1, 2, 4)))]}

    def time(self):
        """A time about that of the next vsyncs, or a second from it; or any."""
        dice, period = self.dice, self.scene.period
        if dice.chance(0.05):
            return dice.edge(0, LAST_TIME)
        ahead = dice.weighted([(4, dice.between(0, 4)), (1, dice.between(-3, 0)), (1, 50)]) * period
        beside = dice.weighted([(4, 0), (1, 1), (1, -1), (1, SECOND), (0.5, SECOND + 1), (0.5, -SECOND)])
        return min(max(0, (self.play.vsyncs + 1) * period + ahead + beside), LAST_TIME)

    def due_time(self, queue):
        """A time at which a frame that waits becomes due, or just not."""
        waits = [item.present_time() for item in queue.items] or [0]
        return min(max(0, self.dice.one(waits) + self.dice.one((0, 0, 1, -1, SECOND, -SECOND))), LAST_TIME)

    def times(self, word, *makers):
        """A time of one of these makers behind a word, as what a step has in brackets."""
        return {word: [(self.dice.one(makers)(),)]} if self.is_often(0.3, "times") else {}

    def buffer_size(self, queue):
        """The size of a dequeue, as what the step has in brackets."""
        dice = self.dice
        if dice.chance(0.8):
            return {}
        wrong = dice.one([(0, 1), (2, 0), (513, 1), (1, 513), (RANGES["AWIDTH"][1], 1)])
        shown = dice.one(list(self.by_size) or [(1, 1)])
        return {"size": [dice.weighted([(3, shown), (1, (0, 0)), (1, self.scene.queues[queue]), (1, size(dice)), (0.3 + 0.3 * self.manner.of("wrong"), wrong)])]}

    def crop(self, of_size):
        """A crop that is mostly inside a buffer of this size, as what the step has in brackets."""
        dice, (width, height) = self.dice, of_size
        if dice.chance(0.7):
            return {}
        x, y = dice.below(width), dice.below(height)
        most = width - x + dice.one((0, 0, 0, 0, 1))
        return {"crop": [(x, y, min(dice.between(1, most), 512), dice.between(1, height - y))]}

    def picture(self, of_size, promised=None):
        """A picture of this size, or the one that was promised; seldom another. None where there is none."""
        if not self.scene.pictures:
            return None
        if of_size not in self.by_size or self.is_often(0.04, "wrong"):
            return self.dice.one(list(self.scene.pictures))
        return promised or self.dice.one(self.by_size[of_size])

    def limit(self, low, high, now):
        """A number of slots."""
        return self.dice.weighted([(4, self.dice.between(1, 4)), (2, now - 1), (1, now), (0.5, self.dice.between(low, high)), (0.3, high + 1), (0.3, low - 1),
                                   (0.05, RANGES["COUNT"][1])])

    def frame_number(self):
        """The number of a frame that may be committed, or never is."""
        if self.dice.chance(0.03):
            return self.dice.edge(0, U64)
        shown = self.play.stage.frames.values()
        return max(0, self.dice.between(0, 1) + (self.dice.one(list(shown)) if shown else 0))


class Author:
    """Writes the next steps of a scene's actors."""

    def __init__(self, dice, manner, setting):
        self.dice, self.of, self.setting, self.scene = dice, manner.of, setting, setting.scene
        self.manner, self.play = manner, Guide(self.scene)
        self.changes = Changes(dice, setting, self.play)
        self.words = Words(dice, manner, self.scene, self.play)
        self.given = {actor: [] for actor in self.scene.actors}
        self.blind = Blind(dice, setting, self.given, self.words.names)
        self.numbers = {actor: dice.some(range(1, 65), 2) + [1] for actor in self.scene.actors}
        # How much each actor has to do with each queue, as its producer and as a consumer.
        self.likes = {(actor, queue): (dice.one((0.1, 1, 2)), dice.one((0.1, 1, 2))) for actor in self.scene.actors for queue in self.scene.queues}

        self.plans, self.begun = Plans(dice, self), {}

    # What an actor may act on: how likely, and the method of the moves, with what it is called with.

    def things(self, actor):
        frames, settings, orders = self.of("frames"), self.of("settings"), self.of("orders")
        for name, token in actor.names.items():
            yield self.weight_of(actor, token), self.MOVES_OF[type(token)], (actor, name, token)
        for number, queue in self.play.world.queues.items():
            if queue.is_abandoned and not self.dice.chance(0.1):
                continue
            produces, consumes = self.likes[actor.number, number]
            if queue.producer == actor.number:
                yield frames * (2 if queue.has_free() else 0.4) + 0.4 * settings, Author.as_producer, (actor, number, queue)
            else:
                yield (3 * frames if queue.producer is None else 0.05) * produces, Author.connecting, (actor, number, queue)
            yield self.weight_of_waiting(queue) * consumes + 0.1 * settings, Author.as_consumer, (actor, number, queue)
        if self.scene.timelines:
            yield 0.5 * self.of("fences"), Author.of_timelines, (actor,)
        yield (1 if not actor.transactions else 0.05 * orders), Author.beginning, (actor,)
        for number, txn in actor.transactions.items():
            yield 0.1 + 2 * self.of("layers") + 0.3 * orders + 0.3 * min(len(txn.places), 6), Author.of_transaction, (actor, number, txn)

    def weight_of(self, actor, token):
        """How likely an actor does something with what a name holds; seldom where its queue refuses it."""
        if isinstance(token, Loose):
            return 1.5
        queue = self.play.world.queues[token.queue]
        if queue.is_abandoned or isinstance(token, Lent) and queue.producer != actor.number:
            return 0.25
        if isinstance(token, Frame):
            return 5 * self.of("frames") if token.frame and actor.transactions else 1.2
        return 5 * self.of("frames") + 0.3 if isinstance(token, Lent) else 1.5

    def weight_of_waiting(self, queue):
        """How likely an actor acquires, by the frames that wait."""
        if queue.count(ACQUIRED) > queue.max_acquired:
            return 0.1
        return 2 * min(3, len(queue.items)) * self.manner.follows or 0.1

    # The moves: weights, each with the maker of a step.

    def of_lent(self, actor, name, lent):
        words, frames = self.words, self.of("frames")
        is_asked = lent.asked or lent.came_requested
        yield (6 if not is_asked else 0.05), lambda: step("request", name)
        if self.scene.pictures:
            yield (0.1 if lent.size not in words.by_size else 3 * frames if lent.drawn is None else 0.2), lambda: step("draw", name, words.picture(lent.size))
            ready = 5 * frames if lent.drawn is not None else 2 * self.of("owing")
            yield (ready if is_asked else 0.1 * self.of("wrong")), lambda: self.queue_step(name, lent)
        yield 0.3 * self.of("ends") + 0.1, lambda: step("cancel", name, **words.fence())
        yield (0.6 if is_asked else 0.1) * self.of("loose"), lambda: step("pdetach", name, words.detached(actor, name))

    def queue_step(self, name, lent):
        words = self.words
        return step("queue", name, words.picture(lent.size, lent.drawn), **words.times("time", words.time), **words.crop(lent.size), **words.fence())

    def of_owing(self, actor, name, owing):
        yield 1, lambda: step("draw", name, self.words.picture(owing.size, owing.picture))

    def of_frame(self, actor, name, frame):
        number = self.dice.one(list(actor.transactions) or self.numbers[actor.number])
        shows = (5 if frame.frame else 0.4) if actor.transactions else 0.1
        yield shows * self.of("frames"), lambda: step("buffer", number, self.changes.shown_by(actor.transactions.get(number, NO_TRANSACTION)), name)
        yield 0.8 if frame.frame else 1.5, lambda: step("release", name, **self.words.fence())
        yield 0.5 * self.of("loose"), lambda: step("cdetach", name, self.words.detached(actor, name))

    def of_loose(self, actor, name, loose):
        for queue in self.scene.queues:
            is_mine = self.play.world.queues[queue].producer == actor.number
            yield (2 if is_mine else 0.1), lambda queue=queue: step("pattach", queue, name, self.words.detached(actor, name))
            yield 0.7, lambda queue=queue: step("cattach", queue, name, self.words.detached(actor, name))

    MOVES_OF = {Lent: of_lent, Owing: of_owing, Frame: of_frame, Loose: of_loose}

    def connecting(self, actor, number, queue):
        yield 1, lambda: step("connect", number)

    def as_producer(self, actor, number, queue):
        words, settings, is_free = self.words, self.of("settings"), queue.has_free()
        held = sum(isinstance(token, Lent) for token in actor.names.values())
        lends = 3 * self.of("frames") * (1 if not held else 0.4 * self.manner.hoards / held) * (1 if is_free else 0.15) + 0.01
        yield lends, lambda: step("dequeue", number, words.name(actor), **words.buffer_size(number))
        yield lends * (1 if is_free else self.manner.waits), lambda: step("dequeuewait", number, words.name(actor), **words.buffer_size(number))
        yield 0.3 * settings, lambda: step("maxdequeued", number, words.limit(1, 63, queue.max_dequeued))
        yield 0.25 * settings, lambda: step("async", number, self.dice.below(2))
        yield 0.06 * self.of("ends"), lambda: step("disconnect", number)

    def as_consumer(self, actor, number, queue):
        words = self.words
        yield (2 * len(queue.items) or 0.1), lambda: step("acquire", number, words.name(actor), **words.times("at", words.time, lambda: words.due_time(queue)))
        often = 0.03 if queue.producer is not None else 2 if queue.freed else 0.3
        yield often * self.of("settings"), lambda: step("maxacquired", number, words.limit(1, 62, queue.max_acquired))
        yield 0.015 * self.of("ends"), lambda: step("abandon", number)

    def of_timelines(self, actor):
        values = self.play.world.values
        yield 2, lambda: step("signal", *self.words.left())
        yield 1, lambda: step("wait", *self.dice.one([(timeline, values.get(timeline, 0)) for timeline in self.scene.timelines]))
        yield 2 * self.manner.waits, lambda: step("wait", *self.words.left())

    def beginning(self, actor):
        free = [number for number in self.numbers[actor.number] if number not in actor.transactions]
        yield 1, lambda: step("tx", self.dice.one(free or self.numbers[actor.number]))

    def of_transaction(self, actor, number, txn):
        orders = self.of("orders")
        yield 1.5 * self.of("layers"), lambda: step("set", number, *self.changes.change(txn))
        yield 0.1 + 0.3 * min(len(txn.places), 6), lambda: step("apply", number, self.dice.one(self.setting.tokens))
        yield 0.15 * self.of("times"), lambda: step("desire", number, self.words.time())
        yield 0.05 * orders, lambda: step("barrier", number, self.changes.shown_by(txn), self.words.frame_number())
        if len(actor.transactions) > 1:
            yield 0.15 * orders, lambda: step("merge", number, self.dice.one([other for other in actor.transactions if other != number]))

    def maker(self, actor):
        """What makes a next step."""
        if self.dice.chance(0.003 + min(0.2, 0.03 * self.of("blind"))):
            return lambda: self.blind.step(actor)
        things = [(weight, (moves, called_with)) for weight, moves, called_with in self.things(actor)]
        moves, called_with = self.dice.weighted(things)
        return self.dice.weighted(list(moves(self, *called_with)))

    def planned(self, actor):
        """The next step of the actor's plan; None where it has none, or the plan ends."""
        if actor.number not in self.begun and self.dice.chance(self.manner.plans):
            self.begun[actor.number] = self.plans.plan(actor)
        if actor.number not in self.begun or self.dice.chance(0.05):
            return None
        found = next(self.begun[actor.number], None)
        if found is None:
            del self.begun[actor.number]
        return found

    def next_step(self, actor):
        """A next step for an actor. None where none was found that is one of a scene."""
        for _ in range(MOST_TRIES):
            found = self.planned(actor) or self.maker(actor)()
            if found is not None and self.fits(actor, found):
                return found
        return None

    def fits(self, actor, found):
        """Notes the name that a step gives. False where it names a name that none gave, or what is not declared."""
        names, gives = names_of(found)
        given = self.given[actor.number]
        if any(name not in given for name in names) or None in found.args:
            return False
        if gives is not None and gives not in given:
            if len(given) >= MOST_NAMES:
                return False
            given.append(gives)
        return True
