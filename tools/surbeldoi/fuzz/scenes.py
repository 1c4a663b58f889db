"""Random scenes: the same for a seed on every machine."""

from surbeldoi.fuzz.acting import Author
from surbeldoi.fuzz.dice import Dice
from surbeldoi.fuzz.limits import Limit
from surbeldoi.fuzz.manner import Manner
from surbeldoi.fuzz.setting import Setting
from surbeldoi.fuzz.writing import VSYNC, Style, declarations, lines_of, plain

# How far a scene that is written turn by turn goes on behind its order.
MOST_ROUNDS = 12


class Turns:
    """The turns of a scene's actors and of the vsync, as they are written: `picks` is their order. An actor that had a turn and no
    step for it is done for good."""

    def __init__(self, dice, manner, author):
        self.dice, self.manner, self.author, self.play = dice, manner, author, author.play
        self.actors = list(author.play.world.actors.values())
        self.picks, self.done, self.waits = [], set(), set()

    def is_next(self, actor):
        """Whether an actor has a step for its turn; one is written for it where it has none."""
        if actor.next_step() is None and actor.number not in self.done:
            found = self.author.next_step(actor)
            if found is None:
                self.done.add(actor.number)
            else:
                actor.steps.append(found)
        return actor.next_step() is not None

    def act(self, actor):
        """An actor has a turn."""
        had = actor.done
        for _ in self.play.turn(actor):
            pass
        if actor.next_step() is not None and actor.done == had:
            self.waits.add(actor.number)
        else:
            self.waits.discard(actor.number)

    def vsync(self):
        for _ in self.play.vsync():
            pass

    def pick(self, number):
        self.picks.append(number)
        if number == VSYNC:
            self.vsync()
            return
        actor = self.play.world.actors[number]
        if self.is_next(actor):
            self.act(actor)

    def chosen(self):
        """Whose turn is next; an actor that waits has one less often."""
        if not self.actors or self.dice.chance(self.manner.vsyncs):
            return VSYNC
        return self.dice.weighted([(0.15 if actor.number in self.waits else 1, actor.number) for actor in self.actors])

    def ordered(self, count):
        """So many turns of the order."""
        while len(self.picks) < count:
            number = self.chosen()
            times = 1 if number == VSYNC or number in self.waits else self.dice.between(1, self.manner.burst)
            for _ in range(times):
                self.pick(number)

    def take(self, actor, *steps):
        """An actor takes these steps, each in a turn."""
        for found in steps:
            actor.steps.append(found)
            self.pick(actor.number)

    def opening(self):
        """Layers are there from the begin."""
        actors = [actor for actor in self.actors if actor.number not in self.done]
        if actors:
            actor = self.dice.one(actors)
            for found in self.author.plans.opening(actor):
                self.take(actor, found)
        self.pick(VSYNC)

    def rounds(self, count):
        """So many rounds behind the order, in which no step is written for one who was done before."""
        for _ in range(count):
            for actor in sorted(self.actors, key=lambda actor: actor.number):
                if actor.number not in self.done and self.dice.chance(0.15):
                    self.done.add(actor.number)
                if self.is_next(actor):
                    self.act(actor)
            self.vsync()


def play(dice, manner, turns):
    """The turns of a scene, an opening, an order, and rounds behind it, or not all of these: the picks of its order."""
    if manner.of("layers") and dice.chance(0.7):
        turns.opening()
    if dice.chance(0.9):
        turns.ordered(len(turns.picks) + manner.turns)
    if dice.chance(0.3) or not turns.picks:
        turns.rounds(dice.between(1, MOST_ROUNDS))
    return turns.picks if dice.chance(0.95) else turns.picks[:dice.below(len(turns.picks) + 1)]


def random_lines(dice, limit, count=None):
    """The lines of a random scene, as lists of words; its order has about so many turns, if a count is given."""
    manner = Manner(dice)
    manner.turns = manner.turns if count is None else count
    setting = Setting(dice, manner)
    limit.declare(dice, setting)
    turns = Turns(dice, manner, Author(dice, manner, setting))
    limit.play(turns)
    picks = play(dice, manner, turns)
    return lines_of(setting.scene, picks, dice.shuffled(list(declarations(setting.scene))))


def random_scene(seed):
    """The script of the scene of a seed."""
    dice = Dice(1, seed)
    limit = Limit(dice)
    lines = random_lines(dice, limit)
    return limit.fill(Style(dice).script(lines) if dice.chance(0.12) else plain(lines))
