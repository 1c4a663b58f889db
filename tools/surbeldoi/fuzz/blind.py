"""Steps that look at nothing: any form with any values of its kinds."""

from surbeldoi.fuzz.forms import FORMS, kinds_of, step_of
from surbeldoi.fuzz.setting import colour
from surbeldoi.script.scenes import RANGES, form_parts

# How many parts of a form that may be repeated a step has.
REPEATED = (0, 0, 1, 2, 5)
# The ranges of which numbers seldom mean something at their ends are taken near their begin.
NEAR = ("VALUE", "FRAME", "COUNT", "AWIDTH", "AHEIGHT", "CWIDTH", "CHEIGHT", "X", "Y", "BWIDTH", "BHEIGHT")


class Blind:
    """Makes such steps for the actors of a scene; `given` has the names that each actor's earlier steps gave, `names` those that
    may be given."""

    def __init__(self, dice, setting, given, names):
        self.dice, self.setting, self.given, self.names = dice, setting, given, names

    def declared(self, kind):
        """The numbers that are declared of a kind, or None where the kind is none of declarations."""
        scene = self.setting.scene
        return {"QUEUE": scene.queues, "PICTURE": scene.pictures, "TIMELINE": scene.timelines}.get(kind)

    def value(self, kind, actor):
        """Any value of a kind; None where there is none."""
        dice, declared = self.dice, self.declared(kind)
        if declared is not None:
            return dice.one(list(declared)) if declared else None
        if kind == "NAME":
            return dice.one(self.given[actor.number]) if self.given[actor.number] else None
        if kind == "COLOUR":
            return colour(dice)
        if kind == "PARENT":
            return dice.one((-1, 0, self.setting.layer()))
        if kind == "LAYER":
            return self.setting.layer()
        if kind == "TOKEN":
            return dice.one(self.setting.tokens)
        if kind == "TX" and actor.transactions and dice.chance(0.7):
            return dice.one(list(actor.transactions))
        low, high = RANGES[kind]
        return dice.between(low, low + 3) if kind in NEAR and dice.chance(0.7) else dice.edge(low, high)

    def values(self, kinds, actor):
        return [self.value(kind, actor) for kind in kinds]

    def more(self, parts, actor):
        """The parts in brackets of a step, by their first words; a value in them may be None."""
        more = {}
        for part, repeats in parts:
            count = self.dice.one(REPEATED if repeats else (0, 1))
            if count:
                more[part[0]] = [tuple(self.values(kinds_of(part), actor)) for _ in range(count)]
        return more

    def step(self, actor):
        """A step for an actor, or None where what it needs is not declared."""
        form = self.dice.one(FORMS)
        needed, parts = form_parts(form)
        values, more = self.values(kinds_of(needed), actor), self.more(parts, actor)
        if " as " in form:
            values[-1] = self.dice.one(self.names[actor.number])
        if None in values or any(None in each for several in more.values() for each in several):
            return None
        return step_of(form, values, more)
