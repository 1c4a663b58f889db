"""The order of a scene whose turns nobody counts: before each vsync each actor goes on until it waits or has applied a transaction."""

from surbeldoi.model.playing import Play
from surbeldoi.model.queues import OK
from surbeldoi.model.transactions import TIME
from surbeldoi.script.scripts import lines_of, texts_of

VSYNC, MOST_TIMES = 0, 256
WIDTH = 100


class NoOutputs:
    """Shows nothing: for an order it does not matter what a vsync shows."""

    @staticmethod
    def due(*_):
        return ()


class Turns:
    """Plays a scene in such an order, and notes whose turn it was."""

    def __init__(self, scene):
        self.play, self.picks = Play(scene), []
        self.play.outputs = NoOutputs()
        self.actors = list(self.play.world.actors.values())

    def pick(self, whose):
        """Notes a turn."""
        if self.picks and self.picks[-1][0] == whose and self.picks[-1][1] < MOST_TIMES:
            self.picks[-1][1] += 1
        else:
            self.picks.append([whose, 1])

    def go_on(self, actor):
        """An actor goes on until it waits or has applied. Whether it has taken a step, and whether it has applied."""
        has_gone = False
        while actor.next_step() is not None:
            verb, told = actor.next_step().verb, list(self.play.turn(actor))
            if not told:
                break
            has_gone = True
            self.pick(actor.number)
            if verb == "apply" and told[0][1]["status"] == OK:
                return True, True
        return has_gone, False

    def before_vsync(self):
        """All actors go on, those that waited again as long as another one has gone on. Whether one has taken a step."""
        left, has_gone, is_moving = list(self.actors), False, True
        while is_moving:
            gone = [(actor, *self.go_on(actor)) for actor in left]
            left = [actor for actor, _, has_applied in gone if not has_applied]
            is_moving = any(moved for _, moved, _ in gone)
            has_gone = has_gone or is_moving
        return has_gone

    def all(self):
        """The picks, up to the vsync behind the last step."""
        while True:
            has_gone, told = self.before_vsync(), list(self.play.vsync())
            if not has_gone and not told and all(hold != TIME for _, hold, _, _ in self.play.held):
                break
            self.pick(VSYNC)
        while self.picks[-2:] and self.picks[-1][0] == VSYNC and self.picks[-1][1] > 1:
            self.picks[-1][1] -= 1
        return self.picks


def pick_text(whose, times):
    name = "v" if whose == VSYNC else str(whose)
    return name if times == 1 else f"{name}*{times}"


def order_lines(scene):
    """The lines of an order for a scene."""
    lines = []
    for pick in Turns(scene).all():
        text = pick_text(*pick)
        if lines and len(lines[-1]) + 1 + len(text) <= WIDTH:
            lines[-1] += " " + text
        else:
            lines.append("order " + text)
    return lines


def with_order(script, lines):
    """The lines of a script with an order in the place of its own."""
    for text in lines_of(script):
        words = texts_of(text)
        if words[:1] == ["end"]:
            yield from lines
        if words[:1] != ["order"]:
            yield text
