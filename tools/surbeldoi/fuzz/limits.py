"""Scenes at the limits of what a script may have: as many declarations, names, steps, layers, turns, pixels and bytes as may be."""

from surbeldoi.fuzz.forms import step
from surbeldoi.fuzz.setting import STACKS, colour, picture, point, size
from surbeldoi.script.scenes import MOST_ACTORS, MOST_BYTES, MOST_FILLS, MOST_LAYERS, MOST_MIRRORS, MOST_NAMES, MOST_STEPS, RANGES, Capture, Display

# How many scenes of a thousand are at a limit; those that take long are one of so many of these.
OF_A_THOUSAND, LONG = 40, 8
MOST_SIZE = RANGES["WIDTH"][1]


def numbers(kind):
    low, high = RANGES[kind]
    return range(low, high + 1)


def many_timelines(dice, setting):
    setting.scene.timelines[:] = numbers("TIMELINE")


def many_queues(dice, setting):
    for number in numbers("QUEUE"):
        setting.scene.queues.setdefault(number, size(dice))


def many_pictures(dice, setting):
    for number in numbers("PICTURE"):
        setting.scene.pictures.setdefault(number, picture(dice, size(dice), setting.scene.version))


def many_fills(dice, setting):
    for number, shown in list(setting.scene.pictures.items())[:1]:
        fills = [(dice.below(shown.width), dice.below(shown.height), 1, dice.between(1, shown.height), colour(dice)) for _ in range(MOST_FILLS)]
        setting.scene.pictures[number] = shown._replace(fills=fills)


def many_actors(dice, setting):
    for number in range(1, MOST_ACTORS[setting.scene.version] + 1):
        setting.scene.actors.setdefault(number, [])


def many_outputs(dice, setting):
    scene = setting.scene
    if scene.version == 2:
        scene.displays.update((number, Display(*size(dice), dice.one(STACKS))) for number in numbers("DISPLAY"))
        scene.captures.update((number, Capture(setting.layer(), *size(dice))) for number in numbers("CAPTURE"))
        scene.hits.update((number, point(dice, scene.width, scene.height)) for number in numbers("HIT"))
        for layer in setting.layers[:MOST_MIRRORS - len(scene.mirrors)]:
            scene.mirrors.setdefault(layer, setting.layer())


def wide(dice, setting):
    setting.scene.width, setting.scene.height = dice.one(((MOST_SIZE, 1), (1, MOST_SIZE), (MOST_SIZE, 2)))


def large_buffers(dice, setting):
    scene, of_size = setting.scene, dice.one(((512, 1), (1, 512), (512, 3)))
    scene.queues.update((number, of_size) for number in list(scene.queues))
    scene.pictures.update((number, picture(dice, of_size, scene.version)) for number in list(scene.pictures))


def large(dice, setting):
    setting.scene.width = setting.scene.height = MOST_SIZE


DECLARED = (many_timelines, many_queues, many_pictures, many_fills, many_actors, many_outputs, wide, large_buffers)


def many_names(turns):
    """All actors have as many names as may be."""
    for names in turns.author.words.names.values():
        names[:] = [f"n{number}" for number in range(MOST_NAMES)]
    turns.manner.hoards = 8


def many_turns(turns):
    """A turn many times after another."""
    number = turns.dice.one([0] + [actor.number for actor in turns.actors])
    for _ in range(turns.dice.one((256, 257, 300))):
        turns.pick(number)


def many_layers(turns):
    """As many layers as may be, and more, in one transaction or several, side by side or one below the other."""
    scene, dice, actor = turns.author.scene, turns.dice, turns.actors[0]
    is_deep, in_one = dice.chance(0.5), dice.between(50, 2000)
    for made in range(MOST_LAYERS[scene.version] + 2):
        if made % in_one == 0:
            turns.take(actor, step("apply", 9, 1), step("tx", 9))
        turns.take(actor, step("set", 9, 100 + made, ("create", "container" if dice.chance(0.9) else "colour", 99 + made if is_deep and made else 0)))
    turns.take(actor, step("apply", 9, 1))
    turns.pick(0)


def many_steps(turns):
    """As many steps as an actor may have; some wait."""
    actor = turns.dice.one(turns.actors)
    actor.steps += [step("tx", 1) for _ in range(MOST_STEPS - len(actor.steps))]
    turns.done.add(actor.number)


PLAYED = (many_names, many_turns)
PLAYED_LONG = (many_layers, many_steps)


class Limit:
    """At which limit a scene is, if at any."""

    def __init__(self, dice, of_a_thousand=OF_A_THOUSAND):
        is_at, is_long = dice.chance(of_a_thousand / 1000), dice.chance(1 / LONG)
        self.kind = (dice.one(PLAYED_LONG + (many_layers, large, "bytes")) if is_long else dice.one(DECLARED + PLAYED)) if is_at else None

    def declare(self, dice, setting):
        if self.kind in DECLARED + (large,):
            self.kind(dice, setting)

    def play(self, turns):
        if self.kind in PLAYED + PLAYED_LONG:
            self.kind(turns)

    def fill(self, script):
        """The script with comments behind it, so that it has as many bytes as it may have."""
        if self.kind != "bytes":
            return script
        script = script if script.endswith(b"\n") else script + b"\n"
        return script + b"#" * (MOST_BYTES - len(script))
