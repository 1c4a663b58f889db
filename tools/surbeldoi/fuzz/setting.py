"""What a random scene declares: its displays, timelines, queues, pictures, and which actors it has."""

from surbeldoi.script.grammar import FORMATS
from surbeldoi.script.scenes import MOST_ACTORS, RANGES, U32, Capture, Display, Picture, Scene

LAST_LAYER = U32
PERIODS = (1_000_000, 1_000_000, 16_666_667, 16_666_667, 8_333_333, 500_000_000, 999_999_999, 1_000_000_000)
STACKS = (0, 0, 1, 1, 2, U32)
SMALL = 6


def size(dice, small=SMALL):
    """A size, mostly of few pixels."""
    if dice.chance(0.03):
        return dice.between(1, 60), dice.between(1, 40)
    return dice.between(1, small), dice.between(1, small)


def numbers(dice, kind, count):
    """So many numbers of a kind, mostly low ones."""
    low, high = RANGES[kind]
    nearest = range(low, min(high, low + 2 * count + 1) + 1)
    return dice.some(nearest if dice.chance(0.8) else list(range(low, high + 1)), count)


def colour(dice):
    """A colour of four bytes, premultiplied or brighter than that."""
    def within(most):
        return bytes(dice.between(0, most) for _ in range(3))
    alpha = dice.weighted([(2, 255), (3, dice.between(1, 254)), (1, 0)])
    return within(alpha if dice.chance(0.7) else 255) + bytes((alpha,))


def picture(dice, of_size, version):
    """A picture of this size."""
    width, height = of_size
    fills = []
    for _ in range(dice.one((0, 1, 1, 2, 3, 5))):
        x, y = (0, 0) if dice.chance(0.3) else (dice.below(width), dice.below(height))
        wide, high = (width, height) if dice.chance(0.3) else (dice.between(1, width + 1), dice.between(1, height + 1))
        fills.append((min(x, 511), min(y, 511), min(wide, 512), min(high, 512), colour(dice)))
    return Picture(width, height, fills, dice.one(FORMATS) if version == 2 and dice.chance(0.6) else FORMATS[0])


def point(dice, width, height):
    """A place on a display of this size, on its border, or far from it."""
    if dice.chance(0.1):
        return dice.edge(*RANGES["PX"]), dice.edge(*RANGES["PY"])
    return dice.between(-1, width), dice.between(-1, height)


class Setting:
    """A scene whose actors have no steps yet, and the layers and tokens that they will name."""

    def __init__(self, dice, manner):
        self.dice, self.manner, self.scene = dice, manner, Scene()
        second = manner.of("second")
        self.scene.version = 2 if second and dice.chance(0.45 if second <= 1 else 0.9) else 1
        self.layers = self.some_layers()
        self.tokens = dice.some([1, 2, 3, 4, 5, 70000, U32], dice.between(1, 4))
        self.display()
        self.scene.timelines += sorted(numbers(dice, "TIMELINE", dice.between(1, 4) if manner.of("fences") else dice.below(2)))
        self.buffers()
        self.actors()
        if self.scene.version == 2:
            self.further()

    def some_layers(self):
        count = self.dice.between(2, 12)
        return self.dice.some(range(1, 2 * count), count - 1) + [self.dice.edge(1, LAST_LAYER)]

    def display(self):
        scene, dice = self.scene, self.dice
        scene.width, scene.height = size(dice, 8)
        scene.period = dice.one(PERIODS) if dice.chance(0.8) else dice.edge(*RANGES["PERIOD"])

    def buffers(self):
        """Queues, and pictures of their sizes and of some others."""
        scene, dice = self.scene, self.dice
        sizes = [size(dice) for _ in range(dice.between(1, 3))]
        many = dice.weighted([(1, 0), (5, 1), (4, 2), (2, 3), (1, 6)])
        scene.queues.update((number, dice.one(sizes)) for number in numbers(dice, "QUEUE", many))
        shown = [of_size for of_size in scene.queues.values() for _ in range(dice.between(1, 2))] + dice.some(sizes + [size(dice)], dice.below(3))
        for number, of_size in zip(numbers(dice, "PICTURE", len(shown)), dice.shuffled(shown)):
            scene.pictures[number] = picture(dice, of_size, scene.version)

    def actors(self):
        most, dice = MOST_ACTORS[self.scene.version], self.dice
        count = dice.weighted([(3, 1), (5, 2), (4, 3), (2, 4), (1, dice.between(5, 8))])
        near = range(1, 2 * count + 1) if dice.chance(0.8) else range(1, most + 1)
        self.scene.actors.update((number, []) for number in dice.some(near, count))

    def further(self):
        """What version 2 has besides."""
        scene, dice = self.scene, self.dice
        often = 1 if self.manner.of("second") <= 1 else 3
        for number in numbers(dice, "DISPLAY", dice.below(2 * often)):
            scene.displays[number] = Display(*size(dice), dice.one(STACKS))
        for number in numbers(dice, "CAPTURE", dice.below(2 * often)):
            scene.captures[number] = Capture(self.layer(), *size(dice))
        for number in numbers(dice, "HIT", dice.below(3 * often)):
            scene.hits[number] = point(dice, scene.width, scene.height)
        for layer in dice.some(self.layers, dice.below(2 * often) if dice.chance(0.6) else 0):
            scene.stacks[layer] = dice.one(STACKS)
        for layer in dice.some(self.layers, dice.below(2 * often) if dice.chance(0.6) else 0):
            scene.mirrors[layer] = self.layer()

    def layer(self):
        """A layer that the actors will name, or seldom one that they will not."""
        return self.dice.one(self.layers) if self.dice.chance(0.95) else self.dice.edge(1, LAST_LAYER)
