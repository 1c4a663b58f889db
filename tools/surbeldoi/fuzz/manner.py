"""How a random scene goes about: what its actors do often, seldom or never."""

# What a scene's actors may do, each with how often a scene leaves it out. `wrong` is steps that are likely to be refused,
# `blind` such as look at nothing.
LEFT_OUT = {"frames": 0.05, "settings": 0.1, "loose": 0.3, "fences": 0.3, "times": 0.4, "layers": 0.05, "orders": 0.3, "ends": 0.4,
            "owing": 0.3, "wrong": 0.2, "blind": 0.3, "second": 0.2}
# What a scene may be about.
TOPICS = (("frames",), ("frames", "owing"), ("frames", "fences"), ("frames", "times"), ("frames", "orders"), ("settings", "frames"), ("loose", "frames"),
          ("layers",), ("layers",), ("layers", "wrong"), ("orders",), ("second", "layers"), ("second", "layers", "frames"), ("ends", "frames"), ("blind",))


class Manner:
    """The weights of a scene: how often it does what, beside what is usual."""

    def __init__(self, dice):
        topics = dice.one(TOPICS)
        self.weights = {}
        for name, left_out in LEFT_OUT.items():
            often = dice.one((0.3, 1, 1, 1, 3)) * (4 if name in topics else 1)
            self.weights[name] = often if name in topics or not dice.chance(left_out) else 0
        # How many turns a scene has, how often a turn is the vsync's, and how many turns one has after another.
        self.turns = dice.weighted([(5, dice.between(5, 30)), (4, dice.between(30, 90)), (1, dice.between(90, 300))])
        self.vsyncs = dice.one((0.03, 0.08, 0.15, 0.3))
        self.burst = dice.one((1, 2, 5, 12))
        self.plans = dice.one((0, 0.05, 0.15, 0.4))
        self.waits = dice.one((0, 0.1, 0.4))
        # How many buffers actors hold at once, and how soon frames that wait are acquired.
        self.hoards = dice.one((0.1, 0.5, 1, 1, 3, 6))
        self.follows = dice.one((1, 1, 1, 0.3, 0.05))

    def of(self, name):
        return self.weights[name]
