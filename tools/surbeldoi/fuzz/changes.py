"""Random changes of layers, as the steps of a transaction make them."""

from surbeldoi.fuzz.setting import colour
from surbeldoi.model.trees import NOTHING, ROOT
from surbeldoi.script.scenes import RANGES

KINDS = ("container", "colour", "colour", "buffer", "buffer")
# How often a change is as its layers allow it.
MOSTLY = 0.96


def created_in(operations):
    """The kinds of the layers that operations create, by their numbers."""
    return {layer: change[1] for layer, change in operations if change[0] == "create"}


class Changes:
    """Changes of the layers of a scene; `play` is how far it has come."""

    def __init__(self, dice, setting, play):
        self.dice, self.setting, self.play = dice, setting, play
        self.kinds = {layer: "container" if layer in setting.scene.mirrors and not dice.chance(0.1) else dice.one(KINDS) for layer in setting.layers}
        # How deep trees grow: how often a parent is another layer than the root.
        self.deep = dice.one((0.1, 0.5, 0.9))
        # The layers that the transaction has by its place, and all that are in it or on their way to it, each with its kind.
        self.there, self.coming = {}, {}

    def look(self, txn):
        """Looks at the layers that there are when a transaction is committed, as far as that is known."""
        self.there = {number: layer.kind for number, layer in self.play.stage.tree.items()}
        self.there.update(created_in(txn.operations()))
        self.coming = dict(self.there)
        for pending in self.play.world.pending.values():
            for _, other in pending:
                self.coming.update(created_in(other.operations()))

    def layer(self):
        """A layer to change."""
        if self.there and self.dice.chance(MOSTLY):
            return self.dice.one(list(self.there))
        return self.dice.one(list(self.coming)) if self.coming and self.dice.chance(MOSTLY) else self.setting.layer()

    def showing(self):
        """A layer to show a frame on."""
        showing = [layer for layer, kind in self.coming.items() if kind == "buffer"]
        return self.dice.one(showing) if showing and self.dice.chance(MOSTLY) else self.layer()

    def parent(self):
        if self.dice.chance(0.05):
            return NOTHING
        return self.layer() if self.dice.chance(self.deep) else ROOT

    def missing(self):
        """The layers of the scene that nothing has created."""
        return [layer for layer in self.setting.layers if layer not in self.coming]

    def create(self):
        """A new layer: its number and the change."""
        left = self.missing()
        layer = self.dice.one(left) if left and self.dice.chance(MOSTLY) else self.setting.layer()
        kind = self.kinds.get(layer, "colour") if self.dice.chance(MOSTLY) else self.dice.one(KINDS)
        return layer, ("create", kind, self.parent() if self.there else ROOT)

    def near(self):
        """A coordinate at which a layer is mostly seen."""
        width, height = self.setting.scene.width, self.setting.scene.height
        return self.dice.between(-2, max(width, height) // 2 + 1) if self.dice.chance(MOSTLY) else self.dice.edge(*RANGES["PX"])

    def extent(self):
        return self.dice.between(0, 9) if self.dice.chance(MOSTLY) else self.dice.edge(*RANGES["CWIDTH"])

    def z(self):
        return self.dice.between(-2, 3) if self.dice.chance(MOSTLY) else self.dice.edge(*RANGES["Z"])

    def of_kind(self, layer):
        """A change that means something for a layer of its kind alone."""
        kind = self.there.get(layer, "colour") if self.dice.chance(MOSTLY) else "colour"
        return ("colour", colour(self.dice)) if kind == "colour" else ("orient", self.dice.between(0, 7))

    def to_be_seen(self, layer, kind):
        """Changes by which a new layer is seen, and hides little of the others."""
        if kind == "colour" and self.dice.chance(0.9):
            yield ("colour", colour(self.dice))
        if self.dice.chance(0.5 if kind == "colour" else 0.1):
            yield ("crop", (self.dice.between(0, 2), self.dice.between(0, 2), self.dice.between(1, 4), self.dice.between(1, 4)))
        if self.dice.chance(0.4):
            yield ("position", self.dice.between(0, 3), self.dice.between(0, 3))

    def usual(self, layer):
        """A change of a layer that can be done, if the layer is there."""
        dice = self.dice
        makers = [(3, lambda: self.of_kind(layer)), (2, lambda: ("position", self.near(), self.near())),
                  (1.5, lambda: ("crop", (self.near(), self.near(), self.extent(), self.extent()))), (0.4, lambda: ("crop", None)),
                  (1, lambda: ("z", self.z())), (1.2, lambda: ("alpha", dice.weighted([(1, dice.edge(0, 255)), (2, dice.between(60, 255))]))),
                  (0.6, lambda: ("hidden", int(dice.chance(0.3)))), (0.8, lambda: ("opaque", dice.below(2))), (0.5, lambda: ("orient", dice.between(0, 7))),
                  (1.5 if self.there.get(layer) == "buffer" else 0.2, lambda: ("backpressure", int(dice.chance(0.8))))]
        return dice.weighted(makers)()

    def change(self, txn):
        """A layer, and a change of it for a transaction."""
        self.look(txn)
        layer = self.layer()
        missing = len(self.missing())
        makers = [(8 if missing > 2 else 3 if missing else 0.1, self.create), (8 if self.there else 1, lambda: (layer, self.usual(layer))),
                  (0.7, lambda: (layer, ("relative", self.layer(), self.z()))), (0.7, lambda: (layer, ("reparent", self.parent()))),
                  (0.2, lambda: (layer, ("destroy",)))]
        return self.dice.weighted(makers)()

    def shown_by(self, txn):
        """A layer for a frame in a transaction."""
        self.look(txn)
        return self.showing()
