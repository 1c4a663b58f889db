"""What a vsync shows of a tree of layers: the frames of all displays, the captures and the hits of a scene, each as a tag and
fields.

A display shows the layers of its stack, with the mirrors written out. A capture shows a layer with all below it by itself,
and a hit is a layer of the scene's own display; both without what mirrors show.
"""

from surbeldoi.model.painting import Painter, Placements, drawn
from surbeldoi.model.trees import cut, draw_order, written
from surbeldoi.records.stream import OUTPUTS, place_of, place_text

OWN_STACK = 0


def name_of(tag, fields):
    """A record of an output by its number, if it has one."""
    return f"{tag} of {place_text(place_of(tag, fields))}" if OUTPUTS[tag] else tag


def on_stack(stacks, placements, order, stack):
    """The layers of an order that are on a stack, by these stacks of layers: by the layer at the root that is above them."""
    if not stacks:
        return order if stack == OWN_STACK else []
    return [layer for layer in order if stacks.get(placements.of(layer).uppermost, OWN_STACK) == stack]


class Outputs:
    """What is due of the trees of a scene."""

    def __init__(self, scene):
        self.scene, self.painter = scene, Painter(scene.pictures)

    def size_of(self, tag, fields):
        """The size of an image."""
        if tag == "FRAM":
            return self.scene.width, self.scene.height
        if tag == "FRAD":
            return self.scene.displays[fields["display"]][:2]
        return self.scene.captures[fields["capture"]][1:]

    def frames(self, tree, number):
        """The frames of the own display and of the further ones, by rising number."""
        whole = written(tree, self.scene.mirrors) if self.scene.mirrors else tree
        placements, order, scene = Placements(whole), draw_order(whole), self.scene
        layers = on_stack(self.scene.stacks, placements, order, OWN_STACK)
        yield "FRAM", {"number": number, "pixels": self.painter.image("FRAM", placements, layers, scene.width, scene.height)}
        for display, (width, height, stack) in scene.displays.items():
            layers = on_stack(self.scene.stacks, placements, order, stack)
            yield "FRAD", {"display": display, "number": number, "pixels": self.painter.image(("FRAD", display), placements, layers, width, height)}

    def captures(self, tree, number):
        for capture, (layer, width, height) in self.scene.captures.items():
            if layer in tree:
                part = cut(tree, layer)
                pixels = self.painter.image(("CAPT", capture), Placements(part), draw_order(part), width, height)
                yield "CAPT", {"capture": capture, "number": number, "pixels": pixels}

    def hits(self, tree, number):
        if not self.scene.hits:
            return
        placements = Placements(tree)
        order = [layer for layer in on_stack(self.scene.stacks, placements, draw_order(tree), OWN_STACK) if layer.has_content()]
        size = self.scene.width, self.scene.height
        clips = [(layer.number, drawn(layer, placements.of(layer), self.scene.pictures, *size)) for layer in reversed(order)]
        for hit, (x, y) in self.scene.hits.items():
            yield "HITS", {"hit": hit, "number": number, "layer": next((layer for layer, clip in clips if clip.has(x, y)), 0)}

    def due(self, tree, number):
        """All that the vsync of this number shows of a tree, in order."""
        yield from self.frames(tree, number)
        yield from self.captures(tree, number)
        yield from self.hits(tree, number)
