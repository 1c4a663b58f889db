"""Which layers an image has at a point, from the back, and what the pixel is after each."""

from typing import NamedTuple

from surbeldoi.model.outputs import OWN_STACK, on_stack
from surbeldoi.model.painting import BLACK, Placements, drawn, over
from surbeldoi.model.trees import cut, draw_order, written

# Channels that differ by no more may be of another rounding.
NEAR = 2


class LayerAt(NamedTuple):
    """A layer that an image has: itself, as it is drawn, the colour of its own pixel at a point, or at the nearest one that it has,
    whether it has the point, and the pixel after it."""

    layer: object
    drawn: object
    own: bytes
    is_there: bool
    after: bytes


def placed_order(outputs, tree, tag, fields):
    """The placements of the layers that an image is of, and their order from the back."""
    scene = outputs.scene
    if tag == "CAPT":
        part = cut(tree, scene.captures[fields["capture"]].layer)
        return Placements(part), draw_order(part)
    whole = written(tree, scene.mirrors) if scene.mirrors else tree
    placements, stack = Placements(whole), OWN_STACK if tag == "FRAM" else scene.displays[fields["display"]].stack
    return placements, on_stack(scene.stacks, placements, draw_order(whole), stack)


def own_colour(painter, layer, x, y):
    """The colour of a drawn layer's own pixel at a point, or at the nearest one that it has."""
    x, y = min(max(x, layer.left), layer.right - 1), min(max(y, layer.top), layer.bottom - 1)
    return next(colour for start, end, colour in painter.parts(layer, y) if start <= x < end)


def layers_near(outputs, tree, tag, fields, x, y):
    """The layers that an image has, from the back, by what they have at a point or next to it."""
    placements, order = placed_order(outputs, tree, tag, fields)
    size, pixel = outputs.size_of(tag, fields), BLACK
    for layer in (layer for layer in order if layer.has_content()):
        clip = drawn(layer, placements.of(layer), outputs.scene.pictures, *size)
        if clip.is_seen():
            own, is_there = own_colour(outputs.painter, clip, x, y), clip.has(x, y)
            pixel = over(pixel, own, clip.alpha) if is_there else pixel
            yield LayerAt(layer, clip, own, is_there, pixel)


def blended(parts):
    """The pixel that layers make, each as a colour of its own and an alpha."""
    pixel = BLACK
    for own, alpha in parts:
        pixel = over(pixel, own, alpha)
    return pixel


def name_of(layer):
    """A layer by its number; a copy, which a mirror shows, by that of its original."""
    return f"layer {layer.number[1]} in mirror {layer.number[0]}" if isinstance(layer.number, tuple) else f"layer {layer.number}"


def described(at):
    """A layer at a point in words."""
    layer = at.layer
    what = f"colour {layer.colour}" if layer.kind == "colour" else f"picture {layer.content.picture}, {at.own.hex()} there"
    more = [f"alpha {at.drawn.alpha}"] if at.drawn.alpha != 255 else []
    more += ["opaque"] if layer.opaque else []
    more += [f"orientation {layer.orient}"] if layer.orient and layer.kind == "buffer" else []
    return f"{name_of(layer)}: " + ", ".join([what, *more])


def part_of(at):
    return at.own, at.drawn.alpha


def guesses_of_layers(near):
    """What one layer may be otherwise than it should: the pixel that it would give, and a sentence."""
    parts = [[part_of(at)] if at.is_there else [] for at in near]

    def with_part(place, part):
        return blended(each for several in parts[:place] + [part] + parts[place + 1:] for each in several)

    last = None
    for place, at in enumerate(near):
        name = name_of(at.layer)
        if not at.is_there:
            clip = at.drawn
            yield with_part(place, [part_of(at)]), f"it is what is there if {name} reaches it, which shows from {clip.left} {clip.top} to {clip.right - 1} {clip.bottom - 1}"
            continue
        yield with_part(place, []), f"it is what is there without {name}"
        if at.drawn.alpha != 255:
            yield with_part(place, [(at.own, 255)]), f"it is what is there if {name} has alpha 255"
        if last is not None:
            behind = parts[:last] + [parts[place], parts[last]] + parts[place + 1:]
            yield blended(each for several in behind for each in several), f"it is what is there with {name} behind {name_of(near[last].layer)}"
        last = place


def guesses(near, before, due, got):
    """What may have gone wrong where a pixel came that is not the one that is due: sentences, each of which would give it. `near` are
    the layers, and `before` is the pixel of the frame before, or None."""
    if got == before:
        yield "it is what the frame before has there"
    if due != got == bytes((due[2], due[1], due[0], due[3])):
        yield "red and blue have changed places"
    if got[:3] == due[:3]:
        yield "the alpha alone is another: a frame is opaque"
    yield from (sentence for pixel, sentence in guesses_of_layers(near) if pixel == got)
    if max(abs(a - b) for a, b in zip(got, due)) <= NEAR:
        yield "it is near, as where blending rounds otherwise: --tolerance N lets channels differ by N"
