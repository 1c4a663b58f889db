"""Tests of painting.py: an image is that of each of its points, layer by layer."""

import random
import unittest

from surbeldoi.model.painting import Painter, Placements, mul, seen_as
from surbeldoi.model.trees import ROOT, after, draw_order
from surbeldoi.script.scenes import Picture


def repeated(value, bits):
    """The upper bits of a channel, repeated below."""
    return value >> 8 - bits << 8 - bits | value >> bits


def pixel_of(picture, x, y):
    """The colour of the last fill that covers a pixel, as the picture's format has it."""
    colours = [colour for left, top, width, height, colour in picture.fills if left <= x < left + width and top <= y < top + height]
    red, green, blue, alpha = colours[-1] if colours else bytes(4)
    if picture.format == "rgb565":
        red, green, blue = repeated(red, 5), repeated(green, 6), repeated(blue, 5)
    return bytes((red, green, blue, alpha if picture.format == "rgba" else 255))


def point_in(crop, orient, u, v):
    """The point of a picture that shows at a point of the box of its crop, or None where it is not in the box."""
    cx, cy, w, h = crop
    wide, high = (w, h) if orient in (0, 2, 4, 6) else (h, w)
    if not (0 <= u < wide and 0 <= v < high):
        return None
    return ((cx + u, cy + v), (cx + v, cy + h - 1 - u), (cx + w - 1 - u, cy + h - 1 - v), (cx + w - 1 - v, cy + u),
            (cx + w - 1 - u, cy + v), (cx + w - 1 - v, cy + h - 1 - u), (cx + u, cy + h - 1 - v), (cx + v, cy + u))[orient]


def with_parents(tree, layer):
    """A layer and those above it, the topmost first."""
    chain = [layer]
    while chain[-1].parent not in (ROOT, None):
        chain.append(tree[chain[-1].parent])
    return chain[::-1]


def painted_at(tree, pictures, x, y):
    """A pixel of the image of a tree, layer by layer."""
    pixel = [0, 0, 0, 255]
    for layer in draw_order(tree):
        px = py = 0
        alpha, is_inside = 255, True
        for above in with_parents(tree, layer):
            px, py, alpha = px + above.position[0], py + above.position[1], mul(alpha, above.alpha)
            left, top, width, height = above.crop or (-1 << 20, -1 << 20, 1 << 22, 1 << 22)
            is_inside = is_inside and left <= x - px < left + width and top <= y - py < top + height
        source = bytes.fromhex(layer.colour)
        if layer.kind == "buffer" and layer.content:
            point = point_in(layer.content.crop, layer.orient, x - px, y - py)
            is_inside = is_inside and point is not None
            source = pixel_of(pictures[layer.content.picture], *point) if point else source
        if is_inside and (layer.kind == "colour" or layer.kind == "buffer" and layer.content):
            source = source[:3] + b"\xff" if layer.opaque else source
            pixel = [min(255, mul(s, alpha) + mul(d, 255 - mul(source[3], alpha))) for s, d in zip(source, pixel)]
    return bytes(pixel)


class ShownFrame:
    def __init__(self, picture, crop):
        self.picture, self.crop = picture, crop


def some_colour(chance):
    return bytes(chance.randrange(256) for _ in range(4))


def some_tree(chance):
    """A tree of some layers."""
    operations = []
    for number in range(1, chance.randrange(2, 9)):
        parent = chance.choice([0] + list(range(1, number)))
        kind = chance.choice(("colour", "buffer", "buffer", "container"))
        operations += [(number, ("create", kind, parent)), (number, ("position", chance.randrange(-3, 6), chance.randrange(-3, 6))),
                       (number, ("alpha", chance.choice((255, 128, 3)))), (number, ("z", chance.randrange(-1, 2))), (number, ("opaque", chance.randrange(2)))]
        if chance.random() < 0.4:
            operations.append((number, ("crop", (chance.randrange(-2, 4), chance.randrange(-2, 4), chance.randrange(8), chance.randrange(8)))))
        if kind == "colour":
            operations.append((number, ("colour", some_colour(chance))))
        elif kind == "buffer":
            x, y = chance.randrange(4), chance.randrange(4)
            operations.append((number, ("show", ShownFrame(chance.randrange(1, 4), (x, y, chance.randrange(1, 7 - x), chance.randrange(1, 6 - y))))))
            operations.append((number, ("orient", chance.randrange(8))))
        if chance.random() < 0.2 and number > 1:
            operations.append((number, ("relative", chance.randrange(1, number), chance.randrange(-1, 2))))
    return after({}, operations, 256)[0]


class Painting(unittest.TestCase):
    def test_an_image_is_that_of_its_points(self):
        chance = random.Random(5)
        fills = [[(chance.randrange(6), chance.randrange(5), chance.randrange(1, 5), chance.randrange(1, 5), some_colour(chance)) for _ in range(6)] for _ in range(3)]
        pictures = {number: Picture(6, 5, fill, form) for number, (fill, form) in enumerate(zip(fills, ("rgba", "rgbx", "rgb565")), 1)}
        painter = Painter(pictures)
        for _ in range(300):
            tree = some_tree(chance)
            points = b"".join(painted_at(tree, pictures, x, y) for y in range(5) for x in range(7))
            self.assertEqual(painter.image("display", Placements(tree), draw_order(tree), 7, 5), points)

    def test_formats(self):
        for form, colour, seen in (("rgb565", "64656680", "636563ff"), ("rgb565", "ff820764", "ff8200ff"), ("rgb565", "00000000", "000000ff"),
                                   ("rgb565", "ffffffff", "ffffffff"), ("rgbx", "10203040", "102030ff"), ("rgba", "10203040", "10203040")):
            self.assertEqual(seen_as(form, bytes.fromhex(colour)).hex(), seen)


if __name__ == "__main__":
    unittest.main()
