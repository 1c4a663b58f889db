"""The image of layers, as the bytes of a frame.

A frame is cut into bands of rows, and each band into cells of one colour, at the edges of all clips and of all areas
of one colour in pictures. So the work grows with these edges and not with the pixels.
"""

from functools import lru_cache
from itertools import groupby
from typing import NamedTuple

from surbeldoi.model.trees import ROOT

BLACK = b"\x00\x00\x00\xff"
# Further than any layer reaches.
FAR = 1 << 40


def mul(a, b):
    return (a * b + 127) // 255


@lru_cache(1 << 18)
def over(below, source, alpha):
    """A colour painted over another, both of four bytes."""
    left = 255 - mul(source[3], alpha)
    return bytes(min(255, mul(s, alpha) + mul(d, left)) for s, d in zip(source, below))


def seen_as(form, colour):
    """A colour as a picture of this format shows it: 565 keeps the upper bits of each channel, and the lower ones repeat them."""
    if form == "rgba":
        return colour
    if form == "rgbx":
        return colour[:3] + b"\xff"
    red, green, blue = colour[0] // 8, colour[1] // 4, colour[2] // 8
    return bytes((8 * red + red // 4, 4 * green + green // 16, 8 * blue + blue // 4, 255))


def pixels_of(picture):
    """A picture's pixels, row by row."""
    rows = [bytearray(seen_as(picture.format, bytes(4)) * picture.width) for _ in range(picture.height)]
    for x, y, width, height, colour in picture.fills:
        right = min(x + width, picture.width)
        for row in rows[y:y + height] if x < right else []:
            row[4 * x:4 * right] = seen_as(picture.format, colour) * (right - x)
    return [bytes(row) for row in rows]


def is_sideways(orient):
    return orient % 2 == 1


def is_back_across(orient):
    """Whether the columns of a picture, as it was written, go backwards where it shows with this orientation."""
    return 2 <= orient <= 5


def is_back_down(orient):
    """Whether its rows do."""
    return orient % 4 in (1, 2)


def turned(rows, orient):
    """Rows of pixels as they show with an orientation."""
    rows, columns = rows[::-1] if is_back_down(orient) else rows, range(0, len(rows[0]), 4)
    if is_back_across(orient):
        rows = [b"".join(row[at:at + 4] for at in columns[::-1]) for row in rows]
    if is_sideways(orient):
        rows = [b"".join(row[at:at + 4] for row in rows) for at in columns]
    return rows


def corner_of(crop, size, orient):
    """The corner of a crop of a picture of this size, in the picture as it shows with an orientation."""
    x, y, width, height = crop
    across = size[0] - x - width if is_back_across(orient) else x
    down = size[1] - y - height if is_back_down(orient) else y
    return (down, across) if is_sideways(orient) else (across, down)


class Painted:
    """A picture's pixels as they show with an orientation, row by row, and the rows at which they change."""

    def __init__(self, picture, orient):
        self.rows, self.of_row = turned(pixels_of(picture), orient), {}
        self.edges = [at for at in range(1, len(self.rows)) if self.rows[at] != self.rows[at - 1]]

    def runs(self, at):
        """The runs of one colour in a row: each with its first column and the one behind its last."""
        row = self.rows[at]
        if row not in self.of_row:
            runs, start = [], 0
            for colour, pixels in groupby(row[place:place + 4] for place in range(0, len(row), 4)):
                end = start + sum(1 for _ in pixels)
                runs.append((start, end, colour))
                start = end
            self.of_row[row] = runs
        return self.of_row[row]


class Drawn(NamedTuple):
    """A layer that is drawn: its clip as its first column and row and those behind its last, its alpha, and its colour, or its
    picture with the orientation and the place of the picture's corner."""

    left: int
    top: int
    right: int
    bottom: int
    alpha: int
    is_opaque: bool
    colour: bytes
    picture: int = 0
    orient: int = 0
    x: int = 0
    y: int = 0

    def is_seen(self):
        return self.left < self.right and self.top < self.bottom

    def source(self, colour):
        return colour[:3] + b"\xff" if self.is_opaque else colour

    def has(self, x, y):
        return self.left <= x < self.right and self.top <= y < self.bottom


class Placed(NamedTuple):
    """What a layer has with all above it: its place, its alpha, what their crops leave, as a clip has it, and the number of the one
    at the root, or of the one without a parent."""

    x: int
    y: int
    alpha: int
    left: int
    top: int
    right: int
    bottom: int
    uppermost: int


EVERYWHERE = Placed(0, 0, 255, -FAR, -FAR, FAR, FAR, 0)


class Placements:
    """The layers of a tree with what those above make of them; each is found once."""

    def __init__(self, tree):
        self.tree, self.known = tree, {}

    def of(self, layer):
        way = [layer]
        while way[-1].number not in self.known and way[-1].parent not in (ROOT, None):
            way.append(self.tree[way[-1].parent])
        for below in reversed(way):
            if below.number not in self.known:
                self.known[below.number] = self.placed(below, self.known.get(below.parent, EVERYWHERE))
        return self.known[layer.number]

    def placed(self, layer, above):
        """A layer below one that is placed."""
        x, y, alpha = above.x + layer.position[0], above.y + layer.position[1], mul(above.alpha, layer.alpha)
        left, top, right, bottom = above[3:7]
        if layer.crop is not None:
            cx, cy, cwidth, cheight = layer.crop
            left, top, right, bottom = max(left, x + cx), max(top, y + cy), min(right, x + cx + cwidth), min(bottom, y + cy + cheight)
        return Placed(x, y, alpha, left, top, right, bottom, above.uppermost or layer.number)


def clip_of(layer, placed, width, height):
    """What a layer that is placed and has something to show covers of a display of this size: its first column and row and those behind
    its last."""
    left, top, right, bottom = max(placed.left, 0), max(placed.top, 0), min(placed.right, width), min(placed.bottom, height)
    if layer.kind == "colour":
        return left, top, right, bottom
    wide, high = layer.content.crop[:1:-1] if is_sideways(layer.orient) else layer.content.crop[2:]
    return max(left, placed.x), max(top, placed.y), min(right, placed.x + wide), min(bottom, placed.y + high)


def drawn(layer, placed, pictures, width, height):
    """A layer that is placed as it is drawn on a display of this size."""
    clip = clip_of(layer, placed, width, height)
    if layer.kind == "colour":
        return Drawn(*clip, placed.alpha, layer.opaque, bytes.fromhex(layer.colour))
    number = layer.content.picture
    across, down = corner_of(layer.content.crop, pictures[number][:2], layer.orient)
    return Drawn(*clip, placed.alpha, layer.opaque, None, number, layer.orient, placed.x - across, placed.y - down)


class Painter:
    """Paints layers with these pictures. Of each place that shows images the last view is kept with its image."""

    def __init__(self, pictures):
        self.pictures, self.painted, self.last = pictures, {}, {}

    def picture(self, number, orient):
        if (number, orient) not in self.painted:
            self.painted[number, orient] = Painted(self.pictures[number], orient)
        return self.painted[number, orient]

    def parts(self, layer, row):
        """The areas of one colour that a layer has in a row: each with its first column and the one behind its last."""
        if layer.colour is not None:
            return [(layer.left, layer.right, layer.source(layer.colour))]
        runs = self.picture(layer.picture, layer.orient).runs(row - layer.y)
        within = ((max(start + layer.x, layer.left), min(end + layer.x, layer.right), colour) for start, end, colour in runs)
        return [(start, end, layer.source(colour)) for start, end, colour in within if start < end]

    def edges(self, layer):
        """The rows at which what a layer shows changes."""
        inner = [] if layer.colour is not None else [edge + layer.y for edge in self.picture(layer.picture, layer.orient).edges]
        return [layer.top, layer.bottom] + [edge for edge in inner if layer.top < edge < layer.bottom]

    def band(self, layers, row, width):
        """A row of the image."""
        parts = [(part, layer.alpha) for layer in layers for part in self.parts(layer, row)]
        columns = sorted({0, width}.union(*(part[:2] for part, _ in parts)))
        place = {column: at for at, column in enumerate(columns)}
        cells = [BLACK] * (len(columns) - 1)
        for (start, end, colour), alpha in parts:
            for at in range(place[start], place[end]):
                cells[at] = over(cells[at], colour, alpha)
        return b"".join(cell * (end - start) for cell, start, end in zip(cells, columns, columns[1:]))

    def paint(self, view, width, height):
        """The pixels of a view of this size."""
        rows = sorted({0, height}.union(*(self.edges(layer) for layer in view)))
        bands = []
        for start, end in zip(rows, rows[1:]):
            layers = [layer for layer in view if layer.top <= start < layer.bottom]
            bands.append(self.band(layers, start, width) * (end - start))
        return b"".join(bands)

    def view(self, placements, order, width, height):
        """The layers that are seen in an image of this size, from the back: those of an order that have something to show."""
        layers = [drawn(layer, placements.of(layer), self.pictures, width, height) for layer in order if layer.has_content()]
        return tuple(layer for layer in layers if layer.is_seen())

    def image(self, place, placements, order, width, height):
        """The pixels of an image of this size at a place: of the layers of an order, in it."""
        view = self.view(placements, order, width, height)
        if place not in self.last or self.last[place][0] != view:
            self.last[place] = (view, self.paint(view, width, height))
        return self.last[place][1]
