"""What of each layer of an image is in sight, and what covers the rest.

The pixels of some rows stand as the bits of one number, row by row, the first pixel lowest; so what covers what is found by a few
operations on whole areas.
"""

from typing import NamedTuple

from surbeldoi.model.painting import mul

FULL = 255
BITS = 8


def stride_of(width):
    """How many bytes a row of bits has."""
    return (width + BITS - 1) // BITS


def run_of(start, end):
    """The bits from a column to the one before another."""
    return (1 << end) - (1 << start)


def count(bits):
    return bin(bits).count("1")


def is_covering(colour, alpha):
    """Whether a pixel of this colour lets nothing through that is behind it."""
    return mul(colour[3], alpha) == FULL


def changes(colour, alpha):
    """Whether a pixel of this colour adds something to what is behind it, or takes something from it."""
    return any(mul(channel, alpha) for channel in colour)


def overlap(one, other):
    """Whether the clips of two layers have pixels in common."""
    return one.left < other.right and other.left < one.right and one.top < other.bottom and other.top < one.bottom


class Bits(NamedTuple):
    """The pixels that a layer covers wholly, and those that it changes, from its first row on; `shift` bits of the image are before."""

    shift: int
    covering: int
    changing: int


class Sight:
    """What of the layers of an image of this width is in sight: `drawn` has them as the painter has them, from the back to the front."""

    def __init__(self, painter, drawn, width):
        self.painter, self.drawn, self.stride = painter, drawn, stride_of(width)
        self.bits = [self.bits_of(layer) for layer in drawn]
        self.seen, covered = [0] * len(drawn), 0
        for at in range(len(drawn) - 1, -1, -1):
            shift, covering, changing = self.bits[at]
            self.seen[at] = changing ^ changing & covered >> shift
            covered |= covering << shift

    def bits_of(self, layer):
        if not layer.is_seen() or not layer.alpha:
            return Bits(0, 0, 0)
        edges = sorted(set(self.painter.edges(layer)))
        bands = [(self.painter.parts(layer, start), end - start) for start, end in zip(edges, edges[1:])]
        return Bits(BITS * self.stride * layer.top, self.rows_of(layer, bands, is_covering), self.rows_of(layer, bands, changes))

    def rows_of(self, layer, bands, has):
        """The bits of those pixels of a layer whose colour and alpha have something, where `bands` are its parts in rows from its top on."""
        rows = []
        for parts, height in bands:
            row = sum(run_of(left, right) for left, right, colour in parts if has(colour, layer.alpha))
            rows.append(row.to_bytes(self.stride, "little") * height)
        return int.from_bytes(b"".join(rows), "little")

    def is_in_sight(self, at):
        return self.seen[at] != 0

    def counts(self, at):
        """How many pixels a layer changes, and how many of them are in sight."""
        return count(self.bits[at].changing), count(self.seen[at])

    def covered_by(self, at):
        """The places of layers in front that together cover what a layer would change and that is not in sight: one, where one does;
        else none that could be left out."""
        shift, _, changing = self.bits[at]
        left, front = changing ^ self.seen[at], []
        for other in range(at + 1, len(self.drawn)) if left else ():
            covering = self.covering_from(other, shift) & left if overlap(self.drawn[at], self.drawn[other]) else 0
            if covering == left:
                return [other]
            if covering:
                front.append((other, covering))
        return needed(front, left)

    def covering_from(self, at, shift):
        """The pixels that a layer covers, from the row on that so many bits of the image are before."""
        of, covering, _ = self.bits[at]
        return covering << of - shift if of >= shift else covering >> shift - of


def needed(parts, whole):
    """Those of named parts that are needed to make up a whole, tried from the last to the first."""
    kept, others = [], [0]
    for _, part in parts:
        others.append(others[-1] | part)
    for (name, part), before in zip(reversed(parts), reversed(others[:-1])):
        if whole & part & ~before:
            kept.append(name)
            whole ^= whole & part
    return kept[::-1]
