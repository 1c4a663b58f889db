"""An image beside the one that is due: how many pixels differ, by how much, and pictures of both and of the difference."""

import os
from typing import NamedTuple

from surbeldoi.records.pictures import png

BEYOND, WITHIN = b"\xff\x00\xff\xff", b"\xff\xff\x00\xff"


class Difference(NamedTuple):
    """How two images differ: how many pixels, the most by which a channel does, and the first pixel that is further off than the
    tolerance, as its place in the image, or None."""

    pixels: int
    most: int
    first: object


def distance(a, b):
    """The most by which the channels of two pixels differ."""
    return max(abs(one - other) for one, other in zip(a, b))


def places_that_differ(got, due, width):
    """The places of the pixels that differ, each the number of a pixel, in order."""
    row = 4 * width
    for start in range(0, len(due), row):
        if got[start:start + row] != due[start:start + row]:
            yield from (at // 4 for at in range(start, start + row, 4) if got[at:at + 4] != due[at:at + 4])


def pixel(image, place):
    return image[4 * place:4 * place + 4]


def difference(got, due, width, tolerance):
    """How an image differs from the one that is due, both of the same size."""
    if got == due:
        return Difference(0, 0, None)
    places = [(place, distance(pixel(got, place), pixel(due, place))) for place in places_that_differ(got, due, width)]
    first = next((place for place, far in places if far > tolerance), None)
    return Difference(len(places), max(far for _, far in places), first)


def difference_picture(got, due, width, tolerance):
    """The image that is due, darkened, with each pixel that differs in yellow, and in magenta where it is beyond the tolerance."""
    picture = bytearray(channel // 4 for channel in due)
    picture[3::4] = b"\xff" * (len(due) // 4)
    for place in places_that_differ(got, due, width):
        is_beyond = distance(pixel(got, place), pixel(due, place)) > tolerance
        picture[4 * place:4 * place + 4] = BEYOND if is_beyond else WITHIN
    return bytes(picture)


def write_pictures(folder, got, due, width, tolerance):
    """Writes what came, what is due and the difference into a folder as PNG files, and answers their paths."""
    os.makedirs(folder, exist_ok=True)
    paths = []
    for name, image in (("came", got), ("due", due), ("difference", difference_picture(got, due, width, tolerance))):
        paths.append(os.path.join(folder, name + ".png"))
        with open(paths[-1], "wb") as file:
            file.write(png(width, len(due) // 4 // width, image))
    return paths
