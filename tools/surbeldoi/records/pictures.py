"""Frames as PNG files."""

import os
import struct
import zlib
from typing import NamedTuple

from surbeldoi.records.stream import IMAGES, OWN_DISPLAY, place_of, place_text
from surbeldoi.script.scenes import read_scene

SIGNATURE = b"\x89PNG\r\n\x1a\n"


class Frame(NamedTuple):
    """An image with the number of its vsync and the time at which it is expected, in nanoseconds."""

    number: int
    time: int
    pixels: bytes


class Frames(NamedTuple):
    """The frames of a display or a capture, with its size and the time from a vsync to the next."""

    width: int
    height: int
    period: int
    frames: list


def chunk(kind, data):
    return struct.pack(">I", len(data)) + kind + data + struct.pack(">I", zlib.crc32(kind + data))


def header(width, height):
    """The head of a picture of RGBA pixels, eight bits each."""
    return chunk(b"IHDR", struct.pack(">IIBBBBB", width, height, 8, 6, 0, 0, 0))


def rows_of(pixels, width):
    """The rows of a frame, from the top."""
    pixels = bytes(pixels)
    return [pixels[at:at + 4 * width] for at in range(0, len(pixels), 4 * width)]


def png(width, height, pixels):
    """A PNG file of RGBA pixels, rows from the top."""
    rows = b"".join(b"\0" + row for row in rows_of(pixels, width))
    return SIGNATURE + header(width, height) + chunk(b"IDAT", zlib.compress(rows)) + chunk(b"IEND", b"")


def frames_by_place(records, sizes):
    """The frames of each place that have its size: those of the own display, and those of further displays and captures, whose
    sizes are these."""
    sizes, period, times, runs = dict(sizes), 0, {}, {}
    for record in records:
        if record.fields is None:
            continue
        if record.tag == "SCEN":
            sizes[OWN_DISPLAY], period = (record.fields["width"], record.fields["height"]), record.fields["period"]
        elif record.tag == "VSYN":
            times[record.fields["number"]] = record.fields["expected"]
        elif record.tag in IMAGES:
            place, number, pixels = place_of(record.tag, record.fields), record.fields["number"], record.fields["pixels"]
            width, height = sizes.get(place, (0, 0))
            if 0 < width * height * 4 == len(pixels):
                runs.setdefault(place, Frames(width, height, period, [])).frames.append(Frame(number, times.get(number, number * period), pixels))
    return runs


def frames_in(records):
    """The frames of the own display."""
    return frames_by_place(records, {}).get(OWN_DISPLAY, Frames(0, 0, 0, []))


def has_further(records):
    """Whether the records have images whose size only the script tells."""
    return any(record.fields is not None and record.tag in IMAGES and record.tag != "FRAM" for record in records)


def sizes_in(script):
    """The sizes of the further displays and captures that a script declares. Raises NoScene where it is no scene."""
    scene = read_scene(script)
    return {**{("FRAD", number): display[:2] for number, display in scene.displays.items()},
            **{("CAPT", number): capture[1:] for number, capture in scene.captures.items()}}


def folder_of(place):
    """The folder of a place's frames, below that of the own display."""
    return "" if place == OWN_DISPLAY else place_text(place).replace(" ", "-")


def write_frames(folder, records, sizes):
    """Writes each image that has its size into the folder, those of further displays and captures into folders below, and answers
    the paths."""
    os.makedirs(folder, exist_ok=True)
    paths = []
    for place, run in frames_by_place(records, sizes).items():
        below = os.path.join(folder, folder_of(place))
        os.makedirs(below, exist_ok=True)
        for frame in run.frames:
            path = os.path.join(below, f"frame-{frame.number}.png")
            with open(path, "wb") as file:
                file.write(png(run.width, run.height, frame.pixels))
            paths.append(path)
    return paths
