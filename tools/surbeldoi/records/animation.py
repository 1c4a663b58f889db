"""Frames that move: as an animated PNG, and as raw video in YUV4MPEG2, which ffmpeg and mpv read.

Raw video has luma and chroma of each pixel by BT.601, since players take no colours in that form. Of a frame of an animated PNG only the
rectangle that changed is stored. The last frame stands for a second, since one that lasts a vsync is not seen before the first comes again.
"""

import struct
import zlib
from fractions import Fraction
from math import ceil

from surbeldoi.records.pictures import SIGNATURE, chunk, frames_in, header, rows_of

NANOSECONDS = 1_000_000_000
# How long the last frame stands before the first comes again, in seconds.
LAST_STANDS = Fraction(1)
# The greatest numerator and denominator of a delay.
MOST = 65535
# The greatest denominator of a number of frames a second, as players have them: 60, or 60000 / 1001.
MOST_OF_RATE = 1001
# An animated frame whose rectangle takes the place of what was there, and stays for the next one.
KEEP, REPLACE = 0, 0


# The most pictures of a raw video: ten minutes of 60 a second.
MOST_PICTURES = 36_000


class NoFrames(Exception):
    """A stream has no frames that could be shown so; it says why."""


def frames_of(records):
    """The frames of a run, of which there is one at least."""
    frames = frames_in(records)
    if not frames.frames:
        raise NoFrames("the stream has no frame")
    return frames


def nearest(seconds):
    """The fraction that a delay's two numbers of 16 bits can be which is nearest to this time."""
    bounded = min(max(Fraction(seconds), Fraction(0)), Fraction(MOST))
    return bounded.limit_denominator(max(1, MOST // max(1, ceil(bounded))))


def delays(times, slow):
    """How long each frame stands, in seconds. What rounding takes from one is given to the next, so that no frame drifts."""
    begins = [Fraction((time - times[0]) * slow, NANOSECONDS) for time in times]
    begins.append(begins[-1] + LAST_STANDS)
    shown, stands = Fraction(0), []
    for end in begins[1:]:
        stands.append(nearest(end - shown))
        shown += stands[-1]
    return stands


def differing_columns(before, after):
    """The first and last bytes in which rows of the same length differ, and None where none does."""
    differing = 0
    for old, new in zip(before, after):
        differing |= int.from_bytes(old, "big") ^ int.from_bytes(new, "big")
    if not differing:
        return None
    length = len(after[0])
    return length - (differing.bit_length() + 7) // 8, length - 1 - ((differing & -differing).bit_length() - 1) // 8


def changed(before, after):
    """The rectangle in which a frame differs from the one before, as x, y, width and height in pixels: one pixel where none does."""
    rows = [y for y, (old, new) in enumerate(zip(before, after)) if old != new]
    if not rows:
        return 0, 0, 1, 1
    top, bottom = rows[0], rows[-1]
    first, last = differing_columns(before[top:bottom + 1], after[top:bottom + 1])
    return first // 4, top, last // 4 - first // 4 + 1, bottom - top + 1


def apng(frames, slow=1):
    """The pieces of an animated PNG in which each frame begins at its time, so many times slower. Of each frame only what
    changed is in it. It plays over and over."""
    yield SIGNATURE + header(frames.width, frames.height) + chunk(b"acTL", struct.pack(">II", len(frames.frames), 0))
    stands, before, count = delays([frame.time for frame in frames.frames], slow), None, 0
    for frame, delay in zip(frames.frames, stands):
        rows = rows_of(frame.pixels, frames.width)
        x, y, width, height = changed(before, rows) if before else (0, 0, frames.width, frames.height)
        data = zlib.compress(b"".join(b"\0" + row[4 * x:4 * (x + width)] for row in rows[y:y + height]), 9)
        yield chunk(b"fcTL", struct.pack(">5I2H2B", count, width, height, x, y, delay.numerator, delay.denominator, KEEP, REPLACE))
        yield chunk(b"fdAT", struct.pack(">I", count + 1) + data) if before else chunk(b"IDAT", data)
        count, before = count + (2 if before else 1), rows
    yield chunk(b"IEND", b"")


def luma(red, green, blue):
    """The three numbers of a colour by BT.601, of the range from 16 to 235 and 240."""
    return (16 + (65481 * red + 128553 * green + 24966 * blue + 127500) // 255000,
            128 + (-37797 * red - 74203 * green + 112000 * blue + 127500) // 255000,
            128 + (112000 * red - 93786 * green - 18214 * blue + 127500) // 255000)


class Planes:
    """Turns frames into planes of luma and chroma; colours and rows that came before are not computed again."""

    def __init__(self):
        self.colours, self.rows = {}, {}

    def of_colour(self, pixel):
        if pixel not in self.colours:
            self.colours[pixel] = luma(*pixel.to_bytes(4, "big")[:3])
        return self.colours[pixel]

    def of_row(self, row):
        pixels = [self.of_colour(pixel) for pixel in struct.unpack(f">{len(row) // 4}I", row)]
        return tuple(bytes(plane) for plane in zip(*pixels))

    def of_frame(self, rows):
        """The three planes of a frame, one behind the other."""
        before, self.rows = self.rows, {}
        for row in rows:
            if row not in self.rows:
                self.rows[row] = before.get(row) or self.of_row(row)
        done = [self.rows[row] for row in rows]
        return b"".join(row[plane] for plane in range(3) for row in done)


def y4m(frames):
    """The pieces of a raw video with a picture for each vsync, from that of the first frame to that of the last; where a vsync
    has no frame of its own, the one before stands. Alpha is left out."""
    count = frames.frames[-1].number - frames.frames[0].number + 1
    if count > MOST_PICTURES:
        raise NoFrames(f"from the first frame to the last there are {count} vsyncs, and a video with a picture for each has at most {MOST_PICTURES}: "
                       "apng shows each frame at its time")
    rate = Fraction(NANOSECONDS, frames.period or NANOSECONDS).limit_denominator(MOST_OF_RATE)
    yield f"YUV4MPEG2 W{frames.width} H{frames.height} F{rate.numerator}:{rate.denominator} Ip A1:1 C444\n".encode()
    planes = Planes()
    following = [frame.number for frame in frames.frames[1:]] + [frames.frames[-1].number + 1]
    for frame, end in zip(frames.frames, following):
        picture = b"FRAME\n" + planes.of_frame(rows_of(frame.pixels, frames.width))
        for _ in range(frame.number, end):
            yield picture
