"""Cuts a stream of records into records, and their bodies into fields.

A stream is told up to its end, whatever stands in it: what is wrong with a record stands in its
`faults`, and what is wrong with the stream in what `read` answers beside the records. A stream is read record by
record, and the pixels of a file are read when they are asked for.
"""

import io
import os
import struct
from typing import NamedTuple

U32, U64 = 4, 8
PIXELS = "pixels"


class Rows(NamedTuple):
    """A list in a body: a count of 32 bits, and so many rows of these numbers."""

    columns: tuple


# The body of each record: its fields in order, each with its size in bytes.
FORMS = {
    "SCEN": (("version", U32), ("width", U32), ("height", U32), ("period", U64)),
    "REPL": (("actor", U32), ("step", U32), ("status", U32), ("values", Rows((U64,)))),
    "VSYN": (("number", U32), ("expected", U64), ("timelines", Rows((U32, U64)))),
    "COMM": (("token", U32), ("arrival", U32), ("result", U32), ("operation", U32),
             ("buffers", Rows((U32, U32, U64, U32, U32, U32, U32, U32)))),
    "FRAM": (("number", U32), ("pixels", PIXELS)),
    "FRAD": (("display", U32), ("number", U32), ("pixels", PIXELS)),
    "CAPT": (("capture", U32), ("number", U32), ("pixels", PIXELS)),
    "HITS": (("hit", U32), ("number", U32), ("layer", U32)),
    "ARRV": (("arrivals", Rows((U32, U32, U32))),),
    "HIST": (("queue", U32), ("calls", Rows((U32, U32, U32, U32, U32, U64)))),
    "HOLD": (("held", Rows((U32, U32, U64, U64))),),
    "STUK": (("stuck", Rows((U32, U32))),),
    "DONE": (),
    "SUMM": tuple((name, U64) for name in (
        "replies", "vsyncs", "commits", "rejected", "frames", "pixel_sum", "held", "stuck")),
    "SFLT": (("line", U32), ("word", U32), ("cause", U32)),
}
# What a vsync shows: the records, each with the name of its number, and the own display's without one. All but hits are images.
OUTPUTS = {"FRAM": None, "FRAD": "display", "CAPT": "capture", "HITS": "hit"}
IMAGES = ("FRAM", "FRAD", "CAPT")
OWN_DISPLAY = ("FRAM", 0)
# A stream ends with one of these.
LAST = ("DONE", "SUMM", "SFLT")
HEAD = 8


# How much is read at once, in bytes.
PIECE = 1 << 20


class Record(NamedTuple):
    """A record. `fields` is None where the tag is unknown or the body shorter than its form;
    `is_cut` tells that the stream ends inside it. `raw` has all its bytes."""

    tag: str
    fields: dict
    raw: bytes
    is_cut: bool
    faults: list


class Short(Exception):
    """A body ends inside its form."""


class Cursor:
    """Numbers from the front of a body, the highest byte first."""

    def __init__(self, body):
        self.body, self.at = body, 0

    def number(self, size):
        if self.at + size > len(self.body):
            raise Short
        value = int.from_bytes(self.body[self.at:self.at + size], "big")
        self.at += size
        return value

    def rows(self, columns):
        count, size = self.number(U32), sum(columns)
        if count * size > len(self.body) - self.at:
            raise Short
        form = struct.Struct(">" + "".join("Q" if column == U64 else "I" for column in columns))
        rows = list(form.iter_unpack(self.body[self.at:self.at + count * size]))
        self.at += count * size
        return rows

    def rest(self):
        rest = self.body[self.at:]
        self.at = len(self.body)
        return rest

    def field(self, form):
        if form == PIXELS:
            return self.rest()
        return self.rows(form.columns) if isinstance(form, Rows) else self.number(form)


def tag_text(raw):
    """A tag's four bytes as text, with escapes where they are no plain letters."""
    return "".join(chr(byte) if 33 <= byte < 127 else f"\\x{byte:02x}" for byte in raw[:4])


class Stored:
    """Bytes that lie in a file, and are read when they are asked for."""

    def __init__(self, file, at, length):
        self.file, self.at, self.length = file, at, length

    def __len__(self):
        return self.length

    def __bytes__(self):
        return os.pread(self.file.fileno(), self.length, self.at)

    def __getitem__(self, key):
        return bytes(self)[key]

    def __eq__(self, other):
        return len(self) == len(other) and bytes(self) == bytes(other)

    def hex(self):
        return bytes(self).hex()


class Contents(list):
    """A list of bytes, some of which may lie in a file."""

    def __getitem__(self, at):
        return bytes(super().__getitem__(at))

    def __iter__(self):
        return map(bytes, super().__iter__())


def decoded(raw, tag, body, pixels=None):
    """The record of these bytes, which are a whole one with this tag and this body; `pixels` are behind the body, where they lie elsewhere."""
    if tag not in FORMS:
        return Record(tag, None, raw, False, [f"unknown tag {tag}"])
    cursor = Cursor(body)
    try:
        fields = {name: pixels if form == PIXELS and pixels is not None else cursor.field(form) for name, form in FORMS[tag]}
    except Short:
        return Record(tag, None, raw, False, [f"the body of {len(raw) - HEAD} bytes is shorter than {tag} needs"])
    left = len(cursor.rest())
    faults = [f"{left} bytes behind the end of its form"] if left else []
    return Record(tag, fields, raw, False, faults)


def cut(raw, head):
    """The record that the end of a stream cuts off."""
    return Record(tag_text(head), None, raw, True, [f"the stream ends inside it, after {len(raw)} bytes"])


def taken(file, length):
    """So many bytes of a file, or as many as it has."""
    pieces = []
    while length and (piece := file.read(min(length, PIECE))):
        pieces.append(piece)
        length -= len(piece)
    return b"".join(pieces)


def numbers_before_pixels(tag):
    """How many bytes of a body stand before its pixels, None where it has none."""
    sizes = [form for _, form in FORMS.get(tag, ())]
    return sum(sizes[:-1]) if sizes[-1:] == [PIXELS] else None


def split(file):
    """The records of a file, in order, from where it stands on."""
    while head := taken(file, HEAD):
        length = int.from_bytes(head[4:], "big")
        body = taken(file, length) if len(head) == HEAD else b""
        if len(head) < HEAD or len(body) < length:
            yield cut(head + body, head)
            return
        yield decoded(head + body, tag_text(head), body)


def split_stored(file):
    """The records of a file that can be read at any place, without their pixels."""
    at, end = file.tell(), os.fstat(file.fileno()).st_size
    while at < end:
        file.seek(at)
        head = taken(file, HEAD)
        length = int.from_bytes(head[4:], "big")
        raw = Stored(file, at, HEAD + length)
        if len(head) < HEAD or at + HEAD + length > end:
            yield cut(Stored(file, at, end - at), head)
            return
        tag = tag_text(head)
        before = numbers_before_pixels(tag)
        if tag not in FORMS:
            yield decoded(raw, tag, b"")
        elif before is None or length < before:
            yield decoded(raw, tag, taken(file, length))
        else:
            yield decoded(raw, tag, taken(file, before), Stored(file, at + HEAD + before, length - before))
        at += HEAD + length


def place_of(tag, fields):
    """What an image or a hit is of: its tag and its number, 0 for the own display."""
    return tag, fields[OUTPUTS[tag]] if OUTPUTS[tag] else 0


def place_text(place):
    """A place in words."""
    tag, number = place
    return f"{OUTPUTS[tag]} {number}" if OUTPUTS[tag] else "the display"


def image_fault(record, sizes, is_whole):
    """What is wrong with the size of an image, if something is, where these sizes of places are known, and those of all if
    `is_whole`."""
    place, got = place_of(record.tag, record.fields), len(record.fields["pixels"])
    if place not in sizes:
        if place == OWN_DISPLAY:
            return "a frame without SCEN before it"
        if is_whole:
            return f"the script has no {place_text(place)}"
        return f"{got} bytes of pixels, which are no whole ones" if got % 4 else None
    width, height = sizes[place]
    if got != width * height * 4:
        return f"{got} bytes of pixels, where {place_text(place)} of {width} x {height} has {width * height * 4}"
    return None


class Stream:
    """The records of a stream with their faults, one after another. Once all were taken, `wrong` has a line for each thing that is wrong,
    `of_stream` what is wrong with the whole. `sizes` has those of further displays and captures by their places, where the script is
    known."""

    def __init__(self, records, sizes=None):
        self.records, self.known, self.is_whole = records, dict(sizes or {}), sizes is not None
        self.wrong, self.of_stream = [], []

    def __iter__(self):
        at, last, ended = 0, None, False
        for number, record in enumerate(self.records, 1):
            self.check(record, ended)
            self.wrong += [f"record {number} ({record.tag}, at byte {at}): {fault}" for fault in record.faults]
            at, last, ended = at + len(record.raw), record, ended or record.tag in LAST
            yield record
        if last is None:
            self.of_stream = ["the stream is empty"]
        elif not ended and not last.is_cut:
            self.of_stream = ["the stream ends without DONE: its run was cut off"]
        self.wrong += self.of_stream

    def check(self, record, ended):
        """Adds to the faults of a record those that it has at its place."""
        if ended:
            record.faults.append("it stands behind the end of the run")
        if record.fields is not None and record.tag in IMAGES:
            fault = image_fault(record, self.known, self.is_whole)
            if fault:
                record.faults.append(fault)
        if record.fields is not None and record.tag == "SCEN":
            self.known[OWN_DISPLAY] = record.fields["width"], record.fields["height"]


def read(data, sizes=None):
    """The records of a stream of these bytes with their faults, and what is wrong with the stream as a whole."""
    stream = Stream(split(io.BytesIO(data)), sizes)
    records = list(stream)
    return records, stream.of_stream


def faults(records, of_stream):
    """A line for each thing that is wrong."""
    lines, at = [], 0
    for number, record in enumerate(records, 1):
        lines += [f"record {number} ({record.tag}, at byte {at}): {fault}" for fault in record.faults]
        at += len(record.raw)
    return lines + of_stream
