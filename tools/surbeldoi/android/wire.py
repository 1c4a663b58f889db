"""Reads and writes the wire format of protocol buffers, by forms of messages.

A message is a dict by the names of its fields; a field that repeats is a list, and one that is not there is left out.
"""

import struct
from typing import NamedTuple

VARINT, FIXED64, BYTES, FIXED32, SIZES = 0, 1, 2, 5, {1: 8, 5: 4}
MASK = (1 << 64) - 1
# The wire type of each kind of value; that of a message is BYTES.
WIDTHS = {"int32": 32, "int64": 64, "uint32": 32, "uint64": 64, "bool": 1}
WIRE_TYPES = {**dict.fromkeys(WIDTHS, VARINT), "fixed64": FIXED64, "float": FIXED32, "string": BYTES}


class WireFault(Exception):
    """Bytes that are no message of a form; it says where and why."""


class Field(NamedTuple):
    """A field of a message: its name, the kind of its value or the form of a message, and whether it repeats."""

    name: str
    kind: object
    repeats: bool = False

    def wire_type(self):
        return BYTES if isinstance(self.kind, dict) else WIRE_TYPES[self.kind]


class Cursor:
    """Bytes from one place to another, read from the front."""

    def __init__(self, data, at, end):
        self.data, self.at, self.end = data, at, end

    def fault(self, why):
        return WireFault(f"byte {self.at}: {why}")

    def varint(self):
        value, start = 0, self.at
        for place, byte in enumerate(self.data[start:min(start + 10, self.end)]):
            value |= (byte & 127) << 7 * place
            if byte < 128:
                self.at = start + place + 1
                return value & MASK
        raise self.fault("a number that does not end in ten bytes" if self.end - start >= 10 else "the bytes end inside a number")

    def inside(self, size):
        """A cursor over so many bytes, which are passed over."""
        if size > self.end - self.at:
            raise self.fault(f"{size} bytes are told, where {self.end - self.at} are left")
        self.at += size
        return Cursor(self.data, self.at - size, self.at)

    def rest(self):
        return bytes(self.data[self.at:self.end])

    def skip(self, wire_type):
        """Passes over a value of a wire type."""
        if wire_type == VARINT:
            self.varint()
        elif wire_type == BYTES:
            self.inside(self.varint())
        elif wire_type in SIZES:
            self.inside(SIZES[wire_type])
        else:
            raise self.fault(f"a value of wire type {wire_type}")


def number_of(kind, raw):
    """The number of a kind that a varint means."""
    if kind == "bool":
        return raw != 0
    width = WIDTHS[kind]
    value = raw & ((1 << width) - 1)
    return value - (1 << width) if kind.startswith("int") and value >> width - 1 else value


def value_of(kind, cursor):
    """The next value of a kind."""
    if isinstance(kind, dict):
        return decoded(kind, cursor.inside(cursor.varint()))
    if kind == "string":
        return cursor.inside(cursor.varint()).rest().decode("utf-8", "backslashreplace")
    if kind in WIDTHS:
        return number_of(kind, cursor.varint())
    size, form = (8, "<Q") if kind == "fixed64" else (4, "<f")
    return struct.unpack(form, cursor.inside(size).rest())[0]


def packed(kind, cursor):
    """The values of a field that stand behind one another in the place of one."""
    inside = cursor.inside(cursor.varint())
    while inside.at < inside.end:
        yield value_of(kind, inside)


def decoded(form, cursor):
    """The message of a form, by the numbers of its fields, that a cursor is over. Fields that the form does not have are passed over."""
    message = {}
    while cursor.at < cursor.end:
        tag = cursor.varint()
        field, wire_type = form.get(tag >> 3), tag & 7
        if not tag >> 3:
            raise cursor.fault("a field of number 0")
        if field and wire_type == field.wire_type():
            values = [value_of(field.kind, cursor)]
        elif field and field.repeats and wire_type == BYTES:
            values = list(packed(field.kind, cursor))
        else:
            cursor.skip(wire_type)
            continue
        if field.repeats:
            message.setdefault(field.name, []).extend(values)
        else:
            message[field.name] = values[0]
    return message


def read(form, data):
    """The message of a form that bytes are. Raises WireFault."""
    return decoded(form, Cursor(data, 0, len(data)))


def varint(value):
    value &= MASK
    return bytes((value,)) if value < 128 else bytes((value & 127 | 128,)) + varint(value >> 7)


def written_value(kind, value):
    if isinstance(kind, dict):
        body = written(kind, value)
        return varint(len(body)) + body
    if kind == "string":
        return varint(len(value.encode())) + value.encode()
    if kind in WIDTHS:
        return varint(int(value))
    return struct.pack("<Q" if kind == "fixed64" else "<f", value)


def written(form, message):
    """The bytes of a message of a form, with its fields by rising number."""
    out = bytearray()
    for number, field in sorted(form.items()):
        if field.name in message:
            values = message[field.name] if field.repeats else [message[field.name]]
            out += b"".join(varint(number << 3 | field.wire_type()) + written_value(field.kind, value) for value in values)
    return bytes(out)
