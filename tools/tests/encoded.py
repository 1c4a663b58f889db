"""Records as the bytes of a stream, for tests that stand in for the program."""

from surbeldoi.records.stream import FORMS, PIXELS, Rows


def field_bytes(form, value):
    if form == PIXELS:
        return bytes(value)
    if not isinstance(form, Rows):
        return value.to_bytes(form, "big")
    rows = [b"".join(number.to_bytes(size, "big") for number, size in zip(row, form.columns)) for row in value]
    return len(rows).to_bytes(4, "big") + b"".join(rows)


def stream_of(records):
    """The bytes of records, each a tag and fields."""
    pieces = []
    for tag, fields in records:
        body = b"".join(field_bytes(form, fields[name]) for name, form in FORMS[tag])
        pieces.append(tag.encode() + len(body).to_bytes(4, "big") + body)
    return b"".join(pieces)
