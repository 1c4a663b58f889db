"""What is different after one vsync and after another: which property of which layer, from what to what, by which line, and what follows from it
for layers that were not changed themselves."""

from typing import NamedTuple, Optional

from surbeldoi.asking.origins import CREATED
from surbeldoi.asking.places import parent_text, place_name, rectangle_text
from surbeldoi.asking.reasons import NotTold

BYTES, BLACK = 4, b"\x00\x00\x00\xff"
# The properties that are told, each with the name that the script has for it.
TOLD = (("parent", "parent"), ("z", "z"), ("position", "position"), ("crop", "crop"), ("alpha", "alpha"), ("hidden", "hidden"), ("opaque", "opaque"),
        ("colour", "colour"), ("orient", "orient"), ("backpressure", "backpressure"), ("content", "frame"))


class Change(NamedTuple):
    """A property of a layer that is another one than before, or the whole layer, and the operation that made it so."""

    layer: int
    name: str
    before: str
    after: str
    origin: Optional[tuple]


class Effect(NamedTuple):
    """What comes of a layer at a place that is another one than before, though the layer itself was not changed in this; and why."""

    layer: int
    name: str
    before: str
    after: str
    why: str


class Pixels(NamedTuple):
    """How many pixels of a place are others than before, of how many, and the rectangle that they are in; None where there are none."""

    place: str
    different: int
    of: int
    area: Optional[tuple]


def value_text(layer, name):
    """A property of a layer in words."""
    value = getattr(layer, name)
    if name == "parent":
        return parent_text(value)
    if name == "z":
        return f"{value}" + (f", relative to layer {layer.relative}" if layer.relative is not None else "")
    if name == "crop":
        return "none" if value is None else rectangle_text(value)
    if name == "position":
        return "{} {}".format(*value)
    if name == "content":
        return f"queue {value.queue} frame {value.frame}, picture {value.picture}" if value else "none"
    return str(int(value)) if isinstance(value, bool) else str(value)


class Changes:
    """What is different at a place at one moment and at another, an earlier one or None for the beginning."""

    def __init__(self, asked, before, after, of_place=0):
        self.asked, self.before_at, self.after_at = asked, before, after
        self.after = asked.looked(after, of_place)
        self.before = asked.looked(before, of_place) if before is not None else None
        self.were, self.are = self.before.there if self.before else {}, self.after.there

    def changes(self):
        """The properties that operations changed, by rising layers."""
        for number in sorted(self.were.keys() | self.are.keys()):
            if number not in self.are:
                yield Change(number, "layer", self.were[number].kind, "gone", self.asked.origins.destroyed(number, self.after_at))
                continue
            origin = self.asked.origins.of(number, CREATED, self.after_at)
            is_new = number not in self.were or self.before_at is not None and origin and origin.place > self.before_at
            if is_new:
                yield Change(number, "layer", "none", self.are[number].kind, origin)
            yield from self.of_layer(number, is_new)

    def of_layer(self, number, is_new):
        """The properties of a layer that are others than before; those of a new one that its `create` did not make so."""
        layer = self.are[number]
        old = type(layer)(number, layer.kind, layer.parent) if is_new else self.were[number]
        for name, shown in TOLD:
            is_same = getattr(layer, name) == getattr(old, name) and (name != "z" or layer.relative == old.relative)
            if not is_same:
                yield Change(number, shown, value_text(old, name), value_text(layer, name), self.asked.origins.of(number, name, self.after_at))

    def effects(self):
        """What comes of layers that were not changed in it themselves."""
        for number in sorted(self.were.keys() & self.are.keys()):
            shown = self.before.is_shown(number), self.after.is_shown(number)
            if any(shown) and (shown[0] != shown[1] or self.before.area_of(number) != self.after.area_of(number)):
                yield from self.effects_on(number, shown[1])

    def effects_on(self, number, is_shown):
        """What comes of a layer that shows otherwise than before."""
        before = {value.name: value for value in self.before.computed(number)}
        for value in self.after.computed(number):
            old = before.get(value.name)
            is_told = value.name == "shown" or is_shown and value.name != "order"
            if old and is_told and value.computed != old.computed and value.asked == old.asked:
                yield Effect(number, value.name, old.computed, value.computed, value.why)

    def pixels(self):
        """What is different in the images of all places."""
        course = self.asked.course
        for at, place in enumerate(course.places):
            now = course.moments[self.after_at].outputs[at].frame
            then = course.moments[self.before_at].outputs[at].frame if self.before_at is not None else None
            if now is not None:
                before = BLACK * (place.width * place.height) if then is None else course.frames[then]
                yield pixels_of(place_name(place), place, before, course.frames[now])


def pixels_of(name, place, before, after):
    """How two images of a place differ."""
    if len(before) != len(after):
        raise NotTold(f"the images of {name} have not the same size")
    row, rows, left, right, count = BYTES * place.width, [], place.width, 0, 0
    for y in range(place.height):
        one, other = before[y * row:(y + 1) * row], after[y * row:(y + 1) * row]
        if one != other:
            columns = [x for x in range(place.width) if one[BYTES * x:BYTES * x + BYTES] != other[BYTES * x:BYTES * x + BYTES]]
            count, left, right = count + len(columns), min(left, columns[0]), max(right, columns[-1] + 1)
            rows.append(y)
    area = (left, rows[0], right - left, rows[-1] + 1 - rows[0]) if rows else None
    return Pixels(name, count, place.width * place.height, area)
