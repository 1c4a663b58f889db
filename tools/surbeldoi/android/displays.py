"""The displays of a trace of what was asked, and by how much its pixels are divided."""

import math

from surbeldoi.android.notes import TraceFault

MOST_DISPLAY, MOST_BUFFER, MOST_DISPLAYS, FURTHEST = 1024, 512, 8, 16384
FOR_ALL = "displays are there for the whole run; what is said of one first counts"


class Scale:
    """Divides pixels of a real screen."""

    def __init__(self, divisor):
        self.divisor = divisor

    def place(self, pixels):
        """A place, which may lie between pixels, as the nearest pixel; halves are rounded up."""
        return math.floor(pixels / self.divisor + 0.5)

    def size(self, pixels):
        """A size, rounded up."""
        return max(1, -(-pixels // self.divisor))


def size_of(rectangle):
    return rectangle.get("right", 0) - rectangle.get("left", 0), rectangle.get("bottom", 0) - rectangle.get("top", 0)


class Display:
    """A display as far as a trace tells it."""

    def __init__(self):
        self.stack, self.sizes = None, {}

    def size(self):
        """The size of the frame of its projection, else its own, else None."""
        return self.sizes.get("frame") or self.sizes.get("size")


class Displays:
    """The displays in the order in which a trace tells them. The first one is the scene's own."""

    def __init__(self, notes):
        self.notes, self.of_number = notes, {}

    def display(self, number):
        return self.of_number.setdefault(number, Display())

    def made(self, made, where, is_late):
        self.display(made.get("display", 0))
        if is_late:
            self.notes.add("a display that is made while others are there", FOR_ALL, where)

    def change(self, change, where):
        """Takes a change of a display."""
        display = self.display(change.get("display", 0))
        if "layer_stack" in change:
            self.set_stack(display, change["layer_stack"].get("value", 0), where)
        elif "size" in change:
            self.set_size(display, "size", (change["size"].get("w", 0), change["size"].get("h", 0)), where)
        elif "projection" in change:
            self.project(display, change["projection"], where)

    def set_stack(self, display, stack, where):
        if display.stack not in (None, stack):
            self.notes.add("another layer stack for a display", FOR_ALL, where)
        elif display.stack is None:
            display.stack = stack

    def set_size(self, display, name, size, where):
        if min(size) <= 0:
            return
        if display.sizes.setdefault(name, size) != size:
            self.notes.add("another size of a display", FOR_ALL, where)

    def project(self, display, projection, where):
        """Takes a projection: its frame is the display's size."""
        viewport, frame = projection.get("viewport", {}), projection.get("frame", {})
        self.set_size(display, "frame", size_of(frame), where)
        is_plain = viewport == frame and not viewport.get("left", 0) and not viewport.get("top", 0)
        if projection.get("orientation", 0) or not is_plain:
            self.notes.add("a projection that turns, moves or scales", "left out: a display shows the layers of its stack as they are", where)

    def sizes(self, usual):
        """The sizes of all displays, the usual one where none is told."""
        return [display.size() or usual for display in self.of_number.values()] or [usual]

    def own_stack(self):
        first = next(iter(self.of_number.values()), None)
        return (first.stack if first else None) or 0

    def further(self, usual):
        """The sizes and stacks of the displays behind the first."""
        displays = list(self.of_number.values())[1:]
        if len(displays) >= MOST_DISPLAYS:
            self.notes.add("more than 8 displays", f"those behind the first {MOST_DISPLAYS} are left out", "the trace")
        return [(display.size() or usual, display.stack or 0) for display in displays[:MOST_DISPLAYS - 1]]


def least_divisor(displays, buffers):
    """The least number by which all displays and buffers are divided into sizes that a scene may have."""
    return max(1, -(-max(map(max, displays)) // MOST_DISPLAY), -(-max(map(max, buffers), default=1) // MOST_BUFFER))


def scale_for(asked, displays, buffers, notes):
    """The scale that is asked for, or the least that fits. Raises TraceFault where what is asked for does not fit."""
    least = least_divisor(displays, buffers)
    if asked is not None and asked < least:
        widest = max(displays + buffers, key=max)
        raise TraceFault(f"a display or buffer of {widest[0]} x {widest[1]} by {asked} is too large: displays may have {MOST_DISPLAY}, "
                         f"buffers {MOST_BUFFER} pixels a side; --divide {least} fits")
    if asked is None and least > 1:
        notes.add(f"pixels divided by {least}", "the least number that fits; --divide N takes another", "the trace")
    return Scale(asked or least)
