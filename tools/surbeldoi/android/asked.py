"""A trace of what was asked of SurfaceFlinger (SurfaceInterceptor's, of Android 8 to 12) as a scene of version 2.

Surfaces become layers, transactions stay transactions in their order, buffer updates become steps on queues with a picture of
one colour, and vsyncs become the order. What has no form here is noted.
"""

import colorsys
import math
from bisect import bisect_left
from statistics import median

from surbeldoi.android.displays import FURTHEST, Displays, scale_for, size_of
from surbeldoi.android.forms import SURFACE_TRACE
from surbeldoi.android.notes import Notes, TraceFault
from surbeldoi.android.turns import Turns
from surbeldoi.android.wire import read
from surbeldoi.script.scenes import MOST_BYTES, MOST_LAYERS, RANGES

USUAL_PERIOD, USUAL_SIZE = 16_666_667, (216, 480)
MOST_QUEUES, MOST_PICTURES, MOST_NAME, SHADES = 16, 256, 100, 4
MAIN_TOKEN = 1
GOLDEN = (math.sqrt(5) - 1) / 2
FIRST_OF_OTHERS = 1 << 31
# Changes that have no form here, each with its words, when it asks for nothing, and what is done.
WITHOUT_FORM = {
    "size": ("a size of a surface", lambda value: False, "left out: a layer is as large as its frames and crops"),
    "matrix": ("a matrix", lambda value: [value.get(name, 0.0) for name in ("dsdx", "dtdx", "dsdy", "dtdy")] == [1, 0, 0, 1],
               "left out: a layer is neither scaled nor sheared"),
    "scaling_mode": ("a scaling mode", lambda value: value.get("value", 0) <= 0, "left out: frames are not scaled"),
    "transparent_region": ("a transparent region", lambda value: not value.get("rectangles"), "left out: what is transparent is found from the pixels"),
    "secure": ("a secure surface", lambda value: not value.get("value"), "left out: captures show all layers"),
    "corner_radius": ("a corner radius", lambda value: not value.get("value"), "left out: corners are square"),
}


class Surface:
    """A surface: its layer's number, its place among all, the queue of its buffers, if it has some, the token of its transactions, and
    its frames: their numbers in the queue, and the greatest number in the trace up to each."""

    def __init__(self, layer, index):
        self.layer, self.index, self.queue, self.token, self.is_there, self.shown = layer, index, None, MAIN_TOKEN, False, 0
        self.greatest, self.frames = [], []

    def add_frame(self, there, here):
        """One more frame, by its number in the trace and in its queue."""
        self.greatest.append(max([there, *self.greatest[-1:]]))
        self.frames.append(here)

    def first_frame(self, wanted):
        """The first frame whose number in the trace is at least this one, by its number in its queue, or None."""
        at = bisect_left(self.greatest, wanted)
        return self.frames[at] if at < len(self.frames) else None

    def colour(self, shade):
        """A colour of its own, of which there are some shades."""
        parts = colorsys.hsv_to_rgb(self.index * GOLDEN % 1, 0.65, 0.95 - 0.15 * shade)
        return "".join(f"{round(255 * part):02x}" for part in parts) + "ff"


class Survey:
    """What has to be known of a trace before its scene is written: surfaces, displays, sizes and frames."""

    def __init__(self, increments, notes):
        self.notes, self.surfaces, self.displays, self.stacks, self.buffers = notes, {}, Displays(notes), {}, []
        self.sizes, self.times, self.frame_counts, self.there = [], [], {}, set()
        for place, increment in enumerate(increments, 1):
            self.see(increment, f"increment {place}")

    def see(self, increment, where):
        if "surface_made" in increment:
            made = increment["surface_made"]
            self.there.add(self.surface(made.get("surface", 0)))
            self.sizes.append((made.get("width", 0), made.get("height", 0)))
        elif "surface_deleted" in increment:
            self.there.discard(self.surface(increment["surface_deleted"].get("surface", 0)))
        elif "buffer_update" in increment:
            self.see_update(increment["buffer_update"])
        elif "display_made" in increment:
            self.displays.made(increment["display_made"], where, bool(self.surfaces))
        elif "display_deleted" in increment:
            self.notes.add("a display that is deleted", "displays are there for the whole run", where)
        elif "power_mode" in increment:
            self.notes.add("a power mode", "left out: displays are on", where)
        elif "vsync" in increment:
            self.times.append(increment["vsync"].get("when") or increment.get("time", 0))
        elif "transaction" in increment:
            self.see_transaction(increment["transaction"], where)

    def surface(self, number):
        """A surface, by its number; a layer has the same one where it can."""
        if number not in self.surfaces:
            index = len(self.surfaces)
            self.surfaces[number] = Surface(number if 0 < number < FIRST_OF_OTHERS else FIRST_OF_OTHERS + index, index)
        return self.surfaces[number]

    def see_update(self, update):
        surface, size = self.surface(update.get("surface", 0)), (update.get("width", 0), update.get("height", 0))
        if surface not in self.there or min(size) <= 0:
            return
        if surface.queue is None:
            surface.queue = len([1 for other in self.surfaces.values() if other.queue]) % MOST_QUEUES + 1
        self.frame_counts[surface.queue] = self.frame_counts.get(surface.queue, 0) + 1
        surface.add_frame(update.get("frame", 0), self.frame_counts[surface.queue])
        self.buffers.append(size)

    def see_transaction(self, transaction, where):
        for change in transaction.get("display_changes", []):
            self.displays.change(change, where)
        for change in transaction.get("surface_changes", []):
            if "layer_stack" in change:
                self.see_stack(change.get("surface", 0), change["layer_stack"].get("value", 0), where)
        for flag in ("synchronous", "animation"):
            if transaction.get(flag):
                self.notes.add(f"a transaction that is marked {flag}", "a transaction like others", where)

    def see_stack(self, number, stack, where):
        if self.stacks.setdefault(number, stack) != stack:
            self.notes.add("another layer stack for a surface", "a layer's stack is that of the whole run; the last one counts", where)
        self.stacks[number] = stack

    def usual_size(self):
        """The size that holds all surfaces and buffers, for where no display tells its own."""
        sizes = [size for size in self.sizes + self.buffers if min(size) > 0]
        return (max(size[0] for size in sizes), max(size[1] for size in sizes)) if sizes else USUAL_SIZE

    def period(self):
        """The usual time from a vsync to the next."""
        apart = [later - earlier for earlier, later in zip(self.times, self.times[1:]) if later > earlier]
        low, high = RANGES["PERIOD"]
        return min(max(int(median(apart)), low), high) if apart else USUAL_PERIOD


class Writer:
    """Writes the scene of a trace, increment by increment."""

    def __init__(self, survey, scale):
        self.survey, self.notes, self.scale, self.turns = survey, survey.notes, scale, Turns()
        self.pictures, self.queues, self.layers, self.where = {}, {}, 0, ""
        self.own_stack, self.tokens = survey.displays.own_stack(), MAIN_TOKEN

    def note(self, what, done):
        self.notes.add(what, done, self.where)

    def write(self, increments):
        has_vsyncs = bool(self.survey.times)
        if not has_vsyncs:
            self.notes.add("no vsyncs", "each increment that changes something has one behind it", "the trace")
        for place, increment in enumerate(increments, 1):
            self.where = f"increment {place}"
            self.take(increment)
            check_size(self.turns.size)
            if not has_vsyncs and {"transaction", "surface_made", "surface_deleted", "buffer_update"} & set(increment):
                self.turns.vsync()

    def take(self, increment):
        if "surface_made" in increment:
            self.make(increment["surface_made"])
        elif "surface_deleted" in increment:
            self.delete(self.survey.surface(increment["surface_deleted"].get("surface", 0)))
        elif "buffer_update" in increment:
            self.update(increment["buffer_update"])
        elif "vsync" in increment:
            self.turns.vsync()
        elif "transaction" in increment:
            self.transact(increment["transaction"].get("surface_changes", []))

    def apply(self, steps, token, comments=()):
        self.turns.take([*comments, "tx 1", *steps, f"apply 1 token {token}"])

    def make(self, made):
        surface = self.survey.surface(made.get("surface", 0))
        if surface.is_there:
            self.note("a surface that is made twice", "made once")
            return
        surface.is_there, self.layers = True, self.layers + 1
        if self.layers > MOST_LAYERS[2]:
            raise TraceFault(f"{self.where}: more than {MOST_LAYERS[2]} surfaces at once")
        kind = "buffer" if surface.queue else "container"
        name = made.get("name", "")[:MOST_NAME].encode("unicode_escape").decode("ascii")
        self.apply([f"set 1 {surface.layer} create {kind} 0"], MAIN_TOKEN, [f"# layer {surface.layer}: {name}"])

    def delete(self, surface):
        if self.is_missing(surface, "a surface"):
            return
        surface.is_there, self.layers = False, self.layers - 1
        self.apply([f"set 1 {surface.layer} destroy"], MAIN_TOKEN)

    def is_missing(self, surface, what):
        if not surface.is_there:
            self.note(f"{what} that is not there", "left out")
        return not surface.is_there

    def update(self, update):
        """A frame of a surface: it is drawn, queued, acquired and shown."""
        surface, size = self.survey.surface(update.get("surface", 0)), (update.get("width", 0), update.get("height", 0))
        if self.is_missing(surface, "a buffer of a surface"):
            return
        if min(size) <= 0:
            self.note("a buffer without area", "left out")
            return
        width, height = map(self.scale.size, size)
        if surface.queue not in self.queues:
            self.queues[surface.queue] = (width, height)
            self.turns.connect(surface.queue)
        picture, surface.shown = self.picture(surface, width, height), surface.shown + 1
        self.turns.take([f"dequeuewait {surface.queue} as b size {width} {height}", "request b", f"draw b {picture}", f"queue b {picture}",
                         f"acquire {surface.queue} as b", "tx 1", f"buffer 1 {surface.layer} b", f"apply 1 token {MAIN_TOKEN}"])

    def picture(self, surface, width, height):
        """A picture of a surface's next shade; another one of this size where there are too many."""
        key = (width, height, surface.colour(surface.shown % SHADES))
        if key not in self.pictures and len(self.pictures) >= MOST_PICTURES:
            same = [other for other in self.pictures if other[:2] == key[:2]]
            if not same:
                raise TraceFault(f"{self.where}: more than {MOST_PICTURES} sizes of buffers")
            self.note(f"more than {MOST_PICTURES} pictures", "a surface gets a colour of another")
            key = same[surface.shown % len(same)]
        return self.pictures.setdefault(key, len(self.pictures) + 1)

    def transact(self, changes):
        """A transaction; the changes of a surface that has once waited for a frame go under a token of the surface's own."""
        for change in changes:
            if "deferred_until" in change:
                self.defer(self.survey.surface(change.get("surface", 0)))
        of_token = {}
        for change in changes:
            surface = self.survey.surface(change.get("surface", 0))
            if not self.is_missing(surface, "a change of a surface"):
                of_token.setdefault(surface.token, []).extend(self.steps(surface, change))
        for token, steps in of_token.items():
            if steps:
                self.apply(steps, token)

    def defer(self, surface):
        if surface.token == MAIN_TOKEN:
            self.tokens += 1
            surface.token = self.tokens
        self.note("a change that is deferred until a frame", "a barrier, and from there on the changes of its surface under a token of their own")

    def steps(self, surface, change):
        """The steps of a change of a surface."""
        kind = next((name for name in change if name != "surface"), None)
        if kind in WITHOUT_FORM:
            what, is_nothing, done = WITHOUT_FORM[kind]
            if not is_nothing(change[kind]):
                self.note(what, done)
            return []
        if kind is None or kind == "layer_stack":
            return []
        if kind == "deferred_until":
            return self.barrier(change[kind])
        return [f"set 1 {surface.layer} {text}" for text in getattr(self, "change_" + kind)(change[kind])]

    def barrier(self, deferred):
        """The step that waits for a frame of a surface, by its number in the queue here."""
        surface, wanted = self.survey.surface(deferred.get("surface", 0)), deferred.get("frame", 0)
        frame = surface.first_frame(wanted)
        if frame is None:
            self.note("a frame that is waited for and does not come", "the transaction waits to the end")
            frame = RANGES["FRAME"][1]
        return [f"barrier 1 {surface.layer} {frame}"]

    def number(self, value, what):
        if not math.isfinite(value):
            raise TraceFault(f"{self.where}: {what} {value} is no number")
        return value

    def pixel(self, value, what):
        """A place in pixels, in range."""
        place = self.scale.place(self.number(value, what))
        if abs(place) > FURTHEST:
            self.note(f"a {what} further than {FURTHEST} pixels", "brought into range")
        return min(max(place, -FURTHEST), FURTHEST)

    def change_position(self, value):
        x, y = value.get("x", 0.0), value.get("y", 0.0)
        place = self.pixel(x, "position"), self.pixel(y, "position")
        if any(self.scale.divisor * to != asked for to, asked in zip(place, (x, y))):
            self.note("a position between pixels", "the nearest pixel")
        yield "position {} {}".format(*place)

    def change_alpha(self, value):
        alpha = self.number(value.get("value", 0.0), "alpha")
        if not 0 <= alpha <= 1:
            self.note("an alpha out of range", "brought into range")
        yield f"alpha {round(255 * min(max(alpha, 0), 1))}"

    def change_z(self, value):
        z = value.get("value", 0)
        yield f"z {z - (1 << 32) if z >> 31 else z}"

    def change_crop(self, value):
        rectangle = value.get("rectangle", {})
        if min(size_of(rectangle)) <= 0:
            yield "crop none"
            return
        left, top, right, bottom = (self.pixel(rectangle.get(side, 0), "crop") for side in ("left", "top", "right", "bottom"))
        yield f"crop {left} {top} {min(right - left, FURTHEST)} {min(bottom - top, FURTHEST)}"

    def change_hidden(self, value):
        yield f"hidden {int(value.get('value', False))}"

    def change_opaque(self, value):
        yield f"opaque {int(value.get('value', False))}"

    def stack_here(self, stack):
        """The number of a stack here, where the own display shows stack 0."""
        return {self.own_stack: 0, 0: self.own_stack}.get(stack, stack)

    def lines(self):
        """The script."""
        survey, usual = self.survey, self.survey.usual_size()
        own = survey.displays.sizes(usual)[0]
        yield f"scene 2 {self.scale.size(own[0])} {self.scale.size(own[1])} {survey.period()}"
        for number, ((width, height), stack) in enumerate(survey.displays.further(usual), 2):
            yield f"display {number} {self.scale.size(width)} {self.scale.size(height)} {self.stack_here(stack)}"
        for number, stack in survey.stacks.items():
            if self.stack_here(stack):
                yield f"stack {survey.surface(number).layer} {self.stack_here(stack)}"
        for queue, (width, height) in sorted(self.queues.items()):
            yield f"queue {queue} {width} {height}"
        for (width, height, colour), number in self.pictures.items():
            yield f"picture {number} {width} {height}"
            yield f"fill 0 0 {width} {height} {colour}"
        yield from self.turns.lines()
        yield "end"


def check_size(size):
    if size > MOST_BYTES:
        raise TraceFault(f"its scene has more than {MOST_BYTES} bytes: a shorter trace is needed")


def scene_of(data, divisor):
    """The script of a trace, and the notes on it. Raises WireFault and TraceFault."""
    increments, notes = read(SURFACE_TRACE, data).get("increments", []), Notes()
    survey = Survey(increments, notes)
    scale = scale_for(divisor, survey.displays.sizes(survey.usual_size()), survey.buffers, notes)
    writer = Writer(survey, scale)
    writer.write(increments)
    script = "".join(line + "\n" for line in writer.lines()).encode()
    check_size(len(script))
    return script, notes
