"""What each vsync of a run showed, as a layers trace, which Winscope opens.

Layers have the numbers of the scene; copies that mirrors show have the next free ones. A layer's own colour is told without its
alpha, which Android has beside it; the scene has it multiplied with it.
"""

from itertools import count

from surbeldoi.android.forms import LAYERS_TRACE, MAGIC
from surbeldoi.android.regions import visible_regions
from surbeldoi.android.wire import written
from surbeldoi.check.checking import arrivals_of, is_through_queue
from surbeldoi.check.ordering import Ordered
from surbeldoi.check.tracing import traces_of
from surbeldoi.check.vsyncs import Pending
from surbeldoi.model.commits import Stage
from surbeldoi.model.outputs import OWN_STACK
from surbeldoi.model.painting import Placements, drawn, is_sideways
from surbeldoi.model.trees import draw_order, written as with_copies
from surbeldoi.script.scenes import read_scene

TYPES = {"container": "ContainerLayer", "colour": "ColorLayer", "buffer": "BufferStateLayer"}
# Android's names and numbers of the formats of pictures.
FORMATS = {"rgba": ("RGBA_8888", 1), "rgbx": ("RGBx_8888", 2), "rgb565": ("RGB_565", 4)}
HIDDEN, OPAQUE = 1, 2
NONE, HIGHEST = -1, (1 << 31) - 1
IDENTITY = {"dsdx": 1.0, "dtdx": 0.0, "dsdy": 0.0, "dtdy": 1.0, "type": 0}
# Where the column and the row of a frame go with each orientation: dsdx, dtdx, dsdy, dtdy; and Android's bits of it, 1 for mirrored
# columns, 2 for mirrored rows, 4 for a quarter turn after these.
TURNS = ((1, 0, 0, 1), (0, 1, -1, 0), (-1, 0, 0, -1), (0, -1, 1, 0), (-1, 0, 0, 1), (0, -1, -1, 0), (1, 0, 0, -1), (0, 1, 1, 0))
BITS = (0, 4, 3, 7, 1, 5, 2, 6)
ROTATES = 2


def numbers_of(tree):
    """The number of each layer in the trace, which has 32 bits and a sign; copies have the next free ones."""
    taken, free, numbers = {layer for layer in tree if isinstance(layer, int)}, 0, {}
    for layer in tree:
        number = layer
        if not isinstance(layer, int):
            free = next(number for number in count(free + 1) if number not in taken)
            number = free
        numbers[layer] = number - (1 << 32) if number > HIGHEST else number
    return numbers


def name_of(layer):
    return f"copy of {layer.number[1]}" if isinstance(layer.number, tuple) else f"{layer.kind} {layer.number}"


def turn(orient):
    """An orientation as a transform."""
    turned = dict(zip(("dsdx", "dtdx", "dsdy", "dtdy"), map(float, TURNS[orient])))
    return {**turned, "type": BITS[orient] << 8 | (ROTATES if orient else 0)}


def rectangle(left, top, right, bottom):
    return {"left": left, "top": top, "right": right, "bottom": bottom}


def bounds(left, top, right, bottom):
    return rectangle(*map(float, (left, top, right, bottom)))


class Screen:
    """A display with what its layers show on it: those that are seen, from the back."""

    def __init__(self, scene, placements, order, size):
        self.clips = {layer.number: drawn(layer, placements.of(layer), scene.pictures, *size) for layer in order if layer.has_content()}
        seen = [(number, clip) for number, clip in self.clips.items() if clip.is_seen()]
        regions = visible_regions([(clip[:4], hides(scene, clip)) for _, clip in seen])
        self.regions = {number: region for (number, _), region in zip(seen, regions)}


def hides(scene, clip):
    """Whether nothing behind a layer that is drawn shows through it."""
    if clip.alpha != 255:
        return False
    if clip.is_opaque or clip.colour is not None:
        return clip.is_opaque or clip.colour[3] == 255
    picture = scene.pictures[clip.picture]
    return picture.format != "rgba" or any(covers(fill, picture) for fill in picture.fills) and all(fill[4][3] == 255 for fill in picture.fills)


def covers(fill, picture):
    x, y, width, height, _ = fill
    return x == 0 and y == 0 and width >= picture.width and height >= picture.height


class Snapshot:
    """The layers of a scene after a vsync, as messages."""

    def __init__(self, scene, tree):
        self.scene, self.tree = scene, with_copies(tree, scene.mirrors) if scene.mirrors else tree
        self.numbers, self.placements, self.order = numbers_of(self.tree), Placements(self.tree), draw_order(self.tree)
        self.children, self.relatives = {}, {}
        for layer in sorted(self.tree.values(), key=lambda layer: layer.z):
            self.children.setdefault(layer.parent, []).append(self.numbers[layer.number])
            self.relatives.setdefault(layer.relative, []).append(self.numbers[layer.number])
        self.screens = {}
        for width, height, stack in [(scene.width, scene.height, OWN_STACK), *scene.displays.values()]:
            if stack not in self.screens:
                layers = [layer for layer in self.order if self.stack(layer) == stack]
                self.screens[stack] = Screen(scene, self.placements, layers, (width, height))

    def stack(self, layer):
        return self.scene.stacks.get(self.placements.of(layer).uppermost, OWN_STACK)

    def message(self):
        layers = [self.layer(layer) for layer in self.tree.values()]
        return {"layers": layers, "resolution": {"w": self.scene.width, "h": self.scene.height}, "global_transform": 0}

    def layer(self, layer):
        """A layer as a message."""
        placed = self.placements.of(layer)
        message = {
            "id": self.numbers[layer.number], "name": name_of(layer), "children": self.children.get(layer.number, []),
            "relatives": self.relatives.get(layer.number, []), "type": TYPES[layer.kind], "layer_stack": self.stack(layer), "z": layer.z,
            "position": {"x": float(placed.x), "y": float(placed.y)}, "requested_position": {"x": float(layer.position[0]), "y": float(layer.position[1])},
            "opaque": bool(layer.opaque), "flags": HIDDEN * bool(layer.hidden) | OPAQUE * bool(layer.opaque),
            "colour": self.colour(layer, placed.alpha), "requested_colour": self.colour(layer, layer.alpha),
            "transform": IDENTITY, "requested_transform": IDENTITY, "effective_transform": IDENTITY,
            "parent": self.numbers.get(layer.parent, NONE), "relative_of": self.numbers.get(layer.relative, NONE)}
        if layer.crop is not None:
            x, y, width, height = layer.crop
            message["crop"] = rectangle(x, y, x + width, y + height)
        return {**message, **self.geometry(layer, placed), **self.frame(layer)}

    def colour(self, layer, alpha):
        """The colour of a layer of one, without its alpha, and this alpha; black of all others."""
        red, green, blue, own = bytes.fromhex(layer.colour) if layer.kind == "colour" else (0, 0, 0, 255)
        own = 255 if layer.opaque else own
        return {**{name: min(1.0, channel / own) if own else 0.0 for name, channel in zip("rgb", (red, green, blue))}, "a": own * alpha / 65025}

    def geometry(self, layer, placed):
        """Where a layer is: its frame's size, and what of it is on the screen and seen."""
        message, screen = {}, self.screens.get(self.stack(layer))
        if layer.kind == "buffer" and layer.content is not None:
            width, height = layer.content.crop[2:] if not is_sideways(layer.orient) else layer.content.crop[:1:-1]
            message.update(size={"w": width, "h": height}, source_bounds=bounds(0, 0, width, height))
        clip = screen.clips.get(layer.number) if screen else None
        if clip and clip.is_seen():
            left, top, right, bottom = clip[:4]
            message["bounds"] = bounds(left - placed.x, top - placed.y, right - placed.x, bottom - placed.y)
            message["screen_bounds"] = bounds(left, top, right, bottom)
            message["visible_region"] = {"rectangles": [rectangle(*part) for part in screen.regions[layer.number]]}
        return message

    def frame(self, layer):
        """The frame that a layer shows."""
        if layer.content is None or layer.kind != "buffer":
            return {}
        picture = self.scene.pictures[layer.content.picture]
        name, number = FORMATS[picture.format]
        return {"pixel_format": name, "frame_number": layer.content.frame, "buffer_transform": turn(layer.orient),
                "active_buffer": {"width": picture.width, "height": picture.height, "stride": picture.width, "format": number}}


def trees_of(scene, records):
    """The tree after each vsync that shows something, with the number of the vsync and its time."""
    shown = Ordered(records).shown(scene)
    traces = traces_of(scene, shown)
    pending, stage = Pending(arrivals_of(traces, shown.arrivals, is_through_queue(traces))), Stage(scene.most_layers())
    for vsync in shown.vsyncs:
        number = vsync.record.fields["number"]
        stage.begin(number)
        for record in vsync.commits:
            stage.commit(pending.commit(record))
        if vsync.outputs:
            yield number, vsync.record.fields["expected"], stage.tree


def layers_trace(script, records):
    """A layers trace of a run, as bytes. Raises NoScene, and Refused where the records are none of a run of the scene."""
    scene = read_scene(script)
    entries = [{"time": time, "where": f"vsync {number}", "layers": Snapshot(scene, tree).message()} for number, time, tree in trees_of(scene, records)]
    return written(LAYERS_TRACE, {"magic": MAGIC, "entries": entries})
