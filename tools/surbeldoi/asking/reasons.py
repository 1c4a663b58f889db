"""Why a place shows of a layer what it shows: what is asked for the layer beside what comes of it, and why it does not show where it
does not.

A place is a display or a capture, as `Course.places` has them. The reasons are found from the layers that are there after a vsync
and from how those that show are painted, by the rules of docs/SCRIPT.md, under The frame.
"""

from functools import cached_property
from typing import NamedTuple, Optional

from surbeldoi.asking.covering import Sight
from surbeldoi.asking.origins import Origins
from surbeldoi.asking.places import alphas_text, intersection, layer_name, moved, named_layers, place_name, rectangle_text
from surbeldoi.asking.waiting import Waiting
from surbeldoi.asking.ways import ways_of
from surbeldoi.model import painting
from surbeldoi.model.trees import ROOT, cut, written
from surbeldoi.records.wording import REFUSALS, STATUSES, named
from surbeldoi.view.course import Course

OPAQUE = 255
# The property that a reason comes from, of the first of its layers.
PROPERTY = {"hidden": "hidden", "no parent": "parent", "container": "create", "no frame": "create", "outside": "crop", "alpha 0": "alpha", "clear": "content"}


class NotTold(Exception):
    """Something is asked that the run does not tell."""


class Reason(NamedTuple):
    """Why a layer does not show: the kind of the reason, the layers that it comes from, and a sentence."""

    kind: str
    layers: list
    text: str


class Value(NamedTuple):
    """A property of a layer: what is asked for the layer itself, what comes of it, and why, empty where nothing is to be said."""

    name: str
    asked: str
    computed: str
    why: str


class Painted(NamedTuple):
    """What a layer does to a pixel: its own colour there and its alpha with those above it; what it adds and how much of 255 of the
    pixel behind it lets through; and the pixel before and after. `is_clear` and `is_covering` tell that it changes nothing, or hides
    all behind it. Of a copy `mirror` is the mirror that shows it."""

    layer: int
    mirror: Optional[int]
    kind: str
    picture: Optional[int]
    colour: str
    alpha: int
    adds: str
    lets: int
    before: str
    after: str
    is_clear: bool
    is_covering: bool

    def key(self):
        """The number of the layer as the tree with all copies has it."""
        return self.layer if self.mirror is None else (self.mirror, self.layer)


def steps_up(layer):
    """What a layer needs to be shown: its parent, and what it is relative to."""
    return [(other, how) for other, how in ((layer.parent, "below"), (layer.relative, "relative to")) if other not in (ROOT, None)]


def what_hides(layers, number):
    """The nearest layer without which a layer can not show, as a reason, or None where they all do."""
    to_visit, seen = [(number, "")], {number}
    while to_visit:
        at, way = to_visit.pop(0)
        layer = layers[at]
        if layer.hidden:
            return Reason("hidden", [at], f"hidden by layer {at}{way}" if way else "hidden itself")
        if layer.parent is None:
            return Reason("no parent", [at], f"layer {at}{way}, has no parent" if way else "it has no parent")
        for other, how in steps_up(layer):
            if other in layers and other not in seen:
                seen.add(other)
                to_visit.append((other, f", which {'it' if at == number else f'layer {at}'} is {how}"))
    return None


class Looked:
    """What a place shows of the layers at a moment."""

    def __init__(self, asked, at, of_place):
        self.asked, self.at, self.moment = asked, at, asked.course.moments[at]
        self.place, self.output = asked.course.places[of_place], self.moment.outputs[of_place]
        if self.moment.outline is None or self.output.drawn is None:
            raise NotTold(f"the layers are not known: {asked.course.fault}")
        self.there = {layer.number: layer for layer, _ in self.moment.outline}

    @cached_property
    def layers(self):
        """The layers that the place may show, by number: of a capture, its layer with all below it."""
        if not self.place.is_capture():
            return self.there
        return cut(self.there, self.place.shows) if self.place.shows in self.there else {}

    @cached_property
    def written(self):
        """The layers with the copies that mirrors show."""
        return self.layers if self.place.is_capture() else written(self.there, self.asked.course.declarations.mirrors)

    @cached_property
    def drawn(self):
        """The layers that show, as the painter has them."""
        return [self.asked.as_painted(drawn) for drawn in self.output.drawn]

    @cached_property
    def sight(self):
        """What is in sight of each."""
        return Sight(self.asked.painter, self.drawn, self.place.width)

    @cached_property
    def places(self):
        """The place of each layer among those that show."""
        return {drawn.layer: at for at, drawn in enumerate(self.output.drawn) if drawn.mirror is None}

    def key(self, at):
        """The number of a layer that shows as the tree with all copies has it."""
        drawn = self.output.drawn[at]
        return drawn.layer if drawn.mirror is None else (drawn.mirror, drawn.layer)

    def is_shown(self, number):
        """Whether the place shows something of a layer."""
        at = self.places.get(number)
        return at is not None and self.sight.is_in_sight(at)

    def area_of(self, number):
        """Where a layer that the place has is, what it covers, and its alpha; None where the place does not have it."""
        at = self.places.get(number)
        return None if at is None else (self.output.drawn[at].place, self.output.drawn[at].clip, self.output.drawn[at].alpha)

    # Why a layer does not show.

    def way_up(self, number):
        """A layer and those above it, up to the root."""
        way = []
        while number in self.layers and number not in way:
            way.append(number)
            number = self.layers[number].parent
        return [self.layers[number] for number in way]

    def not_shown(self, number):
        """Why the place shows nothing of a layer, as a reason; None where it shows something."""
        for test in (self.missing, self.without_content, self.hidden, self.of_other_stack, self.out_of_place, self.faded, self.out_of_sight):
            reason = test(number)
            if reason:
                return reason
        return None if number in self.places else Reason("not told", [number], "the records do not tell why")

    def origin_of(self, reason):
        """The operation that a reason comes from, or None."""
        name = PROPERTY.get(reason.kind)
        return self.asked.origins.of(reason.layers[0], name, self.at) if name and reason.layers else None

    def missing(self, number):
        if number not in self.there:
            return Reason("missing", [number], self.asked.absence_text(number, self.at))
        if number not in self.layers:
            return Reason("not below", [self.place.shows], f"it is not below layer {self.place.shows}, which {place_name(self.place)} shows")
        return None

    def without_content(self, number):
        layer = self.layers[number]
        if layer.kind == "container":
            return Reason("container", [number], "a container shows nothing itself")
        return None if layer.has_content() else Reason("no frame", [number], "no frame was committed for it yet")

    def hidden(self, number):
        return what_hides(self.layers, number)

    def of_other_stack(self, number):
        uppermost = self.way_up(number)[-1].number
        stack = self.asked.course.declarations.stacks.get(uppermost, 0)
        if self.place.is_capture() or stack == self.place.shows:
            return None
        whose = "it" if uppermost == number else f"layer {uppermost}, which it is below,"
        return Reason("other stack", [uppermost], f"{whose} is on stack {stack}, and {place_name(self.place)} shows stack {self.place.shows}")

    def out_of_place(self, number):
        """The crop that leaves nothing of a layer, or that it lies outside of the place."""
        for area, by, _ in self.cuts(number):
            if not area[2] or not area[3]:
                own = f"the crop of layer {by}" if by != number else "its own crop"
                return Reason("outside", [] if by is None else [by], f"outside of {place_name(self.place) if by is None else own}")
        return None

    def faded(self, number):
        way = self.way_up(number)
        zero = next((layer.number for layer in way if not layer.alpha), None)
        if zero is not None:
            return Reason("alpha 0", [zero], "its alpha is 0" if zero == number else f"layer {zero}, which it is below, has alpha 0")
        return None if self.alpha_of(number) else Reason("alpha 0", [number], f"its alpha comes to 0: {alphas_text(way)}")

    def out_of_sight(self, number):
        """The layers that cover a layer, or that all its pixels are clear."""
        at = self.places.get(number)
        if at is None or self.sight.is_in_sight(at):
            return None
        if not self.sight.bits[at].changing:
            return Reason("clear", [number], "all its pixels are clear")
        by = [self.output.drawn[other].layer for other in self.sight.covered_by(at)]
        return Reason("covered", by, f"covered by {named_layers(by)}")

    # What comes of what is asked.

    def cuts(self, number):
        """What is left of a layer's area as one crop after another cuts it, its own first, and then the place: each with the layer whose
        crop that is, None for the place, and whether it cuts something off."""
        way = self.way_up(number)
        place = self.place_of(number)
        area = (*place, *self.size_of(way[0])) if way[0].kind == "buffer" and way[0].content else None
        corner = place
        for layer in way:
            if layer.crop:
                yield self.left_by(area, moved(layer.crop, corner), layer.number)
                area = intersection(area, moved(layer.crop, corner)) if area else moved(layer.crop, corner)
            corner = corner[0] - layer.position[0], corner[1] - layer.position[1]
        yield self.left_by(area, (0, 0, self.place.width, self.place.height), None)

    @staticmethod
    def left_by(area, by, whose):
        """What a crop leaves of an area, where `area` None is everything."""
        left = intersection(area, by) if area else by
        return left, whose, left != area

    @staticmethod
    def size_of(layer):
        """The size of the frame of a layer as it shows."""
        width, height = layer.content.crop[2:]
        return (height, width) if layer.orient % 2 else (width, height)

    def place_of(self, number):
        way = self.way_up(number)
        return sum(layer.position[0] for layer in way), sum(layer.position[1] for layer in way)

    def alpha_of(self, number):
        alpha = OPAQUE
        for layer in reversed(self.way_up(number)):
            alpha = painting.mul(alpha, layer.alpha)
        return alpha

    def computed(self, number):
        """What is asked for a layer beside what comes of it at this place."""
        if number not in self.layers:
            return []
        layer, way = self.layers[number], self.way_up(number)
        return [self.shown_value(layer), self.order_value(layer), self.place_value(layer, way), self.area_value(layer), self.alpha_value(layer, way)]

    def shown_value(self, layer):
        reason = self.not_shown(layer.number)
        asked = "hidden" if layer.hidden else "shown"
        if reason:
            return Value("shown", asked, "not shown", reason.text)
        changed, seen = self.sight.counts(self.places[layer.number])
        why = "" if seen == changed else f"{seen} of its {changed} pixels are in sight, the others are covered by " + named_layers(
            [self.output.drawn[other].layer for other in self.sight.covered_by(self.places[layer.number])])
        return Value("shown", asked, "shown", why)

    def order_value(self, layer):
        asked = f"z {layer.z}" + (f", relative to layer {layer.relative}" if layer.relative is not None else "")
        behind = [at for at in range(len(self.output.drawn)) if self.key(at) == layer.number]
        if not behind:
            return Value("order", asked, "", "")
        why = self.order_text(layer.number, self.key(behind[0] - 1)) if behind[0] else "nothing is behind it but the black display"
        return Value("order", asked, f"{behind[0] + 1} of {len(self.output.drawn)} from the back", why)

    def place_value(self, layer, way):
        x, y = self.place_of(layer.number)
        parts = [f"{one.position[0]} {one.position[1]} of {'its own' if one is way[0] else f'layer {one.number}'}" for one in reversed(way)]
        return Value("position", "{} {}".format(*layer.position), f"{x} {y}", " + ".join(parts) if (x, y) != layer.position else "")

    def area_value(self, layer):
        steps = list(self.cuts(layer.number))
        by = [place_name(self.place) if whose is None else "its own crop" if whose == layer.number else f"layer {whose}"
              for _, whose, does_cut in steps if does_cut]
        asked = "none" if layer.crop is None else rectangle_text(layer.crop)
        return Value("area", asked, rectangle_text(steps[-1][0]), "clipped by " + ", ".join(by) if by else "")

    def alpha_value(self, layer, way):
        computed = self.alpha_of(layer.number)
        return Value("alpha", str(layer.alpha), str(computed), alphas_text(way) if computed != layer.alpha else "")

    # Which layer is in front of which.

    def draw_path(self, number):
        """A layer with those that it is drawn with, from the root."""
        path = []
        while number in self.written and number not in path:
            path.append(number)
            layer = self.written[number]
            number = layer.parent if layer.relative is None else layer.relative
        return path[::-1]

    def order_text(self, front, back):
        """Why a layer that shows is painted after another one."""
        of_front, of_back = self.draw_path(front), self.draw_path(back)
        shared = next((at for at, pair in enumerate(zip(of_front, of_back)) if pair[0] != pair[1]), min(len(of_front), len(of_back)))
        if shared == len(of_back):
            child = self.written[of_front[shared]]
            return f"{self.branch(front, child)} is drawn with {layer_name(back)} and has z {child.z}, not below 0"
        if shared == len(of_front):
            child = self.written[of_back[shared]]
            return f"{self.branch(back, child)} is drawn with {layer_name(front)} and has z {child.z}, below 0"
        one, other = self.written[of_front[shared]], self.written[of_back[shared]]
        where = f"of {layer_name(of_front[shared - 1])}" if shared else "at the root"
        if one.z != other.z:
            return f"{self.branch(front, one)} has z {one.z} {where}, and {self.branch(back, other)} has z {other.z}"
        return f"{self.branch(front, one)} and {self.branch(back, other)} both have z {one.z} {where}, and {layer_name(one.number)} was created later"

    def branch(self, number, child):
        """A layer, or the one that it is drawn with."""
        return layer_name(number) if child.number == number else f"{layer_name(child.number)}, which {layer_name(number)} is drawn with,"

    # How a pixel comes about.

    def painted(self, x, y):
        """What each layer does to a pixel, from the back to the front."""
        below, steps = painting.BLACK, []
        for told, layer in zip(self.output.drawn, self.drawn):
            if layer.has(x, y):
                colour = next(colour for start, end, colour in self.asked.painter.parts(layer, y) if start <= x < end)
                after = painting.over(below, colour, layer.alpha)
                lets = OPAQUE - painting.mul(colour[3], layer.alpha)
                adds = bytes(painting.mul(channel, layer.alpha) for channel in colour)
                steps.append(Painted(told.layer, told.mirror, "buffer" if told.content else "colour", told.content.picture if told.content else None,
                                     colour.hex(), layer.alpha, adds.hex(), lets, below.hex(), after.hex(), not any(adds), lets == 0))
                below = after
        return steps


def asked_of(records, script):
    """A run of a script to be asked about, or None where the stream has no run. Raises NoCourse where it is none of the script."""
    return Asked(records, script) if any(record.tag == "SCEN" and record.fields is not None for record in records) else None


class Asked:
    """A run of a script that questions are asked about."""

    def __init__(self, records, script):
        self.course = Course(records, script)
        self.scene = self.course.reader.scene
        self.painter = painting.Painter(self.scene.pictures)

    @cached_property
    def origins(self):
        return Origins(self.course)

    @cached_property
    def ways(self):
        return ways_of(self.course)

    @cached_property
    def waiting(self):
        return Waiting(self)

    def looked(self, at, of_place=0):
        """What a place shows at a moment, both by their places in the course."""
        return Looked(self, at, of_place)

    def as_painted(self, drawn):
        """A layer as the painter has it."""
        left, top, width, height = drawn.clip
        sides = left, top, left + width, top + height
        if drawn.content is None:
            return painting.Drawn(*sides, drawn.alpha, drawn.opaque, bytes.fromhex(drawn.colour))
        number, crop = drawn.content.picture, drawn.content.crop
        across, down = painting.corner_of(crop, self.scene.pictures[number][:2], drawn.orient)
        return painting.Drawn(*sides, drawn.alpha, drawn.opaque, None, number, drawn.orient, drawn.place[0] - across, drawn.place[1] - down)

    def refusal_text(self, actor, step, status):
        """Why a step was refused."""
        refusal = self.course.reader.refusals.get((actor, step))
        of_queue = (run.reasons.get((actor, step)) for run in self.course.runs.values())
        why = refusal.why if refusal and refusal.why else next(filter(None, of_queue), None)
        return f"{named(STATUSES, status)}: {why or REFUSALS.get(status, 'refused')}"

    def absence_text(self, number, at):
        """Why a layer is not there at a moment."""
        gone, made = self.origins.destroyed(number, at), self.origins.created(number)
        if gone:
            return f"it was destroyed at vsync {gone.vsync} ({gone.line_text()})"
        later = [origin for origin in made if origin.place > at]
        if later:
            return f"it is created only at vsync {later[0].vsync} ({later[0].line_text()})"
        return "no committed transaction creates it"
