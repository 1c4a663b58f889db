"""A run followed from vsync to vsync: after each the layer tree, what was committed, what waits and why, and how far each
actor is.

Each vsync is a moment, and the last moment is the end of the run. Only vsyncs that commit or reject something have records: where
the others stand is told by surbeldoi.view.silent. A live run writes its replies behind the last vsync: when its actors did their
steps is not told, and so neither is what waited before the end.
"""

import copy
from collections import Counter, deque
from functools import partial
from typing import NamedTuple, Optional

from surbeldoi.model.arrivals import Misfit
from surbeldoi.model.holds import Seen, why_held
from surbeldoi.model.outputs import on_stack
from surbeldoi.model.painting import Placements, clip_of
from surbeldoi.model.runs import Commits, reader_of, runs_of
from surbeldoi.model.trees import cut, draw_order, outline, written
from surbeldoi.model.waits import Waiting, Waits, makers_of
from surbeldoi.records.stream import OUTPUTS, OWN_DISPLAY, Contents, place_of
from surbeldoi.records.summing import REASONS, Run
from surbeldoi.records.wording import HOLDS, REJECTIONS
from surbeldoi.script.declarations import read_declarations
from surbeldoi.script.scenes import NoScene, read_scene
from surbeldoi.script.scripts import read_script
from surbeldoi.view.silent import silent_in_live, silent_in_play


class NoCourse(Exception):
    """Records and script tell no run together."""


NOT_OF_SCRIPT = "the script is not the one of these records"
# The records that stand behind that of a vsync.
BEHIND_VSYNC = ("COMM", *OUTPUTS)


class Content(NamedTuple):
    """The frame that a layer shows: its queue and number, its picture, the crop of it that shows, and the name by which the
    actor that showed it had it."""

    queue: int
    frame: int
    picture: int
    crop: tuple
    name: str


class Drawn(NamedTuple):
    """A layer as it is painted: its place, what of the display it covers, its alpha with those above it, and what it shows. Of a copy
    `layer` is the original, and `mirror` the mirror that shows it."""

    layer: int
    mirror: Optional[int]
    place: tuple
    clip: tuple
    alpha: int
    opaque: bool
    orient: int
    colour: Optional[str]
    content: Optional[Content]


class Commit(NamedTuple):
    """A transaction that a vsync took: its arrival, and where it was rejected the place of the operation and the cause."""

    arrival: int
    token: int
    operation: int
    cause: Optional[str]


class Hold(NamedTuple):
    """A transaction that waits: its arrival, the name of the hold and what it comes from."""

    arrival: int
    name: str
    text: str


class Reply(NamedTuple):
    """The reply to a step, with the number of vsyncs before it."""

    actor: int
    step: int
    status: int
    values: list
    moment: int


class Place(NamedTuple):
    """What shows images: the own display, a further one or a capture, by its tag and number, with its size; and the stack of a
    display, or the layer of a capture."""

    of: tuple
    width: int
    height: int
    shows: int

    def is_capture(self):
        return self.of[0] == "CAPT"


class Output(NamedTuple):
    """What a place shows at a moment: the last image's place among all images, or None; whether it came with this vsync; whether a
    later one should have come, as in a stream that was cut off; and how it is painted, None where that is not known. Of a layer
    that is not there, a capture shows nothing."""

    frame: Optional[int]
    is_new: bool
    is_missing: bool
    drawn: Optional[list]


class Moment:
    """What there is after a vsync, or at the end, where `number` is None: what it took, which transactions and which actors
    wait, the layers, what each place shows, and the layer that each hit met last. `outline` is None where the records do not
    tell the tree. A vsync is silent that took nothing, and so has no record."""

    def __init__(self, number, time, timelines, is_silent=False):
        self.number, self.time, self.timelines, self.is_silent = number, time, timelines, is_silent
        self.commits, self.held, self.waits, self.outline, self.outputs, self.hits = [], [], [], None, [], {}


class Queue(NamedTuple):
    """A queue: its calls, each with the number of vsyncs before it, and what they do to its slots; and from where on that is not known,
    if so."""

    number: int
    calls: list
    moments: list
    changes: list
    fault: Optional[str]


class Course:
    """The moments of a run."""

    def __init__(self, records, script):
        self.records = [record for record in records if record.fields is not None]
        self.script = read_script(script)
        self.scene = next((record.fields for record in self.records if record.tag == "SCEN"), None)
        if self.scene is None:
            raise NoCourse("the stream has no run")
        self.run = Run(records, self.script)
        self.declarations = read_declarations(script)
        tags = [record.tag for record in self.records]
        self.is_live = "REPL" in tags and "VSYN" in tags and tags.index("VSYN") < tags.index("REPL")
        self.replies, self.moments, self.frames = [], [], Contents()
        # The last image of each place; which places have one of this vsync; and which should have one and have none.
        self.places, self.last, self.new, self.missing = self.places_shown(), {}, set(), set()
        self.shown, self.latched, self.committed, self.names = {}, set(), set(), {}
        try:
            self.new_reader = partial(reader_of, records, self.script, read_scene(script))
            self.reader = self.new_reader()
            self.run.check_steps()
            self.silent = self.silent_vsyncs()
            self.runs = runs_of(records, self.reader)
            self.commits = Commits(self.reader.scene, self.runs)
            self.follow()
        except NoScene as fault:
            raise NoCourse(f"the script is no scene: {fault}") from fault
        except Misfit as fault:
            raise NoCourse(f"{NOT_OF_SCRIPT}: {fault}") from fault
        for run in self.runs.values():
            run.follow()
        self.queues = [self.queue(number, calls) for number, calls in self.run.histories.items()]
        self.end()

    @property
    def fault(self):
        """What of the tree could not be rebuilt, if something could not."""
        return self.commits.fault

    @property
    def layers(self):
        """The layers that are there now, by number."""
        return self.commits.stage.tree

    def places_shown(self):
        """What shows images, in the order in which a vsync writes them."""
        declared, own = self.declarations, self.scene
        displays = (Place(("FRAD", number), *display) for number, display in sorted(declared.displays.items()))
        captures = (Place(("CAPT", number), width, height, layer) for number, (layer, width, height) in sorted(declared.captures.items()))
        return [Place(OWN_DISPLAY, own["width"], own["height"], 0), *displays, *captures]

    def silent_vsyncs(self):
        """The vsyncs without a record."""
        if self.is_live:
            return silent_in_live(self.records)
        return silent_in_play(self.reader.scene, self.records, any(record.tag == "DONE" for record in self.records))

    # The replies.

    def take_replies(self):
        """All replies, each with the number of vsyncs before it."""
        moment, silent = 0, Counter(place for place, _ in self.silent.found)
        for place, record in enumerate(self.records):
            moment += silent[place] + (record.tag == "VSYN")
            if record.tag == "REPL":
                fields = record.fields
                yield Reply(fields["actor"], fields["step"], fields["status"], [value for (value,) in fields["values"]], moment)

    def read_reply(self, reply):
        self.replies.append(reply)
        self.reader.read(*reply)

    # The vsyncs.

    def follow(self):
        replies, silent = self.take_replies(), deque(self.silent.found)
        if self.is_live:
            for reply in replies:
                self.read_reply(reply)
        for place, (record, following) in enumerate(zip(self.records, self.records[1:] + [None])):
            self.pass_silent(silent, place)
            if record.tag == "REPL" and not self.is_live:
                self.read_reply(next(replies))
            elif record.tag == "VSYN":
                self.begin(record.fields)
            elif record.tag == "COMM" and self.moments:
                self.commit(record.fields)
            elif record.tag in OUTPUTS and self.moments:
                self.show(record.tag, record.fields)
            if record.tag in ("VSYN", *BEHIND_VSYNC) and self.moments and (following is None or following.tag not in BEHIND_VSYNC):
                self.settle()
        self.pass_silent(silent, len(self.records))

    def pass_silent(self, silent, place):
        """The silent vsyncs that stand before the record at this place."""
        while silent and silent[0][0] <= place:
            number = silent.popleft()[1]
            last, timelines = self.moments[-1] if self.moments else None, self.reader.signalled
            moment = Moment(number, number * self.scene["period"], {one: timelines.get(one, 0) for one in self.reader.scene.timelines}, True)
            self.moments.append(moment)
            self.latched, self.new = set(), set()
            if last is None:
                self.note_tree(moment)
            else:
                moment.hits, moment.outline = last.hits, last.outline
                moment.outputs = [output._replace(is_new=False) for output in last.outputs]
            if not self.is_live:
                moment.held = self.held_at(moment)

    def begin(self, fields):
        hits = dict(self.moments[-1].hits) if self.moments else {}
        self.moments.append(Moment(fields["number"], fields["expected"], dict(fields["timelines"])))
        self.moments[-1].hits, self.latched, self.new = hits, set(), set()
        self.commits.begin(fields["number"])

    def commit(self, fields):
        number, result = fields["arrival"], fields["result"]
        self.committed.add(number)
        cause = REJECTIONS.get(result, f"cause {result}") if result else None
        self.moments[-1].commits.append(Commit(number, fields["token"], fields["operation"], cause))
        if not result:
            for layer, _, frame, *_ in fields["buffers"]:
                self.shown[layer] = max(frame, self.shown.get(layer, 0))
                self.latched.add(layer)
        arrival = self.reader.arrivals.get(number)
        self.commits.take(arrival, fields)
        for operation in arrival.operations if arrival else ():
            if operation.frame:
                self.names[operation.frame] = self.script.step(operation.actor, operation.step).words[3]

    def show(self, tag, fields):
        """Notes an image, or the layer that a hit meets."""
        if tag == "HITS":
            self.moments[-1].hits[fields["hit"]] = fields["layer"]
            return
        of = place_of(tag, fields)
        self.frames.append(fields["pixels"])
        self.last[of] = len(self.frames) - 1
        self.new.add(of)

    def settle(self):
        """Notes what there is once a vsync has done all."""
        moment = self.moments[-1]
        if any(commit.cause is None for commit in moment.commits):
            self.missing = {place.of for place in self.places if place.of not in self.new and not self.shows_nothing(place)}
        self.note_tree(moment)
        if not self.is_live:
            moment.held = self.held_at(moment)

    def shows_nothing(self, place):
        """Whether a place is a capture of a layer that is not there, as far as that is known."""
        return place.is_capture() and (self.fault is not None or place.shows not in self.layers)

    def note_tree(self, moment):
        """Notes the layers, and what each place shows of them."""
        if not self.fault:
            moment.outline = [(layer._replace(content=self.content_of(layer)), depth) for layer, depth in outline(self.layers)]
        whole = written(self.layers, self.declarations.mirrors)
        placements, order = Placements(whole), draw_order(whole)
        for place in self.places:
            is_gone = not self.fault and self.shows_nothing(place)
            layers = None if self.fault else self.drawn_at(place, placements, order)
            moment.outputs.append(Output(None if is_gone else self.last.get(place.of), place.of in self.new, place.of in self.missing, layers))

    def content_of(self, layer):
        """What a layer shows; None where it is no frame."""
        frame = layer.content
        return Content(frame.queue, frame.frame, frame.picture, frame.crop, self.names.get((frame.queue, frame.frame), "")) if frame else None

    def drawn_at(self, place, placements, order):
        """How the layers that a place shows are painted, where those of displays are placed like this."""
        if place.is_capture():
            if self.shows_nothing(place):
                return []
            part = cut(self.layers, place.shows)
            placements, order = Placements(part), draw_order(part)
        else:
            order = on_stack(self.declarations.stacks, placements, order, place.shows)
        return [self.drawn(layer, placements.of(layer), place) for layer in order if layer.has_content()]

    def drawn(self, layer, placed, place):
        """How a layer is painted at a place."""
        mirror, number = layer.number if isinstance(layer.number, tuple) else (None, layer.number)
        left, top, right, bottom = clip_of(layer, placed, place.width, place.height)
        orient, colour, content = (0, layer.colour, None) if layer.kind == "colour" else (layer.orient, None, self.content_of(layer))
        return Drawn(number, mirror, (placed.x, placed.y), (left, top, max(0, right - left), max(0, bottom - top)), placed.alpha, layer.opaque, orient, colour,
                     content)

    # What waits.

    def pending(self):
        """The arrivals that are not committed yet, and of each token the first."""
        waiting = [arrival for number, arrival in sorted(self.reader.arrivals.items()) if number not in self.committed]
        first = {}
        for arrival in waiting:
            first.setdefault(arrival.token, arrival.number)
        return waiting, first

    def held_at(self, moment):
        """Why each arrival waits that this vsync left."""
        if len(self.committed) >= len(self.reader.arrivals):
            return []
        waiting, first = self.pending()
        seen = Seen(moment.time, moment.timelines, self.reader.frames, len(self.moments) - 1, self.shown, self.layers, self.latched, first)
        told = copy.copy(self.run)
        told.arrivals = {number: (arrival.actor, arrival.step, arrival.token) for number, arrival in self.reader.arrivals.items()}
        told.reached, told.shown, told.first_held = Counter(moment.timelines), dict(self.shown), first
        told.queued = {frame: queued.by for frame, queued in self.reader.frames.items()}
        return [self.hold_of(arrival.number, why_held(arrival, seen), told) for arrival in waiting]

    def hold_of(self, number, hold, told):
        """Why an arrival waits, by its hold with two values, and by what is told of the run at that time."""
        if hold is None or hold[0] not in HOLDS:
            return Hold(number, "", "the records do not tell why")
        name = HOLDS[hold[0]]
        text = self.fence_text(told, *hold[1:]) if name == "Fence" else REASONS[name](told, number, *hold[1:])
        return Hold(number, name, text)

    def fence_text(self, told, timeline, value):
        """The point that a frame waits for, and the step that would bring it about."""
        by = next(((actor, number) for actor, steps in self.script.steps.items() for number, step in enumerate(steps, 1)
                   if step.words[0] == "signal" and int(step.words[1]) == timeline and int(step.words[2]) >= value), None)
        return (f"a frame's fence is not signalled: {told.point_text(timeline, value)}; "
                + (f"it is raised by {told.step_text(*by)}" if by else "no step raises it so far"))

    # The queues.

    def moment_of(self):
        """The number of vsyncs before each step, and the place of each vsync."""
        steps = {(reply.actor, reply.step): reply.moment for reply in self.replies}
        vsyncs = {moment.number: place for place, moment in enumerate(self.moments)}
        return steps, vsyncs

    def queue(self, number, calls):
        steps, vsyncs = self.moment_of()
        last, moments = len(self.moments), []
        for caller, step, *_ in reversed(calls):
            if caller == 0:
                last = vsyncs.get(step, last)
            elif not self.is_live:
                last = min(last, steps.get((caller, step), last))
            moments.append(last)
        return Queue(number, calls, moments[::-1], self.runs[number].changes, self.runs[number].fault)

    # The end.

    def end(self):
        """Adds the end of the run, and of each moment who waits."""
        last = self.moments[-1] if self.moments else None
        self.run.reached = Counter(self.reader.values)
        end = Moment(None, None, dict(self.run.reached))
        self.new = set()
        self.note_tree(end)
        end.hits = last.hits if last else {}
        end.held = [self.hold_of(arrival, tuple(hold), self.run) for arrival, *hold in self.run.held]
        waiting = Waiting(self.reader, makers_of(self.reader.attachings), {number: run.queue for number, run in self.runs.items()})
        end.waits = [(actor, step, waiting.why_at(actor, step)) for actor, step in self.run.stuck]
        self.moments.append(end)
        if not self.is_live:
            Waits(self).note()
