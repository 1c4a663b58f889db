"""Answers to questions about a run, as values that become JSON: why a pixel has its colour, why a layer shows as it does, why a transaction or a
step waits, and what a vsync changed."""

from surbeldoi.asking.changes import Changes
from surbeldoi.asking.covering import overlap
from surbeldoi.asking.places import place_name
from surbeldoi.asking.reasons import NotTold
from surbeldoi.view.viewing import values_text

OWN = ("FRAM", 0)
# The properties of a layer that come from a line each, by the names that they have among what is computed.
LINES = {"order": "z", "position": "position", "area": "crop", "alpha": "alpha", "shown": "hidden"}


def origin_data(origin):
    """The operation that something comes from."""
    return None if origin is None else {"line": origin.line, "text": origin.text, "actor": origin.actor, "step": origin.step,
                                        "arrival": origin.arrival, "vsync": origin.vsync}


class Answers:
    """Answers questions about a run."""

    def __init__(self, asked):
        self.asked, self.course, self.waiting = asked, asked.course, asked.waiting

    # What is asked.

    def moment_at(self, vsync):
        """The place of the moment that shows what there is after a vsync, the end where none is named."""
        if vsync is None:
            return len(self.course.moments) - 1
        places = [at for at in self.recorded() if self.course.moments[at].number <= vsync]
        if not places:
            first = next((self.course.moments[at].number for at in self.recorded()), None)
            raise NotTold(f"no vsync up to {vsync} committed or rejected anything" + (f": the first that did is vsync {first}" if first is not None else ""))
        return places[-1]

    def recorded(self):
        """The places of the moments of vsyncs that committed or rejected something."""
        return [at for at, moment in enumerate(self.course.moments) if moment.number is not None and not moment.is_silent]

    def place_at(self, of):
        """The place of a display or a capture among those that show images."""
        places = [place.of for place in self.course.places]
        if of not in places:
            raise NotTold(f"the scene has no {'display' if of[0] == 'FRAD' else 'capture'} {of[1]}")
        return places.index(of)

    def when(self, at, vsync):
        """Which vsync a moment is of, and which one was asked for."""
        number = self.course.moments[at].number
        recorded = [self.course.moments[place].number for place in self.recorded()]
        return {"vsync": number if number is not None else recorded[-1] if recorded else None, "asked": vsync, "is_end": number is None}

    # Pixels.

    def pixel(self, x, y, vsync=None, of=OWN):
        """How a pixel came about."""
        at, of_place = self.moment_at(vsync), self.place_at(of)
        looked, place = self.asked.looked(at, of_place), self.course.places[of_place]
        if not (0 <= x < place.width and 0 <= y < place.height):
            raise NotTold(f"{x} {y} is outside of {place_name(place)}, which has {place.width} x {place.height} pixels")
        painted = looked.painted(x, y)
        steps = [self.painted_data(looked, step, before) for step, before in zip(painted, [None, *painted])]
        frame = looked.output.frame
        start = 4 * (y * place.width + x)
        shown = {step["layer"] for step in steps}
        return {"ask": "pixel", "x": x, "y": y, "place": place_name(place), **self.when(at, vsync), "begins": "000000ff", "steps": steps,
                "ends": steps[-1]["after"] if steps else "000000ff", "told": None if frame is None else self.course.frames[frame][start:start + 4].hex(),
                "elsewhere": [self.elsewhere(looked, number) for number in sorted(looked.there) if number not in shown and looked.there[number].kind != "container"]}

    def painted_data(self, looked, step, before):
        """What a layer does to a pixel, behind which another one did something to it."""
        name = "content" if step.kind == "buffer" else "colour"
        return {**step._asdict(), "origin": origin_data(self.asked.origins.of(step.layer, name, looked.at)),
                "order": looked.order_text(step.key(), before.key()) if before else ""}

    @staticmethod
    def elsewhere(looked, number):
        """Why a layer has nothing at a point."""
        reason = looked.not_shown(number) if number not in looked.places else None
        if reason:
            return {"layer": number, "why": reason.text}
        *_, (area, _, _) = looked.cuts(number)
        return {"layer": number, "why": "it covers {2} x {3} at {0} {1}".format(*area)}

    # Layers.

    def layer(self, number, vsync=None, of=OWN, over=None):
        """Why a layer shows as it does, or not at all."""
        at, of_place = self.moment_at(vsync), self.place_at(of)
        looked, origins = self.asked.looked(at, of_place), self.asked.origins
        reason, layer = looked.not_shown(number), looked.there.get(number)
        content = layer.content if layer else None
        return {
            "ask": "layer", "layer": number, "place": place_name(looked.place), **self.when(at, vsync), "kind": layer.kind if layer else None,
            "is_shown": reason is None, "why": {**reason._asdict(), "origin": origin_data(looked.origin_of(reason))} if reason else None,
            "created": origin_data(origins.of(number, "create", at)) if layer else None,
            "frame": {"queue": content.queue, "frame": content.frame, "picture": content.picture, "crop": list(content.crop),
                      "origin": origin_data(origins.of(number, "content", at))} if content else None,
            "colour": {"value": layer.colour, "origin": origin_data(origins.of(number, "colour", at))} if layer and layer.kind == "colour" else None,
            "values": [{**value._asdict(), "origin": self.set_by(number, LINES[value.name], at)} for value in looked.computed(number)],
            "copies": sorted({drawn.mirror for drawn in looked.output.drawn if drawn.layer == number and drawn.mirror is not None}),
            "below": sorted(other for other, one in looked.there.items() if one.parent == number), "in_front_of": self.in_front_of(looked, number, over),
        }

    def set_by(self, number, name, at):
        """The operation that set a property, None where the layer has it from its `create`."""
        origin = self.asked.origins.of(number, name, at)
        return None if origin is None or origin.text.split()[3:4] == ["create"] else origin_data(origin)

    def in_front_of(self, looked, number, over):
        """The layers that share pixels with a layer and are painted before it, the nearest first, or the one asked for; each with the reason."""
        at = looked.places.get(number)
        if over is not None:
            return [self.compared(looked, number, over)]
        if at is None:
            return []
        mine = looked.drawn[at]
        return [{"layer": looked.output.drawn[other].layer, "is_in_front": True, "why": looked.order_text(looked.key(at), looked.key(other))}
                for other in range(at - 1, -1, -1) if looked.output.drawn[other].mirror is None and overlap(mine, looked.drawn[other])]

    @staticmethod
    def compared(looked, number, other):
        """Which of two layers that are shown is in front, and why."""
        for one in (number, other):
            if one not in looked.places:
                reason = looked.not_shown(one)
                raise NotTold(f"layer {one} is not shown, so none is in front of the other: {reason.text if reason else ''}")
        is_in_front = looked.places[number] > looked.places[other]
        return {"layer": other, "is_in_front": is_in_front, "why": looked.order_text(*((number, other) if is_in_front else (other, number)))}

    # Transactions.

    def arrival(self, number, vsync=None):
        """Why a transaction waits, and when that ends."""
        arrival = self.course.reader.arrivals.get(number)
        if arrival is None:
            raise NotTold(f"the run has {len(self.course.reader.arrivals)} arrivals, and none is arrival {number}")
        waits = [wait for wait in self.waiting.waits_of(number) if vsync is None or wait.first <= vsync <= wait.last]
        moment, commit = self.waiting.taken.get(number, (None, None))
        at_end = None if moment else self.waiting.need_at_end(arrival)
        return {
            "ask": "arrival", "arrival": number, "token": arrival.token, "by": self.waiting.doer(arrival.actor, arrival.step)._asdict(),
            "asked": vsync, "waits": [wait_data(wait) for wait in waits], "at_end": need_data(at_end) if at_end else None,
            "needs": [need_data(need) for need in self.waiting.needs_of(arrival)] if self.course.is_live and moment else [],
            "taken": moment.number if moment else None, "rejected": self.rejected(arrival, commit),
            "behind": sorted(self.behind(arrival, moment)) if waits or at_end else [],
            "layers": sorted({operation.layer for operation in arrival.operations}),
            "lines": sorted({self.course.script.step(operation.actor, operation.step).line for operation in arrival.operations}),
            "is_live": self.course.is_live, "last": self.waiting.last,
        }

    def behind(self, arrival, moment):
        """The later transactions of its token that wait as long as a transaction does."""
        for other in self.course.reader.arrivals.values():
            before = self.waiting.vsyncs_before(other.actor, other.step)
            if other.token == arrival.token and other.number > arrival.number and (moment is None or before is not None and before < moment.number):
                yield other.number

    def rejected(self, arrival, commit):
        """Why a transaction was rejected, None where it was not."""
        if commit is None or commit.cause is None:
            return None
        operations = arrival.operations
        step = None
        if 0 < commit.operation <= len(operations):
            operation = operations[commit.operation - 1]
            step = self.waiting.doer(operation.actor, operation.step)._asdict()
        return {"operation": commit.operation, "cause": commit.cause, "by": step}

    # Steps.

    def step(self, actor, number):
        """Why a step waits or was refused, and when that ends."""
        step = self.course.script.step(actor, number)
        if step is None:
            steps = self.course.script.steps.get(actor)
            raise NotTold(f"the script has no actor {actor}" if steps is None else f"actor {actor} has {len(steps)} steps, and none is step {number}")
        reply = self.waiting.replies.get((actor, number))
        turns = self.waiting.turns
        waited = turns.waited.get((actor, number)) if turns else None
        is_stuck = any(stuck == (actor, number) for stuck in self.course.run.stuck)
        need = self.waiting.step_wait(actor, number) if waited is not None or is_stuck else None
        return {
            "ask": "step", "actor": actor, "step": number, "line": step.line, "text": step.text(),
            "status": None if reply is None else reply.status, "refused": self.asked.refusal_text(actor, number, reply.status) if reply and reply.status else None,
            "values": values_text(step.words[0], reply.values) if reply else "", "vsyncs": self.waiting.vsyncs_before(actor, number) if reply else None,
            "waited_from": waited, "need": need_data(need) if need else None, "is_stuck": is_stuck, "is_live": self.course.is_live,
            "stuck_at": next((stuck[1] for stuck in self.course.run.stuck if stuck[0] == actor), None),
            "way": self.way_data(actor, number, step.words[0], reply),
        }

    def way_data(self, actor, number, word, reply):
        """What became of the frame that a step queued, or of the transaction that it applied."""
        if reply is None or reply.status:
            return None
        way = next((way for way in self.asked.ways.values() if way.queued == (actor, number)), None) if word == "queue" else None
        if way:
            named = {name: None if step is None else self.waiting.doer(*step)._asdict() if step[0] else {"actor": 0, "step": step[1]}
                     for name, step in (("queued", way.queued), ("drawn", way.drawn), ("acquired", way.acquired), ("given_back", way.given_back))}
            return {**way._asdict(), **named}
        return None

    # Vsyncs.

    def vsync(self, vsync=None, since=None):
        """What a vsync changed, or all since an earlier one."""
        after, moments = self.moment_at(vsync), self.course.moments
        if vsync is None and self.recorded():
            after = self.recorded()[-1]
        before = self.before_of(after, vsync, since)
        changes = Changes(self.asked, before, after)
        return {
            "ask": "vsync", **self.when(after, vsync), "since": moments[before].number if before is not None else 0,
            "commits": [self.commit_data(commit) for moment in moments[(before + 1 if before is not None else 0):after + 1] for commit in moment.commits],
            "changes": [{**change._asdict(), "origin": origin_data(change.origin)} for change in changes.changes()],
            "effects": [effect._asdict() for effect in changes.effects()], "pixels": [pixels._asdict() for pixels in changes.pixels()],
            "held": self.held_at(moments[after], vsync),
        }

    def before_of(self, after, vsync, since):
        """The place of the moment that a later one is compared with: the one asked for, else the one before; of a vsync that changed nothing
        it is the later one itself. None is the beginning."""
        if since is not None:
            return self.moment_at(since) if since else None
        if vsync is not None and self.course.moments[after].number != vsync:
            return after
        return max((at for at in self.recorded() if at < after), default=None)

    def held_at(self, moment, vsync):
        """The transactions that a vsync left waiting, and why."""
        if self.course.is_live:
            return []
        number = vsync if vsync is not None else moment.number
        if number is None:
            return []
        return [{"arrival": arrival, **need_data(wait.need)} for arrival, waits in self.waiting.spans.items() for wait in waits if wait.first <= number <= wait.last]

    def commit_data(self, commit):
        arrival = self.course.reader.arrivals.get(commit.arrival)
        return {"arrival": commit.arrival, "token": commit.token, "by": self.waiting.doer(arrival.actor, arrival.step)._asdict() if arrival else None,
                "rejected": self.rejected(arrival, commit) if arrival else None}


def need_data(need):
    return {**need._asdict(), "by": [{**doer._asdict(), "sentence": doer.sentence()} for doer in need.by]}


def wait_data(wait):
    return {"first": wait.first, "last": wait.last, **need_data(wait.need)}
