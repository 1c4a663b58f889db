"""A run as trace events with the words of its script, and with arrows for what led to what: from the step that queued a frame over those
that acquired and applied it to its commit and the frame that shows it, and from what a transaction or a step waited for to its end."""

from surbeldoi.asking.times import PART, Times
from surbeldoi.asking.waiting import COMPOSITOR as BY_COMPOSITOR
from surbeldoi.records.timeline import (ACTORS, COMPOSITOR, FRAMES, HELD, REJECTED, TOKENS, VSYNCS, counter_event, fixed_tracks, frame_events, further_events,
                                        history_events, in_order, instant_event, microseconds, slice_event, token_threads, trace, track_name)
from surbeldoi.records.wording import STATUSES, named
from surbeldoi.view.viewing import values_text

# The track of the transactions of a token that wait has the number of the token's commits, and so many more.
WAITING = 1 << 20


class Flow:
    """Arrows through slices: each of `points` is a time in nanoseconds with a process and a thread that have a slice there."""

    def __init__(self, name, category, points):
        self.name, self.category, self.points = name, category, points

    def events(self, number):
        """The events of the arrows; none where fewer than two points are left, or where one would go backwards."""
        points = [point for point in self.points if point]
        if len(points) < 2 or any(later[0] < earlier[0] for earlier, later in zip(points, points[1:])):
            return
        kinds = ["s"] + ["t"] * (len(points) - 2) + ["f"]
        for kind, (time, process, thread) in zip(kinds, points):
            event = {"name": self.name, "cat": self.category, "ph": kind, "id": number, "ts": microseconds(time), "pid": process, "tid": thread}
            yield {**event, "bp": "e"} if kind == "f" else event


def threads_of(tokens):
    """The track of each token's commits, by rising token."""
    return {token: TOKENS + place for place, token in enumerate(sorted(tokens))}


class Traced:
    """The trace of a run."""

    def __init__(self, asked):
        self.asked, self.course, self.waiting = asked, asked.course, asked.waiting
        self.records = self.course.records
        self.times = Times(self.waiting)
        self.tokens = threads_of({arrival.token for arrival in self.course.reader.arrivals.values()}.union(token_threads(self.records)))
        self.waits = {number: self.waiting.waits_of(number) for number in self.course.reader.arrivals}
        self.commits = {commit.arrival: self.commit_time(moment, place)
                        for moment in self.course.moments for place, commit in enumerate(moment.commits)}

    def commit_time(self, moment, place):
        """From when to when a vsync commits one of its transactions."""
        span = self.times.period // PART // (len(moment.commits) + 1)
        return moment.time + span * place, moment.time + span * (place + 1)

    def events(self):
        """All events: the names of the tracks, and then the others by their times."""
        yield from fixed_tracks(self.records, self.tokens)
        for token, thread in self.tokens.items():
            yield from track_name(COMPOSITOR, WAITING + thread, f"token {token} waits")
        yield from self.step_events()
        yield from self.vsync_events()
        yield from self.waiting_events()
        for record in self.records:
            if record.tag == "HIST":
                yield from history_events(record.fields, self.times)
        yield from frame_events([record.fields for record in self.records if record.tag == "FRAM"], self.times)
        yield from further_events(self.records, self.times)
        for number, flow in enumerate(self.flows(), 1):
            yield from flow.events(number)

    # Slices.

    def step_events(self):
        """Each step by its words, and the time that it waited before."""
        for (actor, number), reply in self.waiting.replies.items():
            step, start = self.course.script.step(actor, number), self.times.steps[actor, number]
            name = step.text() + ("" if reply.status == 0 else f": {named(STATUSES, reply.status)}")
            details = {"actor": actor, "step": number, "line": step.line, "status": named(STATUSES, reply.status), "values": values_text(step.words[0], reply.values)}
            yield slice_event(name, "reply", start, start + self.times.spans[actor, number], ACTORS, actor, **details)
        for actor, number, since, until in self.step_waits():
            yield self.step_wait_event(actor, number, since, until)
        for actor, number in self.course.run.stuck:
            step = self.course.script.step(actor, number)
            yield instant_event(f"stuck: {step.text()}", "stuck", self.times.end, ACTORS, actor, actor=actor, step=number, line=step.line)

    def step_waits(self):
        """The steps that had to wait, each with the times from when on and until when."""
        turns = self.waiting.turns
        for (actor, number), vsyncs in turns.waited.items() if turns else ():
            before = self.times.steps.get((actor, number - 1), 0) + self.times.spans.get((actor, number - 1), 0)
            since = max(before, vsyncs * self.times.period)
            until = self.times.steps.get((actor, number), self.times.end)
            if since < until:
                yield actor, number, since, until

    def step_wait_event(self, actor, number, since, until):
        step, need = self.course.script.step(actor, number), self.waiting.step_wait(actor, number)
        return slice_event(f"waits: {step.text()}", "wait", since, until, ACTORS, actor, actor=actor, step=number, line=step.line, why=need.text if need else "")

    def vsync_events(self):
        """Each vsync with what it commits and rejects, and those without a record with what they leave waiting."""
        told = {moment.number: moment for moment in self.course.moments if moment.number is not None and not moment.is_silent}
        period = self.times.period
        for number in sorted({*told, *self.waiting.vsyncs()}):
            moment, held = told.get(number), self.held_at(number)
            if moment is None and not held:
                continue
            yield slice_event(f"vsync {number}" + ("" if moment else ": nothing new"), "vsync", number * period, (number + 1) * period, COMPOSITOR, VSYNCS,
                              number=number, waiting=[f"arrival {arrival}: {need.text}" for arrival, need in held])
            for timeline, value in moment.timelines.items() if moment else ():
                yield counter_event(f"timeline {timeline}", number * period, value)
            for commit in moment.commits if moment else ():
                yield self.commit_event(commit)

    def held_at(self, vsync):
        """The transactions that a vsync left waiting, and why."""
        return [(number, wait.need) for number, waits in self.waits.items() for wait in waits if wait.first <= vsync <= wait.last]

    def commit_event(self, commit):
        start, end = self.commits[commit.arrival]
        arrival = self.course.reader.arrivals.get(commit.arrival)
        details = {"token": commit.token, "arrival": commit.arrival, "by": self.waiting.arrival_text(commit.arrival),
                   "layers": sorted({operation.layer for operation in arrival.operations}) if arrival else []}
        if commit.cause:
            name = f"arrival {commit.arrival} rejected at operation {commit.operation}: {commit.cause}"
            return slice_event(name, "reject", start, end, COMPOSITOR, REJECTED, **details)
        return slice_event(f"arrival {commit.arrival} committed", "commit", start, end, COMPOSITOR, self.tokens[commit.token], **details)

    def waiting_events(self):
        """How long each transaction waits, and for what: of a token one behind the other, as the one before is taken."""
        free = {}
        for number, waits in sorted(self.waits.items()):
            arrival = self.course.reader.arrivals[number]
            for wait in waits:
                since = max(wait.first * self.times.period, free.get(arrival.token, 0))
                until = min((wait.last + 1) * self.times.period, self.times.end)
                if since < until and wait.need.kind != "Behind":
                    free[arrival.token] = until
                    yield slice_event(f"arrival {number} waits ({wait.need.kind})", "held", since, until, COMPOSITOR, WAITING + self.tokens[arrival.token],
                                      arrival=number, why=wait.need.text)
        for number, *_ in self.course.run.held:
            yield instant_event(f"arrival {number} is held", "held", self.times.end, COMPOSITOR, HELD, arrival=number, why=self.waiting.held_text(number))

    # Arrows.

    def flows(self):
        """All arrows, a chain each."""
        for way in self.asked.ways.values():
            yield Flow(f"queue {way.queue} frame {way.frame}", "frame", [self.of_step(way.queued), self.of_step(way.acquired), *self.of_arrival(way.arrival)])
        for number, arrival in self.course.reader.arrivals.items():
            for doer in self.doers(number, arrival):
                yield Flow(f"arrival {number} waits for it", "wait", [self.of_step((doer.actor, doer.step)), self.of_commit(number)])
        for actor, number, *_ in self.step_waits():
            need = self.waiting.step_wait(actor, number)
            for doer in (doer for doer in need.by if doer.is_done) if need else ():
                yield Flow(f"actor {actor} waits for it", "wait", [self.of_doer(doer), self.of_step((actor, number))])

    def doers(self, number, arrival):
        """Who did what a transaction waited for; in a live run, what it needed."""
        needs = self.waiting.needs_of(arrival) if self.course.is_live else [wait.need for wait in self.waits[number]]
        return [doer for need in needs for doer in need.by if doer.is_done]

    def of_step(self, step):
        """A point in the slice of a step."""
        if step is None or step not in self.times.steps:
            return None
        return self.times.steps[step] + self.times.spans[step] // 2, ACTORS, step[0]

    def of_doer(self, doer):
        """A point in the slice of a step, or of a vsync."""
        if doer.actor != BY_COMPOSITOR:
            return self.of_step((doer.actor, doer.step))
        return self.times.of_caller(BY_COMPOSITOR, doer.step), COMPOSITOR, VSYNCS

    def of_commit(self, number):
        """A point in the slice of a commit."""
        if number not in self.commits:
            return None
        (start, end), (_, commit) = self.commits[number], self.waiting.taken[number]
        return (start + end) // 2, COMPOSITOR, REJECTED if commit.cause else self.tokens[commit.token]

    def of_arrival(self, number):
        """Points in the slices of the step that applied a transaction, of its commit, and of the frame that shows it."""
        if number is None:
            return
        arrival = self.course.reader.arrivals[number]
        yield self.of_step((arrival.actor, arrival.step))
        yield self.of_commit(number)
        moment, commit = self.waiting.taken.get(number, (None, None))
        if moment and commit.cause is None and moment.outputs and moment.outputs[0].is_new:
            yield moment.time + self.times.period // PART, COMPOSITOR, FRAMES


def trace_of(records, asked):
    """The trace of a run with the words of its script, as an object that becomes JSON; that without where there is no run to be asked about."""
    return {"displayTimeUnit": "ms", "traceEvents": in_order(Traced(asked).events())} if asked else trace(records)
