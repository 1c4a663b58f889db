"""A run as trace events, for chrome://tracing and Perfetto.

Records tell when a vsync's frame is expected, and the order of everything else. So a vsync stands at
its time, and the steps before it are spread evenly, in their order, over the time since the vsync
before; a queue's call stands where its step or its vsync does.
"""

from collections import defaultdict

from surbeldoi.records.stream import OUTPUTS, place_of, place_text
from surbeldoi.records.wording import CALLS, HOLDS, NO_SLOT, REJECTS, STATUSES, call_name, caller_name, layer_text, named

COMPOSITOR, ACTORS, FURTHER, QUEUES = 1, 2, 3, 100
# The tracks of further displays, of captures and of hits: behind these, by their numbers.
OUTPUT_TRACKS = {"FRAD": 0, "CAPT": 10, "HITS": 20}
VSYNCS, FRAMES, REJECTED, HELD, TOKENS = 1, 2, 3, 4, 10
# The calls after which a slot is nobody's any more.
ENDING = (8, 9, 14, 15)


def slot_track(slot):
    """The track of a slot's calls in its queue, or of the calls without a slot. Viewers keep track 0 for themselves."""
    return (1, "calls without a slot") if slot == NO_SLOT else (slot + 2, f"slot {slot}")


def microseconds(nanoseconds):
    return nanoseconds / 1000


def slice_event(name, category, start, end, process, thread, **details):
    """An event that lasts from one time to another, in nanoseconds."""
    return {"name": name, "cat": category, "ph": "X", "ts": microseconds(start), "dur": microseconds(end - start),
            "pid": process, "tid": thread, "args": details}


def instant_event(name, category, time, process, thread, **details):
    """An event at a time, in nanoseconds."""
    return {"name": name, "cat": category, "ph": "i", "s": "t", "ts": microseconds(time),
            "pid": process, "tid": thread, "args": details}


def counter_event(name, time, value):
    return {"name": name, "cat": "timeline", "ph": "C", "ts": microseconds(time), "pid": COMPOSITOR, "args": {"value": value}}


def process_name(process, name):
    return [{"name": "process_name", "ph": "M", "pid": process, "args": {"name": name}},
            {"name": "process_sort_index", "ph": "M", "pid": process, "args": {"sort_index": process}}]


def track_name(process, thread, name):
    return [{"name": "thread_name", "ph": "M", "pid": process, "tid": thread, "args": {"name": name}},
            {"name": "thread_sort_index", "ph": "M", "pid": process, "tid": thread, "args": {"sort_index": thread}}]


class Clock:
    """The time of each step and each vsync, in nanoseconds."""

    def __init__(self, records):
        self.period = next((r.fields["period"] for r in records if r.tag == "SCEN"), 0)
        self.steps, self.vsyncs, self.spans, waiting, before = {}, {}, {}, [], 0
        for record in records:
            if record.tag == "REPL":
                waiting.append((record.fields["actor"], record.fields["step"]))
            elif record.tag == "VSYN":
                now = record.fields["expected"]
                self.vsyncs[record.fields["number"]] = now
                self.spread(waiting, before, now)
                waiting, before = [], now
        self.spread(waiting, before, before + self.period)
        self.end = before + self.period

    def spread(self, waiting, start, end):
        span = max(end - start, 0) // (len(waiting) + 1)
        for place, step in enumerate(waiting, 1):
            self.steps[step], self.spans[step] = start + span * place, span

    def of_caller(self, caller, step):
        if caller:
            return self.steps.get((caller, step), self.end)
        return self.vsyncs.get(step, step * self.period)


def reply_events(fields, clock):
    actor, step, status = fields["actor"], fields["step"], fields["status"]
    start = clock.steps[actor, step]
    yield slice_event(f"step {step}: {named(STATUSES, status)}", "reply", start, start + clock.spans[actor, step], ACTORS, actor,
                      actor=actor, step=step, status=status, values=[value for (value,) in fields["values"]])


def commit_events(fields, now, thread):
    token, arrival, result = fields["token"], fields["arrival"], fields["result"]
    buffers = [dict(zip(("layer", "queue", "frame", "picture", "x", "y", "width", "height"), row)) for row in fields["buffers"]]
    details = {"token": token, "arrival": arrival, "result": result, "operation": fields["operation"], "buffers": buffers}
    if result:
        name = f"arrival {arrival} rejected: {named(REJECTS, result)} at operation {fields['operation']}"
        yield instant_event(name, "reject", now, COMPOSITOR, REJECTED, **details)
    else:
        yield instant_event(f"arrival {arrival} committed", "commit", now, COMPOSITOR, thread, **details)


def vsync_events(fields, clock):
    now = fields["expected"]
    yield slice_event(f"vsync {fields['number']}", "vsync", now, now + clock.period, COMPOSITOR, VSYNCS, number=fields["number"])
    for timeline, value in fields["timelines"]:
        yield counter_event(f"timeline {timeline}", now, value)


def frame_events(frames, clock):
    """Each frame, for as long as it is the last."""
    ends = [clock.vsyncs.get(frame["number"], clock.end) for frame in frames[1:]] + [clock.end]
    for frame, end in zip(frames, ends):
        start = clock.vsyncs.get(frame["number"], clock.end)
        yield slice_event(f"frame {frame['number']}", "frame", start, max(start, end), COMPOSITOR, FRAMES,
                          number=frame["number"], pixels=len(frame["pixels"]) // 4)


def output_track(place):
    return OUTPUT_TRACKS[place[0]] + place[1]


def changes_of(hits):
    """The hits at which another layer is met than at the one before."""
    return [hit for hit, before in zip(hits, [None] + hits) if before is None or hit["layer"] != before["layer"]]


def further_events(records, clock):
    """The frames of further displays and the captures, each for as long as it is the last, and the layers that hits meet."""
    by_place = defaultdict(list)
    for record in records:
        if record.tag in OUTPUT_TRACKS:
            by_place[place_of(record.tag, record.fields)].append(record.fields)
    if by_place:
        yield from process_name(FURTHER, "further displays, captures and hits")
    for place in sorted(by_place, key=output_track):
        tag, thread = place[0], output_track(place)
        yield from track_name(FURTHER, thread, place_text(place))
        told = changes_of(by_place[place]) if tag == "HITS" else by_place[place]
        starts = [clock.vsyncs.get(fields["number"], clock.end) for fields in told]
        for fields, start, end in zip(told, starts, starts[1:] + [clock.end]):
            name = layer_text(fields["layer"]) if tag == "HITS" else f"frame {fields['number']}"
            yield slice_event(name, OUTPUTS[tag], start, max(start, end), FURTHER, thread, number=fields["number"])


def slot_events(queue, slot, calls, clock):
    """The calls of a slot: one that was done lasts until the next one, if it leaves the slot with somebody."""
    thread, _ = slot_track(slot)
    times = [clock.of_caller(caller, step) for caller, step, *_ in calls]
    done = [time for time, call in zip(times, calls) if call[3] == 0] + [clock.end]
    for time, (caller, step, kind, status, _, frame) in zip(times, calls):
        name = call_name(kind, NO_SLOT, frame)
        details = {"caller": caller_name(caller, step), "kind": named(CALLS, kind), "status": named(STATUSES, status),
                   "slot": None if slot == NO_SLOT else slot, "frame": frame}
        if status:
            yield instant_event(f"{name}: {named(STATUSES, status)}", "queue", time, QUEUES + queue, thread, **details)
        elif slot == NO_SLOT or kind in ENDING:
            done.pop(0)
            yield instant_event(name, "queue", time, QUEUES + queue, thread, **details)
        else:
            done.pop(0)
            yield slice_event(name, "queue", time, max(time, done[0]), QUEUES + queue, thread, **details)


def history_events(fields, clock):
    queue, by_slot = fields["queue"], defaultdict(list)
    for call in fields["calls"]:
        by_slot[call[4]].append(call)
    yield from process_name(QUEUES + queue, f"queue {queue}")
    for slot in sorted(by_slot):
        yield from track_name(QUEUES + queue, *slot_track(slot))
        yield from slot_events(queue, slot, by_slot[slot], clock)


def held_events(fields, clock):
    for arrival, hold, a, b in fields["held"]:
        yield instant_event(f"arrival {arrival} held: {named(HOLDS, hold)} {a} {b}", "held", clock.end, COMPOSITOR, HELD,
                            arrival=arrival, hold=hold, a=a, b=b)


def stuck_events(fields, clock):
    for actor, step in fields["stuck"]:
        yield instant_event(f"stuck at step {step}", "stuck", clock.end, ACTORS, actor, actor=actor, step=step)


def token_threads(records):
    """The track of each token's commits, by rising token."""
    tokens = sorted({record.fields["token"] for record in records if record.tag == "COMM"})
    return {token: TOKENS + place for place, token in enumerate(tokens)}


def fixed_tracks(records, tokens):
    """The names of the tracks but those of queues."""
    display = next((f"compositor, display {r.fields['width']} x {r.fields['height']}" for r in records if r.tag == "SCEN"), "compositor")
    yield from process_name(COMPOSITOR, display)
    for thread, name in ((VSYNCS, "vsyncs"), (FRAMES, "frames"), (REJECTED, "rejects"), (HELD, "held")):
        yield from track_name(COMPOSITOR, thread, name)
    for token, thread in tokens.items():
        yield from track_name(COMPOSITOR, thread, f"commits of token {token}")
    yield from process_name(ACTORS, "actors")
    actors = {r.fields["actor"] for r in records if r.tag == "REPL"} | {
        actor for r in records if r.tag == "STUK" for actor, _ in r.fields["stuck"]}
    for actor in sorted(actors):
        yield from track_name(ACTORS, actor, f"actor {actor}")


def in_order(events):
    """Events by their times, those without a time first."""
    return sorted(events, key=lambda event: event.get("ts", -1))


def trace(all_records):
    """The trace of a run, as an object that becomes JSON."""
    records = [record for record in all_records if record.fields is not None]
    clock, tokens, now = Clock(records), token_threads(records), 0
    events = list(fixed_tracks(records, tokens))
    for record in records:
        if record.tag == "VSYN":
            now = record.fields["expected"]
            events += vsync_events(record.fields, clock)
        elif record.tag == "COMM":
            events += commit_events(record.fields, now, tokens[record.fields["token"]])
        elif record.tag in EVENTS:
            events += EVENTS[record.tag](record.fields, clock)
    events += frame_events([record.fields for record in records if record.tag == "FRAM"], clock)
    events += further_events(records, clock)
    return {"displayTimeUnit": "ms", "traceEvents": in_order(events)}


EVENTS = {"REPL": reply_events, "HIST": history_events, "HOLD": held_events, "STUK": stuck_events}
