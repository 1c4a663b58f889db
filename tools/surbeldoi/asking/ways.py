"""The way of each frame: who queued, drew and acquired it, the transaction that has it, the vsync that committed that, and who gave it back."""

from typing import NamedTuple, Optional

ACQUIRE, RELEASE, CONSUMER_DETACH = 13, 14, 15
OK = 0


class Way(NamedTuple):
    """A frame of a queue: the steps that queued, drew and acquired it, each as actor and step, None where nobody did; the arrival that
    has it and the layer that it is for; the number of the vsync that committed that, or rejected it; and the call that gave it back or took it
    out of its queue, as caller and step."""

    queue: int
    frame: int
    queued: tuple
    drawn: Optional[tuple]
    acquired: Optional[tuple]
    arrival: Optional[int]
    layer: Optional[int]
    vsync: Optional[int]
    is_rejected: bool
    given_back: Optional[tuple]


def first_call(calls, kind, frame):
    """Who made the first call of a kind that was done for a frame."""
    return next(((caller, step) for caller, step, of, status, _, got in calls if (of, status, got) == (kind, OK, frame)), None)


def ways_of(course):
    """The ways of all frames of a run, by queue and frame."""
    shows = {frame: (number, layer) for number, arrival in course.reader.arrivals.items() for layer, frame in arrival.frames()}
    calls = {queue.number: queue.calls for queue in course.queues}
    taken = {commit.arrival: (moment.number, commit) for moment in course.moments for commit in moment.commits}
    ways = {}
    for (queue, frame), queued in course.reader.frames.items():
        of_queue = calls.get(queue, ())
        arrival, layer = shows.get((queue, frame), (None, None))
        vsync, commit = taken.get(arrival, (None, None))
        back = first_call(of_queue, RELEASE, frame) or first_call(of_queue, CONSUMER_DETACH, frame)
        ways[queue, frame] = Way(queue, frame, queued.by, queued.drawn_by, first_call(of_queue, ACQUIRE, frame), arrival, layer,
                                 vsync, bool(commit and commit.cause), back)
    return ways
