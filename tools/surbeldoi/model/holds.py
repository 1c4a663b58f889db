"""Why a transaction waits behind a vsync that is known by its parts."""

from typing import NamedTuple

from surbeldoi.model.transactions import BEHIND, hold_of


class Seen(NamedTuple):
    """What a vsync saw: the time, its timelines, the frames that were queued, how many vsyncs were before, the greatest frame
    that was committed for each layer, the layers, those that got a frame in this vsync, and the first arrival that
    waits under each token."""

    time: int
    timelines: dict
    frames: dict
    moment: int
    shown: dict
    layers: dict
    latched: set
    first: dict

    def is_written(self, frame):
        """Whether a frame was drawn by then."""
        queued = self.frames.get((frame.queue, frame.frame))
        return queued is not None and queued.is_drawn(self.moment)


class SeenStage:
    """What a vsync saw as a stage of its commits."""

    def __init__(self, seen):
        self.frames, self.fresh, self.layers = seen.shown, seen.latched, seen.layers

    def is_pressed(self, layer):
        return layer in self.layers and self.layers[layer].backpressure


def why_held(arrival, seen):
    """The number of the first hold of an arrival, with its two values; None where nothing holds it."""
    if seen.first[arrival.token] != arrival.number:
        return BEHIND, 0, 0
    return hold_of(arrival.txn, seen.is_written, SeenStage(seen), seen.timelines, seen.time)
