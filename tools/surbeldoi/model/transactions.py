"""Transactions: their operations, their buffers and barriers, and why one is held."""

from typing import NamedTuple

from surbeldoi.model.queues import SECOND, open_point

BEHIND, TIME, FENCE, UNDRAWN, BARRIER, PRESSURE = range(1, 7)
CUMULATIVE = ("create", "destroy")
SHOW = "show"


def kind_of(change):
    """Changes of one kind for one layer take each other's place."""
    return "z" if change[0] == "relative" else change[0]


class Operation(NamedTuple):
    """An operation: the layer, the change, and the actor and the step that made it."""

    layer: int
    change: tuple
    by: tuple = (0, 0)


class Barrier(NamedTuple):
    """A layer, the frame that has to be committed for it, and the actor and the step that asked for it."""

    layer: int
    frame: int
    by: tuple = (0, 0)


class Transaction:
    """Operations in order, each a layer and a change; those that show a buffer have its frame as `("show", frame)`."""

    def __init__(self):
        self.places, self.desired, self.barriers, self.made = {}, None, [], 0

    def add(self, operation):
        """One more operation, which takes the place of an earlier one. The frame of that one, in a list, if it had one."""
        self.made += 1
        layer, change, _ = operation
        place = (layer, self.made if change[0] in CUMULATIVE else kind_of(change))
        earlier = self.places.pop(place, None)
        self.places[place] = operation
        return [earlier.change[1]] if earlier and change[0] == SHOW else []

    def operations(self):
        """The layer and the change of each operation."""
        return [operation[:2] for operation in self.places.values()]

    def made_by(self):
        """The operations with those who made them."""
        return list(self.places.values())

    def buffers(self):
        """The layer and the frame of each operation that shows one, in order."""
        return [(layer, change[1]) for layer, change, _ in self.places.values() if change[0] == SHOW]

    def merge(self, other):
        """All of another transaction is set into it. The frames whose places others take."""
        gone = [frame for operation in other.made_by() for frame in self.add(operation)]
        self.barriers += other.barriers
        if other.desired is not None:
            self.desired = max(other.desired, other.desired if self.desired is None else self.desired)
        return gone


def fence_hold(buffers, values):
    points = (open_point(frame.fence, values) for _, frame in buffers)
    return next(((FENCE, *point) for point in points if point), None)


def undrawn_hold(buffers, is_written):
    return next(((UNDRAWN, frame.queue, frame.frame) for _, frame in buffers if not is_written(frame)), None)


def barrier_hold(barriers, frames):
    """The first barrier that is not met, where `frames` has the greatest frame that was ever committed for a layer."""
    return next(((BARRIER, layer, frame) for layer, frame, _ in barriers if frames.get(layer, -1) < frame), None)


def lasting_hold(txn, is_written, frames, values):
    """What holds the first transaction of a token for good, by these final values: its fence, a write or a barrier."""
    buffers = txn.buffers()
    return fence_hold(buffers, values) or undrawn_hold(buffers, is_written) or barrier_hold(txn.barriers, frames)


def time_hold(txn, expected):
    waits = txn.desired is not None and expected < txn.desired <= expected + SECOND
    return (TIME, txn.desired, 0) if waits else None


def pressure_hold(txn, stage):
    if txn.desired is not None:
        return None
    return next(((PRESSURE, layer, 0) for layer, _ in txn.buffers() if layer in stage.fresh and stage.is_pressed(layer)), None)


def hold_of(txn, is_written, stage, values, expected):
    """What holds the first transaction of a token at this stage of a vsync that expects this time, or None."""
    return time_hold(txn, expected) or lasting_hold(txn, is_written, stage.frames, values) or pressure_hold(txn, stage)
