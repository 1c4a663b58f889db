"""How far the commits of a run have come: the tree, the frames that layers show, and what goes back to the queues."""

from surbeldoi.model.transactions import SHOW
from surbeldoi.model.trees import after


class Stage:
    """The tree after the commits so far, which may have `most_layers`; on which layers frames are, each with the vsync that showed
    it first; of each layer the greatest frame that was ever committed for it; and the layers that got a frame in this vsync, whose
    number is `vsync`."""

    def __init__(self, most_layers):
        self.tree, self.on, self.frames, self.fresh, self.vsync, self.most_layers = {}, {}, {}, set(), 0, most_layers

    def begin(self, vsync):
        self.fresh, self.vsync = set(), vsync

    def is_pressed(self, layer):
        return layer in self.tree and self.tree[layer].backpressure

    def take_off(self, layer):
        """The frame that leaves a layer, in a list, and whether it was shown at the end of an earlier vsync."""
        frame, since = self.on.pop(layer, (None, 0))
        return [(frame, since < self.vsync)] if frame else []

    def exchange(self, operations):
        """Frames come on layers and leave them, in the order of operations. Those that leave."""
        gone = []
        for layer, operation, *_ in operations:
            if operation[0] in (SHOW, "destroy"):
                gone += self.take_off(layer)
            if operation[0] == SHOW:
                self.on[layer] = (operation[1], self.vsync)
        return gone

    def commit(self, txn):
        """Commits a transaction. Its result and operation, and the frames that go back, each with whether it was read."""
        operations, buffers = txn.operations(), txn.buffers()
        self.tree, cause, place = after(self.tree, operations, self.most_layers)
        if cause:
            return cause, place, [(frame, False) for _, frame in buffers]
        for layer, frame in buffers:
            self.frames[layer] = max(self.frames.get(layer, 0), frame.frame)
            self.fresh.add(layer)
        return 0, 0, self.exchange(operations)
