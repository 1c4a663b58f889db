"""Steps of a scene, as actors who follow one another take them, and the order of their turns with the vsyncs."""

from itertools import groupby

from surbeldoi.android.notes import TraceFault
from surbeldoi.script.scenes import MOST_ACTORS, MOST_STEPS

MOST_PICK, PICKS_OF_LINE = 256, 16


class Turns:
    """Steps in groups, each of which one actor takes, and vsyncs. Where an actor has no steps left the next one goes on, with the
    same queues. `size` is how many bytes the steps have as lines."""

    def __init__(self):
        self.actors, self.turns, self.queues, self.size = [[]], [], [], 0

    def connect(self, queue):
        self.take([f"maxacquired {queue} 62", f"connect {queue}"])
        self.queues.append(queue)

    def take(self, steps):
        """One more group of steps."""
        if len(self.actors[-1]) + len(steps) + len(self.queues) > MOST_STEPS:
            self.hand_over(steps)
        self.add(steps)

    def hand_over(self, steps):
        if len(steps) + 2 * len(self.queues) > MOST_STEPS:
            raise TraceFault(f"a transaction of {len(steps)} steps, where an actor may have {MOST_STEPS}")
        self.add([f"disconnect {queue}" for queue in self.queues])
        if len(self.actors) == MOST_ACTORS[2]:
            raise TraceFault(f"more than {MOST_ACTORS[2]} x {MOST_STEPS} steps: a shorter trace is needed")
        self.actors.append([])
        self.add([f"connect {queue}" for queue in self.queues])

    def add(self, steps):
        self.actors[-1] += steps
        self.size += sum(len(step) + 1 for step in steps)
        self.turns.append((str(len(self.actors)), len([step for step in steps if not step.startswith("#")])))

    def vsync(self):
        self.turns.append(("v", 1))

    def picks(self):
        """The order, as picks."""
        for name, group in groupby(self.turns, key=lambda turn: turn[0]):
            count = sum(times for _, times in group)
            while count:
                times = min(count, MOST_PICK)
                yield name if times == 1 else f"{name}*{times}"
                count -= times

    def lines(self):
        for number, steps in enumerate(self.actors, 1):
            yield f"actor {number}"
            yield from steps
        picks = list(self.picks())
        for at in range(0, len(picks), PICKS_OF_LINE):
            yield "order " + " ".join(picks[at:at + PICKS_OF_LINE])
