"""What a trace has that a scene cannot say, with what was done in its place."""


class TraceFault(Exception):
    """A trace that no scene can be made of; it says where and why."""


class Notes:
    """Notes on a trace, each kind once: how often it came, and where first."""

    def __init__(self):
        self.counted = {}

    def add(self, what, done, where):
        count, first = self.counted.get((what, done), (0, where))
        self.counted[what, done] = (count + 1, first)

    def lines(self):
        for (what, done), (count, first) in self.counted.items():
            times = f"{count} times, first in {first}" if count > 1 else f"in {first}"
            yield f"{what} ({times}): {done}"
