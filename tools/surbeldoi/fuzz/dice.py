"""Choices of chance that are the same on every machine and in every Python.

All come from `random.Random.random`, whose values Python promises to keep for a seed; what else `random` has may change from
version to version.
"""

from random import Random

WORD = 1 << 32


class Dice:
    """Choices that follow from these numbers alone."""

    def __init__(self, *seeds):
        source = Random()
        source.seed(sum(seed * (WORD << 32) ** place for place, seed in enumerate(seeds)), version=2)
        self.roll = source.random

    def below(self, count):
        """A number from 0 to count - 1, for counts of at most 2^32."""
        return int(self.roll() * count)

    def between(self, low, high):
        """A number from low to high, each as likely as another."""
        if high - low < WORD:
            return low + self.below(high - low + 1)
        return low + (self.below(WORD) * WORD + self.below(WORD)) % (high - low + 1)

    def chance(self, share):
        return self.roll() < share

    def one(self, things):
        return things[self.below(len(things))]

    def weighted(self, pairs):
        """One of these things, each as likely as its weight, which stands before it; the weights are not all 0."""
        left = self.roll() * sum(weight for weight, _ in pairs)
        for weight, thing in pairs:
            left -= weight
            if left < 0:
                return thing
        return next(thing for weight, thing in reversed(pairs) if weight > 0)

    def some(self, things, count):
        """So many of these things, or all where there are fewer, in any order."""
        left, chosen = list(things), []
        while left and len(chosen) < count:
            at = self.below(len(left))
            left[at], left[-1] = left[-1], left[at]
            chosen.append(left.pop())
        return chosen

    def shuffled(self, things):
        return self.some(things, len(things))

    def edge(self, low, high):
        """A number at an end of a range, or anywhere in it."""
        return self.weighted([(3, low), (3, high), (1, min(low + 1, high)), (1, max(high - 1, low)), (4, self.between(low, high))])
