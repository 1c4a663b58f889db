"""Events, each with those that come behind it; and whether they can all come one after another."""

from typing import NamedTuple


class Link(NamedTuple):
    """The place of an event that comes behind another one, and why it does."""

    later: int
    why: str


class Part(NamedTuple):
    """A part of a circle that has one reason: the event where it begins and the one where it ends."""

    first: object
    last: object
    why: str


class Events:
    """The events of a run, by their places, each with those that come behind it."""

    def __init__(self):
        self.events, self.links = [], []

    def add(self, event):
        """One more event; its place."""
        self.events.append(event)
        self.links.append([])
        return len(self.events) - 1

    def link(self, earlier, later, why):
        self.links[earlier].append(Link(later, why))

    def follow(self, places, why):
        """Events come one behind another."""
        for earlier, later in zip(places, places[1:]):
            self.link(earlier, later, why)

    def without_order(self):
        """The places of the events that never come next: those in circles, and those behind them."""
        before = [0] * len(self.events)
        for links in self.links:
            for link in links:
                before[link.later] += 1
        ready = [place for place, count in enumerate(before) if not count]
        while ready:
            for link in self.links[ready.pop()]:
                before[link.later] -= 1
                if not before[link.later]:
                    ready.append(link.later)
        return [place for place, count in enumerate(before) if count]

    def circle(self):
        """The parts of a circle in which events come before themselves; none where all can come one after another."""
        left = self.without_order()
        return self.parts(self.way_round(self.in_circle(left))) if left else []

    def in_circle(self, left):
        """The place of an event that comes before itself. Each of those that are left comes behind another one of them."""
        earlier = {link.later: place for place in left for link in self.links[place]}
        passed, place = set(), left[0]
        while place not in passed:
            passed.add(place)
            place = earlier[place]
        return place

    def way_round(self, first):
        """The links by which an event comes before itself, each behind the place where it begins. Their reasons change as seldom as can be."""
        came, now, later = {}, [(Link(first, ""), None)], []
        while now or later:
            if not now:
                now, later = later, []
            at, earlier = now.pop()
            if at in came:
                continue
            came[at] = earlier
            if earlier and at.later == first:
                return way_to(at, came)
            for link in self.links[at.later]:
                (now if link.why == at.why else later).append((link, at))
        raise AssertionError("an event that is in no circle")

    def parts(self, way):
        """The parts of a way round: neighbours with one reason are one."""
        starts = [at for at, (_, link) in enumerate(way) if link.why != way[at - 1][1].why]
        ends = [at - 1 for at in starts[1:] + starts[:1]]
        return [Part(self.events[way[start][0]], self.events[way[end][1].later], way[end][1].why) for start, end in zip(starts, ends)]


def way_to(last, came):
    """The links that lead to an event, each behind the place where it begins, where `came` has what each came from."""
    way = []
    while came[last] is not None:
        way.append((came[last].later, last))
        last = came[last]
    return way[::-1]
