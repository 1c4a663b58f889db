"""Whether all that happened in a run, its calls, arrivals and vsyncs, fits one order: nothing comes before itself.

Calls come behind one another along each history, and so do arrivals and vsyncs; what a step of an actor did comes before what its
later ones did; an arrival comes before the vsync that commits it; and what a vsync gives back comes behind it and before the next one.
"""

from typing import NamedTuple

from surbeldoi.check.circles import Events
from surbeldoi.check.ordering import Refused

COMPOSITOR = 0
# Why an event comes before another one.
BY_HISTORY, BY_ARRIVALS, BY_VSYNCS = "by HIST of queue ", "by the order of arrivals", "by the order of vsyncs"
COMMITTED, RELEASED = "which commits it", "which it makes"


class Called(NamedTuple):
    """A call of a history: its record, its place there from 1, who made it in which step or vsync, and its frame."""

    record: object
    place: int
    by: int
    step: int
    frame: int

    def text(self, scene):
        if self.by == COMPOSITOR:
            return f"the release of frame {self.frame} of queue {self.record.fields['queue']} by vsync {self.step}"
        return by_text(scene, self.by, self.step)


class Arrived(NamedTuple):
    """A transaction that arrived: its number, and who sent it in which step."""

    number: int
    by: int
    step: int

    def text(self, scene):
        return f"arrival {self.number} of {by_text(scene, self.by, self.step)}"


class Decided(NamedTuple):
    """A vsync with this number decides what it commits."""

    number: int

    def text(self, scene):
        return f"vsync {self.number}"


class Ended(NamedTuple):
    """All that a step does is done."""

    by: int
    step: int

    def text(self, scene):
        return by_text(scene, self.by, self.step)


class Learned(NamedTuple):
    """What a step did is known without a call when a later one ends, or when a vsync decides: each step with its actor, a vsync by its
    number; and why."""

    earlier: tuple
    later: object
    why: str


def by_text(scene, actor, number):
    step = scene.actors[actor][number - 1]
    return f"actor {actor}, step {number} (line {step.line}: {step.verb})"


class Happened:
    """What happened in a run. Where `tells`, a step that sends a transaction is told its place, so that it arrives before the next step.
    `learned` has what is known without a call."""

    def __init__(self, shown, tells, learned=()):
        self.shown, self.tells, self.learned, self.events = shown, tells, learned, Events()
        self.calls = [place for record in shown.histories for place in self.add_history(record)]
        self.arrivals = self.add_row((Arrived(number, by, step) for number, (by, step, _) in enumerate(shown.arrivals.fields["arrivals"], 1)), BY_ARRIVALS)
        self.vsyncs = self.add_row((Decided(vsync.record.fields["number"]) for vsync in shown.vsyncs), BY_VSYNCS)
        self.link_commits()
        self.link_releases()
        self.ends = {at: None for one in learned for at in one[:2] if isinstance(at, tuple)}
        self.link_steps()
        self.link_learned()

    def add_row(self, row, why):
        """Events that come one behind another; their places."""
        places = [self.events.add(event) for event in row]
        self.events.follow(places, why)
        return places

    def add_history(self, record):
        calls = enumerate(record.fields["calls"], 1)
        return self.add_row((Called(record, place, by, step, frame) for place, (by, step, _, _, _, frame) in calls), f"{BY_HISTORY}{record.fields['queue']}")

    def link_commits(self):
        for vsync, place in zip(self.shown.vsyncs, self.vsyncs):
            for commit in vsync.commits:
                self.events.link(self.arrivals[commit.fields["arrival"] - 1], place, COMMITTED)

    def link_releases(self):
        following = {self.events.events[place].number: (place, later) for place, later in zip(self.vsyncs, self.vsyncs[1:] + [None])}
        for place in self.calls:
            call = self.events.events[place]
            if call.by == COMPOSITOR:
                vsync, later = following[call.step]
                self.events.link(vsync, place, RELEASED)
                if later is not None:
                    self.events.link(place, later, BY_VSYNCS)

    def link_steps(self):
        done = {at: [] for at in self.ends}
        for place in self.calls + self.arrivals:
            event = self.events.events[place]
            if event.by != COMPOSITOR:
                done.setdefault((event.by, event.step), []).append(place)
        last = {}
        for (actor, step), places in sorted(done.items()):
            last[actor] = self.link_step(actor, step, places, last.get(actor))

    def link_step(self, actor, step, places, last):
        """What a step did comes behind what those before it did. The place of an event that comes behind all this, too."""
        why = f"by the steps of actor {actor}"
        for place in places if last is not None else ():
            self.events.link(last, place, why)
        if not self.tells and places and isinstance(self.events.events[places[0]], Arrived):
            return last
        if len(places) == 1 and (actor, step) not in self.ends:
            return places[0]
        end = self.ends[actor, step] = self.events.add(Ended(actor, step))
        for place in places or [last]:
            if place is not None:
                self.events.link(place, end, why)
        return end

    def link_learned(self):
        vsyncs = {self.events.events[place].number: place for place in self.vsyncs}
        for earlier, later, why in self.learned:
            self.events.link(self.ends[earlier], self.ends[later] if isinstance(later, tuple) else vsyncs[later], why)


def from_history(parts):
    """A circle, beginning with calls of a history, if it has some."""
    start = next((at for at, part in enumerate(parts) if part.why.startswith(BY_HISTORY)), 0)
    return parts[start:] + parts[:start]


def where(shown, event):
    """The place in the stream of the event with which a circle begins."""
    if isinstance(event, Called):
        return f"{event.record.text()} of queue {event.record.fields['queue']}, call {event.place}"
    at = (event.by, event.step) if isinstance(event, Ended) else None
    records = (reply for reply in shown.replies if (reply.fields["actor"], reply.fields["step"]) == at)
    return next(records, shown.arrivals).text()


def circle_text(scene, parts):
    """A circle in a sentence."""
    comes = [f"comes before {part.last.text(scene)}{' ' if part.why.startswith('by ') else ', '}{part.why}" for part in parts]
    return f"{parts[0].first.text(scene)} " + "; that ".join(comes[:-1]) + "; and that " + comes[-1]


def check_one_order(scene, shown, tells, learned=(), part="one order"):
    """No event of a run comes before itself, neither by what is known without a call. All parts of the meaning hold."""
    circle = from_history(Happened(shown, tells, learned).events.circle())
    if circle:
        raise Refused(part, where(shown, circle[0].first), f"no order of what happened fits: {circle_text(scene, circle)}")
