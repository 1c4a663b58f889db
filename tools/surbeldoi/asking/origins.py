"""By which line of the script each property of a layer is what it is."""

from typing import NamedTuple

# The property that a change sets, where it does not have the change's own name.
PROPERTIES = {"reparent": "parent", "relative": "z", "buffer": "content"}
CREATED = "create"


class Origin(NamedTuple):
    """The operation that set a property: the place of its moment and the number of the vsync that committed it, the arrival, and the
    step with its line and its words. `order` counts all operations of the run."""

    order: int
    place: int
    vsync: int
    arrival: int
    actor: int
    step: int
    line: int
    text: str

    def line_text(self):
        return f"line {self.line}: {self.text}"


class Origins:
    """Who set what, over a whole run."""

    def __init__(self, course):
        self.course, self.sets, self.parents, self.count = course, {}, {}, 0
        for place, moment in enumerate(course.moments):
            for commit in moment.commits:
                arrival = course.reader.arrivals.get(commit.arrival)
                for operation in arrival.operations if arrival and commit.cause is None else ():
                    self.take(operation, place, moment.number, commit.arrival)

    def take(self, operation, place, vsync, arrival):
        """Notes an operation that was committed."""
        step, self.count = self.course.script.step(operation.actor, operation.step), self.count + 1
        origin = Origin(self.count, place, vsync, arrival, operation.actor, operation.step, step.line, step.text())
        word = operation.change[0]
        self.sets.setdefault((operation.layer, PROPERTIES.get(word, word)), []).append(origin)
        if word == "create":
            self.parents[operation.layer] = {"parent": operation.change[2], "z": None}
        elif word == "destroy":
            self.lose(operation.layer, origin)
        elif word in ("reparent", "relative", "z") and operation.layer in self.parents:
            named = operation.change[1] if word != "z" else None
            self.parents[operation.layer][PROPERTIES.get(word, word)] = named

    def lose(self, number, origin):
        """Notes what a layer that is destroyed takes from others."""
        self.parents.pop(number, None)
        for other, of_other in self.parents.items():
            for name in [name for name, named in of_other.items() if named == str(number)]:
                of_other[name] = None
                self.sets.setdefault((other, name), []).append(origin)

    def of(self, layer, name, place):
        """What made a property what it is at the moment with this place, the layer's `create` where nothing did since; None where the
        layer was never there."""
        known = [origin for key in ((layer, name), (layer, CREATED)) for origin in self.sets.get(key, ()) if origin.place <= place]
        return max(known, default=None)

    def destroyed(self, layer, place):
        """What destroyed a layer last, up to the moment with this place, or None."""
        return max((origin for origin in self.sets.get((layer, "destroy"), ()) if origin.place <= place), default=None)

    def created(self, layer):
        """What creates a layer, over the whole run, in order."""
        return self.sets.get((layer, CREATED), [])
