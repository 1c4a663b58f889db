"""A run as one page to look into: what page.html shows, as data.

The page has all in itself: it fetches nothing, and its policy lets no script run but its own. What many moments have alike (a
layer's state, how it is painted, a whole tree) stands once, and moments name it by its place.
"""

import base64
import hashlib
import json
import os
import re
import zlib

from surbeldoi.records.stream import OWN_DISPLAY
from surbeldoi.records.wording import NO_SLOT, REFUSALS, STATUSES, call_name, named, values_text
from surbeldoi.view.course import Course

FOLDER = os.path.dirname(os.path.abspath(__file__))
# The page, its style, and the parts of its script.
PAGE, STYLE = "page.html", "page.css"
SCRIPTS = ("elements.js", "painter.js", "run.js", "reasons.js", "axis.js", "frame.js", "tree.js", "layer.js", "changes.js", "lists.js", "page.js")


class Once:
    """A list in which each thing stands once."""

    def __init__(self):
        self.items, self.places = [], {}

    def place(self, key, item):
        """The place of the thing with this key, which is put in if it is not there."""
        if key not in self.places:
            self.places[key] = len(self.items)
            self.items.append(item)
        return self.places[key]


def content_of(content):
    return {**content._asdict(), "crop": list(content.crop)} if content else None


def layer_of(layer):
    return {**layer._asdict(), "content": content_of(layer.content)}


def drawn_of(drawn):
    return {**drawn._asdict(), "content": content_of(drawn.content)}


def frame_text(pixels):
    """The pixels of a frame, packed, as text."""
    return base64.b64encode(zlib.compress(pixels)).decode("ascii")


def refusal(status):
    """Why something was refused; nothing where it was done."""
    return "" if status == 0 else f"{named(STATUSES, status)}: {REFUSALS.get(status, 'refused')}"


def step_of(course, actor, number):
    """The line of a step and its words; none where the script has no such step."""
    step = course.script.step(actor, number)
    return [step.line, step.text()] if step else [0, ""]


def arrival_of(course, arrival):
    return {
        "number": arrival.number, "token": arrival.token, "actor": arrival.actor, "step": step_of(course, arrival.actor, arrival.step),
        "desired": arrival.desired,
        "barriers": [step_of(course, barrier.actor, barrier.step) for barrier in arrival.barriers],
        "operations": [[operation.layer, *step_of(course, operation.actor, operation.step)] for operation in arrival.operations],
    }


def name_of(place):
    if place.is_capture():
        return f"capture {place.of[1]} of layer {place.shows}"
    return "the own display" if place.of == OWN_DISPLAY else f"display {place.of[1]}"


def place_data(place):
    return {"name": name_of(place), "width": place.width, "height": place.height, "isCapture": place.is_capture(), "shows": place.shows,
            "link": "display=1" if place.of == OWN_DISPLAY else f"{'capture' if place.is_capture() else 'display'}={place.of[1]}"}


class Shared:
    """What moments have alike: layers, trees of them, layers as they are painted, and all that a place shows."""

    def __init__(self):
        self.layers, self.trees, self.drawn, self.paintings = Once(), Once(), Once(), Once()

    def tree(self, outline):
        """The place of a tree: its layers, each with how deep it stands."""
        if outline is None:
            return None
        tree = [(self.layers.place(layer, layer_of(layer)), depth) for layer, depth in outline]
        return self.trees.place(tuple(tree), tree)

    def painting(self, drawn):
        """The place of what is painted, from the back to the front."""
        if drawn is None:
            return None
        painting = [self.drawn.place(one, drawn_of(one)) for one in drawn]
        return self.paintings.place(tuple(painting), painting)


def output_of(output, shared):
    return {"frame": output.frame, "isNew": output.is_new, "isMissing": output.is_missing, "painting": shared.painting(output.drawn)}


def moment_of(moment, shared):
    return {
        "vsync": moment.number, "time": moment.time, "isSilent": moment.is_silent, "timelines": sorted(moment.timelines.items()),
        "commits": [commit._asdict() for commit in moment.commits],
        "held": [hold._asdict() for hold in moment.held],
        "waiting": [list(waiting) for waiting in moment.waits],
        "tree": shared.tree(moment.outline), "outputs": [output_of(output, shared) for output in moment.outputs], "hits": sorted(moment.hits.items()),
    }


def call_of(course, call, moment):
    """A call as the page shows it: its moment, who made it, why it was refused, and its slot."""
    caller, step, kind, status, slot, frame = call
    line, words = step_of(course, caller, step) if caller else (0, "")
    who = f"actor {caller}, line {line}: {words}" if caller else f"vsync {step}: {call_name(kind, NO_SLOT, frame)}"
    return [moment, who, refusal(status), None if slot == NO_SLOT else slot]


def queue_of(course, queue):
    width, height = course.declarations.queues.get(queue.number, (0, 0))
    return {"number": queue.number, "width": width, "height": height,
            "calls": [call_of(course, call, moment) for call, moment in zip(queue.calls, queue.moments)], "changes": queue.changes}


def reply_of(course, reply):
    """A reply as the page shows it: its moment, what was refused and why, and its values."""
    word = course.script.step(reply.actor, reply.step).words[0]
    return [reply.moment, refusal(reply.status), values_text(word, reply.values)]


def actor_of(course, actor):
    return {"number": actor, "steps": [[step.line, step.text()] for step in course.script.steps[actor]],
            "replies": [reply_of(course, reply) for reply in course.replies if reply.actor == actor]}


def view_data(name, course):
    """All that the page shows of a run."""
    shared = Shared()
    moments = [moment_of(moment, shared) for moment in course.moments]
    return {
        "name": name, "outputs": [place_data(place) for place in course.places], "period": course.scene["period"], "leftOut": course.silent.left_out,
        "hits": course.declarations.hits, "stacks": course.declarations.stacks, "mirrors": course.declarations.mirrors,
        "isLive": course.is_live, "fault": course.fault, "isWhole": any(record.tag == "DONE" for record in course.records),
        "pictures": {number: picture._asdict() for number, picture in course.declarations.pictures.items()},
        "layers": shared.layers.items, "trees": shared.trees.items, "drawn": shared.drawn.items, "paintings": shared.paintings.items, "moments": moments,
        "arrivals": {arrival.number: arrival_of(course, arrival) for arrival in course.reader.arrivals.values()},
        "queues": [queue_of(course, queue) for queue in course.queues],
        "actors": [actor_of(course, actor) for actor in sorted(course.script.steps)],
        "frames": [frame_text(pixels) for pixels in course.frames],
    }


def embedded(data):
    """Data as it may stand in a script of a page."""
    return json.dumps(data, separators=(",", ":")).replace("<", "\\u003c")


def part(name):
    with open(os.path.join(FOLDER, name), encoding="utf-8") as file:
        return file.read()


def hash_of(text):
    """A script or a style as a policy names it that lets no other one count."""
    return f"'sha256-{base64.b64encode(hashlib.sha256(text.encode()).digest()).decode()}'"


def policy(script, style):
    """What the page may do: run this script, with this style, and nothing else. It may fetch nothing."""
    return f"default-src 'none'; script-src {hash_of(script)}; style-src {hash_of(style)}; base-uri 'none'; form-action 'none'"


def view_page(name, records, script):
    """The page of the run of a script of this name."""
    program, style = "\n" + "\n".join(map(part, SCRIPTS)), "\n" + part(STYLE)
    parts = {"TITLE": name.replace("&", "&amp;").replace("<", "&lt;"), "POLICY": policy(program, style), "STYLE": style,
             "DATA": embedded(view_data(name, Course(records, script))), "PROGRAM": program}
    return re.sub(r"\{\{([A-Z]+)\}\}", lambda found: parts[found.group(1)], part(PAGE))
