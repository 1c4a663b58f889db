"""A scene: what a script declares, and the steps of its actors, as values.

The forms are those of grammar.py. This reads a script by itself, so that a run can be checked without the program
that played it; where a script is no scene it only says in which line, and sf_main says why.
"""

import re
from functools import lru_cache
from typing import NamedTuple

from surbeldoi.script.grammar import CHANGES, FORMATS, STEPS, lines_in, parts_of
from surbeldoi.script.scripts import lines_of, texts_of

MOST_BYTES, MOST_STEPS, MOST_FILLS, MOST_NAMES, MOST_MIRRORS = 1_048_576, 4096, 1024, 32, 8
# How many actors and layers a scene may have, by its version.
MOST_ACTORS, MOST_LAYERS = {1: 16, 2: 64}, {1: 256, 2: 1024}
U32, U64 = (1 << 32) - 1, (1 << 64) - 1
RANGES = {
    "WIDTH": (1, 1024), "HEIGHT": (1, 1024), "PERIOD": (1_000_000, 1_000_000_000), "TIMELINE": (1, 64), "QUEUE": (1, 16),
    "ACTOR": (1, 64), "PICTURE": (1, 256), "BWIDTH": (1, 512), "BHEIGHT": (1, 512), "X": (0, 511), "Y": (0, 511), "FLAG": (0, 1),
    "COUNT": (0, U32), "AWIDTH": (0, U32), "AHEIGHT": (0, U32), "VALUE": (0, U64), "FRAME": (0, U64), "TIME": (0, (1 << 63) - 1),
    "TX": (1, 64), "LAYER": (1, U32), "TOKEN": (1, U32), "Z": (-(1 << 31), (1 << 31) - 1), "PX": (-16384, 16384), "PY": (-16384, 16384),
    "CWIDTH": (0, 16384), "CHEIGHT": (0, 16384), "ALPHA": (0, 255), "ORIENT": (0, 7), "VERSION": (1, 2),
    "DISPLAY": (2, 8), "STACK": (0, U32), "CAPTURE": (1, 8), "HIT": (1, 64),
}
SIGNED = ("Z", "PX", "PY")
NUMBER = re.compile(r"-?[0-9]{1,20}", re.ASCII)
COLOUR = re.compile(r"[0-9a-fA-F]{8}", re.ASCII)
NAME = re.compile(r"[A-Za-z][A-Za-z0-9_]{0,15}", re.ASCII)
PICK = re.compile(r"(v|[0-9]{1,20})(?:\*([0-9]{1,20}))?", re.ASCII)
# The place of each line among the others, by its first word; those of version 2 stand with the timelines.
RANKS = {word: rank for rank, words in enumerate((("scene",), ("timeline", "display", "stack", "capture", "hit", "mirror"), ("queue",),
                                                  ("picture", "fill"), ("actor",), ("order",), ("end",))) for word in words}


class NoScene(Exception):
    """A script that is no scene; it says why in a sentence."""


class Picture(NamedTuple):
    """A picture: its size, its fills, each as a corner, a size and a colour of four bytes, and its format."""

    width: int
    height: int
    fills: list
    format: str = "rgba"


class Display(NamedTuple):
    """A further display: its size, and the stack whose layers it shows."""

    width: int
    height: int
    stack: int


class Capture(NamedTuple):
    """A capture: its layer and its size."""

    layer: int
    width: int
    height: int


class Step(NamedTuple):
    """A step: its line, its first word, its numbers and names in order, and its parts in brackets by their first words."""

    line: int
    verb: str
    args: tuple
    more: dict


class Scene:
    """What a script declares, each by its number; the steps of each actor; and the picks of the order, 0 being the vsync. `stacks`
    has the stack of each layer that was given one, `mirrors` the layer that each mirror shows, `hits` points."""

    def __init__(self):
        self.version = self.width = self.height = self.period = 0
        self.timelines, self.queues, self.pictures, self.actors, self.order = [], {}, {}, {}, []
        self.displays, self.stacks, self.captures, self.hits, self.mirrors = {}, {}, {}, {}, {}

    def most_layers(self):
        return MOST_LAYERS[self.version]

    def sort(self):
        """Puts what is looked through by rising number into that order."""
        self.timelines.sort()
        self.displays, self.captures, self.hits = (dict(sorted(declared.items())) for declared in (self.displays, self.captures, self.hits))


@lru_cache(None)
def form_parts(form):
    """The words that a form needs, and its parts in brackets."""
    words = form.split()
    needed = next((at for at, word in enumerate(words) if word.startswith("[")), len(words))
    return words[:needed], parts_of(words[needed:])


def number_of(kind, text):
    """The number that a word of a kind means, or None."""
    if not NUMBER.fullmatch(text) or text.startswith("-") and kind not in SIGNED:
        return None
    low, high = RANGES[kind]
    return int(text) if low <= int(text) <= high else None


@lru_cache(1 << 16)
def value_of(kind, text):
    """What a word of a kind means, or None where it is none of this kind. `none` as a parent is -1."""
    if kind == "NAME":
        return text if NAME.fullmatch(text) else None
    if kind == "COLOUR":
        return bytes.fromhex(text) if COLOUR.fullmatch(text) else None
    if kind == "FORMAT":
        return text if text in FORMATS else None
    if kind == "PARENT":
        number = number_of("COUNT", text)
        return -1 if text == "none" else number
    return number_of(kind, text)


def values_of(kinds, words):
    """What words mean that stand for these kinds and fixed words, or None where one is wrong."""
    values = []
    for kind, word in zip(kinds, words):
        if kind not in RANGES and kind not in ("NAME", "COLOUR", "PARENT", "FORMAT"):
            if kind != word:
                return None
            continue
        value = value_of(kind, word)
        if value is None:
            return None
        values.append((kind, value))
    return values


def parsed(form, words):
    """The values of a line of this form with their kinds, and those of its parts in brackets, or None."""
    needed, parts = form_parts(form)
    found = values_of(needed, words) if len(words) >= len(needed) else None
    if found is None:
        return None
    more, used = {}, len(needed)
    while used < len(words):
        chosen = next((at for at, (part, _) in enumerate(parts) if part[0] == words[used]), None)
        if chosen is None:
            return None
        part, repeats = parts[chosen]
        values = values_of(part, words[used:used + len(part)]) if used + len(part) <= len(words) else None
        if values is None:
            return None
        more.setdefault(part[0], []).append(values)
        used, parts = used + len(part), parts[chosen if repeats else chosen + 1:]
    return found, more


FORMS_OF_STEPS = {}
for a_form in STEPS[:-1] + tuple("set TX LAYER " + change for change in CHANGES):
    FORMS_OF_STEPS.setdefault(a_form.split()[0], []).append(a_form)
FORMS_OF_LINES = {version: {form.split()[0]: form for form in lines_in(version)} for version in MOST_ACTORS}


def parts_by_word(more):
    """The values of the parts in brackets, by their first words, without their kinds."""
    return {word: [tuple(value for _, value in each) for each in several] for word, several in more.items()}


def declared_as(first, values):
    """What a line with this first word declares under its number."""
    if first in ("display", "capture"):
        return (Display if first == "display" else Capture)(*values)
    return values[0] if first in ("stack", "mirror") else values


def change_of(form, values):
    """The change that a `set` line of this form means: its first word and its values."""
    first, *more = form.split()[3:]
    if first == "create":
        return (first, more[0], values[0])
    if first == "crop":
        return (first, tuple(values) or None)
    return (first, *values)


class Reader:
    """Reads a script line by line into a scene."""

    def __init__(self):
        self.scene, self.rank, self.actor, self.picture, self.names = Scene(), -1, None, None, set()
        self.declared = {"TIMELINE": self.scene.timelines, "QUEUE": self.scene.queues, "PICTURE": self.scene.pictures}

    def step(self, line, words):
        """One more step of the actor; false where it is none."""
        for form in FORMS_OF_STEPS[words[0]]:
            found = parsed(form, words)
            if found is None:
                continue
            return self.add_step(line, form, *found)
        return False

    def add_step(self, line, form, found, more):
        every = found + [value for values in more.values() for each in values for value in each]
        if any(kind in self.declared and value not in self.declared[kind] for kind, value in every):
            return False
        names = [value for kind, value in found if kind == "NAME"]
        given = names[-1:] if " as " in form else []
        if any(name not in self.names for name in names[:len(names) - len(given)]):
            return False
        self.names.update(given)
        steps, values = self.scene.actors[self.actor], tuple(value for _, value in found)
        if form.startswith("set "):
            values = values[:2] + (change_of(form, values[2:]),)
        steps.append(Step(line, form.split()[0], values, parts_by_word(more)))
        return len(self.names) <= MOST_NAMES and len(steps) <= MOST_STEPS

    def begin(self, version, width, height, period):
        """The first line."""
        scene = self.scene
        scene.version, scene.width, scene.height, scene.period = version, width, height, period

    def fill(self, values):
        """One more fill of the last picture; false where there is none, or it has too many."""
        fills = self.scene.pictures[self.picture].fills if self.picture else None
        if fills is None or len(fills) >= MOST_FILLS:
            return False
        fills.append(values)
        return True

    def declare(self, first, number, values, more):
        """A line that declares something; false where its number is declared already, or there are too many."""
        scene = self.scene
        there = {"timeline": scene.timelines, "queue": scene.queues, "picture": scene.pictures, "actor": scene.actors, "display": scene.displays,
                 "stack": scene.stacks, "capture": scene.captures, "hit": scene.hits, "mirror": scene.mirrors}[first]
        if number in there or first == "mirror" and len(there) >= MOST_MIRRORS or first == "actor" and number > MOST_ACTORS[scene.version]:
            return False
        if first == "timeline":
            there.append(number)
        elif first == "picture":
            there[number], self.picture = Picture(*values, [], *more.get("format", [()])[0]), number
        elif first == "actor":
            there[number], self.actor, self.names = [], number, set()
        else:
            there[number] = declared_as(first, values)
        return True

    def picks(self, words):
        """The picks of a line of the order; false where one is none."""
        for word in words:
            found = PICK.fullmatch(word)
            if not found:
                return False
            actor, times = 0 if found[1] == "v" else int(found[1]), int(found[2] or 1)
            if not 1 <= times <= 256 or actor not in self.scene.actors and found[1] != "v":
                return False
            self.scene.order.append((actor, times))
        return bool(words)

    def add(self, line, words):
        """One more line; false where it is none of a scene at its place."""
        first = words[0]
        if self.rank == RANKS["end"] or (self.rank == -1) != (first == "scene"):
            return False
        if self.actor is not None and first in FORMS_OF_STEPS:
            return self.rank == RANKS["actor"] and self.step(line, words)
        forms = FORMS_OF_LINES[self.scene.version or 1]
        if first not in forms or RANKS[first] < self.rank:
            return False
        self.rank = RANKS[first]
        if first == "order":
            return self.picks(words[1:])
        found = parsed(forms[first], words)
        return found is not None and self.take(first, *found)

    def take(self, first, found, more):
        """Takes a line that is of its form; false where it does not fit those before."""
        values = tuple(value for _, value in found)
        if first == "scene":
            self.begin(*values)
        elif first == "fill":
            return self.fill(values)
        elif first != "end":
            return self.declare(first, values[0], values[1:], parts_by_word(more))
        return True


def read_scene(script):
    """The scene that a script spells. Raises NoScene where it spells none."""
    if len(script) > MOST_BYTES:
        raise NoScene(f"the script has {len(script)} bytes, and may have {MOST_BYTES}")
    reader = Reader()
    for line, text in enumerate(lines_of(script), 1):
        words = texts_of(text)
        if words and not reader.add(line, words):
            raise NoScene(f"line {line} is none of a scene at its place: {text[:80]}")
    if reader.rank != RANKS["end"]:
        raise NoScene("the script ends without the line end")
    reader.scene.sort()
    return reader.scene


def further_faults(script, line):
    """The lines behind this one that are none of a scene at their places either, where it is left out."""
    reader, found = Reader(), []
    for number, text in enumerate(lines_of(script), 1):
        words = texts_of(text)
        if words and number != line and not reader.add(number, words):
            found.append(number)
    return [number for number in found if number > line]
