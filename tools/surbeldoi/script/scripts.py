"""A scene script cut into lines and words, and the steps of each actor with their places.

Nothing here decides what is a scene: that is for sf_main alone.
"""

import re
from typing import NamedTuple

END = b"\r"


class Word(NamedTuple):
    """A word of a line, with its first and last column, from 0."""

    start: int
    end: int
    text: str


class Step(NamedTuple):
    """A step of an actor: the number of its line, from 1, and its words."""

    line: int
    words: list

    def text(self):
        return " ".join(self.words)


def words_of(line):
    """The words of a line."""
    return [Word(found.start(), found.end(), found.group()) for found in re.finditer(r"[^ \t]+", line)]


def lines_of(script):
    """The lines of a script, without their ends; a byte that is no UTF-8 stands for itself, as in names of files."""
    lines = script.split(b"\n")
    if lines and not lines[-1]:
        lines.pop()
    return [(line[:-1] if line.endswith(END) else line).decode("utf-8", "surrogateescape") for line in lines]


def bytes_of(lines):
    """The script of these lines."""
    return "".join(line + "\n" for line in lines).encode("utf-8", "surrogateescape")


def texts_of(line):
    """The words of a line as texts, none where the line is skipped."""
    words = [word for word in line.replace("\t", " ").split(" ") if word]
    return [] if words and words[0].startswith("#") else words


class Script:
    """The steps of a played scene, by actor."""

    def __init__(self, steps):
        self.steps = steps

    def step_text(self, actor, number):
        """A step with its line and its words, where the script has it."""
        step = self.step(actor, number)
        return f"actor {actor} step {number}" + (f" (line {step.line}: {step.text()})" if step else "")

    def step(self, actor, number):
        """The step with this number, from 1, or None where the script has none."""
        steps = self.steps.get(actor, [])
        return steps[number - 1] if 0 < number <= len(steps) else None

    def before(self, actor, number):
        """The steps of an actor before this one, each with its number, the latest first."""
        return reversed(list(enumerate(self.steps.get(actor, [])[:number - 1], 1)))


def read_script(script):
    """The steps of a script that is a scene."""
    steps, actor = {}, None
    for line, text in enumerate(lines_of(script), 1):
        words = texts_of(text)
        if words[:1] == ["actor"] and len(words) > 1 and words[1].isdigit():
            actor = int(words[1])
            steps.setdefault(actor, [])
        elif words[:1] in (["order"], ["end"]):
            actor = None
        elif words and actor is not None:
            steps[actor].append(Step(line, words))
    return Script(steps)
