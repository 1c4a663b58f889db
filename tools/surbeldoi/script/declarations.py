"""What the lines of a scene script above its actors declare: its pictures and queues, and what it shows them on."""

from typing import NamedTuple

from surbeldoi.script.scripts import lines_of, texts_of


class Picture(NamedTuple):
    """A picture: its size, its fills, each as x, y, width, height and the colour's digits, and its format. The last fill that
    covers a pixel counts."""

    width: int
    height: int
    fills: list
    format: str


class Declarations:
    """The pictures of a scene, the sizes of its queues, the sizes and stacks of its further displays, the layers and sizes of its
    captures, the points of its hits, each by its number; the stacks of layers; and of each mirror the layer that it shows."""

    def __init__(self):
        self.pictures, self.queues, self.displays, self.captures, self.hits, self.stacks, self.mirrors = {}, {}, {}, {}, {}, {}, {}
        self.last = None

    def read(self, word, *rest):
        """One more line."""
        if word == "picture":
            number, width, height, *form = rest
            self.last = self.pictures[int(number)] = Picture(int(width), int(height), [], *form[1:] or ("rgba",))
        elif word == "fill":
            self.last.fills.append([*map(int, rest[:4]), rest[4].lower()])
        elif word in ("stack", "mirror"):
            {"stack": self.stacks, "mirror": self.mirrors}[word][int(rest[0])] = int(rest[1])
        elif word in ("queue", "display", "capture", "hit"):
            number, *values = map(int, rest)
            {"queue": self.queues, "display": self.displays, "capture": self.captures, "hit": self.hits}[word][number] = tuple(values)


def read_declarations(script):
    """The declarations of a script that is a scene."""
    declarations = Declarations()
    for text in lines_of(script):
        words = texts_of(text)
        if words[:1] == ["actor"]:
            break
        if words:
            declarations.read(*words)
    return declarations
