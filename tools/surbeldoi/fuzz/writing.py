"""Scenes written as scripts: plainly, or with all that a script may have besides its words."""

from itertools import groupby

from surbeldoi.fuzz.forms import words_of
from surbeldoi.script.grammar import FORMATS

VSYNC = 0
MOST_TIMES = 256


def line(*words):
    return [str(word) for word in words]


def declarations(scene):
    """The lines of what stands with the timelines. Those of mirrors keep their order."""
    yield from (line("timeline", number) for number in scene.timelines)
    yield from (line("display", number, *display) for number, display in scene.displays.items())
    yield from (line("stack", *stack) for stack in scene.stacks.items())
    yield from (line("capture", number, *capture) for number, capture in scene.captures.items())
    yield from (line("hit", number, *point) for number, point in scene.hits.items())
    yield from (line("mirror", *mirror) for mirror in scene.mirrors.items())


def picture_lines(number, picture):
    form = [] if picture.format == FORMATS[0] else ["format", picture.format]
    yield line("picture", number, picture.width, picture.height, *form)
    for *area, colour in picture.fills:
        yield line("fill", *area, colour.hex())


def body(scene):
    """The lines of queues, pictures and actors."""
    yield from (line("queue", number, *size) for number, size in scene.queues.items())
    for number, picture in scene.pictures.items():
        yield from picture_lines(number, picture)
    for number, steps in scene.actors.items():
        yield line("actor", number)
        yield from map(words_of, steps)


def pick_words(picks):
    """Picks, each an actor or the vsync, as words: as many of the same as may be in one."""
    for number, same in groupby(picks):
        left = len(list(same))
        name = "v" if number == VSYNC else str(number)
        while left:
            times = min(left, MOST_TIMES)
            yield name if times == 1 else f"{name}*{times}"
            left -= times


def order_lines(picks, width=12):
    words = list(pick_words(picks))
    for at in range(0, len(words), width):
        yield ["order"] + words[at:at + width]


def lines_of(scene, picks, declared=None):
    """All lines of a scene as lists of words; `declared` has those of declarations in another order."""
    return [line("scene", scene.version, scene.width, scene.height, scene.period), *(declared or declarations(scene)), *body(scene),
            *order_lines(picks), ["end"]]


def plain(lines):
    """Lines as the bytes of a script."""
    return "".join(" ".join(words) + "\n" for words in lines).encode()


class Style:
    """Writes lines with blanks, comments, empty lines, zeros before numbers and other ends of lines."""

    def __init__(self, dice):
        self.dice = dice
        self.often = dice.one((0.02, 0.2, 0.6))
        self.ends = dice.one((b"\n", b"\n", b"\r\n"))

    def blank(self):
        return b"".join(self.dice.one((b" ", b"\t")) for _ in range(self.dice.between(1, 3))) if self.dice.chance(self.often) else b" "

    def word(self, text):
        """A word, a number of it perhaps with zeros before it, and perhaps in capitals where these count for nothing."""
        if not self.dice.chance(self.often):
            return text.encode()
        sign, digits = ("-", text[1:]) if text.startswith("-") else ("", text)
        if digits.isdigit() and len(digits) != 8:
            return (sign + "0" * self.dice.between(0, 20 - len(digits)) + digits).encode()
        return text.encode()

    def skipped(self):
        """A line that counts and says nothing."""
        return self.dice.one((b"", b"  \t", b"# a comment", b"#", b"\t# scene 3", b"# \xff\xfe is no UTF-8", b"#end")) + self.ends

    def line(self, words):
        before = self.blank() if self.dice.chance(self.often / 4) else b""
        after = self.blank() if self.dice.chance(self.often / 4) else b""
        text = before + b"".join(self.blank() + self.word(word) for word in words).lstrip(b" \t") + after
        return text + (self.dice.one((b"\n", b"\r\n")) if self.dice.chance(0.05) else self.ends)

    def script(self, lines):
        pieces = []
        for words in lines:
            while self.dice.chance(self.often / 4):
                pieces.append(self.skipped())
            pieces.append(self.line(words))
        text = b"".join(pieces)
        return text.rstrip(b"\r\n") if self.dice.chance(0.2) else text
