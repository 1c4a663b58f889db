"""Random faulty scripts: scenes with one thing changed or several, so that most are no scenes any more."""

from surbeldoi.fuzz.dice import Dice
from surbeldoi.fuzz.limits import Limit
from surbeldoi.fuzz.scenes import random_lines
from surbeldoi.fuzz.writing import Style, plain
from surbeldoi.script.grammar import SECOND, STEPS, WORDS, first_words, lines_in
from surbeldoi.script.scenes import MOST_BYTES, MOST_FILLS, MOST_MIRRORS, MOST_NAMES, MOST_STEPS, RANGES, U32, U64

# Bytes that are no UTF-8: a lone and a cut one, an overlong one, half a pair, one beyond the last, one that never stands.
NOT_UTF8 = (b"\x80", b"\xc3", b"\xe2\x82", b"\xc0\xaf", b"\xed\xa0\x80", b"\xf4\x90\x80\x80", b"\xf8", b"\xff")
# Words that are wrong in most places.
STRANGE = ("", "-", "+1", "-0", "-1", "0x1", "1.0", "1e3", "\u0661", "\uff11", "\u00b2", "#", "#1", "\u00a0", "\ufeff", "\u200b1", "V", "v*", "*", "1*", "*1", "1*0", "v*257", "1**2",
           "1*2*3", "v*256", "none", "NONE", "as", "at", "fence", "token", "crop", "time", "size", "format", "a" * 16, "a" * 17, "_a", "1a", "a-b", "\u00e9", "ff0000ff",
           "FF0000FF", "ff0000f", "ff0000fff", "gg0000ff", "0" * 20, "0" * 21, "0" * 19 + "1", "9" * 20, "9" * 21, "true", "yes")
FIRST = tuple(dict.fromkeys(first_words(lines_in(1)) + first_words(SECOND) + first_words(STEPS) + list(WORDS)))
ENDS = tuple(sorted({number + beside for low_high in RANGES.values() for number in low_high for beside in (-1, 0, 1)} | {U32, U32 + 1, U64 + 1, 17, 65, 256, 257}))
TURNS = 25


# What there may be only so many of: how often it is taken, the first word of the line that they stand behind, how many, and their words.
MANY = ((1, ("picture", MOST_FILLS, lambda number: ["fill", "0", "0", "1", "1", "00000000"])), (1, ("actor", MOST_STEPS, lambda number: ["tx", "1"])),
        (4, ("actor", MOST_NAMES, lambda number: ["acquire", "1", "as", f"m{number}"])), (4, ("scene", MOST_MIRRORS, lambda number: ["mirror", str(900 + number), "1"])))


class Damage:
    """Changes the lines of a scene, which are lists of words; `raw` has what is put behind the words of a line as bytes."""

    def __init__(self, dice, lines):
        self.dice, self.lines, self.raw = dice, lines, []

    def at(self, *firsts):
        """The place of a line, of one with one of these first words where there is one; lines are seldom chosen by chance alone, as
        scenes have many of some kinds."""
        first = firsts or (self.dice.one(list(dict.fromkeys(words[0] for words in self.lines if words))),)
        places = [place for place, words in enumerate(self.lines) if words and words[0] in first]
        return self.dice.one(places) if places else self.dice.below(len(self.lines))

    def word(self):
        """A word from anywhere."""
        return self.dice.weighted([(3, self.dice.one(STRANGE)), (3, str(self.dice.one(ENDS))), (2, self.dice.one(FIRST)), (1, self.dice.one(self.dice.one(self.lines) or ["x"]))])

    def other_word(self):
        words = self.lines[self.at()]
        if words:
            words[self.dice.below(len(words))] = self.word()

    def near_word(self):
        """A word in capitals, with a letter more or less, or a number a little beside."""
        words = self.lines[self.at()]
        at = self.dice.below(len(words)) if words else 0
        for text in words[at:at + 1]:
            number = [str(int(text) + self.dice.one((-1, 1, 256, 1000, U32)))] if text.isascii() and text.isdigit() and len(text) < 19 else []
            words[at] = self.dice.one(number + [text.upper(), text[:-1], text + text[-1:], text + "\u0301", "-" + text])

    def more_words(self):
        words = self.lines[self.at()]
        at = self.dice.one((len(words), self.dice.below(len(words) + 1)))
        words[at:at] = [self.word() for _ in range(self.dice.one((1, 1, 2, 5)))]

    def more_parts(self):
        """Words in brackets behind a step, in any order, again, or where there are none."""
        parts = (["time", "5"], ["crop", "0", "0", "1", "1"], ["fence", "1", "1"], ["size", "2", "2"], ["at", "0"], ["format", "rgbx"], ["token", "1"])
        words = self.lines[self.at("queue", "queue", "cancel", "release", "dequeue", "dequeuewait", "acquire", "picture") if self.dice.chance(0.8) else self.at()]
        for part in self.dice.some(parts, self.dice.between(1, 3)):
            words += part[:self.dice.between(1, len(part))] if self.dice.chance(0.3) else part

    def fewer_words(self):
        words = self.lines[self.at()]
        if self.dice.chance(0.6):
            del words[self.dice.below(len(words) + 1):]
        elif words:
            del words[self.dice.below(len(words))]

    def swapped_words(self):
        words = self.lines[self.at()]
        if len(words) > 1:
            at = self.dice.below(len(words) - 1)
            words[at:at + 2] = words[at + 1], words[at]

    def without_line(self):
        del self.lines[self.at()]
        self.lines = self.lines or [[]]

    def without_lines(self):
        """Some or all lines with the same first word are gone."""
        firsts = self.dice.one(self.lines)[:1]
        share = self.dice.one((0.5, 1))
        self.lines = [words for words in self.lines if words[:1] != firsts or not self.dice.chance(share)] or [[]]

    def line_again(self):
        words = self.lines[self.at()]
        self.lines.insert(self.dice.below(len(self.lines) + 1), list(words))

    def moved_line(self):
        words = self.lines.pop(self.at())
        self.lines.insert(self.dice.below(len(self.lines) + 1), words)

    def strange_line(self):
        """A line of any form at any place, mostly with values that could be right."""
        form = self.dice.one(lines_in(1) + SECOND + STEPS).split()
        words = [word if word.islower() else str(self.dice.between(1, 3)) for word in (word.strip("[]*") for word in form)]
        self.lines.insert(self.dice.below(len(self.lines) + 1), words)

    def behind_end(self):
        self.lines.append(self.dice.one((["end"], ["order", "v"], ["# no fault"], ["x"], ["tx", "1"], list(self.dice.one(self.lines)))))

    def without_end(self):
        self.lines = self.lines[:self.dice.below(len(self.lines))]

    def other_version(self):
        for words in self.lines[:1]:
            words[1:2] = [self.dice.one(("0", "1", "2", "2", "3", "4294967295", "4294967296", "02", "v1"))]

    def not_utf8(self):
        self.raw.append((self.at() if self.lines else 0, self.dice.one(NOT_UTF8)))

    def lines_behind(self, first, count, words_of):
        """So many lines behind one with this first word."""
        at = self.at(first)
        self.lines[at + 1:at + 1] = [words_of(number) for number in range(count)]

    def limit(self):
        """One more than there may be of something, or just so many."""
        first, most, words_of = self.dice.weighted(MANY)
        self.lines_behind(first, most + self.dice.below(2), words_of)

    def script(self, style):
        """The lines as a script."""
        text = style.script(self.lines) if style else plain(self.lines)
        if not self.raw:
            return text
        lines = text.split(b"\n")
        for at, more in self.raw:
            line = lines[min(at, len(lines) - 1)]
            cut = self.dice.below(len(line) + 1)
            lines[min(at, len(lines) - 1)] = line[:cut] + more + line[cut:]
        return b"\n".join(lines)


KINDS = ((8, Damage.other_word), (6, Damage.near_word), (4, Damage.more_words), (4, Damage.more_parts), (5, Damage.fewer_words), (2, Damage.swapped_words),
         (3, Damage.without_line), (2, Damage.without_lines), (3, Damage.line_again), (3, Damage.moved_line), (3, Damage.strange_line), (1, Damage.behind_end),
         (1, Damage.without_end), (1, Damage.other_version), (1.5, Damage.not_utf8), (0.7, Damage.limit))


def damaged_bytes(dice, text):
    """A script with a byte changed, or cut off, or longer than it may be."""
    at = dice.below(len(text) + 1)
    changed = text[:at] + bytes((dice.below(256),)) + text[at + 1:]
    return dice.weighted([(5, changed), (3, text[:at]), (0.4, text + b"#" * (MOST_BYTES + dice.below(2) - len(text))), (0.3, b""), (0.3, b"\n\n# nothing\n")])


def faulty_script(seed):
    """The faulty script of a seed. Some are scenes after all."""
    dice = Dice(2, seed)
    lines = random_lines(dice, Limit(dice, 0), dice.between(0, TURNS))
    damage = Damage(dice, lines)
    style = Style(dice) if dice.chance(0.15) else None
    if dice.chance(0.06):
        return damaged_bytes(dice, damage.script(style))
    for _ in range(dice.weighted([(6, 1), (2, 2), (1, 4)])):
        if any(damage.lines):
            dice.weighted(KINDS)(damage)
    return damage.script(style)
