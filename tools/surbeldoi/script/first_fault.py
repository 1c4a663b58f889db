"""The first fault of a script by the rules of docs/SCRIPT.md: its line, its word and its cause, or that there is none.

It is read here from the forms of grammar.py alone, so that what sf_main tells can be compared.
"""

from typing import NamedTuple

from surbeldoi.script.grammar import CHANGES, STEPS, first_words, lines_in
from surbeldoi.script.scenes import (MOST_ACTORS, MOST_BYTES, MOST_FILLS, MOST_MIRRORS, MOST_NAMES, MOST_STEPS, NAME, PICK, RANKS, form_parts,
                                     number_of, value_of)

(NOT_UTF8, UNKNOWN_WORD, BAD_WORD, MISSING_WORD, EXTRA_WORD, OUT_OF_ORDER, UNDEFINED, TWICE, LIMIT, UNENDED, WRONG_VERSION) = range(1, 12)
FORMS = {word: [form for form in STEPS[:-1] if form.split()[0] == word] for word in first_words(STEPS[:-1])}
FORMS["set"] = ["set TX LAYER " + change for change in CHANGES]
# Lines whose second word is the number of what they declare, or the version.
DECLARING = RANKS.keys() - {"fill", "order", "end"}
MOST_TIMES = 256
COMMENT, END = b"#", b"\r"


class Fault(NamedTuple):
    """A fault: its line and its word, from 1, and its cause."""

    line: int
    word: int
    cause: int


class Found(Exception):
    """A word of the line is wrong: its place, from 1, and its cause."""

    def __init__(self, word, cause):
        super().__init__(word, cause)
        self.word, self.cause = word, cause


def split(line):
    return line.replace(b"\t", b" ").split(b" ")


class Reader:
    """Takes the lines of a script one after another, and raises Found at the first wrong word."""

    def __init__(self):
        self.version, self.rank, self.actor, self.has_picture = 1, None, None, False
        self.declared = {word: set() for word in RANKS}
        self.fills = self.steps = 0
        self.names = set()

    def is_step(self, first):
        """Whether a line with this first word is a step: `queue` is one behind the first actor alone."""
        return first in FORMS and (self.actor is not None or first != "queue")

    def may_stand(self, first):
        """Whether a line that begins a form may stand behind those before it."""
        if self.rank is None or first == "scene":
            return self.rank is None and first == "scene"
        if self.rank == RANKS["end"]:
            return False
        if self.is_step(first):
            return self.rank == RANKS["actor"]
        return RANKS[first] >= self.rank and (first != "fill" or self.has_picture)

    def is_too_many(self, first):
        if first == "mirror":
            return len(self.declared[first]) == MOST_MIRRORS
        return self.fills == MOST_FILLS if first == "fill" else self.is_step(first) and self.steps == MOST_STEPS

    def read(self, words):
        first, lines = words[0], {form.split()[0]: form for form in lines_in(self.version)}
        if first not in lines and first not in FORMS:
            raise Found(1, UNKNOWN_WORD)
        if not self.may_stand(first):
            raise Found(1, OUT_OF_ORDER)
        if self.is_too_many(first):
            raise Found(1, LIMIT)
        if first == "order":
            self.read_picks(words)
        else:
            self.walk(FORMS[first] if self.is_step(first) else [lines[first]], words)
        self.note(first, words)

    def note(self, first, words):
        """A line that is right counts for those behind it."""
        if self.is_step(first):
            self.steps += 1
            return
        self.rank = RANKS[first]
        if first == "scene":
            self.version = int(words[1])
        elif first == "fill":
            self.fills += 1
        elif first not in ("order", "end"):
            self.declare(first, int(words[1]))

    def declare(self, first, number):
        self.declared[first].add(number)
        if first == "picture":
            self.has_picture, self.fills = True, 0
        elif first == "actor":
            self.actor, self.steps, self.names = number, 0, set()

    def read_picks(self, words):
        if len(words) == 1:
            raise Found(2, MISSING_WORD)
        for place, word in enumerate(words[1:], 2):
            found = PICK.fullmatch(word)
            if not found or not 1 <= int(found[2] or 1) <= MOST_TIMES or found[1] != "v" and not 1 <= int(found[1]) <= MOST_ACTORS[self.version]:
                raise Found(place, BAD_WORD)
            if found[1] != "v" and int(found[1]) not in self.declared["actor"]:
                raise Found(place, UNDEFINED)

    def walk(self, forms, words):
        """The words of a line behind its first one, where these forms begin with it: those that go on as the words do are left."""
        forms, at = [form_parts(form) for form in forms], 1
        while any(len(needed) > at for needed, _ in forms):
            if at >= len(words):
                raise Found(at + 1, MISSING_WORD)
            forms = self.going_on([form for form in forms if len(form[0]) > at], words, at)
            at += 1
        self.walk_parts(forms[0][1], words, at)

    def going_on(self, forms, words, at):
        """The forms that have this word at this place: as a fixed one, or as one of a kind."""
        of_kind = [form for form in forms if form[0][at].isupper()]
        fixed = [form for form in forms if form not in of_kind and form[0][at] == words[at]]
        if fixed:
            return fixed
        if not of_kind:
            raise Found(at + 1, UNKNOWN_WORD)
        needed = of_kind[0][0]
        cause = self.cause_at(needed, words, at)
        if cause:
            raise Found(at + 1, cause)
        return of_kind

    def walk_parts(self, parts, words, at):
        """The words in brackets at the end of a line."""
        while at < len(words):
            chosen = next((number for number, (part, _) in enumerate(parts) if part[0] == words[at]), None)
            if chosen is None:
                raise Found(at + 1, UNKNOWN_WORD if parts else EXTRA_WORD)
            part, repeats = parts[chosen]
            for place, kind in enumerate(part[1:], at + 1):
                cause = self.cause_of(kind, words[place]) if place < len(words) else MISSING_WORD
                if cause:
                    raise Found(place + 1, cause)
            at, parts = at + len(part), parts[chosen if repeats else chosen + 1:]

    def cause_at(self, needed, words, at):
        """What is wrong with a needed word of a form, or nothing."""
        kind, word = needed[at], words[at]
        if at == 1 and needed[0] in DECLARING and not self.is_step(needed[0]):
            return self.cause_of_declared(needed[0], kind, word)
        if kind == "NAME" and needed[at - 1] == "as":
            return self.cause_of_given(word)
        return self.cause_of(kind, word)

    def cause_of_declared(self, first, kind, word):
        """What is wrong with the number that a line declares, or with the version."""
        if first == "scene":
            number = number_of("COUNT", word)
            return BAD_WORD if not number else WRONG_VERSION if number > max(MOST_ACTORS) else None
        number = value_of(kind, word)
        if number is None or first == "actor" and number > MOST_ACTORS[self.version]:
            return BAD_WORD
        return TWICE if number in self.declared[first] else None

    def cause_of_given(self, word):
        """What is wrong with a name that a step gives; it is given by then, where nothing is."""
        if not NAME.fullmatch(word):
            return BAD_WORD
        if word not in self.names and len(self.names) == MOST_NAMES:
            return LIMIT
        self.names.add(word)
        return None

    def cause_of(self, kind, word):
        """What is wrong with a word of a kind."""
        value = value_of(kind, word)
        if value is None:
            return BAD_WORD
        declared = self.names if kind == "NAME" else self.declared.get(kind.lower())
        return UNDEFINED if kind in ("NAME", "TIMELINE", "QUEUE", "PICTURE") and value not in declared else None


def first_fault(script):
    """The first fault of a script, or None where it is a scene."""
    if len(script) > MOST_BYTES:
        return Fault(0, 0, LIMIT)
    lines, reader = script.split(b"\n"), Reader()
    if not lines[-1]:
        lines.pop()
    for number, line in enumerate(lines, 1):
        words = [word for word in split(line[:-1] if line.endswith(END) else line) if word]
        if not words or words[0].startswith(COMMENT):
            continue
        try:
            reader.read([word.decode() for word in words])
        except UnicodeDecodeError:
            return Fault(number, 0, NOT_UTF8)
        except Found as found:
            return Fault(number, found.word, found.cause)
    return None if reader.rank == RANKS["end"] else Fault(len(lines) + 1, 0, UNENDED)
