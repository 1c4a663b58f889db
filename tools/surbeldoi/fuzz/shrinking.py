"""Makes scenes small on which something fails, keeping them scenes; and faulty scripts, keeping them faulty as they are.

A scene is taken apart into its lines and the turns of its order. Parts are left out as long as it fails, many at once at first,
then one by one; then words are made simple. What a line left out declares or gives takes the lines with it that name it.
"""

from itertools import chain

from surbeldoi.fuzz.forms import kinds_in
from surbeldoi.fuzz.writing import VSYNC, order_lines, plain
from surbeldoi.script.first_fault import Found, Reader, first_fault
from surbeldoi.script.scenes import PICK
from surbeldoi.script.scripts import lines_of, texts_of

MOST_ASKED = 4000
LEAST_PERIOD = 1_000_000
SIMPLE_COLOURS = ("000000ff", "ff0000ff")
# What is given another name or number wherever it is named, and the simple ones, the simplest first.
FEW = [str(number) for number in range(1, 65)]
RENAMED = {"ACTOR": FEW, "QUEUE": FEW[:16], "PICTURE": FEW, "TIMELINE": FEW, "LAYER": FEW, "TX": FEW, "TOKEN": FEW, "NAME": list("abcdefghijklmnopqrstuvwxyz"),
           "SIZE": FEW[:8]}
SIZES = ("BWIDTH", "BHEIGHT", "AWIDTH", "AHEIGHT")
# The words that begin the parts in brackets, with how many words each has.
PARTS = {"size": 3, "time": 2, "crop": 5, "fence": 3, "at": 2, "format": 2}


class Draft:
    """A scene taken apart: its lines above the actors, its actors with their steps, all as lists of words, and its turns."""

    def __init__(self, head, actors, turns):
        self.head, self.actors, self.turns = head, actors, turns

    def script(self):
        steps = chain.from_iterable([["actor", number], *steps] for number, steps in self.actors)
        return plain([*self.head, *steps, *order_lines(self.turns), ["end"]])


def readable(reader, lines):
    """The lines of these that are right behind those that a reader has read."""
    for words in lines:
        names = set(reader.names)
        try:
            reader.read(words)
            yield words
        except Found:
            reader.names = names


def settled_of(draft):
    """A draft without the lines that name what is not there any more; None where no scene is left."""
    reader, numbers = Reader(), {int(number) for number, _ in draft.actors}
    head, actors = list(readable(reader, draft.head)), []
    for number, steps in draft.actors:
        if not list(readable(reader, [["actor", number]])):
            return None
        actors.append((number, list(readable(reader, steps))))
    return Draft(head, actors, [turn for turn in draft.turns if turn in numbers or turn == VSYNC]) if head and head[0] == draft.head[0] else None


def turns_of(words):
    """The turns of a line of the order: VSYNC, or an actor's number."""
    for word in words[1:]:
        found = PICK.fullmatch(word)
        yield from [VSYNC if found[1] == "v" else int(found[1])] * int(found[2] or 1)


def draft_of(script):
    """A scene taken apart. Comments are left out, and zeros before numbers."""
    head, actors, turns = [], [], []
    for words in filter(None, map(texts_of, lines_of(script))):
        words = [word.lstrip("0") or "0" if word.isdigit() and len(word) != 8 else word for word in words]
        if words[0] == "order":
            turns += turns_of(words)
        elif words[0] == "actor":
            actors.append((words[1], []))
        elif words[0] != "end":
            (actors[-1][1] if actors else head).append(words)
    return Draft(head, actors, turns)


def chunks(count):
    """Ranges of so many things to leave out: halves first, then quarters, up to each alone, from the last to the first."""
    size = count
    while size >= 1:
        yield from ((max(0, end - size), end) for end in range(count, 0, -size))
        size //= 2


class Shrinker:
    """Makes a draft small. `fails` tells whether something fails on a script; `most` is how often it is asked at most."""

    def __init__(self, draft, fails, most):
        self.draft, self.fails, self.left, self.known = draft, fails, most, {}

    def accepts(self, draft):
        """Takes a draft in place of the one so far, where it is a scene on which it fails."""
        settled = settled_of(draft) if self.left > 0 else None
        if settled is None:
            return False
        script = settled.script()
        if script == self.draft.script():
            return False
        if script not in self.known:
            self.left -= 1
            self.known[script] = self.fails(script)
        if self.known[script]:
            self.draft = settled
        return self.known[script]

    def leave_out(self, count_of, without):
        """Leaves out as many things as may be: `count_of(draft)` is how many there are, `without(draft, begin, end)` the draft
        without some of them."""
        found, done = False, False
        while not done:
            done = True
            for begin, end in chunks(count_of(self.draft)):
                if self.left <= 0:
                    return found
                if end <= count_of(self.draft) and self.accepts(without(self.draft, begin, end)):
                    found, done = True, False
        return found

    def without_actors(self):
        return self.leave_out(lambda draft: len(draft.actors), lambda draft, begin, end: Draft(draft.head, draft.actors[:begin] + draft.actors[end:], draft.turns))

    def without_steps(self, with_turns):
        return self.leave_out(lambda draft: sum(len(steps) for _, steps in draft.actors), lambda draft, begin, end: without_steps(draft, begin, end, with_turns))

    def without_turns(self):
        return self.leave_out(lambda draft: len(draft.turns), lambda draft, begin, end: Draft(draft.head, draft.actors, draft.turns[:begin] + draft.turns[end:]))

    def without_head(self):
        return self.leave_out(lambda draft: len(draft.head) - 1, lambda draft, begin, end: Draft(draft.head[:begin + 1] + draft.head[end + 1:], draft.actors, draft.turns))

    def simple_words(self):
        """Makes each word simple, and leaves out words in brackets."""
        return any([self.simple_line(line) for line in range(len(lines_in(self.draft)))])

    def simple_line(self, line):
        found, at = False, 1
        while line < len(lines_in(self.draft)) and at < len(lines_in(self.draft)[line]):
            words = lines_in(self.draft)[line]
            ways = [words[:at] + words[at + PARTS[words[at]]:]] if words[at] in PARTS else []
            ways += [words[:at] + [simple] + words[at + 1:] for simple in simpler(words[at])]
            if any(self.accepts(with_line(self.draft, line, way)) for way in ways):
                found = True
            else:
                at += 1
        return found

    def simple_numbers(self):
        """Gives simple numbers and names to what has others, wherever it is named; a size everywhere at once, too."""
        return any([self.renamed(kind) for kind in RENAMED])

    def renamed(self, kind):
        found, simple = False, RENAMED[kind]
        for word in named_as(self.draft, kind):
            used = named_as(self.draft, kind)
            better = [other for other in simple[:simple.index(word) if word in simple else None] if other not in used or kind == "SIZE"]
            found = any(self.accepts(with_names(self.draft, kind, word, other)) for other in better[:3]) or found
        return found

    def shrink(self):
        """Makes the draft as small as it gets."""
        while self.left > 0:
            found = [self.without_actors(), self.without_steps(True), self.without_turns(), self.without_steps(False), self.without_head(), self.simple_numbers(),
                     self.simple_words()]
            if not any(found):
                break
        return self.draft


def simpler(word):
    """Words that are simpler than this one, the simplest first: smaller numbers, or simple colours."""
    number, ways = word.lstrip("-"), []
    if number.isdigit():
        ways += [str(value) for value in (0, 1, 2, LEAST_PERIOD, int(number) // 2, int(number) - 1) if value < int(number)]
        ways += [number] if word != number else []
    if len(word) == 8 and all(digit in "0123456789abcdefABCDEF" for digit in word):
        ways += SIMPLE_COLOURS[:SIMPLE_COLOURS.index(word) if word in SIMPLE_COLOURS else None]
    return list(dict.fromkeys(ways))


def lines_in(draft):
    """All lines of a draft that have words to make simple, the steps last."""
    return [*draft.head, *chain.from_iterable(steps for _, steps in draft.actors)]


def with_line(draft, line, words):
    """A draft with another line at a place of `lines_in`."""
    lines = lines_in(draft)
    lines[line] = words
    head, at, actors = lines[:len(draft.head)], len(draft.head), []
    for number, steps in draft.actors:
        actors.append((number, lines[at:at + len(steps)]))
        at += len(steps)
    return Draft(head, actors, draft.turns)


def kind_of(word):
    """What a word of a form names, as far as names are given anew."""
    return "LAYER" if word == "PARENT" else "SIZE" if word in SIZES else word


def named_as(draft, kind):
    """What lines name as one of a kind, each once."""
    if kind == "ACTOR":
        return [number for number, _ in draft.actors]
    lines = [(words, at >= len(draft.head)) for at, words in enumerate(lines_in(draft))]
    return list(dict.fromkeys(word for words, is_step in lines for word, of in zip(words, kinds_in(words, is_step)) if kind_of(of) == kind and word not in ("none", "0")))


def with_names(draft, kind, old, new):
    """A draft in which what has a name or a number has another."""
    if kind == "ACTOR":
        actors = sorted(((new if number == old else number, steps) for number, steps in draft.actors), key=lambda actor: int(actor[0]))
        return Draft(draft.head, actors, [int(new) if turn == int(old) else turn for turn in draft.turns])

    def with_name(words, is_step):
        return [new if word == old and kind_of(of) == kind else word for word, of in zip(words, kinds_in(words, is_step))]
    return Draft([with_name(words, False) for words in draft.head], [(number, [with_name(words, True) for words in steps]) for number, steps in draft.actors], draft.turns)


def without_steps(draft, begin, end, with_turns):
    """A draft without some steps, counted over all actors, and without the turns in which they were taken, if no step waited."""
    at, actors, gone = 0, [], set()
    for number, steps in draft.actors:
        left = [step for place, step in enumerate(steps, at) if not begin <= place < end]
        gone.update((int(number), place - at) for place in range(max(begin, at), min(end, at + len(steps))))
        actors.append((number, left))
        at += len(steps)
    return Draft(draft.head, actors, list(kept_turns(draft.turns, gone)) if with_turns else draft.turns)


def kept_turns(turns, gone):
    """The turns but those in which an actor takes one of these steps, each an actor and the place of a step, from 0."""
    taken = {}
    for turn in turns:
        place = taken.get(turn, 0)
        taken[turn] = place + 1
        if (turn, place) not in gone:
            yield turn


def shrunk_lines(script, fails, most):
    """A script of whatever lines, with as few of them and as few words in them as may be."""
    lines, left = script.split(b"\n"), [most]

    def accepts(some):
        left[0] -= 1
        return left[0] >= 0 and fails(b"\n".join(some))

    def pass_over(parts, joined):
        """Leaves out parts of a whole, where what they are joined to fails still."""
        for begin, end in chunks(len(parts)):
            if end <= len(parts) and accepts(joined(parts[:begin] + parts[end:])):
                parts = parts[:begin] + parts[end:]
        return parts

    before = None
    while before != lines and left[0] > 0:
        before = list(lines)
        lines = pass_over(lines, lambda some: some)
        for at in range(len(lines)):
            words = pass_over(lines[at].split(b" "), lambda some: lines[:at] + [b" ".join(some)] + lines[at + 1:])
            lines[at] = b" ".join(words)
    return b"\n".join(lines)


def shrunk(script, fails, most=MOST_ASKED):
    """A script as small as it gets on which something fails: a scene where it was one."""
    if first_fault(script) is not None:
        return shrunk_lines(script, fails, most)
    draft = draft_of(script)
    if not fails(draft.script()):
        return script
    return Shrinker(draft, fails, most).shrink().script()
