"""A fault of a script shown at its place, as compilers do, with what would be right there."""

import unicodedata

from surbeldoi.records.wording import FAULTS, named
from surbeldoi.script.bad_words import BYTE_ORDER_MARK, bad_word_rule, guess, hidden_rule
from surbeldoi.script.grammar import CHANGES, DECLARED, LINES, SECOND, STEPS, WORDS, first_words, form_text, forms_of, lines_in, place_in, shown
from surbeldoi.script.scenes import MOST_BYTES, RANKS as RANKS_OF, further_faults
from surbeldoi.script.scripts import lines_of, texts_of, words_of
from surbeldoi.texts import BYTES, escape, is_hidden, visible

# How much of a line is shown, and how many further lines are told.
MOST_COLUMNS, MOST_TOLD = 120, 10
UNKNOWN_WORD, BAD_WORD, EXTRA_WORD, OUT_OF_ORDER, UNDEFINED, TWICE, LIMIT, UNENDED = 2, 3, 5, 6, 7, 8, 9, 10
MEANINGS = {
    1: "the line is not UTF-8",
    2: "the word begins no form, or another word has to stand here",
    3: "the word is not of its form and range",
    4: "the line ends where a word is needed",
    5: "the form has ended before this word",
    6: "a line of this form may not stand here",
    7: "no line above declares this number, or gives this name",
    8: "it is declared already",
    9: "there are too many of them",
    10: "the script ends without the line end",
    11: "there is no such version",
}
RANKS = ("scene", "timeline", "queue", "picture and its fills", "actor and its steps", "order", "end")
SECOND_RANKS = ("scene", "timeline, display, stack, capture, hit and mirror") + RANKS[2:]
# Which declarations a word of a kind names.
NAMED_BY = {"TIMELINE": "timeline", "QUEUE": "queue", "PICTURE": "picture", "PICK": "actor"}
LIMITS = {"fill": "a picture has at most 1024 fills", "mirror": "a scene has at most 8 mirrors"}


class Above:
    """What the lines above a place say."""

    def __init__(self, lines):
        self.lines = [(number, words) for number, words in enumerate(map(texts_of, lines), 1) if words]
        self.has_actor = any(words[0] == "actor" for _, words in self.lines)
        self.version = 2 if any(words[0] == "scene" and words[1:] and words[1].lstrip("0") == "2" for _, words in self.lines) else 1

    def declared(self, first_word):
        """The numbers that lines with this first word declare, each with its line."""
        number_of_actor = next((number for number, words in self.lines if words[0] == "actor"), None)
        return {words[1].lstrip("0"): number for number, words in self.lines
                if words[0] == first_word and len(words) > 1 and (first_word == "actor" or number_of_actor is None or number < number_of_actor)}

    def names(self):
        """The names that the last actor has given, in order."""
        names = []
        for _, words in self.lines:
            if words[0] == "actor":
                names = []
            names += [name for word, name in zip(words, words[1:]) if word == "as" and name not in names]
        return names


def names_rule(kind, above):
    """Which numbers or names may stand for a word of a kind that has to be declared above."""
    if kind == "NAME":
        given = above.names()
        return "names given above: " + ", ".join(given) if given else "this actor has given no name yet: `as NAME` in a step gives one"
    first_word = NAMED_BY[kind]
    numbers = list(above.declared(first_word))
    return f"declared above: {first_word} " + ", ".join(numbers) if numbers else f"no {first_word} is declared above"


def kind_rule(kind, form, place):
    """What a word of a form has to be."""
    first_word = form.split()[0]
    if place == 1 and first_word in DECLARED and form in LINES + SECOND:
        return f"{shown(kind)}: a number that no {first_word} line above has, {DECLARED[first_word]}"
    return f"{shown(kind)}: {WORDS[kind]}"


def order_rules(words, above):
    """Why a line may not stand where it does."""
    ranks = SECOND_RANKS if above.version == 2 else RANKS
    rules = ["lines stand in this order: " + "; ".join(ranks)]
    if not above.lines:
        return ["the first line is: " + form_text(LINES[0])]
    number, last = above.lines[-1]
    if last[0] == "end":
        return [f"nothing stands behind the line end, which is line {number}"]
    if words[:1] == ["fill"] and not above.declared("picture"):
        return ["a fill stands behind its picture, and there is no picture above"] + rules
    if words[0] in first_words(STEPS) and not above.has_actor:
        return ["a step stands behind its actor, and there is no actor above"] + rules
    return [f"line {number} stands above: {' '.join(last[:6])}"] + rules


def limit_rule(words, word):
    if word > 1:
        return "an actor has at most 32 names"
    return LIMITS.get(words[0], "an actor has at most 4096 steps")


def twice_rules(words, above):
    line = above.declared(words[0]).get(words[1].lstrip("0"))
    return [f"{words[0]} {words[1]} is declared in line {line}"] if line else []


def words_there(above):
    """The words that a line may begin with behind those above."""
    if not above.lines:
        return ["scene"]
    last, words = above.lines[-1][1][0], first_words(lines_in(above.version))
    if last == "end":
        return []
    if above.has_actor and last not in ("order",):
        return first_words(STEPS) + ["actor", "order", "end"]
    begin = RANKS_OF.get(last, 0)
    return [word for word in words if RANKS_OF[word] >= begin and word != "scene" and (word != "fill" or above.declared("picture"))]


def first_word_rules(words, above):
    """What a line may begin with."""
    there = words_there(above)
    near = guess(words[0], there) or guess(words[0].lstrip(BYTE_ORDER_MARK), there)
    rules = [hidden_rule(words[0]), f"is {near} meant?" if near else None,
             "a line begins with one of: " + ", ".join(there) if there else "nothing stands behind the line end"]
    if words[0] in first_words(SECOND) and above.version == 1:
        rules.insert(0, f"{words[0]} is a form of version 2")
    return [rule for rule in rules if rule]


def extra_rules(words, word, above):
    """What a word that is one too many may be meant as."""
    text = words[word - 1]
    if text.startswith("#"):
        return ["a comment has a line of its own, which begins with #"]
    if (words[0], text) == ("picture", "format") and above.version == 1:
        return ["format is a form of version 2"]
    return []


def queue_rules(words, word, above):
    """What a step `queue` may be meant as whose name is a number."""
    if above.has_actor and words[0] == "queue" and word == 2 and words[1:2] and words[1].isdigit():
        return ["queues are declared above the first actor: behind one, queue is a step on a buffer"]
    return []


def kinds_at(words, word, cause, above):
    """The forms that a line may be meant as, and the fixed words and the kinds that they want at the place of the fault, each kind with
    its form."""
    forms = forms_of(words, above.has_actor, above.version)
    wanted = [(kind, form) for form in forms for kind in (place_in(form, words, word - 1) if cause != EXTRA_WORD else None) or []]
    fixed = [other for kind, _ in wanted for other in (first_words(CHANGES) if kind == "CHANGE" else [kind] if kind not in WORDS else [])]
    return forms, list(dict.fromkeys(fixed)), [(kind, form) for kind, form in wanted if kind != "CHANGE" and kind in WORDS]


def wrong_rules(words, word, cause, kinds, fixed, above):
    """What is wrong with the word itself, as far as that is plain."""
    if cause == EXTRA_WORD:
        return extra_rules(words, word, above)
    if word > len(words):
        return []
    if cause == BAD_WORD:
        found = [bad_word_rule(kind, words[word - 1]) for kind, _ in kinds]
        return queue_rules(words, word, above) + [rule for rule in found if rule][:1]
    near = guess(words[word - 1], fixed)
    return [rule for rule in (hidden_rule(words[word - 1]), f"is {near} meant?" if near else None) if rule]


def word_rules(words, word, cause, above):
    """What is wrong with a word, the forms that the line may be meant as, and what they want at its place."""
    forms, fixed, kinds = kinds_at(words, word, cause, above)
    rules = wrong_rules(words, word, cause, kinds, fixed, above) + [f"the form is: {form_text(form)}" for form in forms]
    if fixed:
        rules.append(("the word " if len(fixed) == 1 else "one of the words: ") + ", ".join(fixed))
    for kind, form in kinds:
        is_named = cause == UNDEFINED and (kind == "NAME" or kind in NAMED_BY)
        rules.append(names_rule(kind, above) if is_named else kind_rule(kind, form, word - 1))
    return list(dict.fromkeys(rules))


def rules_for(lines, line, word, cause):
    """What would be right at the place of a fault, as lines of text."""
    words, above = texts_of(lines[line - 1]), Above(lines[:line - 1])
    if cause == UNENDED:
        return ["the last line is: end"]
    if not words or word == 0:
        return []
    if cause == OUT_OF_ORDER:
        return order_rules(words, above)
    if cause == UNKNOWN_WORD and word == 1:
        return first_word_rules(words, above)
    if cause == LIMIT:
        return [limit_rule(words, word)]
    more = twice_rules(words, above) if cause == TWICE else []
    return word_rules(words, word, cause, above) + more


def columns_of(text, word):
    """The first and last letter of a word of a line, from 0: of the whole line for word 0, or of what of it is no UTF-8, and behind it for a
    word too few."""
    found = words_of(text)
    if 0 < word <= len(found):
        return found[word - 1].start, found[word - 1].end
    if word:
        return len(text) + 1, len(text) + 2
    wrong = [place for place, letter in enumerate(text) if ord(letter) in BYTES]
    return (wrong[0], wrong[0] + 1) if wrong else (0, max(len(text), 1))


def cell_of(letter):
    """A letter as it is shown, and how many columns of a terminal it takes."""
    if letter == "\t":
        return " ", 1
    if is_hidden(letter):
        return escape(letter), len(escape(letter))
    return letter, 0 if unicodedata.combining(letter) else 2 if unicodedata.east_asian_width(letter) in "WF" else 1


def shown_place(text, word):
    """A line and, below it, carets under a word; of a long line what is near the word."""
    start, end = columns_of(text, word)
    cut = max(0, start - MOST_COLUMNS // 2) if max(len(text), end) > MOST_COLUMNS else 0
    last = cut + MOST_COLUMNS
    before, behind = ".. " if cut else "", " .." if last < len(text) else ""
    cells = [cell_of(letter) for letter in text.ljust(end)]
    line = before + "".join(shown for shown, _ in cells[cut:last]).rstrip() + behind
    widths = [width for _, width in cells]
    return line, " " * (len(before) + sum(widths[cut:start])) + "^" * max(1, sum(widths[start:min(end, last)]))


def further_rules(script, line):
    """Which lines are wrong besides."""
    further = further_faults(script, line)
    if not further:
        return []
    more = f" and {len(further) - MOST_TOLD} more" if len(further) > MOST_TOLD else ""
    return [f"where this line is left out, {'these are' if len(further) > 1 else 'this is'} wrong at {'their places' if len(further) > 1 else 'its place'}, too: line "
            + ", ".join(map(str, further[:MOST_TOLD])) + more]


def explained(name, script, fault):
    """The lines that show a fault of the script of this name: `fault` has its line, word and cause. The first names its column."""
    line, word, cause = fault["line"], fault["word"], fault["cause"]
    lines, meaning = lines_of(script), MEANINGS.get(cause, "the cause has no name here")
    if line == 0 and cause == LIMIT:
        return [f"{name}: limit: the script has {len(script)} bytes, and may have {MOST_BYTES}"]
    if line == 0:
        return [f"{name}: {meaning}"]
    gutter = " " * len(str(line))
    if line > len(lines):
        head = f"{name}:{line}: {named(FAULTS, cause)}: {meaning}"
        return [head] + [f" {gutter} = {rule}" for rule in rules_for(lines + [""], len(lines) + 1, word, cause)]
    text, carets = shown_place(lines[line - 1], word)
    head = f"{name}:{line}:{columns_of(lines[line - 1], word)[0] + 1}: {named(FAULTS, cause)}: {meaning}"
    rules = rules_for(lines, line, word, cause) + further_rules(script, line)
    return [head, f" {line} | {text}", f" {gutter} | {carets}"] + [f" {gutter} = {visible(rule)}" for rule in rules]
