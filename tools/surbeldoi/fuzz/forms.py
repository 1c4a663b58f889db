"""The forms of steps, as they are filled with values and written as words."""

from surbeldoi.script.grammar import CHANGES, STEPS, lines_in
from surbeldoi.script.scenes import Step, change_of, form_parts

FORMS = STEPS[:-1] + tuple("set TX LAYER " + change for change in CHANGES)
FORM_OF = {form.split()[0]: form for form in STEPS[:-1]}
FORM_OF_CHANGE = {tuple(form.split()[3:5]) if form.split()[3] == "create" else form.split()[3]: form for form in FORMS if form.startswith("set ") and not form.endswith("none")}
FORM_OF_CHANGE["crop none"] = "set TX LAYER crop none"


def kinds_of(words):
    """The words of a form that stand for values; the others stand for themselves."""
    return [word for word in words if word.isupper()]


def name_places(form):
    """The places of the names that a step of this form uses among its values, and of the one that it gives, or None."""
    kinds = kinds_of(form_parts(form)[0])
    places = [place for place, kind in enumerate(kinds) if kind == "NAME"]
    return (places[:-1], places[-1]) if " as " in form else (places, None)


PLACES = {verb: name_places(form) for verb, form in FORM_OF.items()}
PLACES["set"] = ([], None)


def step(verb, *args, **more):
    """A step with these values, and with what it has in brackets by first words."""
    return Step(0, verb, args, more)


def names_of(step):
    """The names that a step uses, and the one that it gives, or None."""
    uses, gives = PLACES[step.verb]
    return [step.args[place] for place in uses], None if gives is None else step.args[gives]


def step_of(form, values, more):
    """A step of a form with these values, and what it has besides by first words."""
    if form.startswith("set "):
        values = values[:2] + [change_of(form, values[2:])]
    return Step(0, form.split()[0], tuple(values), more)


def form_of(step):
    """The form of a step."""
    if step.verb != "set":
        return FORM_OF[step.verb]
    change = step.args[2]
    if change[0] == "crop":
        return FORM_OF_CHANGE["crop" if change[1] else "crop none"]
    return FORM_OF_CHANGE[change[:2] if change[0] == "create" else change[0]]


def values_of(step):
    """The values of a step, one for each word of its form that stands for one."""
    if step.verb != "set":
        return list(step.args)
    number, layer, change = step.args
    first = change[0]
    rest = (change[1] or ()) if first == "crop" else change[2:] if first == "create" else change[1:]
    return [number, layer, *rest]


def text_of(kind, value):
    """A value as a word of a kind."""
    if kind == "PARENT" and value == -1:
        return "none"
    return value.hex() if kind == "COLOUR" else str(value)


def filled(words, values):
    """Words of a form with values in the place of those that stand for some."""
    left = iter(values)
    return [text_of(word, next(left)) if word.isupper() else word for word in words]


def words_of(step):
    """The words of a step."""
    needed, parts = form_parts(form_of(step))
    words = filled(needed, values_of(step))
    for part, _ in parts:
        for values in step.more.get(part[0], ()):
            words += filled(part, values)
    return words


def form_of_words(words, is_step):
    """The form that a line of these words has, where it has one; of a change by its first words."""
    if not is_step:
        return LINE_OF.get(words[0], words[0])
    if words[0] != "set":
        return FORM_OF[words[0]]
    change = tuple(words[3:5]) if words[3] == "create" else "crop none" if words[3:5] == ["crop", "none"] else words[3]
    return FORM_OF_CHANGE[change]


LINE_OF = {form.split()[0]: form for form in lines_in(2)}


def kinds_in(words, is_step):
    """The words of the form that a line has, one for each of its words; those in brackets by the parts that it has."""
    needed, parts = form_parts(form_of_words(words, is_step))
    kinds, by_word = list(needed), {part[0]: part for part, _ in parts}
    while len(kinds) < len(words):
        kinds += by_word[words[len(kinds)]]
    return kinds
