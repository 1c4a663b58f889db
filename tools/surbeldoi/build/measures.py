"""How the code of the crates reads, in numbers: the parameters of functions, the lengths of clauses, what contracts repeat, how many
frames stand on the stack where pixels are blended, and how many layers a call of an actor in a thread goes through.

A clause is what stands in the braces behind `requires` or `ensures`, each run of blanks as one.
"""

import glob
import os
import re
from typing import NamedTuple

from surbeldoi import TOP

# What is no code: a comment, a string, a character.
SILENT = re.compile(r"""//.*|"(?:\\.|[^"\\])*"|'(?:\\.|[^'\\])'""")
FUNCTION = re.compile(r"\bfn (\w+)")
CLAUSE = re.compile(r"\b(?:requires|ensures)\b[^{};]*\{")
# What is called: a name in front of its arguments, with or without type arguments.
CALLED = re.compile(r"\b(\w+)(?:::<[^()]*>)?\(")
OPENING, CLOSING = "([{<", ")]}>"
# A function that has more parameters than this is counted, and a clause that has more letters than one of these.
MOST_PARAMETERS = 6
LONG, LONGEST = 160, 200
# What many contracts say of a number of workers.
OF_WORKERS = re.compile(r"1 ≤ (?:\w+\.)?workers\b")

# The frames from `main` of a play to the kernel that blends four pixels, each of which calls the next. A name behind a bar is a closure
# of the function in front of it, which is called as `f`.
FRAMES = """
sf_main: main run_over_streams
sf_app: run follow show_run play
sf_play_write: show_play write_play write_action show_vsync compose_views
sf_output_screen: show compose_over
sf_compose: compose_by compose_band compose_rect compose_slice paint_shown paint_layer paint_crop paint_pixels
sf_rows: blend_row blend_row_blocks row_blocks four_pixels
"""

# The layers from an actor in a thread to its queue, each of which calls the next: the desk, the caller's seats, its pass at the queue's
# lock, the stamps of calls, the queue. In front of them is what makes the call for the actor. A name may have its file in front of it.
LAYERS = """
sf_actor_steps: ask
sf_live_seats: shared.call seats.call
sf_calls: pass.call
sf_calls_stamped: stamped.apply
sf_surface: object.apply
"""


class Function(NamedTuple):
    """A function of src/: its file, its name, how many parameters it has, `self` among them, and what its text calls."""

    path: str
    name: str
    parameters: int
    calls: frozenset


class Clause(NamedTuple):
    """A clause of a contract: its file, the function that it belongs to, and its text."""

    path: str
    function: str
    text: str


class Measures(NamedTuple):
    """What was found, the worst first: functions with many parameters, long clauses, and clauses about a number of workers."""

    wide: list
    long: list
    of_workers: list


def is_arrow(text, place):
    """Whether a `>` belongs to an arrow, and closes nothing."""
    return text[place] == ">" and text[place - 1 : place] in ("-", "=")


def end_of(text, at):
    """Where the bracket that opens at a place is closed."""
    depth = 0
    for place in range(at, len(text)):
        if not is_arrow(text, place):
            depth += (text[place] in OPENING) - (text[place] in CLOSING)
        if depth == 0:
            return place
    return len(text)


def end_of_clause(text, at):
    """Where the brace that opens at a place is closed. In a clause `<` compares, so braces alone count."""
    depth = 0
    for found in re.compile(r"[{}]").finditer(text, at):
        depth += 1 if found[0] == "{" else -1
        if depth == 0:
            return found.start()
    return len(text)


def length_of_list(text):
    """How many things are listed, with commas outside of brackets between them."""
    count, depth, any_word = 0, 0, False
    for place, letter in enumerate(text):
        if not is_arrow(text, place):
            depth += (letter in OPENING) - (letter in CLOSING)
        if letter == "," and depth == 0:
            count, any_word = count + any_word, False
        else:
            any_word = any_word or not letter.isspace()
    return count + any_word


def functions_in(path, source):
    """The functions of a source, in order."""
    text = SILENT.sub("", source)
    heads = list(FUNCTION.finditer(text))
    for head, after in zip(heads, heads[1:] + [None]):
        at = head.end()
        if text[at : at + 1] == "<":
            at = end_of(text, at) + 1
        if text[at : at + 1] == "(":
            end = end_of(text, at)
            calls = CALLED.findall(text[end : after.start() if after else len(text)])
            yield Function(path, head[1], length_of_list(text[at + 1 : end]), frozenset(calls))


def clauses_in(path, source):
    """The clauses of a source, in order."""
    text = SILENT.sub("", source)
    heads = [(head.start(), head[1]) for head in FUNCTION.finditer(text)]
    for found in CLAUSE.finditer(text):
        before = [name for start, name in heads if start < found.start()]
        clause = text[found.end() : end_of_clause(text, found.end() - 1)]
        yield Clause(path, before[-1] if before else "", " ".join(clause.split()))


def sources(top=TOP):
    """The sources of the crates, with their paths from crates/."""
    crates = os.path.join(top, "crates")
    for path in sorted(glob.glob(os.path.join(crates, "*", "src", "**", "*.rt"), recursive=True)):
        with open(path, encoding="utf-8") as file:
            yield os.path.relpath(path, crates), file.read()


def measured(texts):
    """What sources have of each."""
    functions = [function for path, source in texts for function in functions_in(path, source)]
    clauses = [clause for path, source in texts for clause in clauses_in(path, source)]
    return Measures(
        sorted((function for function in functions if function.parameters > MOST_PARAMETERS), key=lambda function: -function.parameters),
        sorted((clause for clause in clauses if len(clause.text) > LONG), key=lambda clause: -len(clause.text)),
        [clause for clause in clauses if OF_WORKERS.search(clause.text)])


def frames_of(walk):
    """The frames of a walk in order, each with its crate."""
    return [(crate, name) for line in walk.split("\n") if line for crate, _, names in [line.partition(": ")] for name in names.split()]


def missing_calls(texts, walk):
    """The steps of a walk that the sources do not have."""
    calls = {}
    for path, source in texts:
        crate, file = path.split(os.sep)[0], os.path.basename(path).partition(".")[0]
        for function in functions_in(path, source):
            for name in (function.name, f"{file}.{function.name}"):
                calls.setdefault((crate, name), set()).update(function.calls)
    frames = frames_of(walk)
    return [
        f"{name} of {crate} calls no {after}"
        for (crate, name), (_, after) in zip(frames, frames[1:])
        if re.split(r"[|.]", after)[-1] not in calls.get((crate, name.partition("|")[0]), ())]


def counts(texts):
    """The numbers, by what they count."""
    found = measured(texts)
    return {
        f"functions with more than {MOST_PARAMETERS} parameters": len(found.wide),
        "parameters of the function that has most": max((function.parameters for function in found.wide), default=0),
        f"clauses of more than {LONG} letters": len(found.long),
        f"clauses of more than {LONGEST} letters": sum(len(clause.text) > LONGEST for clause in found.long),
        "clauses that say `1 ≤ workers`": len(found.of_workers),
        "frames from main to the kernel that blends": len(frames_of(FRAMES)),
        "layers from an actor in a thread to its queue": len(frames_of(LAYERS)) - 1,
    }


def lines_of(texts, worst=10):
    """The numbers as lines, and the worst of each kind with their places."""
    found = measured(texts)
    lines = [f"{number:6,}  {what}" for what, number in counts(texts).items()]
    lines += ["", "Most parameters:"] + [f"{function.parameters:6}  {function.name} ({function.path})" for function in found.wide[:worst]]
    return lines + ["", "Longest clauses:"] + [f"{len(clause.text):6,}  {clause.function} ({clause.path})" for clause in found.long[:worst]]
