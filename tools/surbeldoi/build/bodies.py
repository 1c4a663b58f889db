"""Bodies of functions in a crate's sources: which one an edit changes, and what a check says of it."""

import re
from typing import NamedTuple

FUNCTION = re.compile(r"^( {4})?(?:pub(?:\([a-z]+\))? )?(?:const )?(?:unsafe )?fn (\w+)")
IMPL = re.compile(r"^(?:unsafe )?impl\b")
BLOCK = re.compile(r"^(?:unsafe )?(?:impl\b|(?:pub(?:\([a-z]+\))? )?(?:trait|mod) )")
# a proof that names what an edit took away, or that rests on another one that is refused, says nothing of the contract
OF_NAMES = re.compile(r"has no field|is not in scope|has no `|was not admitted")


class Function(NamedTuple):
    """A function: the end of the name that a check prints, its file, and its first and last line there, from 1."""

    path: str
    file: str
    first: int
    last: int


def without_parameters(text):
    """A type's or an impl's text without what stands in angle brackets."""
    text = text.replace("->", "")
    while "<" in text:
        shorter = re.sub(r"<[^<>]*>", "", text)
        if shorter == text:
            break
        text = shorter
    return text


def type_of(header):
    """The name that a check prints for an impl: its type's, and behind it the trait's, if it is one of a trait."""
    words = re.sub(r"^(?:unsafe )?impl", "", without_parameters(header)).partition(" where ")[0].partition("{")[0]
    trait, of, name = words.partition(" for ")
    last = lambda path: path.strip().lstrip("&").split("::")[-1]
    return last(name) + last(trait) if of else last(trait)


def module_of(file):
    """The module of a file of src/: its path below the crate, by its words."""
    words = file[len("src/"): -len(".rt")].split("/")
    return [] if words == ["lib"] or words == ["main"] else words


def around(text, file, line):
    """The function around a line of a file's text that is laid out by `rt fmt`, or None where there is no such one."""
    lines = text.split("\n")
    first = next((at for at in range(line - 1, -1, -1) if FUNCTION.match(lines[at])), None)
    if first is None:
        return None
    indent, name = FUNCTION.match(lines[first]).groups(default="")
    last = next((at for at in range(first, len(lines)) if lines[at] == indent + "}" or lines[at].startswith(indent) and lines[at].endswith("{}")), None)
    if last is None or not first <= line - 1 <= last:
        return None
    owner = module_of(file)
    if indent:
        block = next((at for at in range(first, -1, -1) if BLOCK.match(lines[at])), None)
        if block is None or not IMPL.match(lines[block]):
            return None
        end = next(at for at in range(block, len(lines)) if "{" in lines[at])
        # a check prints the module of the type, which may be another one
        owner = [type_of(" ".join(lines[block: end + 1]))]
    return Function("::".join([*owner, name]), file, first + 1, last + 1)


def changed(texts, steps):
    """The one function whose text the steps of an edit change, or None if they change more or something else."""
    texts, found = dict(texts), set()
    for file, old, new in steps:
        if texts[file].count(old) != 1:
            return None
        line = texts[file].count("\n", 0, texts[file].index(old)) + 1
        texts[file] = texts[file].replace(old, new)
        found.add(around(texts[file], file, line))
    return found.pop() if len(found) == 1 else None


def causes(said, function):
    """The lines of a check that name a goal of this function that is not proved, or an error in its proof."""
    folder = "/" + function.path.replace("::", "/") + "/"
    for line in said.splitlines():
        found = re.match(r"(?:note: )?(?:\./)?((?:src|proofs)/\S+?):(\d+):\d+: (.*)", line)
        if not found:
            continue
        path, number, text = found[1], int(found[2]), found[3]
        if path == function.file and function.first <= number <= function.last and text.startswith("it is not proved"):
            yield line
        elif path.startswith("proofs/") and folder in path and text.startswith("error") and not OF_NAMES.search(text):
            yield line


def unknown(said):
    """The name of a function that a check was asked for and does not know, or of which it knows several, or None."""
    found = re.search(r"error: `\w+` has no function `([^`]+)`|error: several functions are named `([^`]+)`", said)
    return found and (found[1] or found[2])


def refused(said, crate, functions):
    """Of edits, each with the function that it changes: those whose function a check refused, with the first cause that lies in it."""
    told = {}
    for edit, function in functions.items():
        if re.search(rf"^fn {re.escape(crate)}::(?:\S+::)?{re.escape(function.path)}: (?:not proved|no proof)", said, re.M):
            first = next(causes(said, function), None)
            if first:
                told[edit] = first[:160]
    return told
