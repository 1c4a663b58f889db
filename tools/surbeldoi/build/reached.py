"""Which modules of specs/ the public contracts lead to: all others lie in specs/inner/.

Public is what a crate's root file hands on by name: the clauses of a function, what contracts see of a type with the
clauses of its public methods and with its impls of traits, and a trait. An impl for a type of another crate counts, too.
"""

import os
import re

from surbeldoi.build.citing import ENDINGS, ROOTS, SPECS, SRC, Place

INNER = "inner"
HANDED = re.compile(r"^pub use ([^;]*);", re.M)
OWN = re.compile(r"^pub (?:fn|struct|enum|trait|type|const) (\w+)", re.M)
TYPE = re.compile(r"^(?:pub(?:\(crate\))? )?(?:struct|enum) (\w+)", re.M)
FUNCTION = re.compile(r"pub (?:const )?fn (\w+)")
IMPL = re.compile(r"impl(?:<.*>)? (?:(?P<trait>.*) )?for (?P<type>.*)|impl(?:<.*?>)? (?P<own>.*)", re.S)
SILENT = ("}", ")", ">", "/", "#")


def names_in(path):
    """The names that the path of a `pub use` brings in."""
    path = " ".join(path.split())
    inside = path.partition("{")[2]
    return set(re.findall(r"\w+", inside)) if inside else {path.split("::")[-1].split(" as ")[-1]}


def text_of(sources, crate, module):
    with open(os.path.join(sources.top, sources.path(crate, SRC, module)), encoding="utf-8") as file:
        return file.read()


def modules_of(sources, crate, part):
    """The modules of a part of a crate, each by its path."""
    folder, ending = os.path.join(sources.top, "crates", crate, part), ENDINGS[part]
    for at, _, names in sorted(os.walk(folder)):
        for name in sorted(names):
            if name.endswith(ending):
                yield os.path.relpath(os.path.join(at, name), folder)[:-len(ending)].replace(os.sep, ".")


def handed_on(text):
    """What a root file makes public, by name."""
    return set(OWN.findall(text)).union(*map(names_in, HANDED.findall(text)))


def blocks(text):
    """The top-level items of a file, each as its lines."""
    found = []
    for line in text.splitlines():
        if line and not line[0].isspace() and not line.startswith(SILENT):
            found.append([line])
        elif found:
            found[-1].append(line)
    return found


def signatures(lines):
    """The lines of the public functions among these, but for their bodies."""
    inside, told = False, []
    for line in lines:
        inside = inside or bool(FUNCTION.match(line.strip()))
        told += [line] * inside
        inside = inside and line.strip() != "{" and not (line.endswith(" {") and not line.strip().startswith(("ensures", "requires")))
    return told


def target_of(lines):
    """Is an impl one of a trait, and for which type is it?"""
    found = IMPL.match(" ".join("\n".join(lines).partition("{")[0].split()))
    told = found.group("type") or found.group("own")
    return bool(found.group("type")), re.match(r"(?:&|mut |\()*(?:\w+::)*(\w*)", told).group(1)


def public_lines(lines, public, own):
    """The lines of an item that belong to public contracts."""
    if lines[0].startswith("impl"):
        of_trait, name = target_of(lines)
        if name not in public and (name in own or not of_trait):
            return []
        return lines if of_trait else signatures(lines)
    function = FUNCTION.match(lines[0])
    return signatures(lines) if function and function.group(1) in public else []


def begun_in(sources, crate):
    """The places that the public contracts of a crate name."""
    modules = list(modules_of(sources, crate, SRC))
    texts = {module: text_of(sources, crate, module) for module in modules}
    root = texts.get(ROOTS[SRC], "")
    public, own = handed_on(root), {name for text in texts.values() for name in TYPE.findall(text)}
    for module in modules:
        yield from (Place(crate, SRC, module, name) for name in sources.own(crate, SRC, module) if name in public)
        for lines in blocks(texts[module]):
            for line in public_lines(lines, public, own):
                yield from (piece.place for piece in sources.pieces_of((crate, SRC, module), line) if piece.place)


def reached(sources):
    """The modules of specs/ that public contracts lead to, each with its crate."""
    found, todo = set(), [place for crate in sorted(sources.crates) for place in begun_in(sources, crate)]
    while todo:
        place = todo.pop()
        if place not in found:
            found.add(place)
            todo += sources.cited(place)
    return {(place.crate, place.module) for place in found if place.part == SPECS}


def misplaced(sources):
    """What lies in specs/inner/ and is reached, and what is not reached and lies outside, a sentence each."""
    known, told = reached(sources), []
    for crate in sorted(sources.crates):
        for module in modules_of(sources, crate, SPECS):
            is_inner = module.startswith(INNER + ".")
            if module not in (ROOTS[SPECS], INNER) and is_inner == ((crate, module) in known):
                told.append(f"crates/{crate}/specs/{module.replace('.', '/')}.antt: public contracts "
                            + ("lead to it, so it lies in specs/" if is_inner else "do not lead to it, so it lies in specs/inner/"))
    return told
