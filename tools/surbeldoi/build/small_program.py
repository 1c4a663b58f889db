"""A smaller program than sf_main, made in a folder of its own from the crates as they stand: it plays a script in turns and
does nothing else, so it is compiled in about half the time.

Its main file is play_scene.txt; how a scene is played it has from files of sf_app, and all below from the crates
that these use in code that runs, whose sources are copied without what proves them.
"""

import functools
import glob
import hashlib
import os
import re
import shutil

HERE = os.path.dirname(os.path.abspath(__file__))
# (the gate allows a source of Rattle only in a crate, so it has another ending here)
MAIN, NAME = "play_scene.txt", "play_scene"
# The modules that are sf_app's.
MODULES = os.path.join("crates", "sf_app", "src"), ("play.rt", "turns.rt")
# What a source uses: the first words of paths, but for comments and for what only contracts cite.
CITED, USED = re.compile(r"//.*|^\s*ghost use[^;]*;", re.M), re.compile(r"\b(\w+)::")
# What a crate hands on.
HANDED = re.compile(r"^pub use ([^;]+);", re.M)
# What is no code: a comment, a string, a character; what begins a clause of a contract; what a clause is held in.
PARTS = re.compile(r"""//.*|"(?:\\.|[^"\\])*"|'(?:\\.|[^'\\])'|\b(?:requires|ensures)\b[^{};"]*\{|[{}]""")


def contents(*names):
    with open(os.path.join(*names), encoding="utf-8") as file:
        return file.read()


def write(path, text):
    with open(path, "w", encoding="utf-8") as file:
        file.write(text)


def listed_crates(text):
    """The lines of crates.txt, by the crate: the crate with what stands before the colon, and the names behind it."""
    lines = {}
    for line in text.splitlines():
        head, found, uses = line.partition("#")[0].partition(":")
        if found:
            lines[head.split()[0]] = (head.strip(), uses.split())
    return lines


def used_in(texts):
    """The crates and other modules that sources use in code that runs."""
    return {word for text in texts for word in USED.findall(CITED.sub("", text))}


def without_contracts(text):
    """A source without the clauses of its contracts, which no code needs. Its lines keep their numbers."""
    kept, at, depth = [], 0, 0
    for part in PARTS.finditer(text):
        begins = part[0].startswith(("requires", "ensures"))
        if depth == 0 and begins:
            kept.append(text[at : part.start()])
            at, depth = part.start(), 1
        elif depth > 0 and (begins or part[0] in "{}"):
            depth += -1 if part[0] == "}" else 1
            if depth == 0:
                kept.append("\n" * text.count("\n", at, part.end()))
                at = part.end()
    return "".join(kept) + text[at:]


def paths_of(tree):
    """The paths that a `use` names, each as its words; the last word may be `NAME as OTHER`."""
    tree = " ".join(tree.split())
    before, brace, inside = tree.partition("{")
    names = inside.rstrip("} ").split(",") if brace else [""]
    return [(before + name.strip()).split("::") for name in names if not brace or name.strip()]


def uses_of(path, crates):
    """The crate that a path leads to, through those that hand it on, and the words behind it."""
    at = 0
    while at + 1 < len(path) - 1 and path[at + 1] in crates:
        at += 1
    return path[at], path[at + 1 :]


def renamed(name):
    """What a name of a `use` is called where it comes from, and where it is used."""
    own, _, other = name.partition(" as ")
    return own, other or own


def read_handed_on(top, crates):
    """The names that each crate hands on of others: the crate and the name there, by the crate and the name here."""
    handed = {}
    for crate in crates:
        for path in glob.glob(os.path.join(top, "crates", crate, "src", "lib.rt")):
            for use in HANDED.findall(contents(path)):
                for words in paths_of(use):
                    where, behind = uses_of(words, crates)
                    if where in crates and len(behind) == 1:
                        own, other = renamed(behind[0])
                        handed[crate, other] = where, own
    return handed


@functools.lru_cache(maxsize=4)
def handed_on_once(top, crates):
    return read_handed_on(top, crates)


def handed_on(top, crates):
    return handed_on_once(top, frozenset(crates))


def own_path(words, crates, handed):
    """The path by which something is named where it is defined, that may be handed on to where these words name it."""
    where, behind = uses_of(words, crates)
    if where not in crates or len(behind) != 1:
        return "::".join([where, *behind])
    name, used = renamed(behind[0])
    while (where, name) in handed:
        where, name = handed[where, name]
    return f"{where}::{name}" if name == used else f"{where}::{name} as {used}"


def by_own_names(text, crates, handed):
    """A source that names each of these crates itself, where it names it, or what it has, through one that hands it on, and
    that hands on nothing of other crates. Its lines keep their numbers."""

    def own(found):
        lines = "\n" * found[0].count("\n")
        if found["pub"]:
            return lines
        return " ".join(f"use {own_path(words, crates, handed)};" for words in paths_of(found["tree"])) + lines

    names = "|".join(sorted(crates))
    text = re.sub(rf"^(?P<pub>(?:pub )?)use (?P<tree>(?:{names})\b[^;]*);", own, text, flags=re.M)
    return re.sub(rf"\b(?:(?:{names})::)+(?=(?:{names})::)", "", text)


def source_paths(top, crate):
    return sorted(glob.glob(os.path.join(top, "crates", crate, "src", "**", "*.rt"), recursive=True))


def sources_of(top, crate, crates):
    handed = handed_on(top, crates)
    return [by_own_names(contents(path), crates, handed) for path in source_paths(top, crate)]


def below(crates, top, lines):
    """These crates of the project and all that they use in code that runs."""
    needed, left = set(), set(crates)
    while left:
        crate = left.pop()
        if crate in lines and crate not in needed:
            needed.add(crate)
            left |= used_in(sources_of(top, crate, lines))
    return needed


def own_sources(top, crates):
    """The sources of the program itself, by their names."""
    where, modules = MODULES
    sources = {"main.rt": contents(HERE, MAIN), **{name: contents(top, where, name) for name in modules}}
    handed = handed_on(top, crates)
    return {name: by_own_names(text, crates, handed) for name, text in sources.items()}


def used_by(sources, top, lines):
    """The crates that sources use, and all that are needed for these."""
    uses = sorted(used_in(sources.values()) & set(lines))
    return uses, below(uses, top, lines)


def sum_of(top):
    """A sum of all sources that the program is made of."""
    lines, total = listed_crates(contents(top, "crates.txt")), hashlib.sha256()
    sources = own_sources(top, lines)
    _, needed = used_by(sources, top, lines)
    for crate in sorted(needed):
        sources.update((os.path.relpath(path, top), contents(path)) for path in source_paths(top, crate))
    for name, text in sorted(sources.items()):
        total.update(f"{name}\0{len(text)}\0{text}".encode())
    return total.hexdigest()


def make(top, folder):
    """Makes the program in an empty folder, and answers the folder of its crate."""
    lines = listed_crates(contents(top, "crates.txt"))
    sources = own_sources(top, lines)
    uses, needed = used_by(sources, top, lines)
    handed = handed_on(top, lines)
    for crate in needed:
        copied = shutil.copytree(os.path.join(top, "crates", crate, "src"), os.path.join(folder, "crates", crate, "src"))
        for path in glob.glob(os.path.join(copied, "**", "*.rt"), recursive=True):
            write(path, without_contracts(by_own_names(contents(path), lines, handed)))
    crate_folder = os.path.join(folder, "crates", NAME)
    os.makedirs(os.path.join(crate_folder, "src"))
    for name, text in sources.items():
        write(os.path.join(crate_folder, "src", name), without_contracts(text))
    with open(os.path.join(folder, "crates.txt"), "w", encoding="utf-8") as file:
        for crate in sorted(needed):
            head, names = lines[crate]
            used = used_in(sources_of(top, crate, lines)) & needed - {crate}
            file.write(f"{head}: {' '.join(sorted(used) + [name for name in names if name not in lines])}\n")
        file.write(f"{NAME}: {' '.join(uses)}\n")
    shutil.copy(os.path.join(top, "HANDLES"), folder)
    return crate_folder
