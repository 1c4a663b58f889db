"""Where the names in contracts, definitions and declared types lead.

A name is an item of its own file, or an import leads to it: directly (`Rattle.CRATE.specs.MODULE`, for a type of src/
`Rattle.CRATE.specs.declared.MODULE.TYPE`), or through a crate that hands another one's names on (`pub use
Rattle.LOW.specs as LOW` in its specs/Lib.antt, `pub use low as low;` in its src/lib.rt). What lies outside the
repository's crates, as all of std, is the toolchain's and is not followed.
"""

import os
import re
from typing import NamedTuple

from surbeldoi import TOP
from surbeldoi.build.definitions import File, Unread, comment_of, indent_of, read_code, read_specs

SPECS, SRC = "specs", "src"
ROOTS, ENDINGS = {SPECS: "Lib", SRC: "lib"}, {SPECS: ".antt", SRC: ".rt"}
WORD = re.compile(r"[^\W\d][\w'?]*|\.|[^\s\w'?(){}\[\],;.]+|.", re.S)
NAME = r"[^\W\d][\w'?]*"
# A word of a pattern that no module's name stands before, nor a dot behind.
VARIABLE = re.compile(rf"(?<![\w'?.]){NAME}(?![\w'?.])")
CONSTRUCTOR = re.compile(rf"(?:pub )?({NAME}) : ")
# What binds names in a line: parameters before their type, a λ, and `let`.
NAMES = rf"{NAME}(?: {NAME})*"
BOUND = re.compile(rf"[({{]({NAMES}) :|λ ({NAMES})\.|let ({NAME}) =")
LABEL = re.compile(rf"\s*(?:pub )?({NAME}) : ")
BRANCH = re.compile(r"\| (.*?) ↦")


class Place(NamedTuple):
    """Where a definition stands: its crate, the part of the crate, the file in that, and its name."""

    crate: str
    part: str
    module: str
    name: str


class Piece(NamedTuple):
    """A piece of a text, and the place that it names, None of most."""

    text: str
    place: object


class Scope(NamedTuple):
    """What names of a file lead to: an imported one to a path and the name there, that of a module to a path."""

    names: dict
    modules: dict


def imported(path, dot):
    """What an import brings in, as a scope."""
    where, braces, inside = path.partition(dot + "{")
    if braces:
        pairs = [one.strip().partition(" as ") for one in inside.rstrip("} ").split(",") if one.strip()]
        return Scope({new or old: (where.split(dot), old) for old, _, new in pairs}, {})
    where, _, new = path.partition(" as ")
    steps = where.split(dot)
    return Scope({new or steps[-1]: (steps[:-1], steps[-1])} if dot == "::" else {}, {new or steps[-1]: steps})


def constructors(item):
    """The constructors of a type that specs/ gives by its forms."""
    first = item.text[0]
    if not re.match(r"\s*(?:pub )?data ", first):
        return []
    depth = len(first) - len(first.lstrip()) + 2
    return [found.group(1) for found in (CONSTRUCTOR.match(line, depth) for line in item.text[1:]) if found]


def parts_of(name):
    """The words of a name: those between the places of its arguments, or the name itself."""
    return [part for part in name.split("◌") if part]


class Sources:
    """The files of the repository's crates, read as they are asked for."""

    def __init__(self, top=TOP):
        self.top, self.files, self.scopes, self.owned, self.known = top, {}, {}, {}, {}
        self.crates = set(os.listdir(os.path.join(top, "crates")))

    def path(self, crate, part, module):
        return os.path.join("crates", crate, part, *module.split(".")) + ENDINGS[part]

    def file(self, crate, part, module):
        """A file, None where there is none."""
        key = crate, part, module
        if key not in self.files:
            path = os.path.join(self.top, self.path(*key))
            self.files[key] = None
            if os.path.isfile(path):
                with open(path, encoding="utf-8") as file:
                    self.files[key] = (read_specs if part == SPECS else read_code)(file.read())
        return self.files[key]

    def item(self, place):
        return self.own(*place[:3])[place.name]

    def scope(self, crate, part, module):
        """What the imports of a file bring in."""
        key = crate, part, module
        if key not in self.scopes:
            scope = Scope({}, {})
            file = self.file(*key) or File((), [], [])
            for dot, path in file.imports:
                more = imported(path, dot)
                scope.names.update(more.names)
                scope.modules.update(more.modules)
            self.scopes[key] = scope
        return self.scopes[key]

    def own(self, *file):
        """The items of a file, by their names and those of their constructors."""
        if file not in self.owned:
            items = self.file(*file).items if self.file(*file) else ()
            self.owned[file] = {name: item for item in items for name in (*constructors(item), item.name)}
        return self.owned[file]

    def in_file(self, *file, name):
        """The place that a name of a file leads to: of its own, or of an import; None outside the repository."""
        if name in self.own(*file):
            return Place(*file, self.own(*file)[name].name)
        if name not in self.scope(*file).names:
            return None
        path, old = self.scope(*file).names[name]
        return self.by_path(file[0], path, old)

    def by_path(self, crate, path, name):
        """The place of a name that stands where a path from a crate leads."""
        return self.in_specs(path[1:], name) if path[0] == "Rattle" else self.in_code(crate, path, name)

    def in_specs(self, path, name):
        """The place of a name of specs/: the path has the crate, and then where in it, or in one that it hands on."""
        crate, below = path[0], path[2:]
        if crate not in self.crates or path[1] != SPECS:
            return None
        if below and below[0] == "declared":
            return self.declared(crate, below[1:], name)
        for depth in range(len(below), 0, -1):
            module = ".".join(below[:depth])
            if self.file(crate, SPECS, module):
                return self.in_file(crate, SPECS, module, name=below[depth] if depth < len(below) else name)
        handed = self.scope(crate, SPECS, ROOTS[SPECS]).modules
        if not below or below[0] not in handed:
            raise Unread(f"{'.'.join(path)} leads nowhere")
        return self.in_specs(handed[below[0]][1:] + below[1:], name)

    def declared(self, crate, below, name):
        """The place of a type of src/, whose path has its module, if it has one, its own name, and maybe more behind that."""
        at = next((at for at, part in enumerate(below) if part[:1].isupper()), len(below))
        found = self.in_code(crate, ["crate"] + below[:at], below[at] if at < len(below) else name)
        if not found:
            raise Unread(f"{crate} declares no {'.'.join(below)}")
        return found

    def in_code(self, crate, path, name):
        """The place of a type that src/ names by a path; None outside the repository."""
        head, rest = (path[0], path[1:]) if path else (None, [])
        if not path:
            return self.in_file(crate, SRC, ROOTS[SRC], name=name)
        if head == "crate":
            return self.in_code(crate, rest, name)
        if self.file(crate, SRC, head):
            return self.in_file(crate, SRC, head, name=name)
        handed = self.scope(crate, SRC, ROOTS[SRC]).modules
        if head in handed and handed[head] != [head]:
            return self.in_code(crate, handed[head] + rest, name)
        return self.in_code(head, rest, name) if head in self.crates else None

    def named(self, file, word, before=""):
        """The place that a word of a file names, behind `before.` if that is not empty; None where it names none here."""
        key = file, word, before
        if key not in self.known:
            self.known[key] = self.qualified(file, word, before) if before else self.in_file(*file, name=self.name_with(file, word))
        return self.known[key]

    def qualified(self, file, word, before):
        modules = self.scope(*file).modules
        return self.by_path(file[0], modules[before], word) if before in modules else None

    def name_with(self, file, word):
        """The name that a word is a part of, between the places of its arguments; else the word."""
        names = [*self.own(*file), *self.scope(*file).names]
        return next((name for name in names if "◌" in name and word in parts_of(name)), word)

    def is_variable(self, file, word):
        """Is a word of a pattern a variable, even if the file knows a definition of this name?"""
        place = self.named(file, word)
        return not place or place.name == word

    def bound(self, file, item):
        """The names that an item binds, but for its fields."""
        names = {name for line in item.under + item.text for found in BOUND.finditer(line) for name in " ".join(filter(None, found.groups())).split()}
        patterns = [line.partition(" = ")[0] for line in item.text[1:] if indent_of(line) == indent_of(item.text[0]) and " = " in line]
        patterns += [found.group(1) for line in item.text for found in BRANCH.finditer(line)]
        words = {word for pattern in patterns for word in VARIABLE.findall(pattern)} - set(parts_of(item.name))
        return names | {word for word in words if self.is_variable(file, word)}

    def pieces(self, file, item):
        """The lines of an item, each as its words, each with the place that it names. A field is known by its name from the next one on."""
        bound, field, told = self.bound(file, item) if file[1] == SPECS else set(), None, []
        for line in item.under + item.text:
            label = LABEL.match(line)
            if label:
                bound.add(field)
                field = label.group(1)
            told.append(self.pieces_of(file, line, bound))
        return told

    def pieces_of(self, file, line, bound=()):
        """The words of a line, each with the place that it names."""
        if comment_of(line) is not None:
            return [Piece(line, None)]
        label = LABEL.match(line)
        begin = label.end(1) if label else 0
        words, told = WORD.findall(line[begin:]), [Piece(line[:begin], None)]
        for at, word in enumerate(words):
            before = words[at - 2] if at > 1 and words[at - 1] == "." else ""
            is_label = words[at + 1:at + 4] == [" ", "=", " "] or words[at + 1:at + 2] == [":"]
            is_name = not is_label and (before or word not in bound and words[at - 1:at] != ["."])
            told.append(Piece(word, self.named(file, word, before) if is_name else None))
        return told

    def cited(self, place):
        """The places that an item names, in order, each once."""
        told = [piece.place for line in self.pieces(place[:3], self.item(place)) for piece in line]
        return [one for one in dict.fromkeys(told) if one and one != place]
