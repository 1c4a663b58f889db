"""What contracts speak of: the definitions of specs/, and the types and traits that src/ declares.

A file is read into its items, each with the comment above it and with the lines that it stands under, and into what it
imports. `citing` tells where the names in an item lead.
"""

import re
from typing import NamedTuple

# How an item of specs/ begins, and one of src/: a type, a trait, or what contracts see of a type.
ITEM = re.compile(r"(?:(?:abbrev|unfoldable)(?: pub)?|(?:pub )?(?:record|data)) (\S+)")
DECLARED = re.compile(r"(?:pub(?:\(crate\))? )?(?:struct|enum|trait|type) (\w+)")
VIEW = re.compile(r"impl(?:<.*>)? Model for (\w+)")
COMMENT = re.compile(r"(?:--|///?|//!) ?(.*)")
IMPORT = re.compile(r"(?:pub )?use (.*)")
CODE_IMPORT = re.compile(r"^ *((?:pub |ghost )?)use ([^;]*);", re.M)
SILENT = re.compile(r"pub mod |infix[lr]? \d+ ")


class Item(NamedTuple):
    """A definition or a declared type: its name, the line that it begins at, the comment above it, the `module` lines that it
    stands under, and its own lines."""

    name: str
    line: int
    comment: tuple
    under: tuple
    text: tuple


class File(NamedTuple):
    """A file: the comment at its head, its items in order, and what it imports."""

    head: tuple
    items: list
    imports: list


class Unread(Exception):
    """A line of no known form."""


def indent_of(line):
    return len(line) - len(line.lstrip())


def comment_of(line):
    """The words of a line that is a comment, None of any other."""
    found = COMMENT.fullmatch(line.strip())
    return found.group(1) if found else None


def head_of(lines):
    """The comment that a file begins with."""
    words = []
    for line in lines:
        if comment_of(line) is None:
            break
        words.append(comment_of(line))
    return tuple(words)


class Specs:
    """Reads the lines of a file of specs/, one after the other."""

    def __init__(self):
        self.items, self.imports, self.under, self.comment, self.blank = [], [], [], (), False

    def depth(self):
        return 2 * len(self.under)

    def take(self, line, number):
        text = line.strip()
        if not text:
            self.blank, self.comment = True, ()
        elif IMPORT.fullmatch(text):
            self.imports.append((".", IMPORT.fullmatch(text).group(1)))
        elif comment_of(line) is not None:
            self.comment += (comment_of(line),)
        elif not SILENT.match(text):
            self.take_code(line, number)
            self.blank, self.comment = False, ()

    def take_code(self, line, number):
        """Takes a line as the rest of a `module` line, as the first of an item, or as one more of the newest."""
        if self.under and not self.under[-1].endswith("where") and indent_of(line) > self.depth() - 2:
            self.under[-1] += " " + line.strip()
            return
        while indent_of(line) < self.depth():
            self.under.pop()
        if indent_of(line) == self.depth() and self.begins(line, number):
            return
        if not self.items or indent_of(line) < self.depth() or (self.blank and indent_of(line) == self.depth()):
            raise Unread(f"line {number} is of no item: {line.strip()[:60]}")
        self.go_on(line)

    def begins(self, line, number):
        """Does a line begin a module's part or an item? Then it is taken."""
        text = line.strip()
        found = ITEM.match(text)
        if text.startswith("module _"):
            self.under.append(text)
        elif found:
            self.items.append(Item(found.group(1), number, self.comment, tuple(self.under), (line,)))
        return bool(found) or text.startswith("module _")

    def go_on(self, line):
        """Adds a line to the newest item, behind a comment that stands inside it."""
        inside = tuple(" " * indent_of(line) + "-- " + words for words in self.comment)
        newest = self.items[-1]
        self.items[-1] = newest._replace(text=newest.text + inside + (line,))


def read_specs(text):
    """The items and the imports of a file of specs/."""
    reader, lines = Specs(), text.splitlines()
    for number, line in enumerate(lines, 1):
        reader.take(line, number)
    return File(head_of(lines), reader.items, reader.imports)


def end_of(lines, begin):
    """The line behind an item of src/ that begins at a line."""
    for at in range(begin, len(lines)):
        if lines[at] == "}" or lines[at].endswith(";") and not any("{" in line for line in lines[begin:at + 1]):
            return at + 1
        if at == begin and lines[at].endswith("}"):
            return at + 1
    raise Unread(f"line {begin + 1} begins an item that does not end: {lines[begin][:60]}")


def read_code(text):
    """The types and traits of a file of src/, each with what contracts see of it, and the imports."""
    lines, items, comment = text.splitlines(), [], ()
    for at, line in enumerate(lines):
        declared, view = DECLARED.match(line), VIEW.match(line)
        if declared:
            items.append(Item(declared.group(1), at + 1, comment, (), tuple(lines[at:end_of(lines, at)])))
        elif view:
            items = [item._replace(text=item.text + tuple(lines[at:end_of(lines, at)])) if item.name == view.group(1) else item for item in items]
        if not line.startswith("#["):
            comment = comment + (comment_of(line),) if line.startswith("//") else ()
    return File(head_of(lines), items, [("." if kind == "ghost " else "::", " ".join(path.split())) for kind, path in CODE_IMPORT.findall(text)])
