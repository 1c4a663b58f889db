"""Tests of what modules are called, of their heads, and of the words of comments: each file of src/ begins with a line or two that say what is in it."""

import glob
import os
import re
import unittest

from surbeldoi import TOP

# A name that says what is done, and not of what.
GERUND = re.compile(r"[A-Z][a-z]+(?:ing|ings|ed)\.antt")
# Figures of speech, each with the plain word.
FIGURES = {"Tales": "traces", "Worlds": "states of a run", "Looks": "loads", "Looking": "loads", "Eyes": "observers"}

# What no comment of code and definitions says, each with what it says.
PLAIN = {
    r"tells?|telling|told": "say, report, return, show",
    r"want of memory": "out of memory",
    r"whoever": "who it is: the caller, the starter, the visitor",
    r"what is due": "the outputs due",
}


def modules(*parts):
    return sorted(glob.glob(os.path.join(TOP, "crates", "*", *parts), recursive=True))


def comments(path):
    """The comments of a file's own lines, as one text without pieces of code."""
    with open(path, encoding="utf-8") as file:
        found = [re.sub(r"^\s*(//[/!]?|--)", "", line).strip() for line in file if line.lstrip().startswith(("//", "--"))]
    return re.sub(r"`[^`]*`", "`", " ".join(found))


class Heads(unittest.TestCase):
    def test_each_module_says_what_is_in_it(self):
        paths = modules("src", "**", "*.rt")
        self.assertGreater(len(paths), 400)
        for path in paths:
            with open(path, encoding="utf-8") as file:
                self.assertTrue(file.readline().startswith("//! "), f"{os.path.relpath(path, TOP)} begins with no line `//! ..`")

    def test_modules_of_proofs_are_named_for_their_subject(self):
        paths = modules("proofs", "*.antt")
        self.assertGreater(len(paths), 400)
        for path in paths:
            self.assertIsNone(GERUND.fullmatch(os.path.basename(path)), f"{os.path.relpath(path, TOP)} says what is done, and not of what")

    def test_modules_of_definitions_have_the_fields_words(self):
        paths = modules("specs", "**", "*.antt")
        self.assertGreater(len(paths), 300)
        for path in paths:
            name = os.path.basename(path)[:-len(".antt")]
            self.assertNotIn(name, FIGURES, f"{os.path.relpath(path, TOP)} is a figure of speech for {FIGURES.get(name)}")

    def test_comments_have_plain_words(self):
        for path in modules("src", "**", "*.rt") + modules("specs", "**", "*.antt"):
            text = comments(path)
            for worse, better in PLAIN.items():
                found = re.search(rf"\b(?:{worse})\b", text, re.I)
                self.assertIsNone(found, f"{os.path.relpath(path, TOP)}: {better}, instead of: {found and text[max(0, found.start() - 40):found.end() + 40]}")


if __name__ == "__main__":
    unittest.main()
