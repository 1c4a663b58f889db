"""Tests of which function an edit changes, and of what a check says of it."""

import unittest

from surbeldoi.build import bodies
from surbeldoi.build.bodies import Function

FILE = "src/room/low.rt"
TEXT = """//! What a number is.

pub struct Number {
    value: u32,
}

impl Number {
    /// One more.
    pub fn next(&self) -> u32
        ensures { result ≡ self.now + 1 }
    {
        self.value + 1
    }

    pub(crate) const fn empty(&self) {}
}

impl<T: Count> Count for Many<T> {
    fn count(&self) -> u32 {
        let one = || 1;
        one()
    }
}

trait Count {
    fn count(&self) -> u32 {
        2
    }
}

fn twice(n: u32) -> u32 {
    n + n
}
"""

SAID = """checked low::room::low::twice, 1 of 2
note: src/room/low.rt:31:5: it is not proved that what the function ensures holds when it returns (`returns`); `search` gave up
fn low::room::low::twice: no proof: expected answers in ./proofs/room/low/twice/Answers.antt
./proofs/number/Number/next/Answers.antt:3:5: error: expected type `a` but this has type `b`
fn low::number::Number::next: not proved
"""


def line_of(text):
    return TEXT.count("\n", 0, TEXT.index(text)) + 1


class Bodies(unittest.TestCase):
    def test_the_function_around_a_line(self):
        for text, path in (
            ("self.value + 1", "Number::next"),
            ("ensures { result", "Number::next"),
            ("fn empty", "Number::empty"),
            ("one()", "ManyCount::count"),
            ("n + n", "room::low::twice"),
            ("        2", None),
            ("value: u32", None),
            ("impl Number", None),
        ):
            with self.subTest(text=text):
                found = bodies.around(TEXT, FILE, line_of(text))
                self.assertEqual(found and found.path, path)

    def test_modules_of_files(self):
        for file, module in (("src/lib.rt", []), ("src/main.rt", []), ("src/a.rt", ["a"]), ("src/a/b.rt", ["a", "b"])):
            self.assertEqual(bodies.module_of(file), module, file)

    def test_an_edit_changes_one_function_or_none_is_named(self):
        twice = Function("room::low::twice", FILE, line_of("fn twice"), line_of("n + n") + 1)
        for steps, function in (
            ([(FILE, "n + n", "n")], twice),
            ([(FILE, "n + n", "n + 1"), (FILE, "n + 1", "1")], twice),
            ([(FILE, "n + n", "n"), (FILE, "self.value + 1", "0")], None),
            ([(FILE, "value: u32", "value: u64")], None),
            ([(FILE, "n * n", "n")], None),
        ):
            with self.subTest(steps=steps):
                self.assertEqual(bodies.changed({FILE: TEXT}, steps), function)

    def test_an_edit_is_refused_for_a_cause_in_its_own_function(self):
        twice = bodies.around(TEXT, FILE, line_of("n + n"))
        after = bodies.around(TEXT, FILE, line_of("self.value + 1"))
        told = bodies.refused(SAID, "low", {"a": twice, "b": after})
        self.assertEqual({edit: line.partition(":")[0] for edit, line in told.items()}, {"a": "note", "b": "./proofs/number/Number/next/Answers.antt"})

    def test_a_name_that_a_check_does_not_know(self):
        for said, name in (
            ("rattle: error: `low` has no function `Many::count`: help: write the name that a check prints", "Many::count"),
            ("rattle: error: several functions are named `twice`: help: write one of `low::a::twice`, `low::b::twice`", "twice"),
            ("fn low::room::low::twice: proved\n", None),
        ):
            self.assertEqual(bodies.unknown(said), name)

    def test_what_shows_no_refusal_is_left(self):
        twice = bodies.around(TEXT, FILE, line_of("n + n"))
        other = "src/room/low.rt:99:5"
        for said, why in (
            ("fn low::room::low::twice: proved\n", "it is proved"),
            ("error[E0308]: mismatched types\n", "the text cannot be read"),
            ("fn low::room::low::twice: not proved\n", "no cause is named"),
            (f"note: {other}: it is not proved that a call may be made\nfn low::room::low::twice: not proved\n", "the cause is another function's"),
            ("note: src/room/low.rt:31:5: large solution\nfn low::room::low::twice: not proved\n", "a note is no refusal"),
            ("./proofs/room/low/twice/Answers.antt:2:1: error: `met` was not admitted\nfn low::room::low::twice: not proved\n", "it rests on another one"),
            ("./proofs/room/low/twice/Answers.antt:2:1: error: `n` is not in scope\nfn low::room::low::twice: not proved\n", "a name is gone"),
        ):
            with self.subTest(why=why):
                self.assertEqual(bodies.refused(said, "low", {"a": twice}), {})


if __name__ == "__main__":
    unittest.main()
