"""Tests of the numbers that say how the code of the crates reads, and what keeps them from rising."""

import unittest

from surbeldoi.build import measures

# None of these numbers may rise. Whoever lowers one puts it down here.
MOST = {
    "functions with more than 6 parameters": 2,
    "parameters of the function that has most": 7,
    "clauses of more than 160 letters": 3,
    "clauses of more than 200 letters": 2,
    "clauses that say `1 ≤ workers`": 6,
    "frames from main to the kernel that blends": 25,
    "layers from an actor in a thread to its queue": 5,
}
SOURCE = """
//! fn in_a_comment(a: u8, b: u8)
/// One.
pub fn one<R: Fn(u8, u8) -> u8, K>(
    rt: &R,
    pair: (u8, u8),
    list: Vec<(u8, K)>,
) -> Result<(), u8>
    requires some { 1 ≤ workers }
    ensures { result ≡ (λ x.
        x < { y }) }
{
    two("fn text(", pair);
    f(1)
}

fn two() {
    three::<u8>(4)
}

trait Named {
    fn three(&self, step: u32) -> u8
        requires { 1 ≤ options.workers };
}
"""


def functions(source):
    return [(function.name, function.parameters) for function in measures.functions_in("low/src/lib.rt", source)]


class OfThisRepository(unittest.TestCase):
    def setUp(self):
        self.texts = list(measures.sources())

    def test_no_number_rises(self):
        found = measures.counts(self.texts)
        self.assertEqual(list(found), list(MOST))
        for what, number in found.items():
            with self.subTest(what=what):
                self.assertLessEqual(number, MOST[what], f"{what}: there were {MOST[what]}. `python3 tools/measures.py --worst 400` lists them")

    def test_each_frame_and_each_layer_calls_the_next(self):
        for walk in (measures.FRAMES, measures.LAYERS):
            with self.subTest(walk=walk):
                self.assertEqual(measures.missing_calls(self.texts, walk), [])


class OfAnySource(unittest.TestCase):
    def test_parameters_are_counted_outside_of_brackets_comments_and_texts(self):
        self.assertEqual(functions(SOURCE), [("one", 3), ("two", 0), ("three", 2)])
        self.assertEqual(functions("fn f(a: u8) {}\nfn g(mut a: [u8; 2], b: &dyn Fn(u8, u8) -> u8,) {}"), [("f", 1), ("g", 2)])

    def test_clauses_are_counted_with_each_run_of_blanks_as_one(self):
        found = [(clause.function, clause.text) for clause in measures.clauses_in("low/src/lib.rt", SOURCE)]
        self.assertEqual(found, [("one", "1 ≤ workers"), ("one", "result ≡ (λ x. x < { y })"), ("three", "1 ≤ options.workers")])

    def test_what_is_long_or_wide_is_told_with_its_place(self):
        clause = "    ensures { " + "x" * 201 + " }\n"
        texts = [("low/src/a.rt", "fn wide(a: u8, b: u8, c: u8, d: u8, e: u8, f: u8, g: u8)\n" + clause + "{}\n"), ("low/src/b.rt", SOURCE)]
        self.assertEqual(list(measures.counts(texts).values())[:5], [1, 7, 1, 1, 2])
        lines = measures.lines_of(texts)
        self.assertIn("     7  wide (low/src/a.rt)", lines)
        self.assertIn("   201  wide (low/src/a.rt)", lines)
        self.assertEqual(list(measures.counts([]).values())[:5], [0, 0, 0, 0, 0])

    def test_a_step_of_a_walk_that_no_source_has_is_told(self):
        texts = [("low/src/lib.rt", SOURCE), ("high/src/main.rt", "fn main() {\n    one(&g);\n}\n")]
        for walk, why in (
            ("high: main\nlow: one two three\n", []),
            ("high: main\nlow: one one|f two three\n", []),
            ("high: main\nlow: two three\n", ["main of high calls no two"]),
            ("high: main\nlow: one three\n", ["one of low calls no three"]),
            ("low: two one|g\n", ["two of low calls no one|g"]),
            ("high: main.main\nlow: lib.one lib.two three\n", []),
            ("low: lib.one lib.three\n", ["lib.one of low calls no lib.three"]),
            ("low: main.one two\n", ["main.one of low calls no two"]),
        ):
            with self.subTest(walk=walk):
                self.assertEqual(measures.missing_calls(texts, walk), why)


if __name__ == "__main__":
    unittest.main()
