"""Tests of the edits beside the gate, and of the tool that tries them."""

import contextlib
import io
import os
import tempfile
import unittest

from surbeldoi.commands import edits

TEXT = "fn twice(n: u32) -> u32 {\n    n + n\n}\n"


class Edits(unittest.TestCase):
    def setUp(self):
        room = tempfile.TemporaryDirectory()
        self.addCleanup(room.cleanup)
        self.top = room.name
        for folder in ("src", "wrong"):
            os.makedirs(os.path.join(self.top, "crates", "low", folder))
        self.write("crates.txt", "low: byteorder\nhigh may_wait=1: low\n")
        self.write("crates/low/src/lib.rt", TEXT)

    def write(self, path, text):
        os.makedirs(os.path.dirname(os.path.join(self.top, path)), exist_ok=True)
        with open(os.path.join(self.top, path), "w", encoding="utf-8") as file:
            file.write(text)

    def fault(self, edit):
        """What is wrong with this edit, as the only one."""
        self.write("crates/low/wrong/once.edit", edit)
        told, count = edits.faults(self.top)
        self.assertEqual(count, 1)
        return told[0].partition(": ")[2] if told else None

    def test_each_edit_of_the_repository_fits_its_file(self):
        told, count = edits.faults()
        self.assertEqual(told, [])
        self.assertGreater(count, 150)

    def test_an_edit_is_applied_step_by_step(self):
        self.assertIsNone(self.fault("file: src/lib.rt\nold: n + n\nnew: n + 1\nold: n + 1\nnew: n\n"))
        self.assertEqual(edits.applied(os.path.join(self.top, "crates/low/wrong/once.edit")), {"src/lib.rt": TEXT.replace("n + n", "n")})

    def test_what_does_not_fit_is_told_with_its_cause(self):
        for edit, why in (
            ("file: src/lib.rt\nold: n * n\nnew: n\n", "stands 0 times in src/lib.rt, not once: n * n"),
            ("file: src/lib.rt\nold: u32\nnew: u64\n", "stands 2 times in src/lib.rt, not once: u32"),
            ("file: src/lib.rt\nold: n + n\nnew: n + n\n", "changes nothing: n + n"),
            ("file: src/other.rt\nold: a\nnew: b\n", "there is no src/other.rt"),
            ("file: specs/Lib.antt\nold: a\nnew: b\n", "it changes specs/Lib.antt: only a change of src/ is a wrong body"),
            ("file: src/lib.rt\nold: n + n\n", "it has no pair of an old and a new text"),
            ("file: src/lib.rt\nalter: n + n\n", "a line is no step: alter: n + n"),
        ):
            with self.subTest(edit=edit):
                self.assertEqual(self.fault(edit), why)

    def test_what_was_tried_is_stale_once_its_text_changes(self):
        self.fault("file: src/lib.rt\nold: n + n\nnew: n\n")
        self.assertEqual(edits.stale({}, self.top), ["low"])
        tried = {"low": (edits.sum_of("low", edits.crates(self.top), self.top), 1)}
        self.assertEqual(edits.stale(tried, self.top), [])
        self.write("crates/low/src/lib.rt", TEXT + "const MORE: u32 = 1;\n")
        self.assertEqual(edits.stale(tried, self.top), ["low"])

    def test_a_comment_makes_nothing_stale(self):
        self.fault("file: src/lib.rt\nold: n + n\nnew: n\n")
        self.write("crates/low/specs/Lib.antt", "pub mod Twice\n")
        tried = {"low": (edits.sum_of("low", edits.crates(self.top), self.top), 1)}
        self.write("crates/low/src/lib.rt", "//! Twice a number.\n" + TEXT.replace("    n", "    // the sum\n    n"))
        self.write("crates/low/specs/Lib.antt", "-- what is twice a number\npub mod Twice\n")
        self.assertEqual(edits.stale(tried, self.top), [])
        self.write("crates/low/specs/Lib.antt", "pub mod Once -- no comment on a line of its own\n")
        self.assertEqual(edits.stale(tried, self.top), ["low"])

    def test_definitions_that_a_crate_cites_are_part_of_its_text(self):
        self.write("crates/high/src/lib.rt", TEXT)
        self.write("crates/high/wrong/once.edit", "file: src/lib.rt\nold: n + n\nnew: n\n")
        before = edits.sum_of("high", edits.crates(self.top), self.top)
        self.write("crates/low/src/lib.rt", TEXT + "const MORE: u32 = 1;\n")
        self.assertEqual(edits.sum_of("high", edits.crates(self.top), self.top), before)
        self.write("crates/low/specs/Lib.antt", "pub mod Twice\n")
        self.assertNotEqual(edits.sum_of("high", edits.crates(self.top), self.top), before)

    def test_stamps_are_read_as_they_were_written(self):
        path = os.path.join(self.top, "edits.tsv")
        known = {"low": ("0123456789abcdef", 3), "high": ("fedcba9876543210", 1)}
        edits.write_stamps(known, path)
        self.assertEqual(edits.stamps(path), known)

    def test_refused_edits_are_read_from_what_the_prover_says(self):
        said = "rt: must-fail low/a.edit: refused, as it must be: src/lib.rt:1:1: error\nrt: must-fail low/b.edit: NOT REFUSED: the crate\nrt: must-fail high/c.edit: refused\n"
        self.assertEqual(edits.refused_in(said, "low"), ["a"])

    def test_edits_of_one_function_are_tried_in_different_checks(self):
        self.write("crates/low/src/lib.rt", TEXT + "\nfn thrice(n: u32) -> u32 {\n    3 * n\n}\n")
        for name, old, new in (("a", "n + n", "n"), ("b", "n + n", "1"), ("c", "3 * n", "n"), ("d", "fn twice(n: u32)", "fn twice(m: u32)")):
            self.write(f"crates/low/wrong/{name}.edit", f"file: src/lib.rt\nold: {old}\nnew: {new}\n")
        self.write("crates/low/wrong/e.edit", "file: src/lib.rt\nold: n + n\nnew: n\nold: 3 * n\nnew: n\n")
        rounds = edits.rounds_of(edits.edits_of("low", top=self.top))
        self.assertEqual([{name: function.path for name, (_, function) in it.items()} for it in rounds], [{"a": "twice", "c": "thrice"}, {"b": "twice"}, {"d": "twice"}])

    def test_which_edits_were_tried_at_their_text(self):
        known, named = edits.stamps(), edits.crates()
        self.assertLessEqual(set(known), set(edits.with_edits(named)), "docs/edits.tsv names a crate without edits")
        left = edits.stale()
        if left:
            self.skipTest(f"edits are to be tried again (tools/edits.py): {' '.join(left)}")

    def test_words(self):
        for words, told in (
            ([], "a crate's name or one option says what is asked for (edits.py --help tells which there are)"),
            (["--all", "sf_io"], "a crate's name or one option says what is asked for (edits.py --help tells which there are)"),
            (["sf_nothing"], "there is no crate sf_nothing"),
            (["--stale", "--apply"], "argument --apply: not allowed with argument --stale (edits.py --help tells what it takes)"),
        ):
            err = io.StringIO()
            with contextlib.redirect_stderr(err):
                self.assertEqual((edits.main(words), err.getvalue()), (2, f"edits.py: {told}\n"), words)


if __name__ == "__main__":
    unittest.main()
