"""Tests of steps.py."""

import contextlib
import io
import json
import os
import tempfile
import unittest
from unittest import mock

from surbeldoi.build import steps
from surbeldoi.commands import steps as command


def one(name, taken, calls=()):
    """What a record says of a declaration."""
    return {"aux": [], "calls": [[tactic, [0, 9], more] for tactic, more in calls], "name": name, "steps": taken}


def record(*declarations):
    """A record: other bytes, a list that is none of declarations, and the list."""
    return b"18\x01\xff" + json.dumps([{"module": []}]).encode() + b"\x00[{\"" + json.dumps(list(declarations)).encode() + b"\x02"


class Records(unittest.TestCase):
    def setUp(self):
        folder = tempfile.TemporaryDirectory()
        self.addCleanup(folder.cleanup)
        self.top = folder.name
        self.put("low", "Rattle-low-proofs.a.f.Proof", record(one("returns", [2_000_000, 500_000, 0], [("search", 1_900_000)])))
        self.put("low", "Rattle-low-proofs.a.f.Kinds-3-1", record(one("kinds", [100, 0, 0])))
        self.put("low", "Rattle-low-specs.a", record(one("size", [7, 0, 0]), one("\u25cc+\u25cc", [0, 3, 0])))
        self.put("low", "Rattle-low.below", b"nothing of its own")
        os.makedirs(os.path.join(self.top, "crates", "high", "out"))

    def put(self, crate, module, content):
        folder = os.path.join(self.top, "crates", crate, "out", "incremental", "antt-checked-1", "records")
        os.makedirs(folder, exist_ok=True)
        with open(os.path.join(folder, f"{module}.decls.oantt"), "wb") as file:
            file.write(content)

    def told(self, *given):
        """The status of the command with these words, and what it writes to both streams."""
        out, err = io.StringIO(), io.StringIO()
        with mock.patch.object(command, "TOP", self.top), contextlib.redirect_stdout(out), contextlib.redirect_stderr(err):
            return command.main(list(given)), out.getvalue(), err.getvalue()

    def test_declarations_come_the_dearest_first(self):
        found = steps.declarations_of("low", self.top)
        self.assertEqual([(of.module, of.name, of.steps) for of in found],
                         [("a.f.Proof", "returns", 2_500_000), ("a.f.Kinds-3-1", "kinds", 100), ("a", "size", 7), ("a", "\u25cc+\u25cc", 3)])
        self.assertEqual(found[0].calls, (("search", 1_900_000),))

    def test_kinds_have_no_numbers(self):
        for module, kind in (("a.f.Proof", "Proof"), ("a.f.Kinds-3-1-0", "Kinds"), ("Kinds-3", "Kinds"), ("a", "a"), ("f.call_mut.Layout", "Layout")):
            self.assertEqual(steps.kinds_of([steps.Declaration(module, "x", 1, ())]), [(kind, 1)], module)

    def test_a_crate_is_told_by_kinds_and_by_its_dearest(self):
        status, out, err = self.told("low", "--worst", "1")
        self.assertEqual((status, err), (0, ""))
        self.assertEqual(out.split("\n"), [
            "low: 2.5 million steps in 4 declarations", "    2.50  Proof", "",
            "Dearest declarations:", "    2.50  returns (a.f.Proof)", "",
            "Dearest calls of tactics:", "    1.90  search in returns (a.f.Proof)", "", ""])

    def test_nothing_is_told_of_a_crate_without_records(self):
        for crate, fault in (("high", "high has no records: run `rt check` in crates/high first"), ("lwo", "there is no crate lwo")):
            with self.subTest(crate=crate):
                status, out, err = self.told("low", crate)
                self.assertEqual((status, out), (2, ""))
                self.assertEqual(err, f"steps.py: {fault}\n")


if __name__ == "__main__":
    unittest.main()
