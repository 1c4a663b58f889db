"""Tests of quick.py: what it tells of its parts."""

import contextlib
import io
import itertools
import os
import subprocess
import unittest
from unittest import mock

from surbeldoi.commands import quick

STORED = "== a one\nx\n== b two\ny\n== c left out\nz\n"


def ended(out, err="", status=0):
    return subprocess.CompletedProcess([], status, out, err)


class Told(unittest.TestCase):
    def told(self, *of):
        return quick.told_of(ended(*of), STORED, {"a", "b"})

    def test_what_differs(self):
        self.assertEqual(self.told("== a one\nx\n== b two\ny\n"), ([], 2, 0))
        self.assertEqual(self.told("== a one\nx\n== b two\nq\n"), (["test_program: b differs"], 2, 1))

    def test_the_reason_is_told_first(self):
        self.assertEqual(self.told("== a one\nx\n", "out of time\n", 6), (["test_program ended with status 6: out of time", "test_program: b differs"], 2, 1))

    def test_that_nothing_was_printed_is_told_once(self):
        self.assertEqual(self.told("", "out of time\n", 6), (["test_program ended with status 6: out of time", "test_program: nothing was printed"], 2, 2))
        self.assertEqual(self.told("", "", 1), (["test_program ended with status 1: it says nothing of it", "test_program: nothing was printed"], 2, 2))

    def test_files_of_tests(self):
        passes, fails = ended("", status=0), ended("FAIL: test_x\nit is 2\n", status=1)
        self.assertEqual(quick.told_of_tests([("test_a.py", passes), ("test_b.py", passes)]), (["2 of 2 files of tests of the tools pass"], True))
        self.assertEqual(quick.told_of_tests([("test_a.py", passes), ("test_b.py", fails)]),
                         (["test_b.py:", "FAIL: test_x", "it is 2", "1 of 2 files of tests of the tools pass"], False))
        self.assertFalse(quick.told_of_tests([]).is_right)

    def test_each_file_of_tests_is_run(self):
        with mock.patch.object(quick, "by_python", lambda *given: ended(given[-1], status=int(given[-1] == "test_quick.py"))):
            told = quick.try_tools()
        self.assertEqual(told.lines[:2], ["test_quick.py:", "test_quick.py"])
        many = len([name for name in os.listdir(os.path.dirname(__file__)) if name.startswith("test_")])
        self.assertEqual(told.lines[2:], [f"{many - 1} of {many} files of tests of the tools pass"])

    def test_all_parts_have_to_be_right(self):
        for right in itertools.product((True, False), repeat=3):
            parts = [lambda number=number, is_right=is_right: quick.Part([f"part {number}"], is_right) for number, is_right in enumerate(right)]
            out = io.StringIO()
            with mock.patch.object(quick, "PARTS", parts), contextlib.redirect_stdout(out):
                self.assertEqual(quick.run(None), 0 if all(right) else 1, right)
            self.assertEqual(out.getvalue(), "part 0\npart 1\npart 2\n")

    def test_words(self):
        out, err = io.StringIO(), io.StringIO()
        with contextlib.redirect_stdout(out), contextlib.redirect_stderr(err):
            self.assertEqual((quick.main(["--help"]), quick.main(["-h", "x"]), quick.main(["x"])), (0, 0, 2))
        self.assertEqual(out.getvalue().count("usage: quick.py"), 2)
        self.assertEqual(err.getvalue(), "quick.py: unrecognized arguments: x (quick.py --help tells what it takes)\n")


if __name__ == "__main__":
    unittest.main()
