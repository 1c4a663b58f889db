"""Tests of the smaller program that is compiled for a first look."""

import os
import re
import tempfile
import unittest

from surbeldoi.build import small_program
from surbeldoi.commands import run


class Made(unittest.TestCase):
    """The program that is made of the crates as they stand."""

    @classmethod
    def setUpClass(cls):
        folder = tempfile.TemporaryDirectory()
        cls.addClassCleanup(folder.cleanup)
        cls.folder = folder.name
        cls.crate = small_program.make(run.TOP, cls.folder)
        with open(os.path.join(cls.folder, "crates.txt"), encoding="utf-8") as file:
            cls.lines = small_program.listed_crates(file.read())
        with open(os.path.join(run.TOP, "crates.txt"), encoding="utf-8") as file:
            cls.all = small_program.listed_crates(file.read())

    def contents(self, *names):
        with open(os.path.join(self.folder, *names), encoding="utf-8") as file:
            return file.read()

    def test_a_sum_is_that_of_the_sources_that_are_used(self):
        def write(name, text):
            os.makedirs(os.path.dirname(os.path.join(top, name)), exist_ok=True)
            small_program.write(os.path.join(top, name), text)

        with tempfile.TemporaryDirectory() as top:
            for name in ("sf_app/src/play.rt", "sf_app/src/turns.rt", "sf_io/src/lib.rt", "sf_io/src/deep/more.rt", "sf_live/src/lib.rt"):
                write(f"crates/{name}", "")
            write("crates.txt", "sf_io:\nsf_live:\n")
            sums = [small_program.sum_of(top)]
            os.utime(os.path.join(top, "crates/sf_io/src/lib.rt"), (1, 1))
            write("crates/sf_live/src/lib.rt", "// more")
            self.assertEqual(small_program.sum_of(top), sums[0], "times and what is not used count nothing")
            for name in ("sf_app/src/play.rt", "sf_app/src/turns.rt", "sf_io/src/lib.rt", "sf_io/src/deep/more.rt"):
                write(f"crates/{name}", "// more")
                self.assertNotIn(small_program.sum_of(top), sums, name)
                sums.append(small_program.sum_of(top))

    def test_each_crate_that_is_used_is_there_and_no_other(self):
        for crate, (_, uses) in self.lines.items():
            self.assertTrue(os.path.isdir(os.path.join(self.folder, "crates", crate, "src")), crate)
            for used in uses:
                self.assertTrue(used in self.lines or not used.startswith("sf_"), f"{crate}: {used}")
            used = small_program.used_in(small_program.sources_of(self.folder, crate, self.lines)) & set(self.lines) - {crate}
            self.assertLessEqual(used, set(uses), crate)
        self.assertEqual(sorted(os.listdir(os.path.join(self.folder, "crates"))), sorted(self.lines))

    def test_it_is_smaller(self):
        whole = small_program.below(["sf_main"], run.TOP, self.all)
        self.assertLess(len(self.lines), len(whole))
        for crate in ("sf_live", "sf_live_threads", "sf_app_options", "sf_script_generate"):
            self.assertNotIn(crate, self.lines)
            self.assertIn(crate, whole)

    def test_each_module_is_there_and_what_it_uses_is_named(self):
        main = self.contents("crates", small_program.NAME, "src", "main.rt")
        modules = re.findall(r"^mod (\w+);", main, re.M)
        self.assertEqual(sorted(modules), ["play", "turns"])
        for module in modules:
            text = self.contents("crates", small_program.NAME, "src", module + ".rt")
            for name in re.findall(r"^use %s::(?:\{([^}]*)\}|(\w+));" % module, main, re.M):
                for item in "".join(name).split(", "):
                    self.assertIn(f"pub fn {item}", text)

    def test_what_only_contracts_cite_is_left_out(self):
        self.assertEqual(small_program.used_in(["ghost use Rattle.a::b.{\n  c};\nuse d::e; // f::g\nlet x = h::i(j);\n"]), {"d", "h"})

    def test_what_another_crate_hands_on_is_named_by_its_own_name(self):
        handed = {("high", "c"): ("mid", "c"), ("mid", "c"): ("low", "d")}
        for written, named in (
            ("pub use low;\npub use mid::{\n    low, a,\n};\n", "\n\n\n\n"),
            ("use high::mid::low::{a, b};\n", "use low::a; use low::b;\n"),
            ("use high::c;\n", "use low::d as c;\n"),
            ("use high::{own, c as e};\n", "use high::own; use low::d as e;\n"),
            ("use other::{low, c};\nuse crate::low::a;\n", "use other::{low, c};\nuse crate::low::a;\n"),
            ("let x = mid::low::a(lower::low::b, mid::c);\n", "let x = low::a(lower::low::b, mid::c);\n"),
        ):
            with self.subTest(written=written):
                self.assertEqual(small_program.by_own_names(written, {"low", "mid", "high"}, handed), named)

    def test_what_it_calls_of_sf_app_takes_what_it_gives(self):
        text = self.contents("crates", small_program.NAME, "src", "play.rt")
        head = re.search(r"^pub fn play\b.*?\((.*?)\) ->", text, re.M | re.S).group(1)
        self.assertEqual(re.findall(r"(\w+): ", head), ["engine", "sink", "scene"])

    def test_sources_are_copied_without_contracts_and_proofs(self):
        with open(os.path.join(run.TOP, "crates", "sf_app", "src", "play.rt"), encoding="utf-8") as file:
            copied, whole = self.contents("crates", small_program.NAME, "src", "play.rt"), file.read()
        self.assertEqual(copied, small_program.without_contracts(small_program.by_own_names(whole, self.all, small_program.handed_on(run.TOP, self.all))))
        self.assertEqual(copied.count("\n"), whole.count("\n"))
        self.assertEqual(os.listdir(os.path.join(self.folder, "crates", "sf_play_write")), ["src"])

    def test_only_the_clauses_of_contracts_are_left_out(self):
        text = """\
/// requires { x }
fn a(x: &str) -> u8
    requires { IsSome x.{ now } // }
    }
    ensures sync { "}" }
{
    let b = "ensures {"; // ensures { }
    '{'
}
"""
        lines = text.split("\n")
        lines[2:5] = ["    ", "", "    "]
        self.assertEqual(small_program.without_contracts(text), "\n".join(lines))

    def test_what_may_wait_stays_behind_a_crates_name(self):
        self.assertEqual(small_program.listed_crates("# all\na may_wait=3: b c # two\nb:\n"), {"a": ("a may_wait=3", ["b", "c"]), "b": ("b", [])})


if __name__ == "__main__":
    unittest.main()
