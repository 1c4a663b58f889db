"""Tests of what tells modules of specs/ that public contracts lead to from those that only private ones cite."""

import unittest

from surbeldoi.build.citing import Sources
from surbeldoi.build.reached import misplaced, reached
from tests.written import written_sources


def specs(name, by="n", head=""):
    """A module of specs/ with one definition."""
    return f"{head}use Rattle.std.specs.Prelude.{{ℕ}}\n\n-- a number, as it is\nabbrev pub {name} : ℕ → ℕ\n{name} n = {by}\n"


# A crate with one module of definitions for each way in which a contract names them.
FILES = {
    "crates.txt": "# base: one crate. Uses no other room.\nlow:\n",
    "crates/low/specs/Lib.antt": "pub mod Calls\npub mod Members\npub mod Views\npub mod Steps\npub mod Below\npub mod inner\n",
    "crates/low/specs/inner.antt": "pub mod Rows\n",
    "crates/low/specs/Calls.antt": specs("called"), "crates/low/specs/Members.antt": specs("counted"), "crates/low/specs/Views.antt": specs("seen"),
    "crates/low/specs/Steps.antt": specs("stepped", "deep n", "use Rattle.low.specs.Below.{deep}\n"),
    "crates/low/specs/Below.antt": specs("deep"), "crates/low/specs/inner/Rows.antt": specs("of_rows"),
    "crates/low/src/lib.rt": "mod calls;\nmod rows;\nmod size;\n\npub use calls::{half, Steps};\npub use size::Size as Extent;\npub use size::Size;\n",
    "crates/low/src/calls.rt": """\
ghost use Rattle.low.specs.Calls.{called};
ghost use Rattle.low.specs.inner.Rows.{of_rows};

/// Half of it.
pub fn half(n: u32) -> u32
    ensures { result ≡ called n }
{
    row(n)
}

/// Half of a row.
pub fn row(n: u32) -> u32
    ensures { result ≡ of_rows n }
{
    n / 2
}

/// What takes steps.
pub trait Steps {
    ghost use Rattle.low.specs.Steps.{stepped};

    fn step(&self) -> u32
        ensures { result ≡ stepped result };
}
""",
    "crates/low/src/size.rt": """\
ghost use Rattle.low.specs.Members.{counted};
ghost use Rattle.low.specs.inner.Rows.{of_rows};

/// A size.
pub struct Size {
    pub width: u32,
}

impl Model for Size {
    ghost use Rattle.low.specs.Views.{seen};

    type Value = Size;
    ghost view = { λ s. seen s };
}

impl Size {
    /// Twice it.
    pub fn twice(&self) -> u32
        ensures { result ≡ counted result }
    {
        self.rest()
    }

    fn rest(&self) -> u32
        ensures { result ≡ of_rows result }
    {
        0
    }
}
""",
    "crates/low/src/rows.rt": """\
ghost use Rattle.low.specs.inner.Rows.{of_rows};

struct Row {
    at: u32,
}

impl Drop for Row {
    fn drop(self)
        ensures { of_rows 0 ≡ 0 }
    {}
}
""",
}


class Reached(unittest.TestCase):
    def test_public_contracts_lead_to_these_modules(self):
        self.assertEqual(sorted(module for _, module in reached(written_sources(self, FILES))), ["Below", "Calls", "Members", "Steps", "Views"])
        self.assertEqual(misplaced(written_sources(self, FILES)), [])

    def test_a_module_of_the_other_kind_is_told_with_where_it_goes(self):
        calls, size, root = (f"crates/low/src/{name}.rt" for name in ("calls", "size", "lib"))
        out = "crates/low/specs/{}.antt: public contracts do not lead to it, so it lies in specs/inner/"
        rows = "crates/low/specs/inner/Rows.antt: public contracts lead to it, so it lies in specs/"
        for title, path, old, new, told in (
                ("a function that is handed on no more", root, "{half, Steps}", "Steps", [out.format("Calls")]),
                ("a trait that is handed on no more", root, "{half, Steps}", "half", [out.format("Below"), out.format("Steps")]),
                ("a type that is handed on no more", root, "pub use size::Size as Extent;\npub use size::Size;\n", "", [out.format("Members"), out.format("Views")]),
                ("a private function that is handed on", root, "{half, Steps}", "{half, row, Steps}", [rows]),
                ("a private method that is made public", size, "    fn rest", "    pub fn rest", [rows]),
                ("a public method that is made private", size, "    pub fn twice", "    fn twice", [out.format("Members")]),
                ("a public clause that cites another module", calls, "result ≡ called n", "result ≡ of_rows n", [out.format("Calls"), rows])):
            with self.subTest(title):
                self.assertIn(old, FILES[path], title)
                self.assertEqual(misplaced(written_sources(self, {**FILES, path: FILES[path].replace(old, new)})), told, title)

    def test_each_module_of_the_repository_lies_where_it_belongs(self):
        self.assertEqual(misplaced(Sources()), [])


if __name__ == "__main__":
    unittest.main()
