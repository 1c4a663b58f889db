"""Tests of what follows the clauses of the public call: which definitions they lead to, how many, and the page of them."""

import re
import textwrap
import unittest

from surbeldoi.build.believed import believed, count_text, counts_of, page, reading_order
from surbeldoi.build.citing import Sources
from surbeldoi.build.definitions import Unread, read_code, read_specs
from surbeldoi.build.rooms import read_rooms
from tests.test_documents import text
from tests.written import written_sources

CRATES = """\
# base: plain types. Uses no other room.
low:
# top: the command. Uses base.
mid: low
sf_app: mid
"""
LOW = """\
-- Colours, and what is made of them.
use Rattle.std.specs.Prelude.{ℕ, List}
use Rattle.low.specs.declared.pixel.Pixel.{Pixel}
use Rattle.low.specs.declared.pixel.Kind.{Kind}
use Rattle.low.specs.declared.pixel.Kind.TheVariants as kind

-- darker by so much
abbrev pub darker : Pixel → ℕ → Pixel
darker pixel by = record pixel { red = less pixel.red by }

abbrev pub less : ℕ → ℕ → ℕ
less a b = a

-- two pixels, one over the other
unfoldable pub ◌over◌ : Pixel → Pixel → Pixel
front over back = front

module _ {A : Type 0} where
  -- of two things
  -- the first
  abbrev pub first : A → A → A
  first a b = a

  -- what nothing asks for
  abbrev pub second : A → A → A
  second a b = b

-- how a thing is
pub data Form : Type 0 where
  -- flat, of this kind
  flat : Kind → Form
  round : Form

abbrev pub is_round : Form → ℕ
is_round round = 1
is_round other = elim other [
  | flat kind.Shown ↦ 0
]
"""
PIXEL = """\
use crate::words::Word;

/// A pixel.
#[derive(Clone, Copy)]
pub struct Pixel {
    /// From 0 to 255.
    pub red: u32,
    pub kind: Kind,
}

/// What a pixel is for.
pub enum Kind {
    Shown,
    Named(Word),
}

fn unused() {}
"""
WORD = """\
use std::marker::Model;

/// A word.
pub struct Word(Vec<u8>);

impl Model for Word {
    ghost use Rattle.low.specs.Texts.{Text};

    ghost Value = { Text };
}
"""
STATES = """\
-- What the program says.
use Rattle.std.specs.Prelude.{ℕ, ◌≡◌}
use Rattle.low.specs.Colours.{◌over◌, darker as dimmed, first, less}
use Rattle.low.specs.Colours as colours
use Rattle.low.specs.declared.pixel.Pixel.{Pixel}

-- what is shown
pub record Shows (pixel : Pixel) : Type 0 where
  pub first : Pixel
  pub less : pixel ≡ dimmed pixel 1
  pub form : colours.Form
  pub over : first ≡ pixel over pixel

-- an alias of what stands above
abbrev pub IsShown : Pixel → Type 0
IsShown first = Shows first
"""
SESSION = """\
ghost use Rattle.std.specs.Prelude.{◌≡◌};
ghost use Rattle.sf_app.specs.States.{IsShown};
ghost use Rattle.low.specs.Colours.{is_round};

use low::{Gate, Sink};

/// Says what is shown.
pub fn run<R: Threads, K: Sink, G: Gate + Sync>(
    rt: &R,
    sink: &mut K,
    gate: &G,
) -> u8
    ensures shown { IsShown (K.taken sink.new) }
{
    0
}
"""
SINK = """\
ghost use Rattle.low.specs.Texts.{Text};

/// Takes pixels.
pub trait Sink {
    /// What it took.
    ghost taken: { Self → Text };
}

pub trait Gate {
    fn pass(&self);
}
"""
TEXTS = """\
use Rattle.std.specs.Prelude.{ℕ, List}

-- a text
abbrev pub Text : Type 0
Text = List ℕ
"""
FILES = {
    "crates.txt": CRATES,
    "crates/low/specs/Lib.antt": "pub mod Colours\npub mod Texts\n", "crates/low/specs/Colours.antt": LOW, "crates/low/specs/Texts.antt": TEXTS,
    "crates/low/src/lib.rt": "mod pixel;\nmod sink;\nmod words;\n\npub use pixel::{Kind, Pixel};\npub use sink::{Gate, Sink};\n",
    "crates/low/src/pixel.rt": PIXEL, "crates/low/src/words.rt": WORD, "crates/low/src/sink.rt": SINK,
    "crates/mid/specs/Lib.antt": "pub use Rattle.low.specs as low\n", "crates/mid/src/lib.rt": "pub use low as low;\n",
    "crates/sf_app/specs/Lib.antt": "pub mod States\n", "crates/sf_app/specs/States.antt": STATES,
    "crates/sf_app/src/lib.rt": "mod session;\n", "crates/sf_app/src/session.rt": SESSION,
}
# What the clause of this repository leads to, in the order in which it is cited.
CITED = ["Sink", "Text", "IsShown", "Pixel", "Kind", "Word", "Shows", "darker", "less", "Form", "◌over◌"]


def in_lists(files):
    """The same repository with names that come through the crate between."""
    told = {}
    for path, written in files.items():
        if path.startswith("crates/sf_app"):
            written = written.replace("Rattle.low.specs", "Rattle.mid.specs.low").replace("use low::", "use mid::low::")
        told[path] = written
    return told


class Believed(unittest.TestCase):
    def names(self, files):
        return [place.name for place in believed(written_sources(self, files))]

    def test_the_clause_leads_to_each_definition_that_it_rests_on_and_to_no_other(self):
        self.assertEqual(self.names(FILES), CITED)

    def test_names_that_another_crate_hands_on_lead_to_the_same_definitions(self):
        self.assertEqual(self.names(in_lists(FILES)), CITED)
        further = {**in_lists(FILES), "crates/mid/specs/Lib.antt": "pub use Rattle.between.specs.low as low\n",
                   "crates/mid/src/lib.rt": "pub use between::low as low;\n", "crates/between/specs/Lib.antt": "pub use Rattle.low.specs as low\n",
                   "crates/between/src/lib.rt": "pub use low as low;\n"}
        self.assertEqual(self.names(further), CITED)

    def test_a_module_that_another_crate_hands_on_leads_to_the_same_definitions(self):
        files = {**in_lists(FILES), "crates/mid/specs/Lib.antt": "pub use Rattle.low.specs.Colours\npub use Rattle.low.specs as low\n"}
        files["crates/sf_app/specs/States.antt"] = files["crates/sf_app/specs/States.antt"].replace("mid.specs.low.Colours", "mid.specs.Colours")
        self.assertEqual(self.names(files), CITED)

    def test_what_a_clause_cites_besides_is_followed_too(self):
        files = {**FILES, "crates/sf_app/src/session.rt": SESSION.replace("{ IsShown", "{ is_round ≡ is_round × IsShown")}
        self.assertEqual(self.names(files), ["Sink", "Text", "is_round", "Form", "Kind", "Word", "IsShown", "Pixel", "Shows", "darker", "less", "◌over◌"])

    def test_a_trait_is_followed_only_if_a_clause_speaks_of_it(self):
        files = {**FILES, "crates/sf_app/src/session.rt": SESSION.replace("K.taken sink.new", "sink.new")}
        self.assertEqual(self.names(files), CITED[2:5] + ["Word", "Text"] + CITED[6:])

    def test_a_path_that_leads_nowhere_is_told(self):
        for old, new, why in (
            ("Rattle.low.specs.Colours.{◌over◌", "Rattle.low.specs.Colors.{◌over◌", "low.specs.Colors leads nowhere"),
            ("Rattle.low.specs.Colours.{◌over◌", "Rattle.mid.specs.far.Colours.{◌over◌", "mid.specs.far.Colours leads nowhere"),
            ("declared.pixel.Pixel.{", "declared.pixels.Pixel.{", "low declares no pixels.Pixel"),
        ):
            with self.subTest(why=why), self.assertRaises(Unread) as raised:
                self.names({**FILES, "crates/sf_app/specs/States.antt": STATES.replace(old, new)})
            self.assertEqual(str(raised.exception), why)

    def test_definitions_and_lines_are_counted(self):
        sources = written_sources(self, FILES)
        counts = counts_of(sources, believed(sources))
        self.assertEqual((counts.definitions, counts.silent), (11, 1))
        # Sink 5, Text 3, IsShown 3, Pixel 6, Kind 5, Word 6, Shows 6, darker 3, less 2, Form 5, over 3.
        self.assertEqual(counts.lines, 47)
        self.assertEqual(count_text(counts), "To believe the headline you read 11 definitions, 47 lines")

    def test_a_module_line_is_counted_once_for_what_stands_under_it(self):
        sources = written_sources(self, FILES)
        both = [place for place in map(lambda name: sources.named(("low", "specs", "Colours"), name), ("first", "second"))]
        self.assertEqual(counts_of(sources, both).lines, 1 + 4 + 3)

    def test_they_are_read_room_by_room_from_the_top_down(self):
        sources = written_sources(self, FILES)
        order = reading_order(sources, believed(sources), read_rooms(sources.top))
        self.assertEqual([[place.name for place in places] for places in order],
                         [["Shows", "IsShown"], ["Sink"], ["Text"], ["Pixel", "Kind"], ["Word"], ["darker", "less", "◌over◌", "Form"]])

    def test_each_name_on_the_page_is_a_link_to_its_definition_with_its_sentence(self):
        told = page(written_sources(self, FILES).top)
        anchors, links = re.findall(r'id="([^"]*)"', told), re.findall(r'href="#([^"]*)"', told)
        self.assertEqual(len(anchors), len(set(anchors)))
        self.assertEqual(set(links) - set(anchors), set())
        self.assertEqual([name for name in CITED if f".{name}\"" not in " ".join(f'{one}"' for one in anchors)], [])
        for part in ("<h1>To believe the headline you read 11 definitions, 47 lines</h1>", "<p>darker by so much</p>",
                     "1 have none of their own", '<a href="#low.specs.Colours.less">less</a> pixel.red by', "abbrev pub <b>darker</b> : ",
                     'pixel <a href="#low.specs.Colours.◌over◌">over</a> pixel', '<a href="../crates/low/src/pixel.rt">low / pixel</a>',
                     "G: Gate + Sync", '<p class="head">Colours, and what is made of them.</p>'):
            self.assertIn(part, told)

    def test_readme_says_how_much_it_is(self):
        sources = Sources()
        said = count_text(counts_of(sources, believed(sources)))
        self.assertTrue(said in text("README.md"), f"README.md has to say: {said}")


class Definitions(unittest.TestCase):
    def test_a_file_is_read_into_items_with_their_comments(self):
        file = read_specs(LOW)
        self.assertEqual(file.head, ("Colours, and what is made of them.",))
        self.assertEqual([(item.name, item.line, item.comment, item.under) for item in file.items], [
            ("darker", 8, ("darker by so much",), ()), ("less", 11, (), ()), ("◌over◌", 15, ("two pixels, one over the other",), ()),
            ("first", 21, ("of two things", "the first"), ("module _ {A : Type 0} where",)),
            ("second", 25, ("what nothing asks for",), ("module _ {A : Type 0} where",)),
            ("Form", 29, ("how a thing is",), ()), ("is_round", 34, (), ())])
        self.assertEqual(file.items[5].text[1:], ("  -- flat, of this kind", "  flat : Kind → Form", "  round : Form"))

    def test_a_module_line_may_go_on_in_the_next(self):
        file = read_specs("module _ (a : A)\n    (b : B) where\n  abbrev pub one : A\n  one = a\n\n  module _ (c : C) where\n    abbrev pub two : A\n"
                          "    two = a\n\nabbrev pub three : A\nthree = zero\n")
        self.assertEqual([(item.name, item.under) for item in file.items], [
            ("one", ("module _ (a : A) (b : B) where",)), ("two", ("module _ (a : A) (b : B) where", "module _ (c : C) where")), ("three", ())])

    def test_a_line_of_no_item_is_told(self):
        for written, line in (("stray = 1\n", 1), ("abbrev pub one : A\none = a\n\nstray = 1\n", 4)):
            with self.subTest(written=written), self.assertRaises(Unread) as raised:
                read_specs(written)
            self.assertEqual(str(raised.exception), f"line {line} is of no item: stray = 1")

    def test_a_type_of_src_has_what_contracts_see_of_it(self):
        (item,) = read_code(WORD).items
        self.assertEqual((item.name, item.comment, item.text[0], item.text[-2]), ("Word", ("A word.",), "pub struct Word(Vec<u8>);", "    ghost Value = { Text };"))
        self.assertEqual([item.name for item in read_code(PIXEL).items], ["Pixel", "Kind"])

    def test_an_item_that_does_not_end_is_told(self):
        with self.assertRaises(Unread) as raised:
            read_code(textwrap.dedent("""\
                pub struct Pixel {
                    pub red: u32,
                """))
        self.assertEqual(str(raised.exception), "line 1 begins an item that does not end: pub struct Pixel {")


if __name__ == "__main__":
    unittest.main()
