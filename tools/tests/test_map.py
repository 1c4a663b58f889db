"""Tests of the map: the rooms of crates.txt, their picture in ARCHITECTURE.md, and what each crate lists."""

import unittest

from surbeldoi.build import rooms
from tests.test_documents import text

HEAD = "# The crates, from the bottom up.\n\n"
LOW = "# base: plain types. Uses no other room.\nlow: byteorder\nmid may_wait=2: low\n"
HIGH = "# top: the command, and what it needs. Uses base.\nhigh: mid\n"


def faults(text_of_crates):
    told = rooms.rooms_of(text_of_crates)
    return rooms.heading_faults(told) + rooms.crate_faults(told)


class OfThisRepository(unittest.TestCase):
    def setUp(self):
        self.rooms = rooms.read_rooms()

    def test_headings_name_rooms_below_them(self):
        self.assertEqual(rooms.heading_faults(self.rooms), [])

    def test_no_crate_stands_above_what_it_uses_or_reaches_past_its_room(self):
        self.assertEqual(rooms.crate_faults(self.rooms), [])

    def test_each_crate_stands_in_one_room(self):
        self.assertEqual(sorted(name for room in self.rooms for name in room.crates), rooms.folders())

    def test_paths_stay_few(self):
        self.assertEqual(rooms.path_faults(self.rooms), [])

    def test_the_picture_of_the_map_is_that_of_the_headings(self):
        picture = rooms.diagram(self.rooms)
        self.assertTrue(picture in text("docs/ARCHITECTURE.md"), f"docs/ARCHITECTURE.md needs this picture:\n{picture}")


class OfAnyMap(unittest.TestCase):
    def test_rooms_have_what_stands_under_their_headings(self):
        low, high = rooms.rooms_of(HEAD + LOW + "\n" + HIGH)
        self.assertEqual((low.name, low.says, low.uses, list(low.crates)), ("base", "plain types", (), ["low", "mid"]))
        self.assertEqual((high.says, high.uses, high.crates), ("the command, and what it needs", ("base",), {"high": ["mid"]}))
        self.assertEqual(faults(HEAD + LOW + HIGH), [])

    def test_what_is_out_of_place_is_told_with_its_line(self):
        for crates, why in (
            ("low:\n" + HIGH, "line 1: a crate stands above the first heading of a room"),
            (LOW + "# top, which uses base\nhigh: mid\n", "line 4: a heading is"),
            (LOW + "# top: the command\n", "line 4: a heading is"),
            (LOW + LOW, "line 5: low is listed a second time"),
        ):
            with self.subTest(crates=crates), self.assertRaises(rooms.BadMap) as raised:
                rooms.rooms_of(crates)
            self.assertIn(why, str(raised.exception))

    def test_what_a_heading_or_a_list_may_not_have_is_told(self):
        more = "# roof: what is above. Uses base, top.\nroof: mid high\n"
        for crates, why in (
            (HIGH + LOW, ["top uses base, which is no room below it", "high stands above mid, which it uses", "top names base, of which none of its crates lists one"]),
            ("# base: plain types. Uses no other room.\nmid: low\nlow:\n", ["mid stands above low, which it uses"]),
            (LOW + HIGH + more, ["roof names base, which another room that it names may use already"]),
            (LOW + HIGH.replace("Uses base", "Uses no other room"), ["high of top uses mid of base, which the heading does not allow"]),
            (LOW + HIGH.replace("high: mid", "high:"), ["top names base, of which none of its crates lists one"]),
            (LOW + HIGH + "# top: another one. Uses top.\nroof: high\n", ["two rooms have the name top"]),
        ):
            with self.subTest(crates=crates):
                self.assertEqual(faults(crates), why)

    def test_a_room_may_use_what_the_rooms_that_it_names_may_use(self):
        self.assertEqual(faults(LOW + HIGH + "# roof: what is above. Uses top.\nroof: mid high\n"), [])

    def test_paths_are_counted_below_each_crate(self):
        told = rooms.rooms_of(LOW + HIGH + "# roof: what is above. Uses top.\nroof: low mid high\n")
        self.assertEqual(rooms.paths_of(rooms.lists_of(told)), {"low": 0, "mid": 1, "high": 2, "roof": 6})
        self.assertEqual(rooms.path_faults(told, 6), [])
        (why,) = rooms.path_faults(told, 5)
        self.assertTrue(why.startswith("roof has 6 paths of libraries below it, more than 5: list in crates.txt only what"), why)
        self.assertIn("`pub use` lines in specs/Lib.antt, proofs/Lib.antt and src/lib.rt", why)

    def test_the_picture_has_a_box_for_each_room_and_an_arrow_for_each_use(self):
        told = rooms.rooms_of(LOW + HIGH + "# roof: what is above. Uses top.\nroof: high\n")
        self.assertEqual(rooms.diagram(told).splitlines(), [
            "```mermaid", "flowchart TD", '  base["<b>base</b><br/>low, mid"]', '  top["<b>top</b><br/>high"]', '  roof["<b>roof</b><br/>roof"]',
            "  top --> base", "  roof --> top", "```"])


if __name__ == "__main__":
    unittest.main()
