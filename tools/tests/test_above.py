"""Tests of what a change of a crate makes necessary."""

import unittest

from surbeldoi.build.rooms import lists_of, read_rooms
from surbeldoi.commands.above import GATE, above, cost_of, lines_of, pages_with, seconds_of
from surbeldoi.commands.edits import read

LISTS = {"low": [], "beside": [], "mid": ["low"], "high": ["mid", "beside"]}


class Above(unittest.TestCase):
    def test_the_crates_above_come_from_the_bottom_up(self):
        for name, crates in (("low", ["mid", "high"]), ("beside", ["high"]), ("mid", ["high"]), ("high", [])):
            self.assertEqual(above(name, LISTS), crates, name)

    def test_the_table_is_read(self):
        self.assertEqual(seconds_of("| Crate | Proof | Edits |\n|---|---|---|\n| low | 20 | 4 |\n| mid | 61 | 0 |\n"), {"low": (20, 4), "mid": (61, 0)})

    def test_the_report_has_each_crate_above_with_its_cost(self):
        said = list(lines_of("sf_lowest", {"sf_lowest": [], **LISTS, "mid": ["sf_lowest"]}, {"sf_lowest": (30, 90), "mid": (61, 0)}))
        self.assertEqual(said[:3], ["sf_lowest: 2 processor minutes to prove, and 2 crates above it, 61 processor seconds", "  mid: 61 s", "  high: not measured"])
        self.assertEqual(said[3:], ["wrong bodies to try again: 0 (tools/edits.py sf_lowest)", "pages that name it: none"])

    def test_must_fail_edits_are_named_where_there_are_some(self):
        for seconds, said in (((26, 22), "26 s, and 22 s for its must-fail edits"), ((26, 0), "26 s")):
            self.assertEqual(cost_of("low", {"low": seconds}), said, seconds)

    def test_the_recipes_are_among_the_pages(self):
        self.assertIn("docs/RECIPES.md", pages_with("sf_ready"))

    def test_the_page_on_the_gate_has_each_crate(self):
        self.assertEqual(sorted(seconds_of(read(GATE))), sorted(lists_of(read_rooms())))


if __name__ == "__main__":
    unittest.main()
