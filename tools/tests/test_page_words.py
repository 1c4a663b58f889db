"""Tests that the page says the same of layers, pixels and changes as `records.py why` does, which finds it by itself: of each layer
at each moment of each scene, in a headless Chromium, where one is installed."""

import unittest

from surbeldoi.asking.changes import Changes
from surbeldoi.asking.reasons import Asked
from surbeldoi.view.viewing import view_page
from tests.browsing import PageCase
from tests.test_checking import played
from tests.test_course import scene
from tests.test_scenes import SCENES

# What the page says of all layers: of each place and moment what comes of each, and why.
COMPUTED = """RUN.moments.map((one, place) => RUN.outputs.map((output, number) => { const look = looked(place, number);
  return [...look.layers.keys()].sort((a, b) => a - b).map((layer) => look.computed(layer).map((value) => [layer, value.name, value.asked, value.computed, value.why()])); }))"""
CHANGED = """RUN.moments.map((one, place) => RUN.outputs.map((output, number) => { const told = new Changes(place ? place - 1 : null, place, number);
  return [told.changes().map(([layer, name, was, is, origin]) => [layer, name, was, is, origin && origin.line]), told.effects()]; }))"""
PAINTED = """RUN.moments.map((one, place) => RUN.outputs.map((output, number) => %s.map(([x, y]) =>
  paintedAt(drawnBy(outputOf(place, number)), pictures, x, y).map((one) => [one.layer, one.mirror, digits(one.source), one.alpha, digits(one.before), digits(one.after)]))))"""
POINTS = [[x, y] for x in range(3, 60, 19) for y in range(2, 46, 13)]


def computed(asked):
    return [[[[[number, *value] for value in look.computed(number)] for number in sorted(look.layers)] for look in looks_of(asked, at)]
            for at in range(len(asked.course.moments))]


def looks_of(asked, at):
    return [asked.looked(at, of_place) for of_place in range(len(asked.course.places))]


def changed(asked):
    """The changes and the effects from each moment to the next."""
    told = [[Changes(asked, at - 1 if at else None, at, of_place) for of_place in range(len(asked.course.places))] for at in range(len(asked.course.moments))]
    return [[[[[one.layer, one.name, one.before, one.after, one.origin and one.origin.line] for one in changes.changes()],
              [list(one) for one in (changes.effects() if at else ())]] for changes in of_moment] for at, of_moment in enumerate(told)]


def painted(asked):
    return [[[[[one.layer, one.mirror, one.colour, one.alpha, one.before, one.after] for one in look.painted(x, y)] for x, y in POINTS]
             for look in looks_of(asked, at)] for at in range(len(asked.course.moments))]


class Words(PageCase):
    def test_of_each_scene(self):
        for name in SCENES:
            script = scene(name)
            records = played(script)
            asked = Asked(records, script)
            self.open(name, view_page(name, records, script))
            for what, expression, due in (("layers", COMPUTED, computed(asked)), ("changes", CHANGED, changed(asked)), ("pixels", PAINTED % POINTS, painted(asked))):
                with self.subTest(name=name, what=what):
                    told = self.browser.value(expression)
                    self.assertEqual(len(told), len(due))
                    self.assertTrue(any(one for of_moment in due for one in of_moment), "nothing is compared")
                    for at, (of_page, of_tools) in enumerate(zip(told, due)):
                        self.assertEqual(of_page, of_tools, f"{name}, moment {at}, {what}")


if __name__ == "__main__":
    unittest.main()
