"""Tests of why a layer shows as it does, or not at all."""

import unittest

from surbeldoi.asking.covering import needed
from surbeldoi.asking.places import named_layers
from surbeldoi.asking.reasons import Asked, NotTold
from tests.test_checking import played
from tests.test_course import scene

SCENES = ("glass.sf", "windows.sf", "phone.sf", "capture.sf", "external.sf", "turned.sf", "formats.sf", "panes.sf")


def asked_of(script):
    return Asked(played(script), script)


def script_of(steps, head=(), version=1, size="8 4"):
    """A script whose actor takes these steps, in one transaction, and then a vsync comes."""
    lines = [f"scene {version} {size} 16666667", *head, "actor 1", "tx 1", *steps, "apply 1 token 1", f"order 1*{len(steps) + 2} v", "end", ""]
    return "\n".join(lines).encode()


def colour(number, parent=0, value="ff0000ff", *changes):
    """The steps that create a layer of a colour and change it."""
    return [f"set 1 {number} create colour {parent}", f"set 1 {number} colour {value}", *(f"set 1 {number} {change}" for change in changes)]


def container(number, parent=0, *changes):
    return [f"set 1 {number} create container {parent}", *(f"set 1 {number} {change}" for change in changes)]


# Why layer 9 does not show: the steps that make it so, the kind of the reason, its layers, and its sentence.
NOT_SHOWN = (
    ([], "missing", [9], "no committed transaction creates it"),
    (container(9), "container", [9], "a container shows nothing itself"),
    (["set 1 9 create buffer 0"], "no frame", [9], "no frame was committed for it yet"),
    (colour(9, 0, "ff0000ff", "hidden 1"), "hidden", [9], "hidden itself"),
    (container(5, 0, "hidden 1") + colour(9, 5), "hidden", [5], "hidden by layer 5, which it is below"),
    (container(5, 0, "hidden 1") + container(6, 5) + colour(9, 6), "hidden", [5], "hidden by layer 5, which layer 6 is below"),
    (container(5, 0, "hidden 1") + colour(9, 0, "ff0000ff", "relative 5 1"), "hidden", [5], "hidden by layer 5, which it is relative to"),
    (container(5, 0, "hidden 1") + container(6, 0, "relative 5 1") + colour(9, 6), "hidden", [5], "hidden by layer 5, which layer 6 is relative to"),
    (colour(9, "none"), "no parent", [9], "it has no parent"),
    (container(5, "none") + colour(9, 5), "no parent", [5], "layer 5, which it is below, has no parent"),
    (colour(9, 0, "ff0000ff", "crop 0 0 0 3"), "outside", [9], "outside of its own crop"),
    (container(5, 0, "crop 0 0 2 2") + colour(9, 5, "ff0000ff", "crop 2 0 2 2"), "outside", [5], "outside of the crop of layer 5"),
    (colour(9, 0, "ff0000ff", "crop 0 0 2 2", "position 8 0"), "outside", [], "outside of the own display"),
    (colour(9, 0, "ff0000ff", "alpha 0"), "alpha 0", [9], "its alpha is 0"),
    (container(5, 0, "alpha 0") + colour(9, 5), "alpha 0", [5], "layer 5, which it is below, has alpha 0"),
    (container(5, 0, "alpha 1") + colour(9, 5, "ff0000ff", "alpha 1"), "alpha 0", [9], "its alpha comes to 0: 1 of layer 5 x 1 of its own"),
    (colour(9, 0, "00000000"), "clear", [9], "all its pixels are clear"),
    (colour(9) + colour(8), "covered", [8], "covered by layer 8"),
    (colour(9) + colour(7, 0, "00ff00ff", "crop 0 0 4 4") + colour(8, 0, "0000ffff", "crop 3 0 5 4"), "covered", [7, 8], "covered by layers 7 and 8"),
    (colour(9) + colour(7, 0, "00ff00ff", "crop 0 0 4 4") + colour(8), "covered", [8], "covered by layer 8"),
    (colour(9) + colour(8, 0, "00ff0000", "opaque 1"), "covered", [8], "covered by layer 8"),
    (colour(9) + colour(8) + ["set 1 9 destroy"], "missing", [9], "it was destroyed at vsync 1 (line 8: set 1 9 destroy)"),
)
# Steps with which layer 9 does show.
SHOWN = (
    colour(9),
    colour(9) + colour(8, 0, "0000fffe"),
    colour(9) + colour(8, 0, "0000ffff", "alpha 254"),
    colour(9) + colour(8, 0, "0000ffff", "crop 0 0 8 3"),
    colour(9) + colour(8, 0, "0000ffff", "z -1"),
    container(5, 0, "hidden 1") + colour(9, 5, "ff0000ff", "reparent 0"),
)


class NotShown(unittest.TestCase):
    def test_each_reason(self):
        for steps, kind, layers, text in NOT_SHOWN:
            reason = asked_of(script_of(steps)).looked(0).not_shown(9)
            self.assertEqual((reason.kind, reason.layers, reason.text), (kind, layers, text), steps)

    def test_layers_that_show(self):
        for steps in SHOWN:
            self.assertIsNone(asked_of(script_of(steps)).looked(0).not_shown(9), steps)

    def test_of_further_displays_and_captures(self):
        head = ["display 2 8 4 7", "stack 5 7", "capture 1 5 2 2"]
        asked = asked_of(script_of(container(5) + colour(9, 5) + colour(8), head, 2))
        reasons = [[getattr(asked.looked(0, place).not_shown(number), "text", None) for number in (9, 8)] for place in range(3)]
        self.assertEqual(reasons, [["layer 5, which it is below, is on stack 7, and the own display shows stack 0", None],
                                   [None, "it is on stack 0, and display 2 shows stack 7"],
                                   [None, "it is not below layer 5, which capture 1 shows"]])

    def test_a_layer_that_comes_later_and_goes(self):
        asked = asked_of(scene("windows.sf"))
        self.assertEqual(asked.looked(3).not_shown(2).text, "it was destroyed at vsync 4 (line 57: set 1 2 destroy)")
        self.assertEqual(asked_of(scene("held.sf")).looked(0).not_shown(1).text, "it is created only at vsync 2 (line 20: set 1 1 create buffer 0)")

    def test_what_is_not_shown_changes_no_pixel(self):
        """A layer of which a place shows nothing is left out, and the image is the same."""
        for name in SCENES:
            asked = asked_of(scene(name))
            for at in range(len(asked.course.moments)):
                for place in range(len(asked.course.places)):
                    self.check_left_out(asked.looked(at, place), asked.painter, name)

    def check_left_out(self, looked, painter, name):
        self.assertEqual([number for number in looked.there if looked.is_shown(number)], [number for number in looked.there if not looked.not_shown(number)], name)
        size = looked.place.width, looked.place.height
        image = painter.paint(looked.drawn, *size)
        for number, at in looked.places.items():
            if looked.not_shown(number):
                self.assertEqual(painter.paint(looked.drawn[:at] + looked.drawn[at + 1:], *size), image, f"{name}: layer {number}")

    def test_a_layer_that_ought_to_be_painted_and_is_not(self):
        looked = asked_of(script_of(colour(9))).looked(0)
        looked.output = looked.output._replace(drawn=[])
        self.assertEqual((looked.not_shown(9).text, looked.computed(9)[0].computed), ("the records do not tell why", "not shown"))

    def test_where_a_reason_comes_from(self):
        looked = asked_of(script_of(container(5, 0, "hidden 1") + colour(9, 5))).looked(0)
        self.assertEqual(looked.origin_of(looked.not_shown(9)).line_text(), "line 5: set 1 5 hidden 1")

    def test_parts_that_are_needed(self):
        for parts, whole, names in (([("a", 1), ("b", 2)], 3, "ab"), ([("a", 1), ("b", 3)], 3, "b"), ([("a", 3), ("b", 6), ("c", 12)], 15, "ac"), ([], 0, "")):
            self.assertEqual("".join(needed(parts, whole)), names, parts)

    def test_layers_in_words(self):
        for numbers, text in (([1], "layer 1"), ([1, 2], "layers 1 and 2"), ([1, 2, 3, 4], "layers 1, 2, 3 and 4"), ([5, 4, 3, 2, 1], "layers 5, 4, 3 and 2 more")):
            self.assertEqual(named_layers(numbers), text)


def computed(steps, number=9):
    return {value.name: value[1:] for value in asked_of(script_of(steps)).looked(0).computed(number)}


class Computed(unittest.TestCase):
    def test_each_property(self):
        steps = container(5, 0, "alpha 128", "position 1 1", "crop 0 0 4 2") + colour(9, 5, "ff0000ff", "position 1 0", "alpha 128", "z 3")
        self.assertEqual(computed(steps), {
            "shown": ("shown", "shown", ""), "order": ("z 3", "1 of 1 from the back", "nothing is behind it but the black display"),
            "position": ("1 0", "2 1", "1 1 of layer 5 + 1 0 of its own"), "area": ("none", "4 x 2 at 1 1", "clipped by layer 5"),
            "alpha": ("128", "64", "128 of layer 5 x 128 of its own")})

    def test_what_is_covered_in_part(self):
        self.assertEqual(computed(colour(9) + colour(8, 0, "0000ffff", "crop 0 0 8 3"))["shown"],
                         ("shown", "shown", "8 of its 32 pixels are in sight, the others are covered by layer 8"))

    def test_what_is_asked_of_a_layer_that_is_not_shown(self):
        self.assertEqual(computed(container(5, 0, "hidden 1") + colour(9, 5))["shown"], ("shown", "not shown", "hidden by layer 5, which it is below"))

    def test_areas_and_alphas_are_those_that_are_painted(self):
        for name in SCENES:
            asked = asked_of(scene(name))
            for at in range(len(asked.course.moments)):
                for place in range(len(asked.course.places)):
                    looked = asked.looked(at, place)
                    for number, drawn in looked.places.items():
                        told = looked.output.drawn[drawn]
                        *_, (area, _, _) = looked.cuts(number)
                        self.assertEqual((area if area[2] and area[3] else told.clip, looked.alpha_of(number), looked.place_of(number)),
                                         (told.clip, told.alpha, told.place), f"{name}: layer {number}")


# Two layers, 9 painted over 8, and why.
ORDERS = (
    (colour(8) + colour(9), "layer 9 and layer 8 both have z 0 at the root, and layer 9 was created later"),
    (colour(9, 0, "ff0000ff", "z 2") + colour(8), "layer 9 has z 2 at the root, and layer 8 has z 0"),
    (colour(8) + colour(9, 8), "layer 9 is drawn with layer 8 and has z 0, not below 0"),
    (colour(9) + colour(8, 9, "ff0000ff", "z -1"), "layer 8 is drawn with layer 9 and has z -1, below 0"),
    (container(5, 0, "z 1") + colour(9, 5) + colour(8), "layer 5, which layer 9 is drawn with, has z 1 at the root, and layer 8 has z 0"),
    (container(5) + colour(9, 5, "ff0000ff", "z 1") + colour(8, 5), "layer 9 has z 1 of layer 5, and layer 8 has z 0"),
)


class Order(unittest.TestCase):
    def test_why_a_layer_is_in_front(self):
        for steps, text in ORDERS:
            looked = asked_of(script_of(steps)).looked(0)
            self.assertGreater(looked.places[9], looked.places[8], steps)
            self.assertEqual(looked.order_text(9, 8), text, steps)


class Pixels(unittest.TestCase):
    def test_each_layer_at_a_point(self):
        asked = asked_of(scene("glass.sf"))
        self.assertEqual([(one.layer, one.colour, one.adds, one.lets, one.before, one.after, one.is_covering) for one in asked.looked(1).painted(3, 4)],
                         [(1, "0000ffff", "0000ffff", 0, "000000ff", "0000ffff", True), (2, "40000080", "40000080", 127, "0000ffff", "40007fff", False)])

    def test_the_last_value_is_that_of_the_image(self):
        for name in SCENES:
            asked = asked_of(scene(name))
            for at, moment in enumerate(asked.course.moments):
                for place, output in enumerate(moment.outputs):
                    looked = asked.looked(at, place)
                    for x, y in ((0, 0), (looked.place.width - 1, looked.place.height - 1), (looked.place.width // 2, looked.place.height // 3), (5, 7)):
                        steps = looked.painted(x, y) if x < looked.place.width and y < looked.place.height else []
                        if output.frame is not None and steps:
                            start = 4 * (y * looked.place.width + x)
                            self.assertEqual(steps[-1].after, asked.course.frames[output.frame][start:start + 4].hex(), f"{name} {at} {place}: {x} {y}")

    def test_layers_that_are_not_known(self):
        asked = asked_of(scene("glass.sf"))
        asked.course.moments[0].outline = None
        with self.assertRaises(NotTold):
            asked.looked(0)


if __name__ == "__main__":
    unittest.main()
