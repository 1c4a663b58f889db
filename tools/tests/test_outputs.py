"""Tests of outputs.py: what a vsync shows on several displays, in captures and at hits."""

import unittest

from surbeldoi.model.playing import Play
from surbeldoi.records.stream import OUTPUTS
from surbeldoi.records.wording import field_text
from surbeldoi.script.scenes import NoScene, read_scene


def shown(size, declared, changes):
    """What a scene of this size with these lines shows at its vsync, each output as a line, behind a transaction of these changes."""
    lines = [f"scene 2 {size} 1000000", *declared.split("; "), "actor 1", "tx 1", *(f"set 1 {change}" for change in changes.split("; ")), "apply 1 token 1", "end"]
    told = Play(read_scene("\n".join(lines).encode())).records()
    return [tag + "".join(field_text(*field) for field in fields.items() if field[0] != "number") for tag, fields in told if tag in OUTPUTS]


RED, GREEN, BLACK = "ff0000ff", "00ff00ff", "000000ff"


def colour(layer, parent, digits):
    return f"{layer} create colour {parent}; {layer} colour {digits}"


class Displays(unittest.TestCase):
    def test_each_display_shows_the_layers_of_its_stack(self):
        layers = f"{colour(1, 0, RED)}; {colour(9, 0, GREEN)}"
        self.assertEqual(shown("1 1", "display 2 1 1 7; stack 9 7", layers), [f"FRAM 1*{RED}", f"FRAD 2 1*{GREEN}"])

    def test_a_layer_is_on_the_stack_of_the_layer_at_the_root_above_it(self):
        layers = f"{colour(1, 0, RED)}; {colour(9, 0, GREEN)}; {colour(3, 9, '0000ffff')}; 3 relative 1 1"
        self.assertEqual(shown("1 1", "display 2 1 1 7; stack 9 7; stack 3 0", layers), [f"FRAM 1*{RED}", f"FRAD 2 1*{GREEN}"])

    def test_displays_by_rising_number_each_of_its_size(self):
        told = shown("1 2", "display 5 3 1 0; display 2 2 2 4", colour(1, 0, RED))
        self.assertEqual(told, [f"FRAM 2*{RED}", f"FRAD 2 4*{BLACK}", f"FRAD 5 3*{RED}"])

    def test_stacks_count_without_further_displays(self):
        self.assertEqual(shown("1 1", "stack 1 3", colour(1, 0, RED)), [f"FRAM 1*{BLACK}"])


class Mirrors(unittest.TestCase):
    LAYERS = f"1 create container 0; {colour(2, 1, RED)}; 2 crop 0 0 1 1; 3 create container 0; 3 position 1 0"

    def frame(self, *more, declared="mirror 3 1"):
        return shown("2 1", declared, "; ".join([self.LAYERS, *more]))

    def test_a_mirror_shows_a_copy_of_all_below_a_layer(self):
        self.assertEqual(self.frame(), [f"FRAM 2*{RED}"])
        self.assertEqual(self.frame("1 hidden 1"), [f"FRAM 2*{BLACK}"])
        self.assertEqual(self.frame("1 position 0 5"), [f"FRAM 1*{BLACK} 1*{RED}"])

    def test_a_mirror_inside_what_it_mirrors_ends_there(self):
        self.assertEqual(self.frame("3 reparent 1"), [f"FRAM 2*{RED}"])

    def test_a_mirror_shows_what_a_hidden_parent_hides(self):
        self.assertEqual(self.frame("4 create container 0; 4 hidden 1; 1 reparent 4"), [f"FRAM 1*{BLACK} 1*{RED}"])

    def test_a_mirror_is_a_container_and_both_layers_are_there(self):
        self.assertEqual(self.frame(f"{colour(5, 0, GREEN)}; 5 crop 0 0 1 1; 5 position 1 0", declared="mirror 5 1"), [f"FRAM 1*{RED} 1*{GREEN}"])
        self.assertEqual(self.frame(declared="mirror 3 8"), [f"FRAM 1*{RED} 1*{BLACK}"])
        self.assertEqual(self.frame(declared="mirror 8 1"), [f"FRAM 1*{RED} 1*{BLACK}"])

    def test_a_copy_is_on_the_stack_of_its_mirror(self):
        told = self.frame(declared="display 2 2 1 7; mirror 3 1; stack 3 7; stack 4 9; stack 5 9")
        self.assertEqual(told, [f"FRAM 1*{RED} 1*{BLACK}", f"FRAD 2 1*{BLACK} 1*{RED}"])

    def test_a_copy_begins_at_its_mirror_and_keeps_the_order_of_what_is_below(self):
        layers = f"1 create container 0; 1 z 7; {colour(2, 1, RED)}; {colour(4, 1, GREEN)}; 2 relative 4 3; 3 create container 0; 3 z 9; 3 alpha 128"
        self.assertEqual(shown("1 1", "mirror 3 1", layers), ["FRAM 1*bf4000ff"])
        self.assertEqual(shown("1 1", "mirror 3 4", layers), ["FRAM 1*7f8000ff"])


class Captures(unittest.TestCase):
    LAYERS = f"1 create container 0; 1 position 1 1; {colour(2, 1, RED)}; 2 crop 0 0 1 1; 2 position 1 0; 2 z -3; {colour(3, 2, GREEN)}; 3 crop 1 0 1 1; 3 z -5"

    def test_a_capture_shows_a_layer_by_itself(self):
        self.assertEqual(shown("1 1", "capture 4 2 2 1; capture 1 1 2 2", self.LAYERS),
                         [f"FRAM 1*{BLACK}", f"CAPT 1 1*{BLACK} 1*{RED} 2*{BLACK}", f"CAPT 4 1*{RED} 1*{BLACK}"])

    def test_a_layer_that_is_not_there_has_no_capture(self):
        self.assertEqual(shown("1 1", "capture 1 8 1 1", colour(1, 0, RED)), [f"FRAM 1*{RED}"])

    def test_what_hides_a_layer_from_above_counts_not_and_what_hides_it_itself_does(self):
        self.assertEqual(shown("1 1", "capture 1 2 1 1", self.LAYERS + "; 1 hidden 1; 1 alpha 0")[1], f"CAPT 1 1*{RED}")
        self.assertEqual(shown("1 1", "capture 1 2 1 1", self.LAYERS + "; 2 hidden 1")[1], f"CAPT 1 1*{BLACK}")
        self.assertEqual(shown("1 1", "capture 1 2 1 1", self.LAYERS + "; 2 alpha 128")[1], "CAPT 1 1*800000ff")

    def test_stacks_and_mirrors_count_not(self):
        layers = f"1 create container 0; {colour(2, 0, RED)}"
        self.assertEqual(shown("1 1", "capture 1 1 1 1; stack 2 5; capture 2 2 1 1; mirror 1 2", layers),
                         [f"FRAM 1*{RED}", f"CAPT 1 1*{BLACK}", f"CAPT 2 1*{RED}"])

    def test_a_layer_that_is_relative_to_one_outside_is_relative_to_none(self):
        layers = f"1 create container 0; {colour(2, 1, RED)}; {colour(3, 1, GREEN)}; {colour(9, 0, BLACK)}; 3 relative 9 -1"
        self.assertEqual(shown("1 1", "capture 1 1 1 1", layers)[1], f"CAPT 1 1*{RED}")


class Hits(unittest.TestCase):
    def hits(self, declared, layers):
        return [line for line in shown("4 1", declared, layers) if line.startswith("HITS")]

    def test_a_hit_is_the_layer_in_front_by_rising_number(self):
        layers = f"{colour(1, 0, RED)}; 1 crop 0 0 3 1; {colour(2, 0, GREEN)}; 2 crop 1 0 1 1; 2 alpha 0; {colour(7, 0, RED)}; 7 hidden 1; 8 create container 0"
        self.assertEqual(self.hits("hit 9 0 0; hit 4 1 0; hit 5 3 0; hit 6 4 0; hit 7 0 -1", layers), ["HITS 4 2", "HITS 5 0", "HITS 6 0", "HITS 7 0", "HITS 9 1"])

    def test_a_hit_meets_the_own_stack_and_no_copies(self):
        layers = f"1 create container 0; 1 z 1; {colour(2, 0, RED)}; 2 crop 0 0 1 1; {colour(3, 0, GREEN)}; 3 crop 1 0 1 1"
        self.assertEqual(self.hits("hit 1 0 0; hit 2 1 0; stack 3 1; mirror 1 2", layers), ["HITS 1 2", "HITS 2 0"])


class Limits(unittest.TestCase):
    def commit(self, version, count):
        creates = "".join(f"set 1 {number} create container 0\n" for number in range(1, count + 1))
        script = f"scene {version} 1 1 1000000\nactor 1\ntx 1\n{creates}apply 1 token 1\nend\n"
        return next((fields["result"], fields["operation"]) for tag, fields in Play(read_scene(script.encode())).records() if tag == "COMM")

    def test_how_many_layers_there_may_be(self):
        self.assertEqual([self.commit(1, 256), self.commit(1, 257), self.commit(2, 257), self.commit(2, 1024), self.commit(2, 1025)],
                         [(0, 0), (5, 257), (0, 0), (0, 0), (5, 1025)])

    def test_what_is_no_scene(self):
        for line in ("display 1 1 1 1", "display 9 1 1 1", "display 2 1 1025 1", "capture 9 1 1 1", "hit 65 0 0", "hit 1 16385 0", "stack 0 1", "mirror 1",
                     "stack 1 1\nstack 1 2", "mirror 1 2\nmirror 1 3", "picture 1 1 1 format rgb", "picture 1 1 1 rgbx", "actor 65", "queue 1 1 1\nhit 1 0 0",
                     "\n".join(f"mirror {number} 99" for number in range(1, 10))):
            with self.assertRaises(NoScene, msg=line):
                read_scene(f"scene 2 1 1 1000000\n{line}\nend\n".encode())

    def test_what_version_1_has_not(self):
        for line in ("display 2 1 1 1", "stack 1 1", "capture 1 1 1 1", "hit 1 0 0", "mirror 1 2", "picture 1 1 1 format rgba", "actor 17"):
            script = f"scene 2 1 1 1000000\n{line}\nend\n".encode()
            self.assertEqual(read_scene(script).version, 2)
            with self.assertRaises(NoScene, msg=line):
                read_scene(script.replace(b"scene 2", b"scene 1"))


if __name__ == "__main__":
    unittest.main()
