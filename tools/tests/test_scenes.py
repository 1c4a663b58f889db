"""Tests of the scenes: each says what to look for, has lines of the forms of its version alone, and those of version 2 show
what they say.

Whether they are scenes is for the program to say; this tells a word that is none of theirs, and plays some by the player of
the tools.
"""

import itertools
import os
import re
import unittest

from surbeldoi import TOP
from surbeldoi.model.playing import Play
from surbeldoi.records.pictures import rows_of
from surbeldoi.records.wording import HOLDS
from surbeldoi.script.grammar import STEPS, WORDS, forms_of, place_in
from surbeldoi.script.scenes import read_scene
from surbeldoi.script.scripts import lines_of, read_script, texts_of
from surbeldoi.view.course import Course
from tests.test_checking import played

FOLDER = os.path.join(TOP, "scenes")
SCENES = sorted(name for name in os.listdir(FOLDER) if name.endswith(".sf"))


def contents(name):
    with open(os.path.join(FOLDER, name), "rb") as file:
        return file.read()


def is_whole(words, form):
    """Whether a line of a form may end behind these words: none that it needs is wanting, and no part in brackets was begun."""
    needed = sum(1 for _ in itertools.takewhile(lambda word: not word.startswith("["), form.split()))
    return len(words) >= needed and not any(kind in WORDS for kind in place_in(form, words, len(words)) or [] if kind != "PICK")


def fits(words, form):
    """Whether a line of these words is of a form."""
    places = [place_in(form, words, at) or [] for at in range(len(words))]
    return is_whole(words, form) and all(any(kind in WORDS or kind == word for kind in wanted) for word, wanted in zip(words, places))


def of_some_form(words, in_steps, version=1):
    """Whether a line of these words is of a form of a version."""
    return any(fits(words, form) for form in forms_of(words, in_steps, version))


def shown(name, tag, *place):
    """What the vsyncs of a scene show at a place, by the number of the vsync: pixels, or the layer that a hit meets."""
    told = Play(read_scene(contents(name))).records()
    found = [list(fields.values()) for shown_tag, fields in told if shown_tag == tag]
    return {number: what for *at, number, what in found if at == list(place)}


def course(name):
    """The course of a scene's play."""
    return Course(played(contents(name)), contents(name))


def pixel(pixels, width, x, y):
    """The digits of a pixel's colour."""
    return pixels[4 * (y * width + x):4 * (y * width + x) + 4].hex()


def layers_by_vsync(name):
    """The layers after each vsync that took something, by number."""
    return {moment.number: {layer.number: layer for layer, _ in moment.outline} for moment in course(name).moments if moment.commits}


def refused(name):
    """The words and the statuses of the steps that are refused."""
    told = course(name)
    return [(told.script.step(reply.actor, reply.step).text(), reply.status) for reply in told.replies if reply.status]


class Scenes(unittest.TestCase):
    def test_there_are_some(self):
        for name in ("phone.sf", "camera.sf", "held.sf", "stuck.sf"):
            self.assertIn(name, SCENES)

    def test_each_begins_with_a_comment_that_tells_what_to_see(self):
        for name in SCENES:
            self.assertRegex(contents(name).decode(), r"\A# [A-Z]", name)

    def test_those_that_show_what_no_other_does_say_what_to_look_for(self):
        for name in ("backpressure", "crowd", "desire", "leaving", "merge", "moved", "switch", "threads"):
            told = " ".join(re.findall(r"^# (.*)$", contents(f"{name}.sf").decode(), re.M))
            self.assertRegex(told, r"Look (at|for) ", name)

    def test_each_hold_and_each_call_is_in_some_scene(self):
        words = {step.words[0] for name in SCENES for steps in read_script(contents(name)).steps.values() for step in steps}
        self.assertEqual(words, {form.split()[0] for form in STEPS})
        holds = {hold.name for name in SCENES for moment in course(name).moments for hold in moment.held}
        self.assertEqual(holds, set(HOLDS.values()))

    def test_each_line_is_of_a_form(self):
        for name in SCENES:
            in_steps, version = False, read_scene(contents(name)).version
            for number, line in enumerate(lines_of(contents(name)), 1):
                words = texts_of(line)
                in_steps = in_steps or words[:1] == ["actor"]
                if words:
                    self.assertTrue(of_some_form(words, in_steps, version), f"{name}:{number}: {line}")

    def test_a_line_that_is_of_no_form_is_found(self):
        for line in ("connect", "connect 1 2", "dequeue 1 at s", "set 1 1 crop 1 2 3", "set 1 1 crops 1", "queue s 1 fence 1"):
            self.assertFalse(of_some_form(line.split(), True), line)
        for line in ("display 2 1 1 7", "picture 1 2 2 format rgbx"):
            self.assertEqual([of_some_form(line.split(), False, version) for version in (1, 2)], [False, True], line)

    def test_the_steps_of_each_actor_are_steps(self):
        first_words = {form.split()[0] for form in STEPS}
        for name in SCENES:
            for actor, steps in read_script(contents(name)).steps.items():
                self.assertTrue(steps, f"{name}: actor {actor}")
                self.assertLessEqual({step.words[0] for step in steps}, first_words, name)


class SecondVersion(unittest.TestCase):
    """What the comments of the scenes of version 2, and of the one that turns pictures, say."""

    def test_the_lower_row_of_turned_gets_the_orientations_of_the_upper_one(self):
        rows = [rows_of(pixels, 212) for pixels in shown("turned.sf", "FRAM").values()]
        upper, lower = ([row[4 * 7:4 * 200] for row in rows[2][top:top + 30]] for top in (7, 59))
        self.assertEqual(upper, lower)
        self.assertNotEqual(rows[1][7:37], rows[1][59:89])

    def test_the_chat_is_on_both_displays(self):
        own, monitor = shown("external.sf", "FRAM"), shown("external.sf", "FRAD", 2)
        self.assertEqual((list(own), list(monitor)), ([1, 2, 3, 4], [1, 2, 3, 4]))
        chats = [[row[4 * (left + 1):4 * (left + 71)] for row in rows_of(pixels, width)[top + 1:top + 115]]
                 for pixels, width, left, top in ((own[2], 96, 12, 22), (monitor[2], 240, 150, 14))]
        self.assertEqual(chats[0], chats[1])
        self.assertEqual((own[2] == own[3], monitor[3] == monitor[4], own[3] == own[4]), (True, True, False))

    def test_a_drag_meets_what_its_comment_says(self):
        met = {hit: shown("drag.sf", "HITS", hit) for hit in range(1, 7)}
        self.assertEqual([met[number][number] for number in range(1, 7)], [5, 1, 6, 1, 8, 9])
        self.assertEqual(list(met[1].values()), [5] * 5 + [1])

    def test_the_pin_is_captured_as_long_as_it_is_there(self):
        window, pin = shown("capture.sf", "CAPT", 1), shown("capture.sf", "CAPT", 2)
        self.assertEqual((list(window), list(pin)), ([1, 2], [1, 2, 3]))
        self.assertEqual(len(set(pin.values())), 1)
        self.assertEqual(set(rows_of(window[2], 84)[96:]), {b"\x00\x00\x00\xff" * 84})

    def test_the_steps_of_565(self):
        row = rows_of(shown("formats.sf", "FRAM")[1], 184)[30]
        counts = [len({row[4 * at:4 * at + 4] for at in range(left + 2, left + 50)}) for left in (7, 66, 125)]
        self.assertEqual(counts, [48, 48, 6])


class Demonstrations(unittest.TestCase):
    """What the comments of the scenes say that have calls and holds of their own."""

    def test_the_windows_of_switch_go_by_together(self):
        self.assertEqual(list(shown("switch.sf", "FRAM")), list(range(1, 31)))
        layers = layers_by_vsync("switch.sf")
        self.assertEqual({one[20].position[0] - one[10].position[0] for one in layers.values()}, {252})
        self.assertEqual((layers[5][10].position, layers[14][10].position), ((0, 20), (-252, 20)))
        bars = [number for number in range(2, 31) if layers[number][22].content != layers[number - 1][22].content]
        self.assertTrue({4, 7, 10, 13, 16, 19, 22, 25, 28} <= set(bars), bars)
        dark = [number for number in layers if layers[number][40].alpha]
        self.assertEqual([number for number in layers if layers[number][41].position[1] > -260], dark)

    def test_a_merged_frame_comes_with_its_size(self):
        layers, frames = layers_by_vsync("merge.sf"), shown("merge.sf", "FRAM")
        sizes = {number: [(one[window].crop[2:], one[buffer].content.crop[2:]) for window, buffer in ((10, 11), (20, 21))] for number, one in layers.items()}
        small, large, torn = ((40, 40), (40, 40)), ((60, 60), (60, 60)), ((60, 60), (40, 40))
        self.assertEqual(sizes, {1: [small, small], 2: [large, small], 3: [large, torn], 4: [large, large]})
        self.assertEqual([pixel(frames[number], 160, 140, 60) for number in (3, 4)], ["808894ff", "e8ecf2ff"])

    def test_desired_times(self):
        self.assertEqual(list(shown("desire.sf", "FRAM")), [1, 2, 4, 6])
        taken = {moment.number: sorted(commit.arrival for commit in moment.commits) for moment in course("desire.sf").moments if moment.commits}
        self.assertEqual(taken, {1: [1, 6], 2: [2], 4: [3, 5], 6: [4]})

    def test_only_the_layer_with_backpressure_shows_both_frames(self):
        seen = [(one[1].content.frame, one[2].content.frame) for one in layers_by_vsync("backpressure.sf").values()]
        self.assertEqual(seen, [(1, 2), (2, 2)])

    def test_apps_that_go(self):
        self.assertEqual(refused("leaving.sf"), [("queue s 2", 11), ("dequeue 1 as s", 10)])
        colours = {number: pixel(pixels, 64, 30, 20) for number, pixels in shown("leaving.sf", "FRAM").items()}
        self.assertEqual(colours, {1: "2468d8ff", 2: "4aa96cff"})

    def test_buffers_change_their_queue(self):
        kinds = {queue.number: [call[2] for call in queue.calls if call[3] == 0 and call[2] in (9, 10, 15, 16)] for queue in course("moved.sf").queues}
        self.assertEqual(kinds, {1: [15, 9, 16], 2: [10]})
        self.assertEqual(refused("moved.sf"), [("buffer 1 9 back", 11)])
        self.assertEqual([pixel(pixels, 96, 66, 22) for pixels in shown("moved.sf", "FRAM").values()], ["d9534fff", "90c0e0ff"])

    def test_threads_ends_with_all_done(self):
        told = course("threads.sf")
        self.assertEqual((refused("threads.sf"), told.run.stuck, told.run.held), ([], [], []))
        last = list(shown("threads.sf", "FRAM").values())[-1]
        self.assertEqual([pixel(last, 96, *at) for at in ((40, 12), (40, 40), (88, 56))], ["4aa96cff", "4aa96cff", "ffffffff"])

    def test_a_crowd_comes_in_two_heaps(self):
        taken = {moment.number: len(moment.commits) for moment in course("crowd.sf").moments if moment.commits}
        self.assertEqual((len(read_script(contents("crowd.sf")).steps), list(taken.values())), (64, [33, 31]))
        self.assertIn(5, taken)


if __name__ == "__main__":
    unittest.main()
