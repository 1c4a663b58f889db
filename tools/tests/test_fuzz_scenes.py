"""Tests of random scenes: that they are scenes, the same everywhere, and what they meet."""

import hashlib
import os
import subprocess
import sys
import unittest

from surbeldoi import TOP
from surbeldoi.fuzz import limits
from surbeldoi.fuzz.coverage import Watched, expected, met_in_records, table
from surbeldoi.fuzz.dice import Dice
from surbeldoi.fuzz.faults import faulty_script
from surbeldoi.fuzz.forms import FORMS, form_of, kinds_in, words_of
from surbeldoi.fuzz.limits import Limit
from surbeldoi.fuzz.scenes import random_lines, random_scene
from surbeldoi.fuzz.writing import Style, plain
from surbeldoi.records.stream import Record
from surbeldoi.script.first_fault import first_fault
from surbeldoi.script.scenes import MOST_ACTORS, MOST_BYTES, MOST_FILLS, MOST_LAYERS, MOST_NAMES, MOST_STEPS, read_scene

SEEDS = range(1, 41)
# What the scripts of the seeds come to, on each machine and in each Python. Each change of what makes them changes it.
SUM = "28e106e810727c65abd6f895acae915a76ef3ea893d08a9159aa55d4ee29a70f"
SUMMING = "import sys; sys.path.insert(0, sys.argv[1]); from tests.test_fuzz_scenes import sum_of_scripts; print(sum_of_scripts())"


def sum_of_scripts():
    summing = hashlib.sha256()
    for seed in SEEDS:
        summing.update(random_scene(seed))
        summing.update(faulty_script(seed))
    return summing.hexdigest()


def without_lines(scene):
    """What a scene says, wherever its lines stand."""
    actors = {number: [step._replace(line=0) for step in steps] for number, steps in scene.actors.items()}
    return {**vars(scene), "actors": actors}


def met_by(script):
    """What a scene meets in the play of the model."""
    scene = read_scene(script)
    play = Watched(scene)
    records = [Record(tag, fields, b"", False, []) for tag, fields in play.records()]
    return play.met + met_in_records(scene, records)


class Same(unittest.TestCase):
    def test_a_seed_gives_the_same_scripts_on_every_machine(self):
        self.assertEqual(sum_of_scripts(), SUM)

    def test_whatever_python_puts_into_the_order_of_sets(self):
        told = subprocess.run([sys.executable, "-B", "-c", SUMMING, os.path.join(TOP, "tools")], stdout=subprocess.PIPE, check=True, text=True,
                              env={**os.environ, "PYTHONHASHSEED": "77"}).stdout
        self.assertEqual(told.strip(), SUM)

    def test_other_seeds_give_other_scenes(self):
        self.assertEqual(len({random_scene(seed) for seed in SEEDS}), len(SEEDS))


class Rolls(unittest.TestCase):
    def test_each_choice_stays_in_its_range(self):
        dice = Dice(5, 7)
        cases = (("below", lambda: dice.below(3), {0, 1, 2}), ("between", lambda: dice.between(-1, 1), {-1, 0, 1}), ("one", lambda: dice.one("ab"), {"a", "b"}),
                 ("weighted", lambda: dice.weighted([(1, "a"), (0, "b"), (0.5, "c")]), {"a", "c"}), ("edge", lambda: dice.edge(1, 4), {1, 2, 3, 4}),
                 ("edge of one", lambda: dice.edge(5, 5), {5}), ("some", lambda: "".join(dice.some("ab", 1)), {"a", "b"}),
                 ("shuffled", lambda: "".join(dice.shuffled("ab")), {"ab", "ba"}), ("chance", lambda: dice.chance(1), {True}), ("no chance", lambda: dice.chance(0), {False}))
        for name, roll, wanted in cases:
            self.assertEqual({roll() for _ in range(200)}, wanted, name)

    def test_large_numbers_are_met_all_over_their_range(self):
        dice = Dice(1)
        rolled = [dice.between(0, (1 << 64) - 1) for _ in range(300)]
        self.assertEqual({value >> 60 for value in rolled}, set(range(16)))
        self.assertEqual({value & 15 for value in rolled}, set(range(16)))

    def test_some_of_few_are_all(self):
        self.assertEqual(sorted(Dice(3).some([1, 2], 5)), [1, 2])


class Scenes(unittest.TestCase):
    def test_each_is_a_scene(self):
        for seed in range(1, 121):
            script = random_scene(seed)
            self.assertIsNone(first_fault(script), f"seed {seed}")
            read_scene(script)

    def test_seeds_that_once_gave_no_script(self):
        read_scene(random_scene(10359))  # an actor with all its steps was given those that open the scene, too
        self.assertTrue(first_fault(faulty_script(9086)))  # all lines were gone, and one more was to be changed

    def test_a_style_changes_nothing_of_a_scene(self):
        for seed in range(1, 31):
            lines = random_lines(Dice(1, seed), Limit(Dice(1), 0), 40)
            styled = Style(Dice(9, seed)).script(lines)
            self.assertNotEqual(styled, plain(lines), f"seed {seed}")
            self.assertEqual(without_lines(read_scene(styled)), without_lines(read_scene(plain(lines))), f"seed {seed}")

    def test_steps_are_written_as_they_are_read(self):
        for seed in range(1, 31):
            for steps in read_scene(random_scene(seed)).actors.values():
                for step in steps:
                    words = words_of(step)
                    self.assertEqual(len(kinds_in(words, True)), len(words), words)
                    self.assertIn(form_of(step), FORMS)

    def test_scenes_meet_nearly_all_that_they_are_to_meet(self):
        met = sum((met_by(random_scene(seed)) for seed in range(1, 161)), met_by(random_scene(161)))
        missing = [thing for thing in expected() if not met[thing]]
        self.assertLess(len(missing), 25, missing)
        self.assertEqual([thing for thing in met if thing not in set(expected())], [])
        for text in ("set: Ok", "commits: committed", "slots from queued to acquired: acquire", "held in a vsync: Behind", "stuck: "):
            self.assertTrue(any(line.startswith(text) for line in table(met, 161)), text)


def at_limit(kind, seed=4):
    """The scene of a seed with a limit of a kind."""
    limit, dice = Limit(Dice(1), 0), Dice(7, seed)
    limit.kind = kind
    return read_scene(limit.fill(plain(random_lines(dice, limit, 30))))


def created(steps):
    """How many layers steps create."""
    return sum(step.verb == "set" and step.args[2][0] == "create" for step in steps)


class Limits(unittest.TestCase):
    def test_scenes_come_to_each_limit(self):
        cases = (
            (limits.many_timelines, lambda scene: len(scene.timelines), 64), (limits.many_queues, lambda scene: len(scene.queues), 16),
            (limits.many_pictures, lambda scene: len(scene.pictures), 256),
            (limits.many_fills, lambda scene: max(len(picture.fills) for picture in scene.pictures.values()), MOST_FILLS),
            (limits.many_actors, lambda scene: len(scene.actors) - MOST_ACTORS[scene.version], 0), (limits.wide, lambda scene: max(scene.width, scene.height), 1024),
            (limits.large, lambda scene: scene.width * scene.height, 1 << 20), (limits.large_buffers, lambda scene: max(map(max, scene.queues.values())), 512),
            (limits.many_turns, lambda scene: max(times for _, times in scene.order), 256), (limits.many_steps, lambda scene: max(map(len, scene.actors.values())), MOST_STEPS),
            (limits.many_layers, lambda scene: max(map(created, scene.actors.values())) > MOST_LAYERS[scene.version], True),
        )
        for kind, measure, wanted in cases:
            self.assertEqual(measure(at_limit(kind)), wanted, kind.__name__)

    def test_a_scene_has_as_many_bytes_as_it_may_have(self):
        limit = Limit(Dice(1), 0)
        limit.kind = "bytes"
        self.assertEqual(len(limit.fill(b"end")), MOST_BYTES)

    def test_as_many_outputs_and_names_as_may_be(self):
        found = [at_limit(limits.many_outputs, seed) for seed in range(1, 20)]
        second = [scene for scene in found if scene.version == 2]
        self.assertTrue(second)
        for scene in second:
            self.assertEqual((len(scene.displays), len(scene.captures), len(scene.hits)), (7, 8, 64))
        self.assertLessEqual(max(len(scene.mirrors) for scene in second), 8)
        names = {step.args[1] for seed in range(1, 6) for steps in at_limit(limits.many_names, seed).actors.values() for step in steps if step.verb == "dequeue"}
        self.assertLessEqual(names, {f"n{number}" for number in range(MOST_NAMES)})


if __name__ == "__main__":
    unittest.main()
