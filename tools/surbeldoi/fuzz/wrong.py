"""What the check says of wrong implementations: each is planted in plays of random scenes, and the records that it makes are checked."""

import traceback
from collections import Counter

from surbeldoi.check.checking import check_meaning
from surbeldoi.check.ordering import Ordered, Refused
from surbeldoi.fuzz.examples import EXAMPLES
from surbeldoi.fuzz.planted import WRONG, planted
from surbeldoi.fuzz.scenes import random_scene
from surbeldoi.model.playing import Play
from surbeldoi.records.stream import Record
from surbeldoi.script.scenes import read_scene

# In how many scenes a wrong implementation has to show, and how many scenes are looked at.
SHOWN, MOST_STEPS = 5, 150
ACCEPTED, FAILED = "accepted", "the check fails"


def played(scene):
    """The records of the play of a scene, by the model as it is."""
    return [Record(tag, fields, b"", False, []) for tag, fields in Play(scene).records()]


def records_of(fault, scene, right):
    """The records that a wrong implementation makes of a scene, whose right ones are given; None where it makes none."""
    if fault.owner is None:
        return fault.make(scene, right)
    try:
        with planted(fault):
            return played(scene)
    except Exception:  # A wrong implementation may come to where it cannot go on.
        return None


def verdict(scene, records):
    """The part for which the check refuses records, or that it accepts them."""
    try:
        check_meaning(scene, Ordered(records).shown(scene), False)
    except Refused as refused:
        return refused.part
    except Exception:
        return f"{FAILED}: {traceback.format_exc()[-300:]}"
    return ACCEPTED


class Judged:
    """What the check said of a wrong implementation: by verdicts, and the seeds of the scenes by verdict."""

    def __init__(self, fault):
        self.fault, self.verdicts, self.seeds = fault, Counter(), {}

    def shown(self):
        return sum(self.verdicts.values())

    def note(self, seed, said):
        self.verdicts[said] += 1
        self.seeds.setdefault(said, []).append(seed)

    def is_right(self):
        """Whether it was refused wherever it showed, or may be accepted."""
        return not any(said.startswith(FAILED) or said == ACCEPTED and not self.fault.free for said in self.verdicts)

    def text(self):
        if not self.verdicts:
            return f"never shown: {self.fault.name}"
        refused = {part: many for part, many in self.verdicts.items() if part != ACCEPTED}
        by = f", by {', '.join(sorted(refused))}" if refused else ""
        where = f"; accepted for the scenes {', '.join(map(str, self.seeds[ACCEPTED]))}" if self.verdicts[ACCEPTED] else ""
        told = f"{self.fault.name}: refused {sum(refused.values())} of {self.shown()} times{by}"
        if self.fault.free:
            return f"free: {told}: {self.fault.free}"
        return told if self.is_right() else f"NOT REFUSED: {told}{where}"


def scripts(seeds):
    """The scripts of the examples, and those of seeds; each with what it is called."""
    yield from ((f"example {number}", script) for number, script in enumerate(EXAMPLES, 1))
    yield from ((seed, random_scene(seed)) for seed in seeds)


def judge_wrong(seeds, faults=None):
    """Asks the check about all wrong implementations, by the examples and the scenes of these seeds, until each has shown often enough."""
    judged = [Judged(fault) for fault in (WRONG if faults is None else faults)]
    for seed, script in scripts(seeds):
        left = [one for one in judged if one.shown() < SHOWN]
        if not left:
            break
        scene = read_scene(script)
        if sum(map(len, scene.actors.values())) > MOST_STEPS:
            continue
        right = played(scene)
        for one in left:
            records = records_of(one.fault, scene, right)
            if records is not None and records != right:
                one.note(seed, verdict(scene, records))
    return judged
