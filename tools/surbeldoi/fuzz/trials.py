"""Trials: a random scene or a faulty script is played by the program, and what it writes is judged."""

import subprocess
import traceback
from collections import Counter
from typing import NamedTuple, Optional

from surbeldoi.check.checking import check_meaning, check_play
from surbeldoi.check.ordering import Ordered, Refused, early_reply
from surbeldoi.fuzz.coverage import Watched, met_in_records
from surbeldoi.fuzz.dice import Dice
from surbeldoi.fuzz.faults import faulty_script
from surbeldoi.fuzz.scenes import random_scene
from surbeldoi.records.stream import faults, read
from surbeldoi.records.wording import FAULTS, named
from surbeldoi.script.first_fault import Fault, first_fault
from surbeldoi.script.grammar import STEPS, first_words, lines_in
from surbeldoi.script.scenes import read_scene

PLAYED, NO_SCENE = 0, 2
MOST_SECONDS, MOST_WORKERS = 120, 16
LIVE = {"live": ("--run", "live"), "queue": ("--run", "live", "--intake", "queue")}
KINDS = ("valid", "faulty", *LIVE)
FIRST_WORDS = first_words(lines_in(2) + STEPS)


class Program(NamedTuple):
    """The program that plays, and whether it takes words: the one that plays in turns alone takes none."""

    path: str
    takes_words: bool

    def run(self, script, *words):
        """The status, the standard output and the standard error of a run."""
        ran = subprocess.run([self.path, *(words if self.takes_words else ())], input=script, stdout=subprocess.PIPE, stderr=subprocess.PIPE, timeout=MOST_SECONDS)
        return ran.returncode, ran.stdout, ran.stderr


class Difference(NamedTuple):
    """How the program does otherwise than it should: in which part, and what it does."""

    part: str
    why: str

    def text(self):
        return f"{self.part}: {self.why}"


class Differs(Exception):
    """The program does otherwise than it should."""

    def __init__(self, part, why):
        super().__init__(part, why)
        self.difference = Difference(part, why)


def expect_status(told, status, complaint):
    if told != status or complaint and status == PLAYED:
        text = complaint.decode("utf-8", "backslashreplace").strip()
        raise Differs("status", f"it ends with status {told}, where {status} is due, and says: {text[-500:] or 'nothing'}")


def records_of(output):
    records, of_stream = read(output)
    wrong = faults(records, of_stream)
    if wrong:
        raise Differs("stream", wrong[0])
    return records


def workers_of(dice):
    return str(dice.weighted([(2, 1), (2, 2), (1, 3), (1, 4), (1, dice.between(5, MOST_WORKERS))]))


def judge_valid(program, script, dice):
    """Plays a scene in turns. What it met."""
    scene = read_scene(script)
    status, output, complaint = program.run(script, "--workers", workers_of(dice))
    expect_status(status, PLAYED, complaint)
    records, play = records_of(output), Watched(scene)
    check_meaning(scene, Ordered(records).shown(scene), False)
    check_play(play, records)
    return play.met + met_in_records(scene, records)


def judge_live(program, script, dice, kind):
    """Plays a scene in threads. What it met."""
    scene = read_scene(script)
    status, output, complaint = program.run(script, *LIVE[kind], "--workers", workers_of(dice))
    expect_status(status, PLAYED, complaint)
    records = records_of(output)
    shown = Ordered(records).shown(scene)
    check_meaning(scene, shown, kind == "queue")
    early = early_reply(shown)
    if early:
        raise Differs("live", f"{early.text()}: replies of a live run stand behind the last vsync, by actor and step")
    return met_in_records(scene, records)


def met_by_fault(script, fault):
    """A fault by the first word of its line, nothing where that begins no form."""
    lines = script.split(b"\n")
    words = lines[fault.line - 1].split() if 0 < fault.line <= len(lines) else []
    first = words[0].decode("ascii", "replace") if words else ""
    return Counter({("fault", first if first in FIRST_WORDS else "", fault.cause): 1})


def fault_told(output):
    """The fault that a stream tells, or None."""
    records = records_of(output)
    return Fault(*records[0].fields.values()) if [record.tag for record in records] == ["SFLT"] else None


def fault_text(fault):
    return f"line {fault.line}, word {fault.word}, {named(FAULTS, fault.cause)}" if fault else "no fault"


def judge_faulty(program, script, dice):
    """Plays a script that is faulty, as most are, or a scene. What it met."""
    due = first_fault(script)
    if due is None:
        judge_valid(program, script, dice)
        return Counter()
    status, output, complaint = program.run(script)
    told = fault_told(output) if status == NO_SCENE else None
    if told != due:
        said = complaint[-200:].decode("utf-8", "backslashreplace").strip() or "nothing"
        raise Differs("fault", f"it ends with status {status} and tells {fault_text(told)}, where {fault_text(due)} is due; it says: {said}")
    return met_by_fault(script, due)


def judged(program, kind, script, seed):
    """What a script met that is played as one of a kind, or the difference."""
    dice = Dice(3, seed)
    try:
        if kind == "faulty":
            return judge_faulty(program, script, dice), None
        if kind == "valid":
            return judge_valid(program, script, dice), None
        return judge_live(program, script, dice, kind), None
    except Refused as refused:
        return Counter(), Difference(f"check, {refused.part}", f"{refused.where}: {refused.why}")
    except Differs as differs:
        return Counter(), differs.difference
    except subprocess.TimeoutExpired:
        return Counter(), Difference("time", f"it has not ended after {MOST_SECONDS} seconds")
    except Exception as fault:  # A fault of the tools themselves is one to be told, too.
        return Counter(), Difference(f"tools, {type(fault).__name__}", traceback.format_exc()[-1500:])


def script_of(kind, seed):
    return faulty_script(seed) if kind == "faulty" else random_scene(seed)


class Trial(NamedTuple):
    """What a trial came to: its difference is None where there is none."""

    kind: str
    seed: int
    met: Counter
    differs: Optional[Difference]


def tried(program, kind, seed):
    return Trial(kind, seed, *judged(program, kind, script_of(kind, seed), seed))
