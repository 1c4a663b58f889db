"""Plays random scenes and faulty scripts by the program, and judges what it writes.

Each seed is a scene or a script that is the same on every machine. The kinds are

  valid    a scene, played in turns: its records mean what it allows, and are those of its one play
  faulty   a script that is mostly no scene: the first fault is told by its line, word and cause
  live     a scene, played in threads whose transactions arrive by a lock
  queue    the same, where they arrive through a queue

all with 1 to 16 workers. What differs is told, and kept in a folder as KIND-SEED.sf, with the difference as KIND-SEED.txt; the first
ones are made small, as KIND-SEED.small.sf. At the end stands what the runs met, per thousand of them, and what they are to meet and did not.

With --wrong the program is not played. Each of some hundred wrong implementations makes records of random scenes, and it is told for
which part of the meaning the check refuses them. What the meaning leaves free, in whole or in part, stands with the reason.

status: 0 nothing differs, 1 something does, 2 wrong words or no program
"""

import argparse
import multiprocessing
import os
import time
from collections import Counter
from itertools import count

from surbeldoi import TOP
from surbeldoi.commands import run as runs
from surbeldoi.commands import words
from surbeldoi.commands.words import Command
from surbeldoi.fuzz.coverage import expected, name_of, table
from surbeldoi.fuzz.shrinking import shrunk
from surbeldoi.fuzz.trials import KINDS, LIVE, Program, judged, script_of, tried
from surbeldoi.fuzz.wrong import judge_wrong

KEPT = os.path.join("out", "fuzz")
# How many seeds one of the processes takes at once, behind how many that differ no more are tried, how many of these are made small,
# how often each is tried for that, and how often a live run is played again before it counts as right.
AT_ONCE, ENOUGH, MADE_SMALL, MOST_ASKED, AGAIN = 25, 20, 3, 400, 5
MOST_SEED, MOST_JOBS, MOST_MINUTES = 1 << 53, 64, 10_000
FEW, MOST_SCENES = 300, 3000


def seeds_of(text):
    """The first and the last seed of A..B, or of one number."""
    first, dots, last = text.partition("..")
    last = last if dots else first
    if not all(part.isascii() and part.isdigit() for part in (first, last)) or not int(first) <= int(last) < MOST_SEED:
        raise argparse.ArgumentTypeError(f"{text} is no range of seeds, as 1..300 is one")
    return int(first), int(last)


def kinds_of(text):
    kinds = text.split(",")
    if not set(kinds) <= set(KINDS):
        raise argparse.ArgumentTypeError(f"{text}: the kinds are {', '.join(KINDS)}")
    return kinds


def takes(parser):
    parser.add_argument("--kinds", type=kinds_of, metavar="K,K..", help="which kinds; all that the program can play, if not given")
    parser.add_argument("--seeds", type=seeds_of, metavar="A..B", help=f"the seeds of each kind; 1..{FEW} if not given, and from 1 on with --minutes")
    parser.add_argument("--minutes", type=words.number(1, MOST_MINUTES), metavar="M", help="goes on with further seeds for so long")
    parser.add_argument("--jobs", type=words.number(1, MOST_JOBS), default=1, metavar="J", help="how many processes; 1 if not given")
    parser.add_argument("--program", metavar="FILE", help="the program; the one in crates/sf_main/out if it is built of the sources as they stand, else the one that "
                        "tools/run.py has compiled, which plays in turns alone")
    parser.add_argument("--keep", default=KEPT, metavar="FOLDER", help="where what differs is kept; out/fuzz if not given")
    parser.add_argument("--brief", action="store_true", help="tells of what was met only what was not")
    parser.add_argument("--show", choices=KINDS, help="writes the script of the first seed, as one of this kind, and plays nothing")
    parser.add_argument("--wrong", action="store_true", help="asks the check what it says of wrong implementations")


def program_of(path):
    """The program at a path, or the one that is there; None where there is none."""
    built = path or runs.built(TOP)
    found = built or runs.kept(TOP)
    return Program(os.path.abspath(found), bool(built)) if found and os.access(found, os.X_OK) else None


def batches(kinds, seeds, until):
    """Kinds with seeds to try, until the last seed or this time."""
    for first in count(seeds[0], AT_ONCE):
        if first > seeds[1] or until and time.monotonic() > until:
            return
        for kind in kinds:
            yield kind, first, min(first + AT_ONCE - 1, seeds[1])


def try_batch(asked):
    """Tries some seeds. What they met together, how many they are, and those that differ."""
    program, kind, first, last = asked
    trials = [tried(program, kind, seed) for seed in range(first, last + 1)]
    return kind, last, sum((trial.met for trial in trials), Counter()), len(trials), [trial for trial in trials if trial.differs]


class Tally:
    """What was tried so far of each kind: how many, what they met, and which seeds differ."""

    def __init__(self, program, kinds, folder):
        self.program, self.folder, self.differing = program, folder, []
        self.met, self.tried, self.last = {kind: Counter() for kind in kinds}, Counter(), {kind: 0 for kind in kinds}

    def add(self, kind, last, met, many, differing):
        self.met[kind].update(met)
        self.tried[kind] += many
        self.last[kind] = max(last, self.last[kind])
        for trial in differing:
            words.say([f"{kind} {trial.seed}: {trial.differs.text()}"])
            self.differing.append(trial)
            self.keep(trial)

    def is_enough(self):
        return len(self.differing) >= ENOUGH

    def keep(self, trial):
        """Keeps what differs: the script, how it differs, and of the first ones a small script that does so, too."""
        os.makedirs(self.folder, exist_ok=True)
        script = script_of(trial.kind, trial.seed)
        self.leave(trial, ".sf", script)
        self.leave(trial, ".txt", f"{trial.differs.text()}\n".encode())
        if len(self.differing) <= MADE_SMALL:
            self.leave(trial, ".small.sf", shrunk(script, self.differs_as(trial), MOST_ASKED))

    def leave(self, trial, name, text):
        with open(os.path.join(self.folder, f"{trial.kind}-{trial.seed}{name}"), "wb") as file:
            file.write(text)

    def differs_as(self, trial):
        """Tells whether a script differs in the same part as that of a trial did."""
        def differs(script):
            tries = (judged(self.program, trial.kind, script, trial.seed)[1] for _ in range(AGAIN if trial.kind in LIVE else 1))
            return any(found and found.part == trial.differs.part for found in tries)
        return differs

    def missing(self, kind):
        """What runs of a kind are to meet and did not."""
        return [] if kind == "faulty" else [thing for thing in expected(kind != "valid") if not self.met[kind][thing]]

    def lines(self, first, is_brief):
        """What was tried: the counts, the table of what was met if it is asked for, and what was not met."""
        for kind, many in self.tried.items():
            yield f"{kind}: seeds {first}..{self.last[kind]}, {sum(trial.kind == kind for trial in self.differing)} of {many} differ{'' if is_brief else '; per thousand they met'}"
            yield from (f"  {told}" for told in (() if is_brief else table(self.met[kind], many)))
            missing = self.missing(kind)
            if kind != "faulty":
                yield f"  not met: {', '.join(map(name_of, missing)) or 'nothing'}"


def results(asked, jobs):
    """What batches come to, in one process or several."""
    if jobs == 1:
        yield from map(try_batch, asked)
        return
    with multiprocessing.Pool(jobs) as pool:
        yield from pool.imap_unordered(try_batch, asked)


def try_all(program, given):
    """Tries what is asked for, and tells what it came to; also where it is interrupted."""
    kinds = given.kinds or (KINDS if program.takes_words else KINDS[:2])
    seeds = given.seeds or (1, MOST_SEED if given.minutes else FEW)
    until = time.monotonic() + 60 * given.minutes if given.minutes else None
    asked = ((program, kind, first, last) for kind, first, last in batches(kinds, seeds, until))
    tally, began = Tally(program, kinds, given.keep), time.monotonic()
    try:
        for found in results(asked, given.jobs):
            tally.add(*found)
            if tally.is_enough():
                break
    finally:
        words.say(tally.lines(seeds[0], given.brief))
        words.say([f"{sum(tally.tried.values())} scripts in {time.monotonic() - began:.0f} seconds, {len(tally.differing)} differ"])
    return 1 if tally.differing else 0


def try_wrong(given):
    """Tells what the check says of wrong implementations."""
    first, last = given.seeds or (1, MOST_SCENES)
    found = judge_wrong(range(first, last + 1))
    words.say(one.text() for one in found)
    missed = [one for one in found if not one.is_right()]
    words.say([f"{len(found)} wrong implementations, {sum(bool(one.fault.free) for one in found)} of them free in whole or in part, "
               f"{sum(not one.shown() for one in found)} never shown, {len(missed)} not as they should be"])
    return 1 if missed else 0


def run(given):
    if given.wrong:
        return try_wrong(given)
    if given.show:
        words.say([script_of(given.show, (given.seeds or (1, 1))[0])])
        return 0
    program = program_of(given.program)
    if program is None:
        raise words.WrongWords(f"there is no program {given.program}" if given.program else "there is no program that is built of the sources as they stand: `rt run` in "
                               "crates/sf_main builds it, and tools/run.py a smaller one")
    return try_all(program, given)


def main(given):
    about, more = __doc__.strip().split("\n\n", 1)
    return words.called("fuzz.py", Command(about, takes, run, more=more), given)
