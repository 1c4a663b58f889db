"""A suite of scenes for a compositor: the worked ones and random ones, what each uses, and how each was judged."""

import glob
import os
from collections import Counter
from itertools import count, islice
from typing import NamedTuple

from surbeldoi import TOP
from surbeldoi.fuzz.scenes import random_scene
from surbeldoi.judging.given import commits_text
from surbeldoi.judging.judging import Wrong, judge_raw, judge_records
from surbeldoi.judging.peer import CannotSay, PeerFault, frames_of
from surbeldoi.judging.played import Played
from surbeldoi.script.scenes import NoScene, read_scene
from surbeldoi.script.scripts import lines_of, texts_of

RIGHT, WRONG, NOT_SAID, NOTHING = "right", "wrong", "could not be said", "shows nothing"
WORKED = (os.path.join("scenes", "*.sf"), os.path.join("crates", "test_program", "data", "*.sf"))
# Lines that say nothing of what a compositor has to be able to.
OF_EACH = ("scene", "fill", "actor", "order", "vsync", "end")
# How many random scenes are tried for one that a compositor can play.
TRIES = 30


class Way(NamedTuple):
    """How a compositor is called: its command, whether it gets what vsyncs commit and writes raw pixels, by how much channels may
    differ, and how long it may take."""

    command: list
    commits: bool
    raw: bool
    tolerance: int
    seconds: float


class Result(NamedTuple):
    """How a scene was judged: its name, its script, the verdict with its words, and the forms that it uses."""

    name: str
    script: bytes
    verdict: str
    words: str
    forms: frozenset


def form_of_change(words):
    """The form of a change, by its words."""
    return " ".join(words[:2]) if words[0] == "create" or words == ["crop", "none"] else words[0]


def forms_of_line(words, sizes):
    """The forms that a line uses. `sizes` has those of pictures so far, by their numbers as they are written."""
    first = words[0]
    if first == "picture":
        sizes[words[1]] = words[2:4]
        return {f"format {words[5]}"} if len(words) > 5 else set()
    if first == "show":
        is_whole = words[3:] == ["0", "0", *sizes[words[2]]]
        return {"show a frame" if is_whole else "show a part of a frame"}
    if first == "set":
        change = words[2:] if words[2].isalpha() else words[3:]
        return {form_of_change(change)}
    return {first, *(f"{first} with {word}" for word in ("time", "crop", "fence", "size", "at") if word in words[2:])} - set(OF_EACH)


def forms_of(text):
    """The forms that a scene uses, by its script or by what its vsyncs commit."""
    sizes, forms = {}, set()
    for words in filter(None, map(texts_of, lines_of(text))):
        forms |= forms_of_line(words, sizes)
    return frozenset(forms)


def judged(way, name, script):
    """How a compositor shows a scene. Raises NoScene, and OSError where it can't be run."""
    played = Played(read_scene(script))
    given = commits_text(played) if way.commits else script
    forms = forms_of(given)
    if not played.shown():
        return Result(name, script, NOTHING, "", forms)
    try:
        verdict = (judge_raw if way.raw else judge_records)(played, frames_of(way.command, given, way.seconds), way.tolerance)
    except CannotSay as reason:
        return Result(name, script, NOT_SAID, str(reason), forms)
    except (Wrong, PeerFault) as wrong:
        return Result(name, script, WRONG, str(wrong), forms)
    return Result(name, script, RIGHT, verdict.text(), forms)


def is_scene(script):
    try:
        return bool(read_scene(script))
    except NoScene:
        return False


def worked_scenes():
    """The worked scenes by their names."""
    for path in sorted(path for pattern in WORKED for path in glob.glob(os.path.join(TOP, pattern))):
        with open(path, "rb") as file:
            script = file.read()
        if is_scene(script):
            yield os.path.relpath(path, TOP), script


def random_scenes(first):
    """Random scenes by their names, from a seed on."""
    for seed in count(first):
        yield f"random {seed}", random_scene(seed)


def random_results(tried, wanted):
    """Results of random scenes until so many were played, or too many could not be said."""
    played = 0
    for result in islice(tried, TRIES * wanted):
        yield result
        played += result.verdict in (RIGHT, WRONG)
        if played == wanted:
            return


def rows(results):
    """The table of results: for all scenes and for each form the name, how many use it, and how many of each verdict; the forms by
    how many are wrong, then by name."""
    shown = [result for result in results if result.verdict != NOTHING]
    forms = {form for result in shown for form in result.forms}

    def row(name, those):
        return name, len(those), *(sum(result.verdict == verdict for result in those) for verdict in (RIGHT, WRONG, NOT_SAID))

    of_forms = [row(form, [result for result in shown if form in result.forms]) for form in forms]
    return [row("all", shown)] + sorted(of_forms, key=lambda told: (-told[3], told[0]))


def reasons(results):
    """Why scenes could not be said, each reason with how many, the commonest first."""
    return Counter(result.words for result in results if result.verdict == NOT_SAID).most_common()


def wrong_by_form(results):
    """The wrong results of each form that has some, in order."""
    found = {}
    for result in results:
        if result.verdict == WRONG:
            for form in sorted(result.forms):
                found.setdefault(form, []).append(result)
    return found
