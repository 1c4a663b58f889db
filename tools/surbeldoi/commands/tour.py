"""A tour of five minutes: the scenes, the page, records that are refused, and a body that the checker refuses.

It plays each scene of scenes/ and writes its page; opens the page of an app switch; shows how `records.py check` refuses the
records of a compositor that shows half a transaction; and has Rattle's checker refuse a wrong body in a small crate. At a
terminal it waits for Enter before each.
"""

import os
import shutil
import subprocess
import sys
import tempfile
import time
import webbrowser
from typing import NamedTuple

from surbeldoi import TOP
from surbeldoi.check.checking import checked
from surbeldoi.check.ordering import Refused
from surbeldoi.commands import edits, run, words
from surbeldoi.commands.words import Command, contents
from surbeldoi.model.playing import Play
from surbeldoi.model.trees import after
from surbeldoi.records.stream import Record, read
from surbeldoi.script.scenes import read_scene
from surbeldoi.script.scripts import lines_of
from surbeldoi.view.viewing import view_page

SCENES = os.path.join(TOP, "scenes")
# The scene whose page is opened, and where; and the one of which half a transaction is shown, at which vsync.
OPENED, LOOKED_AT = "switch.sf", "#vsync=10&layer=22&show=changes"
TORN, AT = "phone.sf", 2
# The wrong body that is tried: a crate with none below it, a module of it, and an edit of that.
CRATE, MODULE, EDIT = "sf_base", "pixel", "the-layers-alpha-covers-in-place-of-the-sources"
# What the checker says of what does not hold.
NOT_PROVED = "it is not proved"


class Options(NamedTuple):
    """What is left out, and whether the tour waits before each part."""

    browser: bool
    proof: bool
    waits: bool


def heading(text, options):
    print(f"\n== {text}", flush=True)
    if options.waits:
        input("   Enter goes on. ")


def first_sentence(script):
    """The first sentence of a scene's comment."""
    comment = []
    for line in lines_of(script):
        if not line.startswith("#"):
            break
        comment.append(line.strip("# "))
    sentence, stop, _ = " ".join(comment).partition(". ")
    return sentence.rstrip(".:") + "."


def page_of(name):
    """Plays a scene and writes its page; where that is, or None where it was not played."""
    scene = run.scene_at(os.path.join(SCENES, name))
    folder = run.usual_folder(os.path.join(SCENES, name))
    os.makedirs(folder, exist_ok=True)
    where, page = os.path.join(folder, "records.bin"), os.path.join(folder, "view.html")
    if run.play_somehow(False, scene, where, TOP)[1] != 0:
        return None
    with open(page, "w", encoding="utf-8") as file:
        file.write(view_page(name, read(contents(where))[0], scene.script))
    return page


def show_scenes(options):
    """Plays each scene, and says what it shows and where its page is; how many were not played."""
    names, failed = sorted(name for name in os.listdir(SCENES) if name.endswith(".sf")), 0
    heading(f"{len(names)} scenes, each with a page to look into its run", options)
    for name in names:
        page = page_of(name)
        failed += page is None
        print(f"{name}: {first_sentence(contents(os.path.join(SCENES, name)))}\n    {os.path.relpath(page) if page else 'was not played'}", flush=True)
    return failed


def open_page(options):
    page = os.path.join(run.usual_folder(os.path.join(SCENES, OPENED)), "view.html")
    heading(f"The page of {OPENED}: what is there, why, and what changed from vsync to vsync", options)
    print(f"{os.path.relpath(page)}{LOOKED_AT}")
    if options.browser and os.path.exists(page):
        webbrowser.open(f"file://{page}{LOOKED_AT}")
    return 0


# Half a transaction.


class Torn(Play):
    """A compositor that does all as it should, but that the frame of one vsync has only the first half of what its last
    transaction asks for."""

    def __init__(self, scene, at):
        super().__init__(scene)
        self.at, self.half, self.due = at, None, self.outputs.due
        self.outputs.due = self.shown

    def commit(self, token):
        tree, operations = self.stage.tree, self.world.pending[token][0][1].operations()
        self.half = after(tree, operations[:len(operations) // 2], self.scene.most_layers())[0]
        return super().commit(token)

    def shown(self, tree, number):
        return self.due(self.half if number == self.at else tree, number)


def torn_records(script, at):
    """The records of a compositor that shows half a transaction at a vsync."""
    return [Record(tag, fields, b"", False, []) for tag, fields in Torn(read_scene(script), at).records()]


def verdict(script, records):
    """What `records.py check` says of records."""
    try:
        return f"accepted: {checked(script, records, False, False)}"
    except Refused as refused:
        return f"refused: {refused}"


def first_difference(records, others):
    """The first image that two runs of a scene show otherwise: its vsync and the first pixel that differs, with both colours."""
    for one, other in zip(records, others):
        if one.tag == "FRAM" and one.fields["pixels"] != other.fields["pixels"]:
            was, told = one.fields["pixels"], other.fields["pixels"]
            at = next(at for at in range(0, len(was), 4) if was[at:at + 4] != told[at:at + 4])
            return one.fields["number"], at // 4, was[at:at + 4].hex(), told[at:at + 4].hex()
    return None


def show_half(options):
    """Shows that the records of half a transaction are refused; 0 if they are."""
    script = contents(os.path.join(SCENES, TORN))
    width, told = read_scene(script).width, torn_records(script, AT)
    heading(f"A compositor that shows half a transaction: {TORN}, where vsync {AT} darkens the screen, opens a dialog and moves the clock on", options)
    right = [Record(tag, fields, b"", False, []) for tag, fields in Play(read_scene(script)).records()]
    vsync, pixel, due, wrong = first_difference(right, told)
    said = verdict(script, told)
    print(f"vsync {vsync}, pixel {pixel % width} {pixel // width}: {wrong}, where the whole transaction makes it {due}")
    print(f"records.py check, by script and records alone: {said}")
    print(f"and of the records as they should be: {verdict(script, right)}")
    return 0 if said.startswith("refused") else 1


# A wrong body.


def path_of_edit():
    return os.path.join(TOP, "crates", CRATE, "wrong", f"{EDIT}.edit")


def try_body(room):
    """Has the checker look at the module with the wrong body, on a copy; its status, and what it says."""
    folder = os.path.join(room, "crates", CRATE)
    for part in ("src", "specs", "proofs"):
        if os.path.isdir(os.path.join(TOP, "crates", CRATE, part)):
            shutil.copytree(os.path.join(TOP, "crates", CRATE, part), os.path.join(folder, part))
    for file, text in edits.applied(path_of_edit()).items():
        with open(os.path.join(folder, file), "w", encoding="utf-8") as source:
            source.write(text)
    shutil.copyfile(os.path.join(TOP, "HANDLES"), os.path.join(room, "HANDLES"))
    with open(os.path.join(room, "crates.txt"), "w", encoding="utf-8") as listed:
        listed.write(f"{CRATE}:\n")
    os.mkdir(os.path.join(room, ".git"))
    ran = subprocess.run(["rt", "check", "--only", MODULE], cwd=folder, stdout=subprocess.PIPE, stderr=subprocess.STDOUT, text=True)
    return ran.returncode, ran.stdout


def show_body(options):
    """Shows that a wrong body is refused; 0 if it is, or where there is no checker."""
    heading(f"A body of {CRATE} that does not do what its contract promises", options)
    for file, old, new in edits.steps_of(path_of_edit()):
        print(f"crates/{CRATE}/{file}:\n  - {old.strip()}\n  + {new.strip()}", flush=True)
    if not shutil.which("rt"):
        print("rt, the command of Rattle's kit, is not on the path, so the checker is not asked")
        return 0
    began = time.monotonic()
    with tempfile.TemporaryDirectory(prefix="tour-") as room:
        status, said = try_body(room)
    print("\n".join(line for line in said.splitlines() if NOT_PROVED in line) or said.strip())
    is_refused = status != 0 and NOT_PROVED in said
    print(f"{'refused' if is_refused else 'not refused'}, after {time.monotonic() - began:.0f} seconds")
    return 0 if is_refused else 1


def tour(given):
    options = Options(not given.no_browser, not given.no_proof, sys.stdin is not None and sys.stdin.isatty() and sys.stdout.isatty())
    wrong = show_scenes(options) + open_page(options) + show_half(options)
    wrong += show_body(options) if options.proof else 0
    return 1 if wrong else 0


def take(parser):
    parser.add_argument("--no-browser", action="store_true", help="open no page")
    parser.add_argument("--no-proof", action="store_true", help="leave the checker out")


def main(given):
    about, more = __doc__.strip().split("\n\n", 1)
    return words.called("tour.py", Command(about, take, tour, more=more), given)
