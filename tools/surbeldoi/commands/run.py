"""Plays a scene and writes what comes of it: its frames as PNG files, and the run as text and as a timeline.

The folder gets

    records.bin      the records, for tools/records.py; they are written while they come
    dump.txt         a sentence for each record
    trace.json       a timeline, for chrome://tracing or Perfetto
    frame-N.png      the frame of vsync N; those of further displays and captures stand in folders
                     below, display-D and capture-C
    view.html        a page to look into the run, for a browser

in the place of those that an earlier run left there.

What the run comes to is told on standard output, with what waits and who is stuck, and why. The fault
of a script that is no scene is shown at its place, on standard error. While it builds and plays, one
line there says what it does and for how long, of about how long: each second in its place on a terminal,
else every 15 seconds.

The program that `rt run` built in crates/sf_main is used where no source is newer than it. Where there
is none, a smaller program, which plays in turns and does nothing else, is made of the crates in a
temporary folder and compiled as it stands, by `rt try`: that takes about a minute, and no proof is asked
for. It is kept as out/unproved/play_scene with a sum of its sources, and plays other scenes at once as
long as they have this sum. With --proved the program is proved and built first by `rt run`, the first
time for long, later only what changed.

status: that of the program (0 played, 2 the script is no scene), or 1 where there is no answer, 2
where words are wrong or a file cannot be read or written, or 130 where it was interrupted.
"""

import glob
import json
import os
import re
import sys
import tempfile
import threading
from typing import NamedTuple, Optional

from surbeldoi import TOP
from surbeldoi.asking.flows import trace_of
from surbeldoi.asking.naming import sentences_of
from surbeldoi.asking.reasons import asked_of
from surbeldoi.build import compiling
from surbeldoi.build import small_program
from surbeldoi.build.waiting import EACH, Stages, awaited
from surbeldoi.commands import words
from surbeldoi.commands.words import STANDARD_INPUT, WRONG, Command, contents, path
from surbeldoi.records.pictures import has_further, sizes_in, write_frames
from surbeldoi.records.stream import faults, read
from surbeldoi.records.summing import summed
from surbeldoi.script.explaining import explained
from surbeldoi.script.scenes import NoScene
from surbeldoi.texts import visible
from surbeldoi.view.course import NoCourse
from surbeldoi.view.viewing import view_page

FOLDER_OF_PROGRAM = os.path.join("crates", "sf_main")
TOOL = "run.py"
UNPROVED_FOLDER = "unproved"
KEPT_PROGRAM = os.path.join("out", UNPROVED_FOLDER, "play_scene")
USUAL_SCENE = os.path.join(TOP, "scenes", "phone.sf")
# Which statuses of the program leave whole records behind: a played scene, and a script that is none.
WHOLE = (0, 2)
NOT_RUN = 126
# What a run leaves in its folder.
LEFT = ("records.bin", "dump.txt", "trace.json", "view.html")
FRAME = re.compile(r"frame-[0-9]+\.png")
BELOW = re.compile(r"(display|capture)-[0-9]+")
# What `rt try` does, and about how long on four idle processors at 2.5 GHz. Its first run is on an interpreter, which cannot
# read standard input: one step of it is enough.
UNPROVED = ["rt", "try", "--steps", "1"]
COMPILERS, LOADED = ("clang", "ld.lld"), ("ld-linux-x86-64", "program")
TRIES = ("checks types and borrows, without any proof", (), 38), ("compiles", COMPILERS, 16), ("plays", LOADED, 1)
TRIES_WHOLE = ("checks types and borrows, without any proof", (), 65), ("compiles", COMPILERS, 42), ("plays", LOADED, 3)
NO_INTERPRETER = "interpreter: no-answer:"
# The status of `rt try` where a crate is refused.
REFUSED = 1


class Way(NamedTuple):
    """A way to play a scene: a command, the folder that it is called in, what it does, its stages, and where its temporary
    files go if not where they usually do."""

    command: list
    folder: str
    does: str
    stages: Stages
    temporary: Optional[str] = None

    def environment(self):
        return {**os.environ, "TMPDIR": self.temporary} if self.temporary else None


class Scene(NamedTuple):
    """A scene to be played: its file as it is shown, and its script."""

    name: str
    script: bytes


def complain(text):
    words.complain(TOOL, text)


def scene_at(where):
    """The scene of a file or of standard input, which is read once."""
    return Scene("standard input" if where == STANDARD_INPUT else visible(os.path.relpath(where)), contents(where))


def usual_folder(where):
    """The folder for a scene's file: out/NAME, or out/NAME.sf where the kept program has that name."""
    name = "stdin" if where == STANDARD_INPUT else os.path.basename(where)
    stem = os.path.splitext(name)[0]
    return os.path.join(TOP, "out", stem if stem != UNPROVED_FOLDER else name)


def is_newest(program, top):
    """Whether a program is there, and newer than each source of the crates."""
    sources = glob.glob(os.path.join(top, "crates", "*", "src", "**", "*.rt"), recursive=True)
    try:
        when = os.path.getmtime(program)
        return all(os.path.getmtime(source) < when for source in sources)
    except OSError:
        return False


def built(top):
    """The program that was built from the sources as they stand, or None."""
    program = os.path.join(top, FOLDER_OF_PROGRAM, "out", "sf_main")
    return program if is_newest(program, top) else None


def sum_beside(program):
    """The file with the sum of the sources that a kept program was compiled from."""
    return program + ".sum"


def kept(top):
    """The program that an earlier run compiled from sources of the same sum, without any proof, or None."""
    program = os.path.join(top, KEPT_PROGRAM)
    try:
        with open(sum_beside(program), encoding="ascii", errors="replace") as file:
            told = file.read()
    except OSError:
        return None
    return program if os.path.exists(program) and told.strip() == small_program.sum_of(top) else None


def keep(keeper, top, sources):
    """Leaves what a keeper has as the kept program, with the sum of its sources."""
    program = os.path.join(top, KEPT_PROGRAM)
    keeper.leave(program)
    if os.path.exists(program):
        write_text(os.path.dirname(program), os.path.basename(sum_beside(program)), sources + "\n")


def way_of_program(program, top):
    """Plays by a program that stands built."""
    return Way([program], os.path.join(top, FOLDER_OF_PROGRAM), f"{os.path.relpath(program)} plays it", Stages(("plays", (), None)))


def way_of_kept_program(program, top):
    """Plays by what this run or an earlier one compiled."""
    return Way([program], top, "plays it by what was compiled, without any proof", Stages(("plays", (), None)))


def way_of_proof(top):
    """Proves and builds the program first."""
    stages = Stages(("proves, builds and plays", (), None))
    return Way(["rt", "run"], os.path.join(top, FOLDER_OF_PROGRAM), "proves what is not proved yet, builds and plays it", stages)


def way_of_small_program(top, folder):
    """Compiles a smaller program as it stands."""
    does = "compiles a program that plays it as it stands, without any proof (about a minute)"
    os.mkdir(os.path.join(folder, "temporary"))
    return Way(UNPROVED, small_program.make(top, folder), does, Stages(*TRIES), os.path.join(folder, "temporary"))


def way_of_whole_program(top):
    """Compiles the program as it stands."""
    does = "compiles the whole program as it stands, without any proof (about two minutes)"
    return Way(UNPROVED, os.path.join(top, FOLDER_OF_PROGRAM), does, Stages(*TRIES_WHOLE))


class Progress:
    """Tells how far a run is: over and over on the same line of a terminal, else line by line."""

    def __init__(self, out):
        self.out, self.on_terminal, self.open = out, out.isatty(), False
        self.each = 1 if self.on_terminal else EACH

    def tell(self, text):
        self.out.write(f"\r\x1b[K  {text}" if self.on_terminal else f"  {text}\n")
        self.open = self.on_terminal
        self.out.flush()

    def say(self, line):
        """Passes on what the command says, but that it was not interpreted."""
        if not line.startswith(NO_INTERPRETER):
            self.end()
            self.out.write(line)
            self.out.flush()

    def end(self):
        if self.open:
            self.out.write("\n")
        self.open = False


def play(way, scene, records, enough=None):
    """The status of a command that plays a scene; its records go into a file. What `rt` says goes on to standard error. The
    command is ended where `enough` is set."""
    print(f"{scene.name}: {way.does}", file=sys.stderr, flush=True)
    progress = Progress(sys.stderr)
    try:
        with tempfile.TemporaryFile() as script, open(records, "wb") as sink:
            script.write(scene.script)
            script.seek(0)
            return awaited(way.command, way.folder, script, sink, progress.tell, progress.say, way.stages, progress.each, way.environment(),
                           enough)
    finally:
        progress.end()


def play_compiled(scene, records, top):
    """Compiles the smaller program, keeps it, and plays a scene by it where the compiler is not the quicker to be ended; the
    status."""
    enough, sources = threading.Event(), small_program.sum_of(top)
    with tempfile.TemporaryDirectory(prefix="surbeldoi-") as folder:
        way = way_of_small_program(top, folder)
        with compiling.Keeper(way.temporary, enough.set) as keeper:
            status = play(way, scene, records, enough)
        keep(keeper, top, sources)
    return status


def play_kept(program, scene, records, top):
    """Plays a scene by what was compiled before; the status, as shells have it where the program cannot be run."""
    try:
        return play(way_of_kept_program(program, top), scene, records)
    except OSError as fault:
        complain(fault)
        return NOT_RUN


def play_unproved(scene, records, top):
    """Plays a scene without a proof, by what there is; the command and its status."""
    program = kept(top)
    if program:
        status = play_kept(program, scene, records, top)
        if status in WHOLE:
            return [program], status
        complain(f"{os.path.relpath(program)} ended with status {status}, so it is compiled anew")
    status, program = play_compiled(scene, records, top), kept(top)
    if status in WHOLE and os.path.getsize(records):
        return UNPROVED, status
    if program:
        # The program was there before `rt try` played; or that took no more than 1 MiB of records, or no longer than a minute.
        return [program], play_kept(program, scene, records, top)
    if status != REFUSED:
        return UNPROVED, status
    complain("the smaller program is refused, since the crates are not as it needs them")
    return UNPROVED, play(way_of_whole_program(top), scene, records)


def play_somehow(proved, scene, records, top):
    """Plays a scene by what there is; the command and its status."""
    program = None if proved else built(top)
    if not program and not proved:
        return play_unproved(scene, records, top)
    way = way_of_program(program, top) if program else way_of_proof(top)
    return way.command, play(way, scene, records)


def clear(folder):
    """Makes a folder, and takes out of it what an earlier run left there."""
    os.makedirs(folder, exist_ok=True)
    for name in os.listdir(folder):
        path = os.path.join(folder, name)
        if name in LEFT or FRAME.fullmatch(name):
            os.remove(path)
        elif BELOW.fullmatch(name) and os.path.isdir(path):
            clear_below(path)


def clear_below(folder):
    """Takes the frames out of a folder, and the folder away where it then is empty."""
    for name in filter(FRAME.fullmatch, os.listdir(folder)):
        os.remove(os.path.join(folder, name))
    if not os.listdir(folder):
        os.rmdir(folder)


def write_text(folder, name, text):
    with open(os.path.join(folder, name), "w", encoding="utf-8") as file:
        file.write(text)


def shown(*names):
    """A path as it is shown."""
    return visible(os.path.relpath(os.path.join(*names)))


def leave_view(records, scene, folder):
    """Writes the page to look into the run, and names it."""
    try:
        page = view_page(os.path.basename(scene.name), records, scene.script)
    except NoCourse as fault:
        complain(f"there is no view.html: {fault}")
        return
    write_text(folder, "view.html", page)
    print(f"{shown(folder, 'view.html')}: open it in a browser, to look into the run")


def further_sizes(records, scene):
    """The sizes of the further displays and captures that a run shows."""
    try:
        return sizes_in(scene.script) if has_further(records) else {}
    except NoScene as fault:
        complain(f"further displays and captures are left out: {fault}")
        return {}


def asked_about(records, scene):
    """The run to be told with the words of its script, or None where the records are not those of the script."""
    try:
        return asked_of(records, scene.script)
    except NoCourse:
        return None


def leave(records, scene, folder):
    """Writes what a whole stream tells into the folder, and says what it comes to."""
    asked = asked_about(records, scene)
    write_text(folder, "dump.txt", "".join(line + "\n" for line in sentences_of(records, asked)))
    write_text(folder, "trace.json", json.dumps(trace_of(records, asked), indent=1) + "\n")
    for path in write_frames(folder, records, further_sizes(records, scene)):
        print(shown(path))
    if records[0].tag == "SFLT" and records[0].fields is not None:
        for line in explained(scene.name, scene.script, records[0].fields):
            print(line, file=sys.stderr)
        return
    leave_view(records, scene, folder)
    for line in summed(records, scene.script):
        print(visible(line))


def run(options):
    """Plays a scene, and leaves what comes of it in a folder; the status."""
    scene, folder = scene_at(options.scene), options.folder or usual_folder(options.scene)
    clear(folder)
    where = os.path.join(folder, "records.bin")
    command, status = play_somehow(options.proved, scene, where, TOP)
    records, of_stream = read(contents(where))
    if status not in WHOLE or not records:
        complain(f"{' '.join(command)} ended with status {status} and gave no whole run; what came stands in {os.path.relpath(where)}")
        return 1
    for line in faults(records, of_stream):
        complain(line)
    leave(records, scene, folder)
    return status


def take(parser):
    parser.add_argument("--proved", action="store_true", help="prove the program and build it first")
    parser.add_argument("scene", metavar="SCENE", nargs="?", type=path, default=USUAL_SCENE, help="the scene; scenes/phone.sf if it is not given, and "
                        "standard input if it is -")
    parser.add_argument("folder", metavar="FOLDER", nargs="?", type=path, help="the folder; out/NAME if it is not given, for a scene NAME.sf")


def played(options):
    """The same, where `rt` may be missing."""
    try:
        return run(options)
    except FileNotFoundError as fault:
        if fault.filename != "rt":
            raise
        complain("rt, the command of Rattle's kit, is not on the path, and crates/sf_main/out has no program that was built from these sources")
        return WRONG


def main(given):
    about, more = __doc__.strip().split("\n\n", 1)
    return words.called(TOOL, Command(about, take, played, more=more), given)
