"""Reads the records that sf_main writes.

FILE is standard input if it is not given, or is -. The layout of records is in docs/RECORDS.md. Only Python's
standard library is needed.

status: 0 the stream is right, and for explain the script has no fault; 1 something is wrong with the
stream (what can be read is told, and what is wrong stands on standard error), or the reader of the
output went away; 2 wrong words, or a file cannot be read or written; 3 explain has shown a fault.
For check: 0 the records are accepted; 1 they are refused; 2 the script is no scene, the stream has no
records of a run, words are wrong, or a file cannot be read or the verdict not written.
"""

import json
import os
import stat
import sys
from contextlib import ExitStack, contextmanager
from tempfile import TemporaryFile

from surbeldoi.asking.diff import DIFF
from surbeldoi.asking.flows import trace_of
from surbeldoi.asking.naming import sentences_of
from surbeldoi.asking.reasons import asked_of
from surbeldoi.asking.why import WHY
from surbeldoi.check.checking import NoRun, checked
from surbeldoi.check.ordering import Refused
from surbeldoi.commands import words
from surbeldoi.commands.words import STANDARD_INPUT, Command, contents, number, path, say
from surbeldoi.model.arrivals import Misfit
from surbeldoi.model.runs import Followed
from surbeldoi.records.animation import NoFrames, apng, frames_of, y4m
from surbeldoi.records.pictures import has_further, sizes_in, write_frames
from surbeldoi.records.stream import LAST, PIECE, Stream, split, split_stored
from surbeldoi.records.summing import summed
from surbeldoi.records.wording import plain, sentence
from surbeldoi.script.explaining import explained
from surbeldoi.script.scenes import NoScene, read_scene
from surbeldoi.script.scripts import read_script
from surbeldoi.texts import visible
from surbeldoi.view.course import NoCourse
from surbeldoi.view.viewing import view_page

TOOL = "records.py"
REFUSED, NOT_CHECKED, FAULT_SHOWN = 1, 2, 3
MOST_SLOW, MOST_COPIED = 1000, 4 << 30
LEFT_OUT = "further displays and captures are left out: their sizes stand in the script, which --script SCRIPT names"


def complain(text):
    words.complain(TOOL, text)


# What commands take.


def take_file(parser):
    parser.add_argument("file", metavar="FILE", nargs="?", type=path, default=STANDARD_INPUT, help="the records; standard input if it is not given, or is -")


def take_script(parser, why, is_required=False):
    parser.add_argument("--script", metavar="SCRIPT", required=is_required, help=why)


def take_png(parser):
    parser.add_argument("folder", metavar="FOLDER", type=path, help="where frame-NUMBER.png are written; those of further displays go to "
                        "display-D/frame-NUMBER.png below, and captures to capture-C/frame-NUMBER.png")
    take_script(parser, "the script of the run: it has the sizes of further displays and captures, which the records do not tell")
    take_file(parser)


def take_apng(parser):
    parser.add_argument("picture", metavar="PICTURE", type=path, help="the file to write")
    parser.add_argument("--slow", metavar="N", type=number(1, MOST_SLOW), default=1, help="the frames come N times slower")
    take_file(parser)


def take_dump(parser):
    take_script(parser, "the script of the run: each step is told with its line then, each value with what it is, and why something waits")
    take_file(parser)


def take_trace(parser):
    take_script(parser, "the script of the run: slices have its words then, and arrows go from what was waited for to what waited")
    take_file(parser)


def take_summary(parser):
    take_script(parser, "the script of the run: each step is told with its line then, and why it waits or was refused")
    take_file(parser)


def take_view(parser):
    take_script(parser, "the script of the run", True)
    take_file(parser)


def take_explain(parser):
    parser.add_argument("script", metavar="SCRIPT", type=path, help="the script that was to be played")
    take_file(parser)


def take_check(parser):
    take_script(parser, "the script of the scene", True)
    parser.add_argument("--play", action="store_true", help="ask besides for the records of the play")
    parser.add_argument("--live", action="store_true", help="ask besides for the replies of a live run behind its last vsync")
    parser.add_argument("--queue", action="store_true", help="the transactions of the run arrive through a queue")
    take_file(parser)


# What they do.


def tell_faults(stream):
    """Tells what is wrong with a stream that was read; the status."""
    for line in stream.wrong:
        complain(line)
    return REFUSED if stream.wrong else 0


def copied(file, kept):
    """Copies what is no file into one, and goes back to its beginning."""
    size = 0
    while piece := file.read(PIECE):
        size += len(piece)
        if size > MOST_COPIED:
            raise OSError(f"more than {MOST_COPIED >> 30} GiB come in, and only a file may have so many")
        kept.write(piece)
    kept.seek(0)
    return kept


@contextmanager
def opened(name, sizes=None, is_told_as_read=False):
    """The stream of a file or of standard input. What is no file is copied into one first, unless the stream is told as it is read."""
    with ExitStack() as stack:
        if name != STANDARD_INPUT:
            file = stack.enter_context(open(name, "rb"))
        elif sys.stdin is None:
            raise OSError("standard input is closed")
        else:
            file = sys.stdin.buffer
        if not stat.S_ISREG(os.fstat(file.fileno()).st_mode):
            if is_told_as_read:
                yield Stream(split(file), sizes)
                return
            file = copied(file, stack.enter_context(TemporaryFile()))
        yield Stream(split_stored(file), sizes)


def told_as_read(text_of):
    """A command that says a text of each record."""
    def run(options):
        with opened(options.file, is_told_as_read=True) as stream:
            say(map(text_of, stream))
            return tell_faults(stream)
    return run


def told(pieces_of):
    """A command that says, of the records and the options, these lines or bytes."""
    def run(options):
        with opened(options.file) as stream:
            records = list(stream)
            try:
                say(pieces_of(records, options))
            except (NoFrames, NoCourse) as fault:
                stream.wrong.append(str(fault))
            return tell_faults(stream)
    return run


def dump(options):
    """Says a sentence for each record: as it is read, where no script is named."""
    return told(dump_by_script)(options) if options.script else told_as_read(sentence)(options)


def animated(records, options):
    """Writes the frames as an animated PNG, and answers its path."""
    pieces = list(apng(frames_of(records), options.slow))
    with open(options.picture, "wb") as file:
        file.writelines(pieces)
    yield options.picture


def video(records, _):
    if sys.stdout is not None and sys.stdout.isatty():
        raise OSError("a raw video is nothing for a terminal: send it on, as in `records.py y4m FILE | mpv -`")
    yield from y4m(frames_of(records))


def asked_by(records, options):
    """The run of the script that is named, or None."""
    return asked_of(records, contents(options.script)) if options.script else None


def dump_by_script(records, options):
    return sentences_of(records, asked_by(records, options))


def timeline(records, options):
    yield json.dumps(trace_of(records, asked_by(records, options)), indent=1)


def summary(records, options):
    yield from summed(records, contents(options.script) if options.script else None)


def view(records, options):
    yield view_page(visible(os.path.basename(options.script)), records, contents(options.script))


def write_pictures(options):
    """Writes the frames as PNG files, and names them."""
    sizes = sizes_in(contents(options.script)) if options.script else None
    with opened(options.file, sizes) as stream:
        records = list(stream)
        say(write_frames(options.folder, records, sizes or {}))
        if sizes is None and has_further(records):
            complain(LEFT_OUT)
        return tell_faults(stream)


def script_fault(records):
    """The fault that a stream tells of its script, or None."""
    return next((record.fields for record in records if record.tag == "SFLT" and record.fields is not None), None)


def scene_of(script):
    """The scene of a script and None, or None and why it is none."""
    try:
        return read_scene(script), None
    except NoScene as fault:
        return None, str(fault)


def why_of_another(script, records):
    """Why records are not those of a script, or None where they may be."""
    (scene, why), fault = scene_of(script), script_fault(records)
    if fault is not None:
        return "by them it is no scene, and it is one" if scene else None
    if scene is None:
        return f"it is no scene: {why}"
    try:
        Followed(records, read_script(script), scene)
    except Misfit as misfit:
        return str(misfit)
    return None


def explanation(name, script, records):
    """The lines that show the fault of a script, or say that it has none."""
    fault = script_fault(records)
    if fault is not None:
        return explained(name, script, fault)
    if records and records[-1].tag in LAST and records[-1].fields is not None:
        return [f"{name}: no fault: the script is a scene, and it was played to its end"]
    return [f"{name}: no fault is told, but the stream was cut off"]


def explain(options):
    """Shows the fault of a script."""
    script = contents(options.script)
    with opened(options.file) as stream:
        records = list(stream)
        why = why_of_another(script, records) if records else None
        if why:
            complain(f"the records are not those of {options.script}: {why}")
            return REFUSED
        say(explanation(options.script, script, records))
        return tell_faults(stream) or (FAULT_SHOWN if script_fault(records) is not None else 0)


def check(options):
    """Says whether records mean what the scene of a script allows."""
    script = contents(options.script)
    try:
        with opened(options.file) as stream:
            found = checked(script, list(stream), options.play, options.live, options.queue)
    except (NoScene, NoRun) as fault:
        complain(fault)
        return NOT_CHECKED
    except Refused as refused:
        say([f"refused: {refused}"])
        return REFUSED
    say([f"accepted: {found}"])
    return 0


COMMANDS = {
    "dump": Command("a sentence for each record", take_dump, dump),
    "lines": Command("the numbers of each record, a line each, for programs to compare", take_file, told_as_read(plain)),
    "png": Command("each frame as a PNG file", take_png, write_pictures),
    "apng": Command("the frames at their times in one animated PNG; the last one stands for a second before the first comes again", take_apng, told(animated)),
    "y4m": Command("the frames as raw video, a picture for each vsync, for ffmpeg and mpv, as in `records.py y4m FILE | mpv -`", take_file, told(video)),
    "trace": Command("a timeline as JSON, for chrome://tracing or Perfetto", take_trace, told(timeline)),
    "summary": Command("what the run comes to: frames, commits and rejects, what waits and who is stuck, and why, each queue", take_summary, told(summary)),
    "view": Command("a page to look into the run, for a browser: the layers, transactions, queues and actors from vsync to vsync", take_view, told(view)),
    "explain": Command("the fault of a script that is no scene: its line, the word, the cause, and what would be right there", take_explain, explain),
    "why": WHY,
    "diff": DIFF,
    "check": Command("whether the records mean what the scene of the script allows (docs/MEANING.md), fit one order and pass nobody over "
                     "(docs/RECORDS.md), by these two alone", take_check, check, NOT_CHECKED),
}


def main(given):
    try:
        return words.called_of(TOOL, __doc__, COMMANDS, given)
    except NoScene as fault:
        complain(fault)
        return words.WRONG
