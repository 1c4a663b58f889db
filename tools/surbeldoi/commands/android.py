"""Brings Android's own traces in and out (docs/ANDROID.md).

`scene` reads what was asked of SurfaceFlinger, as SurfaceInterceptor of Android 8 to 12 traces it, and writes a
scene of version 2. What has no form in a scene is told on standard error, with what was done in its place.
`layers` writes what each vsync of a run showed as a layers trace, which Winscope opens.

status: 0 it is written; 1 the reader of the output went away; 2 the trace, the script or the records are none,
words are wrong, or a file cannot be read or written.
"""

from surbeldoi.android.asked import scene_of
from surbeldoi.android.notes import TraceFault
from surbeldoi.android.shown import layers_trace
from surbeldoi.android.wire import WireFault
from surbeldoi.check.ordering import Refused
from surbeldoi.commands import words
from surbeldoi.commands.words import STANDARD_INPUT, Command, called_of, contents, number, path, say
from surbeldoi.records.stream import read
from surbeldoi.script.scenes import NoScene

TOOL = "android.py"
MOST_DIVISOR = 1 << 31
NONE = 2


def complain(text):
    words.complain(TOOL, text)


def take_trace(parser):
    parser.add_argument("trace", metavar="TRACE", nargs="?", type=path, default=STANDARD_INPUT, help="SurfaceTrace.dat; standard input if it is not given, or is -")
    parser.add_argument("--divide", type=number(1, MOST_DIVISOR), metavar="N", help="each place and size is divided by N; by the least number that fits if not given")


def take_records(parser):
    parser.add_argument("--script", required=True, metavar="SCRIPT", help="the script of the run")
    parser.add_argument("records", metavar="RECORDS", nargs="?", type=path, default=STANDARD_INPUT, help="its records; standard input if it is not given, or is -")


def scene(options):
    try:
        script, notes = scene_of(contents(options.trace), options.divide)
    except (WireFault, TraceFault) as fault:
        complain(f"no trace of SurfaceInterceptor: {fault}")
        return NONE
    say([script])
    for line in notes.lines():
        complain(line)
    return 0


def layers(options):
    try:
        trace = layers_trace(contents(options.script), read(contents(options.records))[0])
    except Refused as refused:
        complain(f"no records of a run of this scene: {refused}")
        return NONE
    except NoScene as fault:
        complain(fault)
        return NONE
    say([trace])
    return 0


COMMANDS = {"scene": Command("a trace of SurfaceInterceptor as a scene", take_trace, scene),
            "layers": Command("the records of a run as a layers trace", take_records, layers)}


def main(argv):
    return called_of(TOOL, __doc__, COMMANDS, argv)
