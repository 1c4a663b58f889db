"""Judges what another compositor shows of a scene: its frames, its commits or all of its records (docs/JUDGING.md).

COMMAND gets the scene on its standard input and writes what it shows on its standard output: records
(docs/RECORDS.md; peers/records.h writes them in C), or with --raw bare pixels. How much is judged goes by what
is there: SCEN, frames and DONE are judged as frames alone; with VSYN and COMM records the commits are judged too;
and where there are replies and histories, all that the records mean.

status: 0 right; 1 wrong; 2 not judged: the script is no scene, the command cannot be run, words are wrong, or a
file cannot be read or written; 3 the command says, by status 77, that it cannot play this scene.
"""

import argparse
import os

from surbeldoi import TOP
from surbeldoi.commands import words
from surbeldoi.commands.words import Command, WrongWords, called, contents, number, say
from surbeldoi.judging.given import commits_text
from surbeldoi.judging.judging import Wrong, WrongImage, judge_raw, judge_records
from surbeldoi.judging.peer import CannotSay, PeerFault, frames_of
from surbeldoi.judging.played import Played
from surbeldoi.script.scenes import NoScene, read_scene

TOOL = "judge.py"
RIGHT, WRONG, NOT_JUDGED, NOT_SAID = range(4)
MOST_SECONDS = 1_000_000


def seconds(word):
    try:
        taken = float(word)
    except ValueError:
        taken = 0
    if not 0 < taken <= MOST_SECONDS:
        raise argparse.ArgumentTypeError(f"{word} is no time in seconds")
    return taken


def take_ways(parser):
    """The options that say how a compositor is called and judged."""
    parser.add_argument("--raw", action="store_true",
                        help="COMMAND writes bare pixels, four bytes each, red, green, blue and alpha: for each vsync that shows something the frame of "
                             "the own display, then those of further displays by rising number")
    parser.add_argument("--commits", action="store_true", help="COMMAND gets what each vsync commits, in place of the script")
    parser.add_argument("--tolerance", type=number(0, 255), default=0, metavar="N", help="each channel of a pixel may differ by N, 0 to 255")
    parser.add_argument("--seconds", type=seconds, default=60, metavar="S", help="how long COMMAND may take for a scene; 60 if not given")


def takes(parser):
    parser.usage = "judge.py [OPTION ..] SCENE -- COMMAND [WORD ..]"
    parser.add_argument("scene", metavar="SCENE", help="a script of a scene")
    take_ways(parser)
    parser.add_argument("--pictures", metavar="FOLDER", help="where came.png, due.png and difference.png go if a frame is wrong; out/judged/NAME for "
                                                              "NAME.sf if not given")


def split_words(argv):
    """The words of a tool, and behind `--` the command that is judged."""
    at = argv.index("--") if "--" in argv else len(argv)
    return argv[:at], argv[at + 1:]


def check_command(command):
    if not command:
        raise WrongWords("behind `--` has to stand the command that is judged")


def verdict_on(script, command, options):
    """The verdict on what a command shows of a script. Raises NoScene, OSError, CannotSay, PeerFault and Wrong."""
    played = Played(read_scene(script))
    given = commits_text(played) if options.commits else script
    data = frames_of(command, given, options.seconds)
    return (judge_raw if options.raw else judge_records)(played, data, options.tolerance)


def folder_of(options):
    return options.pictures or os.path.join(TOP, "out", "judged", os.path.splitext(os.path.basename(options.scene))[0])


def judge(options, command):
    """Judges one scene, and says the verdict."""
    check_command(command)
    script = contents(options.scene)
    try:
        say([verdict_on(script, command, options).text()])
        return RIGHT
    except NoScene as fault:
        words.complain(TOOL, fault)
        return NOT_JUDGED
    except CannotSay as reason:
        say([f"not said: {reason}"])
        return NOT_SAID
    except WrongImage as wrong:
        pictures = map(os.path.relpath, wrong.write_pictures(folder_of(options)))
        say([f"wrong: {wrong}", "pictures: " + ", ".join(pictures)])
    except (Wrong, PeerFault) as wrong:
        say([f"wrong: {wrong}"])
    return WRONG


def main(argv):
    own, command = split_words(argv)
    about, _, status = __doc__.partition("\n\nstatus: ")
    return called(TOOL, Command(about.strip(), takes, lambda options: judge(options, command), NOT_JUDGED, f"status: {status.strip()}"), own)
