"""The command `why`: answers a question about a run."""

import argparse
import json
import re

from surbeldoi.asking.answers import OWN, Answers
from surbeldoi.asking.reasons import Asked, NotTold
from surbeldoi.asking.telling import told
from surbeldoi.commands.words import STANDARD_INPUT, UNWRITTEN, Command, WrongWords, complain, contents, number, path, say
from surbeldoi.records.stream import faults, read
from surbeldoi.view.course import NoCourse

TOOL, WRONG_STREAM = "records.py", 1
MOST = (1 << 32) - 1
MORE = """\
With none of the four, it is told what vsync V changed, or the last one that changed something: from what to what, and by which
line. --since says since when, 0 being the beginning.

  records.py why --script scenes/glass.sf --pixel 3,4 out/glass/records.bin
  records.py why --script scenes/phone.sf --layer 6 --over 4 out/phone/records.bin
  records.py why --script scenes/held.sf --arrival 1 out/held/records.bin
  records.py why --script scenes/windows.sf --vsync 4 --since 3 out/windows/records.bin

status: 0 it is answered; 1 the run does not tell it, or something is wrong with the stream; 2 wrong words, or a file cannot be
read or written, or the script is no scene."""


def pair(pattern, example):
    """A word that is two numbers, as a type of words."""
    def taken(word):
        found = re.fullmatch(pattern, word, re.ASCII)
        if not found:
            raise argparse.ArgumentTypeError(f"{word} is not of the form {example}")
        return int(found[1]), int(found[2])
    return taken


def take(parser):
    parser.add_argument("--script", metavar="SCRIPT", required=True, help="the script of the run")
    asked = parser.add_mutually_exclusive_group()
    asked.add_argument("--pixel", metavar="X,Y", type=pair(r"([0-9]{1,5}),([0-9]{1,5})", "X,Y"),
                       help="why the pixel X from the left and Y from the top, from 0, has its colour: its value after each layer")
    asked.add_argument("--layer", metavar="L", type=number(1, MOST), help="why the layer shows as it does, or why not")
    asked.add_argument("--arrival", metavar="N", type=number(1, MOST), help="why the transaction that was applied as the Nth waits, and when that ends")
    asked.add_argument("--step", metavar="A.K", type=pair(r"([0-9]{1,5})\.([0-9]{1,5})", "A.K"), help="why step K of actor A waits or was refused")
    parser.add_argument("--vsync", metavar="V", type=number(0, MOST), help="after this vsync; the end, if it is not given")
    parser.add_argument("--since", metavar="V", type=number(0, MOST), help="what has changed since this vsync")
    parser.add_argument("--over", metavar="L", type=number(1, MOST), help="with --layer: why it is in front of this layer, or behind it")
    shown = parser.add_mutually_exclusive_group()
    shown.add_argument("--display", metavar="D", type=number(1, MOST), help="on this display; 1, the own one, if it is not given")
    shown.add_argument("--capture", metavar="C", type=number(1, MOST), help="on this capture")
    parser.add_argument("--json", action="store_true", help="the answer as JSON, for programs")
    parser.add_argument("file", metavar="FILE", nargs="?", type=path, default=STANDARD_INPUT, help="the records; standard input if it is not given, or is -")


def place_of(options):
    """What the question is of: the own display, another one or a capture."""
    if options.capture:
        return "CAPT", options.capture
    return ("FRAD", options.display) if options.display not in (None, 1) else OWN


def check_words(options):
    """Refuses options that mean nothing together."""
    if options.over and not options.layer:
        raise WrongWords("--over is asked with --layer")
    if options.since is not None and (options.pixel or options.layer or options.arrival or options.step):
        raise WrongWords("--since is asked with --vsync alone")


def answer_of(answers, options):
    """The answer to what is asked."""
    if options.pixel:
        return answers.pixel(*options.pixel, options.vsync, place_of(options))
    if options.layer:
        return answers.layer(options.layer, options.vsync, place_of(options), options.over)
    if options.arrival:
        return answers.arrival(options.arrival, options.vsync)
    if options.step:
        return answers.step(*options.step)
    return answers.vsync(options.vsync, options.since)


def answered(answer, is_json):
    """An answer as it is printed."""
    return [json.dumps(answer, indent=1)] if is_json else told(answer)


def why(options):
    """Answers a question; the status."""
    check_words(options)
    records, of_stream = read(contents(options.file))
    try:
        say(answered(answer_of(Answers(Asked(records, contents(options.script))), options), options.json))
    except (NotTold, NoCourse) as fault:
        of_stream = of_stream + [str(fault)]
    wrong = faults(records, of_stream)
    for line in wrong:
        complain(TOOL, line)
    return WRONG_STREAM if wrong else 0


WHY = Command("why a pixel has its colour, why a layer shows or not, why a transaction or a step waits, and what a vsync changed", take, why, UNWRITTEN, MORE)
