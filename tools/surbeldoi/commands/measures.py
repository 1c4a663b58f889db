"""Tells how the code of the crates reads, in numbers: functions with many parameters, long clauses, frames.

A test keeps each of these numbers from rising.
"""

from surbeldoi.build.measures import lines_of, sources
from surbeldoi.commands import words
from surbeldoi.commands.words import Command


def take(parser):
    parser.add_argument("--worst", metavar="N", type=words.number(0, 9999), default=10, help="how many of the worst of each kind to tell; 10 if it is not given")


def run(options):
    words.say(lines_of(list(sources()), options.worst))
    return 0


def main(given):
    about, more = __doc__.strip().split("\n\n", 1)
    return words.called("measures.py", Command(about, take, run, more=more), given)
