"""Writes what one has to read to believe the headline, as one page, out/believed.html.

It follows the clauses of the public call `run` to every definition that they rest on.
"""

import os

from surbeldoi import TOP
from surbeldoi.build.believed import believed, count_text, counts_of, page
from surbeldoi.build.citing import Sources
from surbeldoi.build.definitions import Unread
from surbeldoi.build.rooms import BadMap
from surbeldoi.commands import words
from surbeldoi.commands.words import Command, WrongWords

PAGE = os.path.join("out", "believed.html")


def take(parser):
    parser.add_argument("--count", action="store_true", help="tells how many definitions and lines there are, and writes nothing")


def write_page():
    """Writes the page; where it is."""
    path = os.path.join(TOP, PAGE)
    told = page()
    os.makedirs(os.path.dirname(path), exist_ok=True)
    with open(path, "w", encoding="utf-8") as file:
        file.write(told)
    return PAGE


def count():
    sources = Sources()
    return count_text(counts_of(sources, believed(sources)))


def run(options):
    try:
        words.say([count() if options.count else write_page()])
    except (Unread, BadMap) as fault:
        raise WrongWords(fault) from fault
    return 0


def main(given):
    about, more = __doc__.strip().split("\n\n", 1)
    return words.called("believed.py", Command(about, take, run, more=more), given)
