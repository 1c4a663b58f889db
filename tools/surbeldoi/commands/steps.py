"""Tells what the proofs of crates took, in the checker's own steps: they are the same however busy the machine is."""

import os

from surbeldoi import TOP
from surbeldoi.build.steps import declarations_of, lines_of
from surbeldoi.commands import words
from surbeldoi.commands.words import WRONG, Command, say

TOOL = "steps.py"
MORE = """\
It reads the records that `rt check` keeps in a crate's out/incremental. They have the steps of an earlier text as well: to count one
text, remove that folder first, and check with one job. A million steps take 0.3 to 0.5 seconds of a quiet processor.

The kinds of modules that take most: Proof has the goals without an answer, Answers those with one. Layout and Tie are what a function
pays for the types that it touches, whatever it does.

status: 0 all is told; 2 wrong words, or a crate is unknown or has no records."""


def take(parser):
    parser.add_argument("crates", metavar="CRATE", nargs="+", help="a crate that was checked")
    parser.add_argument("--worst", metavar="N", type=words.number(0, 9999), default=10, help="how many of the dearest to tell; 10 if it is not given")


def missing(crate):
    """Why nothing can be told of a crate."""
    if not os.path.isdir(os.path.join(TOP, "crates", crate)):
        return f"there is no crate {crate}"
    return f"{crate} has no records: run `rt check` in crates/{crate} first"


def run(options):
    found = [(crate, declarations_of(crate, TOP)) for crate in options.crates]
    for crate in (crate for crate, declarations in found if not declarations):
        words.complain(TOOL, missing(crate))
        return WRONG
    for crate, declarations in found:
        say([*lines_of(crate, declarations, options.worst), ""])
    return 0


def main(given):
    return words.called(TOOL, Command(__doc__.strip(), take, run, more=MORE), given)
