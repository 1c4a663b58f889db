"""Says what a change of a crate's code, contracts or definitions makes necessary.

It lists the crates above, which are proved anew, with the processor seconds of their proofs and must-fail edits by the table of
docs/GATE.md; the wrong bodies that are to be tried again; and the pages that name the crate.
"""

import glob
import os
import re

from surbeldoi import TOP
from surbeldoi.build.rooms import BadMap, lists_of, read_rooms
from surbeldoi.commands import edits, words
from surbeldoi.commands.words import Command, WrongWords

GATE = os.path.join(TOP, "docs", "GATE.md")
ROW = re.compile(r"^\| ([a-z_0-9]+) \| (\d+) \| (\d+) \|$", re.M)


def take(parser):
    parser.add_argument("crate", help="its name in crates.txt")


def above(name, lists):
    """The crates that stand on a crate, directly or not, from the bottom up; `lists` goes from the bottom up."""
    found = [name]
    for crate, libraries in lists.items():
        if any(library in found for library in libraries):
            found.append(crate)
    return found[1:]


def seconds_of(page):
    """What the proof and the edits of each crate take, in processor seconds, by the table of a page."""
    return {name: (int(proof), int(tried)) for name, proof, tried in ROW.findall(page)}


def pages_with(name):
    """The pages that name a crate."""
    pages = [*sorted(glob.glob(os.path.join(TOP, "*.md"))), *sorted(glob.glob(os.path.join(TOP, "docs", "**", "*.md"), recursive=True))]
    return [os.path.relpath(page, TOP) for page in pages if re.search(rf"\b{name}\b", edits.read(page))]


def cost(names, seconds):
    """What these crates take together."""
    total = sum(sum(seconds.get(name, (0, 0))) for name in names)
    return f"{total} processor seconds" if total < 120 else f"{total / 60:.0f} processor minutes"


def cost_of(crate, seconds):
    """What a crate takes."""
    if crate not in seconds:
        return "not measured"
    proof, tried = seconds[crate]
    return f"{proof} s" + (f", and {tried} s for its must-fail edits" if tried else "")


def lines_of(name, lists, seconds):
    higher = above(name, lists)
    yield f"{name}: {cost([name], seconds)} to prove, and {len(higher)} crates above it, {cost(higher, seconds)}"
    yield from (f"  {crate}: {cost_of(crate, seconds)}" for crate in higher)
    yield f"wrong bodies to try again: {len(edits.edits_of(name))} (tools/edits.py {name})"
    yield f"pages that name it: {', '.join(pages_with(name)) or 'none'}"


def run(options):
    try:
        lists = lists_of(read_rooms())
    except BadMap as fault:
        raise WrongWords(fault) from fault
    if options.crate not in lists:
        raise WrongWords(f"crates.txt lists no crate {options.crate}")
    words.say(lines_of(options.crate, lists, seconds_of(edits.read(GATE))))
    return 0


def main(given):
    about, more = __doc__.strip().split("\n\n", 1)
    return words.called("above.py", Command(about, take, run, more=more), given)
