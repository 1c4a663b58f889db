"""Judges a compositor on a suite of scenes: the worked ones, and random ones that it can play (docs/JUDGING.md).

COMMAND is called for each scene, as judge.py calls it; by status 77 it says that it cannot play one. The table
counts, for each form that scenes use, how many do, and how many of these were right, wrong, or could not be said.
The first wrong scene of each form that is wrong because of it is made smaller as long as it stays wrong, and kept.

status: 0 nothing was wrong; 1 something was; 2 the command cannot be run, words are wrong, or a file cannot be
written.
"""

import multiprocessing
import os
from itertools import repeat

from surbeldoi import TOP
from surbeldoi.commands import words
from surbeldoi.commands.judge import check_command, split_words, take_ways
from surbeldoi.commands.words import WRONG as WRONG_WORDS, Command, called, number, say
from surbeldoi.fuzz.shrinking import shrunk
from surbeldoi.judging.suite import WRONG, Way, judged, random_results, random_scenes, reasons, rows, worked_scenes, wrong_by_form

TOOL = "conformance.py"
KEPT = os.path.join(TOP, "out", "conformance")
# How often a command is called at most to make a wrong scene smaller.
MOST_CALLS = 600
MOST = 1_000_000_000
HEAD = ("form", "scenes", "right", "wrong", "could not be said")


def takes(parser):
    parser.usage = "conformance.py [OPTION ..] -- COMMAND [WORD ..]"
    take_ways(parser)
    parser.add_argument("--random", type=number(0, MOST), default=100, metavar="N", help="how many random scenes that COMMAND can play; 100 if not given")
    parser.add_argument("--seed", type=number(0, MOST), default=1, metavar="S", help="the seed of the first random scene; 1 if not given")
    parser.add_argument("--jobs", type=number(1, 64), default=1, metavar="J", help="how many scenes are judged at once; 1 if not given")
    parser.add_argument("--shrink", type=number(0, MOST), default=10, metavar="N", help="how many wrong scenes are made smaller at most; 10 if not given")
    parser.add_argument("--keep", default=KEPT, metavar="FOLDER", help="where wrong scenes are kept, made smaller; out/conformance if not given")


def judge_one(asked):
    """Judges one scene; a process of its own does it."""
    way, (name, script) = asked
    return judged(way, name, script)


def tell(results):
    """Passes results on, and tells how far they are."""
    for number, result in enumerate(results, 1):
        if result.verdict == WRONG:
            words.complain(TOOL, f"{result.name} is wrong: {result.words.splitlines()[0]}")
        elif number % 100 == 0:
            words.complain(TOOL, f"{number} scenes")
        yield result


def results_of(way, options):
    """The results of the suite."""
    with multiprocessing.Pool(options.jobs) as pool:
        results = list(tell(pool.imap(judge_one, zip(repeat(way), worked_scenes()))))
        if options.random:
            scenes = random_scenes(options.seed)
            tried = (result for batch in batches(scenes, 4 * options.jobs) for result in pool.map(judge_one, zip(repeat(way), batch)))
            results += list(tell(random_results(tried, options.random)))
    return results


def batches(things, size):
    while True:
        yield [next(things) for _ in range(size)]


def table(told):
    """Rows as lines, in columns."""
    cells = [HEAD] + [tuple(map(str, row)) for row in told]
    widths = [max(len(row[at]) for row in cells) for at in range(len(HEAD))]
    for row in cells:
        yield "  ".join([row[0].ljust(widths[0])] + [cell.rjust(width) for cell, width in zip(row[1:], widths[1:])])


def is_wrong(way, script):
    return judged(way, "", script).verdict == WRONG


def file_name(form):
    return form.replace(" ", "-")


def keep(folder, name, script):
    os.makedirs(folder, exist_ok=True)
    path = os.path.join(folder, name + ".sf")
    with open(path, "wb") as file:
        file.write(script)
    return os.path.relpath(path)


class Smaller:
    """Makes wrong scenes smaller, each once, and so many at most."""

    def __init__(self, way, most):
        self.way, self.most, self.known = way, most, {}

    def of(self, result):
        """The script of a wrong scene made smaller with the forms that it uses, or None where it would be one too many."""
        if result.name not in self.known:
            if len(self.known) == self.most:
                return None
            script = shrunk(result.script, lambda script: is_wrong(self.way, script), MOST_CALLS)
            self.known[result.name] = script, judged(self.way, "", script).forms
        return self.known[result.name]


def blamed(smaller, form, results, folder):
    """Which of the wrong results of a form is the first that needs it, in a line; the scene is kept, made smaller."""
    for result in results:
        found = smaller.of(result)
        if found is None:
            return f"{form}: {result.name} (no more than {smaller.most} scenes are made smaller)"
        if form in found[1]:
            return f"{form}: {result.name}, smaller in {keep(folder, file_name(form), found[0])}"
    return f"{form}: none is wrong because of it; {results[0].name} is wrong without it"


def conformance(options, command):
    check_command(command)
    way = Way(command, options.commits, options.raw, options.tolerance, options.seconds)
    results = results_of(way, options)
    say(table(rows(results)))
    say(f"could not be said: {reason} ({count})" for reason, count in reasons(results))
    smaller = Smaller(way, options.shrink)
    for form, those in wrong_by_form(results).items():
        say([blamed(smaller, form, those, options.keep)])
    return int(any(result.verdict == WRONG for result in results))


def main(argv):
    own, command = split_words(argv)
    about, _, status = __doc__.partition("\n\nstatus: ")
    return called(TOOL, Command(about.strip(), takes, lambda options: conformance(options, command), WRONG_WORDS, f"status: {status.strip()}"), own)
