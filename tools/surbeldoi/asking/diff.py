"""The command `diff`: what two runs of one script have that is different."""

import json
from collections import Counter
from itertools import zip_longest

from surbeldoi.asking.differences import Compared, Difference
from surbeldoi.asking.reasons import NotTold
from surbeldoi.commands.words import WRONG, Command, complain, contents, path, say
from surbeldoi.records.stream import faults, read
from surbeldoi.records.wording import listed, sentence
from surbeldoi.view.course import Course, NoCourse

TOOL, DIFFERENT = "records.py", 1
MOST_TOLD = 12
MORE = """\
The runs may be plays or live runs, of one program or of two. It is told first what differs first, and then what differs behind it:
steps, calls on queues, what became of transactions, and frames. Frames are compared where the same transactions are committed.
Where one of the runs does not fit its script, they are compared record by record.

  records.py diff play.bin live.bin --script scenes/camera.sf

status: 0 nothing differs; 1 something does; 2 it can not be told: words are wrong, a file cannot be read or written, a stream is
not whole, or the script is no scene or not that of both."""
THINGS = {"step": "steps", "call": "queues with calls in another order", "transaction": "transactions", "frame": "images", "record": "records"}


def take(parser):
    parser.add_argument("left", metavar="RUN", type=path, help="the records of a run")
    parser.add_argument("right", metavar="RUN", type=path, help="those of another run")
    parser.add_argument("--script", metavar="SCRIPT", required=True, help="the script of both runs")
    parser.add_argument("--json", action="store_true", help="the answer as JSON, for programs")


def difference_lines(difference):
    yield difference.where
    yield f"  left:  {difference.left}"
    yield f"  right: {difference.right}"
    if difference.more:
        yield f"  {difference.more}"


def lines_of(differences):
    """The lines that tell what differs."""
    if not differences:
        yield "nothing differs"
        return
    yield "first: " + next(difference_lines(differences[0]))
    yield from list(difference_lines(differences[0]))[1:]
    behind = differences[1:]
    if behind:
        counts = Counter(one.kind for one in behind)
        yield "behind it: " + listed(f"{counts[kind]} {things}" for kind, things in THINGS.items() if counts[kind])
    for difference in behind[:MOST_TOLD]:
        yield from ("  " + line for line in difference_lines(difference))
    if len(behind) > MOST_TOLD:
        yield f"  and {len(behind) - MOST_TOLD} more, which --json tells"


def data_of(differences):
    """What differs, as JSON has it."""
    return {"same": not differences, "first": differences[0]._asdict() if differences else None, "then": [one._asdict() for one in differences[1:]]}


def fits(records, script):
    """Whether a run can be followed by a script."""
    try:
        Course(records, script)
    except NoCourse:
        return False
    return True


def told(record):
    """What a record says, without its tag; of none that there is none."""
    return sentence(record)[len(record.tag) + 1:] if record else "no record"


def record_differences(runs, fault):
    """What differs record by record, where one of the runs can not be followed by the script."""
    more = str(fault)
    for place, (left, right) in enumerate(zip_longest(*runs), 1):
        if left is None or right is None or left.raw != right.raw:
            tags = [record.tag for record in (left, right) if record]
            yield Difference("record", f"record {place}, {' or '.join(dict.fromkeys(tags))}", told(left), told(right), more)
            more = ""


def differences_of(runs, script):
    """What two runs have that is different."""
    try:
        return list(Compared(*runs, script).all())
    except NoCourse as fault:
        if not any(fits(records, script) for records in runs):
            raise
        return list(record_differences(runs, fault))


def run_of(name):
    """The records of a run, or None where something is wrong with the stream, which is told."""
    records, of_stream = read(contents(name))
    wrong = faults(records, of_stream)
    for line in wrong:
        complain(TOOL, f"{name}: {line}")
    return None if wrong else records


def diff(options):
    """Tells what two runs have that is different; the status."""
    runs = [run_of(name) for name in (options.left, options.right)]
    if None in runs:
        return WRONG
    try:
        differences = differences_of(runs, contents(options.script))
    except (NotTold, NoCourse) as fault:
        complain(TOOL, fault)
        return WRONG
    say([json.dumps(data_of(differences), indent=1)] if options.json else lines_of(differences))
    return DIFFERENT if differences else 0


DIFF = Command("what two runs of one script have that is different: the first thing, and what it led to", take, diff, WRONG, MORE)
