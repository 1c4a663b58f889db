"""What a run comes to: its frames and commits, what was refused and why, what is left, and each queue.

With the script at hand, each step is named by its line and its words, and why one was refused or waits is told by what the
steps before have made.
"""

import textwrap
from collections import Counter
from functools import cached_property

from surbeldoi.model.arrivals import Misfit
from surbeldoi.model.runs import Followed, of
from surbeldoi.records.stream import place_of, place_text
from surbeldoi.records.wording import CALLS, HOLDS, REFUSALS, REJECTIONS, REJECTS, STATUSES, layer_text, listed, named, summary_sentence
from surbeldoi.script.scenes import NoScene, read_scene
from surbeldoi.script.scripts import read_script

# How many refused steps, how many rejects, and how many changes of a hit, are told one by one; and how long a line of counts may be.
MOST_TOLD, WIDTH = 10, 110
QUEUE, ACQUIRE, RELEASE = 7, 13, 14


def counted(names):
    """Names with how often each occurs, the most frequent first."""
    return listed(f"{count} {name}" for name, count in Counter(names).most_common())


def plural(count, thing):
    return f"{count} {thing}" if count == 1 else f"{count} {thing}s"


class Run:
    """What the records of a run tell together, its script where there is one, and the run that is followed by it."""

    def __init__(self, records, script=None, followed=None):
        self.script, self.followed = script, followed
        self.replies, self.commits = of(records, "REPL"), of(records, "COMM")
        self.arrivals = dict(enumerate((row for record in of(records, "ARRV") for row in record["arrivals"]), 1))
        self.held = [row for record in of(records, "HOLD") for row in record["held"]]
        self.stuck = [row for record in of(records, "STUK") for row in record["stuck"]]
        self.histories = {history["queue"]: history["calls"] for history in of(records, "HIST")}

    def check_steps(self):
        """The script has each step that the records name. Raises Misfit where it has not."""
        steps = [(reply["actor"], reply["step"]) for reply in self.replies] + self.stuck + [row[:2] for row in self.arrivals.values()]
        unknown = next((step for step in steps if not self.script.step(*step)), None)
        if unknown:
            raise Misfit(f"it has no step {unknown[1]} of actor {unknown[0]}")

    @cached_property
    def reached(self):
        """How far each timeline is, by the run that is followed."""
        return Counter(self.followed.reader.values if self.followed else ())

    @cached_property
    def queued(self):
        """Who queued each frame of each queue, as actor and step."""
        return {(queue, frame): (caller, step) for queue, calls in self.histories.items()
                for caller, step, kind, status, _, frame in calls if kind == QUEUE and status == 0}

    @cached_property
    def shown(self):
        """The greatest frame that each layer was given in a commit that was not rejected."""
        shown = {}
        for commit in self.commits:
            for layer, _, frame, *_ in commit["buffers"] if commit["result"] == 0 else []:
                shown[layer] = max(frame, shown.get(layer, 0))
        return shown

    @cached_property
    def first_held(self):
        """The first arrival of each token that waits."""
        first = {}
        for arrival, *_ in self.held:
            first.setdefault(self.token(arrival), arrival)
        return first

    def token(self, arrival):
        return self.arrivals[arrival][2] if arrival in self.arrivals else None

    def step_text(self, actor, step):
        """A step, with its line and its words where the script is known."""
        return self.script.step_text(actor, step) if self.script else f"actor {actor} step {step}"

    def arrival_text(self, arrival):
        if self.token(arrival) is None:
            return f"arrival {arrival}"
        actor, step, token = self.arrivals[arrival]
        return f"arrival {arrival} of token {token}, {self.step_text(actor, step)}"

    def point_text(self, timeline, value):
        """What is wanted of a timeline, and how far it is where the script is known."""
        return f"timeline {timeline} has not reached {value}" + (f", it is at {self.reached[timeline]}" if self.script else "")


def more_lines(count):
    """That there are more than are told."""
    return [f"  and {count - MOST_TOLD} more"] if count > MOST_TOLD else []


def refusal_text(run, actor, step, status):
    """Why a step was refused."""
    why = run.followed.why_refused(actor, step) if run.followed else None
    return named(STATUSES, status) + (f": {why or REFUSALS[status]}" if why or status in REFUSALS else "")


def reply_lines(run):
    refused = [(reply["actor"], reply["step"], reply["status"]) for reply in run.replies if reply["status"]]
    yield f"{plural(len(run.replies), 'step')} answered, {len(refused)} of them refused" + (
        f" ({counted(named(STATUSES, status) for _, _, status in refused)})" if refused else "")
    for actor, step, status in refused[:MOST_TOLD]:
        yield f"  refused: {run.step_text(actor, step)}: {refusal_text(run, actor, step, status)}"
    yield from more_lines(len(refused))


def operation_text(run, arrival, place):
    """An operation of a transaction, with its line where that is known."""
    by = run.followed.operation_step(arrival, place) if run.followed else None
    step = run.script.step(*by) if by else None
    return f"operation {place}" + (f" (line {step.line}: {step.text()})" if step else "")


def commit_lines(run):
    rejects = [commit for commit in run.commits if commit["result"]]
    causes = counted(named(REJECTS, commit["result"]) for commit in rejects)
    yield f"{plural(len(run.commits), 'commit')}, {len(rejects)} of them rejected" + (f" ({causes})" if rejects else "")
    for commit in rejects[:MOST_TOLD]:
        meaning, arrival = REJECTIONS.get(commit["result"], f"cause {commit['result']}"), commit["arrival"]
        yield f"  rejected: {run.arrival_text(arrival)}: at {operation_text(run, arrival, commit['operation'])}, {meaning}"
    yield from more_lines(len(rejects))


def behind(run, arrival, *_):
    """The earlier transaction of the same token that an arrival waits behind."""
    first = run.first_held[run.token(arrival)]
    return f"it is behind arrival {first} of its token" if first < arrival else "it is behind an earlier one of its token"


def undrawn(run, _, queue, frame):
    """The frame that is not drawn yet, and who queued it."""
    by = run.queued.get((queue, frame))
    return f"queue {queue} frame {frame} is not drawn" + (f"; {run.step_text(*by)} queued it" if by else "")


def barred(run, _, layer, frame):
    """The frame that a layer has not shown yet, and the greatest one that it has."""
    return f"layer {layer} has not shown frame {frame}, " + (f"but frame {run.shown[layer]}" if layer in run.shown else "nor any other")


# What each reason says of a transaction that waits, with its arrival and the two values of its entry.
REASONS = {
    "Behind": behind,
    "Time": lambda run, _, a, b: f"it is desired for {a} ns",
    "Fence": lambda run, _, a, b: run.point_text(a, b),
    "Undrawn": undrawn,
    "Barrier": barred,
    "Pressure": lambda run, _, a, b: f"layer {a} got a frame in this vsync already",
}


def held_lines(run):
    for arrival, hold, a, b in run.held:
        name = HOLDS.get(hold)
        reason = REASONS[name](run, arrival, a, b) if name else f"reason {hold}, values {a} and {b}"
        yield f"held: {run.arrival_text(arrival)}: {reason}"


def stuck_lines(run):
    for actor, number in run.stuck:
        left = len(run.script.steps.get(actor, [])) - number if run.script else 0
        more = f"; {plural(left, 'step')} behind it" if left > 0 else ""
        why = run.followed.waiting.why_at(actor, number) if run.followed else ""
        yield f"stuck: {run.step_text(actor, number)} waits" + (f": {why}" if why else "") + more


def wrapped(text):
    """A line of counts, in as many lines as it needs."""
    return textwrap.wrap(text, WIDTH, initial_indent="  ", subsequent_indent="    ", break_on_hyphens=False)


def queue_lines(queue, calls, fault):
    done = [kind for _, _, kind, status, _, _ in calls if status == 0]
    acquired = {frame for _, _, kind, status, _, frame in calls if kind == ACQUIRE and status == 0}
    queued = [frame for _, _, kind, status, _, frame in calls if kind == QUEUE and status == 0]
    refused = [f"{named(CALLS, kind)} {named(STATUSES, status)}" for _, _, kind, status, _, _ in calls if status]
    missed = sum(frame not in acquired for frame in queued)
    yield (f"queue {queue}: {plural(len(calls), 'call')}, {len(refused)} of them refused; {plural(len(queued), 'frame')} queued, {done.count(ACQUIRE)} acquired, "
           f"{done.count(RELEASE)} released" + (f", {missed} never acquired" if missed else ""))
    if done:
        yield from wrapped(f"done: {counted(named(CALLS, kind) for kind in done)}")
    if refused:
        yield from wrapped(f"refused: {counted(refused)}")
    if fault:
        yield f"  what its slots were is not known from there on: {fault}"


def further_lines(records):
    """How many frames further displays have, and captures."""
    counts = Counter(place_of(record.tag, record.fields) for record in records if record.tag in ("FRAD", "CAPT") and record.fields is not None)
    for place, count in counts.items():
        yield f"{place_text(place)}: {plural(count, 'frame')}"


def hit_lines(hits):
    """Which layer each hit meets from which vsync on."""
    changes = {}
    for hit in hits:
        of_hit = changes.setdefault(hit["hit"], [])
        if not of_hit or of_hit[-1][0] != hit["layer"]:
            of_hit.append((hit["layer"], hit["number"]))
    for number, of_hit in changes.items():
        more = f", and {len(of_hit) - MOST_TOLD} changes more" if len(of_hit) > MOST_TOLD else ""
        yield f"hit {number}: " + ", ".join(f"{layer_text(layer)} from vsync {vsync}" for layer, vsync in of_hit[:MOST_TOLD]) + more


def fault_text(fault):
    return f"no scene: fault at line {fault['line']}, word {fault['word']}" if fault["line"] else "no scene"


def frame_lines(records):
    """The display of a run and how many frames came."""
    scenes, vsyncs, frames = of(records, "SCEN"), of(records, "VSYN"), of(records, "FRAM")
    for scene in scenes:
        yield f"display {scene['width']} x {scene['height']}, a vsync each {scene['period']} ns"
    if vsyncs:
        yield f"{plural(len(frames), 'frame')} at {plural(len(vsyncs), 'vsync')} with commits, the last of them vsync {vsyncs[-1]['number']}"
    if scenes and not frames:
        yield "no frame was shown"


def run_of(records, script):
    """What the records tell together, by the script where it is theirs, and the lines that say where it is not."""
    if script is None:
        return Run(records), []
    try:
        scene, run = read_scene(script), Run(records, read_script(script))
        run.check_steps()
        run.followed = Followed(records, run.script, scene)
        return run, []
    except (NoScene, Misfit) as fault:
        return Run(records), [f"the script is not the one of these records ({fault}): what follows is told without it"]


def summed(records, script=None):
    """The lines that tell what a stream comes to; with the script, if it is known."""
    yield from map(fault_text, of(records, "SFLT"))
    yield from map(summary_sentence, of(records, "SUMM"))
    yield from frame_lines(records)
    yield from further_lines(records)
    yield from hit_lines(of(records, "HITS"))
    run, notes = run_of(records, script)
    yield from notes
    if run.replies:
        yield from reply_lines(run)
    if run.commits:
        yield from commit_lines(run)
    yield from held_lines(run)
    yield from stuck_lines(run)
    for queue, calls in run.histories.items():
        yield from queue_lines(queue, calls, run.followed.runs[queue].fault if run.followed else None)
