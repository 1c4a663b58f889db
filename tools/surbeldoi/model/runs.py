"""A run followed by its script and its records: its steps, its commits and its queues."""

from surbeldoi.model.arrivals import Misfit, Reader
from surbeldoi.model.commits import Stage
from surbeldoi.model.slots import QueueRun
from surbeldoi.model.waits import Waiting, makers_of


def of(records, tag):
    """The fields of the records with a tag."""
    return [record.fields for record in records if record.tag == tag and record.fields is not None]


def histories_in(records):
    """The calls of each queue, where the records have them."""
    return {history["queue"]: history["calls"] for history in of(records, "HIST")}


def arrivals_in(records):
    """The actor, the step and the token of each transaction that arrived, where the records have them."""
    return [row for record in of(records, "ARRV") for row in record["arrivals"]]


def reader_of(records, script, scene):
    """What follows the replies to the steps of a scene."""
    opening = next(iter(of(records, "SCEN")), None)
    wanted = {"version": scene.version, "width": scene.width, "height": scene.height, "period": scene.period}
    if opening is not None and opening != wanted:
        raise Misfit(f"SCEN says {list(opening.values())}, and the script {list(wanted.values())}")
    return Reader(script, scene, histories_in(records), arrivals_in(records))


def runs_of(records, reader):
    """The queues of a run, to be followed through their histories."""
    sizes = reader.scene.queues
    unknown = [number for number in histories_in(records) if number not in sizes]
    if unknown:
        raise Misfit(f"there is no queue {unknown[0]}")
    return {number: QueueRun(number, sizes[number], calls, reader) for number, calls in histories_in(records).items()}


class Commits:
    """The commits of a run, done on the tree of its layers as far as they fit it: `fault` says what did not, and nothing more is done then.
    The frames that go back are told to the queues."""

    def __init__(self, scene, runs):
        self.stage, self.runs, self.fault = Stage(scene.most_layers()), runs, None

    def begin(self, vsync):
        self.stage.begin(vsync)

    def take(self, arrival, fields):
        """A commit, by its record and its arrival, where that is known."""
        if self.fault is None and arrival is None and not fields["result"]:
            self.fault = f"the records do not tell the operations of arrival {fields['arrival']}"
        if self.fault is None and arrival is not None:
            self.commit(arrival, fields)

    def commit(self, arrival, fields):
        buffers = arrival.txn.buffers()
        if fields["result"]:
            self.give_back([(frame, False) for _, frame in buffers])
            return
        if len(fields["buffers"]) != len(buffers):
            self.fault = f"the record of arrival {arrival.number} has {len(fields['buffers'])} frames, and its transaction {len(buffers)}"
            return
        for (_, frame), (_, _, _, picture, *crop) in zip(buffers, fields["buffers"]):
            frame.picture, frame.crop = picture, tuple(crop)
        cause, place, gone = self.stage.commit(arrival.txn)
        if cause:
            self.fault = f"the operations of arrival {arrival.number} do not fit the layers that are there, from operation {place} on"
        else:
            self.give_back(gone)

    def give_back(self, gone):
        for frame, is_read in gone:
            if frame.queue in self.runs:
                self.runs[frame.queue].release(frame, is_read)


class Followed:
    """A run that is followed to its end. Raises Misfit where its records are none of its script."""

    def __init__(self, records, script, scene):
        self.script, self.reader = script, reader_of(records, script, scene)
        self.runs = runs_of(records, self.reader)
        self.commits = Commits(scene, self.runs)
        self.follow([record for record in records if record.fields is not None])
        for run in self.runs.values():
            run.follow()
        self.waiting = Waiting(self.reader, makers_of(self.reader.attachings), {number: run.queue for number, run in self.runs.items()})

    def follow(self, records):
        late = []
        for record in records:
            if record.tag == "REPL":
                self.reader.read(*(record.fields[name] for name in ("actor", "step", "status")), [value for value, in record.fields["values"]], 0)
            elif record.tag in ("VSYN", "COMM"):
                late.append(record)
        for record in late:
            if record.tag == "VSYN":
                self.commits.begin(record.fields["number"])
            else:
                self.commits.take(self.reader.arrivals.get(record.fields["arrival"]), record.fields)

    def why_refused(self, actor, step):
        """Why a step was refused, or None where it is not told."""
        refusal = self.reader.refusals.get((actor, step))
        if refusal is None or refusal.why:
            return refusal.why if refusal else None
        return next((run.reasons[actor, step] for run in self.runs.values() if run.reasons.get((actor, step))), None)

    def operation_step(self, arrival, place):
        """The actor and the step that made an operation of an arrival, by its place from 1; None where that is not known."""
        found = self.reader.arrivals.get(arrival)
        return found.operations[place - 1][3:] if found and 0 < place <= len(found.operations) else None
