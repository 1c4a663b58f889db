"""The vsyncs of a run: when they are and what they saw, what they commit, what they give back, and what they show."""

from itertools import zip_longest

from surbeldoi.check.ordering import Refused
from surbeldoi.model.commits import Stage
from surbeldoi.model.outputs import Outputs, name_of
from surbeldoi.model.playing import buffer_row
from surbeldoi.model.transactions import hold_of
from surbeldoi.records.wording import HOLDS, named


class Pending:
    """The arrivals that are not committed, by token, in order."""

    def __init__(self, arrivals):
        self.arrivals, self.of_token = arrivals, {}
        for number, (token, _) in reversed(list(enumerate(arrivals, 1))):
            self.of_token.setdefault(token, []).append(number)

    def commit(self, record):
        """The transaction that a record commits, which has to be the first of its token."""
        token, arrival = record.fields["token"], record.fields["arrival"]
        left = self.of_token.get(token)
        if not left or left[-1] != arrival:
            due = f"arrival {left[-1]} is" if left else "none is"
            raise Refused("commits", record.text(), f"it commits arrival {arrival} of token {token}, of which {due} the first that is left")
        return self.arrivals[left.pop() - 1][1]


def released_by(scene, arrivals, vsyncs):
    """The frames that the vsyncs give back, by their queues: each with the vsync and whether it was read."""
    pending, stage, released = Pending(arrivals), Stage(scene.most_layers()), {}
    for vsync in vsyncs:
        number = vsync.record.fields["number"]
        stage.begin(number)
        for record in vsync.commits:
            result, operation, gone = stage.commit(pending.commit(record))
            check_result(record, result, operation)
            for frame, is_read in gone:
                released.setdefault(frame.queue, []).append((number, frame, is_read))
    return released


def check_result(record, result, operation):
    told = (record.fields["result"], record.fields["operation"])
    if told != (result, operation):
        raise Refused("commits", record.text(), f"it has result {told[0]} and operation {told[1]}, where the tree makes it {result} and {operation}")


class Vsyncs:
    """Checks the vsyncs of a run, one after another, with their commits and what they show."""

    def __init__(self, traces, arrivals):
        self.traces, self.scene, self.pending, self.stage = traces, traces.scene, Pending(arrivals), Stage(traces.scene.most_layers())
        self.arrivals, self.number, self.seen = arrivals, 0, {}
        self.outputs = Outputs(self.scene)

    def check(self, vsync):
        self.check_vsync(vsync)
        self.stage.begin(self.number)
        for at, record in enumerate(vsync.commits):
            self.check_commit(record, vsync.commits[at + 1:at + 2], vsync.record.fields["expected"])
        self.check_outputs(vsync)

    def check_vsync(self, vsync):
        fields, where = vsync.record.fields, vsync.record.text()
        if fields["number"] <= self.number:
            raise Refused("vsyncs", where, f"its number is {fields['number']}, behind vsync {self.number}")
        self.number = fields["number"]
        if fields["expected"] != self.number * self.scene.period:
            raise Refused("vsyncs", where, f"it is expected at {fields['expected']}, and vsync {self.number} at {self.number * self.scene.period}")
        if not vsync.commits:
            raise Refused("vsyncs", where, "it commits nothing, and has no record then")
        if [timeline for timeline, _ in fields["timelines"]] != self.scene.timelines:
            raise Refused("vsyncs", where, f"it saw other timelines than the scene's, {self.scene.timelines}")
        self.check_seen(where, dict(fields["timelines"]))

    def check_seen(self, where, seen):
        for timeline, value in seen.items():
            if value not in self.traces.signals.get(timeline, (0,)):
                raise Refused("vsyncs", where, f"it saw timeline {timeline} at {value}, which no step signals")
            if value < self.seen.get(timeline, 0):
                raise Refused("vsyncs", where, f"it saw timeline {timeline} at {value}, behind a vsync that saw it at {self.seen[timeline]}")
        self.seen = seen

    def hold(self, arrival, expected):
        return hold_of(self.arrivals[arrival - 1][1], self.traces.is_written, self.stage, self.seen, expected)

    def check_commit(self, record, following, expected):
        """A commit, and that the one behind it does not stand there though it could have come before."""
        held = self.hold(record.fields["arrival"], expected)
        if held:
            raise Refused("commits", record.text(), f"arrival {record.fields['arrival']} is held there: {hold_text(held)}")
        for later in following:
            if later.fields["token"] < record.fields["token"] and not self.hold(later.fields["arrival"], expected):
                raise Refused("commits", later.text(), f"nothing held token {later.fields['token']} at the place of token {record.fields['token']} before it")
        txn = self.pending.commit(record)
        self.check_buffers(record, txn)
        self.stage.commit(txn)

    def check_buffers(self, record, txn):
        told, due = record.fields["buffers"], [buffer_row(*buffer) for buffer in txn.buffers()]
        if [row[:3] for row in told] != [row[:3] for row in due]:
            raise Refused("commits", record.text(), f"it has layers, queues and frames {[row[:3] for row in told]}, and its transaction {[row[:3] for row in due]}")
        for row, wanted in zip(told, due):
            if row != wanted:
                raise Refused("buffers", record.text(), f"it shows picture {row[3]} with crop {row[4:]} as frame {row[2]} of queue {row[1]}, which was queued "
                              f"with picture {wanted[3]} and crop {wanted[4:]}")

    def check_outputs(self, vsync):
        """A vsync shows what is due, where it has not rejected all that it committed, and nothing else."""
        is_due = any(record.fields["result"] == 0 for record in vsync.commits)
        due = self.outputs.due(self.stage.tree, self.number) if is_due else ()
        for told, wanted in zip_longest(vsync.outputs, due):
            if told is None:
                raise Refused("frames", vsync.record.text(), f"its {name_of(*wanted)} is missing")
            if wanted is None:
                more = "it stands behind all that its vsync has to show" if is_due else "its vsync has rejected all that it committed, and shows nothing"
                raise Refused("frames", told.text(), more)
            self.check_output(told, *wanted)

    def check_output(self, told, tag, fields):
        """A record of what a vsync shows, where one of this tag with these fields is due."""
        if told.tag != tag or name_of(tag, told.fields) != name_of(tag, fields):
            raise Refused("frames", told.text(), f"it stands where {name_of(tag, fields)} is due")
        if tag != "HITS":
            self.check_pixels(told, fields["pixels"], *self.outputs.size_of(tag, fields))
        elif told.fields["layer"] != fields["layer"]:
            raise Refused("frames", told.text(), f"hit {fields['hit']} meets layer {told.fields['layer']}, where {fields['layer']} is in front")

    def check_pixels(self, image, due, width, height):
        told = image.fields["pixels"]
        if told == due:
            return
        told = bytes(told)
        if len(told) != len(due):
            raise Refused("frames", image.text(), f"it has {len(told)} bytes of pixels, where an image of {width} x {height} has {len(due)}")
        at = next(at for at in range(0, len(due), 4) if told[at:at + 4] != due[at:at + 4])
        raise Refused("frames", image.text(),
                      f"the pixel at {at // 4 % width} {at // 4 // width} is {told[at:at + 4].hex()}, where the layers make it {due[at:at + 4].hex()}")


def hold_text(hold):
    return f"{named(HOLDS, hold[0])} {hold[1]} {hold[2]}"
