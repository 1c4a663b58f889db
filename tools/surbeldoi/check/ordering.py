"""The records of a run in their order, and what refuses them."""

from typing import NamedTuple

from surbeldoi.records.stream import OUTPUTS


class Refused(Exception):
    """The records do not mean what their scene allows: the part that does not hold, the place in the stream, and why."""

    def __init__(self, part, where, why):
        super().__init__(f"{part}: {where}: {why}")
        self.part, self.where, self.why = part, where, why


class Numbered(NamedTuple):
    """A record with its place in the stream, from 1."""

    place: int
    tag: str
    fields: dict
    faults: list

    def text(self):
        return f"record {self.place}, {self.tag}"


class Vsync(NamedTuple):
    """The records of a vsync: its own, those of its commits, and those of what it shows."""

    record: Numbered
    commits: list
    outputs: list


class Shown:
    """The records of a run, by what they show."""

    def __init__(self):
        self.replies, self.vsyncs, self.histories = [], [], []
        self.arrivals = self.held = self.stuck = None


def check_opening(opening, scene):
    """The first record has what the first line of the script has."""
    expected = {"version": scene.version, "width": scene.width, "height": scene.height, "period": scene.period}
    if opening.fields != expected:
        raise Refused("order", opening.text(), f"it says {list(opening.fields.values())}, and the script {list(expected.values())}")


class Ordered:
    """Takes the records of a stream one after another. Each has to be whole and of its form."""

    def __init__(self, records):
        self.records, self.at = [Numbered(place, record.tag, record.fields, record.faults) for place, record in enumerate(records, 1)], 0

    def tag(self):
        return self.records[self.at].tag if self.at < len(self.records) else "the end"

    def wrong(self, wanted):
        where = self.records[self.at].text() if self.at < len(self.records) else "the end of the stream"
        return Refused("order", where, f"{wanted} has to stand here")

    def take(self, tag):
        if self.tag() != tag:
            raise self.wrong(tag)
        record = self.records[self.at]
        if record.faults:
            raise Refused("order", record.text(), record.faults[0])
        self.at += 1
        return record

    def take_all(self, *tags):
        taken = []
        while self.tag() in tags:
            taken.append(self.take(self.tag()))
        return taken

    def vsync(self):
        vsync = Vsync(self.take("VSYN"), self.take_all("COMM"), self.take_all(*OUTPUTS))
        number = vsync.record.fields["number"]
        for output in vsync.outputs:
            if output.fields["number"] != number:
                raise Refused("order", output.text(), f"it is of vsync {output.fields['number']}, and stands behind VSYN {number}")
        return vsync

    def end(self):
        """The records end with DONE."""
        self.take("DONE")
        if self.at < len(self.records):
            raise Refused("order", self.records[self.at].text(), "it stands behind the end of the run")

    def shown(self, scene):
        """What all records show, in the order that a run of this scene has."""
        shown = Shown()
        check_opening(self.take("SCEN"), scene)
        while self.tag() in ("REPL", "VSYN"):
            if self.tag() == "REPL":
                shown.replies.append(self.take("REPL"))
            else:
                shown.vsyncs.append(self.vsync())
        if self.tag() != "ARRV":
            raise self.wrong("REPL, VSYN or ARRV")
        shown.arrivals = self.take("ARRV")
        shown.histories = self.take_all("HIST")
        shown.held, shown.stuck = self.take("HOLD"), self.take("STUK")
        self.end()
        return shown


def early_reply(shown):
    """The first reply that does not stand behind the last vsync, by actor and step, or None."""
    last = shown.vsyncs[-1].record.place if shown.vsyncs else 0
    before = (0, 0)
    for reply in shown.replies:
        at = (reply.fields["actor"], reply.fields["step"])
        if reply.place < last or at <= before:
            return reply
        before = at
    return None
