"""What the play of a scene shows, vsync by vsync, with what each vsync commits and the tree that it leaves."""

from typing import NamedTuple

from surbeldoi.model.playing import Play
from surbeldoi.records.stream import OUTPUTS


class Commit(NamedTuple):
    """A transaction that a vsync committed or rejected: its arrival, its token, and the operations that were done."""

    arrival: int
    token: int
    operations: list


class Moment(NamedTuple):
    """A vsync that commits something: its number, its commits, what is due, each as a tag and fields, and the tree after it."""

    number: int
    commits: list
    outputs: list
    tree: dict


class WatchedPlay(Play):
    """A play that keeps each transaction that arrived, with its token, by the number of its arrival."""

    def __init__(self, scene):
        super().__init__(scene)
        self.arrived = {}
        send = self.world.send
        self.world.send = lambda actor, token, txn: self.keep(send(actor, token, txn), token, txn)

    def keep(self, number, token, txn):
        self.arrived[number] = (token, txn)
        return number


class Played:
    """The play of a scene: its moments, what arrived in order, each as a token and a transaction, and which values were signalled
    of each timeline. `is_written` and `values` tell of the end of the play."""

    def __init__(self, scene):
        self.scene, self.moments, self.signals = scene, [], {}
        self.play = WatchedPlay(scene)
        for tag, fields in self.play.records():
            self.note(tag, fields)
        self.arrivals = [self.play.arrived[number] for number in sorted(self.play.arrived)]
        self.is_written, self.values = self.play.world.is_written, self.play.world.values

    def note(self, tag, fields):
        if tag == "REPL":
            self.note_signal(fields)
        elif tag == "VSYN":
            self.moments.append(Moment(fields["number"], [], [], {}))
        elif tag == "COMM":
            token, txn = self.play.arrived[fields["arrival"]]
            self.moments[-1].commits.append(Commit(fields["arrival"], token, [] if fields["result"] else txn.operations()))
        elif tag in OUTPUTS:
            self.moments[-1].outputs.append((tag, fields))
        if tag in ("COMM", *OUTPUTS):
            self.moments[-1] = self.moments[-1]._replace(tree=self.play.stage.tree)

    def note_signal(self, fields):
        step = self.scene.actors[fields["actor"]][fields["step"] - 1]
        if step.verb == "signal" and fields["status"] == 0:
            timeline, value = step.args
            self.signals.setdefault(timeline, {0}).add(value)

    def shown(self):
        """The moments that show something."""
        return [moment for moment in self.moments if moment.outputs]
