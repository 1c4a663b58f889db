"""At which vsyncs the steps of a play were done and had to wait, found from the order of its script and from its records.

A vsync that commits and rejects nothing has no record, and neither has a turn in which an actor waited. But the picks of the order say
whose turn it was: an actor that had a turn did its step if the next record is the reply to it, and else had to wait.
"""

VSYNC = 0
# So many rounds at most go by in which nothing has a record: as many vsyncs as a transaction may wait for its desired time.
MOST_QUIET = 1002


class NoPlay(Exception):
    """The records are not those of turns in this order."""


class Turns:
    """How many vsyncs were before each step was done, by actor and step, and before its first turn in which it had to wait, if it had
    one; and how many there were in all, as far as the records tell."""

    def __init__(self, scene, records):
        self.scene, self.done, self.waited, self.vsyncs = scene, {}, {}, 0
        self.next = {actor: 1 for actor in scene.actors}
        self.left = [record for record in reversed(records) if record.tag in ("REPL", "VSYN")]
        self.is_whole = any(record.tag == "DONE" for record in records)
        for pick, times in scene.order:
            for _ in range(times):
                self.turn(pick)
        quiet = 0
        while self.left:
            quiet = 0 if self.round() else quiet + 1
            if quiet > MOST_QUIET:
                raise NoPlay
        self.round()

    def round(self):
        """Takes a turn of each actor and then of the vsync, and answers whether one of them has a record."""
        return any([self.turn(pick) for pick in (*sorted(self.scene.actors), VSYNC)])

    def turn(self, pick):
        """Takes a turn, and answers whether it has a record. Of turns behind the end of a run that was cut off nothing is told."""
        if not self.left and not self.is_whole:
            return False
        record = self.left[-1] if self.left else None
        if pick == VSYNC:
            self.vsyncs += 1
            has_record = record is not None and record.tag == "VSYN" and record.fields["number"] <= self.vsyncs
            if has_record and record.fields["number"] < self.vsyncs:
                raise NoPlay
        else:
            has_record = record is not None and record.tag == "REPL" and record.fields["actor"] == pick
            self.note(pick, has_record)
        if has_record:
            self.left.pop()
        return has_record

    def note(self, actor, has_record):
        """Notes a turn of an actor."""
        step = self.next[actor]
        if has_record:
            self.done[actor, step], self.next[actor] = self.vsyncs, step + 1
        elif step <= len(self.scene.actors[actor]):
            self.waited.setdefault((actor, step), self.vsyncs)


def turns_of(scene, records):
    """The turns of a play, or None where the records are not those of one."""
    try:
        return Turns(scene, records)
    except NoPlay:
        return None
