"""The vsyncs of a run that took nothing, and so have no record of their own.

In a play the order of the script says when each was: only steps that are done or refused, and vsyncs that commit or reject, change
anything, and each of these has its record. So a turn whose record does not come next changed nothing, and what has no record before
that one has none at all. In a live run the numbers of the other vsyncs tell that some were between, and no more.
"""

from typing import NamedTuple

# So many of them are told at most.
MOST = 2048
COMPOSITOR = 0


class Silent(NamedTuple):
    """Vsyncs that took nothing, each as the place of the record that it stands before and its number; and how many more there were."""

    found: list
    left_out: int


class Turns:
    """The turns of a play beside its records: `tokens` are the records that turns leave, each with its place."""

    def __init__(self, records):
        self.tokens = [(place, record) for place, record in enumerate(records) if record.tag in ("REPL", "VSYN")]
        self.at, self.vsyncs, self.end, self.found, self.left_out = 0, 0, len(records), [], 0

    def is_over(self):
        return self.at == len(self.tokens)

    def next_is(self, tag, field, number):
        """Whether the next record is of this tag, and a field of it has this number."""
        if self.is_over():
            return False
        record = self.tokens[self.at][1]
        return record.tag == tag and record.fields[field] == number

    def actor(self, number, times):
        """So many turns of an actor: those behind one that changes nothing change nothing either."""
        while times and self.next_is("REPL", "actor", number):
            self.at, times = self.at + 1, times - 1

    def vsync(self):
        self.vsyncs += 1
        if self.next_is("VSYN", "number", self.vsyncs):
            self.at += 1
        elif len(self.found) < MOST:
            self.found.append((self.end if self.is_over() else self.tokens[self.at][0], self.vsyncs))
        else:
            self.left_out += 1

    def round(self, actors):
        for number in actors:
            self.actor(number, 1)
        self.vsync()

    def is_stuck(self, before):
        """Whether a round that began here took nothing, and no later one could: the next record is not that of a later vsync."""
        if self.at > before or self.is_over():
            return False
        record = self.tokens[self.at][1]
        return record.tag != "VSYN" or record.fields["number"] <= self.vsyncs


def silent_in_play(scene, records, is_whole):
    """The silent vsyncs of a play of a scene. Of a stream that was cut off, those before its last record."""
    turns, actors = Turns(records), sorted(scene.actors)
    for number, times in scene.order:
        if number != COMPOSITOR:
            turns.actor(number, times)
            continue
        for _ in range(times):
            turns.vsync()
    while not turns.is_over():
        before = turns.at
        turns.round(actors)
        if turns.is_stuck(before):
            return Silent([], 0)
    last = turns.tokens[-1][0] if turns.tokens else 0
    return Silent([one for one in turns.found if is_whole or one[0] <= last], turns.left_out)


def silent_in_live(records):
    """The silent vsyncs of a live run: those whose numbers are skipped."""
    found, before, left_out = [], 0, 0
    for place, record in enumerate(records):
        if record.tag == "VSYN":
            skipped = range(before + 1, record.fields["number"])
            told = skipped[:MOST - len(found)]
            found += [(place, number) for number in told]
            left_out, before = left_out + len(skipped) - len(told), record.fields["number"]
    return Silent(found, left_out)
