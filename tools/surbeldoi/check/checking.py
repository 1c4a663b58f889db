"""Whether the records of a run mean what their scene allows: docs/MEANING.md part by part, from script and records alone.

The parts are checked in the order in which one needs what another finds: the order of the records, the traces with the
replies, the arrivals, the commits with what they release, the calls on queues, and then all that is said of these. Behind them
stand parts that the meaning of a live run does not have: all that happened fits one order, no vsync passes over an arrival, and
what is known without a call fits that order, too. The first part that is found not to hold refuses the records.
"""

from collections import Counter

from surbeldoi.check.events import check_one_order
from surbeldoi.check.histories import History, check_histories_are_due
from surbeldoi.check.learning import learned_in
from surbeldoi.check.ordering import Ordered, Refused, early_reply
from surbeldoi.check.passing import Passing
from surbeldoi.check.tracing import check_fences, step_text, traces_of
from surbeldoi.check.vsyncs import Vsyncs, released_by
from surbeldoi.model.playing import Play
from surbeldoi.model.transactions import BEHIND, lasting_hold
from surbeldoi.model.waits import Waiting, makers_of
from surbeldoi.records.wording import sentence
from surbeldoi.script.scenes import read_scene


class NoRun(Exception):
    """A stream that has no records of a run; it says why in a sentence."""


def arrivals_of(traces, record, is_queue):
    """The transactions that arrived, each with its token, by their numbers from 1. Its sender was told its number, or 0 where
    transactions arrive through a queue."""
    due, arrivals = {actor: list(reversed(sent)) for actor, sent in traces.sent.items()}, []
    for number, (actor, step, token) in enumerate(record.fields["arrivals"], 1):
        where = f"{record.text()}, arrival {number}"
        if not due.get(actor):
            raise Refused("arrive", where, f"actor {actor} has sent nothing more")
        sent = due[actor].pop()
        if (sent.step, sent.token) != (step, token):
            raise Refused("arrive", where, f"it is of step {step} with token {token}, and actor {actor} sent the next with step {sent.step} and token {sent.token}")
        told, due_told = sent.reply.fields["values"][0][0], 0 if is_queue else number
        if told != due_told:
            raise Refused("arrive", where, f"its step was told {told}, in record {sent.reply.place}, where {due_told} is due")
        arrivals.append((token, sent.txn))
    for actor, left in due.items():
        if left:
            raise Refused("arrive", record.text(), f"the transaction of actor {actor}, step {left[-1].step} is missing")
    return arrivals


def check_turns(traces, makers):
    """Each draw that enters pixels comes after those that are owed to them before."""
    of_maker = {}
    for owed in traces.owed.values():
        maker, turn = makers.turn_of(owed.owing)
        of_maker.setdefault(maker, []).append((turn, owed))
    for reply, token in traces.entered:
        maker, turn = makers.turn_of(token)
        actor, step = reply.fields["actor"], reply.fields["step"]
        for earlier, owed in of_maker.get(maker, []):
            if earlier < turn and not any(by != actor or at < step for by, at in owed.paid):
                raise Refused("turns", step_text(traces.scene, reply), f"it draws before the draw that is owed to frame {owed.owing.frame} of queue {owed.owing.queue}")


def check_held(traces, vsyncs, record):
    """HOLD has the arrivals without a commit, each with what truly holds it."""
    due, of_token = [], vsyncs.pending.of_token
    for number, is_first in sorted((number, number == left[-1]) for left in of_token.values() for number in left):
        txn = vsyncs.arrivals[number - 1][1]
        hold = lasting_hold(txn, traces.is_written, vsyncs.stage.frames, traces.values) if is_first else (BEHIND, 0, 0)
        if hold is None:
            raise Refused("holds", record.text(), f"arrival {number} is not committed, and nothing holds it in the end")
        due.append((number, *hold))
    if record.fields["held"] != due:
        at, told, wanted = first_difference(record.fields["held"], due)
        raise Refused("holds", record.text(), f"entry {at} is {told}, where {wanted} is due")


def first_difference(told, due):
    """The place, from 1, at which two lists differ, and what stands there in both."""
    at = next((at for at, pair in enumerate(zip(told, due)) if pair[0] != pair[1]), min(len(told), len(due)))
    return at + 1, *(list(rows[at]) if at < len(rows) else "none" for rows in (told, due))


def check_stuck(traces, desk, record):
    """STUK has the actors that have steps left, each with its next step, which has to wait."""
    left = [actor for actor in traces.actors.values() if actor.next_step() is not None]
    due = [(actor.number, actor.place()) for actor in left]
    if record.fields["stuck"] != due:
        at, told, wanted = first_difference(record.fields["stuck"], due)
        raise Refused("ends", record.text(), f"entry {at} is {told}, where {wanted} is due")
    for actor in left:
        step, place = actor.next_step(), actor.place()
        if not desk.waits(actor):
            raise Refused("ends", record.text(), f"actor {actor.number} is stuck at step {place} (line {step.line}: {step.verb}), which has not to wait")


def is_through_queue(traces):
    """Whether a sender of a transaction was told 0 in place of its number, as where transactions arrive through a queue."""
    return any(sent.reply.fields["values"][0][0] == 0 for sents in traces.sent.values() for sent in sents)


def check_meaning(scene, shown, is_queue, vsyncs_of=Vsyncs):
    """All parts of the meaning, one after another; the first that does not hold is raised as Refused. Whether transactions arrive
    through a queue is found from the replies where `is_queue` is None. `vsyncs_of` makes what checks the vsyncs of the traces and the
    arrivals."""
    check_histories_are_due(scene, shown.histories)
    traces = traces_of(scene, shown)
    is_queue = is_through_queue(traces) if is_queue is None else is_queue
    arrivals = arrivals_of(traces, shown.arrivals, is_queue)
    released = released_by(scene, arrivals, shown.vsyncs)
    histories = {record.fields["queue"]: History(traces, record, released.get(record.fields["queue"], [])) for record in shown.histories}
    for history in histories.values():
        history.check()
    check_fences(scene, traces)
    makers = makers_of(traces.attachings, sum(len(history.fields["calls"]) for history in shown.histories))
    check_turns(traces, makers)
    vsyncs = vsyncs_of(traces, arrivals)
    passing = Passing(traces, vsyncs, shown.arrivals.fields["arrivals"])
    for vsync in shown.vsyncs:
        vsyncs.check(vsync)
        passing.look(vsync)
    check_held(traces, vsyncs, shown.held)
    check_stuck(traces, Waiting(traces, makers, {number: history.queue for number, history in histories.items()}), shown.stuck)
    check_one_order(scene, shown, not is_queue)
    passing.check()
    check_one_order(scene, shown, not is_queue, learned_in(traces, makers, shown.vsyncs), "learned")


def check_play(play, records):
    """The records are those of the one play of a scene, which is given before its first turn."""
    due = play.records()
    for place, record in enumerate(records, 1):
        tag, fields = next(due)
        if (tag, fields) != (record.tag, record.fields):
            wanted = sentence(record._replace(tag=tag, fields=fields)).split("\n", 1)[0]
            raise Refused("play", f"record {place}, {record.tag}", f"the play of the scene has here: {wanted}")


def counts(shown):
    """How much of what a run shows was checked; captures and hits where there are some."""
    outputs = Counter(output.tag for vsync in shown.vsyncs for output in vsync.outputs)
    yield len(shown.replies), "replies"
    yield len(shown.vsyncs), "vsyncs"
    yield sum(len(vsync.commits) for vsync in shown.vsyncs), "commits"
    yield outputs["FRAM"] + outputs["FRAD"], "frames"
    for tag, things in (("CAPT", "captures"), ("HITS", "hits")):
        if outputs[tag]:
            yield outputs[tag], things


def checked(script, records, is_play, is_live, is_queue=False):
    """What the records come to whose meaning is the scene's, where transactions arrive through a queue or not. Raises NoScene,
    NoRun or Refused."""
    scene = read_scene(script)
    if not records:
        raise NoRun("the stream is empty")
    if records[0].tag == "SUMM":
        raise NoRun("the stream is the summary of a run, and has no records of it")
    shown = Ordered(records).shown(scene)
    check_meaning(scene, shown, is_queue)
    early = early_reply(shown) if is_live else None
    if early:
        raise Refused("live", early.text(), "replies of a live run stand behind the last vsync, by actor and step")
    if is_play:
        check_play(Play(scene), records)
    return ", ".join(f"{count} {things}" for count, things in counts(shown))
