"""Wrong implementations: faults that are planted in the play of a scene, or in its records.

Each is a function or a method of the model in another form. `planted` makes them take the place of the right ones, and gives these
back; what a fault makes of a scene are records that some wrong program could write.
"""

import contextlib
from typing import NamedTuple

from surbeldoi.model import commits, outputs, painting, playing, queues, trees
from surbeldoi.model.commits import Stage
from surbeldoi.model.outputs import OWN_STACK
from surbeldoi.model.painting import Placements
from surbeldoi.model.playing import COMPOSITOR, Play, World
from surbeldoi.model.queues import ACQUIRE, ACQUIRED, ATTACH, CANCEL, DEQUEUE, DISCONNECT, QUEUE, RELEASE, STALE, Queue
from surbeldoi.model.steps import Actor
from surbeldoi.model.transactions import (BARRIER, FENCE, PRESSURE, SHOW, TIME, UNDRAWN, Transaction, barrier_hold, fence_hold, pressure_hold, time_hold, undrawn_hold)


class Wrong(NamedTuple):
    """A wrong implementation: what is wrong, where it is planted, and what makes it of the right one; or what changes the records,
    if it is planted in none. `free` is why the meaning leaves it free, in whole or in part, and empty where it is to be refused."""

    name: str
    owner: object
    attribute: object
    make: object
    free: str = ""


WRONG = []
WHEN_READY = "how soon a transaction that is ready commits is free, where no later arrival is committed before it"
NO_LATER = "unless the order of calls tells that this was later"
BY_FINAL_VALUES = f"the records do not tell when a step of another actor signals: a step that waits is right if its point is signalled in the end, {NO_LATER}"
BY_FINAL_DRAWS = ("the records do not tell when another actor draws: a draw is right if what is owed before is drawn by another actor, or by an earlier step, "
                  f"{NO_LATER}")
DRAWN = f"the records do not tell when a draw is done: a frame counts as drawn where the run draws it at all, {NO_LATER}"
SEEN = f"which of two signalled values a vsync saw is free, where no hold turns on it, {NO_LATER}"
NOT_SHOWN = "whether a detach is refused for its fence is free, where the steps of its actor before have not shown that it is signalled"
NO_TURN = "the order of replies to different actors is free"
NEIGHBOURS = "the order of neighbours in a history is free where no reply changes and some order of all that happened fits"


def wrong(name, owner, attribute, free=""):
    """Puts what makes a wrong implementation of a right one into the table."""
    def noted(make):
        WRONG.append(Wrong(name, owner, attribute, make, free))
        return make
    return noted


def wrong_records(name, free=""):
    """Puts a change of right records into the table: it answers the changed ones, or None where these have no place for it."""
    return wrong(name, None, None, free)


def part_of(owner, attribute):
    return owner[attribute] if isinstance(owner, dict) else vars(owner)[attribute]


def put_part(owner, attribute, part):
    if isinstance(owner, dict):
        owner[attribute] = part
    else:
        setattr(owner, attribute, part)


@contextlib.contextmanager
def planted(fault):
    """The model has a fault as long as this lasts."""
    right = part_of(fault.owner, fault.attribute)
    put_part(fault.owner, fault.attribute, fault.make(right))
    try:
        yield
    finally:
        put_part(fault.owner, fault.attribute, right)


# What vsyncs give back.

@wrong("a release too early: a frame goes back in the vsync that shows it", Stage, "exchange")
def released_early(right):
    return lambda stage, operations: right(stage, operations) + [(change[1], False) for _, change, *_ in operations if change[0] == SHOW]


@wrong("a frame that another replaces is kept", Stage, "exchange")
def kept(right):
    return lambda stage, operations: right(stage, operations)[1:]


@wrong("a frame goes back twice", Stage, "exchange")
def released_twice(right):
    return lambda stage, operations: [gone for gone in right(stage, operations) for _ in range(2)]


@wrong("frames of one vsync go back in another order", Play, "decide")
def released_in_another_order(right):
    def decide(play):
        calls, call = [], play.world.call
        play.world.call = lambda *asked: calls.append(asked)
        try:
            found = right(play)
        finally:
            play.world.call = call
        for asked in reversed(calls):
            call(*asked)
        return found
    return decide


@wrong("a frame that was shown goes back with the fence of its queueing", Stage, "take_off")
def shown_with_fence(right):
    return lambda stage, layer: [(frame, False) for frame, _ in right(stage, layer)]


@wrong("a frame that was never shown goes back without its fence", Stage, "take_off")
def unshown_without_fence(right):
    return lambda stage, layer: [(frame, True) for frame, _ in right(stage, layer)]


@wrong("the frames of a rejected transaction do not go back", Stage, "commit")
def rejected_kept(right):
    def commit(stage, txn):
        cause, place, gone = right(stage, txn)
        return cause, place, [] if cause else gone
    return commit


# What is committed, and when.

@wrong("a commit overtaken: the last transaction of a token comes before its first", Play, "commit")
def overtaken(right):
    def commit(play, token):
        play.world.pending[token].insert(0, play.world.pending[token].pop())
        return right(play, token)
    return commit


@wrong("of two transactions that are ready the greater token is committed first", Play, "next_token")
def greater_first(right):
    return lambda play: next((token for token in sorted(play.world.pending, reverse=True) if play.hold(play.world.pending[token][0][1]) is None), None)


@wrong("half a transaction: what stands before the rejected operation stays", commits, "after")
def half(right):
    def after(tree, operations, most):
        new, cause, place = right(tree, operations, most)
        return (right(tree, operations[:place - 1], most)[0], cause, place) if cause else (new, cause, place)
    return after


@wrong("a rejected transaction counts for barriers", Stage, "commit")
def counted(right):
    def commit(stage, txn):
        for layer, frame in txn.buffers():
            stage.frames[layer] = max(stage.frames.get(layer, 0), frame.frame)
        return right(stage, txn)
    return commit


@wrong("a rejected operation is told by its place from 0", Stage, "commit")
def told_from_nought(right):
    def commit(stage, txn):
        cause, place, gone = right(stage, txn)
        return cause, place - 1 if cause else place, gone
    return commit


def without_hold(*left_out):
    """Transactions are not held for these causes."""
    def make(_):
        def hold(txn, is_written, stage, values, expected):
            holds = {TIME: time_hold(txn, expected), FENCE: fence_hold(txn.buffers(), values), UNDRAWN: undrawn_hold(txn.buffers(), is_written),
                     BARRIER: barrier_hold(txn.barriers, stage.frames), PRESSURE: pressure_hold(txn, stage)}
            return next((found for cause, found in holds.items() if found and cause not in left_out), None)
        return hold
    return make


for a_cause, a_name, a_reason in ((TIME, "its time", ""), (FENCE, "a fence", ""), (UNDRAWN, "a draw", DRAWN), (BARRIER, "a barrier", ""), (PRESSURE, "backpressure", "")):
    wrong(f"a transaction is committed that waits for {a_name}", playing, "hold_of", a_reason)(without_hold(a_cause))


@wrong("a point counts as signalled one value too early", playing, "hold_of")
def nearly_signalled(right):
    return lambda txn, is_written, stage, values, expected: right(txn, is_written, stage, {timeline: value + 1 for timeline, value in values.items()}, expected)


@wrong("a barrier waits for a frame behind the one that it names", playing, "hold_of")
def late_barrier(right):
    return lambda txn, is_written, stage, values, expected: right(txn, is_written, stage, values, expected) or barrier_hold(
        [(layer, frame + 1, by) for layer, frame, by in txn.barriers], stage.frames)


@wrong("a vsync commits one transaction at most", Play, "decide", WHEN_READY)
def one_by_one(right):
    def decide(play):
        hold, next_token, taken = play.hold, play.next_token, []

        def next_once():
            if taken:
                play.hold = lambda txn: hold(txn) or (TIME, 0, 0)
                return None
            token = next_token()
            taken.extend([] if token is None else [token])
            return token
        play.next_token = next_once
        try:
            return right(play)
        finally:
            play.hold, play.next_token = hold, next_token
    return decide


def plain_ready(play):
    """The first transactions of tokens that nothing holds and that show no frame, by the numbers of their arrivals: nothing but a vsync
    changes that."""
    first = (pending[0] for pending in play.world.pending.values())
    return {number: txn for number, txn in first if not txn.buffers() and play.hold(txn) is None}


def leaving(play, right, left):
    """The records of the commits of a vsync that leaves these transactions, ready or not."""
    hold = play.hold
    play.hold = lambda txn: hold(txn) or ((TIME, 0, 0) if any(one is txn for one in left) else None)
    try:
        return right(play)
    finally:
        play.hold = hold


@wrong("an arrival passed over: of those that are ready the first waits for the vsync behind the last one", Play, "decide")
def passed_over(right):
    def decide(play):
        ready = plain_ready(play)
        return leaving(play, right, [ready[min(ready)]] if len(ready) > 1 else [])
    return decide


@wrong("a vsync stops after one commit, and passes over an arrival before it", Play, "decide")
def stopped_after_one(right):
    def decide(play):
        ready = plain_ready(play)
        token = play.next_token()
        number, txn = play.world.pending[token][0] if token is not None else (0, None)
        if not ready or min(ready) >= number:
            return right(play)
        return leaving(play, right, [one for pending in play.world.pending.values() for _, one in pending if one is not txn])
    return decide


@wrong("each second vsync commits nothing", Play, "decide", WHEN_READY)
def every_second(right):
    def decide(play):
        if play.vsyncs % 2 and play.world.pending:
            play.held = [(0, TIME, 0, 0)]
            return []
        return right(play)
    return decide


@wrong("a vsync tells the values of the vsync before", Play, "vsync", SEEN)
def stale(right):
    def vsync(play):
        for tag, fields in right(play):
            if tag == "VSYN":
                fields = {**fields, "timelines": getattr(play, "last_seen", [(timeline, 0) for timeline, _ in fields["timelines"]])}
            yield tag, fields
        play.last_seen = [(timeline, play.world.values.get(timeline, 0)) for timeline in play.scene.timelines]
    return vsync


@wrong("a stale seen value: a vsync commits by points that it tells as not signalled", Play, "vsync")
def told_as_none(right):
    def vsync(play):
        commit, waited = play.commit, set()

        def noted(token):
            waited.update(timeline for _, frame in play.world.pending[token][0][1].buffers() for timeline in frame.fence)
            return commit(token)
        play.commit = noted
        shown = list(right(play))
        play.commit = commit
        for tag, fields in shown:
            yield tag, {**fields, "timelines": [(timeline, 0 if timeline in waited else value) for timeline, value in fields["timelines"]]} if tag == "VSYN" else fields
    return vsync


@wrong("a seen value falls", Play, "vsync")
def falling(right):
    def vsync(play):
        play.told = getattr(play, "told", {})
        for tag, fields in right(play):
            if tag == "VSYN":
                fields = {**fields, "timelines": [(timeline, 0 if play.told.get(timeline) else value) for timeline, value in fields["timelines"]]}
                play.told.update(fields["timelines"])
            yield tag, fields
    return vsync


# The tree.

@wrong("a frame of the tree before", Play, "decide")
def tree_before(right):
    def decide(play):
        before = play.stage.tree
        found = right(play)
        due = type(play.outputs).due
        play.outputs.due = lambda tree, number: due(play.outputs, before, number)
        return found
    return decide


@wrong("a destroyed layer takes what is below it along", trees, "destroy")
def destroyed_with_all(_):
    def destroy(tree, number):
        for layer in trees.below(tree, number):
            del tree[layer.number]
    return destroy


@wrong("what was below a destroyed layer stands at the root", trees, "without")
def orphans_at_root(right):
    return lambda layer, number: right(layer, number)._replace(parent=0 if layer.parent == number else layer.parent)


@wrong("a new parent takes a layer from what it is relative to", trees, "reparent")
def parted(right):
    def reparent(tree, number, parent):
        right(tree, number, parent)
        tree[number] = tree[number]._replace(relative=None)
    return reparent


@wrong("a layer that gets a z stays relative", trees, "edit")
def still_relative(right):
    def edit(tree, number, name, values):
        relative = tree[number].relative
        right(tree, number, name, values)
        if name == "z":
            tree[number] = tree[number]._replace(relative=relative)
    return edit


@wrong("a draw cycle is told as a parent cycle", trees, "make_relative")
def other_cycle(right):
    def make_relative(tree, number, other, z):
        try:
            right(tree, number, other, z)
        except trees.Rejected as rejected:
            raise trees.Rejected(trees.PARENT_CYCLE if rejected.cause == trees.DRAW_CYCLE else rejected.cause) from rejected
    return make_relative


@wrong("of layers with the same z the younger one is at the back", outputs, "draw_order")
def younger_behind(right):
    return lambda tree: right(dict(reversed(list(tree.items()))))


@wrong("layers with z below 0 are painted in front of what they are drawn with", outputs, "draw_order")
def never_behind(right):
    return lambda tree: [layer for layer in right({number: layer._replace(z=abs(layer.z)) for number, layer in tree.items()})]


@wrong("a layer that is relative to a hidden one is shown", outputs, "draw_order")
def shown_beside(right):
    def draw_order(tree):
        hidden = {number for number, layer in tree.items() if layer.hidden}
        return right({number: layer._replace(relative=None) if layer.relative in hidden else layer for number, layer in tree.items()})
    return draw_order


def placed_with(**of_none):
    """Layers are placed as if those above them had not what they have."""
    def make(right):
        return lambda placements, layer, above: right(placements, layer, above._replace(**of_none))
    return make


wrong("the alpha of a layer does not count for what is below", Placements, "placed")(placed_with(alpha=255))
wrong("the crop of a layer does not count for what is below", Placements, "placed")(placed_with(left=-painting.FAR, top=-painting.FAR, right=painting.FAR, bottom=painting.FAR))
wrong("the place of a layer does not count for what is below", Placements, "placed")(placed_with(x=0, y=0))


# Pixels.

@wrong("products are rounded down", painting, "over")
def rounded_down(_):
    def over(below, source, alpha):
        left = 255 - source[3] * alpha // 255
        return bytes(min(255, s * alpha // 255 + d * left // 255) for s, d in zip(source, below))
    return over


@wrong("a channel that gets too bright begins again", painting, "over")
def not_saturated(_):
    def over(below, source, alpha):
        left = 255 - painting.mul(source[3], alpha)
        return bytes((painting.mul(s, alpha) + painting.mul(d, left)) % 256 for s, d in zip(source, below))
    return over


@wrong("colours are not taken as premultiplied", painting, "over")
def multiplied_again(right):
    return lambda below, source, alpha: right(below, bytes(painting.mul(s, source[3]) for s in source[:3]) + source[3:], alpha)


@wrong("a frame is turned the other way", painting, "turned")
def turned_back(right):
    return lambda rows, orient: right(rows, {1: 3, 3: 1, 5: 7, 7: 5}.get(orient, orient))


@wrong("a frame is mirrored behind its turns", painting, "turned")
def mirrored_late(right):
    return lambda rows, orient: right(rows, {5: 7, 7: 5}.get(orient, orient))


@wrong("565 keeps the upper bits and nothing below them", painting, "seen_as")
def bits_lost(right):
    return lambda form, colour: bytes((colour[0] & 0xf8, colour[1] & 0xfc, colour[2] & 0xf8, 255)) if form == "rgb565" else right(form, colour)


@wrong("a picture without alpha shows the alpha of its fills", painting, "seen_as")
def alpha_kept(right):
    return lambda form, colour: colour if form == "rgbx" else right(form, colour)


# Further displays, captures, hits, mirrors.

@wrong("a mirror with copies inside", outputs, "written")
def copies_of_copies(_):
    def written(tree, mirrors):
        whole = dict(tree)
        for mirror, number in mirrors.items():
            if number in tree and mirror in tree and tree[mirror].kind == "container":
                whole.update((copy.number, copy) for copy in trees.copies(dict(whole), mirror, number))
        return whole
    return written


@wrong("a copy has the place of its original", trees, "copies")
def copies_in_place(right):
    def copies(tree, mirror, number):
        return [copy._replace(position=tree[number].position) if copy.number == (mirror, number) else copy for copy in right(tree, mirror, number)]
    return copies


@wrong("copies are older than all layers", outputs, "written")
def older_copies(right):
    def written(tree, mirrors):
        whole = right(tree, mirrors)
        return {**{number: layer for number, layer in whole.items() if number not in tree}, **tree}
    return written


@wrong("a captured layer keeps its place", outputs, "cut")
def captured_in_place(right):
    def cut(tree, number):
        part = right(tree, number)
        return {**part, number: part[number]._replace(position=tree[number].position)}
    return cut


@wrong("a hit meets a layer on another stack", outputs.Outputs, "hits")
def hits_everywhere(right):
    def hits(of, tree, number):
        stacks, of.scene.stacks = of.scene.stacks, {}
        yield from right(of, tree, number)
        of.scene.stacks = stacks
    return hits


@wrong("a layer is on its own stack, wherever it stands", outputs, "on_stack")
def own_stacks(_):
    return lambda stacks, placements, order, stack: [layer for layer in order if stacks.get(layer.number, OWN_STACK) == stack]


# Queues.

@wrong("a dequeue takes the buffer that came back last", queues.DOES, DEQUEUE)
def last_in_first_out(right):
    def does(queue, caller, call):
        queue.freed.reverse()
        reply = right(queue, caller, call)
        queue.freed.reverse()
        return reply
    return does


@wrong("a dequeue keeps a buffer of another size", queues.DOES, DEQUEUE)
def wrong_size(right):
    def does(queue, caller, call):
        size = queue.slots[queue.freed[0]].size if queue.freed else None
        return right(queue, caller, call._replace(size=size) if size else call)
    return does


@wrong("a dequeue tells no fence", queues.DOES, DEQUEUE)
def no_fence(right):
    def does(queue, caller, call):
        reply = right(queue, caller, call)
        return reply._replace(values=reply.values[:3], fence={})
    return does


@wrong("one slot less may be acquired", Queue, "test_taking")
def acquired_less(_):
    return lambda queue: queues.INVALID_OPERATION if queue.count(ACQUIRED) >= queue.max_acquired else queues.OK


@wrong("a frame is replaced in the mode of now alone", queues.DOES, QUEUE)
def replaced_by_mode(right):
    def does(queue, caller, call):
        queue.items = [item._replace(may_be_replaced=bool(queue.is_async)) for item in queue.items]
        return right(queue, caller, call)
    return does


@wrong("a frame that waits is replaced in each mode", queues.DOES, QUEUE)
def always_replaced(right):
    def does(queue, caller, call):
        queue.items = [item._replace(may_be_replaced=True) for item in queue.items]
        return right(queue, caller, call)
    return does


@wrong("an acquire drops no frame", Queue, "dropped")
def no_drops(_):
    return lambda queue, expected: 0


@wrong("a frame is never too early", queues.TESTS, ACQUIRE)
def never_early(_):
    return lambda queue, call: queue.test_taking() or (queues.OK if queue.items else queues.NO_BUFFER)


@wrong("a buffer comes back without the fence of its release", queues.DOES, RELEASE)
def fence_forgotten(right):
    return lambda queue, caller, call: right(queue, caller, call._replace(fence={}))


@wrong("a buffer that is cancelled comes back without a fence", queues.DOES, CANCEL)
def cancel_forgotten(right):
    return lambda queue, caller, call: right(queue, caller, call._replace(fence={}))


@wrong("a buffer that came into a queue keeps the number of the one before", queues.DOES, ATTACH)
def old_number(right):
    def does(queue, caller, call):
        reply = right(queue, caller, call)
        queue.buffers -= 1
        return reply
    return does


@wrong("who disconnects leaves the buffers", queues.DOES, DISCONNECT)
def buffers_left(right):
    def does(queue, caller, call):
        queue.producer = None
        return queues.Reply(queues.OK)
    return does


@wrong("who did not connect may call as the producer", Queue, "refusal")
def anyone(_):
    return lambda queue, caller, call: queues.NO_INIT if queue.is_abandoned else queues.TESTS[call.kind](queue, call)


@wrong("a buffer may be queued that was not requested", Queue, "test_requested")
def unrequested(_):
    return lambda queue, call: queue.test_lent(call)


# Steps and transactions.

@wrong("a detach does not ask for its fence", World, "keeps", BY_FINAL_VALUES)
def detached_early(_):
    return lambda world, actor, token, kind: False


@wrong("a detach is refused for its fence, signalled or not", World, "keeps", NOT_SHOWN)
def detached_never(_):
    return lambda world, actor, token, kind: bool(token.fence)


@wrong("a wait goes on at once", Actor, "waits_at_wait", BY_FINAL_VALUES)
def no_wait(_):
    return lambda actor, desk, step, timeline, value: False


@wrong("a draw does not wait for the fence of its buffer", World, "waits_for", BY_FINAL_VALUES)
def drawn_early(right):
    return lambda world, actor, fence: actor.next_step().verb != "draw" and right(world, actor, fence)


@wrong("a draw does not wait for the draw that is owed before it", World, "waits_to_enter", BY_FINAL_DRAWS)
def out_of_turn(_):
    return lambda world, actor, token: False


@wrong("a dequeue that has to wait is refused", Actor, "waits_at_dequeuewait")
def not_waiting(_):
    return lambda actor, desk, step, queue, name: False


@wrong("a change stands where the one stood whose place it takes", Transaction, "add")
def in_place(right):
    def add(txn, operation):
        kinds = [(layer, change[0]) for layer, change, _ in txn.places.values()]
        gone, places = right(txn, operation), list(txn.places.items())
        at = (operation.layer, operation.change[0])
        if operation.change[0] not in ("create", "destroy") and at in kinds:
            places.insert(kinds.index(at), places.pop())
            txn.places = dict(places)
        return gone
    return add


@wrong("a frame that another takes the place of in a transaction is lost", Transaction, "add")
def frame_lost(right):
    def add(txn, operation):
        right(txn, operation)
        return []
    return add


@wrong("a merge forgets the barriers", Transaction, "merge")
def no_barriers(right):
    def merge(txn, other):
        barriers = list(txn.barriers)
        gone = right(txn, other)
        txn.barriers = barriers
        return gone
    return merge


@wrong("a merge takes the earlier time", Transaction, "merge")
def earlier_time(right):
    def merge(txn, other):
        times = [time for time in (txn.desired, other.desired) if time is not None]
        gone = right(txn, other)
        txn.desired = min(times) if times else None
        return gone
    return merge


# Records.

def places_of(records, tag):
    return [place for place, record in enumerate(records) if record.tag == tag]


def with_fields(records, place, **fields):
    record = records[place]
    return records[:place] + [record._replace(fields={**record.fields, **fields})] + records[place + 1:]


def changing(tag, change, which=-1):
    """Changes the fields of a record with this tag, where there is one and `change` answers other fields."""
    def changed(scene, records):
        places = places_of(records, tag)
        fields = change(records[places[which]].fields) if places else None
        return with_fields(records, places[which], **fields) if fields else None
    return changed


def leaving_out(tag):
    def changed(scene, records):
        places = places_of(records, tag)
        return records[:places[-1]] + records[places[-1] + 1:] if places else None
    return changed


def doubling(tag):
    def changed(scene, records):
        places = places_of(records, tag)
        return records[:places[-1]] + records[places[-1]:places[-1] + 1] + records[places[-1]:] if places else None
    return changed


for a_tag in ("REPL", "VSYN", "COMM", "FRAM", "FRAD", "CAPT", "HITS", "HIST", "DONE"):
    wrong_records(f"a {a_tag} is left out")(leaving_out(a_tag))
    wrong_records(f"a {a_tag} stands twice")(doubling(a_tag))
for a_tag, a_list in (("ARRV", "arrivals"), ("HIST", "calls"), ("HOLD", "held"), ("STUK", "stuck")):
    wrong_records(f"the last entry of {a_tag} is missing")(changing(a_tag, lambda fields, a_list=a_list: {a_list: fields[a_list][:-1]} if fields[a_list] else None))
wrong_records("a vsync has the time of the next")(changing("VSYN", lambda fields: {"expected": fields["expected"] + 1}))
wrong_records("a vsync has the number of an earlier one")(changing("VSYN", lambda fields: {"number": 0}))
wrong_records("a commit shows another picture")(
    changing("COMM", lambda fields: {"buffers": [(*row[:3], row[3] + 1, *row[4:]) for row in fields["buffers"]]} if fields["buffers"] else None))
wrong_records("a frame is a bit darker at one pixel")(changing("FRAM", lambda fields: {"pixels": bytes((fields["pixels"][0] ^ 1,)) + fields["pixels"][1:]}))
wrong_records("a hit names another layer")(changing("HITS", lambda fields: {"layer": fields["layer"] + 1}))
wrong_records("a reply has another status")(changing("REPL", lambda fields: {"status": 11 if fields["status"] == 0 else 0, "values": []}))


@wrong_records("the first reply of an actor stands behind its second")
def replies_swapped(scene, records):
    first = {}
    for place in places_of(records, "REPL"):
        actor = records[place].fields["actor"]
        if actor in first:
            changed = list(records)
            changed[first[actor]], changed[place] = records[place], records[first[actor]]
            return changed
        first[actor] = place
    return None


@wrong_records("the replies of one actor stand behind those of all others", NO_TURN)
def replies_sorted(scene, records):
    places = [place for place in places_of(records, "REPL")]
    changed = list(records)
    for place, record in zip(places, sorted((records[place] for place in places), key=lambda record: record.fields["actor"])):
        changed[place] = record
    return changed


@wrong_records("two calls of different actors on a queue stand the other way round", NEIGHBOURS)
def calls_swapped(scene, records):
    for place in places_of(records, "HIST"):
        calls = records[place].fields["calls"]
        for at in range(len(calls) - 1):
            if calls[at][0] != calls[at + 1][0] and calls[at][3] and calls[at + 1][3]:
                return with_fields(records, place, calls=calls[:at] + [calls[at + 1], calls[at]] + calls[at + 2:])
    return None


def closing_a_circle(histories):
    """The place of a history, and in it that of a call which has to come before the one behind it: the actor of the first call made one
    in a later step, which stands in another history before one that the other actor made in an earlier step."""
    for place, calls in histories.items():
        others = [[call[:2] for call in more] for of, more in histories.items() if of != place]
        for at, (first, last) in enumerate(zip(calls, calls[1:])):
            if first[0] != last[0] and COMPOSITOR not in (first[0], last[0]) and any(is_between(more, first[:2], last[:2]) for more in others):
                return place, at
    return None


def is_between(calls, first, last):
    """Whether a history has a call that an actor made behind one of its steps, and behind it one that another made before one of its own."""
    behind = next((at for at, (by, step) in enumerate(calls) if by == first[0] and step > first[1]), len(calls))
    return any(by == last[0] and step < last[1] for by, step in calls[behind:])


@wrong_records("a circle of modes: two actors call two queues, and each is the first on one of them")
def circle_of_modes(scene, records):
    found = closing_a_circle({place: records[place].fields["calls"] for place in places_of(records, "HIST")})
    if found is None:
        return None
    place, at = found
    calls = records[place].fields["calls"]
    return with_fields(records, place, calls=calls[:at] + [calls[at + 1], calls[at]] + calls[at + 2:])


@wrong_records("a release before its frame: the compositor gives back what is not yet queued")
def released_before(scene, records):
    for place in places_of(records, "HIST"):
        calls = records[place].fields["calls"]
        if [call[0] for call in calls[-1:]] == [COMPOSITOR] and [call[0] for call in calls].count(COMPOSITOR) == 1:
            release = calls[-1]
            return with_fields(records, place, calls=[(*release[:3], STALE, *release[4:])] + calls[:-1])
    return None
