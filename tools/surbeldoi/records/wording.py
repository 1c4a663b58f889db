"""Records as text: a sentence each, or the plain form that programs compare."""

from itertools import groupby
from struct import unpack

HOLDS = {1: "Behind", 2: "Time", 3: "Fence", 4: "Undrawn", 5: "Barrier", 6: "Pressure"}
REJECTS = {
    1: "unknown layer", 2: "layer exists", 3: "parent cycle",
    4: "draw cycle", 5: "too many layers", 6: "wrong kind",
}
STATUSES = {
    0: "Ok", 1: "Stale", 2: "NoBuffer", 3: "PresentLater", 10: "NoInit", 11: "BadValue",
    12: "InvalidOperation", 13: "WouldBlock", 14: "NoSlot", 15: "Empty", 16: "Occupied",
}
# What a refusal or a reject says, in words.
REFUSALS = {
    1: "the frame that it names is not the slot's any more", 2: "no frame waits", 3: "no frame is due yet",
    10: "the queue is abandoned, or the actor is not its producer", 11: "a value is out of range or does not fit",
    12: "a limit of the queue is reached, or a producer is connected", 13: "no slot is free", 14: "no slot is free to attach to",
    15: "a name or a number does not hold what the step needs", 16: "a name or a number that is to be filled holds something",
}
REJECTIONS = {
    1: "the layer, or the parent or relative that it names, is not there", 2: "a layer with this number is there already",
    3: "the layer would be its own ancestor", 4: "the layer would be drawn below itself",
    5: "there is no room for another layer", 6: "a layer of this kind does not take it",
}
CALLS = {
    1: "connect", 2: "disconnect", 3: "max dequeued", 4: "async", 5: "dequeue", 6: "request", 7: "queue",
    8: "cancel", 9: "producer detach", 10: "producer attach", 11: "max acquired", 12: "abandon",
    13: "acquire", 14: "release", 15: "consumer detach", 16: "consumer attach",
}
FAULTS = {
    1: "not UTF-8", 2: "unknown word", 3: "bad word", 4: "missing word", 5: "extra word",
    6: "out of order", 7: "undefined", 8: "twice", 9: "limit", 10: "unended", 11: "wrong version",
}
# What the values of a reply are, by the first word of the step.
LENT = ("slot", "buffer", "new")
VALUES = {"dequeue": LENT, "dequeuewait": LENT, "request": ("slot", "buffer", "width", "height"), "queue": ("slot", "frame"),
          "pattach": ("slot", "buffer"), "acquire": ("slot", "frame", "picture", "dropped"), "cattach": ("slot",), "apply": ("arrival",)}
NO_SLOT = 4294967295


def named(names, number):
    """The name of a number, or the number where it has none."""
    return names.get(number, f"number {number}")


def listed(items):
    return ", ".join(items) or "none"


def values_text(word, values):
    """The values of a reply to a step with this first word, each with its name; behind them the points of a fence."""
    names = VALUES.get(word, ())
    texts = [f"{name} {value}" for name, value in zip(names, values)]
    points = values[len(names):]
    return ", ".join(texts + [f"fence timeline {timeline} at {value}" for timeline, value in zip(points[::2], points[1::2])])


def scene_sentence(f):
    return f"scene version {f['version']}, {f['width']} x {f['height']}, period {f['period']} ns"


def reply_sentence(f):
    values = " ".join(str(value) for (value,) in f["values"])
    return f"reply of actor {f['actor']}, step {f['step']}: {named(STATUSES, f['status'])}" + (f" ({values})" if values else "")


def vsync_sentence(f):
    seen = ", ".join(f"{timeline} at {value}" for timeline, value in f["timelines"])
    return f"vsync {f['number']}, expected {f['expected']} ns" + (f", timelines {seen}" if seen else "")


def buffer_sentence(row):
    layer, queue, frame, picture, x, y, width, height = row
    return f", layer {layer} shows queue {queue} frame {frame} picture {picture} crop {x} {y} {width} {height}"


def outcome(f):
    """What became of a commit."""
    if f["result"] == 0:
        return "committed"
    return f"rejected, {named(REJECTS, f['result'])} at operation {f['operation']}"


def commit_sentence(f):
    return f"token {f['token']}, arrival {f['arrival']}: {outcome(f)}" + "".join(map(buffer_sentence, f["buffers"]))


def frame_sentence(f):
    return f"frame of vsync {f['number']}, {len(f['pixels']) // 4} pixels"


def display_sentence(f):
    return f"frame of display {f['display']} at vsync {f['number']}, {len(f['pixels']) // 4} pixels"


def capture_sentence(f):
    return f"capture {f['capture']} at vsync {f['number']}, {len(f['pixels']) // 4} pixels"


def layer_text(number):
    return f"layer {number}" if number else "no layer"


def hit_sentence(f):
    return f"hit {f['hit']} at vsync {f['number']}: {layer_text(f['layer'])}"


def arrivals_sentence(f):
    return "arrivals " + listed(f"{number}: actor {actor} step {step} token {token}"
                                for number, (actor, step, token) in enumerate(f["arrivals"], 1))


def call_name(kind, slot, frame):
    """A call with the slot and the frame that it has."""
    where = "" if slot == NO_SLOT else f" slot {slot}"
    return named(CALLS, kind) + where + (f" frame {frame}" if frame else "")


def caller_name(caller, step):
    return f"actor {caller} step {step}" if caller else f"compositor vsync {step}"


def history_sentence(f):
    return f"history of queue {f['queue']}" + "".join(
        f"\n    {caller_name(caller, step)}: {call_name(kind, slot, frame)}: {named(STATUSES, status)}"
        for caller, step, kind, status, slot, frame in f["calls"])


def held_sentence(f):
    return "held " + listed(f"arrival {arrival}: {named(HOLDS, hold)} {a} {b}" for arrival, hold, a, b in f["held"])


def stuck_sentence(f):
    return "stuck " + listed(f"actor {actor} at step {step}" for actor, step in f["stuck"])


def summary_sentence(f):
    return "summary " + ", ".join(f"{name.replace('_', ' ')} {value}" for name, value in f.items())


def fault_sentence(f):
    place = f" at line {f['line']}, word {f['word']}" if f["line"] else ""
    return f"script fault{place}: {named(FAULTS, f['cause'])}"


SENTENCES = {
    "SCEN": scene_sentence, "REPL": reply_sentence, "VSYN": vsync_sentence, "COMM": commit_sentence,
    "FRAM": frame_sentence, "FRAD": display_sentence, "CAPT": capture_sentence, "HITS": hit_sentence,
    "ARRV": arrivals_sentence, "HIST": history_sentence, "HOLD": held_sentence,
    "STUK": stuck_sentence, "DONE": lambda f: "the run is whole", "SUMM": summary_sentence, "SFLT": fault_sentence,
}


def sentence(record):
    """What a record says, behind its tag."""
    if record.fields is None:
        return f"{record.tag} unread, {len(record.raw)} bytes"
    return f"{record.tag} {SENTENCES[record.tag](record.fields)}"


def pixel_runs(pixels):
    """Runs of equal pixels, each as its length and its colour."""
    pixels, whole = bytes(pixels), len(pixels) // 4
    return "".join(f" {len(list(run))}*{pixel:08x}" for pixel, run in groupby(unpack(f">{whole}I", pixels[:4 * whole])))


def field_text(name, value):
    """A field in the plain form, with the blank before it."""
    if name == "pixels":
        return pixel_runs(value)
    if name == "values":
        return "".join(f" {number}" for (number,) in value)
    if name == "timelines":
        return "".join(f" {timeline}={number}" for timeline, number in value)
    if isinstance(value, list):
        return "".join(" | " + " ".join(map(str, row)) for row in value)
    return f" {value}"


def plain(record):
    """A record in the plain form: its tag, and its numbers in order."""
    if record.fields is None:
        return ("CUT " if record.is_cut else "BAD ") + record.raw.hex()
    return record.tag + "".join(field_text(name, value) for name, value in record.fields.items())
