"""The forms of a scene script, as text to show: what a word has to be, and what may stand where.

Words in capitals stand for a word of a kind, those in brackets may be absent. The rules are in
docs/SCRIPT.md; sf_main alone decides what is a scene, and this table only tells what it wants.
"""

LINES = (
    "scene VERSION WIDTH HEIGHT PERIOD", "timeline TIMELINE", "queue QUEUE BWIDTH BHEIGHT",
    "picture PICTURE BWIDTH BHEIGHT", "fill X Y BWIDTH BHEIGHT COLOUR", "actor ACTOR", "order PICK", "end",
)
# What version 2 has besides, and in the place of a form of version 1.
SECOND = (
    "display DISPLAY WIDTH HEIGHT STACK", "stack LAYER STACK", "capture CAPTURE LAYER WIDTH HEIGHT",
    "hit HIT PX PY", "mirror LAYER LAYER", "picture PICTURE BWIDTH BHEIGHT [format FORMAT]",
)
STEPS = (
    "connect QUEUE", "disconnect QUEUE", "maxdequeued QUEUE COUNT", "async QUEUE FLAG",
    "dequeue QUEUE as NAME [size AWIDTH AHEIGHT]", "dequeuewait QUEUE as NAME [size AWIDTH AHEIGHT]", "request NAME",
    "draw NAME PICTURE", "queue NAME PICTURE [time TIME] [crop X Y BWIDTH BHEIGHT] [fence TIMELINE VALUE]*",
    "cancel NAME [fence TIMELINE VALUE]*", "pdetach NAME as NAME", "pattach QUEUE NAME as NAME",
    "maxacquired QUEUE COUNT", "abandon QUEUE", "acquire QUEUE as NAME [at TIME]",
    "release NAME [fence TIMELINE VALUE]*", "cdetach NAME as NAME", "cattach QUEUE NAME as NAME",
    "signal TIMELINE VALUE", "wait TIMELINE VALUE", "tx TX", "desire TX TIME", "buffer TX LAYER NAME",
    "barrier TX LAYER FRAME", "merge TX TX", "apply TX token TOKEN", "set TX LAYER CHANGE",
)
CHANGES = (
    "create container PARENT", "create colour PARENT", "create buffer PARENT", "destroy", "reparent PARENT", "z Z",
    "relative LAYER Z", "position PX PY", "crop PX PY CWIDTH CHEIGHT", "crop none", "alpha ALPHA", "hidden FLAG",
    "opaque FLAG", "colour COLOUR", "backpressure FLAG", "orient ORIENT",
)
FORMATS = ("rgba", "rgbx", "rgb565")
WORDS = {
    "VERSION": "1 or 2", "WIDTH": "1 to 1024, in pixels", "HEIGHT": "1 to 1024, in pixels",
    "PERIOD": "1000000 to 1000000000, in nanoseconds", "TIMELINE": "a timeline that is declared above, 1 to 64",
    "QUEUE": "a queue that is declared above, 1 to 16", "ACTOR": "an actor, 1 to 16; in version 2, 1 to 64",
    "PICTURE": "a picture that is declared above, 1 to 256", "BWIDTH": "1 to 512, in pixels",
    "BHEIGHT": "1 to 512, in pixels", "X": "0 to 511, in pixels", "Y": "0 to 511, in pixels",
    "COLOUR": "eight hexadecimal digits: red, green, blue, alpha", "FLAG": "0 or 1", "COUNT": "0 to 4294967295",
    "AWIDTH": "0 to 4294967295, in pixels, 0 0 being the queue's size",
    "AHEIGHT": "0 to 4294967295, in pixels, 0 0 being the queue's size",
    "NAME": "1 to 16 ASCII letters, digits and _, the first a letter", "VALUE": "0 to 18446744073709551615",
    "FRAME": "0 to 18446744073709551615",
    "TIME": "0 to 9223372036854775807, in nanoseconds", "TX": "1 to 64", "LAYER": "1 to 4294967295",
    "TOKEN": "1 to 4294967295", "PARENT": "none, or a layer, 0 being the root", "Z": "-2147483648 to 2147483647",
    "PX": "-16384 to 16384, in pixels", "PY": "-16384 to 16384, in pixels", "CWIDTH": "0 to 16384, in pixels",
    "CHEIGHT": "0 to 16384, in pixels", "ALPHA": "0 to 255", "ORIENT": "0 to 7: the quarter turns clockwise, and 4 more where it is mirrored before",
    "PICK": "v or an actor's number, alone or with * and 1 to 256 behind it, as 1*20",
    "DISPLAY": "2 to 8", "CAPTURE": "1 to 8", "HIT": "1 to 64", "STACK": "0 to 4294967295", "FORMAT": "rgba, rgbx or rgb565",
}
# Forms whose second word is the number of what they declare: it must not be declared above.
DECLARED = {
    "timeline": "1 to 64", "queue": "1 to 16", "picture": "1 to 256", "actor": "1 to 16; in version 2, 1 to 64",
    "display": "2 to 8", "capture": "1 to 8", "hit": "1 to 64", "stack": "1 to 4294967295", "mirror": "1 to 4294967295",
}
# How kinds are shown that only differ in their ranges.
SHOWN = {"AWIDTH": "WIDTH", "AHEIGHT": "HEIGHT", "BWIDTH": "WIDTH", "BHEIGHT": "HEIGHT", "CWIDTH": "WIDTH", "CHEIGHT": "HEIGHT",
         "PX": "X", "PY": "Y"}


def shown(word):
    """A word of a form as people write it: the prefixes that tell kinds apart are left out."""
    return SHOWN.get(word, word)


def form_text(form):
    """A form as it is shown to people."""
    texts = []
    for word in form.split():
        kind = word.strip("[]*")
        texts.append(word.replace(kind, shown(kind)))
    return " ".join(texts)


def first_words(forms):
    """The words that begin these forms, each once, in order."""
    return list(dict.fromkeys(form.split()[0] for form in forms))


def lines_in(version):
    """The forms of the lines of a version that are no steps."""
    if version != 2:
        return LINES
    return tuple(form for form in LINES if form.split()[0] not in first_words(SECOND)) + SECOND


def changes_of(words):
    """The changes that a `set` line of these words may be meant as; none where its fourth word begins none."""
    wanted = [change for change in CHANGES if len(words) > 3 and change.split()[0] == words[3]]
    if len(words) > 4 and words[3] == "crop":
        return ["crop none"] if words[4] == "none" else ["crop PX PY CWIDTH CHEIGHT"]
    if len(words) > 4 and words[3] == "create":
        return [change for change in wanted if change.split()[1] == words[4]] or wanted
    return wanted


def forms_of(words, in_steps, version):
    """The forms that a line of these words may be meant as."""
    lines = lines_in(version)
    forms = [form for form in (STEPS if in_steps else lines) if form.split()[0] in words[:1]]
    forms = forms or [form for form in lines + STEPS if form.split()[0] in words[:1]]
    if words[:1] != ["set"]:
        return forms
    return ["set TX LAYER " + change for change in changes_of(words)] or forms


def place_in(form, words, at):
    """What a form wants at this place of its words, from 0: the words that may stand there. None where it has ended."""
    wanted = form.split()
    if wanted[0] == "order":
        return wanted[:1] if at == 0 else ["PICK"]
    for used, word in enumerate(wanted):
        if word.startswith("["):
            return optional_at(wanted[used:], words[used:], at - used)
        if used == at:
            return [word]
    return None


def parts_of(wanted):
    """The bracketed parts at the end of a form: each as its words, and whether it may be repeated."""
    parts, part = [], []
    for word in wanted:
        part.append(word.strip("[]*"))
        if word.rstrip("*").endswith("]"):
            parts.append((part, word.endswith("*")))
            part = []
    return parts


def optional_at(wanted, words, at):
    """What may stand at a place among bracketed parts, which come in their order."""
    parts, used = parts_of(wanted), 0
    while used < at:
        chosen = next((n for n, (part, _) in enumerate(parts) if part[0] == words[used]), None)
        if chosen is None:
            break
        part, repeats = parts[chosen]
        if at < used + len(part):
            return [part[at - used]]
        used += len(part)
        parts = parts[chosen if repeats else chosen + 1:]
    return [part[0] for part, _ in parts] or None
