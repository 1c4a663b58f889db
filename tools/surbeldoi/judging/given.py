"""A scene as what each of its vsyncs commits, for compositors that have no transactions and no queues of their own.

The lines declare what is shown, as in a script, and then, for each vsync that shows something, the line
`vsync NUMBER`, the changes as they stand behind `set TX`, and `show LAYER PICTURE X Y WIDTH HEIGHT` for each frame.
"""

from surbeldoi.model.transactions import SHOW
from surbeldoi.model.trees import NOTHING

def parent_text(parent):
    return "none" if parent == NOTHING else str(parent)


def change_text(layer, change):
    """An operation as a line."""
    name, *values = change
    if name == SHOW:
        frame = values[0]
        return line(SHOW, layer, frame.picture, *frame.crop)
    if name == "create":
        values = [values[0], parent_text(values[1])]
    elif name == "reparent":
        values = [parent_text(values[0])]
    elif name == "crop":
        values = values[0] or ["none"]
    elif name == "colour":
        values = [values[0].hex()]
    return line("set", layer, name, *values)


def line(*words):
    return " ".join(map(str, words))


def declarations(scene):
    """The lines that declare what is shown."""
    yield line("scene", scene.version, scene.width, scene.height, scene.period)
    for word, declared in (("display", scene.displays), ("stack", scene.stacks), ("capture", scene.captures), ("hit", scene.hits), ("mirror", scene.mirrors)):
        for number, values in declared.items():
            yield line(word, number, *(values if isinstance(values, tuple) else (values,)))
    for number, picture in sorted(scene.pictures.items()):
        yield line("picture", number, picture.width, picture.height, *(() if picture.format == "rgba" else ("format", picture.format)))
        for *place, colour in picture.fills:
            yield line("fill", *place, colour.hex())


def commits_text(played):
    """What the vsyncs of a scene's play commit, as lines."""
    lines = list(declarations(played.scene))
    for moment in played.shown():
        lines.append(f"vsync {moment.number}")
        lines += [change_text(layer, change) for commit in moment.commits for layer, change in commit.operations]
    return "\n".join([*lines, "end", ""]).encode()
