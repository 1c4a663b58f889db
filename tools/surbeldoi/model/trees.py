"""The tree of layers: what operations make of it, or why one is rejected, the order in which its layers are drawn, and its parts.

A tree has its layers by their numbers, in the order of their creation. The rules stand in docs/SCRIPT.md, under Layers, The frame,
and Further displays, captures, hits and mirrors.
"""

from typing import NamedTuple, Optional

UNKNOWN_LAYER, LAYER_EXISTS, PARENT_CYCLE, DRAW_CYCLE, TOO_MANY_LAYERS, WRONG_KIND = range(1, 7)
ROOT = 0
# What a change names in the place of a parent for a layer without one.
NOTHING = -1
NEEDS_KIND = {"colour": "colour", "show": "buffer"}


class Layer(NamedTuple):
    """A layer: `parent` is ROOT, another layer or None, `relative` another layer or None, `content` the frame that it shows or None. The
    number of a copy that a mirror shows is a pair, of the mirror and of the original."""

    number: int
    kind: str
    parent: Optional[int]
    relative: Optional[int] = None
    z: int = 0
    position: tuple = (0, 0)
    crop: Optional[tuple] = None
    alpha: int = 255
    hidden: bool = False
    opaque: bool = False
    colour: str = "000000ff"
    orient: int = 0
    backpressure: bool = False
    content: object = None

    def has_content(self):
        return self.kind == "colour" or self.kind == "buffer" and self.content is not None


class Rejected(Exception):
    """An operation that can not be done, with its cause."""

    def __init__(self, cause):
        super().__init__(cause)
        self.cause = cause


def parent_of(value):
    """The parent that a change names."""
    return None if value == NOTHING else value


def above(layer, by_relative):
    """The layers that a layer names: its parent, and what it is relative to if that is asked for."""
    return [other for other in (layer.parent, layer.relative if by_relative else None) if other not in (ROOT, None)]


def reaches_itself(tree, number, by_relative):
    """A layer reaches itself by steps to a parent, or to a parent or a relative."""
    to_visit, seen = above(tree[number], by_relative), set()
    while to_visit:
        at = to_visit.pop()
        if at == number:
            return True
        if at not in seen:
            seen.add(at)
            to_visit += above(tree[at], by_relative)
    return False


def create(tree, most, number, kind, parent):
    if parent not in (ROOT, NOTHING) and parent not in tree:
        raise Rejected(UNKNOWN_LAYER)
    if number in tree:
        raise Rejected(LAYER_EXISTS)
    if len(tree) >= most:
        raise Rejected(TOO_MANY_LAYERS)
    tree[number] = Layer(number, kind, parent_of(parent))


def without(layer, number):
    """A layer after another one was destroyed."""
    return layer._replace(parent=None if layer.parent == number else layer.parent, relative=None if layer.relative == number else layer.relative)


def destroy(tree, number):
    del tree[number]
    for other, layer in tree.items():
        if number in (layer.parent, layer.relative):
            tree[other] = without(layer, number)


def reparent(tree, number, parent):
    if parent not in (ROOT, NOTHING) and parent not in tree:
        raise Rejected(UNKNOWN_LAYER)
    tree[number] = tree[number]._replace(parent=parent_of(parent))
    for by_relative, cause in ((False, PARENT_CYCLE), (True, DRAW_CYCLE)):
        if reaches_itself(tree, number, by_relative):
            raise Rejected(cause)


def make_relative(tree, number, other, z):
    if other not in tree:
        raise Rejected(UNKNOWN_LAYER)
    tree[number] = tree[number]._replace(relative=other, z=z)
    if reaches_itself(tree, number, True):
        raise Rejected(DRAW_CYCLE)


# How a property has the value of a change, where it does not have it as it is.
VALUES = {"colour": bytes.hex, "hidden": bool, "opaque": bool, "backpressure": bool}


def edit(tree, number, name, values):
    layer = tree[number]
    if NEEDS_KIND.get(name, layer.kind) != layer.kind:
        raise Rejected(WRONG_KIND)
    if name == "z":
        tree[number] = layer._replace(z=values[0], relative=None)
    elif name == "position":
        tree[number] = layer._replace(position=values)
    elif name == "show":
        tree[number] = layer._replace(content=values[0])
    else:
        tree[number] = layer._replace(**{name: VALUES.get(name, lambda value: value)(values[0])})


def change(tree, most, number, name, *values):
    """Does an operation on a tree, by the numbers of its layers in the order of their creation, or raises Rejected. It may have
    `most` layers."""
    if name == "create":
        create(tree, most, number, *values)
    elif number not in tree:
        raise Rejected(UNKNOWN_LAYER)
    elif name == "destroy":
        destroy(tree, number)
    elif name == "reparent":
        reparent(tree, number, *values)
    elif name == "relative":
        make_relative(tree, number, *values)
    else:
        edit(tree, number, name, values)


def after(tree, operations, most):
    """The tree after operations, each a layer and a change, 0 and 0; or the tree as it was, the cause and the place of the first that
    is rejected. It may have `most` layers."""
    new = dict(tree)
    for place, (number, operation, *_) in enumerate(operations, 1):
        try:
            change(new, most, number, *operation)
        except Rejected as rejected:
            return tree, rejected.cause, place
    return new, 0, 0


def showing(tree):
    """Which layers show: those that are not hidden and whose parents and relatives show."""
    shows = {ROOT: True, None: False}

    def decide(layer):
        needed = [layer.parent, *above(layer, True)]
        unknown = [other for other in needed if other not in shows]
        if not unknown:
            shows[layer.number] = not layer.hidden and all(shows[other] for other in needed)
        return unknown

    for number in tree:
        to_decide = [number]
        while to_decide:
            unknown = [] if to_decide[-1] in shows else decide(tree[to_decide[-1]])
            if unknown:
                to_decide += unknown
            else:
                to_decide.pop()
    return [layer for number, layer in tree.items() if shows[number]]


def draw_order(tree):
    """The layers that show, from the back."""
    drawn_with = {}
    for layer in sorted(showing(tree), key=lambda layer: layer.z):
        drawn_with.setdefault(layer.parent if layer.relative is None else layer.relative, []).append(layer)
    order, left = [], [(layer, False) for layer in reversed(drawn_with.get(ROOT, []))]
    while left:
        layer, is_itself = left.pop()
        if is_itself:
            order.append(layer)
            continue
        others = drawn_with.get(layer.number, [])
        parts = [(other, False) for other in others if other.z < 0] + [(layer, True)] + [(other, False) for other in others if other.z >= 0]
        left += reversed(parts)
    return order


# Parts of a tree.


def children(tree):
    """The layers below each parent, the oldest first."""
    found = {}
    for layer in tree.values():
        found.setdefault(layer.parent, []).append(layer)
    return found


def below(tree, number):
    """The layers that are a layer or reach it by their parents, in the order of their creation."""
    found, reached, left = children(tree), set(), [number]
    while left:
        at = left.pop()
        reached.add(at)
        left += [layer.number for layer in found.get(at, [])]
    return [layer for layer in tree.values() if layer.number in reached]


def cut(tree, number):
    """The tree of a layer and all below it, with the layer at the root, as a capture shows it; a relative that is not in it is none."""
    kept = {layer.number: layer for layer in below(tree, number)}
    kept = {other: layer if layer.relative in kept else layer._replace(relative=None) for other, layer in kept.items()}
    kept[number] = kept[number]._replace(parent=ROOT, relative=None, position=(0, 0))
    return kept


def copies(tree, mirror, number):
    """Copies of a layer with all below it, for a mirror, in the order of creation."""
    originals = {layer.number: layer for layer in below(tree, number)}
    for layer in originals.values():
        copy = layer._replace(number=(mirror, layer.number), parent=(mirror, layer.parent),
                              relative=(mirror, layer.relative) if layer.relative in originals else None)
        yield copy._replace(parent=mirror, relative=None, z=0, position=(0, 0)) if layer.number == number else copy


def written(tree, mirrors):
    """A tree with what its mirrors show written out: each that is a container has a copy of its layer, where that is there."""
    whole = dict(tree)
    for mirror, number in mirrors.items():
        if number in tree and mirror in tree and tree[mirror].kind == "container":
            whole.update((copy.number, copy) for copy in copies(tree, mirror, number))
    return whole


def outline(tree):
    """The layers with how deep each stands, parents before children, those in front first; then those that no parents lead to the root
    from."""
    found, lines = {parent: sorted(layers, key=lambda layer: layer.z) for parent, layers in children(tree).items()}, []
    left = [(layer, 0) for layer in found.get(None, []) + found.get(ROOT, [])]
    while left:
        layer, depth = left.pop()
        lines.append((layer, depth))
        left += [(child, depth + 1) for child in found.get(layer.number, [])]
    return lines
