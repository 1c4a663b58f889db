"""Rectangles, layers and places in words."""

from surbeldoi.model.trees import ROOT

# How many layers are named one by one, where there are many.
MOST_NAMED = 3


def intersection(a, b):
    """What two rectangles have in common: x, y, width and height."""
    left, top = max(a[0], b[0]), max(a[1], b[1])
    right, bottom = min(a[0] + a[2], b[0] + b[2]), min(a[1] + a[3], b[1] + b[3])
    return left, top, max(0, right - left), max(0, bottom - top)


def moved(rectangle, place):
    return rectangle[0] + place[0], rectangle[1] + place[1], rectangle[2], rectangle[3]


def named_layers(numbers):
    """Layers in words, the first few by their numbers."""
    more = len(numbers) - MOST_NAMED
    texts = [str(number) for number in (numbers[:MOST_NAMED] if more > 1 else numbers)] + ([f"{more} more"] if more > 1 else [])
    return ("layer " if len(numbers) == 1 else "layers ") + (", ".join(texts[:-1]) + " and " + texts[-1] if len(texts) > 1 else texts[0])


def rectangle_text(rectangle):
    x, y, width, height = rectangle
    return f"{width} x {height} at {x} {y}"


def place_name(place):
    """A place in words."""
    tag, number = place.of
    return {"FRAM": "the own display", "FRAD": f"display {number}", "CAPT": f"capture {number}"}[tag]


def alphas_text(way):
    """The alphas of a layer and those above it, which are multiplied from the root on."""
    return " x ".join(f"{one.alpha} of {'its own' if one is way[0] else f'layer {one.number}'}" for one in reversed(way))


def parent_text(number):
    return {ROOT: "the root", None: "none"}.get(number, f"layer {number}")


def layer_name(number):
    """A layer, or a copy, in words."""
    return f"layer {number}" if not isinstance(number, tuple) else f"the copy of layer {number[1]} in mirror {number[0]}"
