"""Regions of pixels, as rectangles that do not meet: each its first column and row and those behind its last."""


def without(rectangle, hidden):
    """The parts of a rectangle that another one leaves: those above and below it, then those beside it."""
    left, top, right, bottom = rectangle
    inner_left, inner_top, inner_right, inner_bottom = max(left, hidden[0]), max(top, hidden[1]), min(right, hidden[2]), min(bottom, hidden[3])
    if inner_left >= inner_right or inner_top >= inner_bottom:
        return [rectangle]
    parts = [(left, top, right, inner_top), (left, inner_top, inner_left, inner_bottom), (inner_right, inner_top, right, inner_bottom),
             (left, inner_bottom, right, bottom)]
    return [part for part in parts if part[0] < part[2] and part[1] < part[3]]


def visible_regions(layers):
    """What is seen of each layer, from the back, of which each is a rectangle and whether it hides what is behind it."""
    hiding, regions = [], []
    for rectangle, hides in reversed(layers):
        parts = [rectangle]
        for hidden in hiding:
            parts = [part for each in parts for part in without(each, hidden)]
        if hides and parts:
            hiding.append(rectangle)
        regions.append(sorted(parts, key=lambda part: (part[1], part[0])))
    return regions[::-1]
