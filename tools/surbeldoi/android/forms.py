"""The messages of both traces of Android, by the numbers of their fields: those that are read or written here.

The same stand as descriptions for protoc in surface_trace.proto and layers_trace.proto, beside this.
"""

from surbeldoi.android.wire import Field


def numbers(kind, *names):
    """Fields of one kind, numbered from 1."""
    return {number: Field(name, kind) for number, name in enumerate(names, 1)}


RECTANGLE = numbers("int32", "left", "top", "right", "bottom")
POINT = numbers("float", "x", "y")

# What was asked: the trace of SurfaceInterceptor.
SURFACE_CHANGE = {
    1: Field("surface", "int32"), 2: Field("position", POINT), 3: Field("size", numbers("uint32", "w", "h")), 4: Field("alpha", numbers("float", "value")),
    5: Field("z", numbers("uint32", "value")), 6: Field("crop", {1: Field("rectangle", RECTANGLE)}),
    8: Field("matrix", numbers("float", "dsdx", "dtdx", "dsdy", "dtdy")), 9: Field("scaling_mode", numbers("int32", "value")),
    10: Field("transparent_region", {1: Field("rectangles", RECTANGLE, True)}), 11: Field("layer_stack", numbers("uint32", "value")),
    12: Field("hidden", numbers("bool", "value")), 13: Field("opaque", numbers("bool", "value")), 14: Field("secure", numbers("bool", "value")),
    15: Field("deferred_until", {1: Field("surface", "int32"), 2: Field("frame", "uint64")}), 16: Field("corner_radius", numbers("float", "value")),
}
DISPLAY_CHANGE = {
    1: Field("display", "int32"), 2: Field("surface", {1: Field("queue", "uint64"), 2: Field("name", "string")}),
    3: Field("layer_stack", numbers("uint32", "value")), 4: Field("size", numbers("uint32", "w", "h")),
    5: Field("projection", {1: Field("orientation", "int32"), 2: Field("viewport", RECTANGLE), 3: Field("frame", RECTANGLE)}),
}
TRANSACTION = {1: Field("surface_changes", SURFACE_CHANGE, True), 2: Field("display_changes", DISPLAY_CHANGE, True), 3: Field("synchronous", "bool"),
               4: Field("animation", "bool")}
INCREMENT = {
    1: Field("time", "int64"), 2: Field("transaction", TRANSACTION),
    3: Field("surface_made", {1: Field("surface", "int32"), 2: Field("name", "string"), 3: Field("width", "uint32"), 4: Field("height", "uint32")}),
    4: Field("surface_deleted", numbers("int32", "surface")),
    5: Field("buffer_update", {1: Field("surface", "int32"), 2: Field("width", "uint32"), 3: Field("height", "uint32"), 4: Field("frame", "uint64")}),
    6: Field("vsync", numbers("int64", "when")),
    7: Field("display_made", {1: Field("display", "int32"), 2: Field("name", "string"), 3: Field("id", "uint64"), 4: Field("secure", "bool")}),
    8: Field("display_deleted", numbers("int32", "display")), 9: Field("power_mode", numbers("int32", "display", "mode")),
}
SURFACE_TRACE = {1: Field("increments", INCREMENT, True)}

# What was shown: the layers trace.
MAGIC = int.from_bytes(b"LYRTRACE", "little")
REGION = {2: Field("rectangles", RECTANGLE, True)}
BOUNDS = numbers("float", "left", "top", "right", "bottom")
COLOUR = numbers("float", "r", "g", "b", "a")
TRANSFORM = {**numbers("float", "dsdx", "dtdx", "dsdy", "dtdy"), 5: Field("type", "int32")}
SIZE = numbers("int32", "w", "h")
LAYER = {
    1: Field("id", "int32"), 2: Field("name", "string"), 3: Field("children", "int32", True), 4: Field("relatives", "int32", True),
    5: Field("type", "string"), 7: Field("visible_region", REGION), 8: Field("damage_region", REGION), 9: Field("layer_stack", "uint32"),
    10: Field("z", "int32"), 11: Field("position", POINT), 12: Field("requested_position", POINT), 13: Field("size", SIZE),
    14: Field("crop", RECTANGLE), 16: Field("opaque", "bool"), 19: Field("pixel_format", "string"), 20: Field("colour", COLOUR),
    21: Field("requested_colour", COLOUR), 22: Field("flags", "uint32"), 23: Field("transform", TRANSFORM), 24: Field("requested_transform", TRANSFORM),
    25: Field("parent", "int32"), 26: Field("relative_of", "int32"),
    27: Field("active_buffer", {**numbers("uint32", "width", "height", "stride"), 4: Field("format", "int32")}),
    28: Field("queued_frames", "int32"), 37: Field("frame_number", "uint64"),
    38: Field("barriers", {1: Field("layer", "int32"), 2: Field("frame", "uint64")}, True), 39: Field("buffer_transform", TRANSFORM),
    43: Field("effective_transform", TRANSFORM), 44: Field("source_bounds", BOUNDS), 45: Field("bounds", BOUNDS), 46: Field("screen_bounds", BOUNDS),
}
LAYERS = {1: Field("layers", LAYER, True), 2: Field("resolution", SIZE), 3: Field("colour_mode", "string"), 4: Field("colour_transform", "string"),
          5: Field("global_transform", "int32")}
ENTRY = {1: Field("time", "fixed64"), 2: Field("where", "string"), 3: Field("layers", LAYERS)}
LAYERS_TRACE = {1: Field("magic", "fixed64"), 2: Field("entries", ENTRY, True)}
