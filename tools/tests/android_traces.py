"""Traces of SurfaceInterceptor as text, as `protoc --encode` takes it, by names; with what their scenes come to."""

from typing import NamedTuple

DISPLAY = """
increments { time: 1 display_made { display: 1 name: "Internal" id: 4 secure: true } }
increments { time: 2 transaction {
  display_changes { display: 1 layer_stack { value: 0 } }
  display_changes { display: 1 size { w: 64 h: 48 } }
  display_changes { display: 1 projection { orientation: 0 viewport { left: 0 top: 0 right: 64 bottom: 48 } frame { left: 0 top: 0 right: 64 bottom: 48 } } }
} }
"""


class Case(NamedTuple):
    """A trace, how many vsyncs show something, how much it is divided by, and the notes on it."""

    text: str
    frames: int
    divisor: object = None
    notes: tuple = ()


def made(surface, width=32, height=24, name=None):
    return f'increments {{ surface_made {{ surface: {surface} name: "{name or "window"}#{surface}" width: {width} height: {height} }} }}\n'


def deleted(surface):
    return f"increments {{ surface_deleted {{ surface: {surface} }} }}\n"


def update(surface, frame, width=32, height=24):
    return f"increments {{ buffer_update {{ surface: {surface} width: {width} height: {height} frame: {frame} }} }}\n"


def vsync(when):
    return f"increments {{ time: {when} vsync {{ when: {when} }} }}\n"


def transaction(*changes, flags=""):
    return "increments { transaction { " + " ".join(f"surface_changes {{ surface: {surface} {change} }}" for surface, change in changes) + f" {flags} }} }}\n"


def later(vsyncs):
    """Vsyncs each 8 ms."""
    return [vsync(8_000_000 * number) for number in range(1, vsyncs + 1)]


def of_many(transactions, vsyncs, surfaces):
    """Surfaces that move, fade and get frames: so many transactions over so many vsyncs."""
    parts, each, done = [DISPLAY] + [made(surface) for surface in range(1, surfaces + 1)], transactions // vsyncs, 0
    for number, when in enumerate(later(vsyncs), 1):
        for _ in range(each):
            surface, done = done % surfaces + 1, done + 1
            parts.append(transaction((surface, f"position {{ x: {done * 7 % 60} y: {done * 5 % 40} }}"), (surface, f"z {{ value: {done % 9} }}"),
                                     ((surface + 3) % surfaces + 1, f"alpha {{ value: {done % 5 / 4} }}")))
        parts.append(update(number % surfaces + 1, number, 16 + number % 3, 12))
        parts.append(when)
    return "".join(parts)


FIRST, SECOND, THIRD = later(3)
BELOW = 4294967295
EVERY_CHANGE = transaction(
    (1, "position { x: 4.5 y: -3 }"), (1, "size { w: 30 h: 20 }"), (1, "alpha { value: 0.5 }"), (1, "z { value: 4294967290 }"),
    (1, "crop { rectangle { left: 1 top: 2 right: 20 bottom: 18 } }"), (1, "matrix { dsdx: 2 dtdx: 0 dsdy: 0 dtdy: 1 }"), (1, "scaling_mode { value: 1 }"),
    (1, "transparent_region { rectangles { left: 0 top: 0 right: 4 bottom: 4 } }"), (1, "layer_stack { value: 0 }"), (1, "hidden { value: true }"),
    (1, "opaque { value: true }"), (1, "secure { value: true }"), (1, "corner_radius { value: 8 }"), (2, "deferred_until { surface: 1 frame: 5 }"),
    (2, "hidden { value: false }"), flags="synchronous: true animation: true") + """
increments { transaction { display_changes { display: 1 surface { queue: 7 name: "fb" } } display_changes { display: 1 size { w: 60 h: 40 } }
  display_changes { display: 1 layer_stack { value: 9 } }
  display_changes { display: 1 projection { orientation: 1 viewport { left: 0 top: 0 right: 32 bottom: 24 } frame { left: 0 top: 0 right: 64 bottom: 48 } } } } }
increments { power_mode { display: 1 mode: 2 } }
increments { display_made { display: 2 name: "late" } }
increments { display_deleted { display: 2 } }
"""
NOTES_OF_EVERY_CHANGE = (
    "a transaction that is marked synchronous (in increment 6)", "a transaction that is marked animation (in increment 6)",
    "another size of a display (in increment 7)", "another layer stack for a display (in increment 7)",
    "a projection that turns, moves or scales (in increment 7)", "a power mode (in increment 8)",
    "a display that is made while others are there (in increment 9)", "a display that is deleted (in increment 10)",
    "a change that is deferred until a frame (in increment 6)", "a position between pixels (in increment 6)", "a size of a surface (in increment 6)",
    "a matrix (in increment 6)", "a scaling mode (in increment 6)", "a transparent region (in increment 6)", "a secure surface (in increment 6)",
    "a corner radius (in increment 6)")

CASES = {
    "one surface": Case(DISPLAY + made(1) + transaction((1, "position { x: 8 y: 8 }"), (1, "z { value: 2 }")) + update(1, 1) + FIRST, 1),
    "two displays": Case(DISPLAY + """
        increments { display_made { display: 2 name: "cast" } }
        increments { transaction { display_changes { display: 2 layer_stack { value: 5 } } display_changes { display: 2 size { w: 32 h: 32 } } } }
        """ + made(1) + made(2) + transaction((1, "layer_stack { value: 0 }"), (2, "layer_stack { value: 5 }")) + update(1, 1) + update(2, 1) + FIRST, 1,
        None, ()),
    "an own display of another stack": Case(
        'increments { display_made { display: 3 } }\nincrements { transaction { display_changes { display: 3 layer_stack { value: 7 } } } }\n' +
        made(1) + made(2) + transaction((1, "layer_stack { value: 7 }"), (2, "layer_stack { value: 0 }")) + update(1, 1) + update(2, 1) + FIRST, 1),
    "deferred until a frame of its own": Case(
        DISPLAY + made(1) + update(1, 40) + FIRST + transaction((1, "position { x: 20 y: 10 }"), (1, "deferred_until { surface: 1 frame: 42 }")) + SECOND
        + update(1, 41) + update(1, 42) + THIRD, 2, None, ("a change that is deferred until a frame (in increment 6)",)),
    "deferred until frames of another": Case(
        DISPLAY + made(1) + made(2) + update(1, 7) + transaction((2, "z { value: 3 }"), (2, "deferred_until { surface: 1 frame: 8 }"), (1, "z { value: 1 }"))
        + FIRST + update(1, 8) + SECOND + transaction((2, "deferred_until { surface: 1 frame: 99 }"), (2, "alpha { value: 0 }")) + THIRD, 2,
        None, ("a change that is deferred until a frame (2 times, first in increment 6)", "a frame that is waited for and does not come (in increment 10)")),
    "surfaces that go and come": Case(
        DISPLAY + made(1) + update(1, 1) + FIRST + deleted(1) + transaction((1, "alpha { value: 0 }")) + update(1, 2) + deleted(1) + SECOND + made(1) + made(1)
        + update(1, 3) + THIRD, 3, None,
        ("a change of a surface that is not there (in increment 7)", "a buffer of a surface that is not there (in increment 8)",
         "a surface that is not there (in increment 9)", "a surface that is made twice (in increment 12)")),
    "no vsyncs and no displays": Case(made(1, 40, 30) + update(1, 1, 40, 30) + transaction((1, "position { x: 2 }")), 3, None, ("no vsyncs (in the trace)",)),
    "every kind of change": Case(DISPLAY + made(1) + made(2) + FIRST + EVERY_CHANGE + update(1, 5) + SECOND, 2, None, NOTES_OF_EVERY_CHANGE),
    "a real screen": Case(
        DISPLAY.replace("64", "1080").replace("48", "2400") + made(1, 1080, 2400) + made(2, 1080, 80)
        + transaction((1, f"z {{ value: {BELOW} }}"), (2, "position { y: 2320 }"), (2, "crop { rectangle { right: 1080 bottom: 80 } }"))
        + update(1, 311, 1080, 2400) + update(2, 9, 1080, 80) + FIRST, 1, None, ("pixels divided by 5 (in the trace)",)),
    "500 transactions over 100 vsyncs": Case(of_many(500, 100, 20), 100),
    "1,000 transactions of 9 surfaces": Case(of_many(1000, 50, 9), 50),
}
