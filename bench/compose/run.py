#!/usr/bin/env python3
"""Times composing beside pixman, and the looking for damage and for what shows.

pixman is asked in this project's order of bytes, red first, and in its own, blue first, for which it
has the most code. It wants Debian's libpixman-1-dev, a C compiler, and test_layers built (`rt run` in
crates/test_layers). Both programs compose the frames of two views in turns, their last
frames are compared, and the best of several runs of each counts, taken in turns. What a
run takes beside its frames is taken off: the time of one with no frames.

usage: run.py [TIMES]     how often each is run; 7 if absent
"""
import os
import resource
import subprocess
import sys
import tempfile
import time

HERE = os.path.dirname(os.path.abspath(__file__))
# The orders of bytes in which pixman is asked, and the ways in which a frame is composed here, each as it is said.
ORDERS = ("red", "blue")
WORK = {"whole": "composed whole", "again": "composed where it differs and shows"}
PROGRAM = os.path.join(HERE, "..", "..", "crates", "test_layers", "out", "test_layers")


class Colour:
    """A layer of one colour over a rectangle."""

    def __init__(self, colour, rect, alpha=255, opaque=False):
        self.colour, self.rect, self.alpha, self.opaque = colour, rect, alpha, opaque

    kind = "colour"

    def looks(self, number):
        return ["%d colour %d %d %d %d" % ((number,) + self.colour), "%d crop %d %d %d %d" % ((number,) + self.rect)]

    def peer(self):
        return "colour %d %d %d %d %d %d %d %d %d %d" % (self.colour + (self.alpha, int(self.opaque)) + self.rect)


class Buffer:
    """A layer that shows a part of a picture at a place, turned by an orientation."""

    def __init__(self, picture, place, crop, alpha=255, opaque=False, orient=0):
        self.picture, self.place, self.crop, self.alpha, self.opaque = picture, place, crop, alpha, opaque
        self.orient = orient

    kind = "buffer"

    def looks(self, number):
        return ["%d position %d %d" % ((number,) + self.place), "%d show 1 1 %d %d %d %d %d" % ((number, self.picture) + self.crop),
                "%d orient %d" % (number, self.orient)]

    def peer(self):
        x, y, width, height = self.crop
        return "buffer %d %d %d %d %d %d %d %d %d %d" % ((self.picture, self.alpha, int(self.opaque)) + self.place + (width, height, x, y, self.orient))


class Scene:
    """Two views of a display, of the same layers; the first stands before."""

    def __init__(self, size, pictures, before, after):
        self.size, self.pictures, self.views = size, pictures, (before, after)

    def peer(self):
        lines = ["display %d %d" % self.size] + ["picture " + picture for picture in self.pictures]
        for view in self.views:
            lines += ["view"] + [layer.peer() for layer in view]
        return "\n".join(lines) + "\n"

    def runs(self, ask):
        """What test_layers reads: the first view, what changes in the second, and what is asked of both."""
        before, after = self.views
        lines = ["case bench"] + ["picture " + picture for picture in self.pictures]
        for number, layer in enumerate(before, 1):
            lines += ["%d create %s root" % (number, layer.kind)] + layer.looks(number)
            lines += ["%d alpha %d" % (number, layer.alpha), "%d opaque %s" % (number, "yes" if layer.opaque else "no")]
        lines += ["apply", "keep %d %d" % self.size]
        for number, (old, new) in enumerate(zip(before, after), 1):
            if old.looks(number) != new.looks(number):
                lines += new.looks(number)
        return "\n".join(lines + ["apply"] + ask) + "\n"


def phone(opaque=False, app=1, camera=2):
    """A phone's screen: a wallpaper's colour, an app's frame, a camera's, and a bar that lets light through.

    The second view shows the pictures of these numbers as the app's and the camera's frames."""
    def view(app, camera):
        return [Colour((0, 0, 64, 255), (0, 0, 360, 640), opaque=opaque),
                Buffer(app, (0, 48), (0, 0, 360, 512), opaque=opaque),
                Buffer(camera, (100, 200), (0, 0, 160, 120), opaque=opaque),
                Colour((255, 255, 255, 255), (0, 0, 360, 48), alpha=230)]
    pictures = ["360 512 0 0 360 512 32 64 96 255", "360 512 0 0 360 512 128 96 32 255",
                "160 120 0 0 160 120 192 192 192 255", "160 120 0 0 160 120 90 90 90 255"]
    return Scene((360, 640), pictures, view(0, 2), view(app, camera))


def panes():
    """Sixteen layers over one another, each of which lets light through."""
    view = [Colour((10 * i, 200 - 10 * i, 100, 200), (0, 0, 1024, 1024), alpha=200) for i in range(16)]
    return Scene((1024, 1024), [], view, view)


def tiles(count):
    """Tiles of 64 x 64 pixels that let light through, one of which moves."""
    def tile(i, x=0):
        return Colour((i % 256, 100, 50, 200), (x + 60 * (i % 16), 60 * (i // 16 % 16), 64, 64), alpha=200)
    before = [tile(i) for i in range(count)]
    after = [tile(i, 20 if i == count // 2 else 0) for i in range(count)]
    return Scene((1024, 1024), [], before, after)


def turned(orient, opaque=False, alpha=255):
    """A buffer of 512 x 512 over the whole display, with a new frame each time."""
    def picture(first, second):
        stripes = ["%d %d %d %d %d 80 90 255" % (16 * i, 7 * i, 8, 200, 8 * i) for i in range(30)]
        return "512 512 0 0 512 512 %d %d 96 255 " % (first, second) + " ".join(stripes)
    views = [[Buffer(number, (0, 0), (0, 0, 512, 512), orient=orient, opaque=opaque, alpha=alpha)] for number in (0, 1)]
    return Scene((512, 512), [picture(32, 64), picture(64, 32)], *views)


def run(command, text):
    """The output of a command, the processor seconds that it took, and the seconds on the clock."""
    before, start = resource.getrusage(resource.RUSAGE_CHILDREN), time.perf_counter()
    out = subprocess.run(command, input=text.encode(), stdout=subprocess.PIPE, check=True).stdout.decode()
    clock, after = time.perf_counter() - start, resource.getrusage(resource.RUSAGE_CHILDREN)
    return out, after.ru_utime + after.ru_stime - before.ru_utime - before.ru_stime, clock


def last_frame(out):
    return out[out.rindex(":\n") + 2:] if ":\n" in out else out


def best(times, contenders):
    """Of each contender, called with a number of frames, the best seconds of one frame."""
    least = {}
    for _ in range(times):
        for name, frames, measure in contenders:
            for count in (frames, 0):
                spent = measure(count)
                least[name, count] = min(spent, least.get((name, count), spent))
    return {name: (least[name, frames] - least[name, 0]) / frames for name, frames, measure in contenders}


def ours(scene, work, clock=False, keep=None):
    def measure(count):
        out, spent, passed = run([PROGRAM], scene.runs(["turns %s %d %d %d" % ((work, count) + scene.size)]))
        if keep is not None:
            keep[work, count] = last_frame(out)
        return passed if clock else spent
    return measure


def marks(scene):
    def measure(count):
        return run([PROGRAM], scene.runs(["marks %d" % count]))[1]
    return measure


def peer(program, scene, keep, order):
    """pixman in a byte order: that of this project, or its own."""
    def measure(count):
        out, spent, _ = run([program, str(count), order], scene.peer())
        keep[order, count] = out
        return spent
    return measure


def micro(seconds):
    return "%.1f us" % (seconds * 1e6)


def beside_pixman(program, name, scene, times, frames=1201):
    kept = {}
    spent = best(times, [(order, frames, peer(program, scene, kept, order)) for order in ORDERS]
                 + [(work, frames, ours(scene, work, keep=kept)) for work in WORK])
    same = len({kept[who, frames] for who in (*ORDERS, *WORK)}) == 1
    print("%s: a frame takes pixman %s with red first and %s with blue first, its own order; %s; %s" % (
        name, *(micro(spent[order]) for order in ORDERS),
        ", ".join("%s %s (%.2f and %.2f of pixman)" % (WORK[work], micro(spent[work]), *(spent[work] / spent[order] for order in ORDERS)) for work in WORK),
        "the same bytes" if same else "DIFFERENT BYTES"))


def by_workers(times):
    scene, kept = panes(), {}
    spent = best(times, [(workers, 20, ours(scene, str(workers), clock=True, keep=kept)) for workers in (1, 2, 4)])
    same = len({kept[str(workers), 20] for workers in (1, 2, 4)}) == 1
    print("16 translucent layers on 1,024 x 1,024, on the clock: 1 worker %s a frame, 2 workers %s (%.2f times as fast), 4 workers %s (%.2f); %s"
          % (micro(spent[1]), micro(spent[2]), spent[1] / spent[2], micro(spent[4]), spent[1] / spent[4],
             "the same bytes" if same else "DIFFERENT BYTES"))


def of_marks(times):
    ground = best(times, [("whole", 40, ours(tiles(0), "whole"))])["whole"]
    for count in (64, 128, 256):
        scene = tiles(count)
        spent = best(times, [("marks", 200, marks(scene)), ("whole", 40, ours(scene, "whole"))])
        print("%d layers, one of which moves: what the display shows, what changed and what shows take %s together; composing 64 x 64 pixels of each %s"
              % (count, micro(spent["marks"]), micro(spent["whole"] - ground)))


def main():
    times = int(sys.argv[1]) if len(sys.argv) > 1 else 7
    with tempfile.TemporaryDirectory() as folder:
        program = os.path.join(folder, "peer")
        flags = subprocess.run(["pkg-config", "--cflags", "--libs", "pixman-1"], stdout=subprocess.PIPE, check=True).stdout.decode().split()
        subprocess.run(["cc", "-O2", "-o", program, os.path.join(HERE, "peer.c")] + flags, check=True)
        beside_pixman(program, "phone, a new frame of the app each time", phone(), times)
        beside_pixman(program, "the same of opaque layers", phone(opaque=True), times)
        beside_pixman(program, "phone, a new frame of the camera each time", phone(app=0, camera=3), times)
        beside_pixman(program, "256 tiles, one of which moves", tiles(256), times, 201)
        for name, orient in (("not turned", 0), ("a quarter turn", 1), ("mirrored", 4)):
            beside_pixman(program, "a buffer of 512 x 512, " + name, turned(orient), times, 401)
            beside_pixman(program, "the same with the layer's alpha at 200", turned(orient, alpha=200), times, 401)
    by_workers(times)
    of_marks(times)


if __name__ == "__main__":
    main()
