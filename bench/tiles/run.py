#!/usr/bin/env python3
"""Counts the instructions of a frame in which all tiles of a screen change, beside wlroots.

    run.py PROGRAM [COUNT ..]      PROGRAM is an sf_main; 64, 256 and 1,024 tiles if none are given

The tiles are opaque layers of one colour on 512 x 512. Of each program the difference of two runs
under callgrind counts, with few and with many frames: of PROGRAM what finds what changed and paints
it (`compose_views`), of wlroots all that it does. The last frames are compared. It wants valgrind, a
C compiler and Debian's libwlroots-dev, and is no part of the gate. A long `memcpy` is kept from
`rep movsb`, which callgrind counts byte by byte.
"""
import argparse
import math
import os
import re
import subprocess
import sys
import tempfile

HERE = os.path.dirname(os.path.abspath(__file__))
SIDE = 512
FEW, MANY = 2, 6
STEPS = 3_000
MOST_TIMES = 256
LIBRARIES = ("wlroots", "wayland-server", "pixman-1", "libdrm")
PLAIN = {**os.environ, "GLIBC_TUNABLES": "glibc.cpu.hwcaps=-ERMS,-FSRM"}
# Of each kind its name, what changes and the pixels between two tiles.
KINDS = (
    ("that fill the display, all of another colour", "colour", 0),
    ("with gaps of a pixel, all of another colour", "colour", 1),
    ("with gaps of three pixels, all moved by a pixel", "move", 3),
)


def order(picks):
    """The `order` lines of these picks, each an actor or `v` with how often it has its turn."""
    words = []
    for who, times in picks:
        words += [f"{who}*{min(MOST_TIMES, times - done)}" for done in range(0, times, MOST_TIMES)]
    return ["order " + " ".join(words[at:at + 64]) for at in range(0, len(words), 64)]


def made(tile, row, gap):
    """The steps that make a tile."""
    size = SIDE // row
    return [f"set 1 {tile + 1} create colour 0", f"set 1 {tile + 1} colour {tile % 256:02x}6432ff",
            f"set 1 {tile + 1} crop 0 0 {size - gap} {size - gap}", f"set 1 {tile + 1} position {tile % row * size} {tile // row * size}"]


def changed(tile, row, change, what):
    """The step that changes a tile for the time of this number."""
    size = SIDE // row
    if what == "move":
        return f"set 1 {tile + 1} position {tile % row * size + change % 2} {tile // row * size}"
    return f"set 1 {tile + 1} colour {(tile + 77 * change) % 256:02x}6432ff"


def scene(count, what, gap, frames):
    """A script of so many tiles that all change at each of so many vsyncs behind the first."""
    row = math.isqrt(count - 1) + 1
    steps = [step for tile in range(count) for step in made(tile, row, gap)]
    parts = [steps[at:at + STEPS] for at in range(0, len(steps), STEPS)]
    parts += [[changed(tile, row, change, what) for tile in range(count)] for change in range(1, frames + 1)]
    first = len(parts) - frames
    lines, picks = [f"scene 2 {SIDE} {SIDE} 1000000"], []
    for number, part in enumerate(parts, 1):
        lines += [f"actor {number}", "tx 1", *part, "apply 1 token 1"]
        picks += [(number, len(part) + 2), *([("v", 1)] if number >= first else [])]
    return "\n".join([*lines, *order(picks), "end", ""])


def under_callgrind(command, text, told):
    return subprocess.run(["valgrind", "--tool=callgrind", f"--callgrind-out-file={told}", *command], input=text.encode(), check=True, env=PLAIN,
                          stdout=subprocess.PIPE, stderr=subprocess.DEVNULL).stdout


def inclusive(told, name):
    """The instructions below the function with this in its name, from what callgrind wrote."""
    said = subprocess.run(["callgrind_annotate", "--inclusive=yes", "--threshold=100", told], stdout=subprocess.PIPE, check=True, text=True).stdout
    counts = [int(it.replace(",", "")) for it, function in re.findall(r"^\s*([\d,]+) \(.*?\)\s+(\S.*)$", said, re.MULTILINE) if name in function]
    if not counts:
        sys.exit(f"run.py: callgrind shows no function {name}: is PROGRAM a built sf_main?")
    return max(counts)


def here(program, text, folder):
    """What a run of the script takes to compose, and its last frame."""
    told = os.path.join(folder, "here.out")
    records = under_callgrind([program], text, told)
    return inclusive(told, "compose_views"), last_frame(records)


def last_frame(records):
    """The pixels of the last frame: its record is a tag, a length and a body that ends with them."""
    at = records.rindex(b"FRAM")
    length = int.from_bytes(records[at + 4:at + 8], "big")
    return records[at + 8:at + 8 + length][-SIDE * SIDE * 4:]


def peer(binary, what, count, gap, frames, folder):
    """What wlroots takes for so many frames, and the last one."""
    told, file = os.path.join(folder, "peer.out"), os.path.join(folder, "last")
    under_callgrind([binary, what, str(count), str(gap), str(frames), file], "", told)
    with open(told, encoding="utf-8", errors="replace") as lines, open(file, "rb") as pixels:
        return int(re.search(r"^(?:summary|totals): (\d+)", lines.read(), re.MULTILINE).group(1)), pixels.read()


def a_frame(runs):
    """Millions of instructions of a frame, by two runs."""
    return (runs[1][0] - runs[0][0]) / (MANY - FEW) / 1e6


def built(folder):
    """The peer, compiled."""
    flags = subprocess.run(["pkg-config", "--cflags", "--libs", *LIBRARIES], stdout=subprocess.PIPE, check=True, text=True).stdout.split()
    binary = os.path.join(folder, "peer")
    subprocess.run(["cc", "-O2", "-Wall", os.path.join(HERE, "peer.c"), "-o", binary, *flags], check=True)
    return binary


def main(args):
    parser = argparse.ArgumentParser(description=__doc__, formatter_class=argparse.RawDescriptionHelpFormatter)
    parser.add_argument("program", help="an sf_main")
    parser.add_argument("counts", metavar="COUNT", nargs="*", type=int, default=[64, 256, 1_024], help="how many tiles, at most 1,024")
    given = parser.parse_args(args)
    differ = 0
    with tempfile.TemporaryDirectory() as folder:
        binary = built(folder)
        os.environ.setdefault("XDG_RUNTIME_DIR", folder)
        for name, what, gap in KINDS:
            for count in given.counts:
                ours = [here(given.program, scene(count, what, gap, frames), folder) for frames in (FEW, MANY)]
                theirs = [peer(binary, what, count, gap, frames, folder) for frames in (FEW, MANY)]
                is_same = ours[1][1] == theirs[1][1]
                differ += not is_same
                print(f"{count:,} tiles {name}: {a_frame(ours):.1f} million, wlroots {a_frame(theirs):.1f}{'' if is_same else '; the last frames differ'}", flush=True)
    return 1 if differ else 0


if __name__ == "__main__":
    sys.exit(main(sys.argv[1:]))
