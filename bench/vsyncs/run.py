#!/usr/bin/env python3
"""Counts the instructions of a vsync that commits nothing, by the layers and by the transactions that wait.

    run.py PROGRAM [PROGRAM ..]

Each program is an sf_main. It plays each scene under callgrind twice, with few and with many vsyncs
behind the last transaction: the difference counts, for one vsync. It wants valgrind, and is no part of
the gate. A long `memcpy` is kept from `rep movsb`, which callgrind counts byte by byte.
"""
import argparse
import os
import re
import subprocess
import sys
import tempfile

FEW, MANY = 2, 102
ACTORS = 64
MOST_TIMES = 256
LINE = 64
PLAIN = {**os.environ, "GLIBC_TUNABLES": "glibc.cpu.hwcaps=-ERMS"}


def order(picks):
    """The `order` lines of these picks, each an actor or `v` with how often it has its turn."""
    words = []
    for who, times in picks:
        while times > 0:
            words.append(f"{who}*{min(times, MOST_TIMES)}")
            times -= MOST_TIMES
    return ["order " + " ".join(words[i:i + LINE]) for i in range(0, len(words), LINE)]


def layers(count, vsyncs):
    """A scene of so many layers, each of one colour, which one transaction makes."""
    lines = ["scene 2 64 64 1000000", "actor 1", "tx 1"]
    for number in range(1, count + 1):
        lines += [f"set 1 {number} create colour 0", f"set 1 {number} crop 0 0 1 1", f"set 1 {number} position {number % 64} {number // 64 % 64}"]
    return [*lines, "apply 1 token 1", *order([(1, 3 * count + 2), ("v", vsyncs)]), "end"]


def barriers(count, vsyncs, is_first):
    """A scene of so many transactions that wait for a frame that never comes, each the first of its token or most behind others."""
    lines, each = ["scene 2 64 64 1000000"], count // ACTORS
    for actor in range(1, ACTORS + 1):
        lines.append(f"actor {actor}")
        for place in range(each):
            number = actor * each + place
            lines += ["tx 1", f"set 1 {number} create colour 0", "barrier 1 5 7", f"apply 1 token {number if is_first else actor}"]
    return [*lines, *order([(actor, 4 * each) for actor in range(1, ACTORS + 1)] + [("v", vsyncs)]), "end"]


SCENES = (
    ("1 layer", lambda vsyncs: layers(1, vsyncs)),
    ("16 layers", lambda vsyncs: layers(16, vsyncs)),
    ("1,024 layers", lambda vsyncs: layers(1_024, vsyncs)),
    ("64 transactions wait, each under a token of its own", lambda vsyncs: barriers(64, vsyncs, True)),
    ("1,024 transactions wait, each under a token of its own", lambda vsyncs: barriers(1_024, vsyncs, True)),
    ("1,024 transactions wait, under 64 tokens", lambda vsyncs: barriers(1_024, vsyncs, False)),
)


def counted(program, scene, folder):
    """How many instructions the program takes to play a scene."""
    told = os.path.join(folder, "callgrind.out")
    subprocess.run(["valgrind", "--tool=callgrind", f"--callgrind-out-file={told}", program], input="\n".join([*scene, ""]).encode(), check=True,
                   env=PLAIN, stdout=subprocess.DEVNULL, stderr=subprocess.DEVNULL)
    with open(told, encoding="utf-8") as lines:
        return int(re.search(r"^(?:summary|totals): (\d+)", lines.read(), re.MULTILINE).group(1))


def a_vsync(program, made, folder):
    return (counted(program, made(MANY), folder) - counted(program, made(FEW), folder)) // (MANY - FEW)


def main(args):
    parser = argparse.ArgumentParser(description=__doc__, formatter_class=argparse.RawDescriptionHelpFormatter)
    parser.add_argument("program", nargs="+", help="an sf_main")
    programs = parser.parse_args(args).program
    with tempfile.TemporaryDirectory() as folder:
        for name, made in SCENES:
            print(f"{name}: " + ", ".join(f"{a_vsync(program, made, folder):,}" for program in programs))
    return 0


if __name__ == "__main__":
    sys.exit(main(sys.argv[1:]))
