#!/usr/bin/env python3
"""Times how transactions arrive: in calls under one lock, and through an intake.

So many threads send as often as they can, while the first one takes; all ways in turns, and the
best of several runs of each counts, on the clock and of the processors. What a run takes beside its
transactions is taken off: the time of one that sends none. The program is arrivals.txt over the
crates as they stand, compiled without any proof; it wants the kit's `rt`, and is no part of the gate.
Where valgrind is installed it counts the instructions of one thread that sends and takes, too.
"""
import argparse
import os
import re
import resource
import shutil
import subprocess
import sys
import tempfile
import time

HERE = os.path.dirname(os.path.abspath(__file__))
TOP = os.path.join(HERE, "..", "..")
sys.path.insert(0, os.path.join(TOP, "tools"))

from surbeldoi.build import bench_program  # noqa: E402

SENDERS = (1, 2, 4, 8, 16, 64)
ALL = 64_000
WAYS = ("lock", "queue")
# How many transactions one thread sends while its instructions are counted: the difference of both runs counts.
FEW, MANY = 1_000, 3_000
MAIN = os.path.join("bench", "arrivals", "arrivals.txt")


def seconds(program, way, senders, count):
    """What a run takes on the clock, and of the processors."""
    used, began = resource.getrusage(resource.RUSAGE_CHILDREN), time.perf_counter()
    told = subprocess.run([program, way, str(senders), str(count)], stdout=subprocess.PIPE, check=True).stdout
    clock, after = time.perf_counter() - began, resource.getrusage(resource.RUSAGE_CHILDREN)
    if int(told) != senders * count:
        raise SystemExit(f"{way}: {told!r} of {senders * count} transactions arrived")
    return clock, after.ru_utime + after.ru_stime - used.ru_utime - used.ru_stime


def instructions(program, folder):
    """What a transaction takes that one thread sends and takes, in instructions."""
    counts = []
    for count in (FEW, MANY):
        command = ["valgrind", "--tool=callgrind", f"--callgrind-out-file={folder}/callgrind", program, "alone", str(count)]
        told = subprocess.run(command, stdout=subprocess.PIPE, stderr=subprocess.PIPE, check=True)
        if int(told.stdout) != count:
            raise SystemExit(f"alone: {told.stdout!r} of {count} transactions arrived")
        counts.append(int(re.search(rb"Collected : (\d+)", told.stderr)[1]))
    return (counts[1] - counts[0]) / (MANY - FEW)


def least(runs):
    return tuple(map(min, zip(*runs)))


def compare(programs, senders, times):
    """Of each way, by its name: how many transactions a second arrive, and what each takes of the processors, in microseconds."""
    runs = {}
    for _ in range(times):
        for name, (program, way) in programs.items():
            for count in (0, ALL // senders):
                runs.setdefault((name, count), []).append(seconds(program, way, senders, count))
    told = {}
    for name in programs:
        (none, none_used), (whole, used) = least(runs[name, 0]), least(runs[name, ALL // senders])
        told[name] = ALL / (whole - none), (used - none_used) / ALL * 1e6
    return told


def main(words):
    parser = argparse.ArgumentParser(description=__doc__.splitlines()[0])
    parser.add_argument("times", nargs="?", type=int, default=9, help="how often each is run; 9 if absent")
    parser.add_argument("--before", metavar="FOLDER", help="another checkout, whose lock is timed beside, in turns")
    asked = parser.parse_args(words)
    checkouts = {"": TOP, **({" before": asked.before} if asked.before else {})}
    with tempfile.TemporaryDirectory() as folder:
        built = {}
        for name, top in checkouts.items():
            own = os.path.join(folder, name.strip() or "now")
            os.makedirs(own)
            built[name] = bench_program.build(own, top, MAIN)
        programs = {**{way: (built[""], way) for way in WAYS}, **{f"lock{name}": (program, "lock") for name, program in built.items()}}
        if shutil.which("valgrind"):
            print("instructions a transaction, one thread: " + ", ".join(f"lock{name} {instructions(program, folder):,.0f}" for name, program in built.items()))
        print("transactions a second, and microseconds of the processors for each; best of", asked.times)
        for senders in SENDERS:
            told = compare(programs, senders, asked.times)
            print(f"{senders:3} senders: " + ", ".join(f"{name} {rate:,.0f} ({used:.2f})" for name, (rate, used) in told.items()))


if __name__ == "__main__":
    main(sys.argv[1:])
