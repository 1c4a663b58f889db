#!/usr/bin/env python3
"""Compares a live run, with a thread for each producer, to one thread's play of the same scene.

    run.py [--rounds N] [--busy N] [--calls] PROGRAM [PROGRAM ..]

Each program is an sf_main. Each scene has some producers, each with a queue, a layer and a token of its own, and 60 frames
of 256 x 256 pixels for each of them; one is the phone's. Play, live by lock and live by queue take turns, all programs
beside each other, and the best time of each on the clock counts. A line has the time of play, both live runs as parts of
it, and for each frame how often threads left a processor and how many microseconds they took of all.

Then come what many actors on one queue take beside many with a queue of their own, and what four workers take beside one.
`--busy N` has N processes that do nothing else take processors meanwhile. With `--calls` a line has the calls of the kernel
to sleep and to wake (`futex`) and to start a thread besides; that wants strace. It is no part of the gate: the times of a
busy machine say little.
"""
import argparse
import contextlib
import os
import re
import resource
import subprocess
import sys
import tempfile
import time

FRAMES, SIDE, PICTURES = 60, 256, 4
PRODUCERS = (1, 2, 4, 8, 16)
# Actors that call queues, and how often each does.
CALLERS, CALLS = 16, 4_000
# Layers over one another that let light through, how large they are, and how often the lowest one changes.
PANES, PANE, CHANGES = 16, 1_024, 20
WORKERS = (1, 4)
TOP = os.path.dirname(os.path.dirname(os.path.dirname(os.path.abspath(__file__))))
PHONE = os.path.join(TOP, "scenes", "phone.sf")
WAYS = (("play", ["--run", "play"]), ("lock", ["--run", "live"]), ("queue", ["--run", "live", "--intake", "queue"]))


class Cost:
    """What a run took: seconds on the clock, seconds of processors, and how often a thread left its processor."""

    def __init__(self, clock, processors, switches):
        self.clock, self.processors, self.switches = clock, processors, switches

    def least(self, other):
        return Cost(min(self.clock, other.clock), min(self.processors, other.processors), min(self.switches, other.switches))


def pictures():
    """Lines of some pictures: a ground of their own, and a square that moves."""
    lines = []
    for number in range(1, PICTURES + 1):
        lines += [f"picture {number} {SIDE} {SIDE}", f"fill 0 0 {SIDE} {SIDE} {40 * number:02x}6080ff", f"fill {10 * number} {10 * number} 40 40 ff{50 * number:02x}30ff"]
    return lines


def producer(number, x, y):
    """Lines of an actor that shows one frame after another on a layer of its own."""
    lines = [f"actor {number}", f"connect {number}"]
    for frame in range(FRAMES):
        picture = frame % PICTURES + 1
        lines.append("tx 1")
        if frame == 0:
            lines += [f"set 1 {number} create buffer 0", f"set 1 {number} position {x} {y}"]
        lines.append(f"dequeue {number} as b")
        if frame < 2:
            lines.append("request b")
        lines += [f"draw b {picture}", f"queue b {picture}", f"acquire {number} as b", f"buffer 1 {number} b", f"apply 1 token {number}"]
    return lines


def scene(producers):
    """A scene of so many producers, whose layers lie beside each other."""
    across = next(side for side in range(1, producers + 1) if side * side >= producers)
    down = -(-producers // across)
    lines = [f"scene 1 {across * SIDE} {down * SIDE} 16666667"]
    lines += [f"queue {number} {SIDE} {SIDE}" for number in range(1, producers + 1)]
    lines += pictures()
    for number in range(producers):
        lines += producer(number + 1, number % across * SIDE, number // across * SIDE)
    return "\n".join([*lines, "end", ""]).encode()


def callers(queues):
    """A scene of actors that ask so many queues, in turns, for frames that none of them has."""
    lines = ["scene 1 16 16 16666667"] + [f"queue {queue + 1} 16 16" for queue in range(queues)]
    for number in range(CALLERS):
        lines += [f"actor {number + 1}"] + [f"acquire {number % queues + 1} as f"] * CALLS
    return "\n".join([*lines, "end", ""]).encode()


def panes():
    """A scene of layers over one another that let light through, all of which shine anew whenever the lowest one changes."""
    lines = [f"scene 1 {PANE} {PANE} 16666667", "actor 1", "tx 1"]
    for number in range(1, PANES + 1):
        lines += [f"set 1 {number} create colour 0", f"set 1 {number} crop 0 0 {PANE} {PANE}", f"set 1 {number} alpha 200", f"set 1 {number} z {number}",
                  f"set 1 {number} colour {10 * number:02x}6080c8"]
    lines.append("apply 1 token 1")
    for change in range(CHANGES):
        lines += ["tx 1", f"set 1 1 colour {change:02x}406080", "apply 1 token 1"]
    return "\n".join([*lines, f"order 1*{5 * PANES + 2} v " + "1*3 v " * CHANGES, "end", ""]).encode()


def run(program, words, script):
    """What a run costs."""
    before, begun = resource.getrusage(resource.RUSAGE_CHILDREN), time.perf_counter()
    subprocess.run([program, *words], input=script, stdout=subprocess.DEVNULL, check=True)
    clock, after = time.perf_counter() - begun, resource.getrusage(resource.RUSAGE_CHILDREN)
    processors = after.ru_utime + after.ru_stime - before.ru_utime - before.ru_stime
    return Cost(clock, processors, after.ru_nvcsw + after.ru_nivcsw - before.ru_nvcsw - before.ru_nivcsw)


def best(programs, ways, script, rounds):
    """The least that each program costs, each way; all take turns."""
    costs = {}
    for _ in range(rounds):
        for program in programs:
            for way, words in ways:
                cost = run(program, words, script)
                costs[program, way] = cost.least(costs.get((program, way), cost))
    return costs


def frames(script):
    """How many frames the producers of a scene queue."""
    return len(re.findall(rb"^queue [a-z]", script, re.MULTILINE))


def calls(program, words, script, folder):
    """How often a run calls the kernel to sleep or to wake a thread, and how many threads it starts."""
    told = os.path.join(folder, "calls")
    subprocess.run(["strace", "-f", "-c", "-e", "trace=futex,clone3", "-o", told, program, *words], input=script, stdout=subprocess.DEVNULL, check=True)
    counts = {"futex": 0, "clone3": 0}
    with open(told, encoding="utf-8") as lines:
        for line in lines:
            row = line.split()
            if row and row[-1] in counts:
                counts[row[-1]] = int(row[3])
    return counts["futex"], counts["clone3"]


def each(cost, count):
    """What each of so many frames or calls costs, in words."""
    return f"{cost.switches / count:.1f} switches and {1e6 * cost.processors / count:.0f} us of processors"


def producers_line(name, script, program, costs, counted):
    """What a program takes for a scene of producers, in a line."""
    play, lock, queue = (costs[program, way] for way, _ in WAYS)
    told = f"{name}: play {1000 * play.clock:.1f} ms; live by lock {lock.clock / play.clock:.2f} of it, by queue {queue.clock / play.clock:.2f}"
    told += f"; a frame by lock {each(lock, frames(script))}"
    if counted:
        sleeps, threads = counted
        told += f", {sleeps / frames(script):.1f} calls to sleep or wake; {threads} threads"
    return told


def show_producers(asked, folder):
    """Writes what producers and the phone take, live beside play."""
    with open(PHONE, "rb") as file:
        scenes = [("the phone", file.read())]
    scenes += [(f"{producers} producer{'s' * (producers > 1)}", scene(producers)) for producers in PRODUCERS]
    for name, script in scenes:
        costs = best(asked.program, WAYS, script, asked.rounds)
        for program in asked.program:
            counted = calls(program, dict(WAYS)["lock"], script, folder) if asked.calls else None
            print(producers_line(name, script, program, costs, counted), flush=True)


def show_callers(asked):
    """Writes what a call takes where all actors call one queue, beside one where each has a queue of its own."""
    live = [("live", dict(WAYS)["lock"])]
    one, own = (best(asked.program, live, callers(queues), asked.rounds) for queues in (1, CALLERS))
    for program in asked.program:
        both = (one[program, "live"], own[program, "live"])
        shared, apart = (each(cost, CALLERS * CALLS) for cost in both)
        print(f"{CALLERS} actors: a call on one queue {shared}, each on its own {apart}: {both[0].processors / both[1].processors:.2f}", flush=True)


def show_workers(asked):
    """Writes what several workers take beside one."""
    ways = [(workers, ["--workers", str(workers)]) for workers in WORKERS]
    with open(PHONE, "rb") as file:
        scenes = [(f"{PANES} layers of {PANE} x {PANE}", panes()), ("the phone", file.read())]
    for name, script in scenes:
        costs = best(asked.program, ways, script, asked.rounds)
        for program in asked.program:
            one, more = (costs[program, workers].clock for workers in WORKERS)
            print(f"{name}: one worker {1000 * one:.1f} ms, {WORKERS[1]} are {one / more:.2f} times as fast", flush=True)


@contextlib.contextmanager
def busy(count):
    """So many processes that do nothing else but take processors."""
    others = [subprocess.Popen([sys.executable, "-c", "while True: pass"]) for _ in range(count)]
    try:
        yield
    finally:
        for other in others:
            other.kill()
            other.wait()


def main(args):
    parser = argparse.ArgumentParser(description=__doc__, formatter_class=argparse.RawDescriptionHelpFormatter)
    parser.add_argument("--rounds", type=int, default=40, help="how often each is run; 40 if it is not given")
    parser.add_argument("--busy", type=int, default=0, help="how many processes take processors meanwhile; none if it is not given")
    parser.add_argument("--calls", action="store_true", help="count calls of the kernel, too")
    parser.add_argument("program", nargs="+", help="an sf_main")
    asked = parser.parse_args(args)
    with tempfile.TemporaryDirectory() as folder, busy(asked.busy):
        show_producers(asked, folder)
        show_callers(asked)
        show_workers(asked)
    return 0


if __name__ == "__main__":
    sys.exit(main(sys.argv[1:]))
