#!/usr/bin/env python3
"""Times calls on one queue from many threads, beside as many on a mutex of the C library.

Each thread acquires so often from one queue, which is empty: a call under the queue's lock. Beside it, peer.c does as much
work under a mutex: what a call does there is measured out so that one thread's takes as long as one thread's here. So what
differs with more threads is what their meeting costs. Both take turns, and the best of several runs of each counts: the
processor time of a call, and how often a thread gave its processor up. What a run takes beside its calls is taken off.
The program is calls.txt over the crates as they stand, compiled without any proof; it wants the kit's `rt` and a C
compiler, and is no part of the gate. The times of a busy machine say little.
"""
import argparse
import os
import resource
import subprocess
import sys
import tempfile

HERE = os.path.dirname(os.path.abspath(__file__))
TOP = os.path.join(HERE, "..", "..")
sys.path.insert(0, os.path.join(TOP, "tools"))

from surbeldoi.build import bench_program  # noqa: E402

THREADS = (1, 2, 4, 8, 16, 64)
MAIN = os.path.join("bench", "calls", "calls.txt")
# Steps of the peer's work: what its cost a step is first measured with.
STEPS = 400


def peer(folder):
    """The peer, compiled."""
    program = os.path.join(folder, "peer")
    subprocess.run(["cc", "-O2", "-pthread", "-o", program, os.path.join(HERE, "peer.c")], check=True)
    return program


def once(command, threads, count):
    """What a run takes of the processors, in microseconds, and how often its threads gave a processor up."""
    before = resource.getrusage(resource.RUSAGE_CHILDREN)
    told = subprocess.run([command[0], str(threads), str(count), *command[1:]], stdout=subprocess.PIPE, check=True).stdout
    after = resource.getrusage(resource.RUSAGE_CHILDREN)
    if int(told) != threads:
        raise SystemExit(f"{command[0]}: {told!r} of {threads} threads began")
    used = after.ru_utime + after.ru_stime - before.ru_utime - before.ru_stime
    return used * 1e6, after.ru_nvcsw - before.ru_nvcsw


def of_a_call(commands, threads, calls, times):
    """Of each program the microseconds of the processors that a call takes, and its switches; all take turns."""
    count, runs = calls // threads, {}
    for _ in range(times):
        for name, command in commands.items():
            for often in (0, count):
                runs.setdefault((name, often), []).append(once(command, threads, often))
    told = {}
    for name in commands:
        (none, no_switch), (used, switches) = min(runs[name, 0]), min(runs[name, count])
        told[name] = ((used - none) / (count * threads), (switches - no_switch) / (count * threads))
    return told


def steps_for(program, wanted, calls, times):
    """How many steps of work make a call of the peer take so many microseconds in one thread."""
    told = of_a_call({steps: [program, str(steps)] for steps in (0, STEPS)}, 1, calls, times)
    (none, _), (some, _) = told[0], told[STEPS]
    return max(0, round((wanted - none) * STEPS / (some - none)))


def main(words):
    parser = argparse.ArgumentParser(description=__doc__, formatter_class=argparse.RawDescriptionHelpFormatter)
    parser.add_argument("--times", type=int, default=9, help="how often each is run; 9 if it is not given")
    parser.add_argument("--calls", type=int, default=1_000_000, help="how many calls all threads make together; 1,000,000 if it is not given")
    asked = parser.parse_args(words)
    with tempfile.TemporaryDirectory() as folder:
        ours, mutex = [bench_program.build(folder, TOP, MAIN)], peer(folder)
        alone, _ = of_a_call({"alone": ours}, 1, asked.calls, asked.times)["alone"]
        steps = steps_for(mutex, alone, asked.calls, asked.times)
        print(f"one thread: {alone:.3f} us a call; a call of the peer does {steps} steps of work")
        print("microseconds of the processors a call, and how often a thread gives its processor up in a thousand calls; best of", asked.times)
        for threads in THREADS:
            told = of_a_call({"queue": ours, "mutex": [mutex, str(steps)]}, threads, asked.calls, asked.times)
            print(f"{threads:3} threads: " + ", ".join(f"{name} {used:.3f} ({1000 * switches:.1f})" for name, (used, switches) in told.items()), flush=True)


if __name__ == "__main__":
    main(sys.argv[1:])
