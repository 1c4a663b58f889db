#!/usr/bin/env python3
"""Says where the time of a live run goes: what each of its threads does, and for whom it waits.

    where.py [--producers N ..] [--rounds N] PROGRAM

For each number of producers (1, 4 and 16 if none is given) the scene of run.py is run live by lock: some times under
`perf record`, which samples what the processors do, and once under strace, which says how often each thread sleeps; for
whom it waits is known from who wakes it. A run takes longer under strace, so there counts count and not seconds. It wants
perf, with the right to sample the kernel, and strace.
"""
import argparse
import collections
import glob
import os
import re
import subprocess
import sys
import tempfile

import run

PRODUCERS = (1, 4, 16)
LIVE = dict(run.WAYS)["lock"]
# What a thread does in a function, by the name of the function; what moves bytes composes in the compositor's thread, and
# paints in an actor's.
WORK = {
    "the compositor": (
        ("compose", r"sf_(compose|rows|damage|region|view|output_\w+|play_write::composing)::.*|_*mem(move|cpy|set)_\w+"),
        ("decide", r"sf_(commit|commit_next|ready|tree|layer|txn|token|live_seats|calls|calls_stamped|surface|queue|consume|slots|times|turns)::.*"),
        ("write", r"sf_(record|play_report|play_write|io)::.*"),
    ),
    "the actors": (
        ("paint", r"sf_picture::.*|_*mem(move|cpy|set)_\w+"),
        ("call", r"sf_(live_seats|calls|calls_stamped|surface|queue|consume|slots|token|txn|times|turns)::.*"),
        ("step", r"sf_(actor|actor_steps|live_threads)::.*"),
    ),
}
SAMPLE = re.compile(r"^\s*(\d+)/(\d+)\s+([0-9a-f]+)\s+(\S+)")
# Kernel's code lies in the upper half of addresses.
KERNEL = 1 << 63
FUTEX = re.compile(r"futex\((0x[0-9a-f]+), FUTEX_(WAIT|WAKE)\w*, .* = (-?\d+)")


def purpose(thread, address, name):
    """What a thread does at an address in a function."""
    if address >= KERNEL:
        return "the kernel"
    return next((what for what, pattern in WORK[thread] if re.fullmatch(pattern, name)), "the rest")


def samples(program, script, folder, rounds):
    """How many samples of the compositor's thread and of all actors' threads together were taken, by what they did."""
    counts, data = {thread: collections.Counter() for thread in WORK}, os.path.join(folder, "samples")
    for _ in range(rounds):
        command = ["perf", "record", "-q", "-e", "cpu-clock", "-F", "20000", "-o", data, program, *LIVE]
        subprocess.run(command, input=script, stdout=subprocess.DEVNULL, stderr=subprocess.DEVNULL, check=True)
        told = subprocess.run(["perf", "script", "-i", data, "-F", "pid,tid,ip,sym"], stdout=subprocess.PIPE, stderr=subprocess.DEVNULL, check=True).stdout.decode()
        for process, thread, address, name in filter(None, (row and row.groups() for row in map(SAMPLE.match, told.splitlines()))):
            whose = "the compositor" if process == thread else "the actors"
            counts[whose][purpose(whose, int(address, 16), name)] += 1
    return counts


def sleeps(program, script, folder):
    """How often the compositor's thread and all actors' together sleep, by who wakes them, and how often each asks to wake."""
    told = os.path.join(folder, "told")
    subprocess.run(["strace", "-ff", "-e", "trace=futex", "-o", told, program, *LIVE], input=script, stdout=subprocess.DEVNULL, check=True)
    paths = sorted(glob.glob(told + ".*"), key=lambda path: int(path.rpartition(".")[2]))
    calls = []
    for path in paths:
        thread = "the compositor" if path == paths[0] else "the actors"
        with open(path, encoding="utf-8") as lines:
            calls += [(thread, row[1], row[2]) for row in map(FUTEX.match, lines) if row]
        os.remove(path)
    wakers = collections.defaultdict(set)
    for thread, address, kind in calls:
        if kind == "WAKE":
            wakers[address].add(thread)
    return collections.Counter((thread, kind, " or ".join(sorted(wakers[address])) if kind == "WAIT" else "") for thread, address, kind in calls)


def main(args):
    parser = argparse.ArgumentParser(description=__doc__, formatter_class=argparse.RawDescriptionHelpFormatter)
    parser.add_argument("--producers", type=int, nargs="*", default=PRODUCERS, help="of how many producers; 1, 4 and 16 if it is not given")
    parser.add_argument("--rounds", type=int, default=10, help="how often each is sampled; 10 if it is not given")
    parser.add_argument("program", help="an sf_main")
    asked = parser.parse_args(args)
    for producers in asked.producers:
        script = run.scene(producers)
        with tempfile.TemporaryDirectory() as folder:
            counts = samples(asked.program, script, folder, asked.rounds)
            whole = sum(sum(parts.values()) for parts in counts.values())
            for thread, parts in counts.items():
                told = ", ".join(f"{what} {100 * count / whole:.0f}" for what, count in parts.most_common())
                print(f"{producers}: {thread} {100 * sum(parts.values()) / whole:.0f} % of all processor time: {told}", flush=True)
            for (thread, kind, who), often in sorted(sleeps(asked.program, script, folder).items()):
                what = f"sleep until {who or 'nobody'} wake them" if kind == "WAIT" else "wake others"
                print(f"{producers}: {thread} {what} {often / run.frames(script):.2f} times a frame", flush=True)
    return 0


if __name__ == "__main__":
    sys.exit(main(sys.argv[1:]))
