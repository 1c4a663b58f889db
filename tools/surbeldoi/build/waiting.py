"""Runs a program that takes long, keeps what it writes, and tells what it does while it runs."""

import os
import subprocess
import threading
import time

from surbeldoi.records.stream import HEAD

# How often it is told what a program does where nobody watches, in seconds.
EACH = 15
PIECE = 1 << 16
UNITS = ("bytes", "KiB", "MiB", "GiB")
PROCESSES = "/proc"


def size_text(count):
    """A number of bytes as people say it."""
    unit = 0
    while count >= 1024 and unit + 1 < len(UNITS):
        count, unit = count / 1024, unit + 1
    return f"{count:.1f} {UNITS[unit]}" if unit else f"{count} {UNITS[unit]}"


class Counts:
    """How many bytes a stream has had so far, and how many records of each tag, from pieces of its bytes."""

    def __init__(self):
        self.of, self.bytes, self.head, self.left = {}, 0, b"", 0

    def add(self, piece):
        self.bytes += len(piece)
        while piece:
            if self.left:
                piece, self.left = piece[self.left:], max(0, self.left - len(piece))
                continue
            wanted = HEAD - len(self.head)
            self.head, piece = self.head + piece[:wanted], piece[wanted:]
            if len(self.head) == HEAD:
                tag = self.head[:4].decode("latin-1")
                self.of[tag] = self.of.get(tag, 0) + 1
                self.left, self.head = int.from_bytes(self.head[4:], "big"), b""

    def text(self):
        """What came so far, empty where nothing did."""
        if not self.of:
            return ""
        steps, vsyncs, frames = (self.of.get(tag, 0) for tag in ("REPL", "VSYN", "FRAM"))
        return f"{steps} steps, {vsyncs} vsyncs, {frames} frames, {size_text(self.bytes)}"


def process_of(number):
    """The name of a process and its parent, or None where it has gone."""
    try:
        with open(os.path.join(PROCESSES, number, "stat"), encoding="utf-8", errors="replace") as file:
            name, _, rest = file.read().partition("(")[2].rpartition(")")
        return name, int(rest.split()[1])
    except (OSError, IndexError, ValueError):
        return None


def names_below(process):
    """The names of the processes that a process has begun, and of those that these began; none where the system does not tell."""
    try:
        numbers = [number for number in os.listdir(PROCESSES) if number.isdigit()]
    except OSError:
        return set()
    found = {int(number): told for number, told in ((number, process_of(number)) for number in numbers) if told}
    below, added = {process}, True
    while added:
        more = {number for number, (_, parent) in found.items() if parent in below} - below
        below, added = below | more, bool(more)
    return {found[number][0] for number in below - {process} if number in found}


class Stages:
    """What a command does, one thing after another, told by the names of its processes. A stage is its text, the processes
    that show it, none for the first, and about how many seconds it takes where nothing else is done, None where that is not known."""

    def __init__(self, *stages):
        self.stages, self.at, self.begun = stages, 0, [0]

    def text(self, seconds, names):
        """The stage after so many seconds, by the names of the processes there are then, with how long all stages take."""
        reached = max((place for place, (_, shows, _) in enumerate(self.stages) if names & set(shows)), default=0)
        while self.at < reached:
            self.at += 1
            self.begun.append(seconds)
        about = self.whole(seconds)
        return f"{self.stages[self.at][0]}: {seconds:.0f} s" + (f" of about {about:.0f}" if about else "")

    def whole(self, seconds):
        """How long all stages take if those to come are as slow as those so far; None where that is not known."""
        usual = [about for _, _, about in self.stages]
        if None in usual:
            return None
        before, done = sum(usual[:self.at]), self.begun[self.at]
        slowness = done / before if before and done else 1
        so_far = before + min((seconds - done) / slowness, usual[self.at])
        return seconds * sum(usual) / so_far if so_far else sum(usual)


class Output:
    """Takes what a program writes, piece by piece, into a file, and counts it."""

    def __init__(self, pipe, sink):
        self.pipe, self.sink, self.counts, self.fault = pipe, sink, Counts(), None

    def take(self):
        try:
            while piece := os.read(self.pipe.fileno(), PIECE):
                self.sink.write(piece)
                self.sink.flush()
                self.counts.add(piece)
        except OSError as fault:
            self.fault = fault
            self.pipe.close()


def forward(pipe, say):
    """Says each line of a pipe."""
    for line in pipe:
        say(line.decode("utf-8", "replace"))


def begun_thread(does, *of):
    thread = threading.Thread(target=does, args=of, daemon=True)
    thread.start()
    return thread


def end_when(enough, running):
    """Ends a command as soon as this is set."""
    enough.wait()
    running.terminate()


def awaited(command, folder, source, sink, tell, say, stages, each=EACH, environment=None, enough=None):
    """The status of a command that reads the file `source`; what it writes goes into the file `sink` as it comes.
    `tell` is given a line in each so many seconds: what came so far, or else the stage; `say` each line of its standard error.
    Where this is interrupted, or `enough` is set, the command is ended too."""
    begun = time.monotonic()
    with subprocess.Popen(command, cwd=folder, env=environment, stdin=source, stdout=subprocess.PIPE, stderr=subprocess.PIPE) as running:
        output = Output(running.stdout, sink)
        taking, saying = begun_thread(output.take), begun_thread(forward, running.stderr, say)
        if enough:
            begun_thread(end_when, enough, running)
        try:
            while taking.is_alive():
                taking.join(each)
                if taking.is_alive():
                    seconds, came = time.monotonic() - begun, output.counts.text()
                    tell(f"{seconds:.0f} s: {came}" if came else stages.text(seconds, names_below(running.pid)))
            saying.join()
        except BaseException:
            running.terminate()
            raise
    if output.fault:
        raise output.fault
    return running.returncode
