"""Runs a compositor that is judged: a command that reads a scene on its standard input and writes what it shows."""

import os
import signal
import subprocess
import tempfile
import threading
from typing import NamedTuple

# The status by which a compositor says that it cannot play a scene.
CANNOT_SAY = 77
MOST_BYTES = 1 << 30


class PeerFault(Exception):
    """A compositor ended otherwise than it should; it says how in a sentence."""


class CannotSay(Exception):
    """A compositor says that it cannot play a scene; the first line that it says why with."""


class Answer(NamedTuple):
    """What a command wrote, what it said on standard error, its status, and whether it was ended for taking too long."""

    data: bytes
    said: str
    status: int
    is_late: bool


def end(peer):
    """Ends a command with all that it began."""
    try:
        os.killpg(peer.pid, signal.SIGKILL)
    except ProcessLookupError:
        pass


def answered(command, given, seconds):
    """What a command answers to these bytes within so many seconds. Raises OSError where it can't be run."""
    late = threading.Event()
    with tempfile.TemporaryFile() as script, tempfile.TemporaryFile() as said:
        script.write(given)
        script.seek(0)
        with subprocess.Popen(command, stdin=script, stdout=subprocess.PIPE, stderr=said, start_new_session=True) as peer:
            timer = threading.Timer(seconds, lambda: (late.set(), end(peer)))
            timer.start()
            try:
                data = peer.stdout.read(MOST_BYTES + 1)
                if len(data) > MOST_BYTES:
                    end(peer)
                status = peer.wait()
            except BaseException:
                end(peer)
                raise
            finally:
                timer.cancel()
        said.seek(0)
        return Answer(data, said.read(1 << 16).decode("utf-8", "backslashreplace"), status, late.is_set())


def status_text(status):
    """How a command ended, by its status."""
    if status >= 0:
        return f"ended with status {status}"
    try:
        return f"was ended by {signal.Signals(-status).name}"
    except ValueError:
        return f"was ended by signal {-status}"


def first_line(text):
    return text.strip().split("\n", 1)[0][:200]


def frames_of(command, given, seconds):
    """What a compositor writes of a scene. Raises OSError where it can't be run, CannotSay and PeerFault."""
    answer = answered(command, given, seconds)
    if answer.is_late:
        raise PeerFault(f"the command did not end in {seconds:g} seconds")
    if len(answer.data) > MOST_BYTES:
        raise PeerFault(f"the command wrote more than {MOST_BYTES} bytes")
    if answer.status == CANNOT_SAY:
        raise CannotSay(first_line(answer.said) or "it does not say why")
    if answer.status:
        said = first_line(answer.said)
        raise PeerFault(f"the command {status_text(answer.status)}" + (f": {said}" if said else ""))
    return answer.data
