"""Makes a scene small on which a command fails.

COMMAND is called with each smaller script on its standard input; a word {} of it stands for a file with the script. It fails where it
ends as it does for SCENE: with the same status other than 0, by the same signal, or not in time. What it writes is dropped.

Lines, turns and parts of steps are left out as long as COMMAND fails, and numbers, names and colours made simple; a scene stays a
scene, and a script that is none is made of fewer lines and words. The small one is written to standard output. As in

    tools/shrink.py found.sf -- sh -c 'sf_main < {} | tools/records.py check --play --script {} -'

status: 0 the small script is written; 1 COMMAND does not fail for SCENE; 2 wrong words, or a file that cannot be read
"""

import os
import subprocess
import sys
import tempfile

from surbeldoi.commands import words
from surbeldoi.commands.words import Command
from surbeldoi.fuzz.shrinking import MOST_ASKED, shrunk

FAILED_NOT, TOOK_TOO_LONG = 1, "not in time"
PLACE = "{}"
MOST_SECONDS = 3600


class Failing:
    """A command that fails on a script in one way. It tells how often it was asked and how small the script is by then."""

    def __init__(self, command, seconds, folder):
        self.command, self.seconds, self.path = command, seconds, os.path.join(folder, "scene.sf")
        self.asked, self.way = 0, None

    def ends(self, script):
        """How the command ends with a script: its status, or that it did not in time."""
        with open(self.path, "wb") as file:
            file.write(script)
        with open(self.path, "rb") as given:
            try:
                return subprocess.run([word.replace(PLACE, self.path) for word in self.command], stdin=given, stdout=subprocess.DEVNULL,
                                      stderr=subprocess.DEVNULL, timeout=self.seconds).returncode
            except subprocess.TimeoutExpired:
                return TOOK_TOO_LONG

    def begins(self, script):
        """Whether the command fails on the whole script; by how it does it is known from then on."""
        self.way = self.ends(script)
        return self.way != 0

    def __call__(self, script):
        self.asked += 1
        fails = self.ends(script) == self.way
        if fails and sys.stderr.isatty():
            print(f"\rasked {self.asked} times: {len(script)} bytes", end="", file=sys.stderr, flush=True)
        return fails


def takes(parser):
    parser.add_argument("scene", metavar="SCENE", type=words.path, help="the script; - is standard input")
    parser.add_argument("command", metavar="COMMAND", nargs="+", type=words.path, help="what fails, and its words, behind --")
    parser.add_argument("--seconds", type=words.number(1, MOST_SECONDS), default=10, help="after so many seconds the command is ended; 10 if not given")
    parser.add_argument("--asks", type=words.number(1, 1_000_000), default=MOST_ASKED, help=f"how often the command is asked at most; {MOST_ASKED} if not given")


def run(given):
    script = words.contents(given.scene)
    with tempfile.TemporaryDirectory() as folder:
        failing = Failing(given.command, given.seconds, folder)
        if not failing.begins(script):
            words.complain("shrink.py", f"the command does not fail for {given.scene}: it ends with status 0")
            return FAILED_NOT
        small = shrunk(script, failing, given.asks)
        print(f"\rasked {failing.asked} times: {len(script)} bytes are {len(small)} now", file=sys.stderr)
    words.say([small])
    return 0


def main(given):
    about, more = __doc__.strip().split("\n\n", 1)
    return words.called("shrink.py", Command(about, takes, run, more=more), given)
