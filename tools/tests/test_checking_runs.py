"""Tests of records.py check on the stored runs, and on plays and live runs of the program where it is built."""

import os
import re
import subprocess
import unittest

from surbeldoi.check.checking import checked
from surbeldoi.check.ordering import Refused
from surbeldoi.commands import run
from surbeldoi.records.stream import FORMS, PIXELS, Rows, read
from tests.test_checking import contents, record, verdict

STORED = os.path.join(run.TOP, "crates", "test_program")
# Stored scripts whose actors wait for one another.
WAITING = ("phone.sf", "producers-with-two-buffers.sf", "sixteen-actors-in-a-ring.sf", "two-transactions.sf", "a-signal-that-is-held-back.sf")
PROGRAM = run.built(run.TOP)


def rows_of(text):
    return [tuple(map(int, re.split("[ =]", row.strip()))) for row in text.split("|") if row.strip()]


def field_of(form, words):
    """A field of a record, from the words of its line."""
    if form == PIXELS:
        runs = (word.split("*") for word in words)
        return b"".join(bytes.fromhex(colour) * int(length) for length, colour in runs)
    if not isinstance(form, Rows):
        return int(words[0])
    if "|" in words or not words:
        return rows_of(" ".join(words))
    return [tuple(map(int, word.split("="))) for word in words]


def record_of(line):
    """The record that a line of the plain form says."""
    tag, *words = line.split()
    fields = {}
    for name, form in FORMS[tag]:
        is_one = form != PIXELS and not isinstance(form, Rows)
        fields[name] = field_of(form, words[:1] if is_one else words)
        words = words[1:] if is_one else []
    return record(tag, fields)


def script_of(title):
    """The script of a stored run: that of its name, a line behind it, and a comment up to its length."""
    name, _, line = title.partition(": ")
    path = os.path.join(STORED, "data", name)
    script = contents(path + ".sf") + (line.replace(";", "\n").encode() if os.path.exists(path + ".lines") else b"")
    return script + b"#" * (int(contents(path + ".length")) - len(script) if os.path.exists(path + ".length") else 0)


def stored_runs():
    """The titles of the stored runs that came to their end, each with the lines of its records."""
    parts = re.split(r"^== (.*) status ([0-9])\n", contents(STORED, "stdout").decode(), flags=re.M)
    runs = zip(parts[1::3], parts[2::3], parts[3::3])
    return [(title, lines.split("==")[0].splitlines()) for title, status, lines in runs if status == "0" and lines.startswith("SCEN")]


def words_of_run(title):
    path = os.path.join(STORED, "data", title.partition(": ")[0] + ".words")
    return contents(path).split() if os.path.exists(path) else []


class Stored(unittest.TestCase):
    def test_each_stored_run_is_accepted(self):
        count = 0
        for title, lines in stored_runs():
            words = words_of_run(title)
            if b"gen" in words:
                continue
            with self.subTest(title=title):
                told = [record_of(line) for line in lines]
                self.assertIsNone(verdict(script_of(title), told, is_play=b"live" not in words, is_live=b"live" in words, is_queue=b"queue" in words))
                count += 1
        self.assertGreater(count, 100)


def bytes_of(script, *words):
    return subprocess.run([PROGRAM, *words], input=script, stdout=subprocess.PIPE, timeout=60, check=True).stdout


@unittest.skipUnless(PROGRAM, "sf_main is not built")
class Program(unittest.TestCase):
    def check(self, script, is_live, *words):
        told, _ = read(bytes_of(script, *words))
        try:
            checked(script, told, not is_live, is_live, "queue" in words)
        except Refused as refused:
            self.fail(str(refused))

    def test_plays_and_live_runs_of_the_scenes_are_accepted(self):
        scenes = os.path.join(run.TOP, "scenes")
        paths = [os.path.join(scenes, name) for name in sorted(os.listdir(scenes))] + [os.path.join(STORED, "data", name) for name in WAITING]
        for number, path in enumerate(paths):
            script = contents(path)
            with self.subTest(name=os.path.basename(path)):
                self.check(script, False, "--workers", str(number % 3 + 1))
                for again in range(3):
                    for intake in ("lock", "queue"):
                        self.check(script, True, "--run", "live", "--intake", intake, "--workers", str((number + again) % 4 + 1))


if __name__ == "__main__":
    unittest.main()
