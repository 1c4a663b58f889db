"""Tests of trials: what is told of a program that does right, and of some that do not; and fuzz.py."""

import contextlib
import io
import os
import subprocess
import sys
import tempfile
import unittest

from surbeldoi import TOP
from surbeldoi.commands import fuzz
from surbeldoi.fuzz.faults import faulty_script
from surbeldoi.fuzz.scenes import random_scene
from surbeldoi.fuzz.trials import KINDS, judged, tried
from surbeldoi.model.playing import Play
from surbeldoi.script.first_fault import first_fault
from surbeldoi.script.scenes import read_scene
from tests.encoded import stream_of

MODEL = """#!{python} -B
import sys
sys.path.insert(0, {tools!r})
from tests.test_fuzz_trials import output_of
status, output = output_of(sys.stdin.buffer.read())
sys.stdout.buffer.write(output[:len(output) - {cut}])
sys.exit(status)
"""


def output_of(script):
    """What a program that does right ends with and writes, by the model of the tools."""
    fault = first_fault(script)
    if fault:
        return 2, stream_of([("SFLT", {"line": fault.line, "word": fault.word, "cause": fault.cause})])
    return 0, stream_of(Play(read_scene(script)).records())


class Model:
    """Stands in for the program: what it ends with, writes and says may be changed."""

    def __init__(self, change=lambda status, output: (status, output), complaint=b""):
        self.change, self.complaint, self.calls = change, complaint, []

    def run(self, script, *words):
        self.calls.append(words)
        return *self.change(*output_of(script)), self.complaint


class Late:
    def run(self, script, *words):
        raise subprocess.TimeoutExpired("sf_main", 1)


def another_reply(status, output):
    at = output.index(b"REPL") + 19
    return status, output[:at] + bytes((output[at] ^ 15,)) + output[at + 1:]


def other_fault(status, output):
    return status, output[:-1] + bytes((output[-1] % 11 + 1,))


SEED = next(seed for seed in range(1, 50) if len(random_scene(seed)) > 700)
FAULTY = next(seed for seed in range(1, 50) if first_fault(faulty_script(seed)))


class Judged(unittest.TestCase):
    def part(self, program, kind, seed):
        differs = tried(program, kind, seed).differs
        return differs and differs.part

    def test_what_is_right(self):
        for seed in range(SEED, SEED + 6):
            for kind in ("valid", "faulty"):
                self.assertIsNone(self.part(Model(), kind, seed), f"{kind} {seed}")
        trial = tried(Model(), "valid", SEED)
        self.assertEqual((trial.met["record", "DONE"], trial.met["record", "SCEN"]), (1, 1))
        fault = first_fault(faulty_script(FAULTY))
        self.assertEqual([(thing[0], thing[2]) for thing in tried(Model(), "faulty", FAULTY).met], [("fault", fault.cause)])

    def test_what_is_wrong(self):
        cases = (
            ("another status", Model(lambda status, output: (1, output)), "valid", "status"), ("words on standard error", Model(complaint=b"x"), "valid", "status"),
            ("a reply changed", Model(another_reply), "valid", "check, replies"), ("no end", Model(lambda status, output: (status, output[:-8])), "valid", "stream"),
            ("a cut record", Model(lambda status, output: (status, output[:-1])), "valid", "stream"), ("nothing", Model(lambda status, output: (status, b"")), "valid", "stream"),
            ("no scene", Model(lambda status, output: (2, output)), "valid", "status"), ("too late", Late(), "valid", "time"), ("replies before vsyncs", Model(), "live", "live"),
            ("another cause", Model(other_fault), "faulty", "fault"), ("played, though it is faulty", Model(lambda status, output: (0, output)), "faulty", "fault"),
        )
        for name, program, kind, wanted in cases:
            self.assertEqual(self.part(program, kind, FAULTY if kind == "faulty" else SEED), wanted, name)

    def test_the_tools_own_faults_are_told(self):
        class Broken:
            def run(self, script, *words):
                raise ZeroDivisionError
        self.assertEqual(self.part(Broken(), "valid", SEED), "tools, ZeroDivisionError")

    def test_words_of_the_runs(self):
        for kind, wanted in (("valid", ()), ("live", ("--run", "live")), ("queue", ("--run", "live", "--intake", "queue"))):
            program = Model()
            judged(program, kind, random_scene(SEED), SEED)
            words = program.calls[0]
            self.assertEqual(words[:-2], wanted, kind)
            self.assertEqual((words[-2], 1 <= int(words[-1]) <= 16), ("--workers", True), kind)


class Command(unittest.TestCase):
    def setUp(self):
        folder = tempfile.TemporaryDirectory()
        self.addCleanup(folder.cleanup)
        self.folder = folder.name

    def call(self, *given):
        out, err = io.TextIOWrapper(io.BytesIO(), encoding="utf-8"), io.StringIO()
        with contextlib.redirect_stdout(out), contextlib.redirect_stderr(err):
            status = fuzz.main(list(given))
        out.flush()
        return status, out.buffer.getvalue().decode(), err.getvalue()

    def program(self, cut=0):
        path = os.path.join(self.folder, "program")
        with open(path, "w", encoding="utf-8") as file:
            file.write(MODEL.format(python=sys.executable, tools=os.path.join(TOP, "tools"), cut=cut))
        os.chmod(path, 0o755)
        return path

    def test_a_program_that_does_right(self):
        status, out, err = self.call("--program", self.program(), "--kinds", "valid,faulty", "--seeds", "3..4", "--keep", self.folder)
        self.assertEqual((status, err), (0, ""))
        for text in ("valid: seeds 3..4, 0 of 2 differ; per thousand they met", "  records: SCEN 1000", "  not met: ", "4 scripts in ", ", 0 differ"):
            self.assertIn(text, out)

    def test_what_differs_is_kept_and_made_small(self):
        status, out, _ = self.call("--program", self.program(cut=4), "--kinds", "faulty", "--seeds", str(FAULTY), "--keep", self.folder)
        self.assertEqual(status, 1)
        self.assertIn(f"faulty {FAULTY}: ", out)
        with open(os.path.join(self.folder, f"faulty-{FAULTY}.sf"), "rb") as file:
            self.assertEqual(file.read(), faulty_script(FAULTY))
        with open(os.path.join(self.folder, f"faulty-{FAULTY}.small.sf"), "rb") as file:
            self.assertLessEqual(len(file.read()), len(faulty_script(FAULTY)))
        with open(os.path.join(self.folder, f"faulty-{FAULTY}.txt"), encoding="utf-8") as file:
            self.assertIn("stream: record 1", file.read())

    def test_what_differs_comes_out_of_each_process(self):
        path = os.path.join(self.folder, "wrong")
        with open(path, "w", encoding="utf-8") as file:
            file.write("#!/bin/sh\nexit 7\n")
        os.chmod(path, 0o755)
        status, out, _ = self.call("--program", path, "--jobs", "2", "--kinds", "faulty", "--seeds", f"{FAULTY}..{FAULTY + 1}", "--keep", self.folder, "--brief")
        self.assertEqual(status, 1)
        self.assertIn(f"faulty {FAULTY}: fault: it ends with status 7", out)

    def test_a_script_is_shown(self):
        for kind in KINDS:
            script = faulty_script(5) if kind == "faulty" else random_scene(5)
            self.assertEqual(self.call("--show", kind, "--seeds", "5")[1].encode(), script.replace(b"\r\n", b"\r\n"), kind)

    def test_words_that_are_wrong(self):
        for given in (("--seeds", "3..2"), ("--seeds", "a"), ("--seeds", "1.."), ("--kinds", "x"), ("--jobs", "0"), ("--minutes", "x"), ("--program", "no-such-file"), ("x",)):
            status, out, err = self.call(*given)
            self.assertEqual((status, out, err.count("\n")), (2, "", 1), given)
        self.assertEqual(self.call("--help")[0], 0)


if __name__ == "__main__":
    unittest.main()
