"""Tests of waiting.py."""

import io
import os
import signal
import subprocess
import tempfile
import threading
import time
import unittest

from surbeldoi.build.waiting import Counts, Stages, awaited, names_below, size_text
from tests.test_records import RED, record


class Counting(unittest.TestCase):
    def test_records_are_counted_however_their_bytes_come(self):
        for size in (1, 3, 8, 1000):
            counts = Counts()
            for at in range(0, len(RED), size):
                counts.add(RED[at:at + size])
            self.assertEqual(counts.text(), f"1 steps, 1 vsyncs, 1 frames, {len(RED)} bytes", size)

    def test_nothing_is_counted_before_a_whole_head(self):
        counts = Counts()
        counts.add(record("DONE")[:7])
        self.assertEqual(counts.text(), "")

    def test_bytes_are_told_as_people_do(self):
        for count, text in ((0, "0 bytes"), (1023, "1023 bytes"), (1024, "1.0 KiB"), (1536 * 1024, "1.5 MiB"), (5 << 40, "5120.0 GiB")):
            self.assertEqual(size_text(count), text)


class Telling(unittest.TestCase):
    """What is told of the stages of a command."""

    def setUp(self):
        self.stages = Stages(("checks", (), 40), ("compiles", ("clang", "ld.lld"), 20), ("plays", ("program",), 4))

    def texts(self, *times):
        return [self.stages.text(seconds, set(names)) for seconds, *names in times]

    def test_each_stage_is_told_once_its_process_is_there(self):
        self.assertEqual(self.texts((1, "rt"), (40, "rt"), (41, "rt", "clang"), (60, "rt"), (62, "rt", "program")), [
            "checks: 1 s of about 64", "checks: 40 s of about 64", "compiles: 41 s of about 66", "compiles: 60 s of about 66", "plays: 62 s of about 66"])

    def test_a_slow_machine_takes_longer_in_all(self):
        self.assertEqual(self.texts((80, "rt"), (100, "clang"), (120, "clang")),
                         ["checks: 80 s of about 128", "compiles: 100 s of about 160", "compiles: 120 s of about 160"])

    def test_a_stage_that_was_not_seen_is_left_out(self):
        self.assertEqual(self.texts((50, "program")), ["plays: 50 s of about 53"])

    def test_where_no_time_is_known_none_is_told(self):
        self.assertEqual(Stages(("proves", (), None)).text(7.4, {"rattle"}), "proves: 7 s")

    @unittest.skipUnless(os.path.isdir("/proc/self"), "the system does not tell its processes")
    def test_the_processes_below_one_are_found(self):
        with subprocess.Popen(["sh", "-c", "sleep 60 & wait"], start_new_session=True) as process:
            begun = time.monotonic()
            while "sleep" not in names_below(process.pid) and time.monotonic() - begun < 30:
                time.sleep(0.05)
            found = names_below(process.pid)
            os.killpg(process.pid, signal.SIGTERM)
        self.assertEqual(found, {"sleep"})


class Waiting(unittest.TestCase):
    def setUp(self):
        folder = tempfile.TemporaryDirectory()
        self.addCleanup(folder.cleanup)
        self.folder = folder.name
        with open(os.path.join(self.folder, "records"), "wb") as file:
            file.write(RED)

    def awaited(self, *command, each=5, stages=Stages(("does", (), None))):
        sink, told, self.said = io.BytesIO(), [], []
        status = awaited(command, self.folder, subprocess.DEVNULL, sink, told.append, self.said.append, stages, each)
        return status, sink.getvalue(), told

    def test_it_is_told_how_far_a_slow_program_is(self):
        status, data, told = self.awaited("sh", "-c", "cat records; sleep 1; exit 3", each=0.3)
        self.assertEqual((status, data), (3, RED))
        self.assertIn(f"0 s: 1 steps, 1 vsyncs, 1 frames, {len(RED)} bytes", told)

    def test_before_anything_comes_the_stage_is_told(self):
        _, _, told = self.awaited("sh", "-c", "sleep 1", each=0.3, stages=Stages(("begins", (), 2), ("sleeps", ("sleep",), 2)))
        self.assertRegex(told[-1], r"^(begins|sleeps): 1 s of about \d+$")

    def test_what_it_says_is_said(self):
        self.assertEqual(self.awaited("sh", "-c", "echo one >&2; echo two >&2")[0], 0)
        self.assertEqual(self.said, ["one\n", "two\n"])

    def test_of_a_fast_program_nothing_is_told(self):
        self.assertEqual(self.awaited("true"), (0, b"", []))

    def test_a_file_that_cannot_be_written_is_told(self):
        with open(os.path.join(self.folder, "records"), "rb") as sink, self.assertRaises(OSError):
            awaited(["sh", "-c", "cat records records"], self.folder, subprocess.DEVNULL, sink, print, print, Stages(("does", (), None)))

    def test_an_interrupted_wait_ends_the_program(self):
        def interrupt(_):
            raise KeyboardInterrupt
        begun = time.monotonic()
        with self.assertRaises(KeyboardInterrupt):
            awaited(["sleep", "60"], self.folder, subprocess.DEVNULL, io.BytesIO(), interrupt, print, Stages(("does", (), None)), each=0.1)
        self.assertLess(time.monotonic() - begun, 50)

    def test_it_is_ended_where_there_is_enough_of_it(self):
        enough, sink = threading.Event(), io.BytesIO()
        threading.Timer(0.3, enough.set).start()
        status = awaited(["sh", "-c", "cat records; exec sleep 60"], self.folder, subprocess.DEVNULL, sink, print, print,
                         Stages(("does", (), None)), enough=enough)
        self.assertEqual((status, sink.getvalue()), (-signal.SIGTERM, RED))


if __name__ == "__main__":
    unittest.main()
