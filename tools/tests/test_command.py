"""Tests of sf_main called with words and streams of every kind; they need the program that `rt run` or `rt ci` built."""

import os
import pty
import struct
import subprocess
import sys
import unittest

from surbeldoi.check.ordering import Ordered, check_opening
from surbeldoi.commands import run
from surbeldoi.records import stream
from surbeldoi.script.scenes import read_scene

PROGRAM = run.built(run.TOP)
NO_RECORDS = (b"sf_main: records are binary and are not written to a terminal; "
              b"write them to a file (> RECORDS) or through a pipe, or ask for --help\n")
WAITS = b"sf_main: waits for a script on standard input, from the terminal; Ctrl-D ends it\n"
VERSION = b"sf_main 1.0.0 (scripts 1 and 2, records 1)"
USAGE = b"usage: sf_main [--run play|live|gen] [--workers N] [--number N] [--summary] [--intake lock|queue]\n"


def called(*words, script=b"", **streams):
    """The status of a call, and what it wrote on both streams."""
    if "stdin" not in streams:
        streams["input"] = script
    ended = subprocess.run([PROGRAM, *words], **{"stdout": subprocess.PIPE, **streams}, stderr=subprocess.PIPE, timeout=60)
    return ended.returncode, ended.stdout, ended.stderr


def scene(name):
    with open(os.path.join(run.TOP, "scenes", name), "rb") as file:
        return file.read()


def panes(count):
    """A large display of so many panes that let light through; most of them move before the second frame."""
    first, second = ["tx 1"], ["tx 1"]
    for number in range(1, count + 1):
        first += [f"set 1 {number} create colour 0", f"set 1 {number} colour {number:02x}{200 - number:02x}40c8", f"set 1 {number} alpha {255 - number}",
                  f"set 1 {number} crop {7 * number} {11 * number} 700 {900 - 13 * number}"]
        second += [f"set 1 {number} position {number % 5} {3 * number % 17}"]
    turns = (first + ["apply 1 token 1"], second + ["apply 1 token 1"])
    order = " v ".join(f"1*{len(steps)}" for steps in turns)
    return "\n".join(["scene 1 1024 1024 16666667", "actor 1", *turns[0], *turns[1], f"order {order} v", "end", ""]).encode()


def with_memory(size, *words, script=b""):
    """The status of a call that gets so many bytes of memory, and what it wrote; None where it can't even begin."""
    limit = "import os, resource, sys; resource.setrlimit(resource.RLIMIT_AS, (int(sys.argv[1]),) * 2); os.execv(sys.argv[2], sys.argv[2:])"
    ended = subprocess.run([sys.executable, "-c", limit, str(size), PROGRAM, *words], input=script, stdout=subprocess.PIPE, stderr=subprocess.PIPE, timeout=60)
    began = 0 <= ended.returncode <= 5 and b"Error" not in ended.stderr
    return (ended.returncode, ended.stdout, ended.stderr) if began else None


def left_after(size, *words, script):
    """The status of a call whose output is closed after so many bytes were read, and these bytes."""
    with subprocess.Popen([PROGRAM, *words], stdin=subprocess.PIPE, stdout=subprocess.PIPE, stderr=subprocess.DEVNULL) as called:
        called.stdin.write(script)
        called.stdin.close()
        records = called.stdout.read(size)
        called.stdout.close()
        return called.wait(timeout=60), records


def is_cut_once(data):
    """Whether these are whole records, and behind them at most one that is cut."""
    records, _ = stream.read(data)
    return all(not record.faults for record in records[:-1]) and all(record.is_cut or not record.faults for record in records[-1:])


def vsyncs_begun(script, data):
    """The vsyncs with which a live run begins that wrote this: SCEN, whole vsyncs, and only then the replies and the closing records. What is
    cut is left out. Raises Refused where the records have another order."""
    records, _ = stream.read(data)
    ordered, vsyncs = Ordered([record for record in records if not record.is_cut]), []
    if ordered.records:
        check_opening(ordered.take("SCEN"), read_scene(script))
    while ordered.tag() == "VSYN":
        vsyncs.append(ordered.vsync())
    for tag in ("REPL", "ARRV", "HIST", "HOLD", "STUK", "DONE"):
        ordered.take_all(tag)
    if ordered.at < len(ordered.records):
        raise ordered.wrong("the next record of a run")
    return vsyncs


class Terminal:
    """A terminal, as a pair of ends: what a program reads and writes, and what a person does."""

    def __enter__(self):
        self.person, self.program = pty.openpty()
        return self

    def __exit__(self, *_):
        os.close(self.person)
        os.close(self.program)

    def shown(self):
        """What stands on it by now."""
        os.set_blocking(self.person, False)
        try:
            return os.read(self.person, 1 << 16)
        except BlockingIOError:
            return b""


@unittest.skipUnless(PROGRAM, "sf_main is not built")
class Command(unittest.TestCase):
    def test_the_page_of_help_names_every_option_and_status(self):
        status, page, err = called("--help")
        self.assertEqual((status, err), (0, b""))
        for word in (b"--run V", b"--workers N", b"--number N", b"--summary", b"--intake V", b"--help, -h", b"--version", b"docs/SCRIPT.md", b"docs/RECORDS.md"):
            self.assertIn(word, page)
        for number in range(6):
            self.assertIn(b"\n        %d   " % number if number else b"status: 0   ", page)
        self.assertEqual(called("-h"), (0, page, b""))

    def test_the_version_stands_alone(self):
        self.assertEqual(called("--version"), (0, VERSION + b"\n", b""))

    def test_wrong_words_are_told_and_nothing_is_played(self):
        for words in (("--fast",), ("scene.sf",), ("--run",), ("--run", "sideways"), ("--workers", "0"), ("--workers", "17"), ("--number", "-1"),
                      ("--summary", "--summary"), ("--run", "live", "--summary"), ("--intake", "queue"), ("--run", "gen", "--intake", "queue"),
                      ("--run", "live", "--intake", "rope"), ("--run", "live", "--intake"), ("--help", "--version"), ("--run", "--help")):
            with self.subTest(words=words):
                self.assertEqual(called(*words, script=scene("red.sf")), (1, b"", USAGE))

    def test_a_script_that_is_no_scene(self):
        status, records, err = called(script=b"scene 1\nsideways\n")
        self.assertEqual((status, err), (2, b"script fault\n"))
        self.assertEqual(records, b"SFLT" + struct.pack(">4I", 12, 1, 3, 4))

    def test_standard_input_that_cannot_be_read(self):
        folder = os.open(run.TOP, os.O_RDONLY)
        self.addCleanup(os.close, folder)
        self.assertEqual(called(stdin=folder)[::2], (3, b"read failed\n"))

    @unittest.skipUnless(os.path.exists("/dev/full"), "there is no /dev/full")
    def test_standard_output_that_cannot_be_written(self):
        for words in ((), ("--run", "live"), ("--run", "live", "--intake", "queue"), ("--run", "gen"), ("--summary",), ("--help",)):
            with self.subTest(words=words), open("/dev/full", "wb") as full:
                status, _, err = called(*words, script=scene("red.sf"), stdout=full)
                self.assertEqual((status, err), (4, b"write failed\n"))

    def test_want_of_memory_is_no_wrong_word(self):
        many = ["x" * 100_000] * 12
        began = [ended for ended in (with_memory(size << 17, *many) for size in range(8, 128, 5)) if ended]
        self.assertEqual(began[0], (5, b"", b"out of memory\n"))
        self.assertEqual(began[-1], (1, b"", USAGE))
        self.assertEqual(began, sorted(began, key=lambda ended: -ended[0]), "with more memory")

    def begins(self, script, records):
        """What a live run wrote is a beginning: its vsyncs have rising numbers and their times, and all but the last one have a commit."""
        self.assertTrue(is_cut_once(records))
        vsyncs = vsyncs_begun(script, records)
        numbers = [vsync.record.fields["number"] for vsync in vsyncs]
        self.assertEqual(numbers, sorted(set(numbers)), "numbers rise")
        self.assertEqual([vsync.record.fields["expected"] for vsync in vsyncs], [number * read_scene(script).period for number in numbers], "times")
        self.assertTrue(all(vsync.commits for vsync in vsyncs[:-1]), "each vsync commits something")
        return len(vsyncs)

    def test_a_live_run_whose_reader_goes(self):
        with open(os.path.join(run.TOP, "crates", "test_program", "data", "phone.sf"), "rb") as file:
            script = file.read()
        for words in (), ("--intake", "queue"):
            whole = called("--run", "live", *words, script=script)[1]
            for read in (0, 1, 30, len(whole) // 3, len(whole) * 2 // 3, len(whole) - 1):
                with self.subTest(words=words, read=read):
                    status, records = left_after(read, "--run", "live", *words, script=script)
                    self.assertIn(status, (0, 4), "a pipe holds some bytes that nobody reads")
                    self.assertLessEqual(len(records), read)
                    self.begins(script, records)

    def test_a_live_run_with_little_memory(self):
        with open(os.path.join(run.TOP, "crates", "test_program", "data", "phone.sf"), "rb") as file:
            script = file.read()
        for words in (), ("--intake", "queue"):
            ended = [with_memory(size << 20, "--run", "live", *words, script=script) for size in (*range(4, 36, 2), 48, 64, 128, 1024)]
            began = [one for one in ended if one]
            for status, records, err in began:
                self.assertIn((status, err), [(0, b""), (5, b"out of memory\n")])
                self.begins(script, records)
                self.assertEqual(records.endswith(b"DONE" + bytes(4)), status == 0)
            self.assertEqual((began[0][0], began[-1][0]), (5, 0), "with the least and the most memory")

    def test_records_are_not_written_to_a_terminal(self):
        for words in ((), ("--run", "live"), ("--run", "gen"), ("--summary",)):
            with self.subTest(words=words), Terminal() as terminal, open(os.path.join(run.TOP, "scenes", "red.sf"), "rb") as script:
                self.assertEqual(called(*words, stdin=script, stdout=terminal.program), (1, None, NO_RECORDS))
                self.assertEqual((terminal.shown(), os.lseek(script.fileno(), 0, os.SEEK_CUR)), (b"", 0), "nothing is read or written")

    def test_text_is_written_to_a_terminal_and_wrong_words_are_told(self):
        with Terminal() as terminal:
            self.assertEqual(called("--version", stdout=terminal.program), (0, None, b""))
            self.assertEqual(terminal.shown(), VERSION + b"\r\n")
            self.assertEqual(called("--fast", stdin=terminal.program, stdout=terminal.program), (1, None, USAGE))

    def test_a_script_that_is_typed_is_waited_for(self):
        for words in ((), ("--summary",)):
            with self.subTest(words=words), Terminal() as terminal:
                os.write(terminal.person, scene("red.sf") + b"\x04")
                _, records, _ = called(*words, script=scene("red.sf"))
                self.assertEqual(called(*words, stdin=terminal.program), (0, records, WAITS))

    def test_a_generated_script_is_not_waited_for(self):
        with Terminal() as terminal:
            self.assertEqual(called("--run", "gen", stdin=terminal.program), called("--run", "gen"))

    def test_the_frames_are_the_same_for_every_number_of_workers(self):
        for name, script in (("phone", scene("phone.sf")), ("panes", panes(40))):
            alone = called(script=script)
            self.assertEqual((alone[0], alone[2]), (0, b""))
            for workers in ("2", "5", "16"):
                with self.subTest(name=name, workers=workers):
                    self.assertEqual(called("--workers", workers, script=script), alone)


if __name__ == "__main__":
    unittest.main()
