"""Tests of records.py."""

import array
import contextlib
import fcntl
import io
import json
import os
import signal
import struct
import subprocess
import sys
import tempfile
import termios
import time
import unittest
import unittest.mock
import zlib

from surbeldoi import TOP
from surbeldoi.commands import records

TOOL = os.path.join(TOP, "tools", "records.py")


def record(tag, *numbers, rest=b""):
    """A record of numbers of 32 bits, or of 64 where they stand in a tuple."""
    body = b"".join(struct.pack(">Q", n[0]) if isinstance(n, tuple) else struct.pack(">I", n) for n in numbers) + rest
    return tag.encode() + struct.pack(">I", len(body)) + body


# The records of one red layer on a display of 2 x 1, as bytes.
RED = bytes.fromhex(
    "5343454e00000014000000010000000200000001" "0000000000fe502b"
    "5245504c00000010" "00000001000000010000000000000000"
    "5653594e00000010" "000000010000000000fe502b00000000"
    "434f4d4d00000014" "0000000100000001000000000000000000000000"
    "4652414d0000000c" "00000001ff0000ffff0000ff"
    "4152525600000010" "00000001000000010000000400000001"
    "484f4c440000000400000000" "5354554b0000000400000000" "444f4e4500000000"
)
# The same with all replies, and its script.
WHOLE = RED[:28] + b"".join(record("REPL", 1, step, 0, 0) for step in (1, 2, 3)) + record("REPL", 1, 4, 0, 1, (1,)) + RED[52:]
RED_SCRIPT = b"scene 1 2 1 16666667\nactor 1\ntx 1\nset 1 1 create colour 0\nset 1 1 colour ff0000ff\napply 1 token 1\norder 1*4 v\nend\n"
SCEN = record("SCEN", 1, 2, 1, (1000000,))
DONE = record("DONE")
NO_SLOT = 4294967295

# A run of two actors: a buffer that is lent, queued and released, a refused call, a reject, what is held and who is stuck.
LONG = b"".join([
    SCEN,
    record("REPL", 1, 1, 0, 0),
    record("REPL", 2, 1, 13, 0),
    record("REPL", 1, 2, 0, 2, (5,), (18446744073709551615,)),
    record("VSYN", 1, (1000000,), 2, 1, (7,), 2, (9,)),
    record("COMM", 4294967295, 1, 0, 0, 1, 8, 3, (1,), 2, 0, 0, 2, 1),
    record("COMM", 2, 2, 6, 3, 0),
    record("FRAM", 1, 0xff0000ff, 0xff0000ff),
    record("REPL", 1, 3, 0, 0),
    record("VSYN", 3, (3000000,), 0),
    record("COMM", 2, 3, 0, 0, 0),
    record("FRAM", 3, 0x00000080, 0xffffffff),
    record("ARRV", 3, 1, 2, 4294967295, 2, 1, 2, 1, 3, 2),
    record("HIST", 3, 5,
           1, 1, 1, 0, NO_SLOT, (0,), 1, 2, 5, 0, 4, (0,), 2, 1, 5, 13, NO_SLOT, (0,),
           1, 3, 7, 0, 4, (1,), 0, 3, 14, 0, 4, (1,)),
    record("HOLD", 1, 4, 2, (5000,), (0,)),
    record("STUK", 1, 2, 2),
    DONE,
])

# A frame from its queue to the display, a refused step and a step that waits; and their script.
BUFFER_SCRIPT = b"""scene 1 2 1 1000000
timeline 1
queue 1 2 1
picture 1 2 1
actor 1
connect 1
dequeue 1 as s
request s
draw s 1
queue s 1 fence 1 1
acquire 1 as i
set 1 1 create buffer 0
signal 1 1
tx 1
set 1 1 create buffer 0
buffer 1 1 i
apply 1 token 1
wait 1 7
order 1*13 v
end
"""
BUFFER = b"".join([
    SCEN,
    record("REPL", 1, 1, 0, 0),
    record("REPL", 1, 2, 0, 3, (0,), (1,), (1,)),
    record("REPL", 1, 3, 0, 4, (0,), (1,), (2,), (1,)),
    record("REPL", 1, 4, 0, 0),
    record("REPL", 1, 5, 0, 2, (0,), (1,)),
    record("REPL", 1, 6, 0, 6, (0,), (1,), (1,), (0,), (1,), (1,)),
    record("REPL", 1, 7, 15, 0), record("REPL", 1, 8, 0, 0), record("REPL", 1, 9, 0, 0), record("REPL", 1, 10, 0, 0), record("REPL", 1, 11, 0, 0),
    record("REPL", 1, 12, 0, 1, (1,)),
    record("VSYN", 1, (1000000,), 1, 1, (1,)),
    record("COMM", 1, 1, 0, 0, 1, 1, 1, (1,), 1, 0, 0, 2, 1),
    record("FRAM", 1, 0xff, 0xff),
    record("ARRV", 1, 1, 12, 1),
    record("HIST", 1, 5, 1, 1, 1, 0, NO_SLOT, (0,), 1, 2, 5, 0, 0, (0,), 1, 3, 6, 0, 0, (0,), 1, 5, 7, 0, 0, (1,), 1, 6, 13, 0, 0, (1,)),
    record("HOLD", 0),
    record("STUK", 1, 1, 13),
    DONE,
])

# A run with two further displays, a capture and a hit, and the script that declares them.
OUTPUTS = b"".join([
    record("SCEN", 2, 2, 1, (1000000,)),
    record("VSYN", 1, (1000000,), 0),
    record("COMM", 1, 1, 0, 0, 0),
    record("FRAM", 1, 0xff0000ff, 0xff0000ff),
    record("FRAD", 2, 1, 0x0000ffff),
    record("FRAD", 5, 1, 1, 1, 2),
    record("CAPT", 1, 1, 7, 8),
    record("HITS", 3, 1, 9),
    record("VSYN", 2, (2000000,), 0),
    record("COMM", 1, 2, 0, 0, 0),
    record("FRAM", 2, 0xff0000ff, 0xff0000ff),
    record("FRAD", 2, 2, 0x0000ffff),
    record("FRAD", 5, 2, 1, 1, 2),
    record("HITS", 3, 2, 0),
    record("ARRV", 0), record("HOLD", 0), record("STUK", 0),
    DONE,
])
OUTPUTS_SCRIPT = b"scene 2 2 1 1000000\ndisplay 5 3 1 7\ndisplay 2 1 1 0\ncapture 1 9 1 2\nhit 3 0 0\nend\n"


def run(*words):
    out, err = io.StringIO(), io.StringIO()
    with contextlib.redirect_stdout(out), contextlib.redirect_stderr(err):
        status = records.main(list(words))
    return status, out.getvalue(), err.getvalue()


class Case(unittest.TestCase):
    def setUp(self):
        folder = tempfile.TemporaryDirectory()
        self.addCleanup(folder.cleanup)
        self.folder = folder.name

    def path(self, name):
        return os.path.join(self.folder, name)

    def tool(self, *words, **more):
        return subprocess.Popen([sys.executable, "-B", TOOL, *words], stderr=subprocess.PIPE, **more)

    def file(self, data, name="records"):
        with open(self.path(name), "wb") as file:
            file.write(data)
        return self.path(name)


class Dump(Case):
    def test_each_record_is_told(self):
        status, out, err = run("dump", self.file(RED))
        self.assertEqual((status, err), (0, ""))
        lines = out.splitlines()
        self.assertEqual([line[:4] for line in lines], ["SCEN", "REPL", "VSYN", "COMM", "FRAM", "ARRV", "HOLD", "STUK", "DONE"])
        self.assertIn("2 x 1, period 16666667 ns", lines[0])
        self.assertIn("token 1, arrival 1: committed", lines[3])
        self.assertIn("1: actor 1 step 4 token 1", lines[5])

    def test_values_stand_in_brackets_and_no_values_have_none(self):
        _, out, _ = run("dump", self.file(LONG))
        lines = out.splitlines()
        self.assertEqual(lines[1], "REPL reply of actor 1, step 1: Ok")
        self.assertEqual(lines[3], "REPL reply of actor 1, step 2: Ok (5 18446744073709551615)")

    def test_calls_rejects_holds_and_timelines_are_named(self):
        _, out, _ = run("dump", self.file(LONG))
        for text in (
            "VSYN vsync 1, expected 1000000 ns, timelines 1 at 7, 2 at 9",
            "arrival 1: committed, layer 8 shows queue 3 frame 1 picture 2 crop 0 0 2 1",
            "COMM token 2, arrival 2: rejected, wrong kind at operation 3",
            "HIST history of queue 3\n    actor 1 step 1: connect: Ok\n    actor 1 step 2: dequeue slot 4: Ok\n"
            "    actor 2 step 1: dequeue: WouldBlock\n",
            "    compositor vsync 3: release slot 4 frame 1: Ok\n",
            "HOLD held arrival 4: Time 5000 0",
            "STUK stuck actor 2 at step 2",
        ):
            self.assertIn(text, out)

    def test_what_version_2_shows_is_told(self):
        _, out, _ = run("dump", self.file(OUTPUTS))
        self.assertEqual([line for line in out.splitlines() if line[:4] in ("FRAD", "CAPT", "HITS")], [
            "FRAD frame of display 2 at vsync 1, 1 pixels",
            "FRAD frame of display 5 at vsync 1, 3 pixels",
            "CAPT capture 1 at vsync 1, 2 pixels",
            "HITS hit 3 at vsync 1: layer 9",
            "FRAD frame of display 2 at vsync 2, 1 pixels",
            "FRAD frame of display 5 at vsync 2, 3 pixels",
            "HITS hit 3 at vsync 2: no layer",
        ])

    def test_with_the_script_each_step_has_its_line_and_each_value_its_name(self):
        script = self.file(BUFFER_SCRIPT, "a.sf")
        status, out, err = run("dump", "--script", script, self.file(BUFFER))
        self.assertEqual((status, err), (0, ""))
        self.assertEqual(out.splitlines()[:13], [
            "SCEN scene version 1, 2 x 1, period 1000000 ns",
            "REPL reply of actor 1 step 1 (line 6: connect 1): Ok",
            "REPL reply of actor 1 step 2 (line 7: dequeue 1 as s): Ok: slot 0, buffer 1, new 1",
            "REPL reply of actor 1 step 3 (line 8: request s): Ok: slot 0, buffer 1, width 2, height 1",
            "REPL reply of actor 1 step 4 (line 9: draw s 1): Ok",
            "REPL reply of actor 1 step 5 (line 10: queue s 1 fence 1 1): Ok: slot 0, frame 1",
            "REPL reply of actor 1 step 6 (line 11: acquire 1 as i): Ok: slot 0, frame 1, picture 1, dropped 0, fence timeline 1 at 1",
            "REPL reply of actor 1 step 7 (line 12: set 1 1 create buffer 0): Empty: number 1 holds no transaction: no `tx 1` before",
            "REPL reply of actor 1 step 8 (line 13: signal 1 1): Ok",
            "REPL reply of actor 1 step 9 (line 14: tx 1): Ok",
            "REPL reply of actor 1 step 10 (line 15: set 1 1 create buffer 0): Ok",
            "REPL reply of actor 1 step 11 (line 16: buffer 1 1 i): Ok",
            "REPL reply of actor 1 step 12 (line 17: apply 1 token 1): Ok: arrival 1",
        ])
        self.assertEqual(run("dump", "--script", self.file(RED_SCRIPT, "b.sf"), self.file(BUFFER)), (
            1, "", "records.py: the script is not the one of these records: SCEN says [1, 2, 1, 1000000], and the script [1, 2, 1, 16666667]\n"))

    def test_each_status_has_its_name(self):
        for status, name in ((11, "BadValue"), (15, "Empty"), (16, "Occupied"), (99, "number 99")):
            _, out, _ = run("dump", self.file(SCEN + record("REPL", 1, 1, status, 0) + DONE))
            self.assertIn(f"step 1: {name}\n", out)

    def test_a_script_fault_is_told_with_and_without_its_place(self):
        status, out, err = run("dump", self.file(record("SFLT", 3, 4, 4)))
        self.assertEqual((status, out, err), (0, "SFLT script fault at line 3, word 4: missing word\n", ""))
        self.assertEqual(run("dump", self.file(record("SFLT", 0, 0, 9)))[1], "SFLT script fault: limit\n")


class Lines(Case):
    def lines(self, data):
        status, out, _ = run("lines", self.file(data))
        return status, out.splitlines()

    def test_the_plain_form_of_each_record(self):
        status, lines = self.lines(LONG)
        self.assertEqual(status, 0)
        self.assertEqual(lines, [
            "SCEN 1 2 1 1000000",
            "REPL 1 1 0",
            "REPL 2 1 13",
            "REPL 1 2 0 5 18446744073709551615",
            "VSYN 1 1000000 1=7 2=9",
            "COMM 4294967295 1 0 0 | 8 3 1 2 0 0 2 1",
            "COMM 2 2 6 3",
            "FRAM 1 2*ff0000ff",
            "REPL 1 3 0",
            "VSYN 3 3000000",
            "COMM 2 3 0 0",
            "FRAM 3 1*00000080 1*ffffffff",
            "ARRV | 1 2 4294967295 | 2 1 2 | 1 3 2",
            "HIST 3 | 1 1 1 0 4294967295 0 | 1 2 5 0 4 0 | 2 1 5 13 4294967295 0 | 1 3 7 0 4 1 | 0 3 14 0 4 1",
            "HOLD | 4 2 5000 0",
            "STUK | 2 2",
            "DONE",
        ])

    def test_what_version_2_shows(self):
        status, lines = self.lines(OUTPUTS)
        self.assertEqual((status, lines[3:8]), (0, ["FRAM 1 2*ff0000ff", "FRAD 2 1 1*0000ffff", "FRAD 5 1 2*00000001 1*00000002", "CAPT 1 1 1*00000007 1*00000008", "HITS 3 1 9"]))

    def test_empty_lists_a_summary_and_a_fault(self):
        empty = SCEN + record("ARRV", 0) + record("HIST", 1, 0) + record("HOLD", 0) + record("STUK", 0) + DONE
        self.assertEqual(self.lines(empty), (0, ["SCEN 1 2 1 1000000", "ARRV", "HIST 1", "HOLD", "STUK", "DONE"]))
        summary = record("SUMM", (983,), (61,), (123,), (0,), (61,), (7324508160,), (0,), (1,))
        self.assertEqual(self.lines(summary), (0, ["SUMM 983 61 123 0 61 7324508160 0 1"]))
        self.assertEqual(self.lines(record("SFLT", 0, 0, 9)), (0, ["SFLT 0 0 9"]))

    def test_a_run_of_pixels_goes_over_the_ends_of_rows(self):
        data = record("SCEN", 1, 3, 2, (1000000,)) + record("FRAM", 1, 1, 2, 2, 2, 2, 1) + DONE
        self.assertEqual(self.lines(data)[1][1], "FRAM 1 1*00000001 4*00000002 1*00000001")

    def test_what_is_left_of_a_cut_record_is_its_bytes(self):
        self.assertEqual(self.lines(SCEN + b"REPL\0\0\0\x10\0\0"), (1, ["SCEN 1 2 1 1000000", "CUT 5245504c000000100000"]))
        self.assertEqual(self.lines(SCEN + b"RE"), (1, ["SCEN 1 2 1 1000000", "CUT 5245"]))

    def test_a_record_that_is_not_read_is_its_bytes(self):
        self.assertEqual(self.lines(SCEN + b"WHAT\0\0\0\x01\xff" + DONE), (1, ["SCEN 1 2 1 1000000", "BAD 5748415400000001ff", "DONE"]))


class Wrong(Case):
    """What is wrong with a stream is told, and the rest of it too; the status is 1."""

    def wrong(self, data, *texts):
        for command in ("dump", "lines", "trace"):
            status, out, err = run(command, self.file(data))
            self.assertEqual(status, 1, command)
            for text in texts:
                self.assertIn(text, err, command)
        return run("dump", self.file(data))[1].splitlines()

    def test_a_stream_that_ends_inside_a_body_or_a_head(self):
        out = self.wrong(RED[:60], "record 3 (VSYN, at byte 52): the stream ends inside it, after 8 bytes")
        self.assertEqual(out[2], "VSYN unread, 8 bytes")
        self.wrong(RED[:54], "record 3 (VS, at byte 52): the stream ends inside it, after 2 bytes")

    def test_a_stream_without_its_end(self):
        self.wrong(RED[:-8], "the stream ends without DONE")
        self.wrong(b"", "the stream is empty")

    def test_a_body_that_is_shorter_than_its_form(self):
        for body in (record("REPL", 1, 1), record("REPL", 1, 1, 0, 3, (1,)), record("COMM", 1, 1, 0, 0, 4294967295), record("FRAM")):
            out = self.wrong(SCEN + body + DONE, "record 2", "bytes is shorter than")
            self.assertEqual(len(out), 3)

    def test_bytes_behind_the_form_of_a_body(self):
        self.wrong(SCEN + record("REPL", 1, 1, 0, 0, rest=b"abc") + DONE, "record 2 (REPL, at byte 28): 3 bytes behind the end of its form")
        self.wrong(SCEN + record("DONE", 1), "record 2 (DONE, at byte 28): 4 bytes behind the end of its form")

    def test_bytes_and_records_behind_the_end(self):
        self.wrong(RED + b"\0\0", "the stream ends inside it, after 2 bytes", "it stands behind the end of the run")
        self.wrong(RED + record("STUK", 0), "it stands behind the end of the run")

    def test_an_unknown_tag(self):
        self.assertEqual(self.wrong(SCEN + record("WHAT", 7) + DONE, "record 2 (WHAT, at byte 28): unknown tag WHAT")[1], "WHAT unread, 12 bytes")
        self.wrong(SCEN + b"\xff\0\n \0\0\0\0" + DONE, "unknown tag \\xff\\x00\\x0a\\x20")

    def test_a_frame_of_another_size_is_told_and_no_picture(self):
        for frame in (record("FRAM", 1, 1), record("FRAM", 1, 1, 2, 3), record("FRAM", 1, 1, rest=b"abc")):
            self.wrong(SCEN + frame + DONE, "record 2 (FRAM, at byte 28)", "where the display of 2 x 1 has 8")
            status, out, err = run("png", self.path("out"), self.file(SCEN + frame + DONE))
            self.assertEqual((status, out, os.listdir(self.path("out"))), (1, "", []))
            self.assertIn("where the display of 2 x 1 has 8", err)
        self.wrong(record("FRAM", 1, 1) + DONE, "a frame without SCEN before it")


class Pictures(Case):
    def test_a_frame_becomes_a_png_of_its_pixels(self):
        status, out, err = run("png", self.path("out"), self.file(RED))
        self.assertEqual((status, out.splitlines(), err), (0, [self.path("out/frame-1.png")], ""))
        with open(self.path("out/frame-1.png"), "rb") as file:
            data = file.read()
        self.assertEqual(struct.unpack_from(">II", data, 16), (2, 1))
        start = data.index(b"IDAT") + 4
        (length,) = struct.unpack_from(">I", data, start - 8)
        self.assertEqual(zlib.decompress(data[start:start + length]), b"\0" + b"\xff\0\0\xff" * 2)

    def test_frames_are_named_for_their_vsyncs(self):
        run("png", self.path("out"), self.file(LONG))
        self.assertEqual(sorted(os.listdir(self.path("out"))), ["frame-1.png", "frame-3.png"])

    def below(self):
        """What is in the folder, by its paths."""
        return sorted(os.path.relpath(os.path.join(folder, name), self.path("out")) for folder, _, names in os.walk(self.path("out")) for name in names)

    def test_further_displays_and_captures_have_folders_of_their_own(self):
        script, stream = self.file(OUTPUTS_SCRIPT, "a.sf"), self.file(OUTPUTS)
        status, out, err = run("png", self.path("out"), "--script", script, stream)
        paths = ["capture-1/frame-1.png", "display-2/frame-1.png", "display-2/frame-2.png", "display-5/frame-1.png", "display-5/frame-2.png", "frame-1.png", "frame-2.png"]
        self.assertEqual((status, sorted(out.splitlines()), err), (0, [self.path("out/" + path) for path in paths], ""))
        self.assertEqual(self.below(), paths)
        with open(self.path("out/capture-1/frame-1.png"), "rb") as file:
            self.assertEqual(struct.unpack_from(">II", file.read(), 16), (1, 2))

    def test_without_the_script_further_displays_and_captures_are_left_out(self):
        status, _, err = run("png", self.path("out"), self.file(OUTPUTS))
        self.assertEqual((status, err), (0, "records.py: further displays and captures are left out: their sizes stand in the script, which --script SCRIPT names\n"))
        self.assertEqual(self.below(), ["frame-1.png", "frame-2.png"])

    def test_a_script_that_is_another_or_none(self):
        stream = self.file(OUTPUTS)
        status, _, err = run("png", self.path("out"), "--script", self.file(OUTPUTS_SCRIPT.replace(b"display 5 3", b"display 6 3").replace(b"9 1 2", b"9 2 2"), "a.sf"), stream)
        self.assertEqual(status, 1)
        self.assertIn("(FRAD, at byte 120): the script has no display 5", err)
        self.assertIn("(CAPT, at byte 148): 8 bytes of pixels, where capture 1 of 2 x 2 has 16", err)
        self.assertEqual(self.below(), ["display-2/frame-1.png", "display-2/frame-2.png", "frame-1.png", "frame-2.png"])
        status, out, err = run("png", self.path("none"), "--script", self.file(b"end\n", "b.sf"), stream)
        self.assertEqual((status, out, err), (2, "", "records.py: line 1 is none of a scene at its place: end\n"))

    def test_pixels_that_are_no_whole_ones(self):
        status, _, err = run("dump", self.file(SCEN + record("CAPT", 1, 1, rest=b"abc") + DONE))
        self.assertEqual((status, err), (1, "records.py: record 2 (CAPT, at byte 28): 3 bytes of pixels, which are no whole ones\n"))


class CommandLine(Case):
    def test_what_is_wrong_with_words_is_told_in_a_line(self):
        cases = (
            ([], "which command? (records.py --help tells which there are)"),
            (["dumpp"], "there is no command dumpp: is dump meant? (records.py --help tells which there are)"),
            (["\u202edump\x1b"], "there is no command \\u202edump\\x1b: is dump meant? (records.py --help tells which there are)"),
            (["png"], "the following arguments are required: FOLDER (records.py png --help tells what it takes)"),
            (["dump", "a", "b"], "unrecognized arguments: b (records.py dump --help tells what it takes)"),
            (["lines", "--script", "a"], "unrecognized arguments: --script (records.py lines --help tells what it takes)"),
            (["apng", "--slow", "0", "a"], "argument --slow: 0 is no number from 1 to 1000 (records.py apng --help tells what it takes)"),
            (["apng", "--slow=x", "a"], "argument --slow: x is no number from 1 to 1000 (records.py apng --help tells what it takes)"),
            (["check", "--play", "a"], "the following arguments are required: --script (records.py check --help tells what it takes)"),
            (["view", "a"], "the following arguments are required: --script (records.py view --help tells what it takes)"),
        )
        for words, told in cases:
            self.assertEqual(run(*words), (2, "", f"records.py: {told}\n"), words)

    def test_help_is_on_standard_output_wherever_it_is_asked_for(self):
        for words in (["--help"], ["-h"], ["--help", "dump"], ["dumpp", "--help"]):
            status, out, err = run(*words)
            self.assertEqual((status, err), (0, ""), words)
            self.assertIn("usage: records.py COMMAND ..", out, words)
            self.assertIn("standard input if it is not given", out, words)
        for name in records.COMMANDS:
            for words in ([name, "--help"], [name, "-h"], [name, "a", "--help"], [name, "--script", "--help"]):
                status, out, err = run(*words)
                self.assertEqual((status, err), (0, ""), words)
                self.assertIn(f"usage: records.py {name} ", out, words)

    def test_options_stand_anywhere_and_may_have_their_value_behind_the_sign(self):
        script, stream = self.file(OUTPUTS_SCRIPT, "a.sf"), self.file(OUTPUTS)
        for words in (["--script", script, self.path("out"), stream], [self.path("out"), "--script=" + script, stream], [self.path("out"), stream, "--script", script]):
            status, out, err = run("png", *words)
            self.assertEqual((status, err, len(out.splitlines())), (0, "", 7), words)
        script, stream = self.file(RED_SCRIPT, "b.sf"), self.file(WHOLE)
        for words in (["--play", "--script", script, stream], [stream, "--play", f"--script={script}"], ["--script", script, stream, "--play"]):
            self.assertEqual(run("check", *words), (0, "accepted: 4 replies, 1 vsyncs, 1 commits, 1 frames\n", ""), words)

    def test_behind_two_dashes_no_word_is_an_option(self):
        self.file(RED, "--help")
        ended = subprocess.run([sys.executable, "-B", TOOL, "lines", "--", "--help"], cwd=self.folder, capture_output=True)
        self.assertEqual((ended.returncode, ended.stdout[:6]), (0, b"SCEN 1"))
        self.assertEqual(run("lines", "--", self.file(RED), "--odd"), (2, "", "records.py: unrecognized arguments: --odd (records.py lines --help tells what it takes)\n"))

    def test_a_dash_is_standard_input(self):
        ended = subprocess.run([sys.executable, "-B", TOOL, "lines", "-"], input=RED, capture_output=True)
        self.assertEqual((ended.returncode, ended.stdout[:6]), (0, b"SCEN 1"))

    def test_an_interrupt_ends_it_without_a_traceback(self):
        # (where the tests run in the background, an interrupt is ignored unless it is set anew)
        tool = self.tool("lines", stdin=subprocess.PIPE, stdout=subprocess.PIPE, preexec_fn=lambda: signal.signal(signal.SIGINT, signal.default_int_handler))
        tool.stdin.write(RED)
        tool.stdin.flush()
        begun, left = time.monotonic(), array.array("i", [1])
        while left[0] and time.monotonic() - begun < 60:
            time.sleep(0.05)
            fcntl.ioctl(tool.stdin, termios.FIONREAD, left)
        tool.send_signal(signal.SIGINT)
        _, told = tool.communicate()
        self.assertEqual((tool.returncode, told), (130, b"records.py: interrupted\n"))

    def test_names_are_shown_and_not_sent(self):
        for name, shown in (("a\x1b]0;b\x07", "a\\x1b]0;b\\x07"), ("\u202efs.", "\\u202efs."), (os.fsdecode(b"\xff"), "\\xff")):
            _, _, err = run("dump", self.path(name))
            self.assertEqual(err, f"records.py: No such file or directory: {self.path(shown)}\n")

    def test_a_file_that_is_missing_or_a_folder_is_told(self):
        for name in (self.path("missing"), self.folder):
            status, out, err = run("dump", name)
            self.assertEqual((status, out), (2, ""))
            self.assertIn(name, err)

    def test_a_folder_that_is_a_file_is_told(self):
        file = self.file(RED)
        for folder in (file, os.path.join(file, "below")):
            status, out, err = run("png", folder, file)
            self.assertEqual((status, out), (2, ""))
            self.assertIn(folder, err)

    def test_a_reader_that_goes_away_ends_it_quietly(self):
        data = SCEN + record("REPL", 1, 1, 0, 0) * 20000 + DONE
        for command in ("dump", "lines", "trace"):
            tool = self.tool(command, self.file(data), stdout=subprocess.PIPE)
            tool.stdout.close()
            self.assertEqual((tool.stderr.read(), tool.wait()), (b"", 1))
            tool.stderr.close()

    def test_closed_standard_streams_are_told(self):
        for closed, text in (("<&-", b"standard input is closed"), ("</dev/null >&-", b"standard output is closed")):
            ended = subprocess.run(["sh", "-c", f"exec '{sys.executable}' -B '{TOOL}' dump {closed}"], capture_output=True)
            self.assertEqual(ended.returncode, 2)
            self.assertEqual(ended.stderr, b"records.py: " + text + b"\n")

    def test_standard_input_is_read_where_no_file_is_named(self):
        ended = subprocess.run([sys.executable, "-B", TOOL, "lines"], input=RED, capture_output=True)
        self.assertEqual((ended.returncode, ended.stdout.splitlines()[0]), (0, b"SCEN 1 2 1 16666667"))


class Large(Case):
    """Records are read one after another, and pixels when they are asked for: a long stream takes no more memory than a short one."""

    # Times a command with the pixels of frames of 4 MiB, and tells the most memory that it took, in KiB.
    MEASURE = "import resource, subprocess, sys; ended = subprocess.run(sys.argv[1:], stdout=subprocess.DEVNULL); print(ended.returncode, resource.getrusage(resource.RUSAGE_CHILDREN).ru_maxrss)"
    FRAMES, MOST = 32, 100 * 1024

    def setUp(self):
        super().setUp()
        steps = [step for number in range(1, self.FRAMES) for step in ("tx 1", f"set 1 1 z {number}", "apply 1 token 1")]
        first = ["tx 1", "set 1 1 create colour 0", "apply 1 token 1"]
        script = "\n".join(["scene 1 1024 1024 1000000", "actor 1", *first, *steps, "order " + "1*3 v " * self.FRAMES, "end", ""])
        self.script = self.file(script.encode(), "a.sf")
        with open(self.path("large"), "wb") as file:
            file.write(record("SCEN", 1, 1024, 1024, (1000000,)))
            for number in range(1, self.FRAMES + 1):
                file.write(record("REPL", 1, 3 * number - 2, 0, 0) + record("REPL", 1, 3 * number - 1, 0, 0) + record("REPL", 1, 3 * number, 0, 1, (number,)))
                file.write(record("VSYN", number, (1000000 * number,), 0) + record("COMM", 1, number, 0, 0, 0) + record("FRAM", number, rest=b"\0\0\0\xff" * (1 << 20)))
            arrivals = [number for at in range(1, self.FRAMES + 1) for number in (1, 3 * at, 1)]
            file.write(record("ARRV", self.FRAMES, *arrivals) + record("HOLD", 0) + record("STUK", 0) + DONE)

    def test_each_command(self):
        for words in (["dump"], ["trace"], ["summary", "--script", self.script], ["check", "--script", self.script, "--play"], ["view", "--script", self.script],
                      ["png", self.path("out")], ["explain", self.script]):
            with self.subTest(words=words):
                ended = subprocess.run([sys.executable, "-c", self.MEASURE, sys.executable, "-B", TOOL, *words, self.path("large")], capture_output=True, text=True)
                status, most = map(int, ended.stdout.split())
                self.assertEqual((status, ended.stderr), (0, ""))
                self.assertLess(most, self.MOST)

    def test_a_record_of_no_form_is_not_read(self):
        with open(self.path("odd"), "wb") as file:
            file.write(SCEN + b"WHAT" + struct.pack(">I", 1 << 30))
            file.truncate(len(SCEN) + 8 + (1 << 30))
        ended = subprocess.run([sys.executable, "-c", self.MEASURE, sys.executable, "-B", TOOL, "dump", self.path("odd")], capture_output=True, text=True)
        status, most = map(int, ended.stdout.split())
        self.assertEqual((status, ended.stderr.splitlines()), (1, ["records.py: record 2 (WHAT, at byte 28): unknown tag WHAT",
                                                                   "records.py: the stream ends without DONE: its run was cut off"]))
        self.assertLess(most, self.MOST)

    def test_what_comes_in_has_an_end(self):
        with unittest.mock.patch.object(records, "MOST_COPIED", 1 << 20), open(os.devnull, "rb") as source, tempfile.TemporaryFile() as kept:
            self.assertEqual(records.copied(source, kept).read(), b"")
            with self.assertRaises(OSError):
                records.copied(io.BytesIO(bytes((1 << 20) + 1)), kept)

    def test_standard_input_is_told_as_it_comes(self):
        tool = self.tool("dump", stdin=subprocess.PIPE, stdout=subprocess.PIPE)
        tool.stdin.write(SCEN + record("REPL", 1, 1, 0, 0) * 4000)
        tool.stdin.flush()
        self.assertEqual(tool.stdout.readline(), b"SCEN scene version 1, 2 x 1, period 1000000 ns\n")
        tool.communicate()


class Trace(Case):
    """Each event is compared whole: these are the fields that the trace event format gives each kind."""

    def setUp(self):
        super().setUp()
        status, out, _ = run("trace", self.file(LONG))
        self.assertEqual(status, 0)
        self.trace = json.loads(out)
        self.events = self.trace["traceEvents"]

    def of(self, kind, category=None):
        return [event for event in self.events if event["ph"] == kind and event.get("cat") == category]

    def test_the_object(self):
        self.assertEqual(sorted(self.trace), ["displayTimeUnit", "traceEvents"])
        self.assertEqual(self.trace["displayTimeUnit"], "ms")

    def test_every_event_has_the_fields_of_its_kind(self):
        fields = {
            "X": {"name": str, "cat": str, "ph": str, "ts": float, "dur": float, "pid": int, "tid": int, "args": dict},
            "i": {"name": str, "cat": str, "ph": str, "s": str, "ts": float, "pid": int, "tid": int, "args": dict},
            "C": {"name": str, "cat": str, "ph": str, "ts": float, "pid": int, "args": dict},
        }
        for event in self.events:
            if event["ph"] != "M":
                self.assertEqual({name: type(value) for name, value in event.items()}, fields[event["ph"]], event)

    def test_the_tracks_are_named(self):
        names = [event for event in self.events if event["ph"] == "M"]
        self.assertIn({"name": "process_name", "ph": "M", "pid": 1, "args": {"name": "compositor, display 2 x 1"}}, names)
        self.assertIn({"name": "process_sort_index", "ph": "M", "pid": 1, "args": {"sort_index": 1}}, names)
        self.assertIn({"name": "thread_name", "ph": "M", "pid": 1, "tid": 1, "args": {"name": "vsyncs"}}, names)
        self.assertIn({"name": "thread_sort_index", "ph": "M", "pid": 1, "tid": 1, "args": {"sort_index": 1}}, names)
        threads = {(event["pid"], event["tid"]): event["args"]["name"] for event in names if event["name"] == "thread_name"}
        self.assertEqual(threads, {
            (1, 1): "vsyncs", (1, 2): "frames", (1, 3): "rejects", (1, 4): "held",
            (1, 10): "commits of token 2", (1, 11): "commits of token 4294967295",
            (2, 1): "actor 1", (2, 2): "actor 2",
            (103, 1): "calls without a slot", (103, 6): "slot 4",
        })

    def test_every_event_is_on_a_named_track(self):
        named = {(event["pid"], event.get("tid")) for event in self.events if event["name"] == "thread_name"}
        for event in self.events:
            if event["ph"] in "Xi":
                self.assertIn((event["pid"], event["tid"]), named)

    def test_the_slices_of_a_track_do_not_overlap(self):
        ends = {}
        for event in sorted(self.of("X", "vsync") + self.of("X", "frame") + self.of("X", "reply") + self.of("X", "queue"), key=lambda e: e["ts"]):
            track = event["pid"], event["tid"]
            self.assertLessEqual(ends.get(track, 0), event["ts"], event)
            ends[track] = event["ts"] + event["dur"]

    def test_vsyncs_frames_and_timelines(self):
        self.assertEqual(self.of("X", "vsync"), [
            {"name": "vsync 1", "cat": "vsync", "ph": "X", "ts": 1000.0, "dur": 1000.0, "pid": 1, "tid": 1, "args": {"number": 1}},
            {"name": "vsync 3", "cat": "vsync", "ph": "X", "ts": 3000.0, "dur": 1000.0, "pid": 1, "tid": 1, "args": {"number": 3}},
        ])
        self.assertEqual(self.of("X", "frame"), [
            {"name": "frame 1", "cat": "frame", "ph": "X", "ts": 1000.0, "dur": 2000.0, "pid": 1, "tid": 2, "args": {"number": 1, "pixels": 2}},
            {"name": "frame 3", "cat": "frame", "ph": "X", "ts": 3000.0, "dur": 1000.0, "pid": 1, "tid": 2, "args": {"number": 3, "pixels": 2}},
        ])
        self.assertEqual(self.of("C", "timeline"), [
            {"name": "timeline 1", "cat": "timeline", "ph": "C", "ts": 1000.0, "pid": 1, "args": {"value": 7}},
            {"name": "timeline 2", "cat": "timeline", "ph": "C", "ts": 1000.0, "pid": 1, "args": {"value": 9}},
        ])

    def test_replies_are_spread_over_the_time_before_their_vsync(self):
        self.assertEqual(self.of("X", "reply"), [
            {"name": f"step {step}: {name}", "cat": "reply", "ph": "X", "ts": ts, "dur": dur, "pid": 2, "tid": actor,
             "args": {"actor": actor, "step": step, "status": status, "values": values}}
            for actor, step, status, name, ts, dur, values in (
                (1, 1, 0, "Ok", 250.0, 250.0, []),
                (2, 1, 13, "WouldBlock", 500.0, 250.0, []),
                (1, 2, 0, "Ok", 750.0, 250.0, [5, 18446744073709551615]),
                (1, 3, 0, "Ok", 2000.0, 1000.0, []),
            )
        ])

    def test_commits_and_rejects(self):
        self.assertEqual(self.of("i", "commit"), [
            {"name": "arrival 1 committed", "cat": "commit", "ph": "i", "s": "t", "ts": 1000.0, "pid": 1, "tid": 11,
             "args": {"token": 4294967295, "arrival": 1, "result": 0, "operation": 0, "buffers": [
                 {"layer": 8, "queue": 3, "frame": 1, "picture": 2, "x": 0, "y": 0, "width": 2, "height": 1}]}},
            {"name": "arrival 3 committed", "cat": "commit", "ph": "i", "s": "t", "ts": 3000.0, "pid": 1, "tid": 10,
             "args": {"token": 2, "arrival": 3, "result": 0, "operation": 0, "buffers": []}},
        ])
        self.assertEqual(self.of("i", "reject"), [
            {"name": "arrival 2 rejected: wrong kind at operation 3", "cat": "reject", "ph": "i", "s": "t", "ts": 1000.0, "pid": 1, "tid": 3,
             "args": {"token": 2, "arrival": 2, "result": 6, "operation": 3, "buffers": []}},
        ])

    def test_queue_calls_stand_by_queue_and_slot(self):
        def details(caller, kind, slot, frame, status="Ok"):
            return {"caller": caller, "kind": kind, "status": status, "slot": slot, "frame": frame}
        self.assertEqual(self.of("X", "queue"), [
            {"name": "dequeue", "cat": "queue", "ph": "X", "ts": 750.0, "dur": 1250.0, "pid": 103, "tid": 6,
             "args": details("actor 1 step 2", "dequeue", 4, 0)},
            {"name": "queue frame 1", "cat": "queue", "ph": "X", "ts": 2000.0, "dur": 1000.0, "pid": 103, "tid": 6,
             "args": details("actor 1 step 3", "queue", 4, 1)},
        ])
        self.assertEqual(self.of("i", "queue"), [
            {"name": "connect", "cat": "queue", "ph": "i", "s": "t", "ts": 250.0, "pid": 103, "tid": 1,
             "args": details("actor 1 step 1", "connect", None, 0)},
            {"name": "dequeue: WouldBlock", "cat": "queue", "ph": "i", "s": "t", "ts": 500.0, "pid": 103, "tid": 1,
             "args": details("actor 2 step 1", "dequeue", None, 0, "WouldBlock")},
            {"name": "release frame 1", "cat": "queue", "ph": "i", "s": "t", "ts": 3000.0, "pid": 103, "tid": 6,
             "args": details("compositor vsync 3", "release", 4, 1)},
        ])

    def test_what_version_2_shows(self):
        self.assertEqual([event for event in self.events if event["pid"] == 3], [])
        events = json.loads(run("trace", self.file(OUTPUTS))[1])["traceEvents"]
        names = {event["tid"]: event["args"]["name"] for event in events if event["pid"] == 3 and event["name"] == "thread_name"}
        self.assertEqual(names, {2: "display 2", 5: "display 5", 11: "capture 1", 23: "hit 3"})
        told = [(event["tid"], event["cat"], event["name"], event["ts"], event["dur"], event["args"]) for event in events if event["pid"] == 3 and event["ph"] == "X"]
        self.assertEqual(told, [
            (2, "display", "frame 1", 1000.0, 1000.0, {"number": 1}), (5, "display", "frame 1", 1000.0, 1000.0, {"number": 1}),
            (11, "capture", "frame 1", 1000.0, 2000.0, {"number": 1}), (23, "hit", "layer 9", 1000.0, 1000.0, {"number": 1}),
            (2, "display", "frame 2", 2000.0, 1000.0, {"number": 2}), (5, "display", "frame 2", 2000.0, 1000.0, {"number": 2}),
            (23, "hit", "no layer", 2000.0, 1000.0, {"number": 2}),
        ])

    def test_what_is_held_and_who_is_stuck(self):
        self.assertEqual(self.of("i", "held"), [
            {"name": "arrival 4 held: Time 5000 0", "cat": "held", "ph": "i", "s": "t", "ts": 4000.0, "pid": 1, "tid": 4,
             "args": {"arrival": 4, "hold": 2, "a": 5000, "b": 0}},
        ])
        self.assertEqual(self.of("i", "stuck"), [
            {"name": "stuck at step 2", "cat": "stuck", "ph": "i", "s": "t", "ts": 4000.0, "pid": 2, "tid": 2,
             "args": {"actor": 2, "step": 2}},
        ])


if __name__ == "__main__":
    unittest.main()
