"""Tests of judge.py: what it finds right, and where it says that something is wrong."""

import contextlib
import io
import os
import shutil
import subprocess
import sys
import tempfile
import unittest

from surbeldoi import TOP
from surbeldoi.commands import judge
from surbeldoi.judging.given import commits_text
from surbeldoi.judging.judging import Wrong, WrongImage, judge_raw, judge_records
from surbeldoi.judging.played import Played
from surbeldoi.model.playing import Play
from surbeldoi.records.stream import FORMS, OUTPUTS, PIXELS, Rows, read
from surbeldoi.records.wording import plain
from surbeldoi.script.scenes import read_scene
from tests.test_documents import indented

PAGE, ABOUT = "docs/JUDGING.md", "Judge a scene"
COMPILER = shutil.which("cc") or shutil.which("gcc")
# Two panes, of which the upper one lets light through and moves.
PANES = b"""scene 1 4 2 1000000
actor 1
tx 1
set 1 1 create colour 0
set 1 1 colour 000080ff
set 1 2 create colour 0
set 1 2 colour ff0000ff
set 1 2 crop 0 0 2 2
set 1 2 alpha 128
apply 1 token 1
tx 1
set 1 2 position 1 0
apply 1 token 1
order 1*8 v 1*3 v
end
"""
MORE = b"""scene 2 2 1 1000000
timeline 1
display 3 1 1 7
stack 2 7
capture 1 2 1 1
hit 4 0 0
queue 1 1 1
picture 1 1 1 format rgbx
fill 0 0 1 1 11223344
actor 1
connect 1
dequeue 1 as b
request b
draw b 1
queue b 1 fence 1 1
acquire 1 as b
tx 1
set 1 1 create colour 0
set 1 1 crop 0 0 1 1
set 1 2 create buffer 0
set 1 2 crop none
set 1 2 reparent none
set 1 2 reparent 0
buffer 1 2 b
apply 1 token 3
signal 1 1
order 1*16 v
end
"""


def number(form, value):
    return value.to_bytes(form, "big")


def encoded(tag, fields):
    """A record as bytes."""
    body = b""
    for (_, form), value in zip(FORMS[tag], fields.values()):
        if form == PIXELS:
            body += value
        elif isinstance(form, Rows):
            body += number(4, len(value)) + b"".join(number(size, part) for row in value for size, part in zip(form.columns, row))
        else:
            body += number(form, value)
    return tag.encode() + number(4, len(body)) + body


def records_of(script):
    """The records of the play of a script, each as a tag and fields."""
    return list(Play(read_scene(script)).records())


def stream(records, *tags):
    """These records as bytes, of these tags alone where some are named."""
    return b"".join(encoded(tag, fields) for tag, fields in records if not tags or tag in tags)


FRAMES = ("SCEN", *OUTPUTS, "DONE")
COMMITS = ("SCEN", "VSYN", "COMM", *OUTPUTS, "DONE")


def judged(script, data, tolerance=0, is_raw=False):
    """The verdict on what a compositor wrote, in words."""
    try:
        return (judge_raw if is_raw else judge_records)(Played(read_scene(script)), data, tolerance).text()
    except Wrong as wrong:
        return f"wrong: {wrong}"


def with_pixel(records, tag, at, place, colour):
    """Records in which the image that has so many of its tag before it has another pixel at a place."""
    which = [index for index, record in enumerate(records) if record[0] == tag][at]
    fields = records[which][1]
    pixels = fields["pixels"][:4 * place] + bytes.fromhex(colour) + fields["pixels"][4 * place + 4:]
    return records[:which] + [(tag, {**fields, "pixels": pixels})] + records[which + 1:]


class Judging(unittest.TestCase):
    def test_what_the_play_shows_is_right_by_how_much_is_written(self):
        for name, script, tags, said in (
                ("frames", PANES, FRAMES, "right: frames alone: 2 frames"),
                ("frames with vsyncs", PANES, FRAMES + ("VSYN",), "right: frames alone: 2 frames"),
                ("commits", PANES, COMMITS, "right: frames and commits: 2 commits, 2 frames"),
                ("all", PANES, (), "right: all records: 11 replies, 2 commits, 2 frames"),
                ("frames of every kind", MORE, FRAMES, "right: frames alone: 2 frames, 1 capture, 1 hit"),
                ("displays alone", MORE, ("SCEN", "FRAM", "FRAD", "DONE"), "right: frames alone: 2 frames; captures and hits were not written, and not judged"),
                ("commits of every kind", MORE, COMMITS, "right: frames and commits: 1 commit, 2 frames, 1 capture, 1 hit"),
                ("all of every kind", MORE, (), "right: all records: 16 replies, 1 commit, 2 frames, 1 capture, 1 hit")):
            with self.subTest(name):
                self.assertEqual(judged(script, stream(records_of(script), *tags)), said)

    def test_raw_pixels_are_the_displays_in_order(self):
        for name, script, said in (("one", PANES, "right: frames alone: 2 frames"),
                                   ("two", MORE, "right: frames alone: 2 frames; captures and hits were not written, and not judged")):
            with self.subTest(name):
                data = b"".join(fields["pixels"] for tag, fields in records_of(script) if tag in ("FRAM", "FRAD"))
                self.assertEqual(judged(script, data, is_raw=True), said)
                self.assertEqual(judged(script, data[:-1], is_raw=True),
                                 f"wrong: {len(data) - 1} bytes came, where the frames that are due (2) have {len(data)} in all")

    def test_a_wrong_pixel_is_told_with_its_layers_at_every_level(self):
        due = records_of(PANES)
        for tags in (FRAMES, COMMITS, ()):
            with self.subTest(tags=tags):
                said = judged(PANES, stream(with_pixel(due, "FRAM", 1, 2, "000080ff"), *tags))
                self.assertEqual(said.splitlines(), [
                    "wrong: vsync 2, the display: 1 of 8 pixels differ, by up to 128; the first is at 2 0: 000080ff came, where 800040ff is due",
                    "  it is of layer 2: colour ff0000ff, alpha 128",
                    "  from the back, with the pixel after each:",
                    "    layer 1: colour 000080ff -> 000080ff",
                    "    layer 2: colour ff0000ff, alpha 128 -> 800040ff",
                    "  it is what the frame before has there",
                    "  it is what is there without layer 2",
                    "  it is what is there with layer 2 behind layer 1"])

    def test_what_may_be_the_cause_is_told(self):
        due = records_of(PANES)
        for name, at, colour, guess in (("a layer without its alpha", 0, "ff0000ff", "it is what is there if layer 2 has alpha 255"),
                                        ("layers the other way round", 0, "000080ff", "it is what is there with layer 2 behind layer 1"),
                                        ("blue first", 0, "400080ff", "red and blue have changed places"),
                                        ("an alpha", 0, "80004000", "the alpha alone is another: a frame is opaque"),
                                        ("a rounding", 0, "81003fff", "it is near, as where blending rounds otherwise: --tolerance N lets channels differ by N"),
                                        ("a layer that reaches further", 2, "800040ff", "it is what is there if layer 2 reaches it, which shows from 0 0 to 1 1")):
            with self.subTest(name):
                self.assertIn(f"  {guess}", judged(PANES, stream(with_pixel(due, "FRAM", 0, at, colour), *FRAMES)).splitlines())

    def test_a_tolerance_is_kept_and_told(self):
        near = stream(with_pixel(records_of(PANES), "FRAM", 0, 0, "81003fff"), *FRAMES)
        self.assertEqual(judged(PANES, near, 1), "right: frames alone: 2 frames; pixels within the tolerance of 1: 1, by up to 1")
        far = stream(with_pixel(records_of(PANES), "FRAM", 0, 1, "83003fff"), *FRAMES)
        self.assertIn("1 of 8 pixels differ, by up to 3; the first is at 1 0", judged(PANES, far, 2))

    def test_a_stream_that_is_not_of_its_form_is_told(self):
        due = records_of(PANES)
        data = stream(due, *FRAMES)
        for name, data, said in (
                ("nothing", b"", "wrong: nothing came"),
                ("no first line", data[28:], "wrong: order: record 1, FRAM: SCEN has to stand here"),
                ("another scene", stream([("SCEN", {**due[0][1], "width": 5})] + due[1:], *FRAMES),
                 "wrong: order: record 1, SCEN: it says [1, 5, 2, 1000000], and the script [1, 4, 2, 1000000]"),
                ("no end", stream(due, *FRAMES[:-1]), "wrong: order: the end of the stream: DONE has to stand here"),
                ("more behind the end", data + data, "wrong: order: record 5, SCEN: it stands behind the end of the run"),
                ("a frame left out", stream([due[0]] + [record for record in due if record[0] == "FRAM"][1:] + due[-1:]),
                 "wrong: vsync 2, the display came, where vsync 1, the display is due"),
                ("the last frame left out", stream([record for record in due if record[0] in FRAMES][:2] + due[-1:]),
                 "wrong: vsync 2, the display is missing: the frames end before it"),
                ("a frame too many", stream([record for record in due if record[0] in FRAMES][:3] + [("FRAM", {"number": 3, "pixels": bytes(32)})] + due[-1:]),
                 "wrong: vsync 3, the display came, and nothing more is due"),
                ("a short frame", stream([due[0], ("FRAM", {"number": 1, "pixels": bytes(28)}), due[-1]]),
                 "wrong: order: record 2, FRAM: 28 bytes of pixels, where the display of 4 x 2 has 32")):
            with self.subTest(name):
                self.assertEqual(judged(PANES, data), said)

    def test_a_hit_of_another_layer_is_told(self):
        due = [(tag, {**fields, "layer": 2}) if tag == "HITS" else (tag, fields) for tag, fields in records_of(MORE)]
        self.assertEqual(judged(MORE, stream(due, *FRAMES)), "wrong: vsync 1, hit 4: layer 2 came, where layer 1 is in front")

    def test_commits_may_come_later_and_not_in_another_order(self):
        due = [record for record in records_of(PANES) if record[0] in COMMITS]
        first, second = due[1:4], due[4:7]
        later = [("VSYN", {**second[0][1], "number": 5, "expected": 5000000}), second[1], ("FRAM", {**second[2][1], "number": 5})]
        swapped = [first[0], second[1], first[2], second[0], first[1], second[2]]
        for name, records, said in (
                ("later", first + later, "right: frames and commits: 2 commits, 2 frames"),
                ("both at once", [first[0], first[1], second[1], ("FRAM", {**second[2][1], "number": 1})], "right: frames and commits: 2 commits, 1 frame"),
                ("in another order", swapped, "wrong: commits: record 3, COMM: it commits arrival 2 of token 1, of which arrival 1 is the first that is left"),
                ("one left out", first, "wrong: holds: the end: arrival 2 of token 1 is not committed, and nothing holds it in the end")):
            with self.subTest(name):
                self.assertEqual(judged(PANES, stream([due[0], *records, due[-1]])), said)

    def test_senders_may_be_told_nothing_of_their_numbers(self):
        due = records_of(PANES)
        applied = [index for index, (tag, fields) in enumerate(due) if tag == "REPL" and fields["values"]]
        for name, told, said in (("all", applied, "right: all records: 11 replies, 2 commits, 2 frames"),
                                 ("one of two", applied[:1], "wrong: arrive: record 19, ARRV, arrival 2: its step was told 2, in record 15, where 0 is due")):
            with self.subTest(name):
                records = [(tag, {**fields, "values": [(0,)]}) if index in told else (tag, fields) for index, (tag, fields) in enumerate(due)]
                self.assertEqual(judged(PANES, stream(records)), said)

    def test_a_commit_that_is_held_is_told(self):
        due = [(tag, {**fields, "timelines": [(1, 0)]}) if tag == "VSYN" else (tag, fields) for tag, fields in records_of(MORE)]
        self.assertEqual(judged(MORE, stream(due, *COMMITS)), "wrong: commits: record 3, COMM: arrival 1 is held there: Fence 1 1")

    def test_pictures_show_both_and_where_they_differ(self):
        with self.assertRaises(WrongImage) as raised:
            judge_records(Played(read_scene(PANES)), stream(with_pixel(records_of(PANES), "FRAM", 0, 0, "000000ff"), *FRAMES), 0)
        with tempfile.TemporaryDirectory() as folder:
            paths = raised.exception.write_pictures(folder)
            self.assertEqual([os.path.basename(path) for path in paths], ["came.png", "due.png", "difference.png"])
            for path in paths:
                with open(path, "rb") as file:
                    self.assertEqual(file.read(8), b"\x89PNG\r\n\x1a\n")

    def test_what_each_vsync_commits_is_a_script_of_changes(self):
        self.assertEqual(commits_text(Played(read_scene(MORE))).decode().splitlines(), [
            "scene 2 2 1 1000000", "display 3 1 1 7", "stack 2 7", "capture 1 2 1 1", "hit 4 0 0", "picture 1 1 1 format rgbx", "fill 0 0 1 1 11223344",
            "vsync 1", "set 1 create colour 0", "set 1 crop 0 0 1 1", "set 2 create buffer 0", "set 2 crop none", "set 2 reparent 0", "show 2 1 0 0 1 1", "end"])

    def test_the_example_of_the_page_is_what_is_committed(self):
        left_out = (b"timeline", b"display", b"stack", b"capture", b"hit", b"set 1 2 crop none", b"set 1 2 reparent", b"signal")
        script = b"".join(line + b"\n" for line in MORE.replace(b" fence 1 1", b"").splitlines() if not line.startswith(left_out))
        script = script.replace(b"order 1*16 v", b"order 1*12 v")
        self.assertEqual(commits_text(Played(read_scene(script))).decode().splitlines(), indented(PAGE, "A renderer without transactions")[0])


class Command(unittest.TestCase):
    def setUp(self):
        folder = tempfile.TemporaryDirectory()
        self.addCleanup(folder.cleanup)
        self.folder = folder.name
        self.write("panes.sf", PANES)
        self.write("right", stream(records_of(PANES), *FRAMES))
        self.write("wrong", stream(with_pixel(records_of(PANES), "FRAM", 0, 0, "000000ff"), *FRAMES))

    def path(self, *names):
        return os.path.join(self.folder, *names)

    def write(self, name, data):
        with open(self.path(name), "wb") as file:
            file.write(data)

    def judge(self, *words):
        """The status of the command, and what it says on both streams."""
        out, err = io.StringIO(), io.StringIO()
        with contextlib.redirect_stdout(out), contextlib.redirect_stderr(err):
            status = judge.main(["--pictures", self.path("pictures"), *words])
        return status, out.getvalue(), err.getvalue()

    def test_the_status_says_the_verdict(self):
        scene = self.path("panes.sf")
        for name, words, status, said in (
                ("right", (scene, "--", "cat", self.path("right")), 0, "right: frames alone: 2 frames"),
                ("wrong", (scene, "--", "cat", self.path("wrong")), 1, "wrong: vsync 1, the display: 1 of 8 pixels differ"),
                ("a status", (scene, "--", "sh", "-c", "echo no memory >&2; exit 5"), 1, "wrong: the command ended with status 5: no memory"),
                ("a signal", (scene, "--", "sh", "-c", "kill -9 $$"), 1, "wrong: the command was ended by SIGKILL"),
                ("too slow", ("--seconds", "0.2", scene, "--", "sleep", "9"), 1, "wrong: the command did not end in 0.2 seconds"),
                ("not said", (scene, "--", "sh", "-c", "echo mirrors >&2; exit 77"), 3, "not said: mirrors"),
                ("raw", ("--raw", scene, "--", "cat", scene), 1, f"wrong: {len(PANES)} bytes came, where the frames that are due (2) have 64 in all")):
            with self.subTest(name):
                got, out, err = self.judge(*words)
                self.assertEqual((got, err), (status, ""))
                self.assertTrue(out.startswith(said), out)

    def test_what_is_not_judged_is_one_line_and_status_2(self):
        self.write("none.sf", b"scene 1\n")
        for name, words, said in (("no scene", (self.path("none.sf"), "--", "true"), "line 1 is none of a scene at its place: scene 1"),
                                  ("no file", (self.path("away.sf"), "--", "true"), "No such file"),
                                  ("no command", (self.path("panes.sf"), "--", self.path("away")), "No such file"),
                                  ("nothing behind --", (self.path("panes.sf"), "--"), "behind `--` has to stand the command"),
                                  ("no --", (self.path("panes.sf"),), "behind `--` has to stand the command"),
                                  ("a wrong tolerance", ("--tolerance", "256", self.path("panes.sf"), "--", "true"), "--tolerance"),
                                  ("a wrong time", ("--seconds", "0", self.path("panes.sf"), "--", "true"), "--seconds")):
            with self.subTest(name):
                status, out, err = self.judge(*words)
                self.assertEqual((status, out), (2, ""))
                self.assertIn(said, err)
                self.assertEqual(err.count("\n"), 1, err)

    def test_the_command_gets_the_script_or_what_is_committed(self):
        for words, wanted in (((), PANES), (("--commits",), commits_text(Played(read_scene(PANES))))):
            with self.subTest(words=words):
                self.judge(*words, self.path("panes.sf"), "--", "sh", "-c", 'cat > "$1"', "sh", self.path("given"))
                with open(self.path("given"), "rb") as file:
                    self.assertEqual(file.read(), wanted)

    def test_a_command_that_reads_nothing_is_judged_too(self):
        self.write("long.sf", PANES[:-4] + b"#" * 300000 + b"\nend\n")
        self.assertEqual(self.judge(self.path("long.sf"), "--", "cat", self.path("right"))[:2], (0, "right: frames alone: 2 frames\n"))

    def test_help_is_a_page(self):
        for words in (["--help"], ["-h"]):
            with self.subTest(words=words), contextlib.redirect_stdout(io.StringIO()) as out:
                self.assertEqual(judge.main(words), 0)
            self.assertIn("status: 0 right", out.getvalue())


# A program that writes each record once, and what `records.py lines` says of them.
EVERY_RECORD = """
#include "records.h"
int main(void) {
    uint64_t values[2] = {5, 18446744073709551615u};
    struct record_timeline timelines[1] = {{1, 18446744073709551614u}};
    struct record_buffer buffer = {4294967295u, 2, 3, 4, 5, 6, 7, 8};
    struct record_arrival arrivals[2] = {{1, 2, 3}, {4, 5, 6}};
    struct record_call call = {0, 1, 14, 0, 63, 9};
    struct record_held held = {1, 3, 4, 5};
    struct record_stuck stuck = {7, 8};
    uint8_t pixels[8] = {1, 2, 3, 4, 1, 2, 3, 4};
    records_scene(stdout, 1, 2, 1, 1000000000000u);
    records_reply(stdout, 1, 2, 0, 2, values);
    records_vsync(stdout, 3, 5000000000u, 1, timelines);
    records_commit(stdout, 9, 1, RECORD_WRONG_KIND, 2, 1, &buffer);
    records_frame(stdout, 3, 2, pixels);
    records_display(stdout, 2, 3, 2, pixels);
    records_capture(stdout, 4, 3, 2, pixels);
    records_hit(stdout, 5, 3, 6);
    records_arrivals(stdout, 2, arrivals);
    records_history(stdout, 1, 1, &call);
    records_held(stdout, 1, &held);
    records_stuck(stdout, 1, &stuck);
    records_done(stdout);
    return fclose(stdout) ? 1 : 0;
}
"""
LINES = ["SCEN 1 2 1 1000000000000", "REPL 1 2 0 5 18446744073709551615", "VSYN 3 5000000000 1=18446744073709551614",
         "COMM 9 1 6 2 | 4294967295 2 3 4 5 6 7 8", "FRAM 3 2*01020304", "FRAD 2 3 2*01020304", "CAPT 4 3 2*01020304", "HITS 5 3 6",
         "ARRV | 1 2 3 | 4 5 6", "HIST 1 | 0 1 14 0 63 9", "HOLD | 1 3 4 5", "STUK | 7 8", "DONE"]


@unittest.skipUnless(COMPILER, "there is no C compiler")
class Header(unittest.TestCase):
    def test_each_record_is_written_as_it_is_read(self):
        with tempfile.TemporaryDirectory() as folder:
            source, program = os.path.join(folder, "all.c"), os.path.join(folder, "all")
            with open(source, "w") as file:
                file.write(EVERY_RECORD)
            subprocess.run([COMPILER, "-std=c99", "-pedantic", "-Wall", "-Wextra", "-Werror", "-I", os.path.join(TOP, "peers"), "-o", program, source], check=True)
            records, of_stream = read(subprocess.run([program], stdout=subprocess.PIPE, check=True).stdout)
        self.assertEqual([plain(record) for record in records], LINES)
        self.assertEqual((of_stream, [record.faults for record in records if record.tag not in ("CAPT", "FRAD")]), ([], [[]] * 11))


@unittest.skipUnless(COMPILER, "there is no C compiler")
class Example(unittest.TestCase):
    """The example of a compositor over peers/records.h."""

    def built(self, folder, *words):
        program = os.path.join(folder, "example")
        subprocess.run([COMPILER, "-std=c99", "-Wall", "-Wextra", "-Werror", *words, "-o", program, os.path.join(TOP, "peers", "example.c")], check=True)
        return program

    def judge(self, program, *words):
        ended = subprocess.run([sys.executable, "-B", os.path.join(TOP, "tools", "judge.py"), *words, "--", program], stdout=subprocess.PIPE, text=True)
        return ended.returncode, ended.stdout

    def test_it_is_right_and_wrong_where_it_is_wrong(self):
        scene = os.path.join(TOP, "peers", "example.sf")
        with tempfile.TemporaryDirectory() as folder:
            self.assertEqual(self.judge(self.built(folder), scene), (0, "right: frames and commits: 2 commits, 2 frames\n"))
            status, said = self.judge(self.built(folder, "-DWRONG"), "--pictures", folder, scene)
            self.assertEqual(status, 1)
            _, verdict = indented(PAGE, ABOUT)
            self.assertEqual(said.splitlines()[:-1], verdict[:-1], "as the page has it")

    def test_what_it_can_not_play_it_says(self):
        with tempfile.TemporaryDirectory() as folder:
            self.assertEqual(self.judge(self.built(folder), os.path.join(TOP, "scenes", "phone.sf"))[0], 3)


if __name__ == "__main__":
    unittest.main()
