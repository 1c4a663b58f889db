"""Tests of the frames that move: what the files hold, and that Debian's decoders read them so, where they are installed."""

import os
import shutil
import struct
import subprocess
import sys
import tempfile
import unittest
import zlib
from fractions import Fraction

from surbeldoi.records import animation
from surbeldoi.records.pictures import Frame, Frames, rows_of
from surbeldoi.records.stream import read
from tests.test_records import DONE, LONG, RED, SCEN, TOOL, Case, record, run

PERIOD = 16666667


def moving(numbers, width=37, height=23):
    """Frames in which a square moves over a ramp; the last shows what the one before shows."""
    frames = []
    for place, number in enumerate(numbers):
        at = min(place, len(numbers) - 2) * 3
        pixels = b"".join(
            bytes((250, 200, 30, 255)) if at <= x < at + 9 and 4 <= y - at // 2 < 12 else bytes((x * 6, y * 9, 255 - x * 6, 255))
            for y in range(height) for x in range(width))
        frames.append(Frame(number, number * PERIOD, pixels))
    return Frames(width, height, PERIOD, frames)


class Chunks:
    """An animated PNG taken apart: of each frame its rectangle, its delay and its rows."""

    def __init__(self, data):
        self.kinds, self.frames, at = [], [], 8
        self.numbers, self.plays, packed = [], None, {}
        while at < len(data):
            (length,), kind = struct.unpack_from(">I", data, at), data[at + 4:at + 8]
            body = data[at + 8:at + 8 + length]
            assert zlib.crc32(kind + body) == struct.unpack_from(">I", data, at + 8 + length)[0]
            self.kinds.append(kind)
            if kind == b"acTL":
                self.count, self.plays = struct.unpack(">II", body)
            elif kind == b"fcTL":
                number, width, height, x, y, top, below, dispose, blend = struct.unpack(">5I2H2B", body)
                self.numbers.append(number)
                self.frames.append((x, y, width, height, Fraction(top, below)))
                assert (dispose, blend) == (0, 0)
            elif kind == b"IDAT":
                packed[len(self.frames) - 1] = body
            elif kind == b"fdAT":
                self.numbers.append(struct.unpack_from(">I", body)[0])
                packed[len(self.frames) - 1] = body[4:]
            at += 12 + length
        self.packed = [packed[place] for place in range(len(self.frames))]

    def pictures(self, width, height):
        """The whole picture after each frame."""
        picture = [bytearray(4 * width) for _ in range(height)]
        for (x, y, wide, high, _), packed in zip(self.frames, self.packed):
            data = zlib.decompress(packed)
            for row in range(high):
                line = data[row * (4 * wide + 1):(row + 1) * (4 * wide + 1)]
                assert line[0] == 0
                picture[y + row][4 * x:4 * (x + wide)] = line[1:]
            yield b"".join(picture)


class Apng(unittest.TestCase):
    def test_each_picture_is_the_frame_and_only_what_changed_is_stored(self):
        frames = moving([1, 2, 5, 6])
        parts = Chunks(b"".join(animation.apng(frames)))
        self.assertEqual(list(parts.pictures(37, 23)), [frame.pixels for frame in frames.frames])
        self.assertEqual([frame[:4] for frame in parts.frames], [(0, 0, 37, 23), (0, 4, 12, 9), (3, 5, 12, 10), (0, 0, 1, 1)])

    def test_the_chunks_stand_in_their_order_and_are_numbered(self):
        parts = Chunks(b"".join(animation.apng(moving([1, 2, 3]))))
        self.assertEqual(parts.kinds, [b"IHDR", b"acTL", b"fcTL", b"IDAT", b"fcTL", b"fdAT", b"fcTL", b"fdAT", b"IEND"])
        self.assertEqual((parts.numbers, parts.count, parts.plays), ([0, 1, 2, 3, 4], 3, 0))

    def test_a_frame_stands_until_the_next_and_the_last_for_a_second(self):
        stands = [delay for *_, delay in Chunks(b"".join(animation.apng(moving([1, 2, 5, 6])))).frames]
        self.assertEqual(stands, [Fraction(1, 60), Fraction(1, 20), Fraction(1, 60), 1])

    def test_slower(self):
        stands = [delay for *_, delay in Chunks(b"".join(animation.apng(moving([1, 2, 5, 6]), 30))).frames]
        self.assertEqual(stands, [Fraction(1, 2), Fraction(3, 2), Fraction(1, 2), 1])

    def test_no_time_is_lost_by_rounding(self):
        for period in (1_000_000, 6_944_444, 8_333_333, 11_111_111, 16_666_667, 999_999_999):
            times = [period * number for number in range(1, 2000)]
            shown = Fraction(0)
            for time, stands in zip(times, animation.delays(times, 1)):
                self.assertLess(abs(shown - Fraction(time - period, 10 ** 9)), Fraction(1, 60_000))
                self.assertTrue(0 < stands.numerator <= 65535 and stands.denominator <= 65535)
                shown += stands

    def test_delays_that_are_too_long_are_as_long_as_can_be(self):
        for seconds in (65535, 65536, 10 ** 9):
            self.assertEqual(animation.nearest(seconds), 65535)
        self.assertEqual(animation.nearest(Fraction(130_001, 2)), Fraction(65000))

    def test_differing_columns(self):
        self.assertEqual(animation.differing_columns([b"abcdef"], [b"abcdef"]), None)
        self.assertEqual(animation.differing_columns([b"\0\0\0\0\0", b"\0\0\0\0\0"], [b"\0\0\1\0\0", b"\0\1\0\x80\0"]), (1, 3))
        self.assertEqual(animation.differing_columns([b"abc"], [b"Abd"]), (0, 2))


class Y4m(unittest.TestCase):
    def pieces(self, frames):
        head, *pictures = animation.y4m(frames)
        return head, pictures

    def test_a_picture_for_each_vsync_from_the_first_frame_to_the_last(self):
        head, pictures = self.pieces(moving([2, 3, 7, 8]))
        self.assertEqual(head, b"YUV4MPEG2 W37 H23 F60:1 Ip A1:1 C444\n")
        self.assertEqual(len(pictures), 7)
        self.assertEqual({len(picture) for picture in pictures}, {6 + 3 * 37 * 23})
        self.assertEqual([pictures[1]] * 4, pictures[1:5])
        self.assertNotEqual(pictures[0], pictures[1])

    def test_frames_that_are_far_apart_are_no_video(self):
        """A few bytes of records would be billions of pictures."""
        self.assertEqual(len(self.pieces(Frames(1, 1, PERIOD, [Frame(1, PERIOD, bytes(4)), Frame(36_000, PERIOD, bytes(4))]))[1]), 36_000)
        for last, count in ((36_001, 36_001), ((1 << 32) - 1, (1 << 32) - 1)):
            with self.assertRaises(animation.NoFrames) as raised:
                next(animation.y4m(Frames(1, 1, PERIOD, [Frame(1, PERIOD, bytes(4)), Frame(last, PERIOD, bytes(4))])))
            self.assertEqual(str(raised.exception), f"from the first frame to the last there are {count} vsyncs, and a video with a picture for each has at most 36000: "
                             "apng shows each frame at its time")

    def test_the_planes_stand_one_behind_the_other(self):
        pixels = bytes((255, 255, 255, 255, 0, 0, 0, 255, 255, 0, 0, 255, 0, 0, 255, 255))
        _, (picture,) = self.pieces(Frames(2, 2, PERIOD, [Frame(1, PERIOD, pixels)]))
        self.assertEqual(picture, b"FRAME\n" + bytes((235, 16, 81, 41, 128, 128, 90, 240, 128, 128, 240, 110)))

    def test_rates_that_players_know(self):
        for period, rate in ((16666667, b"60:1"), (8333333, b"120:1"), (16683333, b"60000:1001"), (1_000_000_000, b"1:1"), (1_000_000, b"1000:1")):
            head, _ = self.pieces(Frames(1, 1, period, [Frame(1, period, bytes(4))]))
            self.assertIn(b" F" + rate + b" ", head)


class Commands(Case):
    def test_an_animated_png_is_written_and_named(self):
        path = self.path("run.png")
        self.assertEqual(run("apng", path, self.file(LONG)), (0, path + "\n", ""))
        with open(path, "rb") as file:
            parts = Chunks(file.read())
        self.assertEqual([delay for *_, delay in parts.frames], [Fraction(1, 500), 1])
        self.assertEqual(run("apng", path, "--slow", "100", self.file(LONG))[0], 0)
        with open(path, "rb") as file:
            self.assertEqual(Chunks(file.read()).frames[0][4], Fraction(1, 5))

    def test_a_raw_video_goes_to_standard_output(self):
        ended = subprocess.run([sys.executable, "-B", TOOL, "y4m"], input=LONG, capture_output=True)
        self.assertEqual((ended.returncode, ended.stderr), (0, b""))
        self.assertEqual(ended.stdout, b"".join(animation.y4m(animation.frames_of(read(LONG)[0]))))

    def test_a_stream_without_a_frame_is_told(self):
        for words in (("apng", self.path("run.png")), ("y4m",)):
            status, out, err = run(*words, self.file(SCEN + DONE))
            self.assertEqual((status, out, err), (1, "", "records.py: the stream has no frame\n"))
        self.assertFalse(os.path.exists(self.path("run.png")))

    def test_what_is_wrong_with_the_stream_is_told_beside_what_can_be_shown(self):
        status, _, err = run("apng", self.path("run.png"), self.file(RED[:-8]))
        self.assertEqual(status, 1)
        self.assertIn("the stream ends without DONE", err)
        self.assertTrue(os.path.exists(self.path("run.png")))

    def test_wrong_words(self):
        for words in (["apng"], ["apng", "a", "--slow"], ["apng", "a", "--slow", "0"], ["apng", "a", "--slow", "x"], ["apng", "a", "--slow", "1001"],
                      ["y4m", "a", "b"], ["y4m", "--slow", "2"]):
            status, out, err = run(*words)
            self.assertEqual((status, out), (2, ""), words)
            self.assertIn("--help tells what it takes", err)

    def test_a_reader_that_goes_away_ends_it_quietly(self):
        data = record("SCEN", 1, 64, 64, (1000000,)) + b"".join(record("FRAM", number, rest=bytes(64 * 64 * 4)) for number in range(1, 200)) + DONE
        tool = subprocess.Popen([sys.executable, "-B", TOOL, "y4m", self.file(data)], stdout=subprocess.PIPE, stderr=subprocess.PIPE)
        tool.stdout.close()
        self.assertEqual((tool.stderr.read(), tool.wait()), (b"", 1))
        tool.stderr.close()


def answers(*words):
    """Whether there is such a program, and it does not fail with these words."""
    return shutil.which(words[0]) is not None and subprocess.run(words, capture_output=True).returncode == 0


class Decoders(unittest.TestCase):
    """What other programs make of these files."""

    def setUp(self):
        folder = tempfile.TemporaryDirectory()
        self.addCleanup(folder.cleanup)
        self.folder = folder.name
        self.frames = moving([1, 2, 5, 6])

    def written(self, name, pieces):
        path = os.path.join(self.folder, name)
        with open(path, "wb") as file:
            file.writelines(pieces)
        return path

    def output(self, *words):
        return subprocess.run(words, check=True, capture_output=True, timeout=60).stdout

    def decoded(self, path, *words):
        return self.output("ffmpeg", "-v", "error", "-i", path, *words, "-f", "rawvideo", "-pix_fmt", "rgba", "-")

    @unittest.skipUnless(shutil.which("ffmpeg"), "ffmpeg is not installed")
    def test_ffmpeg_reads_the_animated_png(self):
        path = self.written("run.png", animation.apng(self.frames))
        self.assertEqual(self.decoded(path, "-fps_mode", "passthrough"), b"".join(frame.pixels for frame in self.frames.frames))

    @unittest.skipUnless(shutil.which("ffprobe"), "ffprobe is not installed")
    def test_ffprobe_finds_the_frames_at_their_times(self):
        path = self.written("run.png", animation.apng(self.frames, 60))
        told = self.output("ffprobe", "-v", "error", "-show_entries", "packet=pts_time", "-of", "csv=p=0", path)
        times = [float(time.strip(b",")) for time in told.split()]
        self.assertEqual([round(time, 3) for time in times], [0, 1, 4, 5])

    @unittest.skipUnless(shutil.which("ffmpeg"), "ffmpeg is not installed")
    def test_ffmpeg_reads_the_raw_video(self):
        path = self.written("run.y4m", animation.y4m(self.frames))
        got, size = self.decoded(path), 37 * 23 * 4
        shown = [self.frames.frames[place].pixels for place in (0, 1, 1, 1, 2, 3)]
        self.assertEqual(len(got), size * len(shown))
        for place, wanted in enumerate(shown):
            picture = got[place * size:(place + 1) * size]
            self.assertLessEqual(max(abs(a - b) for a, b in zip(picture, wanted)), 4, f"picture {place}")

    @unittest.skipUnless(answers("convert", "-version"), "ImageMagick is not installed")
    def test_imagemagick_reads_the_first_picture(self):
        path = self.written("run.png", animation.apng(self.frames))
        self.assertEqual(self.output("convert", "PNG:" + path, "-depth", "8", "RGBA:-"), self.frames.frames[0].pixels)

    def test_the_rows_of_a_frame(self):
        self.assertEqual(rows_of(bytes(range(16)), 2), [bytes(range(8)), bytes(range(8, 16))])


if __name__ == "__main__":
    unittest.main()
