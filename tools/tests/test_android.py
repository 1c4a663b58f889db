"""Tests of android.py: traces that protoc encodes from text go in and come out, and hostile ones are told in a line."""

import contextlib
import io
import os
import random
import re
import shutil
import struct
import subprocess
import tempfile
import unittest
from unittest import mock

from surbeldoi import TOP
from surbeldoi.android import asked
from surbeldoi.android.asked import scene_of
from surbeldoi.android.forms import LAYERS_TRACE, MAGIC, SURFACE_TRACE
from surbeldoi.android.notes import TraceFault
from surbeldoi.android.regions import visible_regions
from surbeldoi.android.shown import layers_trace
from surbeldoi.android.wire import WireFault, read, varint, written
from surbeldoi.check.checking import checked
from surbeldoi.commands import android
from surbeldoi.model.playing import Play
from surbeldoi.records.stream import OUTPUTS, Record
from surbeldoi.script.scenes import MOST_BYTES, read_scene
from tests.android_traces import CASES

FORMS = os.path.join(TOP, "tools", "surbeldoi", "android")
PROTOC = shutil.which("protoc")


def protoc(way, message, data):
    """What protoc makes of a message of one of both traces: `encode` bytes of text, `decode` text of bytes."""
    name = "surface_trace.proto" if message == "SurfaceTrace" else "layers_trace.proto"
    return subprocess.run([PROTOC, f"--{way}={message}", "-I", FORMS, name], input=data, stdout=subprocess.PIPE, check=True).stdout


def played(script):
    """The records of the play of a script."""
    return [Record(tag, fields, b"", False, []) for tag, fields in Play(read_scene(script)).records()]


def text_of(form, message, depth=0):
    """A message as protoc shows it."""
    pad = "  " * depth
    for field in (field for _, field in sorted(form.items()) if field.name in message):
        for value in message[field.name] if field.repeats else [message[field.name]]:
            if isinstance(field.kind, dict):
                yield f"{pad}{field.name} {{"
                yield from text_of(field.kind, value, depth + 1)
                yield pad + "}"
            elif field.kind == "string":
                yield f'{pad}{field.name}: "{value}"'
            else:
                yield f"{pad}{field.name}: {str(value).lower() if field.kind == 'bool' else value}"


def numbers_alike(text):
    """Text in which numbers with a point are as a float of 32 bits has them."""
    return re.sub(r"-?[0-9]+(\.[0-9]+)?e?[-+0-9]*", lambda found: repr(struct.unpack("f", struct.pack("f", float(found[0])))[0]), text)


@unittest.skipUnless(PROTOC, "protoc is not installed")
class Traces(unittest.TestCase):
    """Traces that protoc encodes from text."""

    @classmethod
    def setUpClass(cls):
        cls.encoded = {name: protoc("encode", "SurfaceTrace", case.text.encode()) for name, case in CASES.items()}
        cls.scenes = {name: scene_of(data, CASES[name].divisor) for name, data in cls.encoded.items()}
        cls.runs = {name: played(script) for name, (script, _) in cls.scenes.items()}

    def test_there_are_ten_at_least(self):
        self.assertGreaterEqual(len(CASES), 10)

    def test_what_protoc_encodes_is_read_and_written_as_it_stands(self):
        for name, data in self.encoded.items():
            with self.subTest(name):
                self.assertEqual(written(SURFACE_TRACE, read(SURFACE_TRACE, data)), data)

    def test_the_text_of_what_is_read_is_what_protoc_decodes(self):
        for name, data in self.encoded.items():
            with self.subTest(name):
                told = "\n".join(text_of(SURFACE_TRACE, read(SURFACE_TRACE, data))) + "\n"
                self.assertEqual(numbers_alike(told), numbers_alike(protoc("decode", "SurfaceTrace", data).decode()))

    def test_each_becomes_a_scene_whose_play_is_accepted(self):
        for name, (script, notes) in self.scenes.items():
            with self.subTest(name):
                records = self.runs[name]
                checked(script, records, False, False)
                self.assertEqual([record.fields for record in records if record.tag == "REPL" and record.fields["status"]], [], "no step is refused")
                self.assertEqual([record.fields for record in records if record.tag == "COMM" and record.fields["result"]], [], "nothing is rejected")
                self.assertEqual([record.fields for record in records if record.tag == "STUK"], [{"stuck": []}])
                self.assertEqual(len([record for record in records if record.tag == "FRAM"]), CASES[name].frames)
                self.assertEqual([line.split(": ")[0] for line in notes.lines()], list(CASES[name].notes))

    def test_what_each_showed_comes_out_as_protoc_reads_it(self):
        for name, (script, _) in self.scenes.items():
            with self.subTest(name):
                trace = layers_trace(script, self.runs[name])
                self.assertEqual(trace[:9], b"\x09LYRTRACE")
                decoded = protoc("decode", "LayersTrace", trace)
                self.assertEqual(protoc("encode", "LayersTrace", decoded), trace)
                self.assertEqual(written(LAYERS_TRACE, read(LAYERS_TRACE, trace)), trace)
                self.assertEqual(decoded.count(b"\nentries {"), CASES[name].frames)

    def test_500_transactions_over_100_vsyncs_are_that_many(self):
        records = self.runs["500 transactions over 100 vsyncs"]
        told = read(SURFACE_TRACE, self.encoded["500 transactions over 100 vsyncs"])["increments"]
        self.assertEqual(len([increment for increment in told if increment.get("transaction", {}).get("surface_changes")]), 500)
        self.assertEqual(len([record for record in records if record.tag == "VSYN"]), 100)
        self.assertEqual(len([record for record in records if record.tag == "COMM"]), 500 + 100 + 20)

    def test_many_steps_go_from_actor_to_actor(self):
        script, _ = self.scenes["1,000 transactions of 9 surfaces"]
        self.assertEqual(script.count(b"\nactor "), 2)

    def test_layers_traces_as_text_are_read(self):
        for name, text in (("empty", ""), ("one", 'magic: 4990904633914448204 entries { time: 5 where: "here" layers { layers { id: -1 children: 3 children: -4 } } }'),
                           ("every field", EVERY_LAYER_FIELD)):
            with self.subTest(name):
                data = protoc("encode", "LayersTrace", text.encode())
                message = read(LAYERS_TRACE, data)
                self.assertEqual(written(LAYERS_TRACE, message), data)
                self.assertEqual(numbers_alike("".join(line + "\n" for line in text_of(LAYERS_TRACE, message))),
                                 numbers_alike(protoc("decode", "LayersTrace", data).decode()))


EVERY_LAYER_FIELD = """magic: 7 entries { time: 18446744073709551615 where: "w" layers { resolution { w: 1 h: 2 } colour_mode: "m" colour_transform: "t" global_transform: 3
layers { id: 1 name: "n" children: 2 children: -3 relatives: 4 type: "t" visible_region { rectangles { left: -1 top: 2 right: 3 bottom: 4 } rectangles { } }
damage_region { } layer_stack: 4294967295 z: -2147483648 position { x: 1.5 y: -2.25 } requested_position { x: 1 y: 2 } size { w: 3 h: 4 }
crop { left: 1 top: 2 right: 3 bottom: 4 } opaque: true pixel_format: "p" colour { r: 0.5 g: 0.25 b: 0 a: 1 } requested_colour { a: 1 } flags: 3
transform { dsdx: 1 dtdx: 2 dsdy: 3 dtdy: 4 type: 5 } requested_transform { } parent: -1 relative_of: 9 active_buffer { width: 1 height: 2 stride: 3 format: -4 }
queued_frames: 2 frame_number: 18446744073709551615 barriers { layer: 1 frame: 2 } barriers { } buffer_transform { type: 7 } effective_transform { type: 1 }
source_bounds { left: 1 } bounds { top: 2 } screen_bounds { left: 1 top: 2 right: 3 bottom: 4 } } } }"""


def encoded(*increments):
    """A trace of these increments."""
    return written(SURFACE_TRACE, {"increments": list(increments)})


def surface(number, width=8, height=8, name="s"):
    return {"surface_made": {"surface": number, "name": name, "width": width, "height": height}}


def changes(*told):
    return {"transaction": {"surface_changes": [{"surface": number, **change} for number, change in told]}}


def frame(number, count=1, width=8, height=8):
    return {"buffer_update": {"surface": number, "width": width, "height": height, "frame": count}}


VSYNC = {"vsync": {"when": 5}}


class Scenes(unittest.TestCase):
    """Scenes of traces that are encoded here, without protoc."""

    def script(self, *increments, divisor=None):
        return scene_of(encoded(*increments), divisor)[0].decode().splitlines()

    def test_a_surface_is_a_layer_of_its_number_with_frames_of_one_colour(self):
        self.assertEqual(self.script(surface(7, name="a\nb"), changes((7, {"position": {"x": 1.0, "y": 2.0}})), frame(7), VSYNC), [
            "scene 2 8 8 16666667", "queue 1 8 8", "picture 1 8 8", "fill 0 0 8 8 f25555ff", "actor 1", "# layer 7: a\\nb", "tx 1", "set 1 7 create buffer 0",
            "apply 1 token 1", "tx 1", "set 1 7 position 1 2", "apply 1 token 1", "maxacquired 1 62", "connect 1", "dequeuewait 1 as b size 8 8", "request b",
            "draw b 1", "queue b 1", "acquire 1 as b", "tx 1", "buffer 1 7 b", "apply 1 token 1", "order 1*16 v", "end"])

    def test_each_change_has_its_form(self):
        for name, change, steps in (
                ("a position", {"position": {"x": -3.0, "y": 4.0}}, ["set 1 1 position -3 4"]),
                ("a position by default", {"position": {}}, ["set 1 1 position 0 0"]),
                ("a far position", {"position": {"x": 1e30, "y": -1e30}}, ["set 1 1 position 16384 -16384"]),
                ("halves", {"position": {"x": 0.5, "y": -0.5}}, ["set 1 1 position 1 0"]),
                ("an alpha", {"alpha": {"value": 0.5}}, ["set 1 1 alpha 128"]),
                ("an alpha above", {"alpha": {"value": 7.0}}, ["set 1 1 alpha 255"]),
                ("a z", {"z": {"value": 5}}, ["set 1 1 z 5"]),
                ("a z below", {"z": {"value": (1 << 32) - 3}}, ["set 1 1 z -3"]),
                ("a crop", {"crop": {"rectangle": {"left": 1, "top": 2, "right": 5, "bottom": 9}}}, ["set 1 1 crop 1 2 4 7"]),
                ("a crop without area", {"crop": {"rectangle": {"left": 1, "right": 1, "bottom": 4}}}, ["set 1 1 crop none"]),
                ("no crop", {"crop": {}}, ["set 1 1 crop none"]),
                ("hidden", {"hidden": {"value": True}}, ["set 1 1 hidden 1"]),
                ("shown", {"hidden": {}}, ["set 1 1 hidden 0"]),
                ("opaque", {"opaque": {"value": True}}, ["set 1 1 opaque 1"]),
                ("nothing", {}, []),
                ("a matrix", {"matrix": {"dsdx": 2.0}}, []),
                ("an own stack", {"layer_stack": {"value": 4}}, [])):
            with self.subTest(name):
                lines = self.script(surface(1), changes((1, change)), VSYNC)
                self.assertEqual([line for line in lines if line.startswith("set 1 1 ") and "create" not in line], steps)

    def test_pixels_are_divided(self):
        for name, divisor, lines in (("by 4", 4, ["scene 2 25 5 16666667", "queue 1 25 5", "set 1 1 position 3 -2"]),
                                     ("as they are", 1, ["scene 2 100 20 16666667", "queue 1 100 20", "set 1 1 position 10 -8"])):
            with self.subTest(name):
                script = self.script(surface(1, 100, 20), frame(1, 1, 100, 20), changes((1, {"position": {"x": 10.0, "y": -8.0}})), VSYNC, divisor=divisor)
                self.assertEqual([line for line in script if line in lines], lines)

    def test_a_divisor_that_is_too_small_is_told_with_one_that_fits(self):
        with self.assertRaisesRegex(TraceFault, r"1080 x 2400 by 2 is too large: .*--divide 5 fits"):
            scene_of(encoded(surface(1, 1080, 2400), frame(1, 1, 1080, 2400)), 2)

    def test_the_period_is_the_usual_time_between_vsyncs(self):
        for whens, period in (((10_000_000, 18_000_000, 26_000_000, 90_000_000), 8_000_000), ((5, 6), 1_000_000), ((1, 1), 16_666_667), ((9, -5), 16_666_667)):
            with self.subTest(whens=whens):
                script = self.script(*({"vsync": {"when": when}} for when in whens))
                self.assertEqual(script[0], f"scene 2 216 480 {period}")

    def test_numbers_of_surfaces_that_no_layer_may_have_are_others(self):
        script = self.script(surface(0), surface(-4), changes((-4, {"z": {"value": 1}})), VSYNC)
        self.assertEqual([line for line in script if line.startswith("set")],
                         ["set 1 2147483648 create container 0", "set 1 2147483649 create container 0", "set 1 2147483649 z 1"])

    def test_what_is_too_much_is_told(self):
        far = changes((1, {"position": {"x": 1000.0, "y": 1000.0}}))
        for name, most, increments, why in (
                ("surfaces", MOST_BYTES, [surface(number) for number in range(1, 1026)], "increment 1025: more than 1024 surfaces at once"),
                ("sizes", MOST_BYTES, [surface(1)] + [frame(1, number, number % 500 + 1, number // 500 + 1) for number in range(300)],
                 "increment 258: more than 256 sizes of buffers"),
                ("changes", MOST_BYTES, [surface(1), changes(*((1, {"z": {"value": 1}}) for _ in range(5000)))],
                 "a transaction of 5002 steps, where an actor may have 4096"),
                ("bytes", 4000, [surface(1)] + 99 * [far], "more than 4000 bytes: a shorter trace is needed")):
            with self.subTest(name), self.assertRaises(TraceFault) as raised, mock.patch.object(asked, "MOST_BYTES", most):
                scene_of(encoded(*increments), None)
            self.assertIn(why, str(raised.exception))

    def test_a_barrier_has_the_number_that_a_frame_has_in_its_queue(self):
        script = self.script(surface(1), surface(2), frame(9), frame(1, 40), frame(1, 41, 0, 5), frame(1, 42), frame(1, 41), VSYNC,
                             *(changes((2, {"deferred_until": {"surface": 1, "frame": wanted}})) for wanted in (1, 40, 41, 42, 43)))
        self.assertEqual([line for line in script if line.startswith("barrier")], [f"barrier 1 1 {frame}" for frame in (1, 1, 2, 2, (1 << 64) - 1)])

    def test_more_than_256_pictures_share_colours(self):
        script, notes = scene_of(encoded(*(surface(number) for number in range(1, 101)), *(frame(number, count) for count in range(3) for number in range(1, 101)), VSYNC), None)
        self.assertEqual(script.count(b"\npicture "), 256)
        self.assertIn("more than 256 pictures", "".join(notes.lines()))


def cut_anywhere(data):
    return [data[:end] for end in range(len(data))]


def tag(number, wire_type):
    return varint(number << 3 | wire_type)


class Hostile(unittest.TestCase):
    def told(self, *words):
        """The status of android.py, and what it says on standard error."""
        out, err = io.TextIOWrapper(io.BytesIO()), io.StringIO()
        with contextlib.redirect_stdout(out), contextlib.redirect_stderr(err):
            status = android.main(list(words))
        return status, err.getvalue()

    def file(self, data):
        with tempfile.NamedTemporaryFile(delete=False) as file:
            file.write(data)
        self.addCleanup(os.remove, file.name)
        return file.name

    def test_what_is_no_trace_is_a_line_and_status_2(self):
        for name, data, why in (
                ("a cut number", b"\xff", "byte 0: the bytes end inside a number"),
                ("an endless number", b"\xff" * 11, "byte 0: a number that does not end in ten bytes"),
                ("a length of 2^63", tag(1, 2) + varint(1 << 63), f"byte 11: {1 << 63} bytes are told, where 0 are left"),
                ("a length of 2^64 - 1", tag(1, 2) + varint((1 << 64) - 1) + b"x", f"byte 11: {(1 << 64) - 1} bytes are told, where 1 are left"),
                ("a message that reaches beyond its own", tag(1, 2) + b"\x03" + tag(2, 2) + b"\x05\0\0\0\0\0\0", "byte 4: 5 bytes are told, where 1 are left"),
                ("a group", tag(1, 3), "byte 1: a value of wire type 3"),
                ("a field 0", b"\x00\x01", "byte 1: a field of number 0"),
                ("a wire type 7", tag(9, 7), "byte 1: a value of wire type 7"),
                ("a float that is none", encoded(surface(1), changes((1, {"position": {"x": float("nan")}}))), "increment 2: position nan is no number"),
                ("an infinite alpha", encoded(surface(1), changes((1, {"alpha": {"value": float("inf")}}))), "increment 2: alpha inf is no number")):
            with self.subTest(name):
                self.assertEqual(self.told("scene", self.file(data)), (2, f"android.py: no trace of SurfaceInterceptor: {why}\n"))

    def test_a_trace_that_is_cut_anywhere_is_read_or_told(self):
        for data in cut_anywhere(encoded(surface(1), changes((1, {"position": {"x": 1.0}}), (1, {"crop": {"rectangle": {"left": 1}}})), frame(1), VSYNC)):
            try:
                read_scene(scene_of(data, None)[0])
            except (WireFault, TraceFault):
                pass

    def test_changed_bytes_are_read_or_told(self):
        chance = random.Random(5)
        data = encoded(surface(1), surface(2, 3000, 9), changes((1, {"position": {"x": 1.0, "y": 1e9}}), (2, {"alpha": {"value": 0.3}}),
                                                                (2, {"deferred_until": {"surface": 1, "frame": 3}})),
                       frame(1), frame(2, 9), VSYNC, {"surface_deleted": {"surface": 1}})
        for _ in range(1000):
            mutated = bytearray(data)
            for _ in range(chance.randint(1, 4)):
                mutated[chance.randrange(len(mutated))] = chance.randrange(256)
            try:
                read_scene(scene_of(bytes(mutated), None)[0])
            except (WireFault, TraceFault):
                pass

    def test_deep_nesting_is_passed_over(self):
        data = b""
        for _ in range(2000):
            data = tag(1, 2) + varint(len(data)) + data
        self.assertEqual(self.told("scene", self.file(data))[0], 0)

    def test_wrong_words_and_files_are_told(self):
        for name, words, why in (("nothing", (), "which command?"), ("an unknown command", ("layer",), "is layers meant?"), ("no such file", ("scene", "/nowhere/trace"), "No such file"),
                                 ("a divisor", ("scene", "--divide", "0", "/dev/null"), "--divide"), ("no script", ("layers", "/dev/null"), "--script"),
                                 ("no scene", ("layers", "--script", self.file(b"scene"), "/dev/null"), "line 1 is none of a scene"),
                                 ("no records", ("layers", "--script", os.path.join(TOP, "scenes", "red.sf"), "/dev/null"), "no records of a run of this scene")):
            with self.subTest(name):
                status, said = self.told(*words)
                self.assertEqual(status, 2)
                self.assertIn(why, said)
                self.assertEqual(said.count("\n"), 1, said)


def hiding_by_pixels(layers, size):
    """What is seen of each layer, pixel by pixel."""
    seen = [set() for _ in layers]
    for x in range(size):
        for y in range(size):
            for at in reversed(range(len(layers))):
                (left, top, right, bottom), hides = layers[at]
                if left <= x < right and top <= y < bottom:
                    seen[at].add((x, y))
                    if hides:
                        break
    return seen


class Layers(unittest.TestCase):
    def test_visible_regions_are_those_of_the_pixels(self):
        chance = random.Random(11)
        for _ in range(300):
            layers = []
            for _ in range(chance.randint(0, 7)):
                left, top = chance.randrange(12), chance.randrange(12)
                layers.append(((left, top, chance.randint(left + 1, 12), chance.randint(top + 1, 12)), chance.random() < 0.6))
            regions = visible_regions(layers)
            pixels = [[(x, y) for left, top, right, bottom in region for x in range(left, right) for y in range(top, bottom)] for region in regions]
            self.assertEqual([set(each) for each in pixels], hiding_by_pixels(layers, 12), layers)
            self.assertEqual([len(each) for each in pixels], [len(set(each)) for each in pixels], "the rectangles do not meet")

    def layers(self, script):
        """The layers of the last entry of a layers trace, by their numbers."""
        trace = read(LAYERS_TRACE, layers_trace(script, played(script)))
        self.assertEqual(trace["magic"], MAGIC)
        return {layer["id"]: layer for layer in trace["entries"][-1]["layers"]["layers"]}

    def scene(self, name):
        with open(os.path.join(TOP, "scenes", name), "rb") as file:
            return file.read()

    def test_the_tree_colours_frames_and_bounds_are_those_of_the_scene(self):
        script = b"""scene 2 20 20 1000000
            queue 1 8 4
            picture 1 8 4 format rgbx
            fill 0 0 8 4 ff0000ff
            actor 1
            connect 1
            dequeue 1 as b
            request b
            draw b 1
            queue b 1 crop 2 0 6 4
            acquire 1 as b
            tx 1
            set 1 1 create container 0
            set 1 1 position 3 4
            set 1 1 alpha 128
            set 1 2 create colour 1
            set 1 2 colour 40200080
            set 1 2 crop 0 0 5 5
            set 1 3 create buffer 1
            set 1 3 orient 1
            set 1 3 z -1
            set 1 3 opaque 1
            buffer 1 3 b
            set 1 4 create colour none
            set 1 5 create colour 0
            set 1 5 relative 2 7
            set 1 5 hidden 1
            apply 1 token 1
            order 1*28 v
            end
            """
        layers = self.layers(script)
        for name, got, wanted in (
                ("children by z", layers[1]["children"], [3, 2]), ("relatives", layers[2]["relatives"], [5]), ("a parent", layers[2]["parent"], 1),
                ("the root", layers[1]["parent"], -1), ("no parent", layers[4]["parent"], -1), ("relative of", layers[5]["relative_of"], 2),
                ("hidden", layers[5]["flags"], 1), ("opaque", (layers[3]["flags"], layers[3]["opaque"]), (2, True)), ("z", layers[3]["z"], -1),
                ("types", [layers[number]["type"] for number in (1, 2, 3)], ["ContainerLayer", "ColorLayer", "BufferStateLayer"]),
                ("a place", layers[2]["position"], {"x": 3.0, "y": 4.0}), ("its own place", layers[2]["requested_position"], {"x": 0.0, "y": 0.0}),
                ("a crop", layers[2]["crop"], {"left": 0, "top": 0, "right": 5, "bottom": 5}),
                ("a colour", {name: round(value, 4) for name, value in layers[2]["colour"].items()}, {"r": 0.5, "g": 0.25, "b": 0.0, "a": round(128 * 128 / 65025, 4)}),
                ("its own alpha", round(layers[2]["requested_colour"]["a"], 4), round(128 / 255, 4)),
                ("a frame", (layers[3]["frame_number"], layers[3]["active_buffer"]), (1, {"width": 8, "height": 4, "stride": 8, "format": 2})),
                ("a turned size", layers[3]["size"], {"w": 4, "h": 6}), ("a turn", layers[3]["buffer_transform"]["type"], 4 << 8 | 2),
                ("bounds on the screen", layers[3]["screen_bounds"], {"left": 3.0, "top": 4.0, "right": 7.0, "bottom": 10.0}),
                ("a region", layers[3]["visible_region"]["rectangles"], [{"left": 3, "top": 4, "right": 7, "bottom": 10}]),
                ("none of what is not shown", "visible_region" in layers[4] or "visible_region" in layers[5], False)):
            with self.subTest(name):
                self.assertEqual(got, wanted)

    def test_mirrors_have_copies_and_displays_their_stacks(self):
        layers = self.layers(self.scene("external.sf"))
        self.assertTrue(any(layer["name"].startswith("copy of ") for layer in layers.values()))
        self.assertGreater(len({layer["layer_stack"] for layer in layers.values()}), 1)

    def test_all_scenes_give_as_many_entries_as_frames(self):
        for name in sorted(os.listdir(os.path.join(TOP, "scenes"))):
            with self.subTest(name):
                script = self.scene(name)
                records = played(script)
                trace = read(LAYERS_TRACE, layers_trace(script, records))
                self.assertEqual(len(trace["entries"]), len({record.fields["number"] for record in records if record.tag in OUTPUTS}))


if __name__ == "__main__":
    unittest.main()
