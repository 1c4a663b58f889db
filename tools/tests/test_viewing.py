"""Tests of the page to look into a run: what it holds, and what it shows in a headless Chromium, where one is installed."""

import base64
import hashlib
import json
import os
import re
import subprocess
import time
import unittest

from surbeldoi.commands import run
from surbeldoi.records.stream import read
from surbeldoi.view.course import Course
from surbeldoi.view.viewing import values_text, view_page
from tests.browsing import PageCase
from tests.test_checking import played
from tests.test_course import HELD, PROGRAM, REJECTED, scene, stream
from tests.test_records import Case, run as run_records
from tests.test_scenes import SCENES

# How long the page may take to go to another vsync of a phone's screen or of 1,023 layers, and to check all its frames, in seconds.
# A fiftieth of this is usual; a machine with eight times as much to do as it has processors takes a third of it.
STEP, CHECK = 12.0, 120.0


def page(name, data):
    return view_page(name, read(data)[0], scene(name))


def played_page(name):
    """The page of a scene's play, by the program where it is built, and else by the player of the tools."""
    script = scene(name)
    data = subprocess.run([PROGRAM], input=script, stdout=subprocess.PIPE, timeout=60).stdout if PROGRAM else b""
    return view_page(name, read(data)[0] if data else played(script), script)


def data_of(text):
    """The data that a page holds."""
    return json.loads(re.search(r'<script type="application/json" id="run">(.*)</script>$', text, re.M).group(1))


def phone(frames):
    """A script of so many frames of a phone's screen of 360 x 640, in which a list scrolls below a bar."""
    pictures = ["picture 1 360 512", "fill 0 0 360 512 203050ff", "picture 2 360 24", "fill 0 0 360 24 00000099", "fill 8 8 60 8 ffffffff"]
    for number in range(3, 11):
        pictures += [f"picture {number} 360 512"]
        pictures += [f"fill 16 {(row * 64 + (number - 3) * 8) % 512} 328 48 {40 + row * 20:02x}{200 - row * 9:02x}{90 + number * 10:02x}{255 - row * 12:02x}" for row in range(8)]
    steps = ["connect 1", "connect 2", "connect 3", "dequeue 1 as w", "request w", "draw w 1", "queue w 1", "acquire 1 as w", "dequeue 2 as b", "request b", "draw b 2",
             "queue b 2", "acquire 2 as b", "tx 1", "set 1 1 create buffer 0", "buffer 1 1 w", "set 1 2 create buffer 0", "buffer 1 2 b", "set 1 2 z 9",
             "set 1 3 create buffer 0", "set 1 3 position 0 64"]
    order = [len(steps) + 6]
    for number in range(frames):
        steps += ["dequeue 3 as a", *(["request a"] if number < 2 else []), f"draw a {3 + number % 8}", f"queue a {3 + number % 8}", "acquire 3 as a",
                  "buffer 1 3 a", "apply 1 token 1", "tx 1"]
        order.append(len(steps))
    turns = [end - start for start, end in zip([0] + order[1:], order[1:])]
    picks = [f"1*{turn} v" for turn in turns]
    lines = ["scene 1 360 640 16666667", "queue 1 360 512", "queue 2 360 24", "queue 3 360 512", *pictures, "actor 1", *steps]
    return "\n".join(lines + [f"order {' '.join(picks)}", "end", ""]).encode()


def many(layers, vsyncs):
    """A script of so many layers in 64 windows, some of which change before each vsync."""
    steps = ["tx 1"]
    for number in range(1, layers + 1):
        is_window = number <= 64
        steps += [f"set 1 {number} create container 0", f"set 1 {number} position {number % 8 * 32} {number // 8 % 8 * 32}"] if is_window else [
            f"set 1 {number} create colour {number % 64 + 1}", f"set 1 {number} colour {number * 7919 % 2 ** 24:06x}ff", f"set 1 {number} crop {number % 20} {number % 13} {8 + number % 40} {8 + number % 31}"]
    steps.append("apply 1 token 1")
    order = [f"1*{min(256, len(steps) - done)}" for done in range(0, len(steps), 256)] + ["v"]
    changes = []
    for vsync in range(1, vsyncs):
        changes += ["tx 1", *(f"set 1 {65 + (vsync * 37 + at * 101) % (layers - 65)} {change}" for at, change in enumerate(("alpha 90", "position 3 4", "hidden 1", "z 5"))), "apply 1 token 2"]
        order += ["2*6", "v"]
    return "\n".join(["scene 2 256 256 16666667", "actor 1", *steps, "actor 2", *changes, f"order {' '.join(order)}", "end", ""]).encode()


class Page(Case):
    def test_it_has_the_run_and_fetches_nothing(self):
        text = page("held.sf", HELD)
        self.assertNotRegex(text, r"(?i)<(script|img|link|iframe)[^>]*(src|href)")
        self.assertNotRegex(text, r"\b(fetch|XMLHttpRequest|WebSocket|import)\b *\(")
        data = data_of(text)
        self.assertEqual((data["name"], data["outputs"], len(data["frames"]), len(data["moments"])),
                         ("held.sf", [{"name": "the own display", "width": 96, "height": 64, "isCapture": False, "shows": 0, "link": "display=1"}], 2, 3))
        self.assertEqual(data["arrivals"]["2"]["operations"][0], [2, 24, "set 1 2 create colour 0"])

    def test_what_moments_have_alike_stands_once(self):
        data = data_of(page("held.sf", HELD))
        self.assertEqual([len(data[name]) for name in ("layers", "drawn", "trees", "paintings")], [3, 3, 2, 2])
        self.assertEqual([data["paintings"][moment["outputs"][0]["painting"]] for moment in data["moments"]], [[0], [1, 0, 2], [1, 0, 2]])

    def test_vsyncs_that_took_nothing_are_there(self):
        data = data_of(played_page("desire.sf"))
        self.assertEqual([(moment["vsync"], moment["isSilent"], len(moment["held"])) for moment in data["moments"]],
                         [(1, False, 4), (2, False, 3), (3, True, 3), (4, False, 1), (5, True, 1), (6, False, 0), (None, False, 0)])

    def test_its_policy_lets_its_own_script_and_style_count_alone(self):
        text = page("held.sf", HELD)
        policy = re.search(r'<meta http-equiv="Content-Security-Policy" content="([^"]*)">', text).group(1)
        parts = dict(part.split(" ", 1) for part in policy.split("; "))
        self.assertEqual({name: parts[name] for name in ("default-src", "base-uri", "form-action")}, dict.fromkeys(("default-src", "base-uri", "form-action"), "'none'"))
        for name, tag in (("script-src", "script"), ("style-src", "style")):
            inside = re.search(rf"<{tag}>(.*?)</{tag}>", text, re.S).group(1)
            self.assertEqual(parts[name], f"'sha256-{base64.b64encode(hashlib.sha256(inside.encode()).digest()).decode()}'", name)
        self.assertNotRegex(text.split("<script")[0], r" (style|on[a-z]+)=")

    def test_displays_captures_and_hits(self):
        data = data_of(played_page("capture.sf"))
        self.assertEqual([output["name"] for output in data["outputs"]], ["the own display", "capture 1 of layer 10", "capture 2 of layer 12"])
        self.assertEqual([[output["isNew"] for output in moment["outputs"]] for moment in data["moments"]],
                         [[True, True, True], [True, True, True], [True, False, True], [False, False, False]])
        data = data_of(played_page("drag.sf"))
        self.assertEqual((data["hits"]["1"], data["mirrors"], data["moments"][5]["hits"][0]), ([28, 40], {"90": 5, "91": 4}, [1, 1]))

    def test_a_name_and_a_script_may_have_any_letters(self):
        script = b"scene 1 2 1 1000000\n# </script><b>\nactor 1\ntx 1\nend\n"
        data = stream("SCEN 1 2 1 1000000\nREPL 1 1 0\nDONE")
        text = view_page("a<b>&.sf", read(data)[0], script)
        self.assertIn("<title>a&lt;b>&amp;.sf</title>", text)
        self.assertEqual((text.count("</script>"), text.count("<script")), (2, 2))
        self.assertEqual(data_of(text)["name"], "a<b>&.sf")

    def test_values_have_their_names(self):
        self.assertEqual(values_text("dequeue", [1, 2, 0, 3, 9]), "slot 1, buffer 2, new 0, fence timeline 3 at 9")
        self.assertEqual(values_text("acquire", [1, 2, 3, 0]), "slot 1, frame 2, picture 3, dropped 0")
        self.assertEqual(values_text("tx", []), "")

    def test_the_command_writes_it(self):
        held = os.path.join(run.TOP, "scenes", "held.sf")
        self.assertEqual(run_records("view", "--script", held, self.file(HELD)), (0, page("held.sf", HELD) + "\n", ""))
        status, out, err = run_records("view", "--script", os.path.join(run.TOP, "scenes", "phone.sf"), self.file(HELD))
        self.assertEqual((status, out, err), (1, "", "records.py: the script is not the one of these records: SCEN says [1, 96, 64, 16666667], and the script [1, 240, 480, 16666667]\n"))
        for words in (["view"], ["view", self.file(HELD)], ["view", "--script"], ["view", "--slow", "2"]):
            self.assertEqual(run_records(*words)[:2], (2, ""), words)


class Shown(PageCase):
    """What a browser shows of the page."""

    def click_frame(self, x, y):
        """Clicks on a pixel of the frame."""
        left, top, wide, high, columns, rows = self.browser.value(
            "(() => { const c = document.getElementById('frame'); c.scrollIntoView({ block: 'nearest' }); const b = c.getBoundingClientRect();"
            " return [b.left, b.top, b.width, b.height, c.width, c.height]; })()")
        self.browser.click(left + (x + .5) * wide / columns, top + (y + .5) * high / rows)

    def go(self, place):
        self.browser.value(f"(() => {{ go({place}); }})()")
        self.settled()

    def choose(self, number):
        """Chooses a display or a capture."""
        self.browser.value(f"(() => {{ const s = document.getElementById('output'); s.value = {number}; s.dispatchEvent(new Event('change')); }})()")
        self.settled()

    def canvas_size(self):
        return self.browser.value("(() => { const c = document.getElementById('frame'); return [c.width, c.height]; })()")

    def outlined(self):
        return self.browser.value("[...document.querySelectorAll('#outlines rect')].map((one) => one.dataset.layer)")

    def all_checked(self):
        self.browser.until("document.getElementById('checked').dataset.done === 'yes'", 120)
        return self.text("checked")

    def test_another_display_is_chosen(self):
        self.open("external", played_page("external.sf"))
        self.assertEqual((self.canvas_size(), self.texts("#output option")), ([96, 168], ["the own display", "display 2"]))
        self.assertEqual(self.outlined(), ["1", "11", "2"])
        self.choose(1)
        self.assertEqual((self.canvas_size(), self.outlined()), ([240, 150], ["20", "11"]))
        self.assertIn("the same to the last pixel", self.text("check"))
        self.click_frame(200, 60)
        self.assertIn("At 200 60: layer 11 (chat) is on top", self.text("at"))
        self.assertIn("copied by layer 30, hides all that is behind it. Its frame is by line", self.texts("#stack tbody tr")[1])
        self.assertIn("copied by layer 30: at 150 14, covers 72 x 116 at 150 14", self.text("layer"))
        self.assertIn("layer 5, which it is below, is on stack 0, and display 2 shows stack 1", self.text("layer"))
        self.assertIn("layer 30changedmirrors 10stack 1 container", self.texts("#tree li"))
        self.assertEqual(self.all_checked(), "Of all 8 frames, 8 are the same as this page paints them.")

    def test_a_capture_of_a_layer_that_is_gone(self):
        self.open("capture", played_page("capture.sf"))
        self.choose(1)
        self.assertEqual((self.canvas_size(), self.outlined()), ([84, 110], ["11", "12"]))
        self.go(2)
        self.assertEqual((self.outlined(), self.text("check")), ([], "Nothing is captured: the layer is not there."))
        self.choose(2)
        self.assertIn("the same to the last pixel", self.text("check"))

    def test_hits(self):
        self.open("drag", played_page("drag.sf"))
        self.assertEqual(self.texts("#hits li"), ["hit 1 at 28 40: layer 5 (tea)", "hit 2 at 58 48: layer 1 (wall)", "hit 3 at 84 44: layer 6 (dad)",
                                                  "hit 4 at 112 40: layer 1 (wall)", "hit 5 at 134 58: layer 8", "hit 6 at 134 82: layer 9 (bin)"])
        self.go(4)
        self.click("#hits li:nth-child(5) button")
        self.settled()
        self.assertIn("At 134 58: layer 5 (tea) is on top", self.text("at"))
        rows = self.texts("#stack tbody tr")
        self.assertEqual([row.split("\t")[0] for row in rows[:4:2]], ["layer 4 (ring)", "layer 5 (tea)"])
        self.assertIn("copied by layer 90, covers 69 % (176 of 255) of b08858ff behind it", rows[3])
        self.assertIn("clear here, changes nothing.", rows[5])
        self.go(5)
        self.assertEqual(self.texts("#hits li")[0], "hit 1 at 28 40: layer 1 (wall)")

    def test_a_hit_that_differs_is_told(self):
        told = played(scene("drag.sf"))
        told = [one._replace(fields={**one.fields, "layer": 6}) if one.tag == "HITS" and one.fields["hit"] == 1 else one for one in told]
        self.open("wrong-hit", view_page("drag.sf", told, scene("drag.sf")))
        self.assertEqual(self.texts("#hits li")[0], "hit 1 at 28 40: layer 6 (dad) ✗ by the layers, 5")

    def test_a_scene_without_hits_and_further_displays_shows_no_choice(self):
        self.open("held", page("held.sf", HELD))
        self.assertEqual(self.browser.value("[...document.querySelectorAll('#output-choice, #hits-title')].map((one) => one.hidden)"), [True, True])

    def test_the_tree_and_the_frame(self):
        self.open("held", page("held.sf", HELD))
        self.assertEqual(self.text("where"), "vsync 1, 16.7 ms (1 of 3) a new frame, 2 waiting")
        self.assertEqual(self.texts("#tree li"), ["layer 3changed colour 20c020ff"])
        self.assertIn("the same to the last pixel", self.text("check"))
        self.go(1)
        self.assertEqual([text[:7] for text in self.texts("#tree li")], ["layer 2", "layer 3", "layer 1"])
        self.assertIn("i: queue 1 frame 1, picture 1", self.texts("#tree li")[2])
        self.assertEqual(self.browser.value("[...document.querySelectorAll('#outlines rect')].map((one) => [one.dataset.layer, one.getAttribute('y')])"),
                         [["1", "0"], ["3", "58"], ["2", "0"]])
        self.assertEqual(self.all_checked(), "Of all 2 frames, 2 are the same as this page paints them.")

    def test_why_a_transaction_waits(self):
        self.open("held", page("held.sf", HELD))
        fence, behind = self.texts("#waiting details")
        self.assertIn("arrival 1 of token 1, actor 1", fence)
        self.assertIn("timeline 1 has not reached 5, it is at 0; it is raised by actor 3 step 1 (line 37: signal 1 5). It is committed at vsync 2.", fence)
        self.assertIn("it is behind arrival 1 of its token", behind)
        self.assertEqual(self.text("timelines"), "timeline 1 at 0")
        self.go(1)
        self.assertEqual((self.texts("#waiting details"), self.text("waiting")), ([], "no transaction"))
        self.assertEqual([text.split("\n")[0][:9] for text in self.texts("#taken details")], ["arrival 1", "arrival 2"])

    def test_what_a_vsync_without_a_record_left_waiting(self):
        self.open("desire", played_page("desire.sf"))
        self.go(2)
        self.assertEqual(self.text("where"), "vsync 3, 60.0 ms (3 of 7) nothing was taken, the frame before stands, 3 waiting")
        self.assertIn("This vsync took nothing", self.text("taken"))
        self.assertIn("it is desired for 80000000 ns. It is committed at vsync 4.", self.texts("#waiting details")[0])
        self.assertIn("No new frame came here", self.text("check"))

    def test_an_actor_that_waits_is_told(self):
        self.open("threads", played_page("threads.sf"))
        self.assertIn("actor 3 waits at line 50: wait 1 1: timeline 1 has not reached 1, it is at 0", self.text("waiting-actors"))

    def test_a_click_names_the_layers_from_the_top(self):
        self.open("held", page("held.sf", HELD))
        self.go(1)
        self.click_frame(40, 2)
        self.assertIn("At 40 2: layer 2 is on top", self.text("at"))
        rows = self.texts("#stack tbody tr")
        self.assertEqual([row.split("\t")[0] for row in rows[::2]], ["layer 2", "layer 1 (i)", "before any layer"])
        self.assertIn("hidden here by layer 2", rows[3])
        self.assertIn("set 1 2 colour c02020ff", self.text("layer"))
        self.click_frame(40, 20)
        self.assertIn("At 40 20: layer 1 (i) is on top", self.text("at"))
        self.go(0)
        self.assertIn("no layer shows, the display is black", self.text("at"))

    def test_why_a_pixel_has_its_colour(self):
        self.open("glass", played_page("glass.sf"), "#vsync=2&at=10,10")
        self.assertEqual(self.texts("#stack tbody tr"), ["layer 2\t 40000080\t255\t 40007fff",
                         "covers 50 % (128 of 255) of 0000ffff behind it. Its colour is by line 11 vsync 2. In front of layer 1: layer 2 and layer 1 both have z 0 at the root, and layer 2 was created later.",
                         "layer 1\t 0000ffff\t255\t 0000ffff", "hides all that is behind it. Its colour is by line 7 vsync 1.", "before any layer\t\t\t 000000ff"])
        self.assertEqual(self.text("pixel-of-frame"), "✓ The frame has 40007fff here, as the layers make it.")

    def test_what_is_asked_of_a_layer_and_what_comes_of_it(self):
        self.open("windows", played_page("windows.sf"), "#vsync=3&layer=4")
        self.assertEqual(self.texts("#layer table tr")[:10], [
            "property\tasked\tcomes to\tset by", "shown\tshown\tshown\tline 40 vsync 1",
            "1456 of its 2128 pixels are in sight, the others are covered by layer 8",
            "order\tz 0\t3 of 5 from the back\tline 40 vsync 1", "layer 4 and layer 3 both have z 0 of layer 2, and layer 4 was created later",
            "position\t0 10\t44 58\tline 41 vsync 1", "44 48 of layer 2 + 0 10 of its own", "area\tnone\t56 x 38 at 44 58\tline 40 vsync 1", "clipped by layer 2",
            "alpha\t255\t128\tline 40 vsync 1"])
        self.assertEqual(self.texts("#layer table tr")[10], "128 of layer 2 x 255 of its own")

    def test_what_changed_between_two_vsyncs(self):
        self.open("windows", played_page("windows.sf"), "#vsync=4&show=changes")
        self.browser.until("document.getElementById('changed-pixels').innerText !== '..'")
        self.assertEqual(self.text("changes-title"), "What changed from vsync 3 to vsync 4")
        told = [tuple(row.split("\t")) for row in self.texts("table.changes tbody tr")]
        self.assertEqual(told[::2], [("layer 2", "layer", "container", "gone"), ("layer 3", "parent", "layer 2", "none"), ("layer 4 (page)", "parent", "layer 2", "the root"),
                                     ("layer 4 (page)", "position", "0 10", "4 4"), ("layer 5", "parent", "layer 2", "none")])
        self.assertEqual([row[0] for row in told[1::2]], ["by line 57 vsync 4: set 1 2 destroy"] * 2 + ["by line 55 vsync 4: set 1 4 reparent 0", "by line 56 vsync 4: set 1 4 position 4 4",
                                                          "by line 57 vsync 4: set 1 2 destroy"])
        self.assertIn("layer 3\tshown\tshown\tnot shown\nbecause it has no parent", self.text("changes"))
        self.assertRegex(self.text("changed-pixels"), r"^the own display: [0-9]+ of 11520 pixels are others, in ")
        self.browser.value("(() => { const s = document.getElementById('beside'); s.value = 0; s.dispatchEvent(new Event('change')); })()")
        self.assertEqual(self.text("changes-title"), "What changed from vsync 1 to vsync 4")

    def test_why_one_layer_is_in_front_of_another(self):
        self.open("phone", played_page("phone.sf"), "#vsync=2&layer=6")
        self.browser.value("(() => { const f = document.getElementById('order-beside'); f.value = 4; f.dispatchEvent(new Event('change')); })()")
        self.assertEqual(self.text("order-text").strip(), "in front of it: layer 6 and layer 4 both have z 0 at the root, and layer 6 was created later")

    def test_the_arrows_the_buttons_and_the_axis(self):
        self.open("held", page("held.sf", HELD))
        self.press("ArrowRight")
        self.assertEqual(self.text("where"), "vsync 2, 33.3 ms (2 of 3) a new frame")
        self.click("#next")
        self.settled()
        self.assertEqual(self.text("where"), "the end of the run (3 of 3) the end of the run")
        left, top, wide = self.browser.value("(() => { const b = document.getElementById('axis-marks').getBoundingClientRect(); return [b.left, b.top, b.width]; })()")
        self.browser.click(left + 20, top + 10)
        self.settled()
        self.assertEqual(self.browser.value("now.place"), 0)

    def test_the_axis_is_to_scale(self):
        self.open("desire", played_page("desire.sf"))
        self.assertEqual(self.browser.value("RUN.moments.map((one) => Math.round(acrossOf(one)))"), [24, 183, 341, 500, 659, 817, 976])
        shapes = self.browser.value("Object.fromEntries([...document.querySelectorAll('#axis-marks path')].map((one) => [one.getAttribute('class'), (one.getAttribute('d').match(/M/g) || []).length]))")
        self.assertEqual(shapes, {"base": 1, "new": 4, "same": 0, "silent": 2, "rejected": 0, "held": 5, "end": 1})

    def test_it_plays_from_vsync_to_vsync(self):
        self.open("held", page("held.sf", HELD))
        self.browser.press(" ")
        self.assertEqual(self.text("play"), "stop")
        self.browser.until("now.place === 2 && document.getElementById('play').textContent === 'play'")
        self.settled()
        self.assertEqual(self.text("where"), "the end of the run (3 of 3) the end of the run")

    def test_a_rejected_transaction(self):
        self.open("rejected", page("whole-or-nothing.sf", REJECTED))
        self.go(1)
        (card,) = self.texts("#taken details")
        self.assertIn("rejected as a whole: at operation 2, the layer, or the parent or relative that it names, is not there", card)
        self.assertIn("set 2 9 colour 00ff00ff ← this cannot be done", self.texts("#taken .step.bad")[0])
        self.assertIn("No new frame came here", self.text("check"))
        self.assertEqual([text[:7] for text in self.texts("#tree li")], ["layer 1"])

    def test_a_pixel_that_differs_is_told(self):
        wrong = HELD.replace(bytes.fromhex("20c020ff") * 2, bytes.fromhex("20c020ff21c020ff"), 1)
        self.open("wrong", page("held.sf", wrong), "#at=1,58")
        self.assertIn("1 pixels differ, the first at 1 58", self.text("check"))
        self.assertEqual(self.text("pixel-of-frame"), "✗ The frame has 21c020ff here, where the layers make 20c020ff.")
        self.assertIn("they differ at vsync 1.", self.all_checked())

    def test_a_frame_that_was_cut_off_is_told(self):
        self.open("cut", page("held.sf", HELD[:HELD.rindex(b"FRAM") + 100]))
        self.go(1)
        self.assertIn("is not in the records: this is the one before", self.text("check"))
        self.assertIn("The run was cut off before its end.", self.text("notes"))

    def test_queues_and_actors(self):
        self.open("held", page("held.sf", HELD), "#show=queues")
        self.assertIn("actor 1, line 17: queue s 1 fence 1 5", self.text("queues"))
        self.assertEqual(self.browser.value("[...document.querySelectorAll('#queues title')].map((one) => one.textContent).slice(0, 3)"),
                         ["slot 0 dequeued", "slot 0 queued, frame 1", "slot 0 acquired, frame 1"])
        self.click("#tab-actors")
        self.assertEqual([text.split("\n")[0] for text in self.texts("#actors > div")],
                         ["actor 1 16 of 16 steps, all done", "actor 2 6 of 6 steps, all done", "actor 3 0 of 1 steps, 1 to come"])

    def test_a_transaction_as_script(self):
        self.open("merge", played_page("merge.sf"), "#vsync=2")
        self.browser.value("(() => { copy = async (text) => { window.copied = text; }; document.querySelector('#taken button').click(); })()")
        self.assertEqual(self.browser.value("copied"), "# arrival 3 of merge.sf: actor 1, line 49\ntx 1\nset 1 10 position 10 10\nset 1 10 crop 0 0 60 60\nbuffer 1 11 i\napply 1 token 1\n")

    def test_each_scene_is_painted_as_it_was(self):
        for name in SCENES:
            with self.subTest(name=name):
                self.open(name, played_page(name))
                self.assertRegex(self.all_checked(), r"^Of all (\d+) frames, \1 are the same as this page paints them\.$")

    def steps(self, places):
        """Goes from moment to moment, each in time, and answers the longest step in milliseconds, with what the browser painted."""
        return self.browser.value(f"""(async () => {{ let most = 0; for (const place of {places}) {{ const begun = performance.now(); await go(place);
            await new Promise((done) => requestAnimationFrame(() => setTimeout(done, 0))); most = Math.max(most, performance.now() - begun); }} return most; }})()""")

    def test_a_phones_screen_of_61_frames_stays_quick(self):
        script = phone(61)
        text = view_page("phone.sf", played(script), script)
        self.assertLess(len(text), 4_000_000)
        begun = time.monotonic()
        self.open("long", text)
        self.assertLess(self.steps([30, 60, 1]), 1000 * STEP)
        self.assertEqual(self.all_checked(), "Of all 61 frames, 61 are the same as this page paints them.")
        self.assertLess(time.monotonic() - begun, CHECK)

    def test_1023_layers_stay_quick(self):
        script = many(1023, 8)
        text = view_page("many.sf", played(script), script)
        self.open("many", text, "#vsync=5&layer=500")
        self.assertLess(self.steps([5, 6, 7, 2, 0]), 1000 * STEP)
        self.assertLess(self.browser.value("document.querySelectorAll('*').length"), 2000)
        box = self.browser.value("(() => { const t = document.getElementById('tree').getBoundingClientRect(), r = rows.get(500).element.getBoundingClientRect(); return [t.top, r.top, r.bottom, t.bottom].map(Math.round); })()")
        self.assertEqual(box, sorted(box), "the chosen layer is in sight")
        self.assertEqual(self.text("found"), "1023 layers")


if __name__ == "__main__":
    unittest.main()
