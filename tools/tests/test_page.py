"""Tests of how the page is used: by keys, by the mouse, by who does not see it, on narrow windows, by its address; in a headless
Chromium, where one is installed."""

import unittest

from surbeldoi.view.viewing import view_page
from tests.browsing import PageCase
from tests.test_checking import played
from tests.test_course import HELD, REJECTED, scene
from tests.test_viewing import many, page, played_page

TABS = ("transactions", "changes", "actors", "queues")
# Roles of what can be operated, each of which needs a name.
OPERATED = ("button", "slider", "combobox", "checkbox", "searchbox", "spinbutton", "treeitem", "tab", "link", "application", "DisclosureTriangle", "option", "textbox")
# Texts of the page whose contrast is less than 4.5 to 1, each with its colours. A text counts that is shown and not cut off.
FAINT = """(() => {
  const known = new Map(), c = document.createElement('canvas').getContext('2d', { willReadFrequently: true });
  const channels = (text) => { if (!known.has(text)) { c.clearRect(0, 0, 1, 1); c.fillStyle = text; c.fillRect(0, 0, 1, 1); known.set(text, [...c.getImageData(0, 0, 1, 1).data]); } return known.get(text); };
  const light = (rgb) => { const [r, g, b] = rgb.map((one) => { const s = one / 255; return s <= .04045 ? s / 12.92 : ((s + .055) / 1.055) ** 2.4; }); return .2126 * r + .7152 * g + .0722 * b; };
  const over = (top, under) => top.slice(0, 3).map((one, at) => one * top[3] / 255 + under[at] * (1 - top[3] / 255));
  const behind = (element) => { const all = []; for (let at = element; at; at = at.parentElement) all.push(channels(getComputedStyle(at).backgroundColor));
    return all.reverse().reduce((under, top) => over(top, under), matchMedia('(prefers-color-scheme: dark)').matches ? [18, 18, 18] : [255, 255, 255]); };
  const found = [], walk = document.createTreeWalker(document.body, NodeFilter.SHOW_TEXT);
  for (let node = walk.nextNode(); node; node = walk.nextNode()) {
    const element = node.parentElement, style = getComputedStyle(element);
    if (!node.textContent.trim() || !element.getClientRects().length || ['SCRIPT', 'STYLE', 'TITLE'].includes(element.tagName) || element.closest('svg')) continue;
    const ground = behind(element), ink = over(channels(style.color), ground);
    const [a, b] = [light(ink), light(ground)].sort((one, other) => other - one), ratio = (a + .05) / (b + .05);
    if (ratio < 4.5) found.push(`${node.textContent.trim().slice(0, 30)}: ${ratio.toFixed(2)}, ${style.color} on ${ground.map(Math.round)}`);
  }
  return found; })()"""


class Keys(PageCase):
    def test_space_and_enter_do_what_controls_do(self):
        self.open("held", page("held.sf", HELD))
        self.focus("#outlined")
        self.press(" ")
        self.assertFalse(self.browser.value("document.getElementById('outlined').checked"))
        self.assertEqual((self.text("play"), self.browser.value("now.place")), ("play", 0))
        self.focus("#next")
        self.press(" ")
        self.assertEqual((self.text("play"), self.browser.value("now.place")), ("play", 1))
        self.focus("#taken summary")
        self.press("Enter")
        self.assertFalse(self.browser.value("document.querySelector('#taken details').open"))
        self.press(" ")
        self.assertTrue(self.browser.value("document.querySelector('#taken details').open"))

    def test_keys_with_others_held_are_the_browsers(self):
        self.open("held", page("held.sf", HELD))
        for held in ("Alt", "Control", "Meta"):
            for key in ("ArrowRight", "End", "."):
                self.browser.call("Input.dispatchKeyEvent", type="rawKeyDown", key=key, code=key, modifiers={"Alt": 1, "Control": 2, "Meta": 4}[held], windowsVirtualKeyCode=0)
                self.assertEqual(self.browser.value("now.place"), 0, f"{held} {key}")

    def test_the_keys_of_the_page(self):
        self.open("windows", played_page("windows.sf"))
        for key, place in (("ArrowRight", 1), (".", 2), ("End", 4), (",", 3), ("ArrowLeft", 2), ("Home", 0)):
            self.press(key)
            self.assertEqual(self.browser.value("now.place"), place, key)
        self.press("+", "+")
        self.assertEqual(self.browser.value("[document.getElementById('zoom').value, document.getElementById('frame').style.width]"), ["2", "240px"])
        self.press("-", "/")
        self.assertEqual((self.browser.value("document.getElementById('zoom').value"), self.focused()), ("1", "search"))
        self.press(".", "Home", " ")
        self.assertEqual(self.browser.value("[now.place, document.getElementById('search').value]"), [0, " ."], "a text field has its own keys")

    def test_the_axis_by_keys(self):
        self.open("windows", played_page("windows.sf"))
        self.focus("#axis")
        for key, place in (("ArrowRight", 1), ("ArrowUp", 2), ("PageUp", 3), ("End", 4), ("ArrowLeft", 3), ("ArrowDown", 2), ("PageDown", 1), ("Home", 0)):
            self.press(key)
            self.assertEqual(self.browser.value("[now.place, Number(document.getElementById('axis').getAttribute('aria-valuenow'))]"), [place, place + 1], key)

    def test_the_tree_by_keys(self):
        self.open("windows", played_page("windows.sf"))
        self.assertEqual(self.browser.value("[...document.querySelectorAll('#tree li')].map((one) => one.dataset.layer)"), ["8", "2", "5", "4", "3", "1"])
        self.focus("#tree li[tabindex='0']")
        told = []
        for key in ("ArrowDown", "ArrowRight", "ArrowLeft", "ArrowLeft", "ArrowRight", "ArrowRight", "End", "Home"):
            self.press(key)
            told.append((key, self.focused(), len(self.texts("#tree li")), self.browser.value("String(now.layer)")))
        self.assertEqual(told, [("ArrowDown", "2", 6, "2"), ("ArrowRight", "5", 6, "5"), ("ArrowLeft", "2", 6, "2"), ("ArrowLeft", "2", 3, "2"), ("ArrowRight", "2", 6, "2"),
                                ("ArrowRight", "5", 6, "5"), ("End", "1", 6, "1"), ("Home", "8", 6, "8")])
        self.assertEqual(self.text("layer-title"), "layer 8")

    def test_the_frame_by_keys(self):
        self.open("held", page("held.sf", HELD))
        self.focus("#stage")
        self.press("ArrowRight", "ArrowDown", "ArrowDown")
        self.assertEqual(self.browser.value("now.point"), [48, 34])
        self.browser.press("ArrowLeft", "Shift")
        self.assertEqual(self.browser.value("now.point"), [38, 34])
        self.assertIn("At 38 34:", self.text("at"))
        self.assertEqual(self.browser.value("now.place"), 0, "the vsync stays")

    def test_the_tabs_by_keys_and_clicks(self):
        self.open("held", page("held.sf", HELD))
        self.focus("#tab-transactions")
        for key, tab in (("ArrowRight", "changes"), ("End", "queues"), ("ArrowLeft", "actors"), ("Home", "transactions")):
            self.press(key)
            self.assertEqual(self.browser.value("[now.tab, document.activeElement.id, document.getElementById('panel-' + now.tab).hidden]"), [tab, f"tab-{tab}", False])
        self.click("#tab-queues")
        self.assertEqual(self.browser.value("[...document.querySelectorAll('.panel')].map((one) => one.hidden)"), [True, True, True, False])

    def test_the_calls_of_a_queue_by_keys(self):
        self.open("held", page("held.sf", HELD), "#vsync=end&show=queues")
        self.focus("#queue-1")
        self.press("Home", "ArrowRight")
        self.assertEqual(self.text("call-1"), "call 2 of 5: actor 1, line 14: dequeue 1 as s, slot 0; by vsync 1")
        self.press("Enter")
        self.assertEqual(self.browser.value("now.place"), 0)

    def test_all_that_can_be_operated_is_reached_by_tab(self):
        self.open("drag", played_page("drag.sf"), "#at=30,40")
        reached = set()
        self.browser.value("document.body.focus()")
        for _ in range(60):
            self.browser.press("Tab")
            reached.add(self.browser.value("document.activeElement.closest('#hits, #stack, #tokens, #tree, #layer, #tabs, #taken, #axis, #stage, .panel, header, section, body').id"
                                           " + ' ' + document.activeElement.tagName"))
        for needed in ("hits BUTTON", "stack BUTTON", "tree LI", "layer BUTTON", "axis DIV", "stage DIV", "taken SUMMARY", "tokens BUTTON"):
            self.assertIn(needed, reached)


class Tree(PageCase):
    def found(self, text):
        self.browser.value(f"(() => {{ const s = document.getElementById('search'); s.value = '{text}'; s.dispatchEvent(new Event('input')); }})()")
        return self.browser.value("[[...document.querySelectorAll('#tree li[data-layer]:not(.around)')].map((one) => one.dataset.layer), [...document.querySelectorAll('#tree .around')].map((one) => one.dataset.layer)]")

    def test_layers_are_searched(self):
        self.open("windows", played_page("windows.sf"))
        for text, found, around in (("4", ["4"], ["2"]), ("page", ["4"], ["2"]), ("container", ["2"], []), ("colour", ["8", "5", "3", "1"], ["2"]), ("relative", ["5"], ["2"]),
                                    ("visible buffer", ["4"], ["2"]), ("99", [], []), ("", ["8", "2", "5", "4", "3", "1"], [])):
            self.assertEqual(self.found(text), [found, around], text)
        self.browser.value("go(3)")
        self.settled()
        self.assertEqual(self.found("visible")[0], ["8", "4", "1"])
        self.assertEqual(self.text("found"), "3 of 5 layers")
        self.assertEqual(self.found("no parent")[0], ["5", "3"])
        self.focus("#search")
        self.press("Enter")
        self.assertEqual(self.browser.value("now.layer"), 5)

    def test_it_folds_and_what_is_chosen_unfolds(self):
        self.open("windows", played_page("windows.sf"))
        self.click("#fold-all")
        self.assertEqual(self.browser.value("[...document.querySelectorAll('#tree li')].map((one) => one.dataset.layer + ' ' + one.getAttribute('aria-expanded'))"), ["8 null", "2 false", "1 null"])
        self.browser.value("chooseLayer(4)")
        self.assertEqual(self.browser.value("[...document.querySelectorAll('#tree [aria-selected=true]')].map((one) => one.dataset.layer)"), ["4"])
        self.click("#fold-all")
        self.click("#unfold-all")
        self.assertEqual(len(self.texts("#tree li")), 6)
        self.click("#tree li[data-layer='2'] .fold")
        self.assertEqual(len(self.texts("#tree li")), 3)

    def test_what_is_chosen_is_in_sight_and_only_its_pane_scrolls(self):
        script = many(300, 2)
        self.open("many", view_page("many.sf", played(script), script), "#vsync=1")
        for number in (300, 65, 180):
            self.browser.value(f"chooseLayer({number})")
            edges = self.browser.value(f"(() => {{ const p = document.getElementById('tree').getBoundingClientRect(), r = rows.get({number}).element.getBoundingClientRect(); return [p.top, r.top, r.bottom, p.bottom].map(Math.round); }})()")
            self.assertEqual(edges, sorted(edges), number)
            self.assertEqual(self.text("layer-title"), f"layer {number}")
        self.assertEqual(self.browser.value("[document.documentElement.scrollTop, document.documentElement.scrollHeight <= innerHeight]"), [0, True])


class Accessible(PageCase):
    def test_what_can_be_operated_has_a_role_and_a_name(self):
        for name, link in (("drag.sf", "#vsync=3&at=30,40"), ("external.sf", "#vsync=2&layer=11"), ("held.sf", "#vsync=1"), ("moved.sf", "#vsync=1")):
            self.open(name, played_page(name), link)
            for tab in TABS:
                self.browser.value(f"chooseTab('{tab}')")
                nodes = self.browser.accessible()
                self.assertEqual([node[:2] for node in nodes if node[0] in OPERATED and not node[1].strip()], [], f"{name}, {tab}")
                self.assertEqual([node for node in nodes if node[2].get("focusable") and node[0] in ("generic", "none", "GenericContainer", "image", "Canvas")], [], f"{name}, {tab}")

    def test_the_tree_the_axis_and_the_tabs_tell_their_state(self):
        self.open("windows", played_page("windows.sf"), "#vsync=2&layer=4")
        nodes = self.browser.accessible()
        items = [(name.split()[1][0], more.get("level"), more.get("expanded"), more.get("selected", False)) for role, name, more in nodes if role == "treeitem"]
        self.assertEqual(items, [("8", 1, None, False), ("2", 1, True, False), ("5", 2, None, False), ("4", 2, None, True), ("3", 2, None, False), ("1", 1, None, False)])
        self.assertEqual([more["valuemax"] for role, name, more in nodes if (role, name) == ("slider", "vsync")], [5])
        self.assertEqual(self.browser.value("document.getElementById('axis').getAttribute('aria-valuetext')"), "vsync 2, 33.3 ms (2 of 5): a new frame")
        self.assertEqual([(name, more.get("selected", False)) for role, name, more in nodes if role == "tab"],
                         [("Transactions", True), ("What changed", False), ("Actors", False), ("Queues", False)])
        stage = next(name for role, name, _ in nodes if role == "application")
        self.assertEqual(stage, "the own display at vsync 2, 120 x 96 pixels")
        self.assertIn("the vsync before", [name for role, name, _ in nodes if role == "button"])

    def test_where_one_is_is_told(self):
        self.open("held", page("held.sf", HELD))
        self.assertEqual(self.browser.value("[document.getElementById('where').getAttribute('role'), document.getElementById('where').getAttribute('aria-live')]"), ["status", "polite"])
        self.browser.press(" ")
        self.assertEqual(self.browser.value("document.getElementById('where').getAttribute('aria-live')"), "off", "not in each frame while it plays")

    def test_contrast(self):
        for name, text in (("rejected", page("whole-or-nothing.sf", REJECTED)), ("held", page("held.sf", HELD))):
            self.open(name, text, "#vsync=2&at=30,30&arrival=1")
            for scheme in ("light", "dark"):
                self.browser.scheme(scheme)
                for tab in TABS:
                    self.browser.value(f"chooseTab('{tab}')")
                    self.assertEqual(self.browser.value(FAINT), [], f"{name}, {scheme}, {tab}")


class Narrow(PageCase):
    def test_no_page_scrolls_sideways(self):
        for name in ("phone.sf", "held.sf", "windows.sf", "capture.sf", "external.sf", "drag.sf", "camera.sf"):
            self.open(name, played_page(name), "#vsync=2&at=20,20")
            for width in (320, 390, 768, 1099, 1280):
                self.browser.size(width, 800)
                for tab in TABS:
                    self.browser.value(f"chooseTab('{tab}')")
                    self.assertLessEqual(self.browser.value("document.documentElement.scrollWidth"), width, f"{name}, {width}, {tab}")

    def test_the_panes_scroll_by_themselves_where_there_is_room(self):
        self.open("phone", played_page("phone.sf"))
        self.browser.size(1280, 800)
        self.assertTrue(self.browser.value("document.documentElement.scrollHeight <= innerHeight"))


class Address(PageCase):
    def test_it_says_what_is_looked_at(self):
        self.open("external", played_page("external.sf"), "#vsync=3&display=2&layer=11&at=155,45&beside=1&arrival=2&show=changes")
        told = self.browser.value("[RUN.moments[now.place].vsync, now.output, now.layer, now.point, RUN.moments[now.beside].vsync, now.arrival, now.tab]")
        self.assertEqual(told, [3, 1, 11, [155, 45], 1, 2, "changes"])
        self.assertEqual(self.browser.value("linkText()"), "#vsync=3&display=2&layer=11&at=155,45&beside=1&arrival=2&show=changes")
        self.browser.value("(() => { location.hash = '#vsync=end&at=5,5'; })()")
        self.browser.until("now.place === RUN.moments.length - 1")
        self.assertEqual(self.browser.value("[now.output, now.point, now.tab]"), [0, [5, 5], "transactions"])

    def test_it_is_written_while_one_goes(self):
        self.open("windows", played_page("windows.sf"))
        self.press("ArrowRight")
        self.browser.value("chooseLayer(4)")
        self.browser.until("location.hash === '#vsync=2&layer=4'")
        self.browser.value("(() => { copy = async (text) => { window.copied = text; }; })()")
        self.click("#link")
        self.assertTrue(self.browser.value("copied").endswith("windows.html#vsync=2&layer=4"))

    def test_what_is_wrong_in_it_counts_for_nothing(self):
        for link in ("#vsync=x&layer=-1&at=9", "#at=9999,1", "#display=9&show=nothing&arrival=77", "#vsync=99"):
            self.open("held", page("held.sf", HELD), link)
            self.assertEqual(self.browser.value("[now.output, now.point, now.tab, now.arrival]"), [0, None, "transactions", None], link)
        self.assertEqual(self.browser.value("now.place"), 2)


if __name__ == "__main__":
    unittest.main()
