"""A headless Chromium, driven over its pipe, for the tests of the page that viewing.py makes."""

import atexit
import base64
import json
import os
import select
import shutil
import subprocess
import tempfile
import time
import unittest

NAMES = ("chromium", "chromium-browser", "google-chrome")
SECONDS = 60
MODIFIERS = {"Alt": 1, "Control": 2, "Meta": 4, "Shift": 8}
# What keys are that are no letters: their code, the number that browsers have for them, and the text that they write.
KEYS = {"Enter": (13, "\r"), "Tab": (9, None), " ": (32, " "), "ArrowLeft": (37, None), "ArrowUp": (38, None), "ArrowRight": (39, None), "ArrowDown": (40, None),
        "Home": (36, None), "End": (35, None), "Escape": (27, None), "PageUp": (33, None), "PageDown": (34, None)}


def found():
    """The path of a Chromium: the one that SURBELDOI_BROWSER names, or else an installed one; None where there is none, or where
    SURBELDOI_BROWSER is `none`."""
    named = os.environ.get("SURBELDOI_BROWSER")
    if named == "none":
        return None
    return shutil.which(named) if named else next(filter(None, map(shutil.which, NAMES)), None)


class Browser:
    """A page of a browser of its own, which no network is reached from."""

    def __init__(self, width=1400, height=1000):
        self.folder = tempfile.mkdtemp(prefix="view-")
        to_browser, self.writes = os.pipe()
        self.reads, from_browser = os.pipe()
        # The browser reads its descriptor 3 and writes its descriptor 4.
        words = [found(), "--headless", "--no-sandbox", "--disable-gpu", "--disable-dev-shm-usage", "--remote-debugging-pipe", "--hide-scrollbars",
                 "--host-resolver-rules=MAP * ~NOTFOUND", "--no-first-run", f"--user-data-dir={self.folder}", f"--window-size={width},{height}"]
        self.process = subprocess.Popen(["sh", "-c", f'exec "$@" 3<&{to_browser} 4>&{from_browser}', "", *words], pass_fds=(to_browser, from_browser),
                                        stdin=subprocess.DEVNULL, stdout=subprocess.DEVNULL, stderr=subprocess.DEVNULL)
        os.close(to_browser)
        os.close(from_browser)
        self.number, self.session, self.left, self.errors, self.asked = 0, None, b"", [], []
        target = self.call("Target.createTarget", url="about:blank")["targetId"]
        self.session = self.call("Target.attachToTarget", targetId=target, flatten=True)["sessionId"]
        for domain in ("Page", "Runtime", "Network", "Log"):
            self.call(f"{domain}.enable")

    def close(self):
        os.close(self.writes)
        self.process.terminate()
        self.process.wait()
        os.close(self.reads)
        shutil.rmtree(self.folder, ignore_errors=True)

    def message(self):
        """The next message of the browser."""
        deadline = time.monotonic() + SECONDS
        while b"\0" not in self.left:
            if not select.select([self.reads], [], [], max(0, deadline - time.monotonic()))[0]:
                raise TimeoutError("the browser says nothing")
            piece = os.read(self.reads, 1 << 16)
            if not piece:
                raise EOFError("the browser has gone")
            self.left += piece
        raw, _, self.left = self.left.partition(b"\0")
        return json.loads(raw)

    def note(self, message):
        """Keeps what the page did wrong, and what it asked the network for."""
        if message.get("method") == "Runtime.exceptionThrown":
            self.errors.append(message["params"]["exceptionDetails"])
        if message.get("method") == "Log.entryAdded" and message["params"]["entry"]["level"] == "error":
            self.errors.append(message["params"]["entry"]["text"])
        if message.get("method") == "Network.requestWillBeSent":
            self.asked.append(message["params"]["request"]["url"])

    def call(self, method, **more):
        """The result of a command."""
        self.number += 1
        command = {"id": self.number, "method": method, "params": more, **({"sessionId": self.session} if self.session else {})}
        os.write(self.writes, json.dumps(command).encode() + b"\0")
        while True:
            message = self.message()
            if message.get("id") == self.number:
                if "error" in message:
                    raise RuntimeError(f"{method}: {message['error']}")
                return message["result"]
            self.note(message)

    def open(self, path, link=""):
        self.call("Page.navigate", url="about:blank")
        self.call("Page.navigate", url="file://" + os.path.abspath(path) + link)
        self.until("document.readyState === 'complete'")

    def size(self, width, height):
        """Gives the window a size."""
        self.call("Emulation.setDeviceMetricsOverride", width=width, height=height, deviceScaleFactor=1, mobile=False)

    def scheme(self, name):
        """Asks for the light or the dark colours."""
        self.call("Emulation.setEmulatedMedia", features=[{"name": "prefers-color-scheme", "value": name}])

    def value(self, expression):
        """What an expression of the page comes to."""
        result = self.call("Runtime.evaluate", expression=expression, returnByValue=True, awaitPromise=True)
        if "exceptionDetails" in result:
            raise RuntimeError(result["exceptionDetails"])
        return result["result"].get("value")

    def until(self, expression, seconds=SECONDS):
        """Waits until an expression of the page is true."""
        deadline = time.monotonic() + seconds
        while not self.value(expression):
            if time.monotonic() > deadline:
                raise TimeoutError(expression)
            time.sleep(0.02)

    def click(self, x, y):
        """Presses and releases the mouse at a point of the window."""
        for kind in ("mousePressed", "mouseReleased"):
            self.call("Input.dispatchMouseEvent", type=kind, x=x, y=y, button="left", clickCount=1)

    def press(self, key, *held):
        """Presses and releases a key, while others (Alt, Control, Meta, Shift) are held."""
        number, text = KEYS.get(key, (ord(key.upper()) if key.isalnum() and len(key) == 1 else 0, key if len(key) == 1 else None))
        more = {"key": key, "code": "Space" if key == " " else key, "windowsVirtualKeyCode": number, "modifiers": sum(MODIFIERS[one] for one in held)}
        self.call("Input.dispatchKeyEvent", type="keyDown" if text and not held else "rawKeyDown", **more, **({"text": text} if text and not held else {}))
        self.call("Input.dispatchKeyEvent", type="keyUp", **more)

    def accessible(self):
        """The nodes of the accessibility tree that are not left out, each as its role, its name and its properties."""
        nodes = self.call("Accessibility.getFullAXTree")["nodes"]
        return [(node["role"]["value"], node.get("name", {}).get("value", ""), {one["name"]: one["value"].get("value") for one in node.get("properties", [])})
                for node in nodes if not node.get("ignored")]

    def picture(self, path, whole=False):
        """Writes what the window shows as a PNG file."""
        with open(path, "wb") as file:
            file.write(base64.b64decode(self.call("Page.captureScreenshot", format="png", captureBeyondViewport=whole)["data"]))


class Shared:
    """The browser of all tests, and the folder of their pages: started where the first one asks, and closed at the end."""

    browser = folder = fault = None

    @classmethod
    def start(cls):
        if cls.browser is None and cls.fault is None:
            try:
                cls.browser, cls.folder = Browser(), tempfile.TemporaryDirectory()
                atexit.register(cls.browser.close)
            except (EOFError, TimeoutError) as fault:
                cls.fault = fault
        if cls.fault:
            raise unittest.SkipTest(f"Chromium does not start here: {cls.fault}")
        return cls.browser, cls.folder.name


@unittest.skipUnless(found(), "no Chromium is installed")
class PageCase(unittest.TestCase):
    """Tests of pages in a browser: none may have an error, ask for anything, or do what its policy does not allow."""

    @classmethod
    def setUpClass(cls):
        cls.browser, cls.folder = Shared.start()

    def setUp(self):
        self.browser.size(1400, 1000)
        self.browser.scheme("light")
        self.browser.errors.clear()
        self.browser.asked.clear()

    def tearDown(self):
        self.assertEqual(self.browser.errors, [])
        self.assertEqual([url for url in self.browser.asked if not url.startswith(("file:", "about:"))], [])

    def open(self, name, text, link=""):
        path = os.path.join(self.folder, name + ".html")
        with open(path, "w", encoding="utf-8") as file:
            file.write(text)
        self.browser.open(path, link)
        self.settled()

    def settled(self):
        """Waits until the frame of the moment is shown and checked."""
        self.browser.until("document.getElementById('check').dataset.place === String(now.place) && document.getElementById('check').dataset.output === String(now.output)")

    def text(self, name):
        return self.browser.value(f"document.getElementById('{name}').innerText")

    def texts(self, selector):
        return self.browser.value(f"[...document.querySelectorAll({json.dumps(selector)})].map((one) => one.innerText)")

    def focus(self, selector):
        self.browser.value(f"document.querySelector({json.dumps(selector)}).focus()")

    def focused(self):
        """The id of the element that has the focus, or its data-layer, or its tag."""
        return self.browser.value("document.activeElement.id || document.activeElement.dataset.layer || document.activeElement.tagName")

    def click(self, selector):
        """Clicks on the middle of an element, with the mouse."""
        x, y = self.browser.value(f"(() => {{ const one = document.querySelector({json.dumps(selector)}); one.scrollIntoView({{ block: 'nearest' }});"
                                  " const b = one.getBoundingClientRect(); return [b.left + b.width / 2, b.top + b.height / 2]; })()")
        self.browser.click(x, y)

    def press(self, *keys):
        for key in keys:
            self.browser.press(key)
        self.settled()
