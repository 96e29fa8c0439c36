"""Drives a browser by the WebDriver protocol: Debian's chromium and chromium-driver, without a screen."""

import http.client
import json
import os
import re
import shutil
import signal
import subprocess
import tempfile
import time

# the name of an element's number in the protocol
ELEMENT = "element-6066-11e4-a52e-4f735466cecf"
# keys, as the protocol has them
TAB, ENTER, SPACE, DELETE = "\ue004", "\ue007", "\ue00d", "\ue017"
UP, DOWN, LEFT, RIGHT, HOME, END = "\ue013", "\ue015", "\ue012", "\ue014", "\ue011", "\ue010"
# no wait is longer, in seconds
MOST = int(os.environ.get("APF_MOST", "60"))


def missing():
    """The program that a browser needs and that is not here, or None."""
    return next((it for it in ("chromium", "chromedriver") if not shutil.which(it)), None)


class Refused(Exception):
    """What the driver answered instead."""


class Browser:
    """A browser with a profile of its own. It ends, and its profile goes away, in every case."""

    def __init__(self, width=1400, height=1000, words=()):
        self.profile = tempfile.TemporaryDirectory(prefix="apf-browser-", ignore_cleanup_errors=True)
        self.driver, self.session, self.size, self.words = None, None, (width, height), words

    def start(self):
        """The port of a new driver, or None: it ends where the port that it draws is in use."""
        self.driver = subprocess.Popen(
            ["chromedriver", "--port=0"], stdin=subprocess.DEVNULL, stdout=subprocess.PIPE, stderr=subprocess.DEVNULL, start_new_session=True,
            env={**os.environ, "HOME": self.profile.name, "TMPDIR": self.profile.name},
        )
        for line in self.driver.stdout:
            if found := re.search(rb"started successfully on port (\d+)", line):
                return int(found[1])
        self.end()
        return None

    def end(self):
        """Ends the driver. Its group has the browser's processes too."""
        try:
            os.killpg(self.driver.pid, signal.SIGKILL)
        except ProcessLookupError:
            pass
        self.driver.wait()
        self.driver.stdout.close()

    def __enter__(self):
        try:
            self.port = next((port for _ in range(10) if (port := self.start())), None)
            if not self.port:
                raise Refused("chromedriver did not start")
            words = ["--headless=new", "--no-sandbox", "--disable-gpu", "--disable-dev-shm-usage", "--disable-crash-reporter", "--no-first-run", "--disable-background-networking"]
            words += [f"--user-data-dir={self.profile.name}/profile", f"--window-size={self.size[0]},{self.size[1]}", *self.words]
            options = {"binary": shutil.which("chromium"), "args": words}
            wanted = {"alwaysMatch": {"goog:chromeOptions": options, "goog:loggingPrefs": {"browser": "ALL"}}}
            self.session = self.ask("POST", "/session", {"capabilities": wanted})["sessionId"]
        except BaseException:
            self.__exit__()
            raise
        return self

    def __exit__(self, *_):
        if self.session:
            try:
                self.ask("DELETE", "")
            except (OSError, Refused, http.client.HTTPException):
                pass
        if self.driver and not self.driver.stdout.closed:
            self.end()
        self.profile.cleanup()

    def ask(self, method, path, body=None):
        """One command of the protocol, and its value."""
        prefix = f"/session/{self.session}" if self.session else ""
        connection = http.client.HTTPConnection("127.0.0.1", self.port, timeout=3 * MOST)
        connection.request(method, prefix + path, json.dumps(body or {}) if method == "POST" else None, {"Content-Type": "application/json"})
        value = json.loads(connection.getresponse().read())["value"]
        connection.close()
        if isinstance(value, dict) and "error" in value:
            raise Refused(f"{value['error']}: {value['message']}")
        return value

    def go(self, address):
        self.ask("POST", "/url", {"url": address})

    def run(self, script, *words):
        """What a script answers; it may be a promise's value."""
        return self.ask("POST", "/execute/sync", {"script": script, "args": [*words]})

    def find(self, selector):
        return self.ask("POST", "/element", {"using": "css selector", "value": selector})[ELEMENT]

    def click(self, selector):
        self.run("document.querySelector(arguments[0])?.scrollIntoView({block: 'center'})", selector)
        self.ask("POST", f"/element/{self.find(selector)}/click")

    def type(self, selector, text):
        """Types into an element. Of an input of files the text is a path."""
        self.ask("POST", f"/element/{self.find(selector)}/value", {"text": text})

    def write(self, selector, text):
        """Writes a text in the place of what an input has, as if it were pasted."""
        self.run("const it = document.querySelector(arguments[0]); it.focus(); it.select()", selector)
        if text:
            self.command("Input.insertText", text=text)
        else:
            self.keys(DELETE)

    def keys(self, text):
        """Presses keys, one after the other."""
        actions = [{"type": kind, "value": it} for it in text for kind in ("keyDown", "keyUp")]
        self.ask("POST", "/actions", {"actions": [{"type": "key", "id": "keys", "actions": actions}]})

    def click_at(self, x, y):
        moves = [{"type": "pointerMove", "x": x, "y": y}, {"type": "pointerDown", "button": 0}, {"type": "pointerUp", "button": 0}]
        self.ask("POST", "/actions", {"actions": [{"type": "pointer", "id": "mouse", "actions": moves}]})

    def text(self, selector):
        """The text of an element that is to be seen, or None."""
        return self.run("const it = document.querySelector(arguments[0]); return it?.checkVisibility() ? it.innerText : null", selector)

    def until(self, script, *words):
        """Waits until a script answers something that is true, and answers that, or the last answer."""
        end = time.monotonic() + MOST
        while not (value := self.run(script, *words)) and time.monotonic() < end:
            time.sleep(0.05)
        return value

    def log(self):
        """What stands in the browser's console since the last call."""
        return [it["message"] for it in self.ask("POST", "/se/log", {"type": "browser"})]

    def resize(self, width, height):
        """The size of the page itself, as a device of this size has it."""
        self.command("Emulation.setDeviceMetricsOverride", width=width, height=height, deviceScaleFactor=1, mobile=False)

    def prefer(self, scheme):
        """Prefers light or dark."""
        self.command("Emulation.setEmulatedMedia", features=[{"name": "prefers-color-scheme", "value": scheme}])

    def command(self, name, **words):
        """A command of the browser's own protocol."""
        return self.ask("POST", "/goog/cdp/execute", {"cmd": name, "params": words})

    def picture(self):
        """A picture of the whole page, as base64 of a PNG."""
        return self.command("Page.captureScreenshot", captureBeyondViewport=True)["data"]
