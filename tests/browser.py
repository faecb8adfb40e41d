"""One headless Chromium for many pages, over its own pipe (no network, no package): loads a page, says what went wrong in
it, and lets its document be asked.

    with Browser("chromium") as browser:
        faults = browser.load("page.html")      # errors, warnings, requests for anything else
        count = browser.ask("document.querySelectorAll('.row').length")
"""
import base64
import json
import os
import select
import subprocess
import tempfile
import time


class Browser:
    def __init__(self, program, width=1280, height=900):
        self._home = tempfile.TemporaryDirectory()
        here, there = os.pipe(), os.pipe()
        # The browser reads its orders from descriptor 3 and writes to 4.
        script = 'exec "$0" "$@" 3<&%d 4>&%d' % (here[0], there[1])
        options = ["--headless", "--no-sandbox", "--disable-gpu", "--disable-dev-shm-usage", "--remote-debugging-pipe",
                   "--no-first-run", "--hide-scrollbars", "--user-data-dir=" + self._home.name,
                   "--window-size=%d,%d" % (width, height), "about:blank"]
        self._process = subprocess.Popen(["bash", "-c", script, program, *options], pass_fds=(here[0], there[1]),
                                         stdout=subprocess.DEVNULL, stderr=subprocess.DEVNULL)
        os.close(here[0])
        os.close(there[1])
        self._to, self._from = here[1], there[0]
        self._rest, self._number, self._events, self._session = b"", 0, [], None
        target = self._order("Target.createTarget", url="about:blank")["targetId"]
        self._session = self._order("Target.attachToTarget", targetId=target, flatten=True)["sessionId"]
        for part in ("Page", "Runtime", "Log", "Network"):
            self._order(part + ".enable")

    def __enter__(self):
        return self

    def __exit__(self, *_):
        try:
            self._session = None
            self._order("Browser.close")
            self._process.wait(10)
        except (OSError, RuntimeError, subprocess.TimeoutExpired):
            self._process.kill()
            self._process.wait()
        os.close(self._to)
        os.close(self._from)
        self._home.cleanup()

    def _message(self, until):
        """The next message of the browser."""
        while b"\0" not in self._rest:
            left = until - time.monotonic()
            if left <= 0 or not select.select([self._from], [], [], left)[0]:
                raise RuntimeError("the browser doesn't answer")
            part = os.read(self._from, 1 << 16)
            if not part:
                raise RuntimeError("the browser has ended")
            self._rest += part
        message, self._rest = self._rest.split(b"\0", 1)
        return json.loads(message)

    def _order(self, method, **arguments):
        """Gives an order and waits for its result; what happens meanwhile is kept."""
        self._number += 1
        order = {"id": self._number, "method": method, "params": arguments}
        if self._session:
            order["sessionId"] = self._session
        os.write(self._to, json.dumps(order).encode() + b"\0")
        until = time.monotonic() + 60
        while True:
            message = self._message(until)
            if message.get("id") == self._number:
                if "error" in message:
                    raise RuntimeError("%s: %s" % (method, message["error"]["message"]))
                return message["result"]
            self._events.append(message)

    def load(self, path):
        """Loads a file; what went wrong in it, a line each."""
        self._events.clear()
        url = "file://" + os.path.abspath(path)
        wrong = self._order("Page.navigate", url=url).get("errorText")
        until = time.monotonic() + 60
        while not wrong and not any(e.get("method") == "Page.loadEventFired" for e in self._events):
            self._events.append(self._message(until))
        self.ask("1")
        return ([wrong] if wrong else []) + [fault for event in self._events for fault in _faults(event, url)]

    def ask(self, expression):
        """The value of an expression in the page."""
        answer = self._order("Runtime.evaluate", expression=expression, returnByValue=True, awaitPromise=True)
        if "exceptionDetails" in answer:
            raise RuntimeError("%s: %s" % (expression, answer["exceptionDetails"]["text"]))
        return answer["result"].get("value")

    def press(self, key):
        """A key, down and up."""
        code = {"Enter": 13, "Tab": 9, "ArrowDown": 40, "ArrowUp": 38, "Home": 36, "End": 35}[key]
        for kind in ("rawKeyDown", "keyUp"):
            self._order("Input.dispatchKeyEvent", type=kind, key=key, code=key, windowsVirtualKeyCode=code)

    def point(self, selector):
        """Moves the mouse to the middle of an element."""
        self.ask("document.querySelector(%s).scrollIntoView({block: 'center'})" % json.dumps(selector))
        box = self.ask("(() => { const b = document.querySelector(%s).getBoundingClientRect();"
                       " return [b.x + b.width / 2, b.y + b.height / 2]; })()" % json.dumps(selector))
        self._order("Input.dispatchMouseEvent", type="mouseMoved", x=box[0], y=box[1])

    def lie(self, width, media="screen"):
        """Lays the page out anew: so wide, on the screen or for print."""
        self._order("Emulation.setEmulatedMedia", media=media)
        self._order("Emulation.setDeviceMetricsOverride", width=width, height=900, deviceScaleFactor=1, mobile=False)

    def printed(self):
        """The page as a PDF: its bytes."""
        return base64.b64decode(self._order("Page.printToPDF", preferCSSPageSize=True)["data"])

    def picture(self, path, clip=None, scale=1, grey=False):
        """The page as a PNG: all of it, or a clip of left, top, width and height."""
        self._order("Emulation.setEmulatedVisionDeficiency", type="achromatopsia" if grey else "none")
        part = {"clip": dict(zip(("x", "y", "width", "height"), clip), scale=scale)} if clip else {}
        shot = self._order("Page.captureScreenshot", format="png", captureBeyondViewport=True, **part)
        with open(path, "wb") as file:
            file.write(base64.b64decode(shot["data"]))


def _faults(event, url):
    """What an event says went wrong: an exception, a word on the console, a request for anything but the page."""
    said = event.get("params", {})
    if event.get("method") == "Runtime.exceptionThrown":
        details = said["exceptionDetails"]
        yield "exception: %s" % details.get("exception", {}).get("description", details["text"])
    elif event.get("method") == "Runtime.consoleAPICalled":
        yield "console: %s" % " ".join(str(a.get("value")) for a in said["args"])
    elif event.get("method") == "Log.entryAdded":
        yield "log: %s" % said["entry"]["text"]
    elif event.get("method") == "Network.requestWillBeSent" and said["request"]["url"] != url:
        yield "a request for %s" % said["request"]["url"][:100]
