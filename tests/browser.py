"""Drives Chromium without a window by its own protocol over two pipes, with the standard library alone."""
import base64
import json
import os
import select
import shutil
import subprocess
import tempfile
import time

SECONDS = 120
# keys by their names, with what the protocol asks of each beside it
KEYS = {"ArrowLeft": 37, "ArrowUp": 38, "ArrowRight": 39, "ArrowDown": 40, "Enter": 13, "Home": 36, "End": 35, "Escape": 27}


def found():
    """The browser that the shell finds, or None."""
    return next((path for path in map(shutil.which, ("chromium", "chromium-browser", "google-chrome")) if path), None)


class Broken(Exception):
    """The browser says that something went wrong."""


class Browser:
    """A browser with one page, in a folder of its own, which is removed at the end."""

    def __init__(self, program):
        self.folder, self.number, self.left, self.events = tempfile.mkdtemp(), 0, b"", []
        read, self.to = os.pipe()
        self.back, write = os.pipe()
        # the protocol is spoken over the numbers 3 and 4
        command = ["bash", "-c", 'exec "$0" "$@" 3<&%d 4>&%d' % (read, write), program, "--headless=new", "--remote-debugging-pipe", "--no-sandbox"]
        command += ["--disable-gpu", "--hide-scrollbars", "--disable-extensions", "--no-first-run", "--user-data-dir=" + self.folder, "about:blank"]
        self.process = subprocess.Popen(command, pass_fds=(read, write), stdin=subprocess.DEVNULL, stdout=subprocess.DEVNULL, stderr=subprocess.DEVNULL)
        os.close(read)
        os.close(write)
        self.session = None
        target = next(one for one in self.call("Target.getTargets")["targetInfos"] if one["type"] == "page")
        self.session = self.call("Target.attachToTarget", targetId=target["targetId"], flatten=True)["sessionId"]
        for domain in ("Page", "Runtime", "Log", "Network"):
            self.call(domain + ".enable")
        self.call("Performance.enable", timeDomain="threadTicks")

    def call(self, method, **words):
        self.number += 1
        message = {"id": self.number, "method": method, "params": words}
        if self.session:
            message["sessionId"] = self.session
        os.write(self.to, json.dumps(message).encode() + b"\0")
        until = time.monotonic() + SECONDS
        while True:
            came = self.next(until)
            if came.get("id") == self.number:
                if "error" in came:
                    raise Broken("%s: %s" % (method, came["error"]["message"]))
                return came["result"]
            self.events.append(came)

    def next(self, until):
        """The next message."""
        while b"\0" not in self.left:
            if not select.select([self.back], [], [], max(0, until - time.monotonic()))[0]:
                raise Broken("no answer within %d seconds" % SECONDS)
            came = os.read(self.back, 1 << 20)
            if not came:
                raise Broken("the browser is gone")
            self.left += came
        message, _, self.left = self.left.partition(b"\0")
        return json.loads(message)

    # ---- what a hand does

    def size(self, across, down, ratio=1):
        self.call("Emulation.setDeviceMetricsOverride", width=across, height=down, deviceScaleFactor=ratio, mobile=False)

    def scheme(self, name):
        """`light` or `dark`."""
        self.call("Emulation.setEmulatedMedia", features=[{"name": "prefers-color-scheme", "value": name}])

    def open(self, file, behind=""):
        """Opens a file, and waits until it is drawn; gives how many seconds that took by the clock."""
        return self.visit("file://%s%s" % (file, behind))

    def visit(self, address):
        """The same by an address."""
        self.call("Page.navigate", url="about:blank")
        self.events, begun = [], time.monotonic()
        self.call("Page.navigate", url=address)
        while self.ask("document.readyState") != "complete" or self.ask("location.href") == "about:blank":
            time.sleep(0.01)
        self.settle()
        return time.monotonic() - begun

    def processor_seconds(self):
        """How many seconds of processors the page's process has used, in all its threads."""
        return next(metric["value"] for metric in self.call("Performance.getMetrics")["metrics"] if metric["name"] == "ProcessTime")

    def ask(self, words):
        """What an expression of JavaScript comes to."""
        came = self.call("Runtime.evaluate", expression=words, returnByValue=True, awaitPromise=True)
        if "exceptionDetails" in came:
            details = came["exceptionDetails"]
            raise Broken("%s: %s" % (words, details.get("exception", {}).get("description", details["text"])))
        return came["result"].get("value")

    def press(self, key, shift=False):
        code = KEYS.get(key, ord(key.upper()[0]))
        words = {"key": key, "windowsVirtualKeyCode": code, "modifiers": 8 if shift else 0}
        if key not in KEYS or key == "Enter":
            words["text"] = "\r" if key == "Enter" else key
        self.call("Input.dispatchKeyEvent", type="keyDown", **words)
        self.call("Input.dispatchKeyEvent", type="keyUp", key=key, windowsVirtualKeyCode=code)

    def write(self, words):
        self.call("Input.insertText", text=words)

    def click_at(self, x, y):
        for kind in ("mousePressed", "mouseReleased"):
            self.call("Input.dispatchMouseEvent", type=kind, x=x, y=y, button="left", clickCount=1)

    def click(self, selector):
        """Clicks in the middle of what a selector finds, once what was asked before is drawn, and until what comes of it is."""
        self.settle()
        self.ask("document.querySelector(%s).scrollIntoView({block: 'nearest'})" % json.dumps(selector))
        box = self.ask("(() => { const it = document.querySelector(%s).getBoundingClientRect(); return [it.left + it.width / 2, it.top + it.height / 2]; })()" % json.dumps(selector))
        self.click_at(*box)
        self.settle()

    def settle(self):
        """Waits until two pictures were drawn."""
        self.ask("new Promise((go) => requestAnimationFrame(() => requestAnimationFrame(() => setTimeout(go, 0))))")

    def drag(self, x, y, across, down):
        """Takes hold at a place, goes so far in steps, and lets go."""
        where = [(x + across * part / 4, y + down * part / 4) for part in range(5)]
        for kind, at in [("mousePressed", where[0]), *(("mouseMoved", at) for at in where[1:]), ("mouseReleased", where[-1])]:
            self.call("Input.dispatchMouseEvent", type=kind, x=at[0], y=at[1], button="left", buttons=int(kind != "mouseReleased"), clickCount=1)
        self.settle()

    def wheel(self, x, y, down):
        self.call("Input.dispatchMouseEvent", type="mouseWheel", x=x, y=y, deltaX=0, deltaY=down)

    def screenshot(self, file, is_whole=False):
        came = self.call("Page.captureScreenshot", format="png", captureBeyondViewport=is_whole)
        with open(file, "wb") as out:
            out.write(base64.b64decode(came["data"]))

    # ---- what came to pass

    def faults(self):
        """What the page's scripts threw and its console says, up to now."""
        self.ask("0")
        found = [came["params"]["exceptionDetails"]["exception"].get("description", "") for came in self.events if came.get("method") == "Runtime.exceptionThrown"]
        return found + [came["params"]["entry"]["text"] for came in self.events if came.get("method") == "Log.entryAdded"]

    def requests(self):
        """What the page asked for."""
        return [came["params"]["request"]["url"] for came in self.events if came.get("method") == "Network.requestWillBeSent"]

    def close(self):
        try:
            self.session = None
            self.call("Browser.close")
        except (Broken, OSError):
            self.process.kill()
        self.process.wait()
        os.close(self.to)
        os.close(self.back)
        shutil.rmtree(self.folder, ignore_errors=True)
