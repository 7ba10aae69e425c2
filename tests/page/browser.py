"""Drives a headless Chromium by its DevTools protocol, over a pipe."""
import base64
import json
import os
import select
import shutil
import subprocess
import tempfile
import time

SHIFT = 8
PATIENCE = 120
KEYS = {"Enter": 13, "Escape": 27, " ": 32, "PageUp": 33, "PageDown": 34, "End": 35, "Home": 36, "ArrowLeft": 37,
        "ArrowUp": 38, "ArrowRight": 39, "ArrowDown": 40, "Tab": 9}


class Browser:
    """One Chromium with one page."""

    def __init__(self, width=1440, height=900):
        self.folder = tempfile.mkdtemp()
        to_browser, self.write = os.pipe()
        self.read, from_browser = os.pipe()
        program = os.environ.get("CHROMIUM", "chromium")
        words = [program, "--headless", "--no-sandbox", "--disable-gpu", "--remote-debugging-pipe", "--no-first-run",
                 "--enable-precise-memory-info", "--hide-scrollbars=false", f"--user-data-dir={self.folder}",
                 f"--window-size={width},{height}", "about:blank"]

        def at_3_and_4():
            a, b = os.dup(to_browser), os.dup(from_browser)
            os.dup2(a, 3)
            os.dup2(b, 4)

        self.process = subprocess.Popen(words, stdin=subprocess.DEVNULL, stdout=subprocess.DEVNULL,
                                        stderr=subprocess.DEVNULL, preexec_fn=at_3_and_4, close_fds=False)
        os.close(to_browser)
        os.close(from_browser)
        self.next, self.rest, self.events, self.session = 0, b"", [], None
        target = self.ask("Target.createTarget", url="about:blank")["targetId"]
        self.session = self.ask("Target.attachToTarget", targetId=target, flatten=True)["sessionId"]
        for domain in ("Page", "Runtime", "Log", "Network"):
            self.ask(domain + ".enable")
        self.size(width, height)

    def close(self):
        self.process.terminate()
        try:
            self.process.wait(20)
        except subprocess.TimeoutExpired:
            self.process.kill()
            self.process.wait()
        shutil.rmtree(self.folder, ignore_errors=True)

    def message(self):
        while b"\0" not in self.rest:
            ready, _, _ = select.select([self.read], [], [], PATIENCE)
            assert ready, f"the page has not answered for {PATIENCE} seconds"
            part = os.read(self.read, 1 << 20)
            assert part, "the browser has gone"
            self.rest += part
        one, self.rest = self.rest.split(b"\0", 1)
        return json.loads(one)

    def ask(self, method, **parameters):
        """Sends a command, and returns its answer. Events that come meanwhile are kept."""
        self.next += 1
        command = {"id": self.next, "method": method, "params": parameters}
        if self.session:
            command["sessionId"] = self.session
        data = json.dumps(command).encode() + b"\0"
        while data:
            data = data[os.write(self.write, data):]
        while True:
            got = self.message()
            if got.get("id") == self.next:
                assert "error" not in got, (method, got["error"])
                return got["result"]
            if "method" in got:
                self.events.append(got)

    def wait_for(self, method):
        while True:
            for i, event in enumerate(self.events):
                if event["method"] == method:
                    del self.events[:i + 1]
                    return event
            got = self.message()
            if "method" in got:
                self.events.append(got)

    def size(self, width, height, scale=1):
        """The size of the window in units of the page; `scale` 2 shows it at 200 %."""
        self.ask("Emulation.setDeviceMetricsOverride", width=width // scale, height=height // scale,
                 deviceScaleFactor=scale, mobile=False)

    def media(self, theme="light"):
        self.ask("Emulation.setEmulatedMedia", features=[{"name": "prefers-color-scheme", "value": theme}])

    def open(self, path, link=""):
        """Opens a file, and returns the seconds until it is drawn."""
        self.ask("Page.navigate", url="about:blank")
        self.wait_for("Page.loadEventFired")
        self.problems = []
        self.events.clear()
        start = time.time()
        self.ask("Page.navigate", url="file://" + os.path.abspath(path) + link)
        self.wait_for("Page.loadEventFired")
        self.frames()
        return time.time() - start

    def frames(self, n=2):
        """Waits until the page has drawn so many frames."""
        self.run("new Promise(done => { let n = %d; const next = () => (n-- > 0 ? requestAnimationFrame(next) : done(1)); next(); })"
                 % n)

    def run(self, text):
        """The value of an expression in the page."""
        got = self.ask("Runtime.evaluate", expression=text, returnByValue=True, awaitPromise=True)
        assert "exceptionDetails" not in got, (text, got["exceptionDetails"].get("exception", got["exceptionDetails"]))
        return got["result"].get("value")

    def wrong(self):
        """What the page has reported: errors, violations of its policy, requests other than its own file."""
        self.run("0")
        found = []
        for event in self.events:
            what, told = event["method"], event["params"]
            if what == "Runtime.exceptionThrown":
                found.append("exception: " + str(told["exceptionDetails"].get("exception", {}).get("description")))
            elif what == "Log.entryAdded":
                found.append(told["entry"]["level"] + ": " + told["entry"]["text"])
            elif what == "Runtime.consoleAPICalled" and told["type"] in ("error", "assert", "log"):
                found.append("console: " + str(told["args"]))
            elif what == "Network.requestWillBeSent" and not told["request"]["url"].startswith("file://"):
                found.append("request: " + told["request"]["url"])
        return found

    def key(self, key, shift=False):
        parameters = {"key": key, "modifiers": SHIFT if shift else 0, "windowsVirtualKeyCode": KEYS.get(key, ord(key[0]))}
        if len(key) == 1:
            parameters["text"] = key
        self.ask("Input.dispatchKeyEvent", type="keyDown", **parameters)
        parameters.pop("text", None)
        self.ask("Input.dispatchKeyEvent", type="keyUp", **parameters)
        self.frames(1)

    def type(self, text):
        self.ask("Input.insertText", text=text)

    def mouse(self, kind, x, y, **more):
        self.ask("Input.dispatchMouseEvent", type=kind, x=x, y=y, **more)

    def click(self, x, y):
        self.mouse("mouseMoved", x, y)
        self.mouse("mousePressed", x, y, button="left", clickCount=1)
        self.mouse("mouseReleased", x, y, button="left", clickCount=1)
        self.frames()

    def box(self, selector):
        """The left, top, width and height of an element."""
        return self.run("(() => { const e = document.querySelector(%s); e.scrollIntoView({block: 'nearest'}); "
                        "const b = e.getBoundingClientRect(); return [b.left, b.top, b.width, b.height]; })()"
                        % json.dumps(selector))

    def press(self, selector):
        """Clicks the middle of an element."""
        x, y, width, height = self.box(selector)
        self.click(x + width / 2, y + height / 2)

    def text(self, selector):
        return self.run("document.querySelector(%s).textContent" % json.dumps(selector))

    def texts(self, selector):
        return self.run("Array.from(document.querySelectorAll(%s), e => e.textContent)" % json.dumps(selector))

    def count(self, selector):
        return self.run("document.querySelectorAll(%s).length" % json.dumps(selector))

    def picture(self, path):
        got = self.ask("Page.captureScreenshot", format="png")
        with open(path, "wb") as file:
            file.write(base64.b64decode(got["data"]))

    def paper(self):
        """The printed page, as PDF."""
        return base64.b64decode(self.ask("Page.printToPDF", printBackground=True, preferCSSPageSize=True)["data"])
