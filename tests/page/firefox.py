"""Drives a headless Firefox by WebDriver BiDi, over a WebSocket."""
import base64
import json
import os
import re
import shutil
import socket
import struct
import subprocess
import tempfile

from browser import PATIENCE, Browser


def length(count):
    """The length of a masked frame, in its shortest form: Firefox takes no other."""
    if count < 126:
        return bytes([128 + count])
    return struct.pack(">BH", 254, count) if count < 65536 else struct.pack(">BQ", 255, count)


class Firefox(Browser):
    """One Firefox with one page. What it has no command for (the theme, the size of the window) stays as it is."""

    def __init__(self, width=1440, height=900):
        self.folder = tempfile.mkdtemp()
        words = [os.environ.get("FIREFOX", "firefox-esr"), "--headless", "--no-remote", "--profile", self.folder,
                 "--remote-debugging-port", "0", f"--width={width}", f"--height={height}", "about:blank"]
        self.process = subprocess.Popen(words, stdin=subprocess.DEVNULL, stdout=subprocess.DEVNULL, stderr=subprocess.PIPE)
        port = None
        while port is None:
            line = self.process.stderr.readline().decode()
            assert line, "Firefox has gone"
            port = re.search(r"ws://127\.0\.0\.1:(\d+)", line)
        self.socket = socket.create_connection(("127.0.0.1", int(port[1])), PATIENCE)
        self.next, self.rest = 0, b""
        self.shake_hands(int(port[1]))
        self.command("session.new", capabilities={})
        self.context = self.command("browsingContext.getTree")["contexts"][0]["context"]
        self.command("session.subscribe", events=["log.entryAdded"])
        self.told = []

    def shake_hands(self, port):
        key = base64.b64encode(os.urandom(16)).decode()
        self.socket.sendall((f"GET /session HTTP/1.1\r\nHost: 127.0.0.1:{port}\r\nUpgrade: websocket\r\nConnection: Upgrade\r\n"
                             f"Sec-WebSocket-Key: {key}\r\nSec-WebSocket-Version: 13\r\n\r\n").encode())
        while b"\r\n\r\n" not in self.rest:
            self.rest += self.socket.recv(1 << 16)
        head, self.rest = self.rest.split(b"\r\n\r\n", 1)
        assert b" 101 " in head, head

    def taken(self, count):
        while len(self.rest) < count:
            part = self.socket.recv(1 << 20)
            assert part, "Firefox has gone"
            self.rest += part
        part, self.rest = self.rest[:count], self.rest[count:]
        return part

    def message(self):
        """One message, which may come in several frames."""
        data = b""
        while True:
            first, size = self.taken(2)
            if size == 126:
                size = struct.unpack(">H", self.taken(2))[0]
            elif size == 127:
                size = struct.unpack(">Q", self.taken(8))[0]
            part = self.taken(size)
            if first & 15 in (0, 1):
                data += part
                if first & 128:
                    return json.loads(data)

    def command(self, method, **parameters):
        self.next += 1
        data = json.dumps({"id": self.next, "method": method, "params": parameters}).encode()
        mask = os.urandom(4)
        masked = bytes(byte ^ mask[i % 4] for i, byte in enumerate(data))
        self.socket.sendall(b"\x81" + length(len(data)) + mask + masked)
        while True:
            got = self.message()
            if got.get("id") == self.next:
                assert got["type"] == "success", (method, got)
                return got["result"]
            if got.get("method") == "log.entryAdded":
                self.told.append(got["params"])

    def close(self):
        self.socket.close()
        self.process.terminate()
        try:
            self.process.wait(20)
        except subprocess.TimeoutExpired:
            self.process.kill()
            self.process.wait()
        shutil.rmtree(self.folder, ignore_errors=True)

    def open(self, path, link=""):
        self.command("browsingContext.navigate", context=self.context, url="about:blank", wait="complete")
        self.told.clear()
        self.command("browsingContext.navigate", context=self.context, url="file://" + os.path.abspath(path) + link, wait="complete")
        self.frames()

    def run(self, text, context=None):
        wrapped = f"(async () => JSON.stringify((await ({text})) ?? null))()"
        got = self.command("script.evaluate", expression=wrapped, target={"context": context or self.context}, awaitPromise=True)
        assert got["type"] == "success", (text, got)
        return json.loads(got["result"]["value"])

    def in_frame(self, text):
        """The value of an expression in the frame of the page."""
        frames = self.command("browsingContext.getTree", root=self.context)["contexts"][0]["children"]
        return self.run(text, frames[0]["context"]) if frames else None

    def wrong(self):
        """What the page has reported as an error."""
        self.run("0")
        return [str(entry.get("text")) for entry in self.told if entry["level"] == "error"]

    def type(self, text):
        self.run(f"document.execCommand('insertText', false, {json.dumps(text)})")

    def mouse(self, kind, x, y, **more):
        kinds = {"mouseMoved": "pointerMove", "mousePressed": "pointerDown", "mouseReleased": "pointerUp"}
        action = {"type": kinds[kind]}
        action.update({"x": round(x), "y": round(y)} if kind == "mouseMoved" else {"button": 0})
        self.command("input.performActions", context=self.context, actions=[
            {"type": "pointer", "id": "mouse", "parameters": {"pointerType": "mouse"}, "actions": [action]}])

    def media(self, theme="light"):
        """Firefox has no command for it."""

    def size(self, width, height, scale=1):
        self.command("browsingContext.setViewport", context=self.context, viewport={"width": width // scale, "height": height // scale})

    def picture(self, path):
        with open(path, "wb") as file:
            file.write(base64.b64decode(self.command("browsingContext.captureScreenshot", context=self.context)["data"]))
