"""A headless Chromium, driven over two pipes by its own protocol."""
import json
import os
import select
import shutil
import subprocess
import tempfile

PROGRAMS = ["chromium", "chromium-browser", "google-chrome", "google-chrome-stable"]
SECONDS = 120
KEYS = {"ArrowLeft": 37, "ArrowRight": 39, "Home": 36, "End": 35, "Escape": 27}


def program():
    """Returns the path of a browser, or None where there is none."""
    return next(filter(None, map(shutil.which, PROGRAMS)), None)


class Browser:
    """One window. What it finds wrong with a page is in 'complaints'."""

    def __init__(self, path, width=1300, height=900):
        self.home = tempfile.TemporaryDirectory()
        read, self.to = os.pipe()
        self.from_, write = os.pipe()
        # (a run is stepped through faster than by a reader, which Chromium would hold back)
        flags = ["--headless=new", "--no-sandbox", "--disable-ipc-flooding-protection", "--disable-gpu", "--remote-debugging-pipe", f"--user-data-dir={self.home.name}", f"--window-size={width},{height}"]
        # The protocol has the descriptors 3 and 4.
        words = ["bash", "-c", f'exec "$@" 3<&{read} 4>&{write} 2> /dev/null', "browser", path, *flags, "about:blank"]
        self.process = subprocess.Popen(words, pass_fds=(read, write), stdout=subprocess.DEVNULL)
        os.close(read)
        os.close(write)
        self.number, self.rest, self.session, self.events, self.complaints = 0, b"", None, [], []
        target = self.call("Target.createTarget", url="about:blank")["targetId"]
        self.session = self.call("Target.attachToTarget", targetId=target, flatten=True)["sessionId"]
        for domain in ("Page", "Runtime", "Log", "Network"):
            self.call(f"{domain}.enable")
        self.call("Emulation.setDeviceMetricsOverride", width=width, height=height, deviceScaleFactor=1, mobile=False)

    def message(self):
        while b"\0" not in self.rest:
            if not select.select([self.from_], [], [], SECONDS)[0]:
                raise TimeoutError("the browser doesn't answer")
            read = os.read(self.from_, 1 << 20)
            if not read:
                raise EOFError("the browser ended")
            self.rest += read
        one, _, self.rest = self.rest.partition(b"\0")
        return json.loads(one)

    def note(self, event):
        self.events.append(event)
        if event.get("method") in ("Runtime.exceptionThrown", "Log.entryAdded"):
            self.complaints.append(event["params"])
        if event.get("method") == "Network.requestWillBeSent" and not event["params"]["request"]["url"].startswith(("file:", "about:", "data:")):
            self.complaints.append(event["params"]["request"]["url"])

    def call(self, method, **params):
        self.number += 1
        told = {"id": self.number, "method": method, "params": params} | ({"sessionId": self.session} if self.session else {})
        left = json.dumps(told).encode() + b"\0"
        while left:
            left = left[os.write(self.to, left):]
        while True:
            message = self.message()
            if message.get("id") == self.number:
                if "error" in message:
                    raise RuntimeError(message["error"])
                return message["result"]
            self.note(message)

    def open(self, url):
        """Opens a page anew, and waits until it is loaded."""
        for address in ("about:blank", url):
            self.events.clear()
            self.call("Page.navigate", url=address)
            while not any(event.get("method") == "Page.loadEventFired" for event in self.events):
                self.note(self.message())

    def value(self, code):
        """Returns what an expression of the page gives."""
        told = self.call("Runtime.evaluate", expression=code, returnByValue=True, awaitPromise=True)
        if "exceptionDetails" in told:
            raise RuntimeError(json.dumps(told["exceptionDetails"])[:400])
        return told["result"].get("value")

    def press(self, key):
        """Presses a key, and releases it."""
        params = {"key": key, "windowsVirtualKeyCode": KEYS.get(key, ord(key[0].upper()))} | ({"text": key} if len(key) == 1 else {})
        for kind in ("keyDown", "keyUp"):
            self.call("Input.dispatchKeyEvent", type=kind, **params)

    def close(self):
        try:
            self.call("Browser.close")
        except (EOFError, OSError, RuntimeError):
            pass
        self.process.wait(SECONDS)
        os.close(self.to)
        os.close(self.from_)
        self.home.cleanup()
