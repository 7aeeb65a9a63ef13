"""A headless chromium, controlled by its DevTools protocol over two pipes."""
import base64
import json
import os
import select
import shutil
import subprocess
import tempfile
import time

NAMES = ["chromium", "chromium-browser", "google-chrome"]
SECONDS = 120


def browser():
    """The path of the browser, or None if there is none."""
    return next(filter(None, map(shutil.which, NAMES)), None)


class Browser:
    """A browser with one page, of a given size in pixels. `with` ends it."""

    def __init__(self, width=1280, height=900, dark=False):
        self.folder = tempfile.TemporaryDirectory(ignore_cleanup_errors=True)
        asks, self.asked = os.pipe()
        self.answers, answered = os.pipe()
        words = [browser(), "--headless", "--no-sandbox", "--disable-gpu", "about:blank",
                 "--remote-debugging-pipe", f"--user-data-dir={self.folder.name}"]
        guarded = ["sh", "-c", f'exec "$@" 3<&{asks} 4>&{answered} 2>/dev/null', "", *words]
        silent = {"stdin": subprocess.DEVNULL, "stdout": subprocess.DEVNULL}
        self.process = subprocess.Popen(guarded, pass_fds=[asks, answered], **silent)
        os.close(asks)
        os.close(answered)
        self.count = 0
        self.rest = b""
        self.thrown = []
        self.session = None
        target = self.ask("Target.createTarget", url="about:blank")["targetId"]
        self.session = self.ask("Target.attachToTarget", targetId=target, flatten=True)["sessionId"]
        self.ask("Page.enable")
        self.ask("Runtime.enable")
        size = {"width": width, "height": height, "deviceScaleFactor": 1, "mobile": False}
        self.ask("Emulation.setDeviceMetricsOverride", **size)
        scheme = {"name": "prefers-color-scheme", "value": "dark" if dark else "light"}
        self.ask("Emulation.setEmulatedMedia", features=[scheme])

    def __enter__(self):
        return self

    def __exit__(self, *_):
        os.close(self.asked)
        os.close(self.answers)
        self.process.terminate()
        self.process.wait()
        self.folder.cleanup()

    def heard(self, seconds):
        """The next message of the browser."""
        end = time.monotonic() + seconds
        while b"\0" not in self.rest:
            ready, _, _ = select.select([self.answers], [], [], max(0, end - time.monotonic()))
            chunk = os.read(self.answers, 1 << 20) if ready else b""
            if not chunk:
                raise RuntimeError(f"chromium said nothing for {seconds} s, or ended")
            self.rest += chunk
        message, self.rest = self.rest.split(b"\0", 1)
        return json.loads(message)

    def ask(self, method, **params):
        """The browser's response to a method of the protocol."""
        self.count += 1
        message = {"id": self.count, "method": method, "params": params}
        if self.session:
            message["sessionId"] = self.session
        data = json.dumps(message).encode() + b"\0"
        while data:
            data = data[os.write(self.asked, data):]
        while True:
            heard = self.heard(SECONDS)
            if heard.get("method") == "Runtime.exceptionThrown":
                self.thrown.append(heard["params"]["exceptionDetails"])
            if heard.get("id") == self.count:
                if "error" in heard:
                    raise RuntimeError(f"{method}: {heard['error']}")
                return heard["result"]

    def open(self, path):
        """Opens a file, and returns how many seconds it took to load and draw it."""
        begun = time.monotonic()
        self.ask("Page.navigate", url=f"file://{os.path.abspath(path)}")
        self.run("new Promise((done) => { const drawn = () => requestAnimationFrame(() =>"
                 " requestAnimationFrame(done)); if (document.readyState === 'complete') drawn();"
                 " else addEventListener('load', drawn); })")
        return time.monotonic() - begun

    def run(self, script):
        """The value of an expression in the page; a promise is awaited."""
        how = {"awaitPromise": True, "returnByValue": True}
        said = self.ask("Runtime.evaluate", expression=script, **how)
        if "exceptionDetails" in said:
            raise RuntimeError(f"{script[:200]}: {said['exceptionDetails']}")
        return said["result"].get("value")

    def problems(self):
        """The uncaught exceptions since the last call of this."""
        self.run("0")
        thrown, self.thrown = self.thrown, []
        return [it.get("exception", it).get("description", str(it)) for it in thrown]

    def press(self, key, modifiers=0):
        """Presses a key, as a user would. Shift is 8."""
        text = key if len(key) == 1 else ""
        for kind, typed in [("keyDown", text), ("keyUp", "")]:
            self.ask("Input.dispatchKeyEvent", type=kind, key=key, text=typed, modifiers=modifiers)

    def click(self, x, y):
        for kind in ["mousePressed", "mouseReleased"]:
            self.ask("Input.dispatchMouseEvent", type=kind, x=x, y=y, button="left", clickCount=1)

    def scroll(self, x, y, by):
        """Turns the wheel over a point, downwards if `by` is positive."""
        wheel = {"type": "mouseWheel", "x": x, "y": y, "deltaX": 0, "deltaY": by}
        self.ask("Input.dispatchMouseEvent", **wheel)

    def picture(self, path):
        """Writes a screenshot (PNG)."""
        data = self.ask("Page.captureScreenshot", format="png")["data"]
        with open(path, "wb") as file:
            file.write(base64.b64decode(data))
