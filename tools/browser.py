"""Drives Chromium without a window, by a pipe and no network."""

import base64
import json
import os
import shutil
import subprocess
import tempfile

NAMES = ("chromium", "chromium-browser", "google-chrome")


def found():
    """Returns the path of a browser, or none."""
    return next((path for path in map(shutil.which, NAMES) if path), None)


class Browser:
    """A browser with one page. It is ended by `with`."""

    def __init__(self, path):
        self.path = path
        self.count = 0
        self.session = None

    def __enter__(self):
        self.folder = tempfile.TemporaryDirectory()
        read_words, self.out = os.pipe()
        self.into, write_words = os.pipe()
        os.set_inheritable(read_words, True)
        os.set_inheritable(write_words, True)
        shell = f"exec 3<&{read_words} 4>&{write_words}; exec \"$@\""
        words = [self.path, "--headless=new", "--remote-debugging-pipe", "--no-sandbox", "--disable-gpu", "--hide-scrollbars", "--no-first-run", f"--user-data-dir={self.folder.name}", "about:blank"]
        self.child = subprocess.Popen(["bash", "-c", shell, "browser", *words], pass_fds=(read_words, write_words), stdin=subprocess.DEVNULL, stdout=subprocess.DEVNULL, stderr=subprocess.DEVNULL)
        os.close(read_words)
        os.close(write_words)
        self.rest = b""
        target = self.call("Target.createTarget", url="about:blank")["targetId"]
        self.session = self.call("Target.attachToTarget", targetId=target, flatten=True)["sessionId"]
        self.call("Page.enable")
        return self

    def __exit__(self, *_):
        try:
            os.write(self.out, json.dumps({"id": 0, "method": "Browser.close"}).encode() + b"\0")
            self.child.wait(10)
        except (OSError, subprocess.TimeoutExpired):
            self.child.kill()
            self.child.wait()
        os.close(self.out)
        os.close(self.into)
        self.folder.cleanup()

    def message(self):
        while b"\0" not in self.rest:
            more = os.read(self.into, 1 << 20)
            if not more:
                raise OSError("the browser ended")
            self.rest += more
        one, self.rest = self.rest.split(b"\0", 1)
        return json.loads(one)

    def call(self, method, **params):
        """Calls a method of the browser's protocol and returns its result."""
        self.count += 1
        words = {"id": self.count, "method": method, "params": params}
        if self.session:
            words["sessionId"] = self.session
        todo = json.dumps(words).encode() + b"\0"
        while todo:
            todo = todo[os.write(self.out, todo) :]
        while True:
            it = self.message()
            if it.get("id") == self.count:
                if "error" in it:
                    raise OSError(f"{method}: {it['error']['message']}")
                return it["result"]

    def open(self, path):
        """Opens a file and waits until it is there."""
        self.call("Page.navigate", url="file://" + os.path.abspath(path))
        self.value("new Promise(done => document.readyState === 'complete' ? done() : addEventListener('load', () => done()))")

    def value(self, words):
        """Returns what an expression gives."""
        it = self.call("Runtime.evaluate", expression=words, returnByValue=True, awaitPromise=True)
        if "exceptionDetails" in it:
            raise OSError(it["exceptionDetails"].get("exception", {}).get("description", "a fault in the page"))
        return it["result"].get("value")

    def timed(self, words):
        """Runs statements, and returns how many milliseconds went by until the browser had drawn what they changed."""
        return self.value(f"""new Promise(done => {{
            const began = performance.now();
            {words}
            requestAnimationFrame(() => {{
                const channel = new MessageChannel();
                channel.port1.onmessage = () => done(performance.now() - began);
                channel.port2.postMessage(0);
            }});
        }})""")

    def look(self, width, height, is_dark):
        """Sets the width and the scheme."""
        self.call("Emulation.setDeviceMetricsOverride", width=width, height=height, deviceScaleFactor=1, mobile=False)
        self.call("Emulation.setEmulatedMedia", features=[{"name": "prefers-color-scheme", "value": "dark" if is_dark else "light"}])

    def key(self, name, shift=False):
        """Presses a key."""
        for kind in ("keyDown", "keyUp"):
            self.call("Input.dispatchKeyEvent", type=kind, key=name, code=name, windowsVirtualKeyCode={"ArrowLeft": 37, "ArrowRight": 39}[name], modifiers=8 if shift else 0)

    def picture(self, path, whole=False):
        """Writes a picture of what is seen, or of the whole page."""
        data = self.call("Page.captureScreenshot", format="png", captureBeyondViewport=whole)["data"]
        with open(path, "wb") as out:
            out.write(base64.b64decode(data))

    def printed(self, path):
        """Writes what would be printed, and returns its bytes."""
        data = base64.b64decode(self.call("Page.printToPDF", preferCSSPageSize=True, printBackground=True)["data"])
        with open(path, "wb") as out:
            out.write(data)
        return data
