"""A page in Chromium, by its protocol for developers, over two pipes: `with Devtools(folder) as browser: browser.open(path)`.

Unlike `chromium --dump-dom`, this types letters as a user does, and reads the processor time of the page's process.
"""
import json
import os
import select
import subprocess
import time

FRAMES = "new Promise(done => requestAnimationFrame(() => requestAnimationFrame(done)))"


class Devtools:
    def __init__(self, folder, *words, seconds=300):
        """Starts the browser, with a profile in this folder; each step has this many seconds."""
        self.seconds, self.count, self.session, self.read = seconds, 0, None, b""
        hears, self.asks = os.pipe()
        self.hears, says = os.pipe()

        # The browser reads from descriptor 3, and writes to 4.
        def place():
            kept = os.dup(hears), os.dup(says)
            for number, one in zip((3, 4), (os.dup2(one, 20 + at) for at, one in enumerate(kept))):
                os.dup2(one, number, inheritable=True)

        self.process = subprocess.Popen(
            ["chromium", "--headless", "--no-sandbox", "--disable-gpu", f"--user-data-dir={folder}", "--remote-debugging-pipe",
             *words, "about:blank"],
            stdout=subprocess.DEVNULL, stderr=subprocess.DEVNULL, preexec_fn=place, close_fds=False,
        )
        os.close(hears)
        os.close(says)

    def __enter__(self):
        pages = [one for one in self.ask("Target.getTargets")["targetInfos"] if one["type"] == "page"]
        self.session = self.ask("Target.attachToTarget", targetId=pages[0]["targetId"], flatten=True)["sessionId"]
        for name in ("Page.enable", "Runtime.enable", "Performance.enable"):
            self.ask(name)
        return self

    def __exit__(self, *_):
        self.process.terminate()
        self.process.wait()

    def messages(self):
        """The messages of the browser, as they come."""
        until = time.monotonic() + self.seconds
        while True:
            while b"\0" not in self.read:
                if not select.select([self.hears], [], [], max(0, until - time.monotonic()))[0]:
                    raise TimeoutError("the browser does not answer")
                part = os.read(self.hears, 65536)
                if not part:
                    raise EOFError("the browser has ended")
                self.read += part
            one, self.read = self.read.split(b"\0", 1)
            yield json.loads(one)

    def ask(self, method, **params):
        """The result of a method of the protocol."""
        self.count += 1
        asked = {"id": self.count, "method": method, "params": params}
        if self.session:
            asked["sessionId"] = self.session
        os.write(self.asks, json.dumps(asked).encode() + b"\0")
        for told in self.messages():
            if told.get("id") == self.count:
                if "error" in told:
                    raise RuntimeError(f"{method}: {told['error']}")
                return told["result"]

    def value(self, script):
        """What a script answers in the page; a promise is waited for."""
        found = self.ask("Runtime.evaluate", expression=script, awaitPromise=True, returnByValue=True)
        if "exceptionDetails" in found:
            raise RuntimeError(found["exceptionDetails"])
        return found["result"].get("value")

    def open(self, path):
        """Loads the file, and waits until it is shown."""
        self.ask("Page.navigate", url=f"file://{path}")
        self.value("new Promise(done => document.readyState == 'complete' ? done() : addEventListener('load', done))")
        self.value(FRAMES)

    def type(self, letters):
        """Types letters into the field that has the focus, and waits until what they change is shown."""
        for letter in letters:
            self.ask("Input.dispatchKeyEvent", type="keyDown", text=letter, key=letter)
            self.ask("Input.dispatchKeyEvent", type="keyUp", key=letter)
        self.value(FRAMES)

    def processor_seconds(self):
        """The processor time of the page's process until now."""
        found = {one["name"]: one["value"] for one in self.ask("Performance.getMetrics")["metrics"]}
        return found["ProcessTime"]
