"""A headless browser (Chromium) that tests drive over pipes: it opens pages, is asked things, and says what it asked the network for."""
import base64
import json
import os
import shutil
import subprocess
import tempfile
import threading
import time
from queue import Empty, Queue

NAMES = ["chromium", "chromium-browser", "google-chrome", "google-chrome-stable", "chrome"]
PATIENCE = 120  # seconds


def found():
    """The browser's program, or None."""
    return next(filter(None, map(shutil.which, NAMES)), None)


class Browser:
    def __init__(self):
        self.folder = tempfile.mkdtemp(prefix="browser_for_tests_")
        to_read, self.to = os.pipe()
        self.of, to_write = os.pipe()
        words = [found(), "--headless=new", "--no-sandbox", "--disable-gpu", "--disable-dev-shm-usage", "--no-first-run",
                 "--disable-background-networking", "--hide-scrollbars", "--remote-debugging-pipe", f"--user-data-dir={self.folder}", "about:blank"]

        def pipes():
            # The browser reads commands at 3 and writes answers at 4.
            high = [os.dup(to_read), os.dup(to_write)]
            os.dup2(high[0], 3)
            os.dup2(high[1], 4)

        self.process = subprocess.Popen(words, preexec_fn=pipes, close_fds=False, stdin=subprocess.DEVNULL, stdout=subprocess.DEVNULL,
                                        stderr=subprocess.DEVNULL, start_new_session=True)
        os.close(to_read)
        os.close(to_write)
        self.answers, self.events, self.number, self.session = Queue(), [], 0, None
        threading.Thread(target=self.listen, daemon=True).start()

    def listen(self):
        rest = b""
        while True:
            try:
                data = os.read(self.of, 1 << 16)
            except OSError:
                return
            if not data:
                return
            *texts, rest = (rest + data).split(b"\0")
            for text in texts:
                message = json.loads(text)
                if "id" in message:
                    self.answers.put(message)
                else:
                    self.events.append(message)

    def ask(self, method, **params):
        """The answer to a command."""
        self.number += 1
        message = {"id": self.number, "method": method, "params": params}
        if self.session:
            message["sessionId"] = self.session
        data = json.dumps(message).encode() + b"\0"
        while data:
            data = data[os.write(self.to, data):]
        while True:
            try:
                answer = self.answers.get(timeout=PATIENCE)
            except Empty:
                raise RuntimeError(f"the browser says nothing to {method}") from None
            if answer["id"] == self.number:
                break
        if "error" in answer:
            raise RuntimeError(f"{method}: {answer['error']}")
        return answer["result"]

    def open(self, path, width=1200, height=900, dark=False):
        """Opens a file in a new tab, and waits until its script has drawn it. Gives the seconds until then."""
        self.session = None
        target = self.ask("Target.createTarget", url="about:blank")["targetId"]
        self.session = self.ask("Target.attachToTarget", targetId=target, flatten=True)["sessionId"]
        self.events.clear()
        for domain in ("Page", "Runtime", "Network", "Log"):
            self.ask(f"{domain}.enable")
        self.ask("Emulation.setDeviceMetricsOverride", width=width, height=height, deviceScaleFactor=1, mobile=False)
        self.ask("Emulation.setEmulatedMedia", features=[{"name": "prefers-color-scheme", "value": "dark" if dark else "light"}])
        began = time.monotonic()
        self.ask("Page.navigate", url="file://" + os.path.abspath(path))
        while time.monotonic() - began < PATIENCE:
            if self.value("document.readyState === 'complete' && document.documentElement.dataset.drawn === 'true'"):
                return time.monotonic() - began
            time.sleep(0.02)
        raise RuntimeError(f"the page is not drawn: {self.complaints()}")

    def value(self, expression):
        """The value of an expression in the page, which may be a promise."""
        answer = self.ask("Runtime.evaluate", expression=expression, returnByValue=True, awaitPromise=True)
        if "exceptionDetails" in answer:
            raise RuntimeError(str(answer["exceptionDetails"])[:600])
        return answer["result"].get("value")

    def requests(self):
        """What the page asked for, but for itself."""
        asked = [event["params"]["request"]["url"] for event in self.events if event["method"] == "Network.requestWillBeSent"]
        return [url for url in asked if not url.startswith("file:")] + [url for url in asked if url.startswith("file:")][1:]

    def complaints(self):
        """Errors of scripts, of the page's policy, and what was written to the console."""
        kinds = ("Runtime.exceptionThrown", "Runtime.consoleAPICalled", "Log.entryAdded", "Page.javascriptDialogOpening")
        return [event["params"] for event in self.events if event["method"] in kinds]

    def picture(self, path):
        with open(path, "wb") as file:
            file.write(base64.b64decode(self.ask("Page.captureScreenshot")["data"]))

    def end(self):
        try:
            self.session = None
            self.ask("Browser.close")
            self.process.wait(PATIENCE)
        except (RuntimeError, OSError, subprocess.TimeoutExpired):
            self.process.kill()
            self.process.wait()
        for end in (self.to, self.of):
            os.close(end)
        shutil.rmtree(self.folder, True)
