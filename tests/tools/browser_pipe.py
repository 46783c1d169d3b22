"""A browser that a check opens pages in, uses as a person would, and looks at.

It is Chromium without a window. It is told what to do by its own protocol for tools, over two pipes, so nothing is installed and no port is opened.
"""

import base64
import contextlib
import json
import os
import select
import shutil
import subprocess
import tempfile
import time

BROWSERS = ("chromium", "chromium-browser", "google-chrome")
# no answer comes so late on any machine: the browser hangs
LIMIT_SECONDS = 300
WORDS = ("--headless", "--no-sandbox", "--disable-gpu", "--hide-scrollbars", "--remote-debugging-pipe", "--no-first-run", "--disable-background-networking")


def browser():
    """The browser's command, or nothing if none is there."""
    return next((path for path in map(shutil.which, BROWSERS) if path), None)


class Broken(Exception):
    """The browser refused something, or a script in a page failed."""


class Tab:
    """One page of a browser."""

    def __init__(self, pipes):
        self.pipes, self.number, self.rest, self.events, self.session = pipes, 0, b"", [], None

    def message(self, end):
        while b"\0" not in self.rest:
            if not select.select([self.pipes[0]], [], [], max(0, end - time.monotonic()))[0]:
                raise Broken("the browser doesn't answer")
            piece = os.read(self.pipes[0], 1 << 20)
            if not piece:
                raise Broken("the browser ended")
            self.rest += piece
        one, self.rest = self.rest.split(b"\0", 1)
        return json.loads(one)

    def ask(self, method, **words):
        """What the browser answers."""
        self.number += 1
        asked = {"id": self.number, "method": method, "params": words}
        if self.session:
            asked["sessionId"] = self.session
        left = json.dumps(asked).encode() + b"\0"
        while left:
            left = left[os.write(self.pipes[1], left) :]
        end = time.monotonic() + LIMIT_SECONDS
        while True:
            said = self.message(end)
            if said.get("id") != self.number:
                self.events.append(said)
            elif "error" in said:
                raise Broken(f"{method}: {said['error']['message']}")
            else:
                return said["result"]

    def until(self, event):
        """Waits for an event."""
        end = time.monotonic() + LIMIT_SECONDS
        while not any(said.get("method") == event for said in self.events):
            self.events.append(self.message(end))
        self.events = [said for said in self.events if said.get("method") != event]

    def open(self, path):
        self.ask("Page.navigate", url=f"file://{path}")
        self.until("Page.loadEventFired")

    def value(self, script):
        """What a script in the page gives; a promise is waited for."""
        said = self.ask("Runtime.evaluate", expression=script, awaitPromise=True, returnByValue=True)
        if "exceptionDetails" in said:
            raise Broken(str(said["exceptionDetails"].get("exception", {}).get("description", said["exceptionDetails"]["text"])))
        return said["result"].get("value")

    def wait_for(self, script):
        """Waits until a script gives something true, and gives it."""
        end = time.monotonic() + LIMIT_SECONDS
        while time.monotonic() < end:
            found = self.value(script)
            if found:
                return found
            time.sleep(0.05)
        raise Broken(f"never came true: {script}")

    def show(self, width, height, scheme):
        self.ask("Emulation.setDeviceMetricsOverride", width=width, height=height, deviceScaleFactor=1, mobile=False)
        self.ask("Emulation.setEmulatedMedia", features=[{"name": "prefers-color-scheme", "value": scheme}])

    def press(self, key, code, **more):
        """A key, down and up."""
        for kind in ("rawKeyDown", "keyUp"):
            self.ask("Input.dispatchKeyEvent", type=kind, key=key, code=key, windowsVirtualKeyCode=code, **more)

    def drop(self, path, x, y):
        """Drops a file at a place of the page."""
        dropped = {"items": [], "files": [path], "dragOperationsMask": 1}
        for kind in ("dragEnter", "dragOver", "drop"):
            self.ask("Input.dispatchDragEvent", type=kind, x=x, y=y, data=dropped)

    def choose(self, selector, path):
        """Chooses a file in a field of the page."""
        root = self.ask("DOM.getDocument")["root"]["nodeId"]
        self.ask("DOM.setFileInputFiles", files=[path], nodeId=self.ask("DOM.querySelector", nodeId=root, selector=selector)["nodeId"])

    def save_to(self, folder):
        """What the page saves goes to a folder."""
        self.ask("Browser.setDownloadBehavior", behavior="allow", downloadPath=folder)

    def file_in(self, folder, path):
        """Waits until a file that the page saves stands whole in a folder."""
        end = time.monotonic() + LIMIT_SECONDS
        while not os.path.exists(path) or any(name.endswith(".crdownload") for name in os.listdir(folder)):
            if time.monotonic() > end:
                raise Broken(f"never saved: {os.path.basename(path)}")
            time.sleep(0.05)

    def picture(self):
        return base64.b64decode(self.ask("Page.captureScreenshot", format="png")["data"])


@contextlib.contextmanager
def tab():
    """A page of a browser that ends with it."""
    to_browser, from_browser, folder = os.pipe(), os.pipe(), tempfile.mkdtemp()
    # it reads what it is told from 3, and answers on 4; bash, since other shells know descriptors of one digit alone
    ends = (to_browser[0], from_browser[1])
    command = ["bash", "-c", f'exec "$@" 3<&{ends[0]} 4>&{ends[1]}', "bash", browser(), *WORDS, f"--user-data-dir={folder}", "about:blank"]
    nothing = {"stdin": subprocess.DEVNULL, "stdout": subprocess.DEVNULL, "stderr": subprocess.DEVNULL}
    running = subprocess.Popen(command, pass_fds=ends, **nothing)
    try:
        one = Tab((from_browser[0], to_browser[1]))
        target = one.ask("Target.createTarget", url="about:blank")["targetId"]
        one.session = one.ask("Target.attachToTarget", targetId=target, flatten=True)["sessionId"]
        for part in ("Page", "DOM", "Runtime"):
            one.ask(f"{part}.enable")
        yield one
        one.session = None
        one.ask("Browser.close")
    finally:
        for end in (*to_browser, *from_browser):
            os.close(end)
        with contextlib.suppress(subprocess.TimeoutExpired):
            running.wait(10)
        running.kill()
        running.wait()
        shutil.rmtree(folder, ignore_errors=True)
