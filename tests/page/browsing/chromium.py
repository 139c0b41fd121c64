"""Chromium, driven over a pipe by the protocol of its developer tools."""

import base64
import fcntl
import json
import os

from tests.page.browsing.browser import Browser, BrowserFailure


# The keys that a user presses, by their numbers.
KEYS = {"Enter": 13, "Tab": 9, "ArrowUp": 38}


def high_pipe():
    """A pipe whose ends aren't 3 and 4, which are the browser's."""
    ends = os.pipe()
    high = tuple(fcntl.fcntl(end, fcntl.F_DUPFD_CLOEXEC, 10) for end in ends)
    for end in ends:
        os.close(end)
    return high


class Chromium(Browser):
    """A browser with one tab. `folder` is for its profile and what it saves."""

    name = "chromium"

    def __init__(self, folder):
        to_browser, write = high_pipe()
        read, from_browser = high_pipe()
        # As root it can't have a sandbox of its own.
        words = ["chromium", "--headless=new", "--disable-gpu", "--no-first-run", "--disable-extensions", "--hide-scrollbars",
                 "--disable-background-networking", "--disable-component-update", "--disable-renderer-backgrounding", "--disable-sync",
                 "--disable-background-timer-throttling", "--disable-backgrounding-occluded-windows", "--disable-dev-shm-usage",
                 f"--user-data-dir={folder}", "--remote-debugging-pipe", *(["--no-sandbox"] if os.geteuid() == 0 else []), "about:blank"]
        shell = ["bash", "-c", f'exec "$@" 3<&{to_browser} 4>&{from_browser}', "bash", *words]
        self.start(shell, folder, pass_fds=(to_browser, from_browser))
        os.close(to_browser)
        os.close(from_browser)
        self.write, self.read, self.number, self.seen, self.session = write, os.fdopen(read, "rb"), 0, [], None
        targets = self.call("Target.getTargets")["targetInfos"]
        tab = next(target["targetId"] for target in targets if target["type"] == "page")
        self.session = self.call("Target.attachToTarget", targetId=tab, flatten=True)["sessionId"]
        for domain in ("Page", "Runtime", "Network", "Log"):
            self.call(f"{domain}.enable")
        self.call("Emulation.setFocusEmulationEnabled", enabled=True)

    def call(self, method, **given):
        self.number += 1
        session = {"sessionId": self.session} if self.session else {}
        data = json.dumps({"id": self.number, "method": method, "params": given, **session}).encode() + b"\0"
        while data:
            data = data[os.write(self.write, data):]
        while True:
            answer = json.loads(self.told(self.read, b"\0"))
            if answer.get("id") != self.number:
                self.seen.append(answer)
            elif "error" in answer:
                raise BrowserFailure(f"chromium refuses {method}: {answer['error']['message']}")
            else:
                return answer["result"]

    def open(self, address):
        self.seen.clear()
        self.call("Page.navigate", url=address)
        self.call("Page.bringToFront")
        self.evaluate("new Promise((done) => document.readyState === 'complete' ? done(1) : addEventListener('load', () => done(1)))")

    def evaluate(self, script):
        """The value of an expression in the page, or of its promise."""
        answer = self.call("Runtime.evaluate", expression=script, awaitPromise=True, returnByValue=True, userGesture=True)
        if "exceptionDetails" in answer:
            details = answer["exceptionDetails"]
            raise BrowserFailure(details.get("exception", {}).get("description") or details["text"])
        return answer["result"].get("value")

    def show(self, width, height, dark=False, media=""):
        """The size of the window, in pixels, the colours that the user prefers, and what the page is shown on."""
        self.call("Emulation.setDeviceMetricsOverride", width=width, height=height, deviceScaleFactor=1, mobile=False)
        self.call("Emulation.setEmulatedMedia", media=media, features=[{"name": "prefers-color-scheme", "value": "dark" if dark else "light"}])

    def picture(self, whole=False):
        """A picture of the window, or of all of the page, as PNG."""
        return base64.b64decode(self.call("Page.captureScreenshot", format="png", captureBeyondViewport=whole)["data"])

    def press(self, key):
        given = {"key": key, "code": key, "windowsVirtualKeyCode": KEYS[key]}
        self.call("Input.dispatchKeyEvent", type="keyDown", **given, **({"text": "\r"} if key == "Enter" else {}))
        self.call("Input.dispatchKeyEvent", type="keyUp", **given)

    def type(self, text):
        self.call("Input.insertText", text=text)

    def choose_file(self, selector, path):
        node = self.call("Runtime.evaluate", expression=f"document.querySelector({json.dumps(selector)})")["result"]["objectId"]
        self.call("DOM.setFileInputFiles", files=[path], objectId=node)

    def close(self):
        super().close()
        self.read.close()
        os.close(self.write)
