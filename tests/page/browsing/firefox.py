"""Firefox, driven over a socket by its own protocol, Marionette."""

import base64
import json
import os
import pathlib
import socket
import time

from tests.page.browsing.browser import Browser, BrowserFailure

PREFERENCES = {
    "marionette.port": 0,
    "browser.shell.checkDefaultBrowser": False,
    "datareporting.policy.dataSubmissionEnabled": False,
    "toolkit.telemetry.enabled": False,
    "app.update.disabledForTesting": True,
    "network.captive-portal-service.enabled": False,
    "network.connectivity-service.enabled": False,
    "security.sandbox.warn_unprivileged_namespaces": False,
    "browser.startup.page": 0,
    "remote.prefs.recommended": True,
}
ELEMENT = "element-6066-11e4-a52e-4f735466cecf"
KEYS = {"Enter": "\ue007", "Tab": "\ue004", "ArrowUp": "\ue013"}


class Firefox(Browser):
    """A browser with one tab. `folder` is for its profile and what it saves."""

    name = "firefox"

    def __init__(self, folder):
        preferences = "".join(f"user_pref({json.dumps(name)}, {json.dumps(value)});\n" for name, value in PREFERENCES.items())
        pathlib.Path(folder, "user.js").write_text(preferences, encoding="utf-8")
        words = ["firefox-esr", "--headless", "--no-remote", "--marionette", "--remote-allow-system-access", "--profile", folder]
        self.start(words, folder, env=dict(os.environ, HOME=folder, MOZ_HEADLESS_WIDTH="1280", MOZ_HEADLESS_HEIGHT="900"))
        self.number = 0
        self.socket = socket.create_connection(("127.0.0.1", self.port(folder)))
        self.stream = self.socket.makefile("rb")
        self.receive()
        self.call("WebDriver:NewSession", capabilities={"alwaysMatch": {"pageLoadStrategy": "normal"}})
        self.call("WebDriver:SetTimeouts", script=600000, pageLoad=60000)

    def port(self, folder):
        path, until = pathlib.Path(folder, "MarionetteActivePort"), time.monotonic() + 60
        while time.monotonic() < until and self.process.poll() is None:
            if path.exists() and path.stat().st_size:
                return int(path.read_text(encoding="ascii"))
            time.sleep(0.1)
        raise BrowserFailure("firefox doesn't start")

    def receive(self):
        return json.loads(self.stream.read(int(self.told(self.stream, b":"))))

    def call(self, method, **given):
        self.number += 1
        told = json.dumps([0, self.number, method, given]).encode()
        self.socket.sendall(b"%d:%s" % (len(told), told))
        _, _, fault, result = self.receive()
        if fault:
            raise BrowserFailure(f"firefox refuses {method}: {fault['message']}")
        return result

    def open(self, address):
        self.call("WebDriver:Navigate", url=address)

    def evaluate(self, script):
        """The value of an expression in the page, or of its promise."""
        return self.call("WebDriver:ExecuteScript", script=f"return ({script});", args=[])["value"]

    def show(self, width, height, dark=False, media=""):
        """The size of the window, in pixels, and the colours that the user prefers."""
        self.call("Marionette:SetContext", value="chrome")
        self.call("WebDriver:ExecuteScript", args=[], script=f"""
            const [tab] = gBrowser.browsers;
            tab.browsingContext.top.prefersColorSchemeOverride = "{'dark' if dark else 'light'}";
            tab.browsingContext.top.mediumOverride = "{media}";""")
        self.call("Marionette:SetContext", value="content")
        self.call("WebDriver:SetWindowRect", width=width, height=height + 85)

    def picture(self, whole=False):
        """A picture of the window, or of all of the page, as PNG."""
        return base64.b64decode(self.call("WebDriver:TakeScreenshot", full=whole, hash=False)["value"])

    def press(self, key):
        self.type(KEYS[key])

    def type(self, text):
        keys = [{"type": kind, "value": letter} for letter in text for kind in ("keyDown", "keyUp")]
        self.call("WebDriver:PerformActions", actions=[{"type": "key", "id": "keyboard", "actions": keys}])

    def choose_file(self, selector, path):
        found = self.call("WebDriver:FindElement", using="css selector", value=selector)["value"]
        self.call("WebDriver:ElementSendKeys", id=found[ELEMENT], text=path)
