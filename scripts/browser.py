"""A browser that a script drives by key presses: Chromium without a window, through chromedriver.
Both are asked over HTTP, as WebDriver has it.
"""

import json
import os
import signal
import subprocess
import threading
import time
import urllib.error
import urllib.request

import running

NAMED = {"Enter": "\ue007", "Esc": "\ue00c", "Tab": "\ue004", "Back": "\ue003", "Home": "\ue011",
         "Up": "\ue013", "Down": "\ue015", "Shift": "\ue008", "F9": "\ue039"}
ARGUMENTS = ["--headless=new", "--no-sandbox", "--disable-gpu", "--disable-dev-shm-usage",
             "--window-size=1400,1000"]


class Refused(Exception):
    """What the browser was asked for, it did not do."""


class Driver:
    """The program that drives browsers, and ends them with itself."""

    def __init__(self):
        [port] = running.free_ports(1)
        self.address = f"http://127.0.0.1:{port}"
        self.program = subprocess.Popen(["chromedriver", f"--port={port}"], stdout=subprocess.PIPE,
                                        stderr=subprocess.STDOUT, text=True, start_new_session=True)
        for line in self.program.stdout:
            if "started successfully" in line:
                break
        # what it tells later is read too: nothing waits for room in the pipe
        threading.Thread(target=self.program.stdout.read, daemon=True).start()
        self.browsers = []

    def browser(self, script=True):
        self.browsers.append(Browser(self.address, script))
        return self.browsers[-1]

    def end(self):
        for browser in self.browsers:
            try:
                browser.ask("DELETE", "")
            except (Refused, OSError):
                pass
        # the browsers with it, where one did not end
        os.killpg(self.program.pid, signal.SIGKILL)
        self.program.wait()


class Browser:
    """A browser with one page, with scripts or without."""

    def __init__(self, address, script=True):
        self.path = f"{address}/session"
        options = {"args": ARGUMENTS}
        if not script:
            options["prefs"] = {"profile.managed_default_content_settings.javascript": 2}
        wanted = {"goog:chromeOptions": options, "unhandledPromptBehavior": "ignore"}
        made = self.ask("POST", "", {"capabilities": {"alwaysMatch": wanted}})
        self.path += "/" + made["sessionId"]
        self.pressed = 0

    def ask(self, method, path, fields=None):
        body = None if method != "POST" else json.dumps(fields or {}).encode()
        request = urllib.request.Request(self.path + path, body, method=method)
        request.add_header("Content-Type", "application/json")
        try:
            with urllib.request.urlopen(request, timeout=60) as answer:
                return json.load(answer)["value"]
        except urllib.error.HTTPError as fault:
            told = json.load(fault)["value"]
            raise Refused(f"{told['error']}: {told['message'].splitlines()[0]}") from None

    def go(self, address):
        self.ask("POST", "/url", {"url": address})

    def run(self, script, *values):
        """What a script returns that runs in the page."""
        return self.ask("POST", "/execute/sync", {"script": script, "args": list(values)})

    def press(self, *keys):
        """Presses keys, one after the other: each a name of NAMED, or a text, key by key."""
        keys = [key for word in keys for key in ([NAMED[word]] if word in NAMED else word)]
        steps = [{"type": kind, "value": key} for key in keys for kind in ("keyDown", "keyUp")]
        self.pressed += len(keys)
        self.ask("POST", "/actions", {"actions": [{"type": "key", "id": "k", "actions": steps}]})

    def resize(self, width, height):
        """The page is shown on a screen of so many pixels: on a phone's below 500."""
        screen = {"width": width, "height": height, "deviceScaleFactor": 1, "mobile": width < 500}
        self.ask("POST", "/goog/cdp/execute",
                 {"cmd": "Emulation.setDeviceMetricsOverride", "params": screen})

    def source(self):
        return self.ask("GET", "/source")

    def click(self, selector):
        self.ask("POST", f"/element/{self.element(selector)}/click")

    def choose(self, selector, path):
        """Chooses a file in a field."""
        self.ask("POST", f"/element/{self.element(selector)}/value", {"text": str(path)})

    def element(self, selector):
        found = self.ask("POST", "/element", {"using": "css selector", "value": selector})
        [element] = found.values()
        return element

    def asked(self):
        """What the page asks in a dialog that is open. None where none is."""
        try:
            return self.ask("GET", "/alert/text")
        except Refused:
            return None

    def answer(self, yes):
        self.ask("POST", "/alert/accept" if yes else "/alert/dismiss")

    def wait(self, script, *values, seconds=20):
        """Waits until a script returns something that is true, and gives that."""
        end = time.monotonic() + seconds
        while not (found := self.run(script, *values)):
            if time.monotonic() > end:
                raise Refused(f"not so after {seconds} s: {script} {values}")
            time.sleep(0.02)
        return found
