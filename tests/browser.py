"""A browser for scripts: Chromium without a window, by its driver (W3C WebDriver, and the Chrome DevTools Protocol for
what it lacks), with nothing but Python's standard library."""
import base64
import json
import os
import shutil
import subprocess
import tempfile
import time
import urllib.request

SECONDS = 30


def is_here():
    return shutil.which("chromium") is not None and shutil.which("chromedriver") is not None


class Browser:
    """A Chromium that shows one page."""

    def __init__(self, port):
        self.profile = tempfile.TemporaryDirectory()
        self.at = f"http://127.0.0.1:{port}"
        self.process = subprocess.Popen(["chromedriver", f"--port={port}"], stdout=subprocess.DEVNULL,
                                        stderr=subprocess.DEVNULL)
        limit = time.monotonic() + SECONDS
        while True:
            try:
                if self.call("GET", "/status")["ready"]:
                    break
            except OSError:
                assert time.monotonic() < limit, "chromedriver does not start"
            time.sleep(0.1)
        words = ["--headless=new", "--no-sandbox", "--disable-gpu", "--disable-dev-shm-usage", "--window-size=1200,1400",
                 f"--user-data-dir={self.profile.name}"]
        wanted = {"browserName": "chrome", "goog:chromeOptions": {"args": words, "binary": shutil.which("chromium")},
                  "goog:loggingPrefs": {"browser": "ALL"}}
        self.session = self.call("POST", "/session", {"capabilities": {"alwaysMatch": wanted}})["sessionId"]

    def call(self, method, path, body=None):
        data = None if body is None else json.dumps(body).encode()
        request = urllib.request.Request(self.at + path, data=data, method=method,
                                         headers={"content-type": "application/json"})
        with urllib.request.urlopen(request, timeout=4 * SECONDS) as answer:
            return json.load(answer)["value"]

    def ask(self, method, path, body=None):
        return self.call(method, f"/session/{self.session}{path}", body)

    def open(self, url):
        self.ask("POST", "/url", {"url": url})

    def run(self, script, *arguments):
        """What a script's `return` gives."""
        return self.ask("POST", "/execute/sync", {"script": script, "args": list(arguments)})

    def tools(self, command, **values):
        return self.ask("POST", "/goog/cdp/execute", {"cmd": command, "params": values})

    def keys(self, text):
        """Presses keys, as a person without a mouse."""
        actions = [it for key in text for it in ({"type": "keyDown", "value": key}, {"type": "keyUp", "value": key})]
        self.ask("POST", "/actions", {"actions": [{"type": "key", "id": "keys", "actions": actions}]})

    def faults(self):
        """What the browser complained of: scripts that failed, and what the page's policy forbade."""
        return [line["message"] for line in self.ask("POST", "/se/log", {"type": "browser"})
                if line["level"] in ("SEVERE", "WARNING")]

    def look(self, scheme="light", width=1200, height=1400, is_phone=False):
        self.tools("Emulation.setEmulatedMedia", features=[{"name": "prefers-color-scheme", "value": scheme}])
        self.tools("Emulation.setDeviceMetricsOverride", width=width, height=height, deviceScaleFactor=2 if is_phone else 1,
                   mobile=is_phone)

    def picture(self, path):
        shot = self.tools("Page.captureScreenshot", format="png", captureBeyondViewport=False)
        with open(path, "wb") as file:
            file.write(base64.b64decode(shot["data"]))

    def close(self):
        try:
            self.ask("DELETE", "")
        except OSError:
            pass
        self.process.terminate()
        self.process.wait()
        self.profile.cleanup()


def wait_for(what, holds, seconds=SECONDS):
    """Waits until it holds, and fails where it does not in time."""
    limit = time.monotonic() + seconds
    while not (found := holds()):
        assert time.monotonic() < limit, f"not in {seconds} seconds: {what}"
        time.sleep(0.02)
    return found


def here(name):
    return os.path.join(os.path.dirname(os.path.abspath(__file__)), name)
