"""A browser without a screen, Chromium, driven by the WebDriver protocol over Python's own http.client."""

import base64
import contextlib
import http.client
import json
import os
import re
import select
import shutil
import signal
import subprocess
import tempfile
import time

from cards import waited
from trial_runner import below

# how long the driver may take to begin, to answer, and to end the browser, in seconds
BEGINS, ANSWERS, ENDS = 10, 20, 3
OPTIONS = [
    "--headless=new", "--no-sandbox", "--disable-gpu", "--disable-dev-shm-usage", "--no-first-run", "--disable-extensions",
    "--disable-background-networking", "--disable-component-update", "--no-proxy-server"]


def lacks():
    """The program of a browser that this machine lacks, or None."""
    return next((name for name in ("chromium", "chromedriver") if not shutil.which(name)), None)


class Browser:
    """A window of so many pixels. Used with `with`, it is ended at the end."""

    def __init__(self, width, height):
        self.session, self.starved, self.home = None, 0, tempfile.mkdtemp()
        self.driver = subprocess.Popen(
            ["chromedriver", "--port=0"], stdin=subprocess.DEVNULL, stdout=subprocess.PIPE, stderr=subprocess.STDOUT,
            env={**os.environ, "HOME": self.home, "XDG_CONFIG_HOME": self.home, "TMPDIR": self.home})
        try:
            self.port = self.begun()
            chosen = {"args": [*OPTIONS, "--window-size=%d,%d" % (width, height)]}
            wanted = {"goog:chromeOptions": chosen, "goog:loggingPrefs": {"browser": "ALL"}}
            self.session = self.call("POST", "/session", {"capabilities": {"alwaysMatch": wanted}})["sessionId"]
        except BaseException:
            self.end()
            raise

    def begun(self):
        """The port of the driver, as it tells it."""
        said, until = b"", time.monotonic() + BEGINS
        while select.select([self.driver.stdout], [], [], max(0, until - time.monotonic()))[0]:
            piece = self.driver.stdout.readline()
            said += piece
            port = re.search(rb"started successfully on port (\d+)", said)
            if port:
                return int(port[1])
            if not piece:
                break
        raise OSError("chromedriver does not begin: %s" % said)

    def __enter__(self):
        return self

    def __exit__(self, *_):
        self.end()

    def end(self):
        processes = below(self.driver.pid)
        self.starved = waited(self.driver.pid, *processes)
        if self.session:
            with contextlib.suppress(OSError, http.client.HTTPException):
                self.call("DELETE", "/session/" + self.session, patience=ENDS)
        for each in [self.driver.pid, *processes]:
            with contextlib.suppress(ProcessLookupError):
                os.kill(each, signal.SIGKILL)
        self.driver.communicate()
        shutil.rmtree(self.home, ignore_errors=True)

    def call(self, method, path, body=None, patience=ANSWERS):
        """What the driver gives. A fault that it tells is one here."""
        link = http.client.HTTPConnection("127.0.0.1", self.port, timeout=patience)
        with contextlib.closing(link):
            link.request(method, path, None if body is None else json.dumps(body), {"Content-Type": "application/json"})
            value = json.loads(link.getresponse().read())["value"]
        if isinstance(value, dict) and "error" in value:
            raise OSError("the browser says: %s: %s" % (value["error"], value["message"].partition("\n")[0]))
        return value

    def ask(self, method, path, body=None):
        return self.call(method, "/session/" + self.session + path, body)

    def open(self, url):
        self.ask("POST", "/url", {"url": url})

    def run(self, script, *words):
        """What a script of the page returns."""
        return self.ask("POST", "/execute/sync", {"script": script, "args": words})

    def be_telephone(self, width, height):
        """The screen of a telephone from now on."""
        metrics = {"width": width, "height": height, "deviceScaleFactor": 2, "mobile": True}
        self.ask("POST", "/goog/cdp/execute", {"cmd": "Emulation.setDeviceMetricsOverride", "params": metrics})

    def click(self, selector):
        """A person clicks on the first element that is chosen so."""
        found = self.ask("POST", "/element", {"using": "css selector", "value": selector})
        self.ask("POST", "/element/%s/click" % next(iter(found.values())), {})

    def complaints(self):
        """What the console of the page says since it was asked last."""
        return [it["message"] for it in self.ask("POST", "/se/log", {"type": "browser"})]

    def picture(self, path):
        with open(path, "wb") as file:
            file.write(base64.b64decode(self.ask("GET", "/screenshot")))
