"""A small WebDriver client: Chromium without a window, driven through chromedriver, by the standard library alone.

    with Browser(folder) as browser:
        browser.open("http://127.0.0.1:8377/")
        browser.find("#write").click()

A call that the browser refuses, and a wait that takes too long, raise Failure. The folder takes the browser's profile and what it
downloads. Leaving the block ends the browser and the driver, whatever happened in it.
"""

import base64
import http.client
import json
import os
import shutil
import signal
import subprocess
import threading
import time

BROWSER = "chromium"
DRIVER = "chromedriver"

SECONDS = 20.0
PAUSE = 0.01
ELEMENT = "element-6066-11e4-a52e-4f735466cecf"
STARTED = "was started successfully on port "

# Keys that are no characters.
NULL = "\ue000"
TAB = "\ue004"
ENTER = "\ue007"
SHIFT = "\ue008"
CONTROL = "\ue009"
ESCAPE = "\ue00c"
LEFT = "\ue012"
UP = "\ue013"
RIGHT = "\ue014"
DOWN = "\ue015"


class Failure(Exception):
    """The browser or its driver did not do what was asked."""


class Driver:
    """chromedriver on a free port."""

    def __init__(self, folder):
        self.process = subprocess.Popen(
            [DRIVER, "--port=0"],
            stdin=subprocess.DEVNULL,
            stdout=subprocess.PIPE,
            stderr=subprocess.DEVNULL,
            env={**os.environ, "XDG_CONFIG_HOME": str(folder), "XDG_CACHE_HOME": str(folder)},
            text=True,
            start_new_session=True,
        )
        try:
            self.connection = http.client.HTTPConnection("127.0.0.1", self._port(), timeout=3 * SECONDS)
        except BaseException:
            self.stop()
            raise

    def _port(self):
        timer = threading.Timer(SECONDS, self._kill)
        timer.start()
        try:
            for line in self.process.stdout:
                if STARTED in line:
                    return int(line.split(STARTED)[1].strip(" .\n"))
        finally:
            timer.cancel()
        raise Failure(f"{DRIVER} does not start")

    def call(self, method, path, value=None):
        """The value that the driver answers."""
        body = None if value is None else json.dumps(value)
        try:
            self.connection.request(method, path, body, {"Content-Type": "application/json"})
            response = self.connection.getresponse()
            answer = json.loads(response.read())["value"]
        except (OSError, http.client.HTTPException, ValueError) as error:
            self.connection.close()
            raise Failure(f"{DRIVER} does not answer: {error}") from error
        if response.status != 200:
            raise Failure(f"{answer['error']}: {answer['message'].splitlines()[0]}")
        return answer

    def stop(self):
        """Ends the driver and every process that it started."""
        self.process.terminate()
        try:
            self.process.wait(5)
        except subprocess.TimeoutExpired:
            pass
        self._kill()
        self.process.wait()
        self.process.stdout.close()

    def _kill(self):
        try:
            os.killpg(self.process.pid, signal.SIGKILL)
        except ProcessLookupError:
            pass


class Browser:
    """One window of Chromium."""

    def __init__(self, folder):
        self.downloads = folder / "downloads"
        self.downloads.mkdir()
        self.driver = Driver(folder)
        try:
            self.session = self._start(folder / "profile")
        except BaseException:
            self.driver.stop()
            raise

    def _start(self, profile):
        options = {
            "binary": shutil.which(BROWSER),
            "args": [
                "--headless=new",
                "--no-sandbox",
                "--disable-gpu",
                "--disable-dev-shm-usage",
                "--disable-background-networking",
                "--hide-scrollbars",
                f"--user-data-dir={profile}",
            ],
            "prefs": {"download.default_directory": str(self.downloads), "download.prompt_for_download": False},
        }
        capabilities = {"browserName": "chrome", "goog:chromeOptions": options, "goog:loggingPrefs": {"browser": "ALL"}}
        made = self.driver.call("POST", "/session", {"capabilities": {"alwaysMatch": capabilities}})
        return f"/session/{made['sessionId']}"

    def __enter__(self):
        return self

    def __exit__(self, *_):
        self.close()

    def close(self):
        try:
            self.driver.call("DELETE", self.session)
        except Failure:
            pass
        finally:
            self.driver.stop()

    def call(self, method, path, value=None):
        return self.driver.call(method, self.session + path, value)

    def post(self, path, **value):
        return self.call("POST", path, value)

    # the page

    def open(self, address):
        self.post("/url", url=address)

    def script(self, text, *arguments):
        """What the script returns; its arguments are `arguments[0]` and so on."""
        return self._value(self.post("/execute/sync", script=text, args=[self._argument(one) for one in arguments]))

    def find(self, selector):
        return self._value(self.post("/element", using="css selector", value=selector))

    def all(self, selector):
        return self._value(self.post("/elements", using="css selector", value=selector))

    def has(self, selector):
        return bool(self.all(selector))

    def keys(self, *keys, held=()):
        """Presses keys one after the other, wherever the focus is; others are held meanwhile."""
        actions = [{"type": "keyDown", "value": key} for key in held]
        actions += [{"type": kind, "value": key} for key in keys for kind in ("keyDown", "keyUp")]
        actions += [{"type": "keyUp", "value": key} for key in held]
        self.post("/actions", actions=[{"type": "key", "id": "keyboard", "actions": actions}])

    def point_at(self, x, y):
        """Moves the mouse."""
        action = {"type": "pointerMove", "duration": 0, "x": x, "y": y}
        self.post("/actions", actions=[{"type": "pointer", "id": "mouse", "actions": [action]}])

    def wait(self, what, condition, seconds=SECONDS):
        """The first value of the condition that is true."""
        end = time.monotonic() + seconds
        while True:
            found = condition()
            if found:
                return found
            if time.monotonic() > end:
                raise Failure(f"not in {seconds:g} seconds: {what}")
            time.sleep(PAUSE)

    # the window

    def resize(self, width, height):
        """Makes the page just this large; a window cannot be as narrow as a phone."""
        self.devtools("Emulation.setDeviceMetricsOverride", width=width, height=height, deviceScaleFactor=1, mobile=False)

    def devtools(self, command, **parameters):
        return self.post("/goog/cdp/execute", cmd=command, params=parameters)

    def screenshot(self, path):
        path.write_bytes(base64.b64decode(self.call("GET", "/screenshot")))

    def log(self):
        """What the console has got since this was asked last: errors of scripts, of loading and of the content security policy too."""
        return [entry["message"] for entry in self.post("/se/log", type="browser")]

    # elements in values

    def _value(self, value):
        if isinstance(value, list):
            return [self._value(one) for one in value]
        if isinstance(value, dict):
            return Element(self, value[ELEMENT]) if ELEMENT in value else {key: self._value(one) for key, one in value.items()}
        return value

    @staticmethod
    def _argument(value):
        return {ELEMENT: value.reference} if isinstance(value, Element) else value


class Element:
    """An element of the page."""

    def __init__(self, browser, reference):
        self.browser = browser
        self.reference = reference
        self.path = f"/element/{reference}"

    def click(self):
        """Scrolls it into view and clicks on it; refused where something else lies over it."""
        self.browser.post(f"{self.path}/click")

    def type(self, text):
        """Types into it, also the path of a file."""
        self.browser.post(f"{self.path}/value", text=text)

    def overtype(self, text):
        """Types in the place of what is there."""
        self.type(f"{CONTROL}a{NULL}{text}")

    def attribute(self, name):
        return self.browser.call("GET", f"{self.path}/attribute/{name}")
