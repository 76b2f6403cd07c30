"""A browser without a window: what tests ask of one, and Chromium, driven by its DevTools protocol over two pipes. It
needs nothing but Chromium."""
import base64
import fcntl
import json
import os
import select
import shutil
import subprocess
import tempfile
import time
from pathlib import Path

from session_support import PATIENCE_S

ANSWERS_S = 5 * PATIENCE_S
"""How long a browser may take to start, or for one answer, where others want the processors too."""
_APART_S = 0.04
_LOOKS = int(PATIENCE_S / _APART_S)
_LONGEST_S = 20 * PATIENCE_S
_KEYS = {"ArrowLeft": 37, "ArrowUp": 38, "ArrowRight": 39, "ArrowDown": 40, "PageUp": 33, "PageDown": 34, "+": 107,
         "-": 109, "x": 88, "y": 89, "z": 90, "a": 65}
NAMES = ("chromium-headless-shell", "chromium", "chromium-browser", "google-chrome")
"""The first has no window and takes half the processor time: Debian's package of that name."""
WORDS = ("--headless=new", "--no-sandbox", "--disable-gpu", "--no-first-run", "--disable-background-networking",
         "--disable-component-update", "--disable-sync", "--disable-extensions", "--hide-scrollbars", "--mute-audio",
         "--disable-dev-shm-usage", "--force-prefers-reduced-motion", "--remote-debugging-pipe")
"""Nothing on the page moves by itself: it would be drawn 60 times a second."""
_POINT = """(() => {
    const found = [...document.querySelectorAll(%s)].filter(one => one.offsetParent !== null && !one.disabled
        && !one.closest('[inert]') && one.textContent.includes(%s)).pop();
    if (!found) return null;
    found.scrollIntoView({block: 'nearest'});
    const box = found.getBoundingClientRect();
    return [box.x + box.width / 2, box.y + box.height / 2];
})()"""

LONG = """Math.max(0, ...[...document.querySelectorAll('#over:has(.steps) .words:not(:has(.warn ~ .warn))')]
    .map(one => one.scrollHeight - one.clientHeight))"""
"""By how much a step after a loss of power is longer than its sheet, and scrolls, where it has one warning at most."""


def chromium() -> str | None:
    """The path of Chromium, or None where it isn't installed."""
    return next(filter(None, map(shutil.which, NAMES)), None)


def processor_s(browser: "Chromium") -> float:
    """The processor time that its page took, in seconds, once the domain Performance is enabled."""
    metrics = browser.call("Performance.getMetrics")["metrics"]
    return next(one["value"] for one in metrics if one["name"] == "TaskDuration")


class Failed(AssertionError):
    """The browser refuses something, or nothing comes of it."""


_GOES_ON = """fetch('loss', { method: 'POST', body: '{"goes": true}', headers: { 'Content-Type': 'application/json',
    'X-Page': sessionStorage.page, 'X-Stamp': ngc.state.stamp } }).then(answer => answer.ok || null)"""
"""As the page asks for it. Its module isn't used: one that Firefox's driver imports is another one, with no stamp."""


class Browser:
    """One browser with one page."""

    complaints: list[str]
    """Errors and warnings that the page logged."""
    asked: list[str]
    """The addresses that it asked for."""

    def js(self, expression: str) -> object:
        """The value of an expression. Raises Failed."""
        raise NotImplementedError

    def down(self, x: float, y: float) -> None:
        """A finger, or the mouse's button, comes down."""
        raise NotImplementedError

    def move(self, x: float, y: float) -> None:
        """It moves, while it is down."""
        raise NotImplementedError

    def up(self, x: float, y: float) -> None:
        """It is lifted."""
        raise NotImplementedError

    def type(self, text: str) -> None:
        """Types into the entry that has the focus."""
        raise NotImplementedError

    def wait(self, expression: str) -> object:
        """Waits until an expression holds, and returns its value. Raises Failed once it was looked at as often as fits
        into PATIENCE_S: where others want the processors, both a look and what is waited for take longer."""
        looks, until, failed = 0, time.monotonic() + _LONGEST_S, ""
        while looks < _LOOKS and (begun := time.monotonic()) < until:
            looks, failed = looks + 1, ""
            try:
                found = self.js(f"({expression}) || null")
                if found is not None:
                    return found
            except Failed as error:  # as while a page is loaded
                failed = str(error)
            time.sleep(max(_APART_S, time.monotonic() - begun))
        state = self.js("window.ngc && JSON.stringify(ngc.state).slice(0, 2000)")
        raise Failed(f"waited in vain for {expression} {failed}; {state}")

    def press(self, says: str, within: str = "button") -> None:
        """Presses the last button of this text that is enabled, once there is one."""
        x, y = self.place(says, within)
        self.down(x, y)
        self.up(x, y)

    def place(self, says: str, within: str = "button") -> tuple[float, float]:
        """Where the middle of that button is."""
        x, y = self.wait(_POINT % (json.dumps(within), json.dumps(says)))
        return x, y

    def hurry(self) -> None:
        """Buttons of the page that come to mean something else are dead for a moment, in the place of a second."""
        self.js("void (ngc.dead.ms = 50)")
        self.goes_on()

    def goes_on(self) -> None:
        """A job goes on where the page is lost, as it is for a while if others want the processors. What takes too long
        for that reason is asked for again."""
        self.wait(_GOES_ON)

    def fill(self, entry: str, text: str) -> None:
        """Types into an entry, in the place of what stands there, once it is one that isn't dead."""
        self.wait(f"document.querySelector({json.dumps(entry)} + ':not(:disabled, [inert] *)') !== null")
        self.js(f"(() => {{ const entry = document.querySelector({json.dumps(entry)}); entry.focus();"
                " entry.select(); })()")
        self.type(text)

    def space(self) -> None:
        """Presses the space bar."""
        raise NotImplementedError

    def frame(self) -> None:
        """Waits until the page was painted."""
        self.js("new Promise(done => requestAnimationFrame(() => requestAnimationFrame(done)))")


class Chromium(Browser):
    """One Chromium with one page."""

    def __init__(self, path: str) -> None:
        """Starts it. Raises OSError or Failed."""
        self._profile = tempfile.mkdtemp(prefix="ngc-browser-")
        theirs, self._to = os.pipe()
        self._from, mine = os.pipe()

        def connect() -> None:
            """Chromium reads from 3, and writes to 4."""
            for end, number in ((fcntl.fcntl(theirs, fcntl.F_DUPFD, 10), 3), (fcntl.fcntl(mine, fcntl.F_DUPFD, 10), 4)):
                os.dup2(end, number)
                os.close(end)

        words = [path, *WORDS, f"--user-data-dir={self._profile}", "about:blank"]
        self._child = subprocess.Popen(words, preexec_fn=connect, close_fds=False, stdin=subprocess.DEVNULL,
                                       stdout=subprocess.DEVNULL, stderr=subprocess.DEVNULL)
        os.close(theirs)
        os.close(mine)
        self._buffer, self._count, self._session = b"", 0, ""
        self.complaints: list[str] = []
        self.asked: list[str] = []
        try:
            self._attach()
        except BaseException:
            self.close()
            raise

    def _attach(self) -> None:
        """Opens its page. Raises Failed."""
        target = self.call("Target.createTarget", url="about:blank")["targetId"]
        self._session = self.call("Target.attachToTarget", targetId=target, flatten=True)["sessionId"]
        for domain in ("Page", "Runtime", "Log", "Network", "DOM"):
            self.call(f"{domain}.enable")

    def close(self) -> None:
        """Ends it."""
        self._child.kill()
        self._child.wait()
        os.close(self._to)
        os.close(self._from)
        shutil.rmtree(self._profile, ignore_errors=True)

    def call(self, method: str, **params: object) -> dict:
        """Asks the browser for something. Raises Failed."""
        self._count += 1
        asked = {"id": self._count, "method": method, "params": params}
        if self._session:
            asked["sessionId"] = self._session
        os.write(self._to, json.dumps(asked).encode() + b"\0")
        until = time.monotonic() + ANSWERS_S
        while time.monotonic() < until:
            said = self._read(until)
            if said.get("id") != self._count:
                self._note(said)
            elif "error" in said:
                raise Failed(f"{method}: {said['error']}")
            else:
                return said["result"]
        raise Failed(f"{method}: no answer")

    def _read(self, until: float) -> dict:
        while b"\0" not in self._buffer:
            if not select.select([self._from], [], [], max(0, until - time.monotonic()))[0]:
                raise Failed("the browser doesn't answer")
            piece = os.read(self._from, 1 << 16)
            if not piece:
                raise Failed("the browser ended")
            self._buffer += piece
        said, _, self._buffer = self._buffer.partition(b"\0")
        return json.loads(said)

    def _note(self, said: dict) -> None:
        params = said.get("params", {})
        match said.get("method"):
            case "Network.requestWillBeSent":
                self.asked.append(params["request"]["url"])
            case "Runtime.exceptionThrown":
                self.complaints.append(json.dumps(params["exceptionDetails"]))
            case "Runtime.consoleAPICalled" if params["type"] in ("error", "warning", "assert"):
                self.complaints.append(json.dumps(params["args"]))
            case "Log.entryAdded" if params["entry"]["level"] in ("error", "warning"):
                self.complaints.append(params["entry"]["text"])

    def open(self, address: str) -> None:
        """Goes to a page."""
        self.call("Page.navigate", url=address)

    def open_with(self, script: str, address: str) -> None:
        """Goes to the operator's page, in which a script runs before the page's own."""
        added = self.call("Page.addScriptToEvaluateOnNewDocument", source=script)
        self.open(address)
        self.wait("window.ngc?.state?.yours && ngc.jobId !== null")
        self.call("Page.removeScriptToEvaluateOnNewDocument", identifier=added["identifier"])
        self.hurry()

    def js(self, expression: str) -> object:
        """The value of an expression. Raises Failed."""
        found = self.call("Runtime.evaluate", expression=expression, returnByValue=True, awaitPromise=True)
        if "exceptionDetails" in found:
            raise Failed(f"{expression}: {json.dumps(found['exceptionDetails'])}")
        return found["result"].get("value")

    def size(self, width: int, height: int) -> None:
        """Sets the size of the window."""
        self.call("Emulation.setDeviceMetricsOverride", width=width, height=height, deviceScaleFactor=1, mobile=False)
        self.frame()

    def down(self, x: float, y: float) -> None:
        """A finger, or the mouse's button, comes down."""
        self.call("Input.dispatchMouseEvent", type="mouseMoved", x=x, y=y)
        self.call("Input.dispatchMouseEvent", type="mousePressed", x=x, y=y, button="left", buttons=1, clickCount=1)

    def move(self, x: float, y: float) -> None:
        """It moves, while it is down."""
        self.call("Input.dispatchMouseEvent", type="mouseMoved", x=x, y=y, button="left", buttons=1)

    def up(self, x: float, y: float) -> None:
        """It is lifted."""
        self.call("Input.dispatchMouseEvent", type="mouseReleased", x=x, y=y, button="left", buttons=0, clickCount=1)

    def space(self) -> None:
        """Presses the space bar."""
        for kind in ("keyDown", "keyUp"):
            self.call("Input.dispatchKeyEvent", type=kind, key=" ", code="Space", windowsVirtualKeyCode=32,
                      **({"text": " "} if kind == "keyDown" else {}))

    def type(self, text: str) -> None:
        """Types into the entry that has the focus."""
        self.call("Input.insertText", text=text)

    def key(self, kind: str, key: str, **more: object) -> None:
        """A key goes down, by `rawKeyDown`, or up, by `keyUp`."""
        code = key if len(key) > 1 else {"+": "NumpadAdd", "-": "NumpadSubtract"}.get(key, f"Key{key.upper()}")
        self.call("Input.dispatchKeyEvent", type=kind, key=key, code=code, windowsVirtualKeyCode=_KEYS[key], **more)

    def forget(self) -> None:
        """Forgets what was logged and asked for."""
        self.complaints.clear()
        self.asked.clear()

    def choose_file(self, path: Path) -> None:
        """Chooses a file for the page's entry of files."""
        root = self.call("DOM.getDocument")["root"]["nodeId"]
        node = self.call("DOM.querySelector", nodeId=root, selector="#file")["nodeId"]
        self.call("DOM.setFileInputFiles", nodeId=node, files=[str(path)])

    def shoot(self, path: Path | str) -> None:
        """Writes a picture of the page."""
        found = self.call("Page.captureScreenshot", format="png", optimizeForSpeed=False)
        Path(path).write_bytes(base64.b64decode(found["data"]))
