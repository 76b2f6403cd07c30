"""Firefox without a window, driven by its own remote protocol, Marionette, which needs nothing but Firefox; and the
choice of a browser: Chromium, or Firefox where the environment has NGC_BROWSER=firefox."""
import atexit
import base64
import json
import os
import shutil
import socket
import subprocess
import tempfile
import time
from functools import cache
from pathlib import Path

from browser_support import ANSWERS_S, Browser, Chromium, Failed, chromium

NAMES = ("firefox-esr", "firefox")
_WORDS = ("--headless", "--no-remote", "--marionette", "--remote-allow-system-access")
_PREFERENCES = {"marionette.port": 0, "browser.startup.page": 0, "datareporting.policy.dataSubmissionEnabled": False,
                "network.captive-portal-service.enabled": False, "network.connectivity-service.enabled": False,
                "services.settings.server": "data:,", "browser.newtabpage.enabled": False}
_RUN = """const done = arguments[arguments.length - 1];
(async () => (%s))().then(value => done({ value: value ?? null }), error => done({ error: String(error) }));"""
_WATCH = """window.asked = [];
Services.obs.addObserver({ observe(channel) {
    const { loadInfo, URI } = channel.QueryInterface(Ci.nsIHttpChannel);
    if (loadInfo.browsingContextID) window.asked.push(URI.spec);
} }, 'http-on-opening-request');"""
_COMPLAINTS = """return Services.console.getMessageArray().filter(one => one instanceof Ci.nsIScriptError
    && one.sourceName.startsWith('http')).map(one => one.message);"""


def firefox() -> str | None:
    """The path of Firefox, or None where it isn't installed."""
    return next(filter(None, map(shutil.which, NAMES)), None)


class Firefox(Browser):
    """One Firefox with one page."""

    def __init__(self, path: str) -> None:
        """Starts it. Raises OSError or Failed."""
        self._home = Path(tempfile.mkdtemp(prefix="ngc-browser-"))
        (self._home / "user.js").write_text("".join(
            f"user_pref({json.dumps(name)}, {json.dumps(value)});\n" for name, value in _PREFERENCES.items()))
        more = {"HOME": str(self._home), "MOZ_HEADLESS_WIDTH": "2560", "MOZ_HEADLESS_HEIGHT": "1600"}
        self._child = subprocess.Popen([path, *_WORDS, "--profile", str(self._home)], env=os.environ | more,
                                       stdin=subprocess.DEVNULL, stdout=subprocess.DEVNULL, stderr=subprocess.DEVNULL)
        self._count = 0
        try:
            self._connect()
        except BaseException:
            self._child.kill()
            self._gone()
            raise

    def _connect(self) -> None:
        """Begins to drive it. Raises OSError or Failed."""
        self._link = socket.create_connection(("127.0.0.1", self._port()), ANSWERS_S)
        self._file = self._link.makefile("rb")
        self._read()
        self.call("WebDriver:NewSession")
        self._chrome(_WATCH)

    def _port(self) -> int:
        """Where it listens, once it does."""
        told, until = self._home / "MarionetteActivePort", time.monotonic() + ANSWERS_S
        while time.monotonic() < until:
            if told.exists() and (text := told.read_text()).strip():
                return int(text)
            if self._child.poll() is not None:
                break
            time.sleep(0.05)
        raise Failed("Firefox doesn't start")

    def close(self) -> None:
        """Ends it."""
        self.call("Marionette:Quit", flags=["eForceQuit"])
        self._file.close()
        self._link.close()
        self._gone()

    def _gone(self) -> None:
        """Waits for its end, and removes what it kept."""
        self._child.wait(ANSWERS_S)
        shutil.rmtree(self._home, ignore_errors=True)

    def call(self, method: str, **params: object) -> dict:
        """Asks the browser for something. Raises Failed."""
        self._count += 1
        text = json.dumps([0, self._count, method, params]).encode()
        self._link.sendall(b"%d:%s" % (len(text), text))
        _, _, error, result = self._read()
        if error:
            raise Failed(f"{method}: {error['error']}: {error['message']}")
        return result or {}

    def _read(self) -> list:
        """The next message."""
        size = b""
        while (sign := self._file.read(1)) != b":":
            if not sign:
                raise Failed("the browser ended")
            size += sign
        return json.loads(self._file.read(int(size)))

    def _chrome(self, script: str) -> object:
        """Runs a script of the browser's own, and returns what it does."""
        self.call("Marionette:SetContext", value="chrome")
        try:
            return self.call("WebDriver:ExecuteScript", script=script, args=[])["value"]
        finally:
            self.call("Marionette:SetContext", value="content")

    @property
    def complaints(self) -> list[str]:
        """Errors and warnings that the page logged."""
        return self._chrome(_COMPLAINTS)

    @property
    def asked(self) -> list[str]:
        """The addresses that the page asked for."""
        return self._chrome("return window.asked;")

    def forget(self) -> None:
        """Forgets what was logged and asked for."""
        self._chrome("Services.console.reset(); window.asked = [];")

    def open(self, address: str) -> None:
        """Goes to a page."""
        self.call("WebDriver:Navigate", url=address)

    def js(self, expression: str) -> object:
        """The value of an expression. Raises Failed."""
        found = self.call("WebDriver:ExecuteAsyncScript", script=_RUN % expression, args=[],
                          scriptTimeout=1000 * ANSWERS_S)["value"]
        if found is None or "error" in found:
            raise Failed(f"{expression}: {found and found['error'] or 'the page is gone'}")
        return found["value"]

    def size(self, width: int, height: int) -> None:
        """Sets the size of the page."""
        wide, tall = self.js("[outerWidth - innerWidth, outerHeight - innerHeight]")
        self.call("WebDriver:SetWindowRect", width=width + wide, height=height + tall)
        self.wait(f"innerWidth === {width} && innerHeight === {height}")
        self.frame()

    def down(self, x: float, y: float) -> None:
        """A finger, or the mouse's button, comes down."""
        self._act("pointer", _to(x, y), {"type": "pointerDown", "button": 0})

    def move(self, x: float, y: float) -> None:
        """It moves, while it is down."""
        self._act("pointer", _to(x, y))

    def up(self, x: float, y: float) -> None:
        """It is lifted."""
        self._act("pointer", _to(x, y), {"type": "pointerUp", "button": 0})

    def type(self, text: str) -> None:
        """Types into the entry that has the focus."""
        self._act("key", *({"type": kind, "value": sign} for sign in text for kind in ("keyDown", "keyUp")))

    def space(self) -> None:
        """Presses the space bar."""
        self.type(" ")

    def _act(self, kind: str, *does: dict) -> None:
        self.call("WebDriver:PerformActions", actions=[{"type": kind, "id": kind, "actions": list(does)}])

    def choose_file(self, path: Path) -> None:
        """Chooses a file for the page's entry of files."""
        found = self.call("WebDriver:FindElement", using="css selector", value="#file")["value"]
        self.call("WebDriver:ElementSendKeys", id=next(iter(found.values())), text=str(path))

    def shoot(self, path: Path | str) -> None:
        """Writes a picture of the page."""
        found = self.call("WebDriver:TakeScreenshot", full=False)
        Path(path).write_bytes(base64.b64decode(found["value"]))


def _to(x: float, y: float) -> dict:
    """The way of the mouse to a place."""
    return {"type": "pointerMove", "x": round(x), "y": round(y)}


IS_FIREFOX = os.environ.get("NGC_BROWSER") == "firefox"
PATH = firefox() if IS_FIREFOX else chromium()
"""The browser's, None where it isn't installed."""
MISSING = f"{'Firefox' if IS_FIREFOX else 'Chromium'} isn't installed: tools/tests/install_browser.sh"


def start() -> Browser:
    """Starts the browser. Raises OSError or Failed."""
    return (Firefox if IS_FIREFOX else Chromium)(PATH or "")


@cache
def started() -> Browser:
    """One browser for all tests of a process: to start one costs seconds. Raises as `start`."""
    browser = start()
    atexit.register(browser.close)
    return browser
