"""What tests of the page share: a device, a player, the server, and pages that ask and are told."""
import http.client
import json
import os
import queue
import re
import signal
import socket
import threading
import time
from collections.abc import Callable, Iterator
from contextlib import contextmanager, suppress
from pathlib import Path

from player_support import built
from session_support import PATIENCE_S, InFolder, ngc

from ngc_tools.formats.record import Record
from ngc_tools.link.progress import Link, NoAnswer

PAGE, OTHER = "page-number-1", "page-number-2"
BEAT_S = 0.4
"""So often a page says at most which stamp it read."""
SLOW = "G17 G21 G90 G94\nG0 X0 Y0 Z0\nG1 X2 F3\nM2\n"
"""Its line 3 is a cut of 40 s, which no test sees the end of."""
CUT = "M3 S100\nG17 G21 G90 G94\nG0 X0 Y0 Z0\nG1 X2 F600\nG1 X0 Z-1 F12\nM2\n"
"""Its line 5 is a cut of 11 s, which is taken back in the same time."""
SHORT = "G17 G21 G90 G94\n" + "".join(f"G1 X{hundredths / 100:.2f} F3\n" for hundredths in range(2, 80, 2)) + "M2\n"
"""Cuts of twenty pulses, 0.4 s each: `ngc` is 100 pulses ahead of a player without ramps, which is five lines."""


class Page:
    """A page: what it asks for, and what it is told. In a thread of its own it takes what it is told, and says which
    stamp it read, until `close`."""

    def __init__(self, address: str, name: str = PAGE) -> None:
        """Opens its stream."""
        match = re.fullmatch(r"http://127\.0\.0\.1:(\d+)/([\w-]{20,})/", address)
        if match is None:
            raise AssertionError(f"no address: {address}")
        self.port, self.key, self.name = int(match[1]), match[2], name
        self.log: list[dict] = []
        self.answered: set[int] = set()
        self._posted = 0.0
        self.stamp, self._heard = "", 0.0
        self._states: queue.SimpleQueue[dict | None] = queue.SimpleQueue()
        self._stream = http.client.HTTPConnection("127.0.0.1", self.port, timeout=PATIENCE_S)
        self._stream.request("GET", f"/{self.key}/events?page={name}")
        self._socket = self._stream.sock
        self._events = self._stream.getresponse()
        if self._events.status != 200:
            raise AssertionError(f"no stream: {self._events.read()!r}")
        self._is_told = threading.Event()
        self._reading = threading.Thread(target=self._read, daemon=True)
        self._reading.start()
        self._is_told.wait(PATIENCE_S)

    def _read(self) -> None:
        """Takes what it is told, to the end of the stream."""
        beats, told = http.client.HTTPConnection("127.0.0.1", self.port, timeout=PATIENCE_S), 0.0
        with suppress(OSError, ValueError, http.client.HTTPException):
            while line := self._events.readline():
                if not line.startswith(b"data: "):
                    continue
                if line[6:7] == b"{":
                    self._states.put(state := json.loads(line[6:]))
                    self.newer(state["stamp"])
                else:
                    self.newer(line[6:].decode().strip())
                if time.monotonic() > told + BEAT_S:
                    told = time.monotonic()
                    self._beat(beats)
        self._states.put(None)
        self._is_told.set()
        beats.close()

    def _beat(self, beats: http.client.HTTPConnection) -> None:
        """Says which stamp it read; a connection that broke is opened again for the next one."""
        try:
            beats.request("POST", f"/{self.key}/beat", json.dumps({"stamp": self.stamp}), self.given())
            beats.getresponse().read()
        except (OSError, http.client.HTTPException):
            beats.close()

    def newer(self, stamp: str) -> None:
        """Takes a stamp, if it is newer than the last one."""
        if not self.stamp or int(stamp.partition("-")[0]) >= int(self.stamp.partition("-")[0]):
            self.stamp, self._heard = stamp, time.monotonic()
            self._is_told.set()

    def now(self) -> str:
        """The stamp of a touch."""
        ms, _, holds = self.stamp.partition("-")
        return f"{int(ms) + int(1000 * (time.monotonic() - self._heard))}-{holds}"

    def given(self) -> dict[str, str]:
        """The headers of what it asks for."""
        return {"Origin": f"http://127.0.0.1:{self.port}", "X-Page": self.name, "Content-Type": "application/json",
                "X-Stamp": self.now()}

    def next(self) -> dict:
        """The next state. Raises EOFError where the stream has ended."""
        state = self._states.get(timeout=PATIENCE_S)
        if state is None:
            self._states.put(None)
            raise EOFError
        self.log += state["log"]
        return state

    def until(self, what: str, holds: Callable[[dict], object]) -> dict:
        """The next state of which something holds, since what was asked for last."""
        end = time.monotonic() + PATIENCE_S
        while (state := self.next())["now"] < self._posted or not holds(state):
            if time.monotonic() > end:
                raise AssertionError(f"waited in vain until {what}: {state}, {self.log}")
        return state

    def last(self) -> dict:
        """The last state of the session."""
        state = {}
        try:
            while True:
                state = self.next()
        except EOFError:
            return state

    def rested(self) -> dict:
        """The next state in which nothing is under way."""
        return self.until("nothing is under way", lambda state: not state["busy"])

    def asked(self) -> dict:
        """The next state with a question."""
        return self.until("it asks", lambda state: state["question"]
                          and state["question"]["id"] not in self.answered)

    def agree(self, state: dict, text: str = "") -> None:
        """Answers the question of a state with a yes, or with a text."""
        words = {"text": text} if text else {"yes": True, "seen": len(state["question"]["looks"])}
        if self.post("answer", {"question": state["question"]["id"]} | words) != (200, {"taken": True}):
            raise AssertionError(f"it isn't asked: {state['question']}")
        self.answered.add(state["question"]["id"])

    def get(self, path: str, **headers: str) -> tuple[int, bytes, dict[str, str]]:
        """One request: status, body and headers."""
        return request(self.port, "GET", f"/{self.key}/{path}", None, **headers)

    def post(self, what: str, body: object = None, **headers: str) -> tuple[int, dict]:
        """Asks for something: the status, and what is answered. What took too long on a busy machine is touched again.
        """
        raw = body if isinstance(body, bytes) else json.dumps({} if body is None else body).encode()
        status, text = 0, b""
        while not status or "X_Stamp" not in headers and b"more than a second ago" in text:
            given = self.given() | {name.replace("_", "-"): value for name, value in headers.items()}
            status, text, answered = request(self.port, "POST", f"/{self.key}/{what}", raw, **given)
            self._posted = time.time()
            if "X-Stamp" in answered:
                self.newer(answered["X-Stamp"])
        return status, json.loads(text)

    def job(self) -> dict | None:
        """What is drawn, None for nothing."""
        return json.loads(self.get("job")[1])["job"]

    def said(self) -> str:
        """The texts of the log."""
        return "\n".join(entry["text"] for entry in self.log)

    def close(self) -> None:
        """Goes."""
        with suppress(OSError):
            self._socket.shutdown(socket.SHUT_RDWR)
        self._reading.join(PATIENCE_S)
        self._events.close()
        self._stream.close()


def request(port: int, method: str, path: str, body: bytes | None = None,
            **headers: str) -> tuple[int, bytes, dict[str, str]]:
    """One request: status, body and headers. `_` in the name of a header stands for `-`."""
    link = http.client.HTTPConnection("127.0.0.1", port, timeout=PATIENCE_S)
    try:
        link.request(method, path, body, {name.replace("_", "-"): value for name, value in headers.items()})
        answer = link.getresponse()
        return answer.status, answer.read(), dict(answer.getheaders())
    finally:
        link.close()


class Served(InFolder):
    """A device, OUT, a player, the server."""

    OUT = "axis"
    MACHINE = ""
    JOBS = ""
    """The folder of programs, nothing for none."""

    def setUp(self) -> None:
        """Starts the player and the server."""
        super().setUp()
        self.device()
        if self.OUT == "axis":
            os.mkfifo("axis")
        else:
            Path(self.OUT).touch()
        self.begin()

    def begin(self) -> None:
        """Starts both, as after power came back."""
        self.begin_player()
        words = ["--machine", "motion.toml"] if self.MACHINE else []
        words += ["--jobs", self.JOBS] if self.JOBS else []
        self.server = self.start("ngc-page", "mill.dev", "first.toml", self.OUT, "--player", "progress", "--ngc", ngc(),
                                 "--listen", "127.0.0.1:0", *words)
        self.address = self.server.stdout.readline().strip()
        if not self.address:
            self.fail(self.server.stderr.read())

    def begin_player(self) -> None:
        """Starts the player, and waits until it answers."""
        words = ["--follow"] if self.OUT != "axis" else []
        if self.MACHINE:
            Path("motion.toml").write_text(self.MACHINE)
            words += ["--machine", "motion.toml"]
        self.player = self.started(built("-O2"), self.OUT, "first.toml", "position", "--progress", "progress", *words)
        self.wait_for("the player listens", self._listens)
        link = Link("progress", PATIENCE_S)
        self.addCleanup(link.close)
        link.ask()
        self.link = link

    @staticmethod
    def _listens() -> bool:
        """Whether a player does: the socket of one that was killed stays."""
        try:
            Link("progress").close()
        except NoAnswer:
            return False
        return True

    def page(self, name: str = PAGE) -> Page:
        """Opens a page."""
        page = Page(self.address, name)
        self.addCleanup(page.close)
        return page

    def load(self, page: Page, text: str) -> None:
        """Uploads and loads a program."""
        found = page.post("check", text.encode(), X_Name="part.ngc", Content_Type="application/octet-stream")[1]
        self.assertIn("id", found)
        self.assertEqual(page.post("load", {"id": found["id"]}), (200, {"taken": True}), page.said())

    def cuts(self, page: Page, line: int = 3) -> dict:
        """The state once a program is started, and the motors cut in line 3 of SLOW, or in line 5 of CUT: `ngc` is some
        lines ahead of them. The record on the disk has them there too: it may be some pulses older than the motors, and
        after a loss of power it alone tells where they are."""
        def is_cutting(x_mm: float, z_mm: float) -> bool:
            return x_mm > 0 if line == 3 else z_mm < 0

        def cut(state: dict) -> bool:
            x, _, z = map(float, state["motors"])
            return state["line"] == line and state["half"] == "program" and is_cutting(x, z)

        self.assertEqual(page.post("run"), (200, {}))
        state = page.until("it cuts", cut)
        self.wait_for("the record has it", lambda: is_cutting(*self.recorded().at_nm[::2]))
        return state

    @staticmethod
    def recorded() -> Record:
        """The player's record, as it is on the disk."""
        return Record.of_text(Path("position").read_bytes(), "position")

    def pull(self) -> None:
        """Power is lost."""
        for pid in (*self.children(), self.player.pid, self.server.pid):
            os.kill(pid, signal.SIGKILL)
        self.server.wait()
        self.player.wait()
        os.unlink("progress")

    def children(self) -> list[int]:
        """The processes of `ngc` that the server started; others may end meanwhile."""
        lists = Path(f"/proc/{self.server.pid}/task").glob("*/children")
        found, pids = [], [int(pid) for path in lists for pid in path.read_text().split()]
        for pid in pids:
            with suppress(FileNotFoundError, ProcessLookupError):
                if Path(f"/proc/{pid}/exe").resolve() == Path(ngc()).resolve():
                    found.append(pid)
        return found


def slow_by() -> float:
    """How many times as long something takes as it takes processor time now, since others want it too."""
    begun, begun_cpu = time.monotonic(), time.thread_time()
    while time.thread_time() < begun_cpu + 0.03:
        pass
    return (time.monotonic() - begun) / 0.03


@contextmanager
def within_seconds(most: float) -> Iterator[None]:
    """What is done meanwhile takes no longer, of a machine that has time for it."""
    slowness, begun = slow_by(), time.monotonic()
    yield
    took_s, slowness = time.monotonic() - begun, max(slowness, slow_by(), slow_by())
    if took_s > most * slowness:
        raise AssertionError(f"it took {took_s:.1f} s, not {most} times {slowness:.1f}, by which this machine is slow")
