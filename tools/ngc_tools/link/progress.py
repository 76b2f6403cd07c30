"""How a player tells how far it is, and what it is told: datagrams to a Unix socket (docs/PROTOCOL.md)."""
import os
import re
import socket
import time
from contextlib import suppress
from dataclasses import dataclass
from pathlib import Path

from ngc_tools.failure import Failure
from ngc_tools.formats.out import OFF, BadLine, Switch, read_line
from ngc_tools.hold_level import Starts, start_at_once

KEEPS_MS = 20
"""How long after a record is synced a player writes the next one."""
SPINDLE_PERCENTS = range(10, 201)
"""What an override of the spindle may be."""
_OTHER = "it is of another version: take a player and a console of one version"
_KEPT = re.compile(r"lines (\d+) bytes (\d+) age (\d+)(?: path (\S+ \S+ \S+))?( sure)?")
_WORDS = "works|held|moves|moved|unsure|alarm|broken|waits spindle"
_REPORT = re.compile(rf"carried (\d+) received (\d+) ({_WORDS}|waits tool (\d{{1,3}})) reference (\S+ \S+ \S+)"
                     r" outputs (S \d \S+ \d \d \d+ \d+)(?: again (S \d \S+ \d \d \d+ \d+))? percent (\d+)"
                     r" spindle (\d+) wants (\d+) out (.*)",
                     re.DOTALL)
UNDER_WAY = "moves"
"""What a report says while a move without lines is under way."""
MOVED = "moved"
"""What a report says behind a move without lines, until the player is told that `ngc` knows where the machine is."""
UNSURE = "unsure"
"""The same, where its last player was gone amid a move without lines: how far the motors are past its record nothing
tells."""
_POINT = r"none|\S+ \S+ \S+"
_MACHINE = re.compile(rf"does (stands|(?:home|jog|seek) \S+) homed ([XYZ]+|none) alarm (\w+) on (\S+)"
                      rf" touched ({_POINT}) ended (\d+) (.*)", re.DOTALL)


class NoAnswer(Failure):
    """The player is gone, or didn't answer in time; the text names the socket."""


class HeldBack(NoAnswer):
    """Somebody wants to hold, so what starts motors wasn't sent."""

    def __init__(self) -> None:
        super().__init__("held before it began: nothing was started")


@dataclass(frozen=True, slots=True)
class Report:
    """A player has carried out `carried` of the `received` lines that stood in `out` when it was asked. `waits`: a
    person has to put `tool` in, or to take the tool out where that is 0. `at` are machine millimetres, as
    `7.210000 0.000000 0.000000`; `outputs` are those of the motors, not those that `ngc` handed out last. They go at
    `percent` of OUT's rates. So many lines are wanted in hand, `wants`; 0 where it doesn't say."""

    carried: int
    received: int
    waits: bool
    at: str
    out: str
    outputs: Switch = OFF
    tool: int = 0
    is_held: bool = False  # it stands, since it is to
    percent: int = 100
    wants: int = 0
    word: str = "works"  # where it waits for no tool also UNDER_WAY, MOVED, UNSURE, `alarm`, BROKEN, `waits spindle`
    spindle: int = 100  # the spindle turns at so many percent of the speeds of `outputs`
    again: Switch | None = None  # what comes on again before the next line, since a person switched it off

    @property
    def behind(self) -> int:
        """Lines that were handed out and aren't carried out; on a way back those that are still to be taken back."""
        return abs(self.received - self.carried)

    @staticmethod
    def read(answer: bytes) -> "Report":
        """Reads what was answered. Raises ValueError for any other text."""
        match = _REPORT.fullmatch(answer.decode("utf-8", "surrogateescape"))
        outputs = _switch(match[6]) if match else None
        again = _switch(match[7]) if match and match[7] else None
        if match is None or outputs is None or match[7] and again is None:
            raise ValueError(f"not a report of a player: {answer[:80]!r}")
        word = "works" if match[4] or match[3] == "held" else match[3]
        return Report(int(match[1]), int(match[2]), match[4] is not None, match[5], match[11], outputs,
                      int(match[4] or 0), match[3] == "held", int(match[8]), int(match[10]), word, int(match[9]), again)


def goes_on(report: Report | None) -> bool:
    """Whether the motors carry out lines in hand, or will by themselves: nothing holds them, and no tool is asked for.
    """
    return (report is not None and report.behind > 0 and not report.is_held and not report.waits
            and report.word in ("works", "waits spindle"))


@dataclass(frozen=True, slots=True)
class MoveReport:
    """What a player says of moves without lines. `does` is `stands`, `home X`, `jog X+` or `seek Z-`; `homed` the axes
    that were homed, as `XYZ`; `alarm` is `emergency_stop`, `limits` or `sink`, "" for none; `on` the inputs that are
    on; `touched` where the probe was touched last, in machine millimetres. The move of the number `ended` is over, 0
    for none, and `how` is `done`, or says in words why it came to rest."""

    does: str
    homed: str = ""
    alarm: str = ""
    on: tuple[str, ...] = ()
    touched: str = ""
    ended: int = 0
    how: str = ""

    @staticmethod
    def read(answer: bytes) -> "MoveReport":
        """Reads what was answered. Raises ValueError for any other text."""
        match = _MACHINE.fullmatch(answer.decode("utf-8", "replace"))
        if match is None:
            raise ValueError(f"not what a player says of its machine: {answer[:80]!r}")
        does, homed, alarm, on, touched = (each if each != "none" else "" for each in match.groups()[:5])
        ended = int(match[6])
        inputs = tuple(on.split(",")) if on else ()
        return MoveReport(does, homed, alarm, inputs, touched, ended, match[7] if ended else "")


def _switch(text: str) -> Switch | None:
    """The outputs of a line of OUT, None for any other text."""
    try:
        line = read_line(text, 1)
    except BadLine:
        return None
    return line if isinstance(line, Switch) else None


class Link:
    """The other end: asks a player. What starts motors or a spindle is sent by `starts`. `failed` says why nothing more
    may be handed out in this session."""

    failed = ""

    def __init__(self, path: str | Path, patience_s: float = 5.0) -> None:
        """Raises NoAnswer if no player listens there. A question waits `patience_s` seconds for its answer."""
        self.path = str(path)
        self.patience_s = patience_s
        self.starts: Starts = start_at_once
        self.count = 0
        self._moves = int.from_bytes(os.urandom(5), "big")  # the player takes a number for a move of whoever has it
        self.socket = socket.socket(socket.AF_UNIX, socket.SOCK_DGRAM)
        self.socket.setblocking(False)
        self.socket.bind("")  # a name of its own, which the system chooses, so that it can be answered
        try:
            self.socket.connect(self.path)
        except OSError as error:
            self.socket.close()
            raise NoAnswer(f"{self.path}: no player listens there: {error.strerror or error}") from None
        self._drop_what_came()
        self.socket.settimeout(0.05)

    def _drop_what_came(self) -> None:
        """Drops what anybody sent before the connection: from there on the system lets through the player alone."""
        with suppress(BlockingIOError):
            while True:
                self.socket.recv(1)

    def ask(self) -> Report:
        """How far the player is now. Raises NoAnswer."""
        self.count += 1
        return self._understood(self._answer(b"progress %d" % self.count))

    def _answer(self, question: bytes) -> bytes:
        """What is answered to a question, behind it. Raises NoAnswer."""
        self._send(question)
        return self._awaited(question)

    def _awaited(self, question: bytes) -> bytes:
        """The answer to a question that was asked, behind it. Raises NoAnswer."""
        until = time.monotonic() + self.patience_s
        while time.monotonic() < until:
            try:
                answer = self.socket.recv(8192)
            except TimeoutError:
                self._look()
                continue
            if answer.startswith(question + b" "):
                return answer[len(question) + 1:]
        raise NoAnswer(f"{self.path}: the player doesn't answer")

    def _understood(self, answer: bytes) -> Report:
        """Reads an answer. Raises NoAnswer for that of a player of another version."""
        try:
            return Report.read(answer)
        except ValueError as error:
            raise NoAnswer(f"{self.path}: {error}; {_OTHER}") from None

    def _start(self, text: bytes) -> None:
        """Sends what starts motors or a spindle. Raises HeldBack, NoAnswer."""
        self._send(text, self.starts)

    def _send(self, text: bytes, starts: Starts = start_at_once) -> None:
        """Sends a datagram, and waits for room for it. Raises NoAnswer."""
        until = time.monotonic() + self.patience_s
        while True:
            try:
                if not starts(lambda: self.socket.send(text)):
                    raise HeldBack
                return
            except TimeoutError:
                if time.monotonic() > until:
                    raise NoAnswer(f"{self.path}: the player doesn't answer") from None
            except OSError as error:
                raise NoAnswer(f"{self.path}: the player is gone: {error.strerror or error}") from None

    def _look(self) -> None:
        """Raises NoAnswer if nobody listens any more."""
        with socket.socket(socket.AF_UNIX, socket.SOCK_DGRAM) as probe:
            try:
                probe.connect(self.path)
            except OSError as error:
                raise NoAnswer(f"{self.path}: the player is gone: {error.strerror}") from None

    def kept(self) -> tuple[int, int]:
        """How many lines and bytes of OUT are carried out by the record on the player's disk. Raises NoAnswer."""
        match = self._kept()
        return int(match[1]), int(match[2])

    def age_ms(self) -> int:
        """How old that record ever was as the next one came; 0 where that isn't known. Raises NoAnswer."""
        return int(self._kept()[3])

    def leads(self) -> str:
        """Where the lines lead that the record counts, as `7.21 0 0`, where the motors aren't there and it is known;
        else nothing. Raises NoAnswer."""
        return self._kept()[4] or ""

    def is_sure(self) -> bool:
        """Whether where the motors are was told by a person, a home or a step sink, since the player began. Raises
        NoAnswer."""
        return self._kept()[5] is not None

    def _kept(self) -> re.Match[str]:
        self.count += 1
        match = _KEPT.fullmatch(self._answer(b"kept %d" % self.count).decode("latin-1"))
        if match is None:
            raise NoAnswer(f"{self.path}: {_OTHER}")
        return match

    def synced(self, size: int) -> None:
        """Tells a player that so many bytes of OUT are on the disk. Raises NoAnswer."""
        self._send(b"synced %d" % size)

    def switch(self, outputs: Switch) -> None:
        """Has spindle and coolant switched where the motors stand, with nothing in hand. Raises NoAnswer."""
        self._start(f"switch {outputs}".encode())

    def switch_back(self, outputs: Switch) -> None:
        """Has them switched as they were, held or not: with nothing in hand nothing moves. Raises NoAnswer."""
        self._send(b"release")
        self._send(f"switch {outputs}".encode())

    def along(self, size: int, feed: str = "") -> None:
        """Sends the motors along OUT to where so many bytes of it lead; back at most at a feed, in mm a minute. Raises
        NoAnswer."""
        self._start(f"along {size}{f' feed {feed}' if feed else ''}".encode())

    def legs(self, lift: str, at: str, size: int, feed: str = "") -> None:
        """Sends the motors there by legs, the last one at a feed; heights and points are machine millimetres. Raises
        NoAnswer."""
        self._start(f"legs {lift} {at} {size}{f' feed {feed}' if feed else ''}".encode())

    def straight(self, at: str, size: int, feed: str) -> None:
        """The same in one straight line, at a feed. Raises NoAnswer."""
        self._start(f"straight {at} {size} feed {feed}".encode())

    def go(self) -> None:
        """Tells a player that waits at a tool change that the tool is in. Raises NoAnswer."""
        self._start(b"go")

    def at(self, place: str) -> None:
        """Tells a player where the machine stands, as `7.21 0 0`. It takes that while nothing is behind, and the next
        report shows whether it did. Raises NoAnswer."""
        self._send(b"at " + place.encode())

    def hold(self) -> None:
        """Tells a player to come to rest. Raises NoAnswer."""
        self._send(b"hold")

    def rest(self) -> bool:
        """Holds motors that make ramps and go on along lines in hand, and waits until they stand, or for some seconds,
        as in a dwell; whether it told them. Raises NoAnswer."""
        report = self.ask()
        if not report.wants or not goes_on(report):
            return False
        self.hold()
        until = time.monotonic() + self.patience_s
        while goes_on(self.ask()) and time.monotonic() < until:
            time.sleep(0.005)
        return True

    def release(self) -> None:
        """Tells a player that is held to go on. Raises NoAnswer."""
        self._start(b"release")

    def machine(self) -> MoveReport:
        """What moves without lines, which inputs are on, and how the last such move ended. Raises NoAnswer; so it does
        where the player has no such moves."""
        self.count += 1
        try:
            return MoveReport.read(self._answer(b"machine %d" % self.count))
        except ValueError as error:
            raise NoAnswer(f"{self.path}: {error}; {_OTHER}") from None

    def home(self, axes: str = "") -> tuple[int, str]:
        """Homes all axes, or these, as `XZ`: the move's number, and why it is refused, "" if it is taken. Raises
        NoAnswer."""
        return self._move("home", axes)

    def jog(self, way: str, rate: str, length: str = "") -> tuple[int, str]:
        """Goes `X+` or another way at a rate, in mm a minute: so far, or as long as `keep_on` says. Returns as `home`.
        Raises NoAnswer."""
        return self._move("jog", f"{way} {rate}" + (f" for {length}" if length else ""))

    def keep_on(self, number: int, way: str, rate: str) -> None:
        """Keeps a jog of that number going; to be called each 100 ms. Raises NoAnswer."""
        self._send(f"jog {number} {way} {rate}".encode())

    def seek(self, way: str, rate: str, within: str) -> tuple[int, str]:
        """Goes until the probe is on, at most so far. Returns as `home`. Raises NoAnswer."""
        return self._move("seek", f"{way} {rate} within {within}")

    def stop(self) -> None:
        """Ends a move without lines, by a ramp. Raises NoAnswer."""
        self._send(b"stop")

    def end_move(self) -> None:
        """The same, and waits until it is over. Raises NoAnswer, also where it doesn't come to that."""
        until = time.monotonic() + self.patience_s
        while self.machine().does != "stands":
            if time.monotonic() > until:
                raise NoAnswer(f"{self.path}: the motors don't come to rest")
            self.stop()
            time.sleep(0.02)

    def _move(self, verb: str, what: str) -> tuple[int, str]:
        self._moves += 1
        question = f"{verb} {self._moves}"
        self._start(f"{question} {what}".rstrip().encode())
        answer = self._awaited(question.encode()).decode("utf-8", "replace")
        if answer != "taken" and not answer.startswith("refused "):
            raise NoAnswer(f"{self.path}: {_OTHER}")
        return self._moves, "" if answer == "taken" else answer.removeprefix("refused ")

    def override(self, percent: int) -> None:
        """Tells a player to go at so many percent of OUT's rates, 1 to its `most_percent`. Raises NoAnswer."""
        self._send(b"percent %d" % percent)

    def override_spindle(self, percent: int) -> None:
        """Tells a player to turn the spindle at so many percent of OUT's speeds, 10 to 200. Raises NoAnswer."""
        self._send(b"spindle percent %d" % percent)

    def last(self) -> None:
        """Tells a player that what stands in OUT now is all that comes for now. Raises NoAnswer."""
        self._send(b"last")

    def off(self) -> None:
        """Tells a player whose motors stand to switch spindle and coolant off. Raises NoAnswer."""
        self._send(b"off")

    def anew(self) -> None:
        """Tells a player that the session is over, and that another one follows. Raises NoAnswer."""
        self._send(b"anew")

    def end(self) -> None:
        """Tells a player that the session is over, before OUT is closed. Raises NoAnswer."""
        self._send(b"end")

    def close(self) -> None:
        """Asks nothing more."""
        self.socket.close()
