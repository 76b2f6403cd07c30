"""What tests of home, jog and seek share: a player that makes them by itself, within the process or over a socket.

It takes the datagrams of docs/OUTPUT.md, "Home, jog, seek". Time stands still in it: a move is over once it was asked
for so many times."""
import threading
from dataclasses import replace
from pathlib import Path

from listener import Listener, said

from ngc_tools.formats.out import OFF, Switch, read_line
from ngc_tools.formats.position import Position, nanometres
from ngc_tools.link.progress import MoveReport, NoAnswer, Report

STEP_NM = (1000, 1000, 1000)
ASKS = 3


class Axes:
    """The axes of a machine, and what they do; a move is over after `asks` questions. `home` leads to `home_at`; the
    probe is on at `probe_nm` of Z, and a stop takes `way_nm` more. `switches` are the axes that can be homed. `refuses`
    is why a move is refused, `fails` how one ends; both are for one move. An alarm comes at the question of the number
    `alarm_at`."""

    def __init__(self) -> None:
        self.at_nm = [0, 0, 0]
        self.home_at = [-298_000_000, -198_000_000, -2_000_000]
        self.probe_nm, self.way_nm = -5_000_000, 20_000
        self.refuses = self.fails = ""
        self.switches = "XYZ"
        self.word = "works"
        self.drops_lines = False  # lines are in hand as an alarm comes
        self.stands = MoveReport("stands")
        self.machine = self.stands
        self.words: list[str] = []
        self.asked = self.alarm_at = 0
        self.asks = ASKS
        self._left = 0  # questions until the move is over
        self._goal: list[int] = []
        self._number = 0

    def take(self, words: list[str]) -> str:
        """Takes a datagram, and says what is answered; nothing to one without an answer."""
        self.words.append(" ".join(words))
        if words[0] == "stop":
            self._end("stopped")
            return ""
        return self._jogs_on(words) or self._begin(words)

    def _jogs_on(self, words: list[str]) -> str:
        """A jog whose key is held goes 1 mm each time."""
        if words[0] != "jog" or int(words[1]) != self._number or self.machine is self.stands:
            return ""
        self._goal = self._along(words[2], 1_000_000)
        self.at_nm = self._goal
        return "-"

    def _begin(self, words: list[str]) -> str:
        if self.refuses:
            why, self.refuses = self.refuses, ""
            return f"refused {why}"
        if self.word == "alarm" and words[0] != "home":
            return "refused the alarm stands: home comes first"
        if self.machine is not self.stands:
            return "refused a move is under way"
        self._number, self._left = int(words[1]), self.asks
        length = nanometres(words[5]) if words[-2:-1] == ["for"] else 0
        self._goal = self.home_at if words[0] == "home" else self._along(words[2], length)
        self.machine = replace(self.stands, does=" ".join([words[0], *words[2:3]]) if words[2:] else "home Z")
        if words[0] == "seek":
            self.at_nm[2] = self.probe_nm
            self._goal = self._along(words[2], self.way_nm)
        if words[0] == "jog" and not length:
            self._left = 10**9
        return "taken"

    def _along(self, way: str, nm: int) -> list[int]:
        axis = "XYZ".index(way[0])
        nm = nm if way[1] == "+" else -nm
        return [at + nm * (number == axis) for number, at in enumerate(self.at_nm)]

    def ask(self) -> MoveReport:
        """What moves; a move that goes on comes nearer to its end."""
        self.asked += 1
        if self.asked == self.alarm_at:
            self.alarm("emergency_stop")
        if self.machine is self.stands:
            return self.machine
        self._left -= 1
        if self._left == 0:
            self._end(self.fails or "done")
        return self.machine

    def finish(self) -> None:
        """A move that goes on for so many questions comes to its end."""
        self._left = 1

    def alarm(self, cause: str) -> None:
        """The motors stand at once."""
        self.word = "alarm"
        self.stands = replace(self.stands, homed="", alarm=cause, on=(cause,) if cause == "emergency_stop" else (
            "limit_x_low",))
        if self.machine is not self.stands:
            self._end(f"the {cause.replace('_', ' ')} is on")
        self.machine = self.stands

    def release(self) -> None:
        """Somebody releases the emergency stop; the alarm stands."""
        self.stands = replace(self.stands, on=())
        self.machine = self.stands

    def end_alarm(self) -> None:
        """The machine's place is known again."""
        self.word = "broken" if self.drops_lines else "moved"
        self.stands = replace(self.stands, alarm="")
        self.machine = self.stands

    def stand_at(self, at_nm: list[int]) -> None:
        """Takes where the machine stands; in an alarm where all that can be is homed, and stays where it is."""
        if self.word == "alarm":
            if not self.stands.homed or any(at_nm["XYZ".index(axis)] != self.at_nm["XYZ".index(axis)]
                                            for axis in self.stands.homed):
                return
            self.end_alarm()
        else:
            self.word = "works"
        self.at_nm = at_nm

    def _end(self, how: str) -> None:
        """The move is over."""
        if self.machine.does == "stands":
            return
        if how == "done":
            self.at_nm = list(self._goal)
        if self.word == "works":
            self.word = "moved"
        if self.machine.does.startswith("home") and how == "done":
            self.stands = replace(self.stands, homed=self.switches, on=())
            if self.switches == "XYZ":
                self.end_alarm()
        if self.machine.does.startswith("seek") and how == "done":
            z = self.probe_nm
            self.stands = replace(self.stands, touched=str(Position(STEP_NM, [*self.at_nm[:2], z])))
        self.fails = ""
        self.stands = replace(self.stands, ended=self._number, how=how)
        self.machine = self.stands


class MachineLink:
    """A player of the file `out`, within the process, that carries out all that stands in it and makes moves without
    lines. It is deaf for them where `knows` isn't set, as a player without `--machine` is."""

    failed = ""

    def __init__(self) -> None:
        self.axes = Axes()
        self.carried = 0
        self.lazy = False
        self.knows = True
        self.count = 0
        self.outputs: Switch = OFF

    def ask(self) -> Report:
        """Carries out what stands in OUT, and says where that left the motors."""
        lines = Path("out").read_bytes().split(b"\n")[:-1]
        position = Position(STEP_NM, self.axes.at_nm)
        for text in [] if self.lazy or self.axes.word != "works" else lines[self.carried:]:
            line = read_line(text, 1)
            position.take(line)
            self.outputs = line if isinstance(line, Switch) else self.outputs
            self.carried += 1
        self.axes.at_nm = list(position.nm)
        self.outputs = OFF if self.axes.word == "alarm" else self.outputs
        return Report(self.carried, len(lines), False, str(position), "out", self.outputs, word=self.axes.word)

    def machine(self) -> MoveReport:
        """What moves without lines."""
        if not self.knows:
            raise NoAnswer("progress: the player doesn't answer")
        return self.axes.ask()

    def age_ms(self) -> int:
        """How old its record ever was."""
        return 20

    def is_sure(self) -> bool:
        """Whether somebody told where the motors are since it began."""
        return False

    def _take(self, verb: str, rest: str) -> tuple[int, str]:
        self.count += 1
        if not self.knows:
            raise NoAnswer("progress: the player doesn't answer")
        answer = self.axes.take(f"{verb} {self.count} {rest}".split())
        return self.count, "" if answer == "taken" else answer.removeprefix("refused ")

    def home(self, axes: str = "") -> tuple[int, str]:
        """Homes."""
        return self._take("home", axes)

    def jog(self, way: str, rate: str, length: str = "") -> tuple[int, str]:
        """Jogs."""
        return self._take("jog", f"{way} {rate}" + (f" for {length}" if length else ""))

    def keep_on(self, number: int, way: str, rate: str) -> None:
        """Keeps a jog going."""
        self.axes.take(f"jog {number} {way} {rate}".split())

    def seek(self, way: str, rate: str, within: str) -> tuple[int, str]:
        """Seeks the probe."""
        return self._take("seek", f"{way} {rate} within {within}")

    def stop(self) -> None:
        """Stops."""
        self.axes.take(["stop"])

    def release(self) -> None:
        """Nothing holds it."""

    def last(self) -> None:
        """Nothing more comes for now."""

    def anew(self) -> None:
        """Another session follows."""
        self.carried = Path("out").read_bytes().count(b"\n")
        self.axes.word, self.axes.drops_lines = "moved", False

    def at(self, place: str) -> None:
        """Takes where the machine stands."""
        self.axes.stand_at(list(map(nanometres, place.split())))

    def end(self) -> None:
        """The session is over."""


class SocketMachine:
    """The same over a socket, in a thread. It carries out no lines, and wants `wants` in hand."""

    wants = 0

    def __init__(self, out: str) -> None:
        self.axes = Axes()
        self.listener = Listener("progress")
        self.out = out
        self.others: list[bytes] = []
        self.received, self.is_held = 0, False  # so many lines are in hand
        self.over = threading.Event()
        self.thread = threading.Thread(target=self._work)
        self.thread.start()

    def _work(self) -> None:
        while not self.over.wait(0.0005):
            while asked := self.listener.next():
                self._answer(*asked)

    def _answer(self, question: bytes, sender: str | bytes | None) -> None:
        words = question.decode().split()
        if words[0] == "progress":
            at = str(Position(STEP_NM, self.axes.at_nm))
            answer = said(Report(0, self.received, False, at, self.out, is_held=self.is_held, wants=self.wants,
                                 word=self.axes.word))
        elif words[0] == "machine":
            answer = _said(self.axes.ask())
        elif words[0] in ("home", "jog", "seek", "stop"):
            answer = self.axes.take(words).encode()
        elif words[0] == "anew":
            self.axes.word = "moved"
            self.others.append(question)
            return
        elif words[0] == "at":
            self.axes.stand_at(list(map(nanometres, words[1:])))
            return
        else:
            self.others.append(question)
            return
        if answer not in (b"", b"-"):
            self.listener.answer(b" ".join(question.split()[:2]) + b" " + answer, sender)

    def close(self) -> None:
        """Ends it."""
        self.over.set()
        self.thread.join()
        self.listener.close()


def _said(machine: MoveReport) -> bytes:
    """What is answered to `machine N`."""
    return (f"does {machine.does} homed {machine.homed or 'none'} alarm {machine.alarm or 'none'} on"
            f" {','.join(machine.on) or 'none'} touched {machine.touched or 'none'} ended {machine.ended}"
            f" {machine.how}").encode()
