"""What the motors of a job make, by its uncut run: the path, and a ledger that follows each line of the pins.

It stands on docs/SESSION.md, OUTPUT.md and RECOVERY.md alone, and on no code of the tools."""
import os
import re
import subprocess
import tempfile
from dataclasses import dataclass, field
from pathlib import Path
from typing import Any

TOOL = b"tool 1 50\n"
OFF = ("0", "0", "0", "0")
Steps = tuple[int, int, int]


class Wrong(AssertionError):
    """What must not be."""


class Unjudged(Exception):
    """The judge doesn't know what has to be."""


@dataclass
class Uncut:
    """The program as it runs uncut. A move is a pulse or a wait; `outputs` are those that are on in each, `points` the
    steps before each, and at the end. `begins` has the move that comes next by a status: by what is half-done, the
    place, and the segment."""

    moves: list[bytes] = field(default_factory=list)
    outputs: list[tuple[str, ...]] = field(default_factory=list)
    points: list[Steps] = field(default_factory=lambda: [(0, 0, 0)])
    last: tuple[str, ...] = OFF
    begins: dict[tuple[str, int, int], int] = field(default_factory=dict)
    entries: int = 0

    def take(self, line: bytes) -> None:
        """Takes the next line."""
        if line[:2] == b"S ":
            self.last = switched(line)
            return
        self.moves.append(line)
        self.outputs.append(self.last)
        self.points.append(after(self.points[-1], line))

    def comes_next(self, entries: int, place: int, at: tuple[str, ...], kind: str, segment: int) -> int:
        """The move that comes next by a status; at one place that before a typed line, or behind it. Raises
        Unjudged."""
        if kind == "none" and place == 0:
            return len(self.moves) if entries >= self.entries else 0
        if kind == "none":
            behind = self.begins["behind", place, 0]
            return behind if self.points[behind] == steps_of(at) else self.begins["none", place, 0]
        if kind == "mdi":
            place = min((each for of, each, _ in self.begins if of == "mdi" and each >= place), default=place)
        if (kind, place, segment) not in self.begins:
            raise Unjudged("a line of the person's own is half-done")
        return self.begins[kind, place, segment]

    def ends_before(self, move: int) -> int:
        """Where the segment ends that begins with a move."""
        return min((each for each in self.begins.values() if each > move), default=len(self.moves))

    def is_within_one(self, begin: int, end: int) -> bool:
        """Whether no segment begins between two moves."""
        return not any(begin < each < end for each in self.begins.values())


def switched(line: bytes) -> tuple[str, ...]:
    """The outputs of an S line: spindle with its speed while it turns, mist, flood, slot."""
    spindle, speed, mist, flood, _, slot = line.decode().split()[1:]
    return (spindle + " " + speed if spindle != "0" else "0", mist, flood, slot)


def after(steps: Steps, line: bytes, sign: int = 1) -> Steps:
    """Where a line leads from there."""
    if line[:2] != b"P ":
        return steps
    x, y, z = (int(word) * sign for word in line.split()[1:4])
    return steps[0] + x, steps[1] + y, steps[2] + z


def is_reverse(line: bytes, other: bytes) -> bool:
    """Whether a pulse takes another one back."""
    return line[:1] == b"P" and after((0, 0, 0), line) == after((0, 0, 0), other, -1)


def is_same_step(line: bytes, other: bytes) -> bool:
    """Whether two pulses step alike."""
    return line[:1] == other[:1] == b"P" and line.split()[1:4] == other.split()[1:4]


def read_status(text: str) -> tuple[int, int, tuple[str, str, str], str, int]:
    """Entries, place, point, what is half done, and its segment."""
    found = re.findall(r"^status entries (\d+) place (\d+) at (\S+) (\S+) (\S+) (?:un)?known half (none|\w+ \d+) ",
                       text, re.MULTILINE)
    if not found:
        raise Wrong(f"no status: {text}")
    entries, place, x, y, z, half = found[-1]
    kind, _, segment = half.partition(" ")
    return int(entries), int(place), (x, y, z), kind, int(segment or 0)


def run_uncut(ngc: str, settings: str, text: bytes, typed: list[bytes]) -> Uncut:
    """Runs a program over a fresh device, at first whole, and then a tick at a time with a status before each; at each
    stop the next of the typed lines is done, and then it goes on."""
    with tempfile.TemporaryDirectory(prefix="ngc-uncut-", dir=memory()) as name:
        folder = Path(name)
        (folder / "settings").write_text(settings)
        begin = TOOL + b"load %d\n" % len(text) + text + b"start\n"
        goes_on = [command for line in typed for command in (b"mdi " + line, b"continue")]
        commands = [begin, *(b"tick 1000000\n%s\n" % each for each in (*goes_on, b"continue"))]
        counts = re.findall(r"^ticks (\d+)", run_ngc(ngc, folder, b"".join(commands)), re.MULTILINE)
        pieces = [b"status\ntick 1\n" * int(count) for count in counts]
        said = run_ngc(ngc, folder, begin + b"\n".join(
            piece + command for piece, command in zip(pieces, (*goes_on, b"status"))) + b"\n")
        uncut, moves = Uncut(), [0]
        for line in (folder / "out").read_bytes().splitlines():
            uncut.take(line)
            moves.append(len(uncut.moves))
        mark_segments(uncut, said, moves)
    return uncut


def run_ngc(ngc: str, folder: Path, commands: bytes) -> str:
    """What `ngc run` answers over a fresh device; its OUT is `out` of the folder."""
    (folder / "out").unlink(missing_ok=True)
    subprocess.run([ngc, "format", folder / "device"], check=True)
    words = [ngc, "run", folder / "device", folder / "settings", folder / "out"]
    return subprocess.run(words, input=commands, capture_output=True, check=True).stdout.decode()


def run_over(ngc: str, folder: Path, device: bytes) -> str:
    """The status of `ngc run` over such a device, by the settings of a folder. Raises Wrong."""
    (folder / "state.dev").write_bytes(device)
    done = subprocess.run([ngc, "run", "state.dev", "settings.toml", "state.out"], input=b"status\nquit\n", cwd=folder,
                          capture_output=True)
    if done.returncode:
        raise Wrong(f"ngc run ends with status {done.returncode} over a state of the device: {done.stdout}")
    return done.stdout.decode()


def mark_segments(uncut: Uncut, said: str, moves: list[int]) -> None:
    """Finds where segments begin: a tick hands out a line where one is open before it, and still is after it, and no
    block is done by it. `moves` has how many moves so many lines of OUT have."""
    handed, open_before, done = 0, ("none", 0, 0), False
    for line in said.splitlines():
        done = done or line.startswith("done")
        if line.startswith("status"):
            uncut.entries, place, _, kind, segment = read_status(line)
            now = (kind, place, segment)
            handed += kind != "none" and now == open_before and not done
            uncut.begins.setdefault(now if kind != "none" else ("none", place, 0), moves[handed])
            if kind == "none":
                uncut.begins["behind", place, 0] = moves[handed]
            open_before, done = now, False
    if handed != len(moves) - 1:
        raise Wrong(f"{handed} ticks hand out {len(moves) - 1} lines")


def memory() -> str | None:
    """A folder in memory."""
    return "/dev/shm" if os.access("/dev/shm", os.W_OK) else None


@dataclass
class Ledger:
    """Follows the pins. The motors stand at `steps`, with `outputs` on; `on` is the move of the uncut run that comes
    next there, None where they have left its path; the first `made` moves are made. `lost` counts those that nothing
    makes, over a pipe."""

    uncut: Uncut
    steps: Steps = (0, 0, 0)
    outputs: tuple[str, ...] = OFF
    on: int | None = 0
    made: int = 0
    again: int = 0
    back: int = 0
    lost: int = 0
    followed: int = 0  # lines of the pins
    homed: int = 0  # each is an entry of the device
    home_after: int | None = None  # how many entries there were as a home began that isn't over
    legs: "Legs | None" = None
    is_by_hand: bool = False  # OUT has lines that aren't the program's
    is_away: bool = False  # lines of the person's own lead to where the program goes on
    is_of_sink: bool = False  # it tells steps and switches alone

    @property
    def told(self) -> int:
        """How many of the outputs are known: a sink that began anew doesn't know the tool."""
        return 3 if self.is_of_sink else 4

    def counts_home(self, entries: int) -> None:
        """A home that was stored as power was lost counts too, whether it was told or not."""
        self.homed += self.home_after is not None and entries > self.home_after
        self.home_after = None

    def comes_next(self, entries: int, *rest: Any) -> int:
        """The same of the uncut run. Raises Unjudged."""
        return self.uncut.comes_next(entries - self.homed, *rest)

    def is_through(self) -> bool:
        """Whether all is made, and the outputs are those of the end."""
        if self.is_of_sink and all(each[:1] == b"D" for each in self.uncut.moves[self.made:]):
            self.made = len(self.uncut.moves)
        return self.made == len(self.uncut.moves) and self.outputs[:self.told] == self.uncut.last[:self.told]

    def switches(self, line: bytes) -> bool:
        """Whether a line is a switch; it is heeded."""
        if line == b"off":
            self.outputs = ("0", "0", "0", self.outputs[3])
        elif line[:2] == b"S ":
            self.outputs = switched(line)
        return line == b"off" or line[:2] == b"S "

    def cut(self, line: bytes) -> None:
        """A line of the program, or of a way on along it. Raises Wrong."""
        if self.switches(line):
            return
        if self.on is None or self.on >= len(self.uncut.moves):
            raise Wrong(f"{line!r} is made beside the path, at {self.steps}, after move {self.on}")
        while self.is_of_sink and self.uncut.moves[self.on][:1] == b"D" and self.on < len(self.uncut.moves) - 1:
            self.passes()
        at, self.on = self.on, self.on + 1
        if line != self.uncut.moves[at] and not (self.is_of_sink and is_same_step(line, self.uncut.moves[at])):
            raise Wrong(f"{line!r} is made at {self.steps}, where move {at} is {self.uncut.moves[at]!r}")
        if self.steps != self.uncut.points[at]:
            raise Wrong(f"move {at}, {line!r}, is made at {self.steps}, and begins at {self.uncut.points[at]}")
        if self.outputs[:self.told] != self.uncut.outputs[at][:self.told]:
            raise Wrong(f"move {at} is made with {self.outputs} and not {self.uncut.outputs[at]}")
        self.steps = after(self.steps, line)
        if at > self.made:
            raise Wrong(f"moves {self.made} to {at - 1} are never made")
        self.again += at < self.made
        self.made = max(self.made, at + 1)

    def loses(self, to: int, most: int) -> None:
        """Over a pipe what was handed out before move `to`, and not made, is never cut: at most so many moves. Raises
        Wrong."""
        if to > self.made and most:
            if to - self.made > most:
                raise Wrong(f"{to - self.made} moves from {self.made} on are never made")
            self.lost += to - self.made
            self.made = to

    def goes_free(self, line: bytes) -> None:
        """A line that isn't the program's, as of a jog."""
        if not self.switches(line):
            self.steps, self.on = after(self.steps, line), None

    def passes(self) -> None:
        """A wait, which no step of a sink tells."""
        self.made = max(self.made, self.on + (self.made == self.on))
        self.on += 1

    def takes_back(self, line: bytes) -> None:
        """A pulse of a way back. Raises Wrong."""
        if self.switches(line):
            return
        while self.on and self.uncut.moves[self.on - 1][:1] == b"D":
            self.on -= 1
        if not self.on or not is_reverse(line, self.uncut.moves[self.on - 1]):
            raise Wrong(f"{line!r} at {self.steps} doesn't go back over move {self.on}")
        self.on -= 1
        self.steps = after(self.steps, line)
        self.back += 1

    def goes(self, lines: list[bytes], to: int) -> None:
        """A way to move `to`: on or back along the path, after legs if they were asked for. Raises Wrong."""
        self.waits_again(next((line for line in lines if line[:1] in b"PD"), b""))
        for line in lines:
            if self.legs:
                self.by_leg(line)
            elif self.on is None:
                raise Wrong(f"{line!r} is made beside the path, at {self.steps}, where nobody asked for legs")
            elif self.on > to:
                self.takes_back(line)
            elif self.on < to:
                self.cut(line)
            elif not self.switches(line):
                raise Wrong(f"{line!r} after the way to move {to} is at its end")

    def waits_again(self, line: bytes) -> None:
        """A way begins where the record stands: a wait that it doesn't count yet comes once more."""
        moves = self.uncut.moves
        if line[:1] == b"D" and self.on and moves[self.on - 1] == line and moves[self.on:self.on + 1] != [line]:
            self.on -= 1

    def by_leg(self, line: bytes) -> None:
        """A pulse of legs. Raises Wrong."""
        if self.switches(line):
            return
        left = self.legs.left(self.steps)
        x, y, z = after((0, 0, 0), line)
        if left != ("up" if z > 0 else "over" if (x, y) != (0, 0) else "down") or z and (x, y) != (0, 0):
            raise Wrong(f"{line!r} at {self.steps}, where legs lead {left}")
        self.steps = after(self.steps, line)
        self.arrives()

    def arrives(self) -> None:
        """Ends legs where they lead."""
        if not self.legs.left(self.steps):
            self.on, self.legs = self.legs.move, None

    def leave(self) -> None:
        """The motors aren't taken to be on the path any more."""
        self.on, self.legs = None, None


@dataclass
class Legs:
    """Straight up to a height in steps, over, and straight down to where a move begins."""

    lift: int
    move: int
    point: Steps
    is_up: bool = False

    def left(self, steps: Steps) -> str:
        """Where they lead from there; nothing at their end."""
        self.is_up = self.is_up or steps[2] >= self.lift
        if not self.is_up:
            return "up"
        return "over" if steps[:2] != self.point[:2] else "down" if steps[2] != self.point[2] else ""


def steps_of(at: tuple[str, ...]) -> Steps:
    """A point in steps."""
    x, y, z = (round(float(each) * 1000) for each in at)
    return x, y, z
