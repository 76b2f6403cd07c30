"""Exact times of moves: `ngc run` hands them out over a device of its own, and the periods of OUT are added up; with
ramps `ngc pace` times what it hands out."""
import subprocess
from collections.abc import Callable, Iterator
from contextlib import contextmanager
from dataclasses import replace
from pathlib import Path

from ngc_tools.ngc.console import Console, Ended
from ngc_tools.formats.device import MOST_PROGRAM
from ngc_tools.job.moves import PLANES, TRAVERSE, Move, Point, Step
from ngc_tools.formats.out import Pulse, read_line
from ngc_tools.formats.position import millimetres
from ngc_tools.formats.settings import Settings
from ngc_tools.ngc.pacing import NotTimed, Pacing
from ngc_tools.scratch import Scratch

MOST_PULSES = 3_000_000  # about, of one part: so OUT stays short
_AT_ONCE = 200_000  # ticks, after which what was handed out is taken away
_HEAD = "G17 G21 G40 G49 G54 G80 G90 G94\n"
_MARK = "G4 P0\n"  # a line `D 0` of OUT: a move ends here
_SWITCH = "M5\n"  # a line `S ..` of OUT: everything stands here
_OPEN = "refused X3 NoProgramEnd"  # a text ends before M2


def timed(ngc: str, settings: str | Path, steps: list[Step]) -> list[Step]:
    """The same steps, each move with the sum of its periods under these settings.

    The moves are written as a program in machine millimetres, which `ngc run` runs over a new device in a folder that
    is removed: `ngc` decides the pulses and their periods. Raises NotTimed, OSError, BadSettings."""
    moves = [step for step in steps if isinstance(step, Move)]
    times: list[int] = []
    with _session(ngc, settings, moves) as session:
        for program in _programs(moves, Settings.read(settings)):
            *marked, _end = (b"\n" + b"".join(session.run(program))).split(b"\nD 0")
            times += map(_time, marked)
    if len(times) != len(moves):
        raise NotTimed(f"{len(times)} moves of {len(moves)} were handed out")
    each = iter(times)
    return [replace(step, us=next(each)) if isinstance(step, Move) else step for step in steps]


def with_ramps(ngc: str, settings: str | Path, machine: str | Path, steps: list[Step],
               told: Callable[[Pacing], None]) -> Pacing:
    """The time of the steps with ramps and without, by what `ngc run` hands out of them, in order and without a mark.
    `told` is called again and again as it goes on. Raises NotTimed, OSError, BadSettings."""
    moves = [step for step in steps if isinstance(step, Move)]
    with _session(ngc, settings, moves) as session, Pacing(ngc, settings, machine) as pacing:
        for program in _open_programs(steps):
            for text in session.run(program, _AT_ONCE):
                pacing.take(text)
                told(pacing)
        pacing.end()
    return pacing


def _open_programs(steps: list[Step]) -> Iterator[str]:
    """The steps as programs without an end, so that nothing stands still between one and the next."""
    lines, size = [_HEAD], len(_HEAD)
    for step in steps:
        line = (_SWITCH if step.rests else "") + (_line(step) if isinstance(step, Move) else
                                                  f"G4 P{millimetres(step.us)}\n")
        if size + len(line) > MOST_PROGRAM:
            yield "".join(lines)
            lines, size = [_HEAD], len(_HEAD)
        lines.append(line)
        size += len(line)
    yield "".join(lines)


def _programs(moves: list[Move], settings: Settings) -> Iterator[str]:
    """The moves as programs that `ngc run` takes, each move with a mark after it."""
    lines, size, pulses = [_HEAD], len(_HEAD), 0
    for move in moves:
        line = _line(move) + _MARK
        span = max(sum(abs(q[axis] - p[axis]) for p, q in zip(move.points, move.points[1:])) // settings.step_nm[axis]
                   for axis in range(3))
        if len(lines) > 1 and (size + len(line) > MOST_PROGRAM - 10 or pulses + span > MOST_PULSES):
            yield "".join(lines) + "M2\n"
            lines, size, pulses = [_HEAD], len(_HEAD), 0
        lines.append(line)
        size, pulses = size + len(line), pulses + span
    yield "".join(lines) + "M2\n"


def _line(move: Move) -> str:
    """A move as lines of a program, in G94 before and after."""
    start, end = move.points[0], move.points[-1]
    words = "".join(f" {axis}{millimetres(nm)}" for axis, nm in zip("XYZ", end, strict=True))
    if move.kind == TRAVERSE:
        return f"G0{words}\n"
    code, head = "G1", ""
    if move.arc:
        a, b, _ = PLANES[move.arc.plane]
        code = "G3" if move.arc.counter_clockwise else "G2"
        head = {"XY": "G17", "XZ": "G18", "YZ": "G19"}[move.arc.plane] + " "
        words += f" {'IJK'[a]}{millimetres(move.arc.centre[0] - start[a])}"
        words += f" {'IJK'[b]}{millimetres(move.arc.centre[1] - start[b])}"
    if move.inverse:
        return f"G93 {head}{code}{words} F{millimetres(move.inverse)}\nG94\n"
    return f"{head}{code}{words} F{millimetres(move.feed)}\n"


class _Session:
    """A running `ngc run`, of whose OUT each piece is taken away."""

    def __init__(self, console: Console, out: Path) -> None:
        self._console, self._out = console, out

    def run(self, program: str, at_once: int = 1_000_000) -> Iterator[bytes]:
        """Runs a program to its end, or one without an end up to its last line, and gives what is handed out by each
        count of ticks."""
        replies = [self._console.load(program.encode()), *self._console.ask("start")]
        while not any(reply.startswith(("idle", "refused", "stopped")) for reply in replies[-3:]):
            replies = self._console.ask(f"tick {at_once}")
            yield self._taken()
        refused = [reply for reply in replies if reply.startswith("refused")]
        if refused != [_OPEN] and (refused or "idle" not in replies):
            place = self._console.status().place
            line = program.encode()[place:].partition(b"\n")[0].decode()
            raise NotTimed(f"ngc run: {' '.join(refused or replies)}: {line}")

    def _taken(self) -> bytes:
        text = self._out.read_bytes()
        with open(self._out, "r+b") as file:
            file.truncate()
        return text


@contextmanager
def _session(ngc: str, settings: str | Path, moves: list[Move]) -> Iterator[_Session]:
    """A session over a new device in a folder that is removed; the machine stands where the moves begin."""
    with Scratch("ngc-times-") as name:
        folder = Path(name)
        done = subprocess.run([ngc, "format", str(folder / "device")], check=False, capture_output=True)
        if done.returncode:
            raise NotTimed(f"{ngc} format: status {done.returncode}")
        console = Console(ngc, folder / "device", settings, folder / "out")
        begin: Point = moves[0].points[0] if moves else (0, 0, 0)
        try:
            if any(begin):
                console.ask("reference " + " ".join(map(millimetres, begin)))
            yield _Session(console, folder / "out")
        except Ended as ended:
            raise NotTimed(str(ended)) from None
        finally:
            console.kill()


def _time(lines: bytes) -> int:
    """The sum of the periods of one move's lines."""
    whole = [line for line in lines.split(b"\n") if line]
    each = {line: read_line(line, 1) for line in set(whole)}
    if any(not isinstance(line, Pulse) for line in each.values()):
        raise NotTimed("OUT has other lines than pulses within a move")
    return sum(each[line].lasts_us for line in whole)
