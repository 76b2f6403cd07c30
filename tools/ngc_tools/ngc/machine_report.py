"""A machine's file as a person reads it: how far and how many lines a stop takes. `ngc pace` decides whether its table
`[motion]` is valid, and the players of the others."""
import re
import subprocess
from collections.abc import Iterator
from dataclasses import dataclass
from pathlib import Path

from ngc_tools.files import read_settings
from ngc_tools.formats.machine import MOST_LINES, BadMachine
from ngc_tools.formats.settings import AXES, Settings, read_table
from ngc_tools.ngc.settings_report import number
from ngc_tools.link.machine import Machine, read_machine
from ngc_tools.link.window import lines_for

LIKELY = range(10, 20_001)  # mm/s2
_FULL_STEP_NM = 25_000  # of a screw of 5 mm a turn and a motor of 200 steps
_MM = 1_000_000  # nm
_REFUSED = re.compile(r"refused MACHINE:? (.*)", re.DOTALL)


@dataclass(frozen=True, slots=True)
class Motion:
    """What a machine's file allows, in mm, and its `machine` in steps. A rate of 0 is what OUT asks for."""

    settings: Settings
    machine: Machine
    accel_mm_s2: tuple[int, int, int]
    rate_mm_min: tuple[int, int, int]
    start_mm_min: tuple[int, int, int]
    slack_steps: int

    @staticmethod
    def read(ngc: str, path: str | Path, settings_path: str | Path) -> "Motion":
        """Reads a machine's file. Raises BadMachine, with the key and its range, if it is refused; BadSettings if it
        isn't TOML, OSError."""
        read_settings(path)
        words = [ngc, "pace", str(settings_path), str(path), "--total"]
        done = subprocess.run(words, stdin=subprocess.DEVNULL, stdout=subprocess.PIPE, check=False)
        said = done.stdout.decode("latin-1").strip()
        if done.returncode:
            refused = _REFUSED.fullmatch(said)
            raise BadMachine(f"{path}: {refused[1] if refused else said or f'ngc pace: status {done.returncode}'}")
        settings = Settings.read(settings_path)
        machine, table = read_machine(path, settings.step_nm), read_table(path)["motion"]
        rate, start = (tuple(table.get(key, (0, 0, 0))) for key in ("rate_mm_min", "start_mm_min"))
        return Motion(settings, machine, tuple(table["accel_mm_s2"]), rate, start, table.get("slack_steps", 2))

    def reached(self, axis: int, nm_per_min: int) -> int:
        """A rate along an axis, in nm a minute, as far as the period and the motor let it come about."""
        rates = [nm_per_min, self.settings.fastest_nm_per_min(axis)]
        return min(rates + [self.rate_mm_min[axis] * _MM] * (self.rate_mm_min[axis] > 0))

    def traverse(self, axis: int) -> int:
        """The rate of a traverse along an axis, in nm a minute."""
        return self.reached(axis, self.settings.traverse_nm_per_min)

    def stop(self, axis: int, nm_per_min: int) -> str:
        """How far, and how many lines, a stop takes from a rate along an axis, in words."""
        accel = self.accel_mm_s2[axis]
        nm = nm_per_min**2 // (7200 * _MM * accel)  # v^2 / 2a, of a rate in a minute
        lines = -(-nm // self.settings.step_nm[axis])
        return (f"{number(nm_per_min, 6)} mm/min at {accel:,} mm/s2 takes {number(round(nm, -3), 6)} mm,"
                f" {lines:,} lines, to stop")

    def wanted(self, axis: int, nm_per_min: int) -> int:
        """How many lines a player wants in hand for a rate along an axis, at most 8,000."""
        step, period_us = self.settings.step_nm[axis], self.settings.period_us
        lasts_us = max(period_us, -(-60_000_000 * step // nm_per_min))
        x, y, z = (1 if other == axis else 0 for other in range(3))
        return lines_for(self.machine.limits, lasts_us, (x, y, z))

    def is_short(self, axis: int, nm_per_min: int) -> bool:
        """Whether a rate along an axis wants more lines in hand than the player's window has."""
        window = self.machine.window_lines
        return self.wanted(axis, nm_per_min) > window if window else self.wanted(axis, nm_per_min) == MOST_LINES

    @property
    def beyond(self) -> str:
        """What is said of a rate that is short of lines."""
        most = self.machine.window_lines or MOST_LINES
        return (f"That wants more lines in hand than the {most:,} of the player's window,"
                " so it never gets so fast")


def report(motion: Motion) -> list[str]:
    """The machine's file in mm, a line each, and what a stop from a traverse takes."""
    step_nm = motion.settings.step_nm
    lines = motion.machine.window_lines
    said = [f"accel     {_axes([f'{accel:,}' for accel in motion.accel_mm_s2])} mm/s2",
            f"rate      {_axes([f'{rate:,}' if rate else 'any' for rate in motion.rate_mm_min])} mm/min at most",
            f"start     {_axes([f'{start:,}' for start in motion.start_mm_min])} mm/min at once",
            f"slack     {_axes([number(motion.slack_steps * step, 6) for step in step_nm])} mm",
            f"window    {f'{lines:,} lines' if lines else f'as many lines as are needed, at most {MOST_LINES:,}'}",
            f"wait      {motion.machine.spindle_s:,} s for the spindle"]
    if any(backlash := motion.machine.backlash):
        lengths = [number(steps * step, 6) for steps, step in zip(backlash, step_nm, strict=True)]
        said.append(f"backlash  {_axes(lengths)} mm, in no time with ramps")
    stops: dict[str, list[str]] = {}
    for axis, letter in enumerate(AXES):
        rate = motion.traverse(axis)
        text = f"a traverse of {motion.stop(axis, rate)}; {motion.wanted(axis, rate):,} are wanted in hand"
        stops.setdefault(text, []).append(letter)
    return said + [f"{' '.join(axes):10}{text}" for text, axes in stops.items()]


def warnings(motion: Motion) -> list[str]:
    """What is valid in a machine's file and may be meant otherwise, each once, with the axes of which it is said."""
    found: dict[str, list[str]] = {}
    for axis, letter in enumerate(AXES):
        for text in _warnings_of(motion, axis):
            found.setdefault(text, []).append(letter)
    return [text.format(" ".join(axes)) for text, axes in found.items()]


def _warnings_of(motion: Motion, axis: int) -> Iterator[str]:
    """The warnings of an axis, with a place for its letter."""
    accel, rate, traverse = motion.accel_mm_s2[axis], motion.rate_mm_min[axis], motion.traverse(axis)
    if accel not in LIKELY:
        yield (f"an acceleration of {accel:,} mm/s2 ({{}}) is unlikely: machines have {LIKELY[0]} to {LIKELY[-1]:,},"
               " and 1 m/s2 is 1,000 mm/s2")
    asked = min(motion.settings.traverse_nm_per_min, motion.settings.fastest_nm_per_min(axis))
    if traverse < asked:
        yield f"a traverse of {number(asked, 6)} mm/min is slowed down along {{}}: rate_mm_min is {rate:,} there"
    if motion.is_short(axis, traverse):
        yield f"a traverse along {{}} of {motion.stop(axis, traverse)}. {motion.beyond}"
    slack_nm = motion.slack_steps * motion.settings.step_nm[axis]
    if 2 * slack_nm > _FULL_STEP_NM:
        yield (f"slack_steps is {number(slack_nm, 6)} mm ({{}}), more than half a full step of a screw of 5 mm a turn,"
               f" which is {number(_FULL_STEP_NM // 2, 6)}: a motor that is so far off its pulses may lose steps")


def _axes(each: list[str]) -> str:
    return "   ".join(f"{axis} {text}" for axis, text in zip(AXES, each, strict=True))
