"""What each line of a program prints: `ngc dry` runs it once more, with comments between its lines."""
from collections.abc import Callable, Iterator, Mapping
from dataclasses import dataclass

from ngc_tools.formats.canonical import MOTIONS, Command, read_commands
from ngc_tools.formats.lines import percent_lines
from ngc_tools.formats.in_force import InForce
from ngc_tools.job.moves import Point, arc_of, arc_points
from ngc_tools.job.refused import Lines

Run = Callable[[bytes], bytes]
"""Gives a text to `ngc dry`, and returns what it prints."""

Printed = dict[int, list[Command]]
"""What each line of a program printed, by its number; comments aside. 0 is what stands before the program."""


@dataclass(frozen=True, slots=True)
class Act:
    """A command: the line that prints it, and where the machine stands and what is in force before it."""

    line: int
    command: Command
    at: Point
    in_force: InForce

    @property
    def is_motion(self) -> bool:
        """Whether it moves the machine."""
        return self.command.name in MOTIONS

    @property
    def is_cut(self) -> bool:
        """Whether it moves at a feed."""
        return self.is_motion and self.command.name != "STRAIGHT_TRAVERSE"

    @property
    def tip_z(self) -> int:
        """The lowest Z of a motion, of the tool's tip, in machine nm."""
        points: tuple[Point, ...] = (self.at, self.command.point)
        if self.command.name == "ARC_FEED" and self.in_force.plane != "XY":
            points = arc_points(self.at, self.command.point, arc_of(self.command, self.in_force.plane))
        return min(z for _, _, z in points) - self.in_force.length

    @property
    def goes_sideways(self) -> bool:
        """Whether it moves X or Y, an arc in any case."""
        return self.command.name == "ARC_FEED" or self.at[:2] != self.command.point[:2]

    @property
    def goes_in(self) -> bool:
        """Whether it may remove something: it goes sideways or down."""
        return self.goes_sideways or self.command.point[2] < self.at[2]


def acts_of(printed: Printed, begun: InForce, at: Point) -> Iterator[Act]:
    """The commands of all lines in turn; what is in force at first, and where the machine stands then."""
    for number in sorted(printed):
        for command in printed[number]:
            yield Act(number, command, at, begun)
            begun = begun.after(command)
            at = command.point if command.name in MOTIONS else at


def by_line(lines: Lines, run: Run, head: bytes = b"", after: Mapping[int, bytes] | None = None) -> Printed:
    """What each line prints. `head` are lines that stand before the program, after its first percent sign; `after` are
    lines that are put after others: what these print stands at the line that they follow, in the place of its own."""
    whole = b"".join(lines.all)
    mark = b"line"
    while b"(" + mark in whole:
        mark += b"-"
    first = next((number for number, line in enumerate(lines.all) if line.strip()), len(lines.all))
    if percent_lines(lines.all):
        first += 1
    begin = [head, b"(%s 0)\n" % mark] if first < len(lines.all) else []
    text = [*_ended(lines.all[:first]), *begin]
    for number, line in enumerate(lines.all[first:], first + 1):
        text.append(line)
        if line.endswith(b"\n"):
            text.append(b"(%s %d)\n" % (mark, number))
        if after and number in after:
            text += [after[number], b"(%s %d)\n" % (mark, number)]
    return _parted(read_commands(run(b"".join(text))), mark.decode())


def _ended(lines: list[bytes]) -> list[bytes]:
    """The lines, the last one with a newline."""
    return [line if line.endswith(b"\n") else line + b"\n" for line in lines]


def _parted(commands: list[Command], mark: str) -> Printed:
    """Gives each command to the line that it stands before the mark of; a refusal is none."""
    printed: Printed = {}
    since: list[Command] = []
    last = 0
    for command in commands:
        if command.name == "COMMENT" and str(command.args[0]).startswith(mark + " "):
            last = int(str(command.args[0]).removeprefix(mark + " "))
            printed[last] = since
            since = []
        elif command.name not in ("COMMENT", "MESSAGE", "REFUSED"):
            since.append(command)
    printed[last + 1] = since
    return printed
