"""Whether the parts of a program do what the whole does."""
import hashlib
import re
from collections.abc import Iterable, Iterator
from dataclasses import dataclass, field, replace
from pathlib import Path

from ngc_tools.formats.canonical import MOTIONS, Command
from ngc_tools.formats.device import LARGE_SIZE, MOST_PROGRAM, Device
from ngc_tools.formats.in_force import InForce
from ngc_tools.job.split import CannotPart, Part, Place
from ngc_tools.ngc.copies import CommandRefused, Copy
from ngc_tools.ngc.worlds import LineRefused, World

COMPARED = (*MOTIONS, "DWELL", "PROGRAM_STOP", "OPTIONAL_PROGRAM_STOP", "PALLET_SHUTTLE", "MESSAGE", "COMMENT")
_SWITCHES = re.compile(rb"(S [^\n]*\n)")


def compare_dry(whole: bytes, parts: list[Part], worlds: tuple[World, ...]) -> None:
    """Does dry runs of the whole and of the parts in each world, the parts from other modes than they name too.

    Raises CannotPart if what they do differs, LineRefused if a line of the whole is refused."""
    for world in worlds:
        wanted = list(_acts(*world.dry(whole), None))
        for in_other_modes in (False, True):
            found = [act for part in parts for act in _part_acts(world, part, in_other_modes)]
            if found != wanted:
                place = next((n for n, (a, b) in enumerate(zip(wanted, found)) if a != b),
                             min(len(wanted), len(found)))
                what = wanted[place][0].name if place < len(wanted) else "the end"
                raise CannotPart(f"the parts don't do what the whole does, from its motion or stop {place + 1} on,"
                                 f" {what}: does it set parameters, origins or G92?")


def _part_acts(world: World, part: Part, in_other_modes: bool) -> list[tuple[Command, InForce]]:
    try:
        return list(_acts(*world.dry(part.text, in_other_modes), part.place))
    except LineRefused as error:
        raise CannotPart(f"ngc refuses line {error.refused.line} of a part: {error}") from None


def _acts(head: Iterable[Command], commands: Iterable[Command],
          place: Place | None) -> Iterator[tuple[Command, InForce]]:
    """What the commands do, each with what is in force then and matters to it. Of a part that begins at a place its
    head is passed over, which has to end there. Raises CannotPart."""
    in_force, at = InForce(), (0, 0, 0)
    for command in head:
        in_force = in_force.after(command)
    in_head = place is not None
    for command in commands:
        before, in_force = in_force, in_force.after(command)
        if in_head:
            at = command.point if command.name in MOTIONS else at
            if command.name == "COMMENT":
                in_head = False
                now = replace(in_force.without_offsets(), inverse=0)
                if in_force.to_program(at) != place.at or now != replace(place.in_force, inverse=0):
                    raise CannotPart("a part's head doesn't bring about what is in force before line"
                                     f" {place.line + 1}")
        elif command.name in COMPARED:
            yield command, matters(command, before)


def matters(command: Command, in_force: InForce) -> InForce:
    """What of that matters to a command: a dwell or a message has no plane, a traverse no feed."""
    if command.name not in MOTIONS:
        return replace(in_force.without_offsets(), plane="", unit="", feed=0, inverse=0)
    if command.name == "STRAIGHT_TRAVERSE":
        return replace(in_force, plane="", unit="", feed=0, inverse=0)
    return replace(in_force, unit="", plane=in_force.plane if command.name == "ARC_FEED" else "")


@dataclass(slots=True)
class Made:
    """The pulses and waits of some lines of OUT, each with the line of the `outputs` in force: how many, and a digest
    of all."""

    outputs: bytes
    count: int = 0
    digest: "hashlib._Hash" = field(default_factory=hashlib.sha256)
    _told: bytes = b""

    def __post_init__(self) -> None:
        """The outputs at the start are told only if they change."""
        self._told = self.outputs

    def take(self, text: bytes, _: int) -> None:
        """Takes whole lines."""
        for piece in filter(None, _SWITCHES.split(text)):
            if piece.startswith(b"S"):
                self.outputs = piece
                continue
            if self.outputs != self._told:
                self.digest.update(self.outputs)
                self._told = self.outputs
            self.digest.update(piece)
            self.count += piece.count(b"\n")


def compare_run(ngc: str, settings: str | Path, image: bytes, whole: bytes, parts: list[Part]) -> int:
    """Has `ngc run` do the whole and the parts, each over a copy of a device; returns the number of pulses and waits.

    Raises CannotPart if they differ, or if it refuses a command or a line."""
    if len(whole) > MOST_PROGRAM:
        image = image.ljust(LARGE_SIZE, b"\0")
    wanted = _made(ngc, settings, image, [whole], "the whole")
    found = _made(ngc, settings, image, [part.text for part in parts], "a part")
    if (wanted.count, wanted.digest.digest()) != (found.count, found.digest.digest()):
        raise CannotPart(f"over the device the parts make other pulses than the whole: {found.count:,} and"
                         f" {wanted.count:,}. Does it leave its work offset to the device, or is a G92 in force there?"
                         " M2 at the end of a part drops both")
    return wanted.count


def _made(ngc: str, settings: str | Path, image: bytes, programs: list[bytes], what: str) -> Made:
    """What `ngc run` hands out for programs, one after the other. Raises CannotPart, Ended, OSError, BadSettings."""
    made = Made(f"{Device(image).state.outputs}\n".encode())
    try:
        with Copy(ngc, settings, image, []) as copy:
            copy.tally = made
            for program in programs:
                _expect(copy, "load", copy.console.load(program))
                _expect(copy, "start", copy.console.ask("start")[0])
                copy.idle = False
                copy.go(10**18)
    except CommandRefused as error:
        raise CannotPart(f"over a copy of the device ngc refuses {what}: {error}") from None
    return made


def _expect(copy: Copy, asked: str, reply: str) -> None:
    if reply.startswith("refused"):
        raise CommandRefused(asked, reply, copy.console.status())
