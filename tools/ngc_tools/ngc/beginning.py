"""From where a dry run begins: the fresh state, a device, and lines that are put before the program.

Of a device `ngc dry --from` knows what a program begins with that is loaded now (docs/SESSION.md). Lines are put before
a program where no device holds the state that is asked about: a work origin that was told; what a device would have
after lines of G-code; a program of which nothing tells how it was begun."""
import errno
from collections.abc import Iterable, Iterator
from dataclasses import dataclass, field, replace
from io import RawIOBase
from pathlib import Path

from ngc_tools.failure import Failure
from ngc_tools.files import naming, opened
from ngc_tools.formats.canonical import read_commands
from ngc_tools.formats.device import LARGE_SIZE, Device, Held, NoDevice, State
from ngc_tools.formats.lines import percent_lines, program_lines
from ngc_tools.formats.position import millimetres
from ngc_tools.formats.settings import DEFAULT, Settings
from ngc_tools.formats.in_force import InForce, in_force_on
from ngc_tools.ngc.run import Refusal, dry, refusal
from ngc_tools.scratch import scratch_file

Point = tuple[int, int, int]

_READINGS = 100
_MARK = "the program begins"
_MARKED = f"COMMENT({_MARK})\n".encode()
_NOT_TAKEN = {"entries": 0, "place": 0, "half": 0, "opened": 0, "half_known": 0, "half_bytes": 0, "segment": 0,
              "half_point_nm": (0, 0, 0), "half_text": b""}
"""What of a state a program that is loaded doesn't begin with."""
_KEPT = range(5161, 5400)
"""Among these are all parameters that `load` keeps."""


class CannotSetUp(Failure):
    """A dry run can't begin there; the text says with what it can't, and why."""


@dataclass(frozen=True, slots=True)
class Beginning:
    """Where a dry run begins; without anything given in the fresh state, as `ngc dry` does.

    `on_device` is what is in force on the device, `point_nm` where the machine stands, `g92_nm` the G92 offset in
    force, `modes` are the G codes of unit, distance, plane and the end of cycles, `tools_nm` the lengths of slots 1, 2
    .., None for those of the settings. `is_large` says that there is room for a long program. `notes` say what keeps a
    program from being started there. `head` are the lines that are put before the program, and `head_what` is what they
    set up, for people. `image` is the device, and `taken` what a program takes of it, by which two beginnings are
    compared."""

    on_device: InForce = InForce()
    point_nm: Point = (0, 0, 0)
    g92_nm: Point = (0, 0, 0)
    modes: tuple[int, int, int, int] = (21, 90, 17, 98)
    tools_nm: tuple[int, ...] | None = None
    is_large: bool = False
    notes: tuple[str, ...] = ()
    head: tuple[str, ...] = ()
    head_what: str = ""
    taken: tuple[State, tuple[int, ...]] | None = field(default=None, repr=False)
    image: bytes | None = field(default=None, repr=False, compare=False)

    @staticmethod
    def of_origin(x_nm: int, y_nm: int, z_nm: int) -> "Beginning":
        """At machine 0, with the work zero of G54 at this machine point. No device has it: it was told."""
        x, y, z = map(millimetres, (x_nm, y_nm, z_nm))
        line = f"#5221={x} #5222={y} #5223={z} G54"  # an assignment alone wouldn't act until the system is taken
        return Beginning().after([line], f"G54 at X{x} Y{y} Z{z}") if x_nm or y_nm or z_nm else Beginning()

    @staticmethod
    def of_device(path: str | Path) -> "Beginning":
        """Where a program begins that is loaded to the device at this path now, whether a session holds it or not.

        It is read once: a session may write to it meanwhile, and all dry runs from here have to begin alike. Raises
        NoDevice if it is no device, or is damaged; OSError."""
        try:
            return Beginning.of(Device(_image(path)))
        except NoDevice as error:
            raise NoDevice(f"{path}: not a device: {error}") from None

    @staticmethod
    def of(device: Device) -> "Beginning":
        """The same of a device that was read. Raises NoDevice if it is damaged."""
        if device.damage:
            raise NoDevice(f"damaged (J3): {device.damage[0]}")
        state = device.state
        return Beginning(in_force_on(state), state.point_nm, state.g92_nm,
                         (state.unit, state.distance, state.plane, state.retract),
                         tuple(device.tools_nm) if device.format > 1 else None, device.is_large,
                         tuple(_notes_of(state)),
                         taken=(replace(state, **_NOT_TAKEN), tuple(device.parameters[index] for index in _KEPT)),
                         image=device.image)

    def after(self, lines: Iterable[str], what: str) -> "Beginning":
        """The same after these lines, which mustn't move the machine; `what` they set up, for people."""
        return replace(self, head=tuple(lines), head_what=what)

    def notes_under(self, settings: Settings | None) -> tuple[str, ...]:
        """The notes, with what these settings say of where the machine stands; None for the default ones."""
        known = settings or DEFAULT
        if all(low <= nm <= high for low, nm, high in zip(known.low_nm, self.point_nm, known.high_nm, strict=True)):
            return self.notes
        return (*self.notes, f"the machine stands at {_words(self.point_nm)}, outside the travel of the settings. Are"
                " they those of this machine?")

    def dry(self, ngc: str | Path, text: bytes, settings: str | Path | None = None,
            block_delete: bool = False) -> tuple[int, bytes]:
        """The exit status and canonical text of a program's dry run from here. What the head prints is cut off, and a
        refused line has its number in the program.

        Raises CannotSetUp if `ngc` refuses the head, OSError."""
        if not self.head:
            return self._whole(ngc, text, settings, block_delete)
        status, _, said = self._parted(ngc, text, settings, block_delete)
        return status, said

    def in_force(self, ngc: str | Path, settings: str | Path | None = None) -> InForce:
        """What is in force before the program's first line. Raises CannotSetUp, OSError, BadText."""
        found = self.on_device
        if self.head:
            for command in read_commands(self._parted(ngc, b"M2\n", settings, False)[1]):
                found = found.after(command)
        return found

    def _whole(self, ngc: str | Path, text: bytes, settings: str | Path | None,
               block_delete: bool) -> tuple[int, bytes]:
        """A dry run of a text, with the head in it, from the device or from the fresh state."""
        if self.image is None:
            return dry(ngc, text, settings, block_delete)
        with scratch_file(self.image, "device", ".dev") as path:
            return dry(ngc, text, settings, block_delete, path)

    def _parted(self, ngc: str | Path, text: bytes, settings: str | Path | None,
                block_delete: bool) -> tuple[int, bytes, bytes]:
        """The exit status, what the head prints, and what the program does. Raises CannotSetUp."""
        lines = program_lines(text)
        first = percent_lines(lines)
        above = b"".join(lines[:first])
        above += b"\n" if above and not above.endswith(b"\n") else b""
        head = "".join(f"{line}\n" for line in self.head) + f"({_MARK})\n"
        status, said = self._whole(ngc, above + head.encode() + b"".join(lines[first:]), settings, block_delete)
        before, marked, after = said.partition(_MARKED)
        refused = refusal(status, said) if status == 1 else None
        if refused is None or refused.line <= first:
            return status, before if marked else b"", after if marked else said
        if not marked:
            raise CannotSetUp(f"the dry run can't begin with {self.head_what}: {refused.code} {refused.name}. Are the"
                              " settings those of this machine?")
        return status, before, _ended(after, replace(refused, line=refused.line - len(self.head) - 1))


def _words(point_nm: Point) -> str:
    return " ".join(f"{letter}{millimetres(nm)}" for letter, nm in zip("XYZ", point_nm, strict=True))


def _notes_of(state: State) -> Iterator[str]:
    """What keeps a program from being started on a device."""
    if state.half:
        yield ("a block of the device is half-done, and no program can be started before `resume` or `abandon`; the dry"
               " run begins with what was in force before that block")
    elif not state.point_known:
        yield ("it isn't known where the machine stands, and no program can be started before `reference X Y Z`; the"
               f" dry run begins at {_words(state.point_nm)}")


def _ended(text: bytes, refused: Refusal) -> bytes:
    """Canonical text with this refusal in the place of its last line."""
    before, newline, _ = text.rstrip(b"\n").rpartition(b"\n")
    return before + newline + f"REFUSED line {refused.line}: {refused.code} {refused.name}\n".encode()


def _image(path: str | Path) -> bytes:
    """The sectors of a device as they stood at one moment: what two readings in a row give. A session may write
    meanwhile, and never leaves the same bytes twice, since epochs and records count up. Raises Held if it writes each
    time, OSError."""
    with naming(path), opened(path, may_be_disk=True) as file:
        image = _sectors(file.raw)
        for _ in range(_READINGS):
            last, image = image, _sectors(file.raw)
            if image == last:
                return image
    raise Held(errno.EBUSY, "a session writes to the device all the time: ask again once it stands still", str(path))


def _sectors(file: RawIOBase) -> bytes:
    file.seek(0)
    image = b""
    while len(image) < LARGE_SIZE and (piece := file.read(LARGE_SIZE - len(image))):
        image += piece
    return image
