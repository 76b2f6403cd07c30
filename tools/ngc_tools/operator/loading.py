"""What is said of a program before it is stored: which text it is, and what a dry run from the device says of it."""
from dataclasses import dataclass, replace

from ngc_tools.formats.canonical import BadText
from ngc_tools.formats.device import MOST_LARGE_PROGRAM, MOST_PROGRAM, Device, NoDevice
from ngc_tools.formats.lines import Program
from ngc_tools.formats.program_text import NotText, ProgramText
from ngc_tools.formats.settings import Settings
from ngc_tools.job.figures import Box, duration
from ngc_tools.job.figures import millimetres as rounded
from ngc_tools.ngc.beginning import Beginning
from ngc_tools.ngc.run import CannotRun
from ngc_tools.operator.face import REFUSED, WARNING
from ngc_tools.operator.ramp_times import RampTimes
from ngc_tools.operator.sentences import explained
from ngc_tools.operator.session import Session
from ngc_tools.operator.timeline import Timeline, timeline


_TOO_LONG = "refused J5 ProgramTooLong"


@dataclass(frozen=True, slots=True)
class _Tried:
    """A dry run: of which text, from where, with block delete or without, and what it says; text where it can't be."""

    text: bytes
    beginning: Beginning
    delete: bool
    found: Timeline | str


class Loading:
    """Tries programs by a dry run from the device. `times_command` is a program that works out their times with ramps,
    as RampTimes takes it; without one times are those of a dry run."""

    def __init__(self, session: Session) -> None:
        self.session = session
        self.times_command: list[str] = []
        self._tried: _Tried | None = None
        self._told: tuple[bytes, str] = (b"", "")  # which tool length counts in which text, as it was said without line

    def close(self) -> None:
        """Ends what is still worked out."""
        if self._tried and isinstance(self._tried.found, Timeline) and self._tried.found.ramps:
            self._tried.found.ramps.close()

    def agreed(self, name: str, text: bytes) -> bool:
        """Whether a program is to be stored: says what a dry run says of it, and asks where a line would be refused."""
        face, device = self.session.face, self.session.stored()
        if isinstance(device, Device) and len(text) > (MOST_LARGE_PROGRAM if device.is_large else MOST_PROGRAM):
            face.say(f"{name}, {len(text):,} bytes: {explained(_TOO_LONG)}. ngc-split parts it", REFUSED)
            return False  # as `ngc` does, which reads all of it first
        if why := unreadable(name, text):
            face.say(f"{why}. Nothing is stored", REFUSED)
            return False
        found = self._try(text)
        if not isinstance(found, Timeline):
            face.say(f"it can't be tried by a dry run: {found}", WARNING)
            return self._wanted()
        for note in found.notes:
            face.say(note, WARNING)
        if found.unset:
            face.say(found.unset, WARNING)
        self._told = text, _without_line(found.unset)
        said = figures(found, self.session.settings)
        face.say("\n    ".join(["by a dry run from here, in machine millimetres:", *said]))
        if found.refused is None:
            return True
        face.say(f"it would stop at {refusal_lines(text, found)}\n  ngc-check lists each such line", REFUSED)
        return self._wanted()

    def _wanted(self) -> bool:
        """Whether a person wants it stored all the same."""
        wanted = self.session.agrees("store it all the same? yes stores it: ")
        if not wanted:
            self.session.face.say("nothing is stored")
        return wanted

    def begins_as_told(self, found: Timeline | None) -> bool:
        """Whether the tool length that counts, in a program that sets none, is the one that was told as it was loaded,
        or a person wants to begin with this one."""
        if found is None or not found.unset:
            return True
        told = (self.session.program.text, _without_line(found.unset))
        if told == self._told:
            return True
        self.session.face.say(found.unset, WARNING)
        if not self.session.agrees("begin all the same? yes begins: "):
            return False
        self._told = told
        return True

    def timeline(self, begins: bool) -> Timeline | None:
        """What the stored program does line by line, as it would from here; None if that can't be said. Where it
        doesn't begin now, what was found before is still good."""
        text, last = self.session.program.text, self._tried
        if last is not None and last.text == text and not begins:
            return last.found if isinstance(last.found, Timeline) else None
        found = self._try(text) if text else None
        return found if isinstance(found, Timeline) else None

    def _try(self, text: bytes) -> Timeline | str:
        """A dry run that begins as the device stands; it isn't made anew where nothing changed."""
        session, device = self.session, self.session.stored()
        if not isinstance(device, Device):
            return "the device can't be read meanwhile"
        try:
            beginning = Beginning.of(device)
        except NoDevice as error:
            return str(error)
        last = self._tried
        if last is None or (last.text, last.beginning, last.delete) != (text, beginning, session.delete):
            try:
                found: Timeline | str = timeline(session.console, device, text, session.settings, session.delete)
                found = self._with_ramps(found, text, device)
            except (NoDevice, BadText, CannotRun, OSError) as error:
                found = str(error)
            self.close()
            last = self._tried = _Tried(text, beginning, session.delete, found)
        return last.found

    def _with_ramps(self, found: Timeline, text: bytes, device: Device) -> Timeline:
        """The same, with its times with ramps to come, where they are wanted and it runs to its end. Raises OSError."""
        if not self.times_command or found.refused:
            return found
        return replace(found, ramps=RampTimes(self.times_command, text, device.image, self.session.delete))


def _without_line(unset: str) -> str:
    """Which tool length counts, whichever line moves Z first: that is another one where Z is there already."""
    return unset.partition(": ")[2]


def unreadable(name: str, text: bytes) -> str:
    """Why `ngc` can read no line of a text as it is meant, and what to do; nothing if it can."""
    try:
        why = ProgramText.read(text).why_unreadable(text)
    except NotText as error:
        return f"{name}: {error}"
    return f"{name}: {why}: ngc-adapt {name} --output NEW.ngc writes it as ngc reads it" if why else ""


def refusal_lines(text: bytes, found: Timeline) -> str:
    """The line at which `ngc` would stop, with its refusal and what to write; nothing if there is none."""
    if found.refused is None:
        return ""
    refused, lines = found.refused, text.split(b"\n")
    line = Program(lines[refused.line - 1] if refused.line <= len(lines) else b"").line(0)
    said = explained(f"refused {refused.code} {refused.name}", found.breach)
    return Program(text).named(refused.line) + (f": {line}" if line else "") + f"\n  {said}"


def figures(found: Timeline, settings: Settings) -> list[str]:
    """Where the program goes and about how long it takes, a line each."""
    said = [f"about {duration(found.total_us)}"]
    if found.extents:
        said = [f"moves   {_box(found.extents)}", f"travel  {_box((settings.low_nm, settings.high_nm))}", *said]
    return said


def _box(extents: Box) -> str:
    """The least and the greatest coordinates, in millimetres."""
    return "   ".join(f"{axis} {rounded(low)} to {rounded(high)}"
                      for axis, low, high in zip("XYZ", *extents, strict=True))
