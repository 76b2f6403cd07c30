"""What a person chose for a job: the overrides, block delete, optional stop, single block. The player and `ngc` begin
without any of it after a loss of power, so it is kept in a file beside the device, and given back to a job that goes
on; the overrides also to lines that are left of one."""
import json
from contextlib import suppress
from dataclasses import asdict, dataclass
from pathlib import Path

from ngc_tools.files import NotWritten, read_regular, write_new
from ngc_tools.ngc.console import Status
from ngc_tools.operator.face import WARNING
from ngc_tools.operator.motors import PERCENTS, SPINDLE_PERCENTS, WHOLE
from ngc_tools.operator.session import Session
from ngc_tools.link.progress import NoAnswer

SUFFIX = ".choices"


@dataclass(frozen=True, slots=True)
class Choice:
    """All of it; without anything chosen as a session begins."""

    percent: int = WHOLE
    spindle: int = WHOLE
    delete: bool = False
    optional: bool = False
    single: bool = False

    def words(self) -> list[str]:
        """What of it was chosen, for people."""
        said = [f"{name} {percent} %" for name, percent in (("feed", self.percent), ("spindle", self.spindle))
                if percent != WHOLE]
        switches = (("block delete", self.delete), ("optional stop", self.optional), ("single block", self.single))
        return said + [name for name, is_on in switches if is_on]


class Choices:
    """The file of a session's device. `given` says what was given back, for people, `lost` what couldn't be."""

    def __init__(self, session: Session) -> None:
        self.session = session
        self.path = Path(str(session.console.device) + SUFFIX)
        self.given: list[str] = []
        self.lost: list[str] = []

    def keep(self) -> None:
        """Keeps what is chosen now."""
        self._keep(self._now())

    def _keep(self, choice: Choice) -> None:
        if choice == (self._read() or Choice()):
            return
        try:
            if not Path(self.session.console.device).is_file():
                raise NotWritten(f"{self.session.console.device}: it is no file, beside which that could be kept")
            if self.path.exists() and self._read() is None:
                raise NotWritten(f"{self.path}: it isn't what is kept there, and isn't written over")
            write_new(self.path, json.dumps(asdict(choice)).encode(), (), self.path.exists())
        except (NotWritten, OSError) as error:
            self.session.face.once(f"after a loss of power overrides and switches aren't given back: {error}")

    def give_back(self, status: Status, has_left: bool) -> None:
        """Gives back what was chosen for a job that goes on, and says it. For one that begins nothing is chosen, but
        what a player that goes on has in force; where lines are left, which no motor carried out, they have their
        overrides."""
        kept = self._read()
        if status.half == "none" and not status.place:
            kept = Choice(kept.percent, kept.spindle) if kept and has_left else Choice()
            if kept == Choice():
                self._begin()
                return
            self._keep(kept)
        if kept is None:
            return
        for name in ("delete", "optional"):
            if getattr(kept, name) and not self.session.console.ask(f"{name} on")[0].startswith("refused"):
                setattr(self.session, name, True)
        self.session.single = kept.single
        self._override(kept)
        self.given = [word for word in kept.words() if word in self._now().words()]
        self.lost = [word for word in kept.words() if word not in self.given]
        if self.given:
            self.session.face.say(f"given back, as it was before the session ended: {', '.join(self.given)}", WARNING)
        if self.lost:
            self.session.face.say(f"it isn't given back, since the player doesn't take it: {', '.join(self.lost)}",
                                  WARNING)

    def forget_given(self) -> None:
        """A session begins, to which nothing is given back yet."""
        self.given, self.lost = [], []

    def _begin(self) -> None:
        """Forgets what was chosen for a job before, and keeps what is in force."""
        self.session.report()
        if self._now() != Choice():
            self.keep()
        elif self._read() is not None:
            with suppress(OSError):
                self.path.unlink()

    def _override(self, kept: Choice) -> None:
        """Tells the player the overrides, where it has others."""
        report = self.session.report()
        if report is None:
            return
        with suppress(NoAnswer):  # the next question says it
            if kept.percent != report.percent:
                self.session.meter.link.override(kept.percent)
            if kept.spindle != report.spindle:
                self.session.meter.link.override_spindle(kept.spindle)
            self.session.report()

    def _now(self) -> Choice:
        session = self.session
        percent, spindle = (session.seen.percent, session.seen.spindle) if session.seen else (WHOLE, WHOLE)
        return Choice(percent, spindle, session.delete, session.optional, session.single)

    def _read(self) -> Choice | None:
        """What stands in the file; None where that isn't such a thing."""
        with suppress(OSError, ValueError, TypeError):
            told = json.loads(read_regular(self.path))
            choice = Choice(**told)
            switches = (choice.delete, choice.optional, choice.single)
            if choice.percent in PERCENTS and choice.spindle in SPINDLE_PERCENTS and all(type(one) is bool
                                                                                         for one in switches):
                return choice
        return None
