"""How the program left the machine for its next line, and what lines of one's own, `abandon` and `reference` changed of
it since: that is what `run` asks about."""
from dataclasses import replace

from ngc_tools.formats.canonical import BadText, read_commands
from ngc_tools.formats.device import Device, NoDevice, State
from ngc_tools.job.figures import millimetres as rounded
from ngc_tools.formats.position import distance
from ngc_tools.ngc.beginning import Beginning, CannotSetUp
from ngc_tools.ngc.console import Status
from ngc_tools.ngc.run import CannotRun, refusal
from ngc_tools.operator.face import WARNING, axes
from ngc_tools.operator.modes import Difference, Restoring, differences, point_words, restoring
from ngc_tools.operator.session import Session
from ngc_tools.operator.synced import SyncedLink

_TOLD = ("unit", "feed_mode", "plane", "distance", "retract", "system", "path_mode", "origin", "g92", "tool_length",
         "feed")
"""What is said after a line of one's own; the rest where the program goes on and it matters."""
_SET_UP = ("origin", "system", "g92", "tool_length")
"""What people set on purpose before a program begins."""
_FEEDS = ("STRAIGHT_FEED", "ARC_FEED", "SET_FEED_RATE")


class Left:
    """`device` is what stood as the program left it, None where nothing was done since. `is_lost` says that the session
    begins before a line of the program, and that nothing tells where this line begins."""

    def __init__(self, session: Session) -> None:
        self.session = session
        self.device: Device | None = None
        self.is_lost = False
        self._told = ""

    def find(self, found: Device) -> None:
        """Takes how the program was left from the log of a device, as it stood before `ngc` was started, else from what
        was noted beside it."""
        if found.state.place:
            link = self.session.meter.link if self.session.meter else None
            if isinstance(link, SyncedLink) and link.asked:
                found = link.asked.before(found) or found
            self.device = begins_at(found)
            self.is_lost = self.device is None and not (isinstance(link, SyncedLink) and self._is_noted(link, found))

    def _is_noted(self, link: SyncedLink, found: Device) -> bool:
        """Whether it is noted that nothing was done since the program was left for its next line; what was done since
        the note the log tells."""
        note = link.noted()
        if note is None or not note.as_left:
            return False
        if note.is_of(found):
            self.device = Device(found.before(note.records)) if note.records < len(found.records) else None
            return True
        older = found.without_header() if not found.records else None
        before = Device(older) if older is not None else None
        return before is not None and note.is_of(before) and note.entries == found.state.entries

    def is_as_left(self) -> bool:
        """Whether all is as the program was left for its next line, as where nothing was done since, or the machine was
        brought back."""
        if self.device is None:
            return not self.is_lost
        now = self.session.stored()
        return isinstance(now, Device) and replace(now.state, entries=self.device.state.entries) == self.device.state

    def keep(self) -> None:
        """Something is about to be done between two lines of the program; what stands now is kept, once."""
        if self.device is None:
            found = self.session.stored()
            self.device = found if isinstance(found, Device) else None

    def forget(self) -> None:
        """The program goes on."""
        self.device, self.is_lost, self._told = None, False, ""

    def differs(self) -> bool:
        """Whether something is in force otherwise than the program left it."""
        return bool(self._differences())

    def tell_modes(self) -> None:
        """Says what lines of one's own left in force otherwise, if that wasn't said before."""
        found = [each for each in self._differences() if each.name in _TOLD]
        text = ", ".join(map(str, found))
        if text and text != self._told:
            self.session.face.say(f"in force now: {text}. restore puts it back")
        self._told = text

    def agreed(self, status: Status) -> bool:
        """Whether all is as the program left it, or a person wants to go on all the same. Within a block nothing is
        looked at: no line was done in it."""
        if status.half != "none":
            return True
        questions = self._lost(status) if self.is_lost and status.place else self._moved_away()
        questions += self._modes()
        for text in questions:
            self.session.face.say(text, WARNING)
        return not questions or self.session.agrees("go on all the same? yes goes on: ")

    def _lost(self, status: Status) -> list[str]:
        """What is asked where nothing tells where the next line begins."""
        line = self.session.program.named_at(status.place)
        return [f"{line} comes next, and the device doesn't tell any more where it begins. The machine is at"
                f" {axes(status.at)}, and the line would go from there"]

    def restoring(self) -> Restoring:
        """The lines that put back what was in force."""
        kept = self._kept_and_now()
        return restoring(kept[0].state, kept[1].state, kept[1].tools_nm) if kept else Restoring((), ())

    def _kept_and_now(self) -> tuple[Device, Device] | None:
        """What was kept, and what stands now."""
        now = self.session.stored()
        return (self.device, now) if self.device is not None and isinstance(now, Device) else None

    def _differences(self) -> list[Difference]:
        kept = self._kept_and_now()
        return differences(kept[0].state, kept[1].state) if kept else []

    def _modes(self) -> list[str]:
        """What is in force otherwise and matters, and what puts it back."""
        kept = self._kept_and_now()
        if kept is None:
            return []
        before, now = kept
        found = differences(before.state, now.state)
        if not now.state.place:
            found = [difference for difference in found if difference.name not in _SET_UP]
        if not found or not self._matters(before, now, found):
            return []
        lines = restoring(before.state, now.state, now.tools_nm).lines
        said = ["in force now: " + ", ".join(map(str, found))]
        return [*said, f"restore types: {'; '.join(lines)}"] if lines else said

    def _moved_away(self) -> list[str]:
        """Where the next line begins and where the machine is, if that is another place; says it if it is the same."""
        kept = self._kept_and_now()
        if kept is None or not _goes_on(kept[0].state, kept[1].state):
            return []
        begins, at = (device.state.point_nm for device in kept)
        line = self.session.program.named_at(kept[1].state.place)
        if begins == at:
            self.session.face.say(f"{line} begins where the machine is, at {point_words(at)}")
            return []
        return [f"{line} begins at {point_words(begins)}. The machine is at {point_words(at)},"
                f" {rounded(distance(begins, at))} mm away, and the line would go from there"]

    def _matters(self, before: Device, now: Device, found: list[Difference]) -> bool:
        """Whether what is in force makes the rest of the program another one: by a dry run of it from the device as it
        stands, and by one after the lines that put back what was in force. No device holds that state before they are
        typed."""
        names = {difference.name for difference in found}
        back = _back(before.state, now)
        if _stopped(before.state, now.state) or back.left:
            return True
        try:
            here = Beginning.of(now)
            said = [self._rest(begin, now) for begin in (here.after(back.lines, "what was in force"), here)]
            first = next((command.name for command in read_commands(said[1]) if command.name in _FEEDS), "")
        except (CannotSetUp, CannotRun, NoDevice, BadText, OSError):
            return True
        return said[0] != said[1] or "feed" in names and first in ("STRAIGHT_FEED", "ARC_FEED")

    def _rest(self, begin: Beginning, now: Device) -> bytes:
        """What the program does from the place on where it goes on, by a dry run. Raises CannotSetUp, CannotRun."""
        console, text = self.session.console, self.session.program.text[now.state.place:]
        status, said = begin.dry(console.ngc, text, console.settings, self.session.delete)
        refusal(status, said)  # a dry run that was none is raised
        return said


def _goes_on(before: State, now: State) -> bool:
    """Whether the program goes on with the line before which it was left, from a point that is known. One that begins
    goes from wherever the machine is."""
    return before.place == now.place != 0 and bool(now.point_known)


def _back(before: State, now: Device) -> Restoring:
    """The lines by which a dry run from the device has what was in force before; where a program begins, with the
    offsets that it has now. Of the tool in the spindle no line prints anything."""
    state = now.state
    wanted = replace(before, slot=state.slot)
    if not state.place:
        wanted = replace(wanted, origin_nm=state.origin_nm, system=state.system, g92_nm=state.g92_nm,
                         tool_length_nm=state.tool_length_nm)
    return restoring(wanted, state, now.tools_nm)


def _stopped(before: State, now: State) -> bool:
    """Whether a program that goes on had a spindle, coolant or a tool that it hasn't now."""
    if not now.place:
        return False
    spindle = before.spindle and (before.spindle, before.speed) != (now.spindle, now.speed)
    coolant = before.mist > now.mist or before.flood > now.flood
    return bool(spindle or coolant or before.slot != now.slot)


def dropped_g92(session: Session) -> str:
    """What is said of a G92 offset that the program's end drops; nothing if there is none."""
    device = session.stored()
    if not isinstance(device, Device) or not any(device.state.g92_nm):
        return ""
    state = device.state
    kept = [origin + offset for origin, offset in zip(state.origin_nm, state.g92_nm, strict=True)]
    return (f"a G92 offset is in force, and the program's end, M2 or M30, drops it: the next run begins without it."
            f" To keep the zero point: G21, then G92.1, then G10 L2 P{state.system} {point_words(tuple(kept))}")


def begins_at(device: Device) -> Device | None:
    """What stood as the program was left for its next line, by a device's log as a session finds it; None where the log
    doesn't tell it, or the program is at its beginning."""
    states = [device.snapshot, *(record.state for record in device.records)]
    found = 0 if device.snapshot.half == 1 else None
    for number, (before, after) in enumerate(zip(states, states[1:]), 1):
        if after.half == 1 or after.place != before.place:
            found = number
    if found is None or not device.state.place:
        return None
    return Device(device.before(found))
