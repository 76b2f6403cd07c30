"""How all stands, in lines: the machine, the line that comes next, what is in force, the times, the motors."""
from collections.abc import Iterator

from ngc_tools.formats.device import Device
from ngc_tools.formats.position import nanometres
from ngc_tools.formats.in_force import in_force_on
from ngc_tools.ngc.console import Status
from ngc_tools.operator.face import WARNING, WHERE, axes
from ngc_tools.operator.display import offsets_words, outputs_words, work_words
from ngc_tools.operator.modes import trimmed
from ngc_tools.operator.motors import behind, manner
from ngc_tools.operator.session import Session, place
from ngc_tools.operator.timeline import Timeline
from ngc_tools.operator.work import clock
from ngc_tools.link.progress import Report


class Look:
    """Shows how all stands."""

    def __init__(self, session: Session) -> None:
        self.session = session

    def after_work(self) -> None:
        """What matters after each command that moves."""
        status = self.session.console.status()
        face, stored = self.session.face, self.session.stored()
        face.say(self._machine(status), WHERE)
        report = self.session.report()
        if isinstance(stored, Device) and (at := self._at(status, report)):
            in_force = in_force_on(stored.state)
            if any(in_force.origin) or in_force.length:
                face.say(f"work {work_words(in_force, at)}; {offsets_words(stored.state)}", WHERE)
        self._motors(report)

    def all(self, timeline: Timeline | None) -> None:
        """All that is known."""
        status = self.session.console.status()
        face, stored = self.session.face, self.session.stored()
        face.say(self._machine(status), WHERE)
        report = self.session.report()
        if isinstance(stored, Device):
            for line in self._in_force(status, stored, report):
                face.say(line, WHERE)
        switches = [text for text, is_on in (("it stops at M1", self.session.optional),
                                             ("lines with a slash are left out", self.session.delete)) if is_on]
        if switches:
            face.say("; ".join(switches), WHERE)
        if timeline and self.session.program.text:
            face.say(self._times(status, timeline), WHERE)
        self._motors(report)
        if report:
            face.say(f"the player has {outputs_words(report.outputs)}", WHERE)

    def _machine(self, status: Status) -> str:
        """What the machine does, where it is, and what comes next."""
        session, program = self.session, self.session.program
        parts = [status.does, place(status)]
        if not status.known:
            parts[1] += " (not known)" if status.half == "none" else " before the block"
        if status.half != "none":
            parts.append(session.half(status))
        elif program.text:
            line, named = program.line(status.place), program.named_at(status.place)
            parts.append(f"next {named} of {program.last}" + (f": {line}" if line else ""))
        return "; ".join(parts)

    def _at(self, status: Status, report: Report | None) -> tuple[int, int, int] | None:
        """The machine point in nm, if it is known: within a block as the player says it."""
        at = status.at if status.known else tuple(report.at.split()) if report else None
        if at is None:
            return None
        x, y, z = map(nanometres, at)
        return x, y, z

    def _in_force(self, status: Status, stored: Device, report: Report | None) -> Iterator[str]:
        """The work point, offsets, modes and outputs."""
        state = stored.state
        at = self._at(status, report)
        work = f"work {work_words(in_force_on(state), at)}" if at else "the work point isn't known"
        yield f"{work}; {offsets_words(state)}"
        yield (f"G{state.motion} G{state.plane} G{state.unit} G{state.distance} G{state.feed_mode};"
               f" F{trimmed(state.feed_nm_per_min)} mm/min; {outputs_words(state.outputs)}")

    def _times(self, status: Status, timeline: Timeline) -> str:
        times = timeline.times(self.session.program.number(status.place))
        if status.does == "idle" and not status.place:
            return f"{times.kind} {clock(times.left_us)} in all"
        return f"{times.kind} {clock(times.done_us)} done, {clock(times.left_us)} left"

    def _motors(self, report: Report | None) -> None:
        if report:
            said = [f"the motors are at {axes(report.at.split())}", behind(report, self.session.settings)]
            self.session.face.say(", ".join(said + manner(report)), WHERE)
        if self.session.meter and self.session.meter.link.failed:
            self.session.face.say(self.session.meter.link.failed, WARNING)
