"""The end of a session: what stays half-done, what stays on, and the player, which is told."""
from ngc_tools.formats.device import Device
from ngc_tools.ngc.console import Status
from ngc_tools.operator.face import WARNING
from ngc_tools.operator.display import on_words
from ngc_tools.operator.motors import behind
from ngc_tools.operator.session import Session
from ngc_tools.operator.synced import SyncedLink
from ngc_tools.link.progress import NoAnswer

_LEFT = ("The player switches that off once the session has ended and the seconds of its --off-after are over; Ctrl-C"
         " in the player does it at once")
_OWN = "Switch that off at the machine"


class Ending:
    """What is looked at before a session ends."""

    def __init__(self, session: Session) -> None:
        self.session = session

    def leaves_half(self, status: Status) -> bool:
        """Whether the session's end leaves a block half-done; says it."""
        if status.half != "none":
            half = self.session.half(status)
            self.session.face.say(f"{half} stays half-done: it is taken up or given up in the next session", WARNING)
        return status.half != "none"

    def leaves_lines(self) -> bool:
        """Whether the session's end leaves lines in the hands of a player that is held; says it."""
        report = self.session.report()
        if report is None or not report.is_held or not report.behind:
            return False
        keeps = self.session.meter is not None and isinstance(self.session.meter.link, SyncedLink)
        then = "is for recover in the next session" if keeps else "is never carried out"
        self.session.face.say(f"the motors are held, and {behind(report, self.session.settings)}: once the session has"
                              f" ended that {then}. release lets the motors go on", WARNING)
        return True

    def say(self) -> None:
        """Says what the end of the input leaves half-done, and on."""
        self.leaves_half(self.session.console.status())
        self.leaves_lines()
        if left_on := self.left_on():
            self.session.face.say(f"still on: {left_on}. {self.how_off()}", WARNING)

    def left_on(self) -> str:
        """The spindle and the coolant that are on, for people; nothing if none is. As the motors have them, if a player
        says it, else as they were handed out."""
        report = self.session.report()
        if report:
            return on_words(report.outputs)
        device = self.session.stored()
        words = on_words(device.state.outputs) if isinstance(device, Device) else ""
        return f"{words}, as it was handed out last" if words else ""

    def can_switch(self, status: Status) -> bool:
        """Whether a line of one's own is taken now, as M5 is."""
        seen = self.session.seen
        return (status.half == "none" and status.known and status.does in ("idle", "stopped", "held")
                and not self.session.gone and not (seen and seen.is_held))

    def how_off(self) -> str:
        """How what is on goes off, where no line of one's own is taken."""
        return _LEFT if self.session.meter and not self.session.gone else _OWN

    def tell_player(self) -> None:
        """Tells the player that the session is over; one that is gone needs no word."""
        if self.session.meter:
            try:
                self.session.meter.link.end()
            except NoAnswer:
                pass
