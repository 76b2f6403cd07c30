"""Whether the motors' side has on what `ngc` switched on: after an alarm, and in a new session, it has not."""
from ngc_tools.formats.device import Device, State
from ngc_tools.ngc.console import Status
from ngc_tools.operator.display import on_words
from ngc_tools.operator.face import WARNING
from ngc_tools.operator.modes import SPINDLE, trimmed
from ngc_tools.operator.session import Session


def outputs_agree(session: Session, status: Status) -> bool:
    """Whether a program that goes on has its spindle and coolant, or a person wants to go on all the same. Within a
    block, and from its beginning, nothing is looked at."""
    device, seen = session.stored(), session.seen
    if not session.meter or not status.place or status.half != "none" or not isinstance(device, Device) or seen is None:
        return True
    wanted = device.state.outputs
    if not on_words(wanted) or on_words(wanted) == on_words(seen.outputs):
        return True
    there = on_words(seen.outputs) or "all of it off"
    session.face.say(f"the program goes on with {on_words(wanted)}, and the player has {there}:"
                     f" {_line(device.state)} first switches it on", WARNING)
    return session.agrees("go on all the same? yes goes on: ")


def comes_on_agreed(session: Session) -> bool:
    """Whether a person wants on again what was switched off by hand amid lines, and comes on before the next one."""
    if session.seen is None or session.seen.again is None:
        return True
    report = session.report()
    if report is None or report.again is None:
        return True
    return session.agrees(f"switched off by hand: {on_words(report.again)}.\nyes switches it on again and goes on,"
                          " anything else leaves it off: ")


def _line(state: State) -> str:
    """A line that hands all outputs out as they are."""
    if state.spindle:
        return f"{SPINDLE[state.spindle]} S{trimmed(state.speed)}"
    return "M8" if state.flood else "M7"
