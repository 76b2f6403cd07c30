"""A rehearsal within a session: what `resume` or `start` would do, by `ngc run` over a copy of the device."""
from ngc_tools.formats.device import Device
from ngc_tools.formats.out import Switch
from ngc_tools.formats.settings import BadSettings
from ngc_tools.ngc.console import Ended
from ngc_tools.ngc.copies import CommandRefused, Interrupted
from ngc_tools.ngc.handed_out import Finder
from ngc_tools.operator.causes import rehearsed
from ngc_tools.operator.face import REFUSED, WARNING
from ngc_tools.operator.rehearsal import Rehearsal
from ngc_tools.operator.sentences import explained
from ngc_tools.operator.session import Session


def rehearse(session: Session, words: list[str]) -> None:
    """Says what `resume` would do, or `start`, from a point that is typed; without one from where the machine is known
    to be, else from where the player says that it is."""
    face, device = session.face, session.stored()
    if not isinstance(device, Device):
        face.say("the device can't be read meanwhile", WARNING)
        return
    at: list[str] | None = words
    if words in ([], ["player"]):
        state = device.state
        known = (state.half_known if state.half else state.point_known) and not words
        report = None if known else session.report()
        at = report.at.split() if report else None
    elif len(words) != 3:
        face.say("rehearse, rehearse player, or rehearse X Y Z: where the machine stands, in machine mm", REFUSED)
        return
    try:
        rehearsal = Rehearsal(session.console.ngc, session.console.settings, device.image, at, face.interrupted)
        face.say("\n".join(rehearsal.lines()))
    except Interrupted:
        face.say("the rehearsal was broken off; the machine wasn't touched")
    except CommandRefused as error:
        face.say(rehearsed(error.reply, error.asked, session.settings), REFUSED)
    except (Ended, OSError, BadSettings) as error:
        face.say(f"it can't be rehearsed: {error}", WARNING)


def count_segments(session: Session) -> tuple[int, str]:
    """How many segments the half-done block has, 0 if that can't be told; and the refusal, if `resume` is refused under
    these settings."""
    device = session.stored()
    if not isinstance(device, Device):
        return 0, ""
    try:
        rehearsal = Rehearsal(session.console.ngc, session.console.settings, device.image, None,
                              session.face.interrupted)
        return rehearsal.count_segments(), ""
    except CommandRefused as error:
        return 0, error.reply
    except (Interrupted, Ended, OSError, BadSettings):
        return 0, ""


def segment_begins(session: Session) -> tuple[tuple[str, ...], Switch] | None:
    """Where the half-done segment begins, in machine millimetres, and what was on there; None, which is said, if that
    can't be told."""
    device = session.stored()
    if not isinstance(device, Device):
        session.face.say("the device can't be read meanwhile", WARNING)
        return None
    try:
        return Finder(session.console.ngc, session.console.settings, device.image).segment(device.image)
    except CommandRefused as error:
        session.face.say(f"{error.asked}: {explained(error.reply)}", REFUSED)
    except (Ended, OSError, BadSettings) as error:
        session.face.say(f"it can't be rehearsed: {error}", WARNING)
    return None
