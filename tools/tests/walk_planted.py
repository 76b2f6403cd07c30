"""Serves the page as `ngc-page` does, with a fault in it that the file `planted` names: what the walk by chance has to
find."""
import sys
import time
from collections.abc import Callable
from pathlib import Path

sys.path.insert(0, str(Path(__file__).resolve().parents[1]))

from ngc_tools.cli.page import main
from ngc_tools.operator import probing
from ngc_tools.operator.face import REFUSED
from ngc_tools.operator.routines import Plan, Probed
from ngc_tools.operator.touch import Touch
from ngc_tools.operator.touching import Box
from ngc_tools.page import deeds, server
from ngc_tools.page.session import PageSession

STATE_OF, HOLD = server.state_of, PageSession.hold
QUESTION, FOUND_BY, SET_LENGTH = probing._question, probing.found_by, Touch._set_length
MM = 10**6  # nm


def planted() -> str:
    """The fault that is wanted now."""
    return Path("planted").read_text() if Path("planted").exists() else ""


def state_of(*given: object) -> dict:
    """The state, with a lie in it."""
    said = STATE_OF(*given)
    match planted():
        case "place" if said["motors"]:
            said["motors"] = [f"{float(said['motors'][0]) + 0.005:.6f}", *said["motors"][1:]]
        case "work" if said["work"]:
            said["work"] = [*said["work"][:2], f"{float(said['work'][2]) + 20:.6f}"]
        case "tool":
            said["slot"] = said["slot"] - 1
        case "spindle":
            said["spindle"] = 0
        case "coolant":
            said["flood"] = 1 - said["flood"]
        case "limit":
            said["detail"] = said["detail"].replace("Limit X high", "Limit Y low")
        case "runs" if said["tone"] == "hold":
            said |= {"word": "Running", "tone": "run", "detail": "line 3 of 11"}
        case "rests" if said["tone"] == "run":
            said |= {"word": "Idle", "tone": "idle", "detail": "Ready"}
    return said


def dead(given: deeds.Given) -> dict | None:
    """A button that does nothing."""
    return None if planted() == "dead" else deeds_switch(given)


def moves(given: deeds.Given) -> dict | None:
    """One that moves an axis, which nobody asked for."""
    if planted() != "moves":
        return deeds_loss(given)
    given.session.type("jog X+ 600 for 0.1")
    return deeds_loss(given)


def refuses(given: deeds.Given) -> dict | None:
    """One that is refused in Log alone."""
    if planted() != "silent":
        return deeds_zero(given)
    given.session.face.say("zero: it isn't taken for some reason", REFUSED)
    given.session.face.refusal = ""
    return None


def hold(session: PageSession, *given: object) -> None:
    """A hold that comes late, by as many seconds as are named."""
    word, _, seconds = planted().partition(" ")
    time.sleep(float(seconds) if word == "late" else 0)
    HOLD(session, *given)


def question(wanted: object, box: Box, how: object) -> str:
    """What is asked before a routine, with less of a way than it goes."""
    (low, high), *rest = box
    return QUESTION(wanted, ((low, high - 7 * MM), *rest) if planted() == "narrow" else box, how)


def found_by(plan: Plan, *given: object) -> Probed:
    """What a routine found, elsewhere."""
    found = FOUND_BY(plan, *given)
    away = 3 * MM if planted() == "elsewhere" else 0
    return Probed({axis: nm + away for axis, nm in found.at.items()}, found.widths)


def set_length(touch: Touch, slot: int, nm: int, *given: object) -> None:
    """The length of a tool, a millimetre more of it."""
    SET_LENGTH(touch, slot, nm + (MM if planted() == "longer" else 0), *given)


deeds_switch, deeds_loss, deeds_zero = (deeds.DEEDS[name] for name in ("switch", "loss", "zero"))
PLANTS: dict[str, Callable[[deeds.Given], dict | None]] = {"switch": dead, "loss": moves, "zero": refuses}

if __name__ == "__main__":
    server.state_of, PageSession.hold = state_of, hold
    probing._question, probing.found_by, Touch._set_length = question, found_by, set_length
    deeds.DEEDS.update(PLANTS)
    sys.exit(main())
