"""What a session begins with: the program that is stored, a block that is half-done, where the machine and the motors
are."""
from ngc_tools.formats.device import Device
from ngc_tools.formats.position import nanometres
from ngc_tools.ngc.console import Status
from ngc_tools.operator.face import WARNING
from ngc_tools.operator.left import Left
from ngc_tools.operator.look import Look
from ngc_tools.operator.places import Places
from ngc_tools.operator.rehearsing import count_segments
from ngc_tools.operator.session import Session


def say_opening(session: Session, places: Places, left: Left, found: Device | None, gives_up: bool) -> None:
    """Says what a session begins with. `found` is the device as it stood before `ngc` was started: its log tells how
    the program was left. Of what is given up at once nothing is said, nor of the place, which is told then."""
    status = session.console.status()
    if session.program.text:
        session.face.say(f"stored: a program of {session.program.count} lines")
    if status.half != "none":
        if not gives_up:
            session.face.say(broken_off(session, status), WARNING)
    elif found is not None:
        left.find(found)
    Look(session).after_work()
    _say_steps(session)
    if not gives_up:
        places.warn(status)


def broken_off(session: Session, status: Status) -> str:
    """What is said of a block that the last session left half-done."""
    many, refusal = count_segments(session)
    of = f" of {many}" if many else ""
    line = session.line(status) if status.half == "program" else "a line of yours"
    where = "the machine is where it is known to be, unless it was moved" if status.known else (
        "where the machine is: reference player, or reference X Y Z" if session.meter else
        "where the machine is: reference X Y Z")
    said = (f"power was lost, or the session ended, in {line}\n  in segment {status.segment}{of}, counted from 0."
            f" Nothing moves by itself\n  {where}; then rehearse, resume or abandon")
    if refusal:
        said += f"\n  resume would be {refusal}: is {session.console.settings} other than it was?"
    return said


def _say_steps(session: Session) -> None:
    """Warns of a player that counts in other steps than those of the settings, as far as its point shows it."""
    report = session.report()
    if report and any(nanometres(number) % step for number, step
                      in zip(report.at.split(), session.settings.step_nm, strict=True)):
        session.face.say(f"the player is at {report.at}, which isn't a whole number of steps of"
                         f" {session.console.settings}: has it other settings?", WARNING)
