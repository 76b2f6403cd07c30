"""What a refusal of a command means now: which of its causes holds, by the status, and what to do next."""
from ngc_tools.formats.device import Device
from ngc_tools.formats.settings import Settings
from ngc_tools.ngc.commands import form_of, slot_to_give_first
from ngc_tools.ngc.console import Status
from ngc_tools.operator.face import REFUSED
from ngc_tools.operator.numbers import nanometres_of
from ngc_tools.operator.outside import breach_of_line, breach_of_point
from ngc_tools.operator.sentences import explained
from ngc_tools.operator.session import Session

_GO_ON = ("run", "start", "continue")


def taken(session: Session, reply: str, command: str) -> bool:
    """Whether a command was taken; shows the reply, a refusal with its cause."""
    if not reply.startswith("refused"):
        session.face.say(reply)
        return True
    return not refused(session, reply, command)


def refused(session: Session, reply: str, command: str) -> bool:
    """Whether a command was refused; shows that with its cause."""
    if not reply.startswith("refused"):
        return False
    cause = _cause(session, reply.split()[1], command)
    is_line = command.startswith("mdi")  # of a line it is said too what to write
    session.face.say(f"{reply}: {cause}" if cause and not is_line else explained(reply, cause or ""), REFUSED)
    return True


def _cause(session: Session, code: str, command: str) -> str | None:
    """What a fault means of this command now, where more can be said than for any command."""
    word, *rest = command.split()
    if code == "J1":
        return session.full_disk(f"refused {code}")
    if code == "K1":
        return busy(session, session.console.status(), word)
    if code == "K2":
        return ("nothing waits: run starts the program" if session.program.text else "no program is loaded: load FILE")
    if code == "K4":
        return "no block is half-done: run goes on with the program"
    if code == "K3":
        return f"it isn't known where the machine stands: {reference_words(session)}"
    if cause := _by_words(code, command, session.settings):
        return cause
    device = session.stored()
    if code == "B14" and word == "tool" and isinstance(device, Device):
        return slot_to_give_first(int(rest[0]), len(device.tools_nm))
    if code == "X2" and word == "mdi" and isinstance(device, Device):
        line = command.removeprefix("mdi ").encode("utf-8", "surrogateescape") + b"\n"
        return breach_of_line(session.console, device, session.settings, line, 1)
    return None


def _by_words(code: str, command: str, settings: Settings) -> str | None:
    """The same, where the command's own words tell it: its form, or which axis of a point leaves the travel."""
    word, *rest = command.split()
    if code == "U1":
        return form_of(command)
    if code == "X2" and word == "reference":
        return breach_of_point([nanometres_of(number) or 0 for number in rest], settings)
    return None


def rehearsed(reply: str, command: str, settings: Settings) -> str:
    """What is said where `ngc` refuses a command over a copy of the device."""
    cause = _by_words(reply.split()[1], command, settings)
    return f"{command}: {reply}: {cause}" if cause else f"{command}: {explained(reply)}"


def busy(session: Session, status: Status, word: str) -> str:
    """The cause of K1 that holds, and what to do next, of a command that begins with this word; `mdi` is that of a line
    of G-code."""
    if status.half != "none":
        return _within(session, status, word)
    line = session.line(status)
    if status.does == "held":
        then = "" if word == "mdi" else f"; then {word}"
        return f"held before {line}: run goes on; a line of G-code, as M5, is done and ends the hold{then}"
    return f"{line} runs: hold first"


def _within(session: Session, status: Status, word: str) -> str:
    """Of a block that is under way or half-done."""
    half = session.half(status)
    if status.does in ("held", "running"):
        return (f"{status.does} in {half}: run goes on; to give the block up: stop. No other line"
                " is done before that")
    place = "" if status.known else f"{reference_words(session)}, "
    then = f", and {'a line of yours' if word == 'mdi' else word} after that" if word not in _GO_ON else ""
    return f"{half} is half-done. rehearse says what resume would do; {place}then resume or abandon{then}"


def reference_words(session: Session) -> str:
    """How to tell where the machine stands."""
    return "reference player, or reference X Y Z" if session.meter else "reference X Y Z"
