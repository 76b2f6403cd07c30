"""Which commands do something now: what each of them needs, beside how all stands. Buttons are enabled by it."""
from ngc_tools.formats.out import Switch
from ngc_tools.ngc.console import Status
from ngc_tools.operator.alarm import is_forbidden
from ngc_tools.operator.commands import COMMANDS, LINE_FROM_PLACE, Asked, Needs
from ngc_tools.operator.display import on_words
from ngc_tools.operator.session import ALARM, BROKEN, WAITS_SPINDLE
from ngc_tools.page.session import MOVES, TAKEN_AT_CHANGE, PageSession
from ngc_tools.link.progress import MoveReport, Report, goes_on


_BESIDE_JOG = Needs.NOTHING_BUT_JOG | Needs.TAKES_MOVES
_AT_CHANGE = _BESIDE_JOG | Needs.NOT_BUSY
"""What a command that is taken while the player waits for a tool doesn't need then: beside a jog that is held, which
may turn, and where nothing moves."""


def is_given_before(session: PageSession, status: Status, report: Report | None) -> bool:
    """Whether the motors carry out lines that were given before, and no command is under way, nor `ngc` held."""
    is_told = not session.ended and not session.stand.gone
    return is_told and session.under is None and status.does != "held" and goes_on(report)


def is_probe_in(session: PageSession) -> bool:
    """Whether the probe is in the spindle, by the last M6."""
    probe = session.operator.touch.setter.probe
    return probe is not None and session.kept.device.slot == probe.slot


def able(session: PageSession, status: Status, report: Report | None, machine: MoveReport | None, outputs: Switch,
         is_apart: bool) -> dict[str, bool]:
    """Of each command that a page may ask for, of `hold`, and of `turn`, which switches spindle or coolant on, whether
    all holds that it needs. `machine` is what the player says of moves without lines, None where it makes none;
    `outputs` are those that are shown; `is_apart` says that the motors rest elsewhere than `ngc` takes them to be."""
    is_busy = session.is_busy or is_given_before(session, status, report)
    holds = (_of_session(session, is_busy) | _of_ngc(status) | _of_player(session, status, report) |
             _of_moves(session, status, report, machine, outputs))
    if not is_apart:
        holds |= Needs.ONE_PLACE
    if session.operator.session.program.text and status.place > 0:
        holds |= Needs.BEGUN
    said = report.word if report else ""
    at_change = _waived(session, holds)
    enabled = {command.word: command.needs in (holds | at_change if command.word in TAKEN_AT_CHANGE else holds)
               and not is_forbidden(command.word, said) for command in COMMANDS if command.asked is not Asked.NEVER}
    # a page holds the motors whatever the player says
    return enabled | {"hold": Needs.SESSION in holds, "turn": enabled["mdi"] and LINE_FROM_PLACE in holds}


def _are_moves_over(session: PageSession, machine: MoveReport | None) -> bool:
    """Whether the motors stand, and don't go back, while the player waits for a tool; yes where it waits for none."""
    stand = machine is None or machine.does == "stands"
    return not session.is_at_change or stand and not session.operator.change.is_going


def _waived(session: PageSession, holds: Needs) -> Needs:
    """What a command that is taken while the player waits for a tool doesn't need now; nothing where it waits for none.
    """
    if not session.is_at_change:
        return Needs(0)
    if Needs.MOVES_OVER in holds:
        return _AT_CHANGE
    return _BESIDE_JOG if session.jogs.is_going else Needs(0)


def _those(**holding: bool) -> Needs:
    """Those of which something is true."""
    found = Needs(0)
    for name, is_so in holding.items():
        found |= Needs[name] if is_so else Needs(0)
    return found


def _of_session(session: PageSession, is_busy: bool) -> Needs:
    stand, under = session.stand, session.under
    return _those(SESSION=not session.ended, PLAYER=not stand.gone, CARRIES=not stand.is_broken,
                  NOT_BUSY=not is_busy,
                  NOTHING_BUT_JOG=not is_busy or under is not None and under.word == "jog",
                  NOTHING_LEFT=not (stand.recovery and stand.recovery["left"]))


def _of_ngc(status: Status) -> Needs:
    is_whole = status.half == "none"
    return _those(DEVICE=status.does != "broken", NOTHING_HALF=is_whole, IDLE=status.does in ("idle", "stopped"),
                  NOTHING_BUT_HELD=is_whole or status.does == "held", PLACE_KNOWN=status.known)


def _of_player(session: PageSession, status: Status, report: Report | None) -> Needs:
    is_on = report is not None and bool(on_words(report.outputs))
    stands = report is not None and (report.is_held or report.waits or not report.behind
                                     or report.word == WAITS_SPINDLE)
    runs = status.does in ("running", "held") or session.under is not None and session.under.word in MOVES
    return _those(SOMETHING_ON=is_on, MOTORS_STAND=stands, NOTHING_IN_HAND=report is None or not report.behind,
                  SOMETHING_TO_STOP=runs or is_on or report is not None and report.behind > 0)


def _of_moves(session: PageSession, status: Status, report: Report | None, machine: MoveReport | None,
              outputs: Switch) -> Needs:
    has_rest = report is not None and report.is_held and report.behind > 0
    is_alarm = report is not None and report.word == ALARM or machine is not None and bool(machine.alarm)
    on = machine.on if machine else ()
    is_broken_off = report is not None and report.word == BROKEN and status.does != "broken"
    takes = status.does in ("idle", "stopped") and not has_rest or is_alarm or is_broken_off
    return _those(NO_ALARM=not is_alarm, MAKES_MOVES=machine is not None, TAKES_MOVES=takes, MOTORS_FREE=not has_rest,
                  DOOR_SHUT=not session.operator.session.is_door_open, ALL_OFF=not on_words(outputs),
                  STOP_FREE="emergency_stop" not in on, PROBE_FREE="probe" not in on,
                  MOVES_OVER=_are_moves_over(session, machine), PROBE_IN=is_probe_in(session))
