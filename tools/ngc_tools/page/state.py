"""What pages show and what changes, as JSON has it."""
import time
from collections.abc import Iterator
from itertools import pairwise

from ngc_tools.formats.device import Device, State
from ngc_tools.formats.lines import Program
from ngc_tools.formats.out import SLOTS
from ngc_tools.formats.position import Position, millimetres, nanometres
from ngc_tools.formats.in_force import in_force_on
from ngc_tools.ngc.console import Status
from ngc_tools.operator.alarm import left_of
from ngc_tools.operator.commands import Brings, words_that_bring
from ngc_tools.operator.display import on_words
from ngc_tools.operator.motors import way_nm
from ngc_tools.operator.sentences import SWITCHED
from ngc_tools.operator.session import ALARM
from ngc_tools.page.able import able, is_given_before, is_probe_in
from ngc_tools.page.band import Standing
from ngc_tools.page.face import LOOKS
from ngc_tools.page.offsets import offsets_of
from ngc_tools.page.session import MOVES, WITHOUT_LINES, PageSession
from ngc_tools.link.progress import UNSURE, MoveReport, Report
from ngc_tools.shown import shown_line

LOOKED_AT = 3
"""So many things are looked at before anything moves."""
_IN_MODES = ("unit", "distance", "plane", "system", "feed_mode", "motion")
_LINES = words_that_bring(Brings.PROGRAM)
_TAKE_UP = words_that_bring(Brings.TAKES_UP)
_CONFIRMED = words_that_bring(Brings.FROM_TOLD)
_OLD_S = 0.6
"""A place that was told so long ago isn't shown as the place now, while something is under way."""
_MOST_READINGS = 10
"""So often at most a state is read, until it is of one moment."""
HERE = "here"
"""What holds the motors, where that was one of the pages."""


class Pictured:
    """How a session stands at one moment, as a page sees it."""

    def __init__(self, session: PageSession, page: str) -> None:
        self.session, self.face, self.page = session, session.face, page
        self.operator, self.stand = session.operator, session.stand
        self.command, view = session.under, session.face.view
        if view is None and session.face.question is None:
            view = session.face.last  # until the command is over; then `stand` has what came of it
        self.status: Status = view.status if view and self.command else self.stand.status
        self.report, self.reported_at = self.face.told
        goes_on = self.command is not None and not (self.report and self.report.waits)
        self.device: Device = session.kept.at(self.status, goes_on)
        self.program: Program = self.operator.session.program

    def plain(self) -> dict:
        """All of it."""
        return {**self._words(), **self._machine(), **self._motors(), **self._moves_too(), **self._in_force(),
                **self._session()}

    @property
    def number(self) -> int:
        """The line under way, from 1: of a player that waits for a tool that of the change. Once all is handed out
        `ngc` is at the first line again: then it is the last one, until nothing is under way."""
        if self._change is not None:
            return self._change
        status, runs = self.status, self.command is not None and self.command.word in _LINES
        is_through = status.half == "none" and not status.place and status.entries != self.stand.status.entries
        return self.program.count if runs and is_through else self.program.number(status.place)

    @property
    def is_finished(self) -> bool:
        """Whether the program ran to its end, and nothing is under way any more."""
        return self.session.is_finished and self.command is None

    @property
    def _change(self) -> int | None:
        """The line of the program at which the player waits for a tool, since `ngc` is some lines ahead; None where it
        waits for none, or that can't be told."""
        drawing, report = self.session.drawer.drawing, self.report
        if report is None or not report.waits or drawing is None or self._is_typed(report.tool):
            return None
        number = self.program.number(self.status.place)
        return max((line for line, slot in drawing.tools.items() if line <= number and slot == report.tool),
                   default=None)

    def _is_typed(self, slot: int) -> bool:
        """Whether a line of one's own changed to a tool last: such a line leaves the place in the program as it is."""
        if self.operator.session.own:
            return True
        return next((state.half == 2 if state.half else state.place == before.place
                     for state, before in pairwise(self._states()) if state.slot == slot != before.slot), False)

    @property
    def _state(self) -> State | None:
        """What is in force where the motors are: before a tool is in not what comes after its change. None where
        nothing tells it."""
        line, report, state = self._change, self.report, self.device.state
        if line is not None:
            return next((one for one in self._states() if self.program.number(one.place) <= line), state)
        is_ahead = report is not None and (report.behind > 0 or self.status.half != "none" or self._has_left)
        if not is_ahead or report.outputs.slot == state.slot:
            return state
        return next((one for one in self._states() if one.slot == report.outputs.slot), None)

    @property
    def _has_left(self) -> bool:
        """Whether lines stand in OUT that no motor carried out, since the last session."""
        return self.stand.recovery is not None and self.stand.recovery["left"]

    def _states(self) -> Iterator[State]:
        """What the device stood for, the latest first; also before `ngc` was started, which writes its log anew."""
        for device in (self.device, self.session.opened.found):
            if device is not None and device.program == self.device.program:
                yield from (record.state for record in reversed(device.records))
                yield device.snapshot

    def _machine(self) -> dict:
        status, face = self.status, self.face
        state, session = self.device.state, self.operator.session
        question = face.question and {"id": face.question.id, "text": face.question.text, "kind": face.question.kind,
                                      "purpose": "look" if self._is_look else "",
                                      "looks": self._looks() if self._is_look else []}
        return {"does": status.does, "half": status.half, "segment": status.segment, "known": status.known,
                "entries": status.entries, "line": self.number, "place": status.place, "at": status.at,
                "began_at": self._began_at,
                "own": session.own, "optional": session.optional, "delete": session.delete, "single": session.single,
                "question": question, "message": face.message, "half_opened": state.opened,
                "half_text": shown_line(state.half_text) if state.half else "",
                "busy": self.session.is_busy or self._goes_on, "goes_on": self._goes_on, "moving": self._moves(),
                "does_move": self._does,
                "press": self.session.jogs.last,
                "apart": self._apart, "unsure": self._is_unsure, "held_by": self._held_by,
                "door_open": self.operator.session.is_door_open,
                "command": self.command and {"word": self.command.word, "since": self.command.since}}

    @property
    def _began_at(self) -> list[str] | tuple[str, ...]:
        """Where the line under way began: one with a tool change where the motors wait for the tool."""
        if self._change is not None and self.report:
            return (self.operator.work.waits_at or self.report.at).split()
        state = self.device.state
        return list(map(millimetres, state.point_nm)) if state.half else self.status.at

    @property
    def _is_look(self) -> bool:
        """Whether somebody is asked to look at the machine."""
        return self.face.question is not None and self.face.question.text in LOOKS

    def _looks(self) -> tuple[str, str, str]:
        """What has to be looked at, by what the player has on, or what was handed out where there is none."""
        out = self.report.outputs if self.report else self.device.state.outputs
        on = on_words(out)
        tool = f"Tool {out.slot} is in the spindle, and it is sound" if out.slot else "The right tool is in, and sound"
        is_own = self.face.question is not None and self.face.question.text == SWITCHED.strip()
        way = "The straight way is free, all of it at the traverse rate" if is_own else "The way is free"
        return (f"On, as it should be: {on}" if on else "Spindle and coolant are off, as they should be", tool,
                f"{way}, and my hand is at Hold")

    def _motors(self) -> dict:
        """Where the motors are, with the outputs as they have them: `ngc` may be ahead of them."""
        report, meter = self.report, self.operator.session.meter
        out = report.outputs if report else self.device.state.outputs
        can = able(self.session, self.status, report, self._machine_said, out, any(self._apart) or self._is_unsure)
        said = {"player": meter is not None, "player_gone": self.stand.gone, "motors": report and report.at.split(),
                "speed": out.speed / 10**6, "spindle": out.spindle, "mist": out.mist, "flood": out.flood,
                "slot": out.slot, "selected": out.selected, "most_percents": self.session.most_percents,
                "homes": self.session.homes,
                "again": on_words(report.again) if report and report.again else "", "can": can,
                "recover": self.stand.recovery,
                **self._past()}
        if not report or not meter:
            return said | {"behind": None, "waits": False, "ahead": None, "percent": 100, "has_percent": False,
                           "spindle_percent": None, "held_motors": False, "behind_mm": None, "keeps": False}
        return said | {"behind": report.behind, "waits": report.waits, "waits_tool": report.tool,
                       "ahead": meter.limit(report), "percent": report.percent, "has_percent": report.wants > 0,
                       "spindle_percent": report.spindle,
                       "held_motors": report.is_held, "keeps": self.operator.recover.found is not None,
                       "behind_mm": way_nm(report, self.session.settings) / 10**6}

    @property
    def _machine_said(self) -> MoveReport | None:
        """What the player said last of moves without lines; None where it makes none, or is gone."""
        return self.operator.session.machine if self.stand.machine else None

    def _past(self) -> dict:
        """How far the motors may be past the player's record, and of which axes."""
        session = self.session
        is_past = self.report is not None and bool(session.past_axes)
        return {"past": session.past if is_past else "", "past_mm": session.past_mm if is_past else "",
                "past_axes": [axis in session.past_axes for axis in "XYZ"]}

    def _moves_too(self) -> dict:
        """What it says of them."""
        machine = self._machine_said
        if machine is None:
            return {"machine": None, "homed": "", "alarm": "", "came_by": "", "left": "", "inputs": [],
                    "touched": None, "ends": []}
        return {"machine": machine.does, "homed": machine.homed, "alarm": machine.alarm, "left": self._left,
                "came_by": self.operator.alarm.came_by or machine.alarm.replace("_", " "),
                "inputs": machine.on, "touched": self._touched(), "ends": self._ends()}

    def _ends(self) -> list[str]:
        """The ways along which the travel ends where the motors are, as `X+`."""
        settings, at = self.session.settings, map(nanometres, self.report.at.split()) if self.report else ()
        rooms = zip("XYZ", at, settings.low_nm, settings.high_nm, settings.step_nm)
        return [f"{axis}{sign}" for axis, nm, low, high, step in rooms
                for sign, room in (("+", high - nm), ("-", nm - low)) if room < step]

    def _touched(self) -> list[str] | None:
        """Where the probe was touched, as long as that can be used: nothing moved since, and the tool is the same."""
        touched, report = self.operator.moves.touched, self.report
        is_good = touched and report and touched.is_last(report) and touched.slot == self.device.slot
        return list(map(millimetres, touched.point_nm)) if is_good else None

    @property
    def _does(self) -> str:
        """What moves without lines, as `home X`; nothing for lines."""
        machine = self._machine_said
        if self.command is None or self.command.word not in WITHOUT_LINES:
            return ""
        return machine.does if machine else self.command.word

    @property
    def _held_by(self) -> str:
        """What holds the motors: HERE, the door, the spindle or somebody else; nothing where they aren't held."""
        session = self.operator.session
        is_here = self.operator.motors.is_told or self.status.does == "held" and self.face.interrupted()
        return HERE if session.held_by and is_here else session.held_by

    @property
    def _apart(self) -> list[bool]:
        """Of each axis whether the motors rest at another place than where `ngc` takes them to be, by a step or more.
        While a command is under way that moves nothing that is as it was before it.
        """
        if self.report and self.report.waits and (begun := self.operator.work.waits_at):
            return self._differ(self.report.at, begun)
        if self.command is None:
            return self._apart_of(self.status, self.report)
        return [False] * 3 if self.command.word in MOVES else self._apart_of(self.stand.status, self.stand.report)

    def _apart_of(self, status: Status, report: Report | None) -> list[bool]:
        """The same, of what was told."""
        if report is None or report.behind or not status.known or self.stand.gone:
            return [False] * 3
        return self._differ(report.at, " ".join(status.at))

    def _differ(self, one: str, other: str) -> list[bool]:
        """Of each axis whether two places differ, by a step or more."""
        steps = [Position(self.session.settings.step_nm, list(map(nanometres, at.split()))).steps
                 for at in (one, other)]
        return [here != there for here, there in zip(*steps, strict=True)]

    @property
    def _is_unsure(self) -> bool:
        """Whether the motors moved without lines as their last player was gone, and nobody told since where they are.
        While a command is under way that is as it was before it."""
        report = self.stand.report
        return report is not None and report.word == UNSURE and not self.stand.gone

    @property
    def _left(self) -> str:
        """The axes of which somebody has to tell where they stand, or to home them, before an alarm is over, as `XY`;
        nothing as long as none is homed, nor as long as home is the way for one of them."""
        machine = self._machine_said
        left = left_of(machine) if machine and machine.alarm and machine.homed else ""
        return "" if set(left) & set(self.session.homes or "") else left

    def _in_force(self) -> dict:
        found = self._state
        state = found or self.device.state
        in_force = in_force_on(state)
        x, y, z = map(nanometres, self.report.at.split() if self.report else self.status.at)
        is_known = found is not None and (self.report is not None or self.status.known or self.command is not None)
        work = list(map(millimetres, in_force.to_program((x, y, z)))) if is_known else None
        return {"work": work, "stale": self._stale(), "feed": state.feed_nm_per_min / 10**6,
                "tool_length": millimetres(state.tool_length_nm), "origin": list(map(millimetres, in_force.origin)),
                "tools": list(map(millimetres, self.device.tools_nm)), "most_slots": SLOTS,
                "offsets": offsets_of(self.device, (x, y, z) if is_known else None),
                **{name: getattr(state, name) for name in _IN_MODES}}

    def _stale(self) -> dict | None:
        """Why the place isn't known any more that is shown, and when it was, in seconds since 1970, if that is known;
        None where it is the machine's. `by_record`: the player had it by its record, and nobody has told it since."""
        if self.report and self.report.word == ALARM:
            return {"why": "alarm", "at": self.reported_at if self._is_old else 0}
        begins_at = self.session.begins_at  # what a player says since is by its record
        if self._is_lost or begins_at is not None and self.reported_at >= begins_at:
            return {"why": "power", "at": self.session.opened.left_at}
        # what wasn't known before isn't "known last" by that
        is_gone = self.stand.gone or self.session.ended or begins_at is not None
        if not is_gone and not self._is_old:
            return None
        return {"why": "player", "at": self.reported_at, "by_record": bool(self._past()["past_mm"])}

    @property
    def _is_old(self) -> bool:
        """Whether something is under way, and the player was heard last so long ago that the motors are elsewhere."""
        return self.face.view is not None and 0 < self.reported_at < time.time() - _OLD_S

    @property
    def _is_lost(self) -> bool:
        """Whether nobody knows where the machine is: until somebody tells, and it goes from there, or it is homed."""
        command, report = self.command.word if self.command else "", self.report
        if self.status.does != "idle" or command in _CONFIRMED and report and report.at != self.session.past_at:
            return False
        goes = command in MOVES and command not in _CONFIRMED
        is_apart = goes and any(self._apart_of(self.stand.status, self.stand.report))
        return not self.status.known or self._has_left or is_apart or self._is_unsure

    def _session(self) -> dict:
        session, setter_nm = self.session, self.operator.touch.setter_nm
        return {"session": session.ident, "ended": session.ended, "over": session.over.is_set(),
                "program": {"id": session.program_id, "name": session.name, "lines": self.program.count,
                            "way": self.program.way, "second": self.program.second},
                "job": session.drawer.count + session.never_cut.count,
                "finished": self.is_finished, "started": session.started,
                "given_back": self.operator.choices.given, "not_given_back": self.operator.choices.lost,
                "left_at": session.opened.left_at, "broken": self.stand.is_broken, "undo": self.operator.touch.undoes,
                "setter": None if setter_nm is None else millimetres(setter_nm),
                "has_probe": self.operator.touch.has_probe, "ball": self._ball(), "is_probe_in": is_probe_in(session),
                "has_park": None not in self.operator.ways.home_nm[:2],
                "measures": self.operator.measuring.is_on if self.operator.measuring.can else None,
                "jobs": session.jobs is not None,
                "typed": self.stand.typed, "restore": self.stand.restore, "version": session.version}

    def _ball(self) -> dict | None:
        """The slot of the probe, how wide its ball is, and why that can't be used; None where there is no probe."""
        probe, ball = self.operator.touch.setter.probe, self.stand.ball
        if probe is None or ball is None:
            return None
        return {"slot": probe.slot, "wrong": ball.wrong,
                "diameter": None if ball.diameter_nm is None else millimetres(ball.diameter_nm)}

    @property
    def _goes_on(self) -> bool:
        """Whether the motors carry out lines that were given before: nothing of a recovery is shown until they rest."""
        return is_given_before(self.session, self.status, self.report)

    def _moves(self) -> bool:
        """Whether a command is under way that moves the machine, and nobody has to look or agree first."""
        if self.command is None or self.face.question is not None or self.command.word not in MOVES:
            return False
        return self.command.word not in _TAKE_UP or self.face.has_looked

    # in words

    def _words(self) -> dict:
        standing = Standing(self.session, self.status, self.report, self._here, self._left, self._does, self._held_by,
                            any(self._apart), self.page)
        word, tone, detail = standing.band()
        return {"word": word, "tone": tone, "detail": detail}

    @property
    def _here(self) -> str:
        return f"{self.program.named(self.number)} of {self.program.last}" if self.program.text else ""


def state_of(session: PageSession, page: str = "") -> dict:
    """All that a page shows and that changes. Where something begins or ends meanwhile it is read anew, so that no part
    of a state is of before and another of after; but not for ever, since a page has to see something."""
    for _ in range(_MOST_READINGS):
        moment, state = session.moment(), Pictured(session, page).plain()
        if session.moment() == moment:
            break
    return state
