"""The player's motors, as a person holds them, lets them go on, and makes them slower; and what is said of them."""
import time
from collections.abc import Callable
from math import isqrt

from ngc_tools.formats.machine import MOST_PERCENTS
from ngc_tools.formats.settings import Settings
from ngc_tools.job.figures import millimetres as rounded
from ngc_tools.operator.face import REFUSED, WARNING, WHERE
from ngc_tools.operator.session import ALARM, BROKEN, Session
from ngc_tools.link.progress import MOVED, SPINDLE_PERCENTS, UNSURE, NoAnswer, Report

PERCENTS = range(1, MOST_PERCENTS[-1] + 1)
"""What an override may be, in percent of OUT's rates. A player takes no more than its `most_percent`."""
WHOLE = 100
TEN = 10  # percent that a key changes

STILL_S = 10.0  # of a player that works
STILL = f"the player has carried nothing out for {STILL_S:.0f} s, as in a dwell. Enter or Ctrl-C holds"

_STATES = {"moves": "moving", "waits spindle": "waiting for the spindle's speed", UNSURE: "not sure where they are",
           ALARM: "ALARM: not to be trusted", BROKEN: "broken off: no more line is carried out"}
_REST_S = 10.0  # how long motors may take to come to rest
_STILL_S = 0.5  # without a line for so long they stand, or nearly: in a dwell nothing else says it


def diagonal_nm(lines: int, settings: Settings) -> int:
    """How far so many lines move the tool at most, in nm: a pulse moves each axis by a step at most."""
    square = lines ** 2 * sum(step * step for step in settings.step_nm)
    return isqrt(square - 1) + 1 if square else 0


def way_nm(report: Report, settings: Settings) -> int:
    """The same of the lines behind."""
    return diagonal_nm(report.behind, settings)


def way(report: Report, settings: Settings) -> str:
    """The same in mm, rounded up, in words."""
    return f"up to {rounded(way_nm(report, settings) + 499)} mm"


def count(report: Report) -> str:
    """How many lines are behind, in words."""
    return f"{report.behind:,} line{'' if report.behind == 1 else 's'}"


def behind(report: Report, settings: Settings) -> str:
    """What a loss of power would cost now, in words."""
    said = f"{count(report)} behind"
    return f"{said}, {way(report, settings)}" if report.behind else said


def manner(report: Report) -> list[str]:
    """Whether they are held, or what else they do, and the overrides, in words; nothing where nothing is to be said."""
    said = ["held"] if report.is_held else [_STATES[report.word]] if report.word in _STATES else []
    said += [f"{report.percent} %"] if report.wants or report.percent != WHOLE else []
    return said + ([f"spindle {report.spindle} %"] if report.spindle != WHOLE else [])


def live(report: Report, settings: Settings) -> list[str]:
    """The same, and what a loss of power would cost, as short as can be."""
    tenths = way_nm(report, settings) // 100_000 + 1
    return manner(report) + ([f"{count(report)}, <{tenths // 10}.{tenths % 10} mm"] if report.behind else [])


class Stillness:
    """How long a player that works has carried nothing out, where nothing that it says tells why. A dwell may take
    hours: so that is waited for without a bound, and said."""

    def __init__(self) -> None:
        self._seen: tuple[int, str] | None = None
        self._since = 0.0

    def is_long(self, report: Report) -> bool:
        """Whether that is more than STILL_S, by this report and those before."""
        now, seen = time.monotonic(), (report.carried, report.at)
        is_told_why = report.is_held or report.waits or report.word != "works" or not report.behind
        if is_told_why or seen != self._seen:
            self._seen, self._since = seen, now
        return now > self._since + STILL_S


class Motors:
    """What a person tells them. A player without ramps heeds none of it, and isn't told."""

    def __init__(self, session: Session) -> None:
        self.session = session
        self.is_told = False  # to be held, and not yet to go on

    @property
    def have_ramps(self) -> bool:
        """Whether they can be told, by the player's last report."""
        seen = self.session.seen
        return seen is not None and seen.wants > 0

    @property
    def are_held(self) -> bool:
        """Whether they are to stand still, by what they were told, or by the player's last report."""
        seen = self.session.seen
        return self.is_told or (seen is not None and seen.is_held)

    def hold(self) -> bool:
        """Brings them to rest, if they can be told, and somebody is there who can let them go on; whether it does."""
        session = self.session
        if session.meter is None or session.gone or not self.have_ramps or session.face.is_gone():
            return False
        if session.is_in(ALARM, BROKEN):
            return False
        self.is_told = self._tell(session.meter.link.hold)
        return self.is_told

    def release(self) -> None:
        """Lets them go on."""
        if self.session.meter and self._tell(self.session.meter.link.release):
            self.is_told = False

    def are_free(self) -> bool:
        """Whether what is handed out now would be carried out at once. With nothing in hand held motors are let go;
        else it says why not. Of motors that moved without lines a player doesn't tell whether they are held."""
        if not self.are_held and not self.session.is_in(MOVED, UNSURE):
            return True
        report = self.session.report()
        if report is None or not report.behind:
            self.release()
        elif self.are_held:
            self.say_held(report)
            return False
        return True

    def say_held(self, report: Report) -> None:
        """Says that nothing is done since they are held."""
        self.session.face.say(f"nothing is done: the motors are held with {count(report)} in hand. release lets"
                              " them carry those out, and run goes on", WARNING)

    def say_rest(self) -> None:
        """Waits until they stand, and says what is in hand."""
        report = self.rested()
        if report is None:
            return
        stand = "the motors stand" if report.is_held or report.waits else "the motors come to rest"
        hand = (f"with {count(report)} in hand, {way(report, self.session.settings)}, which run"
                " or release lets them carry out" if report.behind else "with nothing in hand")
        self.session.face.say(f"{stand}, {hand}", WHERE)

    def rested(self) -> Report | None:
        """The report once they stand, or after some time; None where the player doesn't answer."""
        carried, since = -1, time.monotonic()
        until = since + _REST_S
        while (report := self.session.report()) is not None:
            now = time.monotonic()
            since = since if report.carried == carried else now
            if report.is_held or report.waits or now > min(until, since + _STILL_S):
                break
            carried = report.carried
            time.sleep(0.005)
        return report

    def override(self, word: str, rest: str) -> None:
        """Sets the override by `percent N`, `+`, `-` or `0`; `percent` alone says it."""
        report = self.session.report()
        if report is None:
            if not self.session.meter:
                self.session.face.say("no player is known: --player SOCKET")
            return
        percent = report.percent
        if word == "percent" and rest:
            percent = _percent_of(rest)
        for key in "" if word == "percent" else word:
            percent = _after(key, percent)
        if percent in PERCENTS:
            self._set(report, percent)
        else:
            self.session.face.say(f"percent takes a whole number from {PERCENTS[0]} to {PERCENTS[-1]}: so many percent"
                                  " of OUT's rates", REFUSED)

    def spindle(self, rest: str) -> None:
        """Sets the override of the spindle by `spindle percent N`; `spindle percent` alone says it."""
        word, _, number = rest.partition(" ")
        report = self.session.report()
        if report is None:
            if not self.session.meter:
                self.session.face.say("no player is known: --player SOCKET")
            return
        percent = _percent_of(number) if number.strip() else report.spindle
        if word.lower() != "percent" or percent not in SPINDLE_PERCENTS:
            self.session.face.say(f"spindle percent takes a whole number from {SPINDLE_PERCENTS[0]} to"
                                  f" {SPINDLE_PERCENTS[-1]}: so many percent of OUT's speeds", REFUSED)
            return
        if percent != report.spindle and self._tell(lambda: self.session.meter.link.override_spindle(percent)):
            report = self.session.report() or report
        if percent == report.spindle:
            self.session.face.say(f"the spindle at {percent} % of OUT's speeds", WHERE)
            return
        self.session.face.say(f"the player keeps the spindle at {report.spindle} %: it takes more than {WHOLE} where"
                              " its machine's file has max_rpm in [spindle]", REFUSED)

    def _set(self, report: Report, percent: int) -> None:
        """Tells the player an override, and says whether it takes it."""
        if percent != report.percent and self._tell(lambda: self.session.meter.link.override(percent)):
            report = self.session.report() or report
        if percent == report.percent:
            self.session.face.say(f"{percent} % of OUT's rates", WHERE)
            return
        why = (f"it takes {PERCENTS[0]} to {PERCENTS[-1]}, as far as its most_percent goes" if report.wants else
               "it makes no ramps: start it with --machine FILE")
        self.session.face.say(f"the player stays at {report.percent} %: {why}", REFUSED)

    def _tell(self, what: Callable[[], None]) -> bool:
        """Tells the player something; whether it could be told."""
        try:
            what()
        except NoAnswer as error:
            self.session.face.say(str(error), WARNING)
            return False
        return True


def _percent_of(text: str) -> int:
    """A typed percentage; 0 for another text, which is none."""
    text = text.removesuffix("%").strip()
    return int(text) if text.isascii() and text.isdecimal() and len(text) < 9 else 0


def _after(key: str, percent: int) -> int:
    """The override after a key: the next ten above or below, within what it may be."""
    if key == "0":
        return WHOLE
    tens = percent // TEN * TEN + TEN if key == "+" else -(-percent // TEN) * TEN - TEN
    return min(max(tens, PERCENTS[0]), PERCENTS[-1])
