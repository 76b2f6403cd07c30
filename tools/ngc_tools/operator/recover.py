"""`recover`: after a loss of power the motors go to where the half-done segment begins, each step shown and asked.

The player moves them, since it has the machine's words, its pins and its record, and a second one couldn't have them
too. It is sent by a datagram that names bytes of OUT, and takes that only at rest with nothing in hand; where they lead
it reads itself. So no word of a console can make it leave the lines that were handed out, but for legs, which go up
first, and the straight line of `resume`, which goes at a feed."""
from functools import partial

from ngc_tools.formats.device import Device
from ngc_tools.formats.machine import MOST_PERCENTS
from ngc_tools.formats.position import Position, distance, millimetres, nanometres
from ngc_tools.job.figures import millimetres as rounded
from ngc_tools.ngc.console import Status
from ngc_tools.operator.causes import taken
from ngc_tools.operator.commands import Brings, words_that_bring
from ngc_tools.operator.face import REFUSED, WARNING, axes
from ngc_tools.operator.feeds import cut_feed
from ngc_tools.operator.modes import trimmed
from ngc_tools.operator.past import Past, along_out, by_rate
from ngc_tools.operator.places import is_same_place
from ngc_tools.operator.recovery import OutFound, Recovery
from ngc_tools.operator.rehearsing import segment_begins
from ngc_tools.operator.session import Session
from ngc_tools.operator.way_back import WayBack
from ngc_tools.link.progress import NoAnswer, Report
from ngc_tools.link.way import count_lines

_STORES = words_that_bring(Brings.HANDS_OUT | Brings.ENTRY)
_TAKE_UP = words_that_bring(Brings.TAKES_UP)
LEFT = """\
lines stand in OUT that no motor carried out, behind line {line}: recover goes on along them, or back; drop cuts them
off, and then nothing makes them any more"""
DROPS = """\
{count} lines are cut off OUT, behind its line {line}, and nothing makes them any more. yes cuts them off: """
LOST = """\
{out} has none of the {count} lines that were handed out last, and no motor carried them out if it is the OUT of that
session: before anything is stored it is asked whether they are put back"""
HIDES = """\
{out} has none of the {count} lines that were handed out last, and after what is stored next nothing tells them any
more. Were they lost with the power, and is it the OUT of that session? yes puts them back for recover; anything else
goes on without them: """
THERE = "the motors are where what was handed out leads: run goes on"
NOT_THERE = "what was handed out and not carried out is cut off; reference player tells ngc where the motors are"
ON_WAY = """\
the way of recover isn't at its end: recover goes on with it; drop cuts off OUT what no motor carried out, once they
stand with nothing in hand"""
HALF = "recover goes back along OUT to where the half-done segment begins, and takes it up"
STANDS = """\
By the record the motors stand at {at}, behind line {line} of OUT.
{past},
and more if the disk was slower at the very end; and a motor that turned went on for a while. Where steps may be
lost, answer no: home the machine, and start the player anew with --at X Y Z.
Do they stand there? yes goes on, anything else ends: """
SURE = """\
The motors stand at {at}, behind line {line} of OUT: that was told since the player began, by a person, a home or the
step sink"""
NO_LINES = """\
Without lines of OUT legs alone lead on, from {at}, where the motors stand by the record.
What was handed out and not carried out is never cut then, and is cut off OUT. yes goes on, anything else ends: """


class Recover:
    """What `recover` and `drop` do, and `resume` before its block. `found` is what the session found of OUT, a file;
    None where OUT is none. `way` brings the motors. `most_percent` is the most that an override may be, by the
    machine's file; without one what any file may say.
    `confirmed_nm` is where a person, who was told of `past`, has confirmed that the motors stand: by the record at that
    very place they aren't asked about again, once."""

    def __init__(self, session: Session) -> None:
        self.session = session
        self.found: OutFound | None = None
        self.way = WayBack(session)
        self.most_percent = MOST_PERCENTS[-1]
        self.confirmed_nm: tuple[int, ...] | None = None
        self._entries: int | None = None  # as the session began

    def forbids(self, word: str, is_line: bool) -> bool:
        """Whether a command would store or hand out something behind lines that no motor carried out; says it. Before
        that it asks whether those that OUT lost are put back. Raises OSError."""
        if self.found is None or not (is_line or word in _STORES):
            return False
        if word not in _TAKE_UP and not self.keeps_lost():
            return True
        if not self.found.is_left():
            return False
        left = ON_WAY if self.found.is_sent else LEFT.format(line=self.found.recovery.lines)
        self.session.face.say("nothing is done: " + left, REFUSED)
        return True

    def is_left(self) -> bool:
        """Whether lines stand in OUT, a file, that no motor carried out, or are taken back. Raises OSError."""
        return self.found is not None and self.found.is_left()

    def is_carried_out(self) -> bool:
        """Whether nothing is left in OUT, looked at where the motors rest now. Raises NoAnswer, OSError."""
        if self.found is None:
            return True
        self.found.look_again(self.found.link.ask())
        return not self.found.is_left()

    def begin(self, status: Status, as_left: bool = False, gives_up: bool = False) -> None:
        """Says as the session begins what is left. `as_left`: nothing was done since the program was left for its next
        line; `gives_up`: what is half-done is given up at once."""
        self._entries = status.entries
        if self.found is None:
            return
        for said in self.found.said:
            self.session.face.say(said, WARNING)
        self.session.noting(partial(self.found.note, as_left))
        beginning = self.found.recovery.beginning
        if self.found.is_left():
            self.session.face.say(LEFT.format(line=self.found.recovery.lines), WARNING)
        elif status.half == "none" and beginning and beginning.is_new:
            self.session.face.say(LOST.format(out=self.found.link.out, count=beginning.missing.count(b"\n")), WARNING)
        elif status.half != "none" and not gives_up:
            self.session.face.say(HALF, WARNING)

    def keeps_lost(self) -> bool:
        """Before something is stored, where no block is half-done: asks whether lines that OUT lost with the power are
        put back, of which nothing tells any more after it. Whether that can be stored now: False where they couldn't
        be put back, which is said."""
        beginning = self.found.recovery.beginning if self.found else None
        if beginning is None or not beginning.is_new or not beginning.missing or not self.is_still():
            return True
        status, count = self.session.console.status(), beginning.missing.count(b"\n")
        if status.half != "none":
            return True
        is_wanted = self.session.agrees(HIDES.format(out=self.found.link.out, count=count))
        try:
            if is_wanted:
                self.found.put_back()
            else:
                self.found.undo()
        except (NoAnswer, OSError) as error:
            self.session.face.say(f"they aren't put back, and nothing is stored: {error}", REFUSED)
            return False
        if is_wanted:
            self.session.face.say(LEFT.format(line=self.found.recovery.lines), WARNING)
        return True

    def is_still(self) -> bool:
        """Whether nothing was done since the session began but what left all as it was."""
        return self.session.console.status().entries == self._entries

    def still(self) -> None:
        """What was done since the session began left what the last one left as it was."""
        self._entries = self.session.console.status().entries

    def drop(self) -> None:
        """Cuts off what no motor carried out. Raises NoAnswer, OSError."""
        if self.found is not None:
            self.found.undo()
        if self.found is None or not self.found.is_left():
            self.session.face.say("no line is left in OUT that no motor carried out")
            return
        if self.found.link.ask().behind:
            self.session.face.say("nothing is cut off: the motors are on their way. release lets them go to its end",
                                  REFUSED)
            return
        self.found.look()
        line, size = self.found.recovery.lines, self.found.recovery.size
        count = count_lines(self.found.link.file, size, self.found.link.size())
        if not self.session.agrees(DROPS.format(count=count, line=line)):
            return
        self.found.cut(size)
        self.session.face.say(f"OUT ends behind line {self.found.recovery.lines}")

    def go(self, status: Status) -> bool:
        """Brings the motors to where the half-done segment begins, or what was handed out ends, and tells `ngc`;
        whether they are there. Raises NoAnswer, OSError, Ended."""
        if self.session.meter is None:
            self.session.face.say("no player is known: --player SOCKET", REFUSED)
            return False
        self.way.looked = None
        is_on_way = self.found is not None and self.found.is_sent
        if status.does != "idle" or not is_on_way and status.entries != (self._entries or status.entries):
            self.session.face.say("recover is for what the last session left, before anything else is done", REFUSED)
            return False
        if status.half != "none":
            self.session.face.say(f"{self.session.half(status)} is half-done")
        elif self.found is None or not self.found.is_left() and self.found.recovery.is_there():
            self.session.face.say("nothing is half-done, and nothing is left in OUT: run goes on")
            return False
        if not self.way.ends():
            return False
        if self.found is not None and not self._is_brought(self.found):
            return False
        if self.found is None and not self._stands():
            return False
        if status.half == "none":
            return self._tells_end(self.found.recovery)
        return self._is_over()

    def straight(self) -> bool:
        """In one straight line to where the half-done segment begins, at a feed, and tells `ngc`; whether the motors
        are there. Raises NoAnswer, OSError, Ended."""
        self.way.looked = None
        report, begins = self.session.report(), segment_begins(self.session)
        if report is None or begins is None:
            return False
        at, wanted = self._from_and_to(report, begins[0])
        if at == wanted:
            return True
        (*_, z), point = (tuple(map(nanometres, place.split())) for place in (at, wanted))
        length = distance(tuple(map(nanometres, at.split())), point)
        self.session.face.say(f"one straight line of {rounded(length)} mm to {axes(wanted.split())}"
                              + (f", {rounded(z - point[2])} mm DOWN" if z > point[2] else "")
                              + ". Z isn't lifted first", WARNING)
        feed = self.way.feed(self._cut_feed(), "there")
        link = self.session.meter.link
        return feed is not None and self.way.goes(
            begins[1], lambda: link.straight(wanted, self._size(), feed), wanted) and self._tells(wanted)

    def _is_over(self) -> bool:
        """By legs to where the half-done segment begins, if the motors aren't there; whether they are, and `ngc` is
        told so."""
        session, report = self.session, self.session.report()
        begins = segment_begins(session)
        if report is None or begins is None:
            return False
        at, wanted = self._from_and_to(report, begins[0])
        if at != wanted:
            session.face.say(f"the motors are at {axes(at.split())} by the record, and no lines of OUT lead from there"
                             f" to {axes(wanted.split())}, where the segment begins")
            chosen = self._legs(at, wanted)
            if chosen is None or not self.way.goes(
                    begins[1], lambda: session.meter.link.legs(chosen[0], wanted, self._size(), chosen[1]), wanted):
                return False
        return self._tells(wanted)

    def _tells_end(self, recovery: Recovery) -> bool:
        """Tells `ngc` where the motors are, behind what was handed out, where it has the machine elsewhere, as after a
        block was given up; whether it takes that."""
        status, at = self.session.console.status(), " ".join(map(millimetres, recovery.at_nm))
        if not recovery.beginning:
            self.session.face.say(NOT_THERE)
            return True
        is_told = status.known and is_same_place(self.session.settings, status.at, at.split())
        if not is_told and not self._tells(at):
            return False
        self.session.face.say(THERE)
        return True

    def _tells(self, at: str) -> bool:
        """Tells `ngc` where the motors are; whether it takes that."""
        return taken(self.session, self.session.console.ask(f"reference {at}")[0], f"reference {at}")

    def _size(self) -> int:
        """The bytes of OUT, a file."""
        return 0 if self.found is None else self.found.link.size()

    def _from_and_to(self, report: Report, begins: tuple[str, ...]) -> tuple[str, str]:
        """Where the motors are and have to be, in whole steps."""
        step_nm = self.session.settings.step_nm
        at, wanted = (" ".join(millimetres(nm) for nm in Position(step_nm, map(nanometres, point)).nm)
                      for point in (report.at.split(), begins))
        return at, wanted

    def _legs(self, start: str, end: str) -> tuple[str, str] | None:
        """The height of legs, and the feed of the last one, as a person types them; None for none."""
        lift = self.way.height(start, end)
        if lift is None:
            return None
        is_down = nanometres(lift) > nanometres(end.split()[2])
        feed = self.way.feed(self._cut_feed(), "down, on the last leg") if is_down else "1"
        if feed is None:
            return None
        self.way.say_legs(start, end, lift, feed)
        return lift, feed

    def _cut_feed(self) -> int:
        """The feed of what was cut off, in nm a minute; 0 where none is known."""
        device, console = self.session.stored(), self.session.console
        return cut_feed(console.ngc, console.settings, device) if isinstance(device, Device) else 0

    def _is_brought(self, found: OutFound) -> bool:
        """Along OUT, or by legs to it; whether the motors are there."""
        found.undo()
        face, report = self.session.face, found.link.ask()
        found.look_again(report)
        recovery = found.recovery
        if recovery.beginning and recovery.beginning.is_new and not self._puts_back(found):
            return False
        recovery = found.recovery
        if recovery.beginning is None:
            face.say(recovery.problem, REFUSED)
            return self._gives_up(found, report)
        if not self._stands():
            return False
        face.say(recovery.words())
        if not recovery.is_there() and not self._sends(found, recovery, report):
            return False
        found.cut(recovery.beginning.size)  # what stands behind the line is handed out again
        return True

    def _gives_up(self, found: OutFound, report: Report) -> bool:
        """Goes on without OUT's lines; whether a person wants that."""
        if not self.session.agrees(NO_LINES.format(at=axes(report.at.split()))):
            return False
        found.cut(found.recovery.size)
        return True

    def _puts_back(self, found: OutFound) -> bool:
        count = found.recovery.beginning.missing.count(b"\n")
        if not self.session.agrees(f"{found.link.out} has none of the {count} lines that were handed out before the"
                                   " half-done block. Were they lost with the power, and is it the OUT of that session?"
                                   " yes puts them back, anything else ends: "):
            return False
        found.put_back()
        return True

    def _sends(self, found: OutFound, recovery: Recovery, report: Report) -> bool:
        """Sends the player; whether it came there."""
        link, size = found.link, recovery.beginning.size
        ends, legs = (" ".join(map(millimetres, nm)) for nm in (recovery.at_nm, recovery.legs_nm))
        chosen = self._legs(report.at, legs) if recovery.way is None else None
        if recovery.way is None and chosen is None:
            return False

        def send() -> None:
            """From here on OUT's end isn't where it was, unless somebody held before that."""
            with found.sends():
                if chosen:
                    link.legs(chosen[0], legs, size, chosen[1])
                else:
                    link.along(size, trimmed(recovery.most_nm) if recovery.most_nm else "")

        return self.way.goes(recovery.outputs, send, ends, recovery.line)

    def _stands(self) -> bool:
        """Whether a person says that the motors are where the record has them, once it is said how far they may be past
        it."""
        report = self.session.report()
        confirmed_nm, self.confirmed_nm = self.confirmed_nm, None
        if report is None:
            return False
        if confirmed_nm == tuple(map(nanometres, report.at.split())):
            return True
        at, line = axes(report.at.split()), report.carried
        if self.session.meter.link.is_sure():
            self.session.face.say(SURE.format(at=at, line=line))
            return True
        return self.session.agrees(STANDS.format(at=at, line=line, past=self.past().words()))

    def past(self) -> Past:
        """How far the motors may be past the record. Raises NoAnswer, OSError."""
        settings, age_ms = self.session.settings, self.session.meter.link.age_ms()
        percent = self.most_percent if self.session.seen and self.session.seen.wants else 100  # else it has no override
        if self.found is None:
            return by_rate(settings, age_ms, percent)
        recovery = self.found.recovery
        if recovery.way is None:  # beside OUT's path, as within legs
            return by_rate(settings, age_ms, percent)
        return along_out(self.found.link.file, recovery.lines, recovery.size, settings, age_ms, percent)
