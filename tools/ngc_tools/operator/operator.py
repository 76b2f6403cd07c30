"""What `ngc-operate` does with a running `ngc run`: commands of people in, sentences out.

One core for whatever shows it, a `Face`."""
import difflib
import os
from collections.abc import Callable
from contextlib import AbstractContextManager
from dataclasses import dataclass

from ngc_tools.files import read_regular
from ngc_tools.formats.device import Device
from ngc_tools.formats.lines import Program
from ngc_tools.formats.settings import Settings
from ngc_tools.ngc.console import NO_TICK, Console, Status
from ngc_tools.operator.alarm import Alarm
from ngc_tools.operator.at_change import AtChange
from ngc_tools.operator.causes import refused, taken
from ngc_tools.operator.choices import Choices
from ngc_tools.operator.commands import BY_WORD, Brings
from ngc_tools.operator.display import on_words
from ngc_tools.operator.ending import Ending
from ngc_tools.operator.face import MESSAGE, REFUSED, WARNING, WHERE, Face, are_keys
from ngc_tools.operator.from_line import FromLine
from ngc_tools.operator.homes import asked_of_home
from ngc_tools.operator.jog_keys import Keys, jog_by_keys
from ngc_tools.operator.left import Left, dropped_g92
from ngc_tools.operator.loading import Loading
from ngc_tools.operator.look import Look
from ngc_tools.operator.macros import Macros
from ngc_tools.operator.measuring import Measuring
from ngc_tools.operator.meter import Meter
from ngc_tools.operator.motors import Motors
from ngc_tools.operator.moves import Moves
from ngc_tools.operator.numbers import nanometres_of
from ngc_tools.operator.opening import say_opening
from ngc_tools.operator.next_session import NextSession
from ngc_tools.operator.offsets import Offsets
from ngc_tools.operator.outputs import comes_on_agreed, outputs_agree
from ngc_tools.operator.places import Places, stops_outputs
from ngc_tools.operator.probing import Probing
from ngc_tools.operator.recover import Recover
from ngc_tools.operator.rehearsing import rehearse
from ngc_tools.operator.runs import Runs
from ngc_tools.operator.sentences import (GO_ON, NOT_MOVED, SWITCHED, SWITCHED_THERE, TAKEN_UP,
                                          TAKEN_UP_THERE)
from ngc_tools.operator.session import ALARM, BROKEN, Nothing, Session, place
from ngc_tools.operator.setter import Setter
from ngc_tools.operator.shapes import Shapes
from ngc_tools.operator.stopping import Stopping
from ngc_tools.operator.slots import fill_below
from ngc_tools.operator.touch import Touch, is_slot
from ngc_tools.operator.typed import ANYWAY, Typed
from ngc_tools.operator.ways import Ways
from ngc_tools.operator.work import CHANGE, SINGLE, Work
from ngc_tools.link.progress import NoAnswer, Report


@dataclass(slots=True)
class TakenUp:
    """A block that is taken up, of which nobody has agreed yet that it goes on. `is_there`: nothing has to move before
    it. `is_switched`: its switch is handed out, and that alone."""

    is_there: bool
    is_switched: bool = False


class Operator:
    """A person's session. It sends no tick that nobody asked for, and hides no refusal. `keys` are those of a terminal,
    by which a person jogs; None where there are none."""

    def __init__(self, console: Console, face: Face, meter: Meter | None) -> None:
        """Raises BadSettings or OSError if the settings of the console can't be read."""
        self.console, self.face = console, face
        self.session = Session(console, face, meter, Settings.read(console.settings))
        self.motors = Motors(self.session)
        self.work = Work(self.session, self.motors, self.do)
        self.places = Places(self.session, self.work)
        self.left = Left(self.session)
        self.loading = Loading(self.session)
        self.ending = Ending(self.session)
        self.recover = Recover(self.session)
        self.choices = Choices(self.session)
        self.alarm = Alarm(self.session)
        self.following = NextSession(self.session, self.motors, self.left, self.recover, self._open)
        self.moves = Moves(self.session, self.motors, self.left, self.following, self.alarm, self.do)
        self.stopping = Stopping(self.session, self.motors, self.ending, self.following,
                                 lambda line: self._line_done(line, True))
        self.touch = Touch(self.session, self.places, self.moves, self._line_done)
        self.offsets = Offsets(self.session, self.touch)
        self.shapes = Shapes(self.session)
        self.probing = Probing(self.session, self.moves, self.touch, self.shapes)
        self.measuring = Measuring(self.session, self.moves, self.touch)
        self.ways = Ways(self.session, self.left, self._line_done)
        self.change = AtChange(self.session, self.moves, self.ways, self.work)
        self.runs = Runs(self.session)
        self.macros = Macros(self.session, self.left, self._line_done)
        self.from_line = FromLine(self.moves, self.recover.way, self.load, self._line_done, self._begun,
                                  lambda: self.go_on("continue", Typed.read("continue")), self.stopping.off)
        self.work.waits_at_change = lambda: self.measuring.is_on and self.measuring.can
        self.keys: Callable[[], AbstractContextManager[Keys]] | None = None
        self.held_jog: Callable[[], None] | None = None  # of a page
        self.over = False
        self.taken_up: TakenUp | None = None

    def begin(self, bound: str, found: Device | None = None) -> None:
        """Says what the session begins with. `found` is the device as it stood before `ngc` was started."""
        self.face.say(bound)
        self._open(found)
        self.runs.begin(self.console.status())
        self.choices.give_back(self.console.status(), self.recover.is_left())

    def know(self, setter: Setter) -> None:
        """Takes what the machine's file says of touching off, and of home."""
        self.touch.know(setter)
        self.ways.know(setter)

    def _open(self, found: Device | None, gives_up: bool = False) -> None:
        """Says what a session of `ngc` begins with, and sees how it stands. Nothing leads on with what is left where
        that is given up at once."""
        self.session.program = Program(self.stored().program)
        say_opening(self.session, self.places, self.left, found, gives_up)
        status = self.console.status()
        self.taken_up = None
        self.runs.is_handed_out = False
        self.choices.forget_given()
        self.recover.begin(status, self.left.is_as_left() and status.half != "mdi", gives_up)
        self.session.noted = status.entries
        self.session.told = status.place

    def do(self, line: str) -> None:
        """Does what a person typed. Raises Ended if `ngc` ends."""
        typed = Typed.read(line)
        command, is_by_keys = BY_WORD.get(typed.word), are_keys(typed.line)
        is_line = command is None and not is_by_keys
        if typed.word and (self.alarm.forbids(typed.word) or self.recover.forbids(typed.word, is_line)):
            return
        if command:
            command.does(self, typed)
        elif is_by_keys:
            self.motors.override(typed.line, "")
        elif typed.word:
            self.mdi(typed.line, typed.anyway)
        if is_by_keys or command and command.brings & Brings.CHOICE:
            self.choices.keep()
        if not self.work.is_amid and not self.recover.is_left():  # what was noted before is true of lines that are left
            self.session.note_out(self.left.is_as_left)

    def load(self, name: str, text: bytes) -> bool:
        """Stores a program that people call `name`, once a dry run tried it; whether it is stored. Raises Ended."""
        session, status = self.session, self.console.status()
        is_busy = status.half != "none" or status.does in ("held", "running")  # `ngc` refuses it
        if not is_busy and not self.loading.agreed(name, text):
            return False
        reply = self.console.load(text)
        if refused(session, reply, "load"):
            return False
        session.program, session.told = Program(text), 0
        self.runs.loaded(name, text)
        self.face.say(f"{reply}: {name}, {len(text):,} bytes, {session.program.count} lines")
        return True

    def look(self) -> tuple[Status, Report | None]:
        """How all stands while nothing runs. Raises Ended, NoAnswer."""
        meter = self.session.meter
        return self.console.status(), meter.link.ask() if meter else None

    def stored(self) -> Device | Nothing:
        """What the device holds, which `ngc` has synced."""
        return self.session.stored()

    # what a word does

    def load_file(self, name: str) -> None:
        """Stores a program of a file."""
        if not name:
            self.face.say("load FILE: which file?")
            return
        path = os.path.expanduser(name)
        try:
            text = read_regular(path)
        except OSError as error:
            self.face.say(f"{path}: {error.strerror}", REFUSED)
            return
        self.load(path, text)

    def run(self, typed: Typed) -> None:
        """Starts the program, or goes on where it waits or is held."""
        waits = self.console.status().does in ("stopped", "held")
        self.go_on("continue" if waits else "start", typed)

    def go_on(self, command: str, typed: Typed) -> None:
        """Starts the program, or goes on with what waits."""
        status = self.console.status()
        if self.taken_up and status.half != "none" and status.does == "held":
            if typed.anyway or self.places.agree(status, f"{typed.word} {ANYWAY}"):
                self._look_again()
            return
        if not typed.anyway and not comes_on_agreed(self.session):
            return
        if self.motors.are_held and self._let_go(command, status):
            return
        if self.from_line.again(status):
            return
        if not typed.anyway and not (self.places.agree(status, f"{typed.word} {ANYWAY}")
                                     and outputs_agree(self.session, status) and self.left.agreed(status)):
            return
        begins = command == "start" and not status.place
        timeline = self.loading.timeline(begins)
        if begins and status.half == "none" and not typed.anyway and not self.loading.begins_as_told(timeline):
            return
        if not self._is_taken(command):
            return
        if status.half == "none" and (said := dropped_g92(self.session)):
            self.face.once(said)
        if command == "start":
            self.session.told = status.place
        self.work.timeline = timeline
        ended = self._run_on()
        if ended != CHANGE and (ended != "refused" or self.console.status().place != status.place):
            self.left.forget()

    def _is_taken(self, command: str) -> bool:
        """Gives a command by which the program goes on; whether it was taken."""
        if refused(self.session, self.console.ask(command)[0], command):
            return False
        self.session.begins(command, self.left.is_as_left)
        return True

    def _begun(self) -> str | None:
        """Starts the stored program from its first line. Returns what ended its work, None for a hold."""
        self.work.timeline = self.loading.timeline(True)
        if not self._is_taken("start"):
            return "refused"
        self.session.told = 0
        self.left.forget()
        return self._work()

    def mdi(self, line: str, anyway: bool) -> None:
        """Does a line of one's own, and says how all stands then."""
        if ended := self._line_done(line, anyway):
            self._say_stand(ended)
            self.left.tell_modes()

    def _line_done(self, line: str, anyway: bool) -> str | None:
        """Does a line of one's own. Returns what ended its work, None where it wasn't taken or is held."""
        status = self.console.status()
        if status.half == "none" and not self.motors.are_free():
            return None
        is_asked = not anyway and not stops_outputs(line)
        if status.half == "none" and is_asked and not comes_on_agreed(self.session):
            return None
        compared = status.half == "none" and is_asked
        if compared and not self.places.agree(status, f"{ANYWAY} {line}"):
            return None
        text = line.encode("utf-8", "surrogateescape")
        if compared and (question := asked_of_home(self.session, text)) and not self.session.agrees(question):
            self.face.say("nothing is done")
            return None
        if status.half == "none":
            self.left.keep()
        reply = self.console.ask(b"mdi " + text)[0]
        if refused(self.session, reply, f"mdi {line}"):
            self._near(line)
            return None
        self.session.begins("mdi " + text.decode("latin-1"), self.left.is_as_left)
        self.session.own = line
        return self._work()

    def _near(self, line: str) -> None:
        """Names the command that is meant, if a line of G-code was none."""
        word = line.split()[0].lower() if line else ""
        if word.isalpha() and len(word) > 1:
            near = " or ".join(difflib.get_close_matches(word, BY_WORD, 2))
            self.face.say(f"nor is {word} a command; {f'did you mean {near}? ' if near else ''}help lists them")

    def restore(self) -> None:
        """Types the lines that put back what was in force before lines of one's own."""
        if not self.left.differs():
            self.face.say("all is in force as it was")
            return
        found = self.left.restoring()
        for line in found.lines:
            self.face.say(f"restore: {line}")
            if not self._line_done(line, False):
                return
        Look(self.session).after_work()
        if found.left:
            self.face.say("it can't put back " + "; nor ".join(found.left), WARNING)

    def tool(self, typed: Typed) -> None:
        """Gives a slot a length."""
        slot, _, length = typed.rest.partition(" ")
        if is_slot(slot):
            fill_below(self.session, int(slot), nanometres_of(length.strip()))
        self.plain(typed)

    def plain(self, typed: Typed) -> None:
        """Has `ngc` do it as it is typed."""
        gives_up = typed.word == "abandon" and self.console.status().does == "idle"
        if gives_up:
            self.left.keep()
        is_still = gives_up and self.recover.is_still()
        reply = self.console.ask(" ".join([typed.word, *typed.rest.lower().split()]))[0]
        if taken(self.session, reply, f"{typed.word} {typed.rest}".strip()) and typed.word in ("delete", "optional"):
            setattr(self.session, typed.word, typed.rest.lower() == "on")
        if is_still:
            self.recover.still()  # what is left in OUT is as it was

    def rewind(self) -> None:
        """The program that is stored begins with its first line again, as if it were loaded."""
        if self.session.program.text:
            self.load("from line 1", self.session.program.text)
        else:
            self.face.say("no program is stored: load FILE", REFUSED)

    def set_single(self, rest: str) -> None:
        """Whether it holds after each line."""
        if rest.lower() not in ("on", "off"):
            self.face.say("single on, or single off: whether it holds after each line", REFUSED)
            return
        self.session.single = rest.lower() == "on"
        self.face.say(f"single {rest.lower()}")

    def hold_all(self, typed: Typed) -> None:
        """Holds the motors, and `ngc`."""
        stand = self.motors.hold()
        self.plain(typed)
        if stand:
            self.motors.say_rest()

    def release(self) -> None:
        """Lets the motors carry out what is in hand; `ngc` stays as it is. While something runs that is all."""
        if self.work.is_amid:
            if comes_on_agreed(self.session):
                self.motors.release()
            return
        report = self.session.report()
        if not self.motors.are_held and not (report and report.behind):
            self.face.say("the motors aren't held")
            return
        if not comes_on_agreed(self.session):
            return
        self.motors.release()
        if self.work.await_motors():
            self.see_carried_out()
            Look(self.session).after_work()

    def see_carried_out(self) -> None:
        """The motors rest: where the last session had handed out all of a run, sees whether its lines are carried out.
        """
        try:
            if self.runs.is_handed_out and self.recover.is_carried_out():
                self.runs.carried_out()
        except (NoAnswer, OSError) as error:
            self.face.say(str(error), WARNING)

    def jog(self, rest: str) -> None:
        """Jogs as the words say; without any by keys, where there are some, or as a page holds on."""
        if not rest and self.held_jog is not None:
            self.held_jog()
        elif rest or self.keys is None or self.work.is_amid:
            self.moves.jog(rest)
        else:
            jog_by_keys(self.moves, self.keys())

    def _let_go(self, command: str, status: Status) -> bool:
        """Lets held motors go on. Whether that is all that is done: where `ngc` isn't held, what it handed out is
        carried out first, and the program goes on by the next command."""
        is_held = status.does == "held"
        if is_held and command == "start" or not is_held and status.half != "none":
            return False  # `ngc` refuses it
        report = self.session.report()
        self.motors.release()
        if is_held or not report or not report.behind:
            return False
        if self.work.await_motors():
            Look(self.session).after_work()
        return True

    def reference(self, typed: Typed) -> None:
        """Tells where the machine stands."""
        if self.alarm.stands():
            if self.alarm.place(typed.rest.lower().split()):
                self.moves.tell()
            return
        if not self.recover.keeps_lost():
            return
        if self.console.status().half == "none":
            self.left.keep()
        is_still = self.recover.is_still()
        self.places.reference(typed.rest.lower().split(), typed.anyway)
        if is_still:
            self.recover.still()
        if typed.rest.lower() != "player":
            self.moves.touched = None

    def bring_back(self) -> None:
        """Brings the motors to where a half-done segment begins, and takes it up; without one to where what was handed
        out ends."""
        status = self.console.status()
        try:
            left = self._size_of_out() if self.recover.is_left() else None
            is_there = self.recover.go(status)
            is_whole = left is not None and self._size_of_out() >= left  # nothing is cut off
        except (NoAnswer, OSError) as error:
            self.face.say(str(error), WARNING)
            return
        if is_there and status.half != "none":
            self._take_up(self.console.status(), True)
        elif is_there and is_whole:
            self.runs.carried_out()

    def _size_of_out(self) -> int:
        """The bytes of OUT, a file that is followed. Raises OSError."""
        return self.recover.found.link.size()

    def drop(self) -> None:
        """Cuts off OUT what no motor carried out."""
        try:
            self.recover.drop()
        except (NoAnswer, OSError) as error:
            self.face.say(str(error), WARNING)

    def resume(self, typed: Typed) -> None:
        """Takes a half-done block up. A player brings the motors there first, at a feed: `ngc` would go at the traverse
        rate, down into the work too."""
        status = self.console.status()
        is_half = status.half != "none"
        self.recover.way.looked = None
        if is_half and status.known and self.motors.are_held and not self._let_way_end():
            return
        if is_half and not typed.anyway and not self.places.agree(status, f"resume {ANYWAY}"):
            return
        is_there = is_half and status.known and status.does == "idle" and not typed.anyway and self.session.meter
        try:
            if is_there and not self.recover.straight():
                return
        except (NoAnswer, OSError) as error:
            self.face.say(str(error), WARNING)
            return
        self._take_up(self.console.status(), bool(is_there))

    def _let_way_end(self) -> bool:
        """Lets motors that are held before a block is taken up go on, once somebody has looked; whether they stand."""
        try:
            return self.recover.way.ends()
        except NoAnswer as error:
            self.face.say(str(error), WARNING)
            return False

    def _take_up(self, status: Status, is_there: bool) -> None:
        """Takes a half-done block up: stops after the switch, and asks. `is_there`: nothing has to move before it."""
        reply = self.console.ask("resume")[0]
        if refused(self.session, reply, "resume"):
            if reply.startswith("refused K3"):
                self.places.offer()
            return
        self.session.begins("resume", self.left.is_as_left)
        self.left.forget()
        said = TAKEN_UP_THERE if is_there else TAKEN_UP
        self.face.say(said.format(half=self.session.half(status), place=place(status)), WARNING)
        self.taken_up = TakenUp(is_there)
        self._look_and_go(self.taken_up)

    def _look_again(self) -> None:
        """Nobody has agreed yet since a block was taken up, and nothing but its switch was handed out: asks again."""
        if self.motors.are_held:
            self.motors.release()
        if self.taken_up and not refused(self.session, self.console.ask("continue")[0], "continue"):
            self._look_and_go(self.taken_up)

    def _look_and_go(self, taken_up: TakenUp) -> None:
        """Makes the switch of a block that is taken up, and goes on once somebody has looked."""
        if not self._switched(taken_up):
            self._hold()
        elif self.session.agrees(self._last_look(taken_up.is_there)):
            self.taken_up = None
            self._run_on()
        else:
            self._hold()
            self.face.say(NOT_MOVED, WARNING)
            if left_on := self.ending.left_on():
                self.face.say(f"on: {left_on}. {self.ending.how_off()}", WARNING)

    def _last_look(self, is_there: bool) -> str:
        """What is asked before the block goes on: once somebody looked at what is on, and it is the same, nothing is to
        be looked at again."""
        seen, looked = self.session.seen, self.recover.way.looked
        if looked is not None and seen is not None and on_words(seen.outputs) == looked:
            return GO_ON
        return SWITCHED_THERE if is_there else SWITCHED

    def _switched(self, taken_up: TakenUp) -> bool:
        """Makes the switch of an approach, once; whether the motors' side has done it too."""
        if not taken_up.is_switched:
            if not self.work.await_motors() or not self.work.room():
                return False
            replies = self.console.ask("tick 2")
            if replies == [NO_TICK] or any(map(self.session.is_refusal, replies)):
                return False
            taken_up.is_switched = True
        return self.work.await_motors()

    def rehearse(self, rest: str) -> None:
        """Says what `resume` would do, or `start`, perhaps from another point."""
        rehearse(self.session, rest.split())

    def tell_go(self) -> None:
        """Tells the player that the tool is in."""
        if not self.session.meter:
            self.face.say("no player is known: --player SOCKET")
            return
        try:
            self.change.go()
        except NoAnswer as error:
            self.face.say(str(error), WARNING)

    def quit(self) -> None:
        """Ends the session, once a person knows what stays half-done and what stays on."""
        status = self.console.status()
        question = "quit? yes ends the session, anything else doesn't: "
        leaves = [self.ending.leaves_half(status), self.ending.leaves_lines()]
        if any(leaves) and not self.session.agrees(question):
            return
        if left_on := self.ending.left_on():
            self._offer_off(status, left_on)
        self.runs.leaves()
        self.over = True

    def _offer_off(self, status: Status, left_on: str) -> None:
        """Says what is on, and switches it off if that can be done and is wanted."""
        if not self.ending.can_switch(status):
            within = "Within a block no M5 is done. " if status.half != "none" else ""
            self.face.say(f"still on: {left_on}. {within}{self.ending.how_off()}", WARNING)
        elif self.session.agrees(f"still on: {left_on}. Switch off? yes does M5 and M9, anything else doesn't: "):
            for line in ("M5", "M9"):
                self._line_done(line, True)
            Look(self.session).after_work()

    # work

    def _run_on(self) -> str | None:
        """The same as `_work`, and says how all stands then."""
        ended = self._work()
        stands = "stopped" if ended == CHANGE else ended
        if stands == "stopped":
            self._say_remark()
        if stands is not None:
            self._say_stand(stands)
        return ended

    def _say_remark(self) -> None:
        """Says the plain comment of the line at which the program stopped."""
        status = self.console.status()
        found = self.session.program.remark(status.place) if status.half == "none" and status.place else None
        if found and found[1]:
            self.face.say(f"comment, {self.session.program.named(found[0])}: {found[1]}", MESSAGE)

    def _work(self) -> str | None:
        """Gives ticks until there is nothing to do, or somebody holds. Returns what ended them, None for a hold, CHANGE
        where the program waits behind a tool change, and isn't as it was left there."""
        is_program = self.runs.goes()
        ended = self.work.go()
        if is_program:
            self.runs.rests(ended)
        if ended is None:
            self._hold()
            return None
        self.session.own = ""
        if ended in (SINGLE, CHANGE):
            is_change, ended = ended == CHANGE, self.console.ask("hold")[0]
            if is_change and ended == "held":
                return self._measured(ended)
        return ended

    def _measured(self, ended: str) -> str | None:
        """Behind a tool change, where the program is held: once the tool is measured, as a person wants, the program
        goes on; else it waits. Returns as `_work`."""
        report, slot, probe = self.session.report(), self.stored().slot, self.touch.setter.probe
        if report is None or report.behind or report.is_held or self.session.single:
            return ended
        if slot and not (probe and probe.slot == slot):
            self.left.forget()  # what is kept from now on is how the program was left here
            if self._line_done(f"(tool {slot} is in)", True) is None:
                return None
            if not self.measuring.at_change(slot):
                self.face.say("the program waits behind the tool change: run goes on", WARNING)
                return "stopped" if self.left.is_as_left() else CHANGE
        self.left.forget()
        if not self._is_taken("continue"):
            return "stopped"
        return self._work()

    def _say_stand(self, ended: str) -> None:
        """Says how all stands once work has ended so."""
        if ended == "stopped" and self.console.status().half == "none":
            self.face.say(f"stopped; the tool in the spindle is {self.stored().slot or 'none'}. run goes on", WHERE)
        Look(self.session).after_work()

    def _hold(self) -> None:
        """Holds the motors, if they make ramps, and then `ngc`."""
        session, stand = self.session, self.motors.hold()
        reply = self.console.ask("hold")[0]
        if reply == "held" and not session.gone and not stand and not session.is_in(ALARM, BROKEN):
            reply += f"; {self._ahead()} are still carried out"
        self.face.say(reply)
        if stand:
            self.motors.say_rest()
        Look(session).after_work()

    def _ahead(self) -> str:
        """What is handed out and may not be carried out yet."""
        meter, seen = self.session.meter, self.session.seen
        return f"up to {meter.limit(seen):,} lines that are handed out" if meter and seen else "the lines in OUT"

    # what is said

    def where(self) -> None:
        """Says how all stands."""
        Look(self.session).all(self.loading.timeline(False))

    def status(self) -> None:
        """The same, behind `ngc`'s own reply."""
        self.face.say(self.console.ask("status")[0])
        self.where()
