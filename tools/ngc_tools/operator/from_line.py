"""`from N`: the program goes on from one of its lines. What is in force there is found and compared with what is now,
the way there is asked, and the rest of the program is stored behind that way: what is on, a stop to look, up, over,
down. Lines before are never run."""
from collections.abc import Callable, Iterator
from contextlib import contextmanager
from dataclasses import replace

from ngc_tools.failure import Failure
from ngc_tools.formats.device import Device
from ngc_tools.formats.out import OFF, Switch
from ngc_tools.formats.position import millimetres, nanometres
from ngc_tools.ngc.console import Status
from ngc_tools.ngc.copies import Interrupted
from ngc_tools.operator.causes import busy, reference_words
from ngc_tools.operator.commands import BY_WORD
from ngc_tools.operator.display import offsets_words, on_words
from ngc_tools.operator.face import REFUSED, WARNING
from ngc_tools.operator.line_before import LineBefore, LineSearch, NotFromLine
from ngc_tools.operator.modes import point_words, restoring
from ngc_tools.operator.moves import Moves
from ngc_tools.operator.sentences import LOOK, LOOK_SWITCHED
from ngc_tools.operator.session import Session
from ngc_tools.operator.way_back import WayBack
from ngc_tools.link.progress import NoAnswer

_TOOL = "before {line} {tool} is in the spindle. yes does T{slot} M6 now, anything else ends: "
_STORES = """\
The stored program is then {line} of it and those after it, behind the way there: {on}, a look, up, over, down.
yes stores and begins it, anything else does nothing: """
_NO_SPINDLE = "the spindle stands there: no line before {line} switches it on"
_KNOWN_FEED = "F{feed} is in force there"
_NOT_SWITCHED = "the player doesn't switch that on, and nothing has moved: it says why at its own terminal"
_NOTHING = "nothing is done"
_NOT_BEGUN = "nothing has moved: run asks for the way anew"


class FromLine:
    """What it does. `load` stores a program by its name; `line_done` does a line of one's own; `begins` starts the
    stored program, and says what ended its work; `goes_on` goes on behind a stop; `off` switches off what is on."""

    def __init__(self, moves: Moves, way: WayBack, load: Callable[[str, bytes], bool],
                 line_done: Callable[[str, bool], str | None], begins: Callable[[], str | None],
                 goes_on: Callable[[], None], off: Callable[[], None]) -> None:
        self.session: Session = moves.session
        self.moves, self.way, self.load, self.line_done = moves, way, load, line_done
        self.begins, self.goes_on, self.off = begins, goes_on, off
        self._is_on_way = False  # somebody has looked, and it is gone

    def do(self, rest: str) -> None:
        """Goes on from the line of a number. Raises Ended."""
        if not rest.isascii() or not rest.isdecimal() or len(rest) > 7:
            self.session.face.say(BY_WORD["from"].usage, REFUSED)
            return
        try:
            if not self._do(int(rest)):
                self.session.face.say(_NOTHING)
        except NotFromLine as why:
            self.session.face.say(f"from {rest}: {why}", REFUSED)

    def again(self, status: Status) -> bool:
        """Whether the stored program is before the end of the way to a line, and nobody goes it: then it goes on from
        that line, by a way from where the machine stands now. Raises Ended."""
        way, first = self.session.program.way
        is_before = status.half == "none" and status.does in ("idle", "stopped") and not self._is_on_way
        if not is_before or self.session.program.number(status.place) > way:
            return False
        self.do(str(first))
        return True

    def _do(self, number: int) -> bool:
        """Whether the rest is stored. Raises NotFromLine, Ended."""
        before = self._found(number)
        if before.state.slot != self._device().slot:
            if not self._puts_tool_in(before):
                return False
            before = self._found(number)
        self._say(before)
        text = self._asked(before)
        if text is None:
            return False
        on = on_words(before.state.outputs)
        question = _STORES.format(line=before.named, on=f"{on} on" if on else "spindle and coolant off")
        if not self.session.agrees(question) or not self.load(f"the program from {before.named} on", text):
            return False
        self._begin(text, on)
        return True

    def _begin(self, text: bytes, on: str) -> None:
        """Switches on what is `on` there, has somebody look, and goes on."""
        outputs = self.session.seen.outputs if self.session.seen else OFF
        if self._begun() != "stopped":
            return
        if not self._is_switched(on):
            self.session.face.say(_NOT_SWITCHED, WARNING)
        elif self.session.agrees(LOOK_SWITCHED if on else LOOK):
            self._is_on_way = True
            try:
                self.goes_on()
            finally:
                self._is_on_way = False
            return
        self._switch_back(outputs)
        if self.load("the same", text):
            self.session.face.say(_NOT_BEGUN, WARNING)

    def _begun(self) -> str | None:
        """Begins the way, up to its stop: what ended that. It moves nothing, so it isn't held after each line."""
        self.session.goes_through = True
        try:
            return self.begins()
        finally:
            self.session.goes_through = False

    def _is_switched(self, on: str) -> bool:
        """Whether that is on at the machine, as far as a player tells it."""
        report = self.session.report()
        try:
            if report and report.behind and not self.way.waits():
                return False
        except NoAnswer as error:
            self.session.face.say(str(error), WARNING)
            return False
        return not self.session.meter or self.session.seen is not None and on_words(self.session.seen.outputs) == on

    def _switch_back(self, outputs: Switch) -> None:
        """Switches off what came on: by lines, so that `ngc` knows; where somebody holds, the player does it."""
        if not self.session.meter or not self.session.face.interrupted():
            self.off()
            return
        try:
            self.way.switches_back(outputs)
        except NoAnswer as error:
            self.session.face.say(str(error), WARNING)

    # what is found

    def _device(self) -> Device:
        """The device, where a program may begin. Raises NotFromLine."""
        session, device = self.session, self.session.stored()
        status = session.console.status()
        if status.half != "none" or status.does not in ("idle", "stopped"):
            raise NotFromLine(busy(session, status, "from"))
        if not isinstance(device, Device):
            raise NotFromLine("the device can't be read")
        if not session.program.text:
            raise NotFromLine("no program is stored: load FILE")
        if not (self.moves.is_sure() if session.meter else status.known):
            raise NotFromLine(f"it isn't known where the machine stands: {reference_words(session)}")
        return device

    def _search(self) -> LineSearch:
        session = self.session
        return LineSearch(session.console.ngc, str(session.console.settings), session.settings, self._device(),
                          session.delete, session.face.interrupted)

    def _found(self, number: int) -> LineBefore:
        """What is in force before a line. Raises NotFromLine."""
        search = self._search()
        with _by_copy():
            return search.find(self.session.program, number)

    def _puts_tool_in(self, before: LineBefore) -> bool:
        """Has the tool put in that is in the spindle there, if a person wants that now; whether it is in."""
        slot = before.state.slot
        tool = f"tool {slot}" if slot else "no tool"
        if not self.session.agrees(_TOOL.format(line=before.named, tool=tool, slot=slot)):
            return False
        return self.line_done(f"T{slot} M6", True) is not None and self._device().slot == slot

    def _say(self, before: LineBefore) -> None:
        """Says what is in force there and isn't now, and where the machine would have to be."""
        device, state, face = self._device(), before.state, self.session.face
        text = self.session.program.text.split(b"\n")[before.index]
        lines = restoring(replace(state, motion=device.state.motion), device.state, device.tools_nm).lines
        face.say(f"{before.named}: {text.decode('latin-1').strip()}")
        face.say(f"in force there and not now: {'; '.join(lines)}" if lines else "all is in force now as it is there")
        face.say(f"the tool is at {point_words(before.tip_nm)} there, machine {point_words(before.point_nm)}, by"
                 f" {offsets_words(state)}; the machine stands at {point_words(device.state.point_nm)}")
        if not state.spindle:
            face.say(_NO_SPINDLE.format(line=before.named), WARNING)

    def _asked(self, before: LineBefore) -> bytes | None:
        """The rest behind the way there, which a person is asked for; None for none. Raises NotFromLine."""
        start, end = (" ".join(map(millimetres, at)) for at in (self._device().state.point_nm, before.point_nm))
        lift = self.way.height(start, end)
        if lift is None:
            return None
        feed = self.way.feed(before.state.feed_nm_per_min, "down, on the last leg", _KNOWN_FEED)
        if feed is None:
            return None
        self.way.say_legs(start, end, lift, feed)
        return self._search().text(self.session.program, before, nanometres(lift), feed)


@contextmanager
def _by_copy() -> Iterator[None]:
    """Whatever fails of a copy of the device is a reason not to begin. Raises NotFromLine."""
    try:
        yield
    except NotFromLine:
        raise
    except Interrupted:
        raise NotFromLine("broken off; the machine wasn't touched") from None
    except (Failure, OSError) as error:
        why = error.said() if isinstance(error, Failure) else str(error)
        raise NotFromLine(f"it can't be tried over a copy of the device: {why}") from None
