"""What a loss of power over a pipe left uncut: `ngc` handed it out, and no motor carried it out. It is found aside,
from the device's log and the place that the player's record has, both as they stood when the session began."""
import threading
import time
from contextlib import suppress
from dataclasses import dataclass, replace

from ngc_tools.files import NotWritten, cause
from ngc_tools.formats.device import Device
from ngc_tools.formats.position import nanometres
from ngc_tools.formats.settings import Settings
from ngc_tools.job.figures import micrometres
from ngc_tools.job.figures import millimetres as rounded
from ngc_tools.job.moves import Move, of_out
from ngc_tools.ngc.handed_out import Finder
from ngc_tools.operator.face import SAID, WARNING
from ngc_tools.page.aside import Aside, NotDone
from ngc_tools.page.face import UNCUT, PageFace
from ngc_tools.page.losses import Loss, Losses
from ngc_tools.link.progress import Report

_UNKNOWN = "What was handed out before the half-done segment and never cut can't be told: {why}"
_KEPT = """\
This loss of power left nothing uncut before the half-done segment, which is made again: by the record the motors were \
in it, or on the way to it"""
_LEFT = """\
NEVER CUT: {lines} handed out before the half-done segment, {length} mm, which no motor carried out by the record. \
Nothing makes them: cut them by lines of your own first, or live with it{may}"""
_EARLIER = """\
NEVER CUT: an earlier loss of power in this job left {lines} uncut, {length} mm, as was found at {when}. That is told \
until the program is loaded, or begins, anew"""
_MAY = ". The motors' path comes to that place more than once, so it may be as few as {least}"

_NONE = {"words": "", "lines": 0, "length_nm": 0, "points": []}


@dataclass(frozen=True, slots=True)
class LossRequest:
    """By which `ngc` and settings, over the image of which device; where the motors are, in machine millimetres; how
    many lines OUT may have been ahead of them."""

    ngc: str
    settings: str
    image: bytes
    at: list[str]
    ahead: int


def found(asked: LossRequest) -> dict:
    """In words, with its points in micrometres; in a process aside. Raises CannotTell, CommandRefused, Ended, OSError,
    BadLine, BadSettings, NoDevice."""
    lost = Finder(asked.ngc, asked.settings, asked.image).never_cut(asked.at, asked.ahead)
    x, y, z = map(nanometres, asked.at)
    moves = [move for move in of_out(lost.text, Settings.read(asked.settings), (x, y, z)) if isinstance(move, Move)]
    if not moves:
        return dict(_NONE, words=_KEPT)
    may = _MAY.format(least=f"{lost.least:,}") if lost.least < lost.most else ""
    length = sum(move.length for move in moves)
    points = [list(map(micrometres, point)) for move in moves for point in move.points]
    words = _LEFT.format(lines=_counted(lost.most), length=rounded(length), may=may)
    return {"words": words, "lines": lost.most, "length_nm": length, "points": points}


def _counted(lines: int) -> str:
    return f"{lines:,} line{'s' if lines > 1 else ''}"


class NeverCutSearch:
    """`found` is what pages show of it, None where there is nothing to be shown: what the last loss of power left, and
    as `earlier` what earlier ones left in the same job. `count` grows with each change."""

    def __init__(self, aside: Aside, face: PageFace) -> None:
        """What is found is said by the face, too."""
        self.found: dict | None = None
        self.count = 0
        self._aside, self._face = aside, face
        self._asked: LossRequest | None = None
        self._received: int | None = None  # so many lines the player had got as it was asked, while it has some in hand
        self._thread = threading.Thread()

    def begin(self, losses: Losses, program: bytes, asked: LossRequest | None, report: Report | None) -> None:
        """Takes up what was kept of a device, which has this program, and finds what the last session left, if a block
        is half-done; that isn't to be found where nothing is asked. What the player has in hand by its report isn't
        lost yet: then it is found once `look` sees that nothing is in hand any more. Until it is found the device is
        kept as it was, since no log tells it after two more power ons."""
        self._losses, self._program, self._earlier = losses, program, losses.of(program)
        if asked is None or self._received is None:
            self._asked = self._half_done(asked) if asked is not None else None
            self._received = report.received if self._asked and report and report.behind else None
        # else the session before that has lines in hand still, and its log tells them
        self._take(dict(_NONE, earlier=_plain(self._earlier)) if self._earlier else None)
        if self._asked is None:
            self._tell(self._earlier)
        elif self._received is None:
            self._search(self._asked)
        elif report is not None:
            self.look(report)

    def _half_done(self, asked: LossRequest) -> LossRequest | None:
        """The same over the device as it was kept, where a kill came before that was found; else it is kept as it is.
        None where no block is half-done."""
        now, file = Device(asked.image), self._losses.asked
        if not now.state.half:
            file.remove()
            return None
        kept = file.before(now)
        if kept is not None:
            return replace(asked, image=kept.image)
        try:
            file.keep(now)
        except (NotWritten, OSError) as error:
            self._warn(error)
        return asked

    def look(self, report: Report) -> None:
        """Finds what the player let go of, once it has nothing in hand any more: it carried out the other lines."""
        if self._asked is None or self._received is None or report.behind:
            return
        ahead = max(1, min(self._asked.ahead, self._received - report.carried))
        self._asked, self._received = replace(self._asked, at=report.at.split(), ahead=ahead), None
        self._search(self._asked)

    def _search(self, asked: LossRequest) -> None:
        self._thread = threading.Thread(target=self._find, args=[asked], daemon=True)
        self._thread.start()

    def _tell(self, losses: list[Loss]) -> None:
        for loss in losses:
            self._face.say(_said(loss), UNCUT)

    def awaited(self) -> dict | None:
        """What is found, once it is."""
        if self._thread.ident is not None:
            self._thread.join()
        return self.found

    def forget(self) -> None:
        """Another program is loaded, or this one begins anew."""
        self._asked, self._received, self._earlier = None, None, []
        with suppress(OSError):  # it is of another program then, or is found again and shown
            self._losses.forget()
        self._losses.asked.remove()
        self._take(None)

    def _find(self, asked: LossRequest) -> None:
        is_found = True
        try:
            told = self._aside.call(found, asked)
        except (NotDone, OSError) as error:
            told, is_found = dict(_NONE, words=_UNKNOWN.format(why=error)), False
        if asked is self._asked:
            earlier = self._kept(asked, told) if told["lines"] else self._earlier
            self._take(told | {"earlier": _plain(earlier)})
            self._face.say(told["words"], UNCUT if told["lines"] else SAID if told["words"] == _KEPT else WARNING)
            self._tell(earlier)
            if is_found:
                self._losses.asked.remove()

    def _kept(self, asked: LossRequest, told: dict) -> list[Loss]:
        """Keeps what was found; the earlier ones, without this one, where it was found before."""
        state = Device(asked.image).state
        loss = Loss(state.place, state.segment, time.time(), told["lines"], told["length_nm"], told["points"])
        earlier = [one for one in self._earlier if not one.is_within_same(loss)]
        try:
            self._losses.keep(self._program, [*earlier, loss])
        except (NotWritten, OSError) as error:
            self._warn(error)
        return earlier

    def _warn(self, error: NotWritten | OSError) -> None:
        self._face.say(f"after another loss of power this one won't be told of: {cause(error)}", WARNING)

    def _take(self, told: dict | None) -> None:
        self.found = told
        self.count += 1
        self._face.publish()


def _plain(losses: list[Loss]) -> list[dict]:
    """What pages show of losses."""
    return [{"words": _said(loss), "points": loss.points} for loss in losses]


def _said(loss: Loss) -> str:
    """A loss in words."""
    when = time.strftime("%Y-%m-%d %H:%M", time.localtime(loss.at))
    return _EARLIER.format(lines=_counted(loss.lines), length=rounded(loss.length_nm), when=when)
