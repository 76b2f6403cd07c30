"""What is found of a program, as plain data for a page: what `ngc` refuses, how a CAM system's text is written for it,
what is dangerous. It begins as a device stands."""
import re
from collections.abc import Callable, Iterator
from dataclasses import asdict, dataclass

from ngc_tools.formats.device import Device
from ngc_tools.formats.program_text import NotText, ProgramText
from ngc_tools.formats.settings import Settings
from ngc_tools.job.adapted import NO_PROGRAM, Adapted, adapted, is_none, rewritten_of
from ngc_tools.job.cam_homes import HomeAnswers, Missing
from ngc_tools.job.cam_program import SharedSlot
from ngc_tools.job.danger import Danger
from ngc_tools.job.dangers import Conditions, dangers
from ngc_tools.job.marked import carets, goes_on
from ngc_tools.job.refused import Finding, Lines, find_all
from ngc_tools.ngc import cures, faults
from ngc_tools.ngc.beginning import Beginning, CannotSetUp
from ngc_tools.ngc.run import Refusal, refusal
from ngc_tools.page.at_work import tell
from ngc_tools.shown import shown

MOST = 20
"""So many refusals are looked for."""
LIKE = 10
"""So many warnings of one kind are shown."""
CHANGED = 500
"""So many changed lines are shown."""
_WRITTEN = 512  # lines are written for `ngc` before that is told
_RUNS, _RUNS_AFTER_STOPS = 8, 9  # dry runs that look for what is dangerous, about
_STOP = re.compile(rb"M[ \t]*0*(?:[01]|60)(?![0-9])", re.IGNORECASE)

Told = Callable[[str, int, int], None]
"""Is told what is done, how far it is, and of how much."""


@dataclass(frozen=True, slots=True)
class Check:
    """What is asked with a text: by which `ngc` and settings, over which device's image, with block delete or without,
    whether a player asks for tools, and what people answered of a CAM system's text."""

    ngc: str
    settings: str
    image: bytes
    block_delete: bool
    asks_tools: bool = False
    answers: HomeAnswers = HomeAnswers()

    def find(self, data: bytes, told: Told = lambda *_: None) -> tuple[dict, bytes]:
        """Each refused line with its carets, the cause, and what to write; each warning; and the text that they are of:
        where `ngc` refuses what is given, as it is written for `ngc`, with each changed line. Raises NoDevice, OSError,
        CannotRun, BadSettings."""
        beginning = Beginning.of(Device(self.image))
        found = _Found(self, beginning, told)
        try:
            text = ProgramText.read(data)
        except NotText as error:
            return _unreadable(str(error)), data
        why = text.why_unreadable(data)
        if not why and found.ask(data) is None:
            return found.of(data), data
        return self._refused(found, text, data, why)

    def _refused(self, found: "_Found", text: ProgramText, data: bytes, why: str) -> tuple[dict, bytes]:
        """The same of a text that `ngc` refuses, or can't read."""
        if is_none(data, found.ask, 0):
            return _unreadable(why or NO_PROGRAM), data
        try:
            lines = rewritten_of(text.lines, self.answers, found.adapts(len(text.lines)))
            if lines.missing:
                first = found.of(text.data, 1)
                return first | {"unreadable": why, "adapted": _needed(lines.missing)}, data
            written = adapted(text, lines, found.beginning, self.ngc, self.settings)
        except (SharedSlot, CannotSetUp) as error:
            return found.of(text.data, 1) | {"unreadable": str(error)}, data
        if not written.changes and not written.whole:
            return found.of(data) | {"unreadable": why}, data
        return found.of(written.text) | {"adapted": _changed(written)}, written.text


@dataclass(frozen=True, slots=True)
class _Found:
    """Dry runs of a check, and what they find of a text."""

    check: Check
    beginning: Beginning
    told: Told

    def run(self, text: bytes) -> tuple[int, bytes]:
        """A dry run from there."""
        return self.beginning.dry(self.check.ngc, text, self.check.settings, self.check.block_delete)

    def ask(self, text: bytes) -> Refusal | None:
        """What it refuses."""
        return refusal(*self.run(text))

    def adapts(self, count: int) -> Callable[[int], None]:
        """Tells of every so many lines of a text that it is written for `ngc`."""
        self.told("adapt", 0, count)
        return lambda number: self.told("adapt", number, count) if number % _WRITTEN == 0 else None

    def of(self, data: bytes, most: int = MOST) -> dict:
        """What is refused and dangerous of a text."""
        refusals = list(self._refusals(Lines(data), most))
        more = len(refusals) == most
        found = [] if more else self._dangers(data)
        warnings = list(_warned(found, Lines(data), {one["line"] for one in refusals}))
        return {"unreadable": "", "refusals": refusals, "more": more, "warnings": warnings, "adapted": None}

    def _refusals(self, lines: Lines, most: int) -> Iterator[dict]:
        count = len(lines.all)
        self.told("lines", 0, count)
        for finding in find_all(lines, self.ask, most):
            self.told("lines", finding.refusal.line, count)
            yield _refused(finding)

    def _dangers(self, data: bytes) -> list[Danger]:
        done, runs = 0, _RUNS + _RUNS_AFTER_STOPS * (_STOP.search(data) is not None)

        def run(part: bytes) -> bytes:
            """One more dry run."""
            nonlocal done
            self.told("warnings", min(done, runs), runs)
            done += 1
            return self.run(part)[1]

        return dangers(Lines(data), run, self._conditions())

    def _conditions(self) -> Conditions:
        check, beginning = self.check, self.beginning
        return Conditions(beginning, beginning.on_device, Settings.read(check.settings), beginning.is_large, True,
                          asks_tools=check.asks_tools)


def find(check: Check, data: bytes) -> tuple[dict, bytes]:
    """What a check finds, and of which text, for a process aside."""
    return check.find(data, lambda what, done, of: tell({"what": what, "done": done, "of": of}))


def _unreadable(why: str) -> dict:
    return {"unreadable": why, "refusals": [], "more": False, "warnings": [], "adapted": None}


def _needed(missing: list[Missing]) -> dict:
    """What has to be answered before a text can be written for `ngc`."""
    return {"changes": [], "count": 0, "whole": [], "warnings": [],
            "needs": [{"what": one.what, "tool": one.tool, "line": shown(one.said())} for one in missing]}


def _changed(found: Adapted) -> dict:
    changes = [{name: shown(value) if isinstance(value, str) else value for name, value in asdict(change).items()}
               for change in found.changes[:CHANGED]]
    return {"changes": changes, "count": len(found.changes), "whole": list(map(shown, found.whole)), "needs": [],
            "warnings": [{"line": line, "what": shown(why)} for line, why in found.warnings]}


def _refused(finding: Finding) -> dict:
    fault = finding.refusal
    return {"line": fault.line, "code": fault.code, "name": fault.name, "text": shown(finding.text),
            "carets": carets(finding.text, finding.marks) if finding.marks else "",
            "cause": faults.sentence(fault.code) or "", "goes_on": goes_on(finding) if finding.text.strip() else "",
            "cure": shown(cures.cure(fault.code, finding.words(), finding.text))}


def _warned(found: list[Danger], lines: Lines, refused: set[int]) -> Iterator[dict]:
    kinds: dict[str, int] = {}
    for danger in found:
        kinds[danger.kind] = kinds.get(danger.kind, 0) + 1
        if danger.line in refused or kinds[danger.kind] > LIKE:
            continue
        text = shown(lines.body(danger.line)) if 0 < danger.line <= len(lines.all) else ""
        yield {"line": danger.line, "kind": danger.kind, "what": shown(danger.text), "text": text}
