"""A CAM system's text as it is written for `ngc`, and what of it is changed, line by line."""
from collections.abc import Callable, Sequence
from dataclasses import dataclass, replace

from ngc_tools.formats.device import SLOTS
from ngc_tools.formats.program_text import ProgramText, beginning
from ngc_tools.formats.settings import DEFAULT, Settings
from ngc_tools.job.cam import rewritten, whole_text
from ngc_tools.job.cam_homes import HomeAnswers, Missing
from ngc_tools.job.cam_line import CamLine
from ngc_tools.job.cam_program import SharedSlot
from ngc_tools.job.outside import widest
from ngc_tools.job.radius_arcs import centred
from ngc_tools.job.refused import Ask, Lines, is_no_program
from ngc_tools.ngc.beginning import Beginning
from ngc_tools.scratch import scratch_file


NO_PROGRAM = "it isn't G-code: ngc can read hardly any of its first lines"
"""Why a text isn't adapted."""
_FEW = 20  # lines: of so few each is told
_HEAD = 200  # lines, of the first of which it is seen whether a text is one of G-code


@dataclass(frozen=True, slots=True)
class Change:
    """A line that is written otherwise: its number from 1, why, what it was, what it is."""

    line: int
    why: str
    before: str
    after: str


@dataclass(frozen=True, slots=True)
class Rewritten:
    """The lines, but for arcs by radius; what is dangerous or not understood, by its line; what is needed and wasn't
    answered, each with its line: then the lines stand for nothing."""

    lines: list[CamLine]
    warnings: list[tuple[int, str]]
    missing: list[Missing]


def rewritten_of(texts: Sequence[str], answers: HomeAnswers, told: Callable[[int], None] = lambda _: None) -> Rewritten:
    """The lines, and all that is needed for them; `told` hears the number of each, from 1 on anew where one more thing
    is needed. Raises SharedSlot."""
    missing: list[Missing] = []
    while True:
        warnings: list[tuple[int, str]] = []
        try:
            lines = rewritten(texts, answers, lambda number, why: warnings.append((number, why)), told)
            return Rewritten(lines, warnings, missing)
        except Missing as error:
            missing.append(error)
            answers = _as_if(error, answers)


def _as_if(missing: Missing, answers: HomeAnswers) -> HomeAnswers:
    """The answers with one more, which nobody gave, to find what else is missing."""
    if missing.what == "tool":
        return replace(answers, slots={**answers.slots, missing.tool: 0})
    return replace(answers, lift_nm=0) if missing.what == "lift" else replace(answers, park_nm=(0, 0))


def centre(lines: list[CamLine], begin: Beginning, ngc: str, settings: str | None) -> None:
    """Writes arcs by radius by their centres. What is asked is where they lie, not whether they fit: so with the widest
    travel, and all slots. Raises OSError, CannotSetUp."""
    known = Settings.read(settings) if settings else DEFAULT
    tools = (*known.tools_nm, *(0,) * (SLOTS - len(known.tools_nm)))
    with scratch_file(replace(widest(known), tools_nm=tools).text(), "settings", ".toml") as path:
        centred(lines, lambda asked: begin.dry(ngc, asked, path))


def changes(texts: Sequence[str], lines: list[CamLine]) -> list[Change]:
    """Each line that is changed."""
    return [Change(number, "; ".join(dict.fromkeys(line.reasons)), text, line.text)
            for number, (text, line) in enumerate(zip(texts, lines, strict=True), 1) if line.text != text]


@dataclass(frozen=True, slots=True)
class Adapted:
    """What is written, each changed line, what is said of the text as a whole, and warnings by their line."""

    text: bytes
    changes: list[Change]
    whole: list[str]
    warnings: list[tuple[int, str]]


def is_none(data: bytes, ask: Ask, few: int = _FEW) -> bool:
    """Whether a text of more than a few lines is none of G-code, also as its first lines are written for `ngc`. Of a
    long text nothing else is looked at. Raises NotText."""
    whole = ProgramText.read(beginning(data))
    if len(whole.lines) <= few:
        return False
    head = replace(whole, lines=whole.lines[:_HEAD], ends=whole.ends[:_HEAD])
    try:
        new, _ = whole_text(rewritten_of(head.lines, HomeAnswers()).lines, head)
    except SharedSlot:
        return False
    return is_no_program(Lines(new.encode()), ask)


def adapted(text: ProgramText, found: Rewritten, begin: Beginning, ngc: str, settings: str | None) -> Adapted:
    """A text of which nothing is missing. Raises OSError, CannotSetUp."""
    centre(found.lines, begin, ngc, settings)
    new, said = whole_text(found.lines, text)
    return Adapted(new.encode(), changes(text.lines, found.lines), said, found.warnings)
