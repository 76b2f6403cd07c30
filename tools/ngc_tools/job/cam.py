"""Which lines of a CAM system's text are written otherwise for `ngc`.

What is known here, and in the other modules of this name, is how other systems write things, not what `ngc` accepts:
`ngc dry` decides that of what comes out. A word that isn't known stays as it is."""
from collections.abc import Callable, Sequence
from dataclasses import dataclass, field

from ngc_tools.failure import speaking_of
from ngc_tools.formats.program_text import ProgramText
from ngc_tools.job import cam_homes, cam_motion, cam_program, cam_words
from ngc_tools.job.cam_homes import HomeAnswers, Missing
from ngc_tools.job.cam_line import LONGEST, CamLine
from ngc_tools.job.cam_modes import Modes, Named


def rewritten(texts: Sequence[str], answers: HomeAnswers, warn: Callable[[int, str], None],
              told: Callable[[int], None] = lambda _: None) -> list[CamLine]:
    """The lines, each as it is to be written for `ngc`, but for arcs by radius. Raises Missing, SharedSlot.

    `warn` is told of lines that stay and are dangerous or not understood: the number from 1, and why; `told` hears the
    number of each."""
    whole = cam_program.Whole.of(texts)
    cam_program.look_at_slots(whole, answers)
    writer, lines = _Writer(whole, answers), []
    for number, text in enumerate(texts, 1):
        told(number)
        with speaking_of(f"line {number}", Missing):
            lines.append(writer.write(text, lambda why, number=number: warn(number, why)))
    cam_program.opening_percent(lines, warn)
    return lines


@dataclass(slots=True)
class _Writer:
    """What the lines so far say: `meant` are the modes that the CAM system takes to be in force, `written` those that
    `ngc` has by what is written, `named` the coordinates by the text."""

    whole: cam_program.Whole
    answers: HomeAnswers
    meant: Modes = field(default_factory=Modes)
    written: Modes = field(default_factory=Modes)
    named: Named = field(default_factory=Named)

    def write(self, text: str, warn: cam_motion.Warn) -> CamLine:
        """The next line as it is to be written. Raises Missing."""
        before = CamLine.cut(text)
        line = before.copy()
        if text.lstrip(" \t").startswith("%") or len(text) > LONGEST:
            return line
        cam_program.open_comment(line, self.whole, warn)
        cam_words.comments(line)
        cam_words.signs(line)
        cam_words.colon_number(line, self.meant)
        if line.is_plain:
            self._rewrite(line, warn)
        else:
            cam_homes.look_for_home(line, warn)
        cam_motion.motion_in_force(line, before, self.meant, self.written)
        self.named.take(before, self.meant)
        self.meant.take(before)
        self.written.take(line)
        return line

    def _rewrite(self, line: CamLine, warn: cam_motion.Warn) -> None:
        """Takes words away and puts others in their places. Raises Missing."""
        cam_words.program_number(line, self.meant)
        cam_words.block_number(line)
        cam_words.unit(line)
        cam_words.codes(line)
        cam_words.tolerance(line)
        cam_words.zero_offset(line, self.meant)
        cam_program.rotary(line, self.whole)
        cam_program.slots(line, self.answers)
        cam_motion.full_circle(line, self.meant, self.named, warn)
        cam_homes.home(line, self.written, self.whole.unit, self.answers, warn)
        cam_motion.lone(line)


def whole_text(lines: Sequence[CamLine], text: ProgramText) -> tuple[str, list[str]]:
    """What is written, each line with its end, and an M2 where the program has none; and what is said of the text as a
    whole. `lines` are those of `text`."""
    newline = "\r\n" if "\r\n" in text.ends[:1] else "\n"
    written, said = [line.text + (end or newline) for line, end in zip(lines, text.ends, strict=True)], []
    said += [f"the text: {change}" for change in text.changes]
    if text.ends[-1:] == ("",):
        said.append("a newline is put at the end")
    place = cam_program.program_end(list(lines))
    if place is not None:
        written.insert(place, f"M2{newline}")
        said.append(f"line {place + 1}: M2 is put there, since the text has neither M2 nor M30: see that nothing of it"
                    " is missing")
    return "".join(written), said
