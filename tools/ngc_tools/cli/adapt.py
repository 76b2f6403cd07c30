"""The words of `ngc-adapt`, and what it writes."""
import argparse
import sys
from collections.abc import Iterator, Sequence
from dataclasses import dataclass, replace

from ngc_tools import files
from ngc_tools.cli.beginning import add_beginning, chosen_beginning
from ngc_tools.cli.run import MOST_MEMORY, add_ngc, new_parser, run
from ngc_tools.failure import BadNumber, Failure, WrongWords, speaking_of
from ngc_tools.formats.device import SLOTS
from ngc_tools.formats.position import nanometres
from ngc_tools.formats.program_text import NotText, ProgramText
from ngc_tools.job.adapted import NO_PROGRAM, Change, Rewritten, adapted, is_none, rewritten_of
from ngc_tools.job.cam_homes import HomeAnswers, Missing
from ngc_tools.job.cam_line import CamLine
from ngc_tools.job.cam_program import SharedSlot
from ngc_tools.job.refused import Ask, Lines, find_all
from ngc_tools.ngc import cures
from ngc_tools.ngc.run import Refusal, TooLong, find_ngc, refusal
from ngc_tools.ngc.usable_settings import look_at_settings
from ngc_tools.shown import shown

ABOUT = """Write a CAM system's text as `ngc` accepts it, and list each line that is changed.

Comments, program and block numbers, units, G91.1, tolerances, arcs by radius, full circles without an end, G0 and G1
without an axis, words of a rotary axis that stays at 0, tool numbers above 128, G28 and G30 of Z or of X and Y under
G91, and a missing M2: each is written as `ngc` takes it, with the same motions. docs/tools/ngc-adapt.md has the
table. All other words stay as they are, and each line stays a line. `ngc dry` decides of what comes out."""

EXAMPLE = """example:
  ngc-adapt part.nc --lift 0 --settings mill.toml --output part.ngc

exit status:
  0  ngc accepts what is written
  1  it is written, and ngc refuses a line of it
  2  the words are wrong, a file can't be used, or a height, a place or a slot is needed; nothing is written"""

_MOST = 10  # refused lines that are told ..
MOST_ASKED = 500  # .. and dry runs that look for them: each begins with the program's first line


def make_parser() -> argparse.ArgumentParser:
    """The words of the command line."""
    parser = new_parser("ngc-adapt", ABOUT, EXAMPLE)
    parser.add_argument("program", metavar="PROGRAM", help="the CAM system's text; - is standard input")
    parser.add_argument("--output", "-o", metavar="FILE", help="write the text here, and the list to standard output")
    parser.add_argument("--force", action="store_true", help="write over FILE if it is there")
    parser.add_argument("--lift", metavar="Z", help="what G28 and G30 of Z alone become: G53 G0 Z, a machine coordinate"
                                                    " in millimetres; at a terminal you are asked for it")
    parser.add_argument("--park", metavar=("X", "Y"), nargs=2, help="the same of X and Y alone: G53 G0 X Y")
    parser.add_argument("--tool", metavar="NUMBER=SLOT", action="append", default=[],
                        help=f"T and H of this NUMBER become those of SLOT, 1 to {SLOTS}; may be given several times")
    parser.add_argument("--settings", metavar="FILE", help="the machine's settings, for the dry run")
    add_beginning(parser)
    add_ngc(parser)
    return parser


def main(arguments: list[str] | None = None) -> int:
    """Adapts a program, and returns the exit status; without arguments those of the command line count."""
    return run(make_parser(), adapt, arguments, MOST_MEMORY)


def adapt(args: argparse.Namespace) -> int:
    """Reads, rewrites, asks `ngc` and writes. Raises OSError and Failures."""
    ngc, answers = find_ngc(args.ngc), given(args)
    if args.settings:
        look_at_settings(ngc, args.settings)
    inputs = (args.program, args.settings, args.device)
    if args.output:
        files.look_before_write(args.output, inputs, args.force)
    begin = chosen_beginning(args)

    def ask(asked: bytes) -> Refusal | None:
        """What a dry run from there refuses."""
        return refusal(*begin.dry(ngc, asked, args.settings))

    text = _read(args.program, ask)
    lines, warnings = _rewritten(args.program, text, answers)
    with speaking_of(_named(args.program), TooLong):
        found = adapted(text, Rewritten(lines, [], []), begin, ngc, args.settings)
        new = found.text
        refused = list(told(new, args.output, ask))
    _write(args, new, inputs)
    changed = [*found.whole, *shown_changes(found.changes)] or ["no line is changed"]
    print("\n".join([*warnings, *changed]), file=sys.stdout if args.output else sys.stderr)
    print("\n".join(refused), file=sys.stderr, end="\n" if refused else "")
    return 1 if refused else 0


def _read(program: str, ask: Ask) -> ProgramText:
    """The text of a file, or of standard input. Raises OSError, NotText."""
    data = files.read_input() if program == "-" else files.read(program)
    with speaking_of(_named(program), NotText, TooLong):
        if is_none(data, ask):
            raise NotText(NO_PROGRAM)
        return ProgramText.read(data)


def _named(program: str) -> str:
    """What is read, for people."""
    return "standard input" if program == "-" else program


def _write(args: argparse.Namespace, data: bytes, inputs: Sequence[str | None]) -> None:
    """Writes the text to the file that is named, else to standard output. Raises OSError, NotWritten."""
    if args.output:
        files.write_new(args.output, data, inputs, args.force)
    else:
        sys.stdout.buffer.write(data)
        sys.stdout.flush()


def given(args: argparse.Namespace) -> HomeAnswers:
    """What the command line says of heights, places and slots. Raises BadNumber, WrongWords."""
    x_y = [nanometres(word) for word in args.park or ()]
    slots: dict[int, int] = {}
    for word in args.tool:
        number, _, slot = word.partition("=")
        if not _is_count(number) or int(number) in (0, *slots):
            raise WrongWords(f"--tool {word}: write NUMBER=SLOT, as 201=1, and each number once")
        slots[int(number)] = slot_number(slot)
    return HomeAnswers(None if args.lift is None else nanometres(args.lift), (x_y[0], x_y[1]) if x_y else None, slots)


def slot_number(word: str) -> int:
    """A slot. Raises BadNumber."""
    if not _is_count(word) or not 1 <= int(word) <= SLOTS:
        raise BadNumber(f"a slot is a whole number from 1 to {SLOTS}, not {word}")
    return int(word)


def _is_count(word: str) -> bool:
    return word.isascii() and word.isdecimal() and len(word) < 10


def _rewritten(program: str, text: ProgramText, answers: HomeAnswers) -> tuple[list[CamLine], list[str]]:
    """The lines as they are to be written, and warnings. A person at a terminal is asked for what is missing; else all
    of it is told. Raises Failures."""
    with speaking_of(program, SharedSlot):
        found = rewritten_of(text.lines, answers)
        while found.missing and program != "-" and sys.stdin.isatty():
            answers = _ask(program, found.missing[0], answers)
            found = rewritten_of(text.lines, answers)
    if found.missing:
        raise Failure("\n".join(_needed(program, missing) for missing in found.missing))
    return found.lines, [f"line {number}: WARNING: {why}" for number, why in found.warnings]


def _needed(program: str, missing: Missing) -> str:
    """Which line needs what, and the option that says it."""
    option, what = asked_for(missing)
    return f"{program}: {missing.said()}: name {what}: {option}"


def asked_for(missing: Missing) -> tuple[str, str]:
    """The option that says what is missing, and what that is."""
    if missing.what == "lift":
        return "--lift Z", "the machine Z that the tool is lifted to, in millimetres"
    if missing.what == "park":
        return "--park X Y", "the machine X and Y that the table is brought to, in millimetres"
    return f"--tool {missing.tool}=SLOT", f"the slot of tool {missing.tool}, 1 to {SLOTS}"


def _ask(program: str, missing: Missing, answers: HomeAnswers) -> HomeAnswers:
    """Asks at the terminal. Raises Failure if there is no answer, or another one than is needed."""
    print(f"{shown(f'{program}: {missing.said()}')}\n{asked_for(missing)[1]}: ", end="", file=sys.stderr, flush=True)
    said = sys.stdin.readline()
    if len(said.split()) != (2 if missing.what == "park" else 1):
        raise Failure(_needed(program, missing))
    if missing.what == "tool":
        slot_number(said.strip())
    return _answered(missing, answers, said)


def _answered(missing: Missing, answers: HomeAnswers, said: str) -> HomeAnswers:
    """The answers with one more. Raises BadNumber."""
    words = said.split()
    if missing.what == "tool":
        return replace(answers, slots={**answers.slots, missing.tool: int(words[0])})
    if missing.what == "lift":
        return replace(answers, lift_nm=nanometres(words[0]))
    return replace(answers, park_nm=(nanometres(words[0]), nanometres(words[1])))


def shown_changes(found: list[Change]) -> list[str]:
    """Each changed line: its number, why, what it was, what it is."""
    return [shown(row) for change in found
            for row in (f"line {change.line}: {change.why}", f"  - {change.before}", f"  + {change.after}")]


@dataclass(slots=True)
class Counted:
    """Dry runs, and how many were asked for."""

    ask: Ask
    count: int = 0

    def __call__(self, text: bytes) -> Refusal | None:
        self.count += 1
        return self.ask(text)


def told(new: bytes, output: str | None, ask: Ask) -> Iterator[str]:
    """The refused lines of what is written: where, which fault, the line, what to write; and what lists them all."""
    path, check = (shown(output), f"ngc-check {shown(output)}") if output else ("the text", "ngc-check")
    lines: set[int] = set()
    said: set[str] = set()
    asked = Counted(ask)
    for finding in find_all(Lines(new), asked, is_enough=lambda: asked.count >= MOST_ASKED):
        fault = finding.refusal
        if fault.line in lines:
            continue  # a fault that shows once another one's word is left out
        if lines and fault.code == "B11":
            yield (f"From line {fault.line} on arcs by radius stay as they are, since where they begin isn't known."
                   " Mend the lines above in the CAM system's text, and adapt it again")
            return
        if len(lines) == _MOST:
            yield f"and more: {check} lists each"
            return
        lines.add(fault.line)
        yield f"{path}:{fault.line}: {fault.code} {fault.name}: {shown(finding.text).strip() or '(the end)'}"
        cure = cures.cure(fault.code, finding.words(), finding.text)
        if cure not in said:
            yield f"    mend: {shown(cure)}"
        said.add(cure)
    if asked.count >= MOST_ASKED:
        yield f"There may be more: it stops after {MOST_ASKED} dry runs, and {check} looks further"
    elif lines:
        yield f"Mend these, and check again: {check}"
