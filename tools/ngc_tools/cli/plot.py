"""The words of `ngc-plot`, and what it draws."""
import argparse
import re
import sys
from dataclasses import dataclass
from pathlib import Path

from ngc_tools.cli.beginning import add_beginning, chosen_beginning
from ngc_tools.cli.machine import Progress, add_machine, chosen_motion, times_words
from ngc_tools.cli.run import MOST_MEMORY, new_parser, run
from ngc_tools.failure import WrongWords, speaking_of
from ngc_tools.files import is_out, read, read_input, write_new
from ngc_tools.formats.canonical import BadText, Command, read_commands
from ngc_tools.formats.out import BadLine
from ngc_tools.formats.position import nanometres
from ngc_tools.formats.settings import DEFAULT, Settings
from ngc_tools.job import figures, moves
from ngc_tools.formats.in_force import InForce
from ngc_tools.job.picture import picture
from ngc_tools.ngc import faults
from ngc_tools.ngc.beginning import Beginning
from ngc_tools.ngc.pacing import Pacing
from ngc_tools.ngc.run import TooLong, find_ngc, refusal
from ngc_tools.job.timing import timed, with_ramps
from ngc_tools.ngc.usable_settings import look_at_settings
from ngc_tools.shown import shown

ABOUT = """Draw a job as SVG: from above, from the front, from the right and aslant, traverses dashed, cuts the darker
the deeper, with the zeros, the start and the end.

INPUT is a program, of which `ngc dry` says what it does; or what `ngc dry` printed; or an OUT of `ngc run`. Without it
standard input is read. Below the picture stand the extents, and the times by tool. With a settings file the times are
exact: `ngc run` hands out the moves over a device of its own, and the periods are added up; an OUT has its periods
already.

A program begins as the default controller does, with its zero at machine 0. Name where the work is by --device or
--origin."""

EXAMPLE = """example:
  ngc-plot part.ngc --settings mill.toml --device mill.dev --output part.svg
  ngc-plot part.ngc --origin 30 20 -41.5 > part.svg
  ngc-plot axis.out --settings mill.toml --at 7.21 0 0 --output cut.svg

An OUT doesn't say which moves are traverses, nor where the machine stood first (--from).

exit status:
  0  the picture is written
  1  it is written, and ends before a line that is refused
  2  the words are wrong, a file can't be used, or ngc didn't hand out the moves"""

_CANONICAL = re.compile(rb"[A-Z]+(?:_[A-Z]+)*\(.*\)|REFUSED line [0-9]+: .*")


def make_parser() -> argparse.ArgumentParser:
    """The words of the command line."""
    parser = new_parser("ngc-plot", ABOUT, EXAMPLE)
    parser.add_argument("input", metavar="INPUT", nargs="?",
                        help="a program, canonical text, or an OUT; - or none: standard input")
    parser.add_argument("--settings", metavar="FILE", help="the machine's settings: exact times, the travel as a frame")
    add_machine(parser)
    add_beginning(parser)
    parser.add_argument("--block-delete", action="store_true", help="leave out the lines that begin with a slash")
    parser.add_argument("--output", "-o", metavar="FILE", help="write the SVG here, and the figures to standard output")
    parser.add_argument("--force", action="store_true", help="write over a FILE that is there")
    parser.add_argument("--at", nargs=3, metavar=("X", "Y", "Z"), help="a cross at this point, in machine millimetres")
    parser.add_argument("--from", dest="start", nargs=3, metavar=("X", "Y", "Z"),
                        help="where the machine stood before the first line of an OUT; without it 0 0 0")
    parser.add_argument("--title", help="what stands above the picture; without it the name of INPUT")
    parser.add_argument("--ngc", metavar="PATH",
                        help="the program ngc; without it the one beside this tool, or on PATH")
    return parser


def main(arguments: list[str] | None = None) -> int:
    """Draws, and returns the exit status; without arguments those of the command line count."""
    return run(make_parser(), draw, arguments, MOST_MEMORY)


@dataclass(frozen=True, slots=True)
class Drawn:
    """What is drawn: the steps, the work zeros, whether the times are exact, what is said besides, after the input's
    name, whether the picture ends before a refused line, and the time with ramps, if it is asked for."""

    steps: list[moves.Step]
    zeros: list[moves.Point]
    is_exact: bool
    notes: tuple[str, ...] = ()
    is_cut: bool = False
    pacing: Pacing | None = None


def draw(args: argparse.Namespace) -> int:
    """Reads the input, draws it, writes the SVG. Raises OSError and the failures of the parts."""
    at = _point(args.at)
    name = args.input if args.input not in (None, "-") else ""
    of = name or "standard input"
    text = read(name) if name else read_input()
    if args.settings:
        look_at_settings(find_ngc(args.ngc), args.settings)
    if args.machine:
        chosen_motion(find_ngc(args.ngc), args)
    settings = Settings.read(args.settings) if args.settings else None
    with speaking_of(of, BadText, BadLine, TooLong):
        drawn = _of_out(args, text, settings) if is_out(text) else _of_program(args, text, of)
    for note in drawn.notes:
        print(f"ngc-plot: {shown(of)}{note}", file=sys.stderr)
    title = args.title if args.title is not None else Path(name).name
    said = figures.lines(drawn.steps, settings, drawn.is_exact)
    if drawn.pacing:
        said.append(f"in all    {times_words(drawn.pacing)}")
    _write(args, picture(drawn.steps, title, said, settings, at, drawn.zeros), said)
    return 1 if drawn.is_cut else 0


def _of_out(args: argparse.Namespace, text: bytes, settings: Settings | None) -> Drawn:
    """An OUT. Raises WrongWords, BadLine, BadNumber."""
    if args.device or args.origin or args.block_delete:
        raise WrongWords("--device, --origin and --block-delete are of a program, and this is an OUT")
    notes = []
    if settings is None:
        settings = DEFAULT
        notes.append(": its steps are taken as 0.001 mm; name the machine's settings by --settings FILE")
    if not text.endswith(b"\n"):
        notes.append(": the part of a line at its end isn't drawn")
    steps = moves.of_out(text, settings, _point(args.start) or (0, 0, 0))
    return Drawn(steps, [], True, tuple(notes), pacing=_paced(args, text) if args.machine else None)


def _paced(args: argparse.Namespace, text: bytes) -> Pacing:
    """The time of the lines of an OUT with ramps. Raises NotTimed, OSError."""
    with Pacing(find_ngc(args.ngc), args.settings, args.machine) as pacing:
        pacing.take(text[:text.rfind(b"\n") + 1])
        pacing.end()
    return pacing


def _of_program(args: argparse.Namespace, text: bytes, of: str) -> Drawn:
    """A program, or what was printed of one. Raises BadText, NotTimed and the failures of a dry run."""
    begun, at = InForce(), (0, 0, 0)
    is_program = text != b"" and not _CANONICAL.fullmatch(text.partition(b"\n")[0])
    if is_program:
        ngc, begin = find_ngc(args.ngc), chosen_beginning(args)
        begun, at = begin.in_force(ngc, args.settings), begin.point_nm
        status, text = begin.dry(ngc, text, args.settings, args.block_delete)
        refusal(status, text)  # a dry run that was none is raised
    elif args.device or args.origin or args.block_delete:
        raise WrongWords("--device, --origin and --block-delete are of a program, and this is canonical text")
    commands = read_commands(text)
    steps = list(moves.of_canonical(commands, begun, at))
    pacing = None
    if args.settings:
        steps = timed(find_ngc(args.ngc), args.settings, steps)
    if args.machine:
        pacing = with_ramps(find_ngc(args.ngc), args.settings, args.machine, steps, Progress("ngc-plot"))
    last = commands[-1] if commands else Command("")
    is_cut = last.name == "REFUSED"
    notes = (_refused(args, of, last, is_program),) if is_cut else ()
    return Drawn(steps, moves.work_zeros(commands, begun), bool(args.settings), notes, is_cut, pacing)


def _refused(args: argparse.Namespace, of: str, last: Command, is_program: bool) -> str:
    """Why the picture ends early, and what to do."""
    line, code, name = last.args
    why = (faults.sentence(str(code)) or "see docs/LANGUAGE.md").partition(". ")[0]
    said = f":{line}: {code} {name}: {why}; the picture ends before that line"
    if code == "X2" and chosen_beginning(args) == Beginning() and is_program:
        return f"{said}\n  say where the work is by --device DEVICE or --origin X Y Z"
    file = "FILE" if args.input in (None, "-") else shown(args.input)
    return f"{said}\n  ngc-check {file} says what to write" if is_program else said


def _point(words: list[str] | None) -> moves.Point | None:
    if words is None:
        return None
    x, y, z = map(nanometres, words)
    return x, y, z


def _write(args: argparse.Namespace, svg: str, said: list[str]) -> None:
    if args.output is None:
        sys.stdout.buffer.write(svg.encode())
        return
    write_new(args.output, svg.encode(), [args.input, args.settings, args.device], args.force)
    print("\n".join(said))
