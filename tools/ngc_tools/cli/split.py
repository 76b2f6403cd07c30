"""The words of `ngc-split`, and what it writes."""
import argparse
from pathlib import Path

from ngc_tools.cli.run import MOST_MEMORY, add_ngc, new_parser, run, whole_number
from ngc_tools.failure import Failure, WrongWords, speaking_of
from ngc_tools.files import look_before_write, read, write_new
from ngc_tools.formats.device import MOST_LARGE_PROGRAM, MOST_PROGRAM, Device, NoDevice, copied
from ngc_tools.formats.position import millimetres, nanometres
from ngc_tools.formats.settings import DEFAULT, Settings
from ngc_tools.job.parts_compared import compare_dry, compare_run
from ngc_tools.job.split import CannotPart, LongProgram, Part, parted
from ngc_tools.ngc import cures
from ngc_tools.ngc.run import TooLong, find_ngc
from ngc_tools.ngc.usable_settings import look_at_settings
from ngc_tools.ngc.worlds import LineRefused, two_worlds
from ngc_tools.shown import shown

ABOUT = f"""Part a program that is longer than a device takes ({MOST_PROGRAM:,} bytes; {MOST_LARGE_PROGRAM:,} where it
is large) into programs that are run one after the other. It is parted after traverses (G0) that end above the work:
where the tool's tip is no lower than any point at which a cut begins or ends. Each part but the first begins with the
modes in force, and goes to that place in program coordinates, Z first; each but the last ends with M2. So the parts
hold over any work offset and any tool length.

Before anything is written, what they do is compared with the whole: with --device by `ngc run` over a copy of it, each
pulse; else by `ngc dry` at two work offsets and two tool lengths, each motion with its feed, tool, spindle and
coolant, each dwell, stop and message."""

EXAMPLE = """example:
  ngc-split part.ngc --settings mill.toml --device mill.dev        writes part-1.ngc, part-2.ngc ..

exit status:
  0  the parts are written, or ngc run takes the program as it is
  1  ngc refuses a line, or the program can't be parted so; nothing is written
  2  the words are wrong, or a file can't be used"""


SYSTEMS = tuple(f"G{system}" for system in (54, 55, 56, 57, 58, 59, 59.1, 59.2, 59.3))


class ProgramRefused(Failure):
    """A line of the program is refused; the text names it, and says what to write in its place."""

    exit_status = 1


def make_parser() -> argparse.ArgumentParser:
    """The words of the command line."""
    parser = new_parser("ngc-split", ABOUT, EXAMPLE)
    parser.add_argument("program", metavar="PROGRAM", help="the program, as ngc accepts it (ngc-adapt)")
    parser.add_argument("--settings", metavar="FILE", help="the machine's settings")
    parser.add_argument("--device", metavar="DEVICE", help="compare by `ngc run` over a copy of this device")
    parser.add_argument("--system", metavar="G54", default="G54", choices=SYSTEMS,
                        help="the work offset of a program that names none: G54 to G59, G59.1 to G59.3")
    parser.add_argument("--output", "-o", metavar="PREFIX", help="the parts' names are PREFIX-1.ngc and so on")
    parser.add_argument("--above", metavar="Z", help="part it at this program Z or above, in millimetres")
    size = parser.add_mutually_exclusive_group()
    size.add_argument("--large", action="store_true",
                      help=f"the device is large: a part has at most {MOST_LARGE_PROGRAM:,} bytes")
    size.add_argument("--limit", metavar="BYTES", type=whole_number,
                      help=f"bytes of a part at most; without it {MOST_PROGRAM:,}")
    parser.add_argument("--force", action="store_true", help="write over files that are there")
    add_ngc(parser)
    return parser


def main(arguments: list[str] | None = None) -> int:
    """Parts a program, and returns the exit status; without arguments those of the command line count."""
    return run(make_parser(), work, arguments, MOST_MEMORY)


def work(args: argparse.Namespace) -> int:
    """Parts a program. Raises what `write_parts` raises; of a refused line, what to write in its place."""
    if args.device and not args.settings:
        raise WrongWords("--device goes with --settings")
    try:
        with speaking_of(args.program, CannotPart, TooLong), speaking_of(args.device or "", NoDevice):
            return write_parts(args)
    except LineRefused as error:
        cure = cures.cure(error.refused.code, [])
        raise ProgramRefused(f"{args.program}:{error.refused.line}: {error}\n  {cure}") from None


def write_parts(args: argparse.Namespace) -> int:
    """Reads, parts, compares and writes. Raises OSError, CannotPart, LineRefused, BadSettings, CannotRun, ValueError.
    """
    ngc = find_ngc(args.ngc)
    if args.settings:
        look_at_settings(ngc, args.settings)
    image = Device(copied(args.device)).image if args.device else None
    above = nanometres(args.above) if args.above is not None else None
    text = read(args.program)
    limit = args.limit or (MOST_LARGE_PROGRAM if args.large else MOST_PROGRAM)
    program = LongProgram.read(text, args.system)
    worlds = two_worlds(ngc, Settings.read(args.settings) if args.settings else DEFAULT)
    places = program.places(worlds, above)
    if len(text) <= limit:
        print(f"{shown(args.program)}: {len(text):,} bytes: ngc run takes it as it is")
        return 0
    parts = parted(program, places, limit, _plain(Path(args.program).name))
    whole = program.first_part(program.lines)
    compared = compared_by(args, ngc, image, whole, parts) if image else ""
    if not compared:
        compare_dry(whole, parts, worlds)
        compared = "ngc dry at two work offsets and two tool lengths. Clear a G92 of the device first, by G92.1"
    _write(args, parts)
    if program.left_open:
        print(f"named in part 1, since the program leaves it open: {' '.join(program.left_open.values())}")
    print(f"{len(parts)} parts do what the whole does, by {compared}")
    return 0


def compared_by(args: argparse.Namespace, ngc: str, image: bytes, whole: bytes, parts: list[Part]) -> str:
    """What compared the parts over the device, in words; nothing if the whole is longer than any device takes."""
    if len(whole) > MOST_LARGE_PROGRAM:
        return ""
    pulses = compare_run(ngc, args.settings, image, whole, parts)
    return f"ngc run over a copy of {shown(args.device)}: {pulses:,} pulses and waits"


def _plain(name: str) -> str:
    """A file's name as it can stand in a comment."""
    return "".join(sign if sign.isascii() and sign.isprintable() and sign not in "()" else "_" for sign in name)


def _write(args: argparse.Namespace, parts: list[Part]) -> None:
    """Writes the parts and says where each begins. Raises OSError."""
    prefix = args.output or str(Path(args.program).with_suffix(""))
    paths = [Path(f"{prefix}-{number}.ngc") for number in range(1, len(parts) + 1)]
    inputs = [args.program, args.settings, args.device]
    for path in paths:
        look_before_write(path, inputs, args.force)
    for path, part in zip(paths, parts, strict=True):
        write_new(path, part.text, inputs, args.force)
        where = "from where the machine stands"
        if part.place:
            x, y, z = map(millimetres, part.place.at)
            where = f"from X {x} Y {y} Z {z} of the program"
        print(f"{shown(str(path))}: lines {part.begin + 1} to {part.end}, {len(part.text):,} bytes, {where}")
