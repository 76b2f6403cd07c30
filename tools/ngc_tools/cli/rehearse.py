"""The words of `ngc-rehearse`, and what it says."""
import argparse
import sys

from ngc_tools.ngc.carried import CannotTell, Found, Replay, Run, runs
from ngc_tools.cli.run import MOST_MEMORY, add_ngc, new_parser, run
from ngc_tools.failure import Failure, WrongWords, speaking_of
from ngc_tools.formats.before import BeforeFile
from ngc_tools.formats.device import Device, NoDevice, copied
from ngc_tools.ngc.console import Ended
from ngc_tools.ngc.copies import CommandRefused
from ngc_tools.formats.lines import Program
from ngc_tools.formats.out_note import NoteFile
from ngc_tools.formats.settings import Settings
from ngc_tools.operator.causes import rehearsed
from ngc_tools.operator.rehearsal import Rehearsal, point
from ngc_tools.formats.position import millimetres
from ngc_tools.formats.record import Record
from ngc_tools.operator.display import on_words
from ngc_tools.operator.recovery import Looking, Recovery
from ngc_tools.link.out_file import OutFile, check_record
from ngc_tools.ngc.run import find_ngc
from ngc_tools.ngc.usable_settings import look_at_settings
from ngc_tools.shown import shown, shown_line

ABOUT = """What `resume` would do, before anything moves: `ngc run` does it over a copy of the device. It says which
block is half-done, where its segment begins, what comes on, how the approach goes and whether it goes down, and then
how the rest of the job goes. Where no block is half-done, what `start` would do.

DEVICE is read, not written, and not while a session holds it. X Y Z is where the machine stands now, in machine
millimetres, as `reference X Y Z` takes it."""

EXAMPLE = """example:
  ngc-rehearse mill.dev mill.toml 32.000 21.412 -2.000
  ngc-rehearse mill.dev mill.toml --carried-out 8503
  ngc-rehearse mill.dev mill.toml --out out --position position

exit status:
  0  it is rehearsed to the end
  1  ngc refuses something: the line says what; or where the motors were can't be told
  2  the words are wrong, or a file can't be used"""


class RehearsalRefused(Failure):
    """`ngc` refuses a command over the copy; the text names it, and says why."""

    exit_status = 1


def make_parser() -> argparse.ArgumentParser:
    """The words of the command line."""
    parser = new_parser("ngc-rehearse", ABOUT, EXAMPLE)
    parser.add_argument("device", metavar="DEVICE", help="the device, as the session left it")
    parser.add_argument("settings", metavar="SETTINGS", help="the machine's settings")
    parser.add_argument("at", metavar="X Y Z", nargs="*", help="where the machine stands, in machine millimetres")
    parser.add_argument("--carried-out", metavar="N", type=int,
                       help="the player carried out N lines of the session's OUT: which line, segment and pulse the"
                            " motors were in, and what `resume` leaves out")
    parser.add_argument("--before", metavar="COPY",
                       help="a copy of the device, made before `start`; N counts the lines from there. Without it N"
                            " counts from where the device was last written anew: at power on, or by the last load")
    parser.add_argument("--out", metavar="OUT", help="the OUT of the session, a file: behind which of its lines"
                        " the open segment begins, and how recover goes there")
    parser.add_argument("--position", metavar="POSITION", help="the player's record of that OUT")
    add_ngc(parser)
    return parser


def main(arguments: list[str] | None = None) -> int:
    """Rehearses, and returns the exit status; without arguments those of the command line count."""
    return run(make_parser(), work, arguments, MOST_MEMORY)


def work(args: argparse.Namespace) -> int:
    """Looks at the words, and rehearses. Raises WrongWords and the errors of the parts."""
    if len(args.at) not in (0, 3):
        raise WrongWords("X Y Z are three numbers, or none")
    if (args.out is None) != (args.position is None):
        raise WrongWords("--out OUT and --position POSITION go together")
    if args.before and args.carried_out is None:
        raise WrongWords("--before COPY goes with --carried-out N")
    try:
        with speaking_of(args.device, CannotTell, NoDevice, Ended):
            return rehearse(args)
    except CommandRefused as error:
        why = rehearsed(error.reply, error.asked, Settings.read(args.settings))
        raise RehearsalRefused(f"{args.device}: {why}") from None


def rehearse(args: argparse.Namespace) -> int:
    """Does what the words ask for. Raises the errors of the parts."""
    ngc = find_ngc(args.ngc)
    look_at_settings(ngc, args.settings)
    image = copied(args.device)
    for damage in Device(image).damage:
        print(f"ngc-rehearse: {shown(args.device)}: damaged: {damage}", file=sys.stderr)
    at = args.at or None
    if args.carried_out is not None:
        found, since = _find(args, ngc, image)
        print("\n".join(_said(found, args.carried_out, since, Device(image))))
        at = at or str(found.position).split()
        print()
    if args.out:
        recovery = recovered(args, ngc, image)
        print("\n".join(recover_lines(recovery, args.out, bool(Device(image).state.half))))
        print()
        at = at or [millimetres(nm) for nm in recovery.at_nm]
    rehearsal = Rehearsal(ngc, args.settings, image, at)
    print("\n".join(rehearsal.lines()))
    return 1 if rehearsal.refused else 0


def recovered(args: argparse.Namespace, ngc: str, image: bytes) -> Recovery:
    """How recover would go. Raises CannotTell, OtherFile, BadRecord, OSError, which name what doesn't belong."""
    record = Record.read(args.position)
    source = OutFile(args.out)
    try:
        check_record(args.position, record, source)
        looking = Looking(ngc, args.settings, image, NoteFile(args.device).read(),
                          before=BeforeFile(args.device).read(Device(image)))
        found = looking.look(args.out, source.file, record.lines, record.size, record.at_nm, record.outputs,
                             record.path_nm)
    finally:
        source.close()
    if found.beginning is None:
        raise CannotTell(found.problem)
    return found


def recover_lines(found: Recovery, out: str, is_half: bool) -> list[str]:
    """How recover would go, for people."""
    at = point([millimetres(nm) for nm in found.stands_nm])
    said = [f"{found.lines} lines of {out} are carried out; the motors are at {at}",
            (f"the open segment begins behind line {found.line} of {out}" if is_half else
             f"{found.line} lines of {out} were handed out"), f"recover: {found.words()}"]
    if not found.is_there() and (on := on_words(found.outputs)):
        said.append(f"    on before, if you say yes to it: {on}")
    return said


def _find(args: argparse.Namespace, ngc: str, image: bytes) -> tuple[Found, Device]:
    """Where the motors were, and the device that the lines are counted from."""
    device = Device(image)
    if args.carried_out < 1:
        raise CannotTell("N is at least 1: where no line was carried out, the motors didn't move")
    if args.before:
        with speaking_of(args.before, NoDevice):
            base = Device(copied(args.before))
        if base.program != device.program:
            raise CannotTell(f"{args.before} has another program than {args.device}")
        command = "resume" if base.state.half else "start"
        parts = [Run(base.image, (command,), -1, None)]
    else:
        older = device.without_header() if not device.records else None
        base = device = Device(older) if older else device
        parts = list(runs(device))
    return Replay(ngc, args.settings, device).find(parts, args.carried_out), base


def _said(found: Found, lines: int, since: Device, device: Device) -> list[str]:
    """Where the motors were, for people."""
    state, program = found.state, Program(device.program)
    entries = since.snapshot.entries if since.records else since.state.entries
    what = f"{program.named_at(state.place)} of {program.last}" if state.half == 1 else "a line of the operator's"
    segment = f"segment {state.segment}" if state.opened == 1 else f"the approach to segment {state.segment}"
    said = [f"{lines} lines carried out, counted from {entries} entries on",
            f"the motors were in {what}: {shown_line(state.half_text)}",
            f"{segment}, line {found.pulse} of its {found.pulses}; {found.position.reference()}"]
    if found.left:
        said.append(f"NEVER CUT: {found.left} lines from there up to {_end(device)}")
    return said


def _end(device: Device) -> str:
    """What comes after all that isn't made any more."""
    state, program = device.state, Program(device.program)
    if not state.half:
        return "the end of what was handed out"
    line = program.named_at(state.place) if state.half == 1 else "the operator's line"
    return f"{line}, segment {state.segment}, where resume begins"
