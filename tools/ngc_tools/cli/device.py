"""The words of `ngc-device`, and what it prints of a device."""
import argparse
import sys

from ngc_tools.cli.run import MOST_MEMORY, new_parser, run
from ngc_tools.failure import Failure
from ngc_tools.formats.device import LOG_END, STATE, Device, NoDevice
from ngc_tools.shown import shown, shown_line

ABOUT = """Print what a device of format 1 or 2 stands for, and where its log ends. docs/DEVICE.md says where each
number is.

DEVICE is the file that `ngc format` made, or a disk that is used as one; it is only read."""

EXAMPLE = """example:
  ngc-device mill.dev

exit status:
  0  it stands for something
  1  it isn't a device (J2), or it is damaged (J3): then all is printed that was found
  2  the words are wrong, or it can't be read"""

_FRESH = {5220: 1_000_000}  # the parameters of a fresh device that aren't 0


class StandsForNothing(Failure):
    """The file is no device; the text names it and says why."""

    exit_status = 1


def make_parser() -> argparse.ArgumentParser:
    """The words of the command line."""
    parser = new_parser("ngc-device", ABOUT, EXAMPLE)
    parser.add_argument("device", metavar="DEVICE", help="the device")
    return parser


def main(arguments: list[str] | None = None) -> int:
    """Reads a device and prints it, and returns the exit status; without arguments those of the command line count."""
    return run(make_parser(), work, arguments, MOST_MEMORY)


def work(args: argparse.Namespace) -> int:
    """Prints it, a field a line. Raises StandsForNothing, OSError."""
    try:
        device = Device.read(args.device)
    except NoDevice as error:
        raise StandsForNothing(f"{args.device}: not a device (J2): {error}") from None
    print("\n".join([*log_lines(device), *state_lines(device), *table_lines(device), *program_lines(device)]))
    sys.stdout.flush()
    for damage in device.damage:
        print(f"ngc-device: {shown(args.device)}: damaged (J3): {damage}", file=sys.stderr)
    return 1 if device.damage else 0


def log_lines(device: Device) -> list[str]:
    """The headers, and where the log ends."""
    said = [f"format: {device.format}", f"epoch: {device.epoch}"]
    for sector, header in enumerate(device.headers):
        what = "none that is valid"
        if header:
            what = f"epoch {header.epoch}, program area {header.area}, {header.length} bytes, format {header.format}"
        said.append(f"header in sector {sector}: {what}{', in force' if header == device.header else ''}")
    is_full = device.end == LOG_END[device.format]
    ends = f"after sector {device.end - 1}: it is full" if is_full else f"at sector {device.end}"
    said.append(f"log: {len(device.records)} records; it ends {ends}")
    if device.torn:
        said.append(f"log: parts of a record that isn't complete in sectors {' '.join(map(str, device.torn))}")
    return said


def state_lines(device: Device) -> list[str]:
    """The state, without what speaks of a half-done block where there is none."""
    state = device.state
    names = [name for name in STATE if name != "half_bytes"]
    told = names if state.half else names[:names.index("half") + 1]
    said = [f"{STATE[name].label}: {' '.join(map(str, state.numbers(name)))}" for name in told]
    return [*said, f"its text: {shown_line(state.half_text)}"] if state.half else said


def table_lines(device: Device) -> list[str]:
    """The tool table, and the parameters that differ from a fresh device's."""
    said = [f"tool length of slot {slot}, nm: {nm}" for slot, nm in enumerate(device.tools_nm, 1)]
    return said + [f"#{index}: {value} millionths" for index, value in device.parameters.items()
                   if value != _FRESH.get(index, 0)]


def program_lines(device: Device) -> list[str]:
    """The program's text, after its length."""
    return [f"program, {device.header.length} bytes:", *map(shown_line, device.program.split(b"\n"))]
