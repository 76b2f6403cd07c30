"""The words of `ngc-check-disk`, and what it says."""
import argparse
import statistics
import time
from pathlib import Path

from ngc_tools.cli.run import new_parser, run, whole_number
from ngc_tools.disk.mounted import Mounted, mounted
from ngc_tools.disk.records import NAME, Records, look
from ngc_tools.failure import Failure, WrongWords
from ngc_tools.shown import shown

ABOUT = """Say how quickly the disk of FOLDER syncs, what that means for a program of short lines, and, with a plug that
is pulled by hand, whether the disk keeps what it synced.

It writes records of 512 bytes, as long as a device's, each followed by an fdatasync, as `ngc` does. Its file is removed
at the end.

Whether a disk keeps what it synced shows only once power is lost. Log in from another computer, so that its screen
keeps the last line, begin with --until-pulled, and pull the plug after a minute. Once power is back give --after-pull
the last number that stands on that screen. Do it several times: one loss of power proves little."""

EXAMPLE = """example:
  ngc-check-disk /var/lib/ngc
  ngc-check-disk /var/lib/ngc --until-pulled        (over ssh, from another computer; then pull the plug)
  ngc-check-disk /var/lib/ngc --after-pull 48213    (once power is back)

exit status:
  0  it was measured; or all that was synced is there
  1  a sync keeps nothing there; or what was synced is lost
  2  the words are wrong, or the folder can't be written or read"""

_LONGEST_S = 600
_SAY_S = 0.05  # so often the last number is said
_QUICK = 20_000  # syncs a second: more than a disk does that waits for its medium
_TOLD = 5  # numbers that are told of what is lost


class NothingKept(Failure):
    """What is synced there isn't kept."""

    exit_status = 1


def make_parser() -> argparse.ArgumentParser:
    """The words of the command line."""
    parser = new_parser("ngc-check-disk", ABOUT, EXAMPLE)
    parser.add_argument("folder", metavar="FOLDER", help="a folder on the disk, as that of the device")
    parser.add_argument("--seconds", metavar="N", type=whole_number, default=5,
                        help=f"how long it measures, 1 to {_LONGEST_S}; 5 without the word")
    parser.add_argument("--until-pulled", action="store_true",
                        help="write until the plug is pulled, and say each number once that is synced")
    parser.add_argument("--after-pull", metavar="N", type=whole_number,
                        help="look whether the records up to N, the last number that was said, are there")
    return parser


def main(arguments: list[str] | None = None) -> int:
    """Checks, and returns the exit status; without arguments those of the command line count."""
    return run(make_parser(), work, arguments)


def work(args: argparse.Namespace) -> int:
    """Measures, writes or looks. Raises WrongWords, NothingKept, NoRecords, OSError."""
    if args.until_pulled and args.after_pull is not None:
        raise WrongWords("--until-pulled comes before the plug is pulled, --after-pull N after it")
    if not 1 <= args.seconds <= _LONGEST_S:
        raise WrongWords(f"--seconds takes 1 to {_LONGEST_S}")
    path = Path(args.folder, NAME)
    if args.after_pull is not None:
        return say_found(path, args.after_pull)
    place = mounted(args.folder)
    print(f"{shown(args.folder)}: {shown(place.said())}", flush=True)
    if args.until_pulled:
        return write_on(path)
    say_rates(measured(path, args.seconds))
    return judged(args.folder, place)


def measured(path: Path, seconds: float) -> list[float]:
    """How long each sync took, of a file that is removed. Raises OSError."""
    records = new_records(path)
    try:
        took: list[float] = []
        begun = last = time.monotonic()
        while last < begun + seconds:
            records.write()
            before, last = last, time.monotonic()
            took.append(last - before)
        return took
    finally:
        records.close()
        path.unlink()


def new_records(path: Path) -> Records:
    """A new file of records. Raises Failure where one is there, OSError."""
    try:
        return Records(path)
    except FileExistsError:
        raise Failure(f"{path}: it is there, of a run until the plug was pulled: look at it by --after-pull N, or"
                      " remove it") from None


def say_rates(took: list[float]) -> None:
    """Prints the rates."""
    rate = len(took) / sum(took)
    print(f"{len(took):,} syncs: {figure(rate)} a second; {1000 * statistics.median(took):.2f} ms as a rule,"
          f" {1000 * max(took):.1f} ms at most")
    print(f"blocks of one segment: {figure(rate / 2)} a second, as each takes two syncs; of N segments, N + 1 syncs")
    print(f"a program of moves of 1 mm: at most {figure(30 * rate)} mm a minute; of 0.1 mm, {figure(3 * rate)}")
    if rate > _QUICK:
        print(f"more than {_QUICK:,} a second: either its cache outlives a loss of power, or it doesn't do what it is"
              " asked. Pull the plug: --until-pulled")


def figure(rate: float) -> str:
    """A rate to three digits or whole."""
    return f"{rate:,.0f}" if rate >= 100 else f"{rate:.3g}"


def judged(folder: str, place: Mounted) -> int:
    """0, or why nothing is kept there. Raises NothingKept."""
    if warning := place.warning():
        raise NothingKept(f"{folder}: {warning}")
    return 0


def write_on(path: Path) -> int:
    """Writes until the plug is pulled, or Ctrl-C. Raises Failure, OSError."""
    records = new_records(path)
    print("pull the plug once numbers come; the last that stands here is for --after-pull", flush=True)
    said = time.monotonic()
    while True:
        records.write()
        if time.monotonic() > said + _SAY_S:
            said = time.monotonic()
            print(records.number, flush=True)


def say_found(path: Path, synced: int) -> int:
    """Whether what was synced is there. Raises NothingKept, NoRecords, OSError."""
    try:
        found = look(path, synced)
    except FileNotFoundError:
        raise NothingKept(f"{path}: it isn't there, though it was synced, and its folder; or no run was begun there"
                          ) from None
    if found.torn:
        raise NothingKept(f"{path}: {len(found.torn):,} sectors hold a part of a record, as sector {found.torn[0]}:"
                          " this disk tears a write of 512 bytes, which ngc can't bear")
    if found.lost:
        told = ", ".join(map(str, found.lost[:_TOLD])) + (" .." if len(found.lost) > _TOLD else "")
        raise NothingKept(f"{path}: LOST: {len(found.lost):,} records that were synced aren't there: {told}. This disk"
                          " says that it has synced what it hasn't: put no device on it")
    print(f"all {synced:,} records that were synced are there, and {max(0, found.last - synced):,} after them")
    print(f"{shown(str(path))} may be removed now")
    return 0
