"""The words of `ngc-check`, and what it says."""
import argparse
import textwrap

from ngc_tools import files
from ngc_tools.cli.beginning import add_beginning, chosen_beginning
from ngc_tools.cli.machine import Progress, add_machine, chosen_motion, times_words
from ngc_tools.cli.run import MOST_MEMORY, add_ngc, new_parser, run, whole_number
from ngc_tools.failure import WrongWords, speaking_of
from ngc_tools.formats.canonical import BadText, read_commands
from ngc_tools.formats.device import MOST_LARGE_PROGRAM
from ngc_tools.formats.out import BadLine
from ngc_tools.formats.program_text import NotText, ProgramText
from ngc_tools.formats.settings import DEFAULT, Settings
from ngc_tools.job.adapted import NO_PROGRAM, is_none
from ngc_tools.job.danger import Danger
from ngc_tools.job.dangers import Conditions, dangers
from ngc_tools.job.marked import carets, goes_on
from ngc_tools.job.moves import of_canonical
from ngc_tools.job.outside import breach, widest
from ngc_tools.job.refused import Finding, Lines, find_all
from ngc_tools.ngc import cures, faults, machine_report, settings_report
from ngc_tools.ngc.machine_report import Motion
from ngc_tools.ngc.pacing import NotTimed
from ngc_tools.ngc.run import Refusal, TooLong, find_ngc, refusal
from ngc_tools.job.timing import with_ramps
from ngc_tools.ngc.usable_settings import look_at_settings
from ngc_tools.scratch import scratch_file
from ngc_tools.shown import shown

ABOUT = """Say of each line of PROGRAM that `ngc` refuses what is wrong with it, and warn of what is valid and
dangerous.

Under a refused line carets mark each word without which its fault goes away, found by asking `ngc dry` again.
After a refusal the program goes on without one such word, or else without the line; what is left out is said.
What it would have moved or set is missing then, so later lines may be refused, or taken, for that alone: mend,
and check again."""

EXAMPLE = """example:
  ngc-check part.ngc --settings mill.toml --device mill.dev
  ngc-check part.ngc --settings mill.toml --origin 20 30 -85.5
  ngc-check --settings mill.toml --settings-only
  ngc-check part.ngc --settings mill.toml --machine player.toml

exit status:
  0  no line is refused; there may be warnings
  1  a line is refused
  2  the words are wrong, a file can't be read, or the settings or the machine are refused"""

AFTER = """What was left out would have moved or set something, so later lines may be refused, or taken, for that alone.
Mend these, and check again."""
LIKE = 10  # warnings of one kind that are shown
MOST = 200  # refusals that are looked at, if nothing else is asked for ..
MOST_ASKED = 5000  # .. and dry runs for them: each begins with the program's first line
MOST_FOR_ALL = 500  # dry runs after which no more are looked for where all are asked for, and so many are found


def make_parser() -> argparse.ArgumentParser:
    """The words of the command line."""
    parser = new_parser("ngc-check", ABOUT, EXAMPLE)
    parser.add_argument("program", metavar="PROGRAM", nargs="?", help="the file of the program")
    parser.add_argument("--settings", metavar="FILE", help="the machine's settings; without it the default ones hold")
    add_machine(parser)
    add_beginning(parser)
    parser.add_argument("--settings-only", action="store_true", help="check the settings, and no program")
    parser.add_argument("--block-delete", action="store_true", help="leave out the lines that begin with a slash")
    parser.add_argument("--large", action="store_true",
                        help=f"the device is large: a program may have {MOST_LARGE_PROGRAM:,} bytes")
    parser.add_argument("--most", metavar="N", type=whole_number, help="stop after N refusals; without the word after"
                        f" {MOST}, or those of {MOST_ASKED:,} dry runs; with 0 {MOST_FOR_ALL:,} dry runs look for more")
    add_ngc(parser)
    return parser


def main(arguments: list[str] | None = None) -> int:
    """Checks, and returns the exit status; without arguments those of the command line count."""
    return run(make_parser(), work, arguments, MOST_MEMORY)


def work(args: argparse.Namespace) -> int:
    """Checks the settings or a program. Raises WrongWords, OSError, BadSettings, CannotRun, TooLong, NoDevice,
    CannotSetUp, NotText."""
    if args.settings_only and (args.program or not args.settings):
        raise WrongWords("--settings-only takes --settings FILE and no program")
    if not args.settings_only and not args.program:
        raise WrongWords("name the file of a program")
    ngc = find_ngc(args.ngc)
    if args.settings:
        look_at_settings(ngc, args.settings)
    motion = chosen_motion(ngc, args)
    if args.settings_only:
        settings = Settings.read(args.settings)
        say_file(args.settings, settings_report.report(settings), settings_report.warnings(settings))
    if motion:
        say_file(args.machine, machine_report.report(motion), machine_report.warnings(motion))
    if args.settings_only:
        return 0
    with speaking_of(args.program, TooLong):
        return check(ngc, args, motion)


def say_file(path: str, report: list[str], warnings: list[str]) -> None:
    """Prints what a valid file says, and what may be meant otherwise."""
    print("\n".join([f"{shown(path)}:", *(f"    {line}" for line in report),
                     *(f"{shown(path)}: warning: {line}" for line in warnings)]))


def check(ngc: str, args: argparse.Namespace, motion: Motion | None) -> int:
    """Checks a program, and returns the exit status. Raises what `work` raises."""
    dry_run = DryRun(ngc, args, motion)
    report = Listing(args.program)
    data = files.read(args.program)
    with speaking_of(args.program, NotText):
        if is_none(data, dry_run.ask):
            raise NotText(NO_PROGRAM)
        text = ProgramText.read(data)
    if why := text.why_unreadable(data):
        report.unreadable(why)
        data = text.data
    lines, whole = Lines(data), Lines(data)
    most = MOST if args.most is None else args.most
    for finding in find_all(lines, dry_run.ask, most, lambda: dry_run.is_asked_enough(report.count)):
        report.refused(finding, dry_run.breach(lines, finding.refusal), dry_run.is_placed)
    has_stopped = bool(most) and report.count >= most or dry_run.is_asked_enough(report.count)
    more = has_stopped and dry_run.ask(b"".join(lines.all)) is not None
    report.warned([] if more else dangers(lines, dry_run.run, dry_run.conditions()), whole, more)
    if more and not most:
        print(f"--most 0 stops after {MOST} refusals and {MOST_FOR_ALL:,} dry runs; --most N looks for N.")
    if motion and not report.count:
        print(f"{shown(args.program)}: {dry_run.times(data)}")
    return 1 if report.count else 0


class DryRun:
    """Dry runs of a program from where it begins, with the settings of the command line."""

    def __init__(self, ngc: str, args: argparse.Namespace, motion: Motion | None) -> None:
        """Raises NoDevice, CannotSetUp, OSError, BadSettings."""
        self.ngc, self.args, self.motion = ngc, args, motion
        self.beginning = chosen_beginning(args)
        self.is_placed = args.device is not None or args.origin is not None
        self.settings = Settings.read(args.settings) if args.settings else None
        self.begun = self.beginning.in_force(ngc, args.settings)
        self.asked = 0  # what it refuses, so often

    def run(self, text: bytes) -> bytes:
        """What `ngc dry` prints of a text."""
        return self._dry(text, self.args.settings)[1]

    def ask(self, text: bytes) -> Refusal | None:
        """What `ngc dry` refuses of a text."""
        self.asked += 1
        return refusal(*self._dry(text, self.args.settings))

    def is_asked_enough(self, found: int) -> bool:
        """Whether no more refusals are looked for, of which so many are found, unless the words say how many."""
        is_for_all = self.args.most == 0 and found >= MOST and self.asked >= MOST_FOR_ALL
        return is_for_all or not self.args.most and self.asked >= MOST_ASKED

    def breach(self, lines: Lines, refused: Refusal) -> str | None:
        """Which axis leaves the travel, of a line that is refused for that."""
        if refused.code != "X2":
            return None
        settings = self.settings or DEFAULT
        with scratch_file(widest(settings).text(), "settings", ".toml") as path:
            return breach(lines, refused.line, lambda text: self._dry(text, path)[1], settings, self.begun,
                          self.beginning.point_nm)

    def conditions(self) -> Conditions:
        """What the program is checked under."""
        is_large = self.args.large or self.beginning.is_large
        return Conditions(self.beginning, self.begun, self.settings, is_large, self.is_placed, self.motion)

    def times(self, text: bytes) -> str:
        """How long a valid program takes, without ramps and with them. Raises OSError."""
        try:
            steps = list(of_canonical(read_commands(self.run(text)), self.begun, self.beginning.point_nm))
            files = (self.args.settings, self.args.machine)
            return times_words(with_ramps(self.ngc, *files, steps, Progress("ngc-check")))
        except (BadText, BadLine, NotTimed) as error:
            return f"its time can't be told: {error}"

    def _dry(self, text: bytes, settings: str | None) -> tuple[int, bytes]:
        return self.beginning.dry(self.ngc, text, settings, self.args.block_delete)


class Listing:
    """What is printed of a program."""

    def __init__(self, path: str) -> None:
        self.path = path
        self.count = 0
        self.lines: set[int] = set()  # those that are refused
        self._said: set[str] = set()  # sentences and advice that stand further up already

    def unreadable(self, why: str) -> None:
        """Prints why the text as a whole can't be read."""
        self.count += 1
        print(f"{shown(self.path)}: {why}")
        print(wrapped("mend: save it in UTF-8, with newlines at the ends of its lines, as ngc-adapt does. What follows"
                      " is said of that text"))

    def refused(self, finding: Finding, breach: str | None, is_placed: bool) -> None:
        """Prints a refusal: its fault and cause, the line, the carets, what to write, how it goes on. `breach` says how
        it leaves the travel; `is_placed`, that it is known where the work zero is."""
        self.count += 1
        fault = finding.refusal
        self.lines.add(fault.line)
        print(f"{shown(self.path)}:{fault.line}: {fault.code} {fault.name}")
        if finding.text.strip():
            print(f"    {shown(finding.text)}".rstrip())
        if finding.marks:
            print(f"    {carets(finding.text, finding.marks)}")
        if cause := self._once(breach or faults.sentence(fault.code) or "see docs/LANGUAGE.md"):
            print(wrapped(cause))
        advice = cures.cure(fault.code, finding.words(), finding.text)
        if breach and not is_placed:
            advice += ". The work zero is taken to be at machine 0: --origin X Y Z or --device DEVICE says where it is"
        if advice := self._once(advice):
            print(wrapped(f"mend: {shown(advice)}"))
        if finding.text.strip():
            print(f"    goes on {goes_on(finding)}")

    def warned(self, dangers: list[Danger], whole: Lines, more: bool) -> None:
        """Prints the warnings, ten of a kind, and the counts. `more`: there are refusals that weren't looked for."""
        found = [danger for danger in dangers if danger.line not in self.lines]
        kinds: dict[str, list[Danger]] = {}
        for danger in found:
            kinds.setdefault(danger.kind, []).append(danger)
            if len(kinds[danger.kind]) <= LIKE:
                self._warn(danger, whole)
        for like in kinds.values():
            if len(like) > LIKE:
                print(f"{shown(self.path)}: {len(like) - LIKE} more warnings as those of line {like[0].line}")
        rest = "and more" if more else _count(len(found), "warning")
        print(f"{shown(self.path)}: {_count(self.count, 'refusal')}, {rest}")
        if self.lines:
            print(AFTER)

    def _warn(self, danger: Danger, whole: Lines) -> None:
        """Prints a warning, and the line as the program has it."""
        print(f"{shown(self.path)}:{f'{danger.line}:' if danger.line else ''} warning: {shown(danger.text)}")
        if danger.line and danger.line <= len(whole.all) and whole.body(danger.line).strip():
            print(f"    {shown(whole.body(danger.line))}".rstrip())

    def _once(self, text: str) -> str:
        new = text not in self._said
        self._said.add(text)
        return text if new else ""


def _count(number: int, what: str) -> str:
    return f"{number} {what}{'' if number == 1 else 's'}" if number else f"no {what}s"


def wrapped(text: str) -> str:
    """A sentence in lines of at most 100 columns, each four in."""
    return textwrap.fill(text, 100, initial_indent="    ", subsequent_indent="    ", break_on_hyphens=False)
