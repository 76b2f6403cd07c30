"""The words of `ngc-operate`, and its session from start to end."""
import argparse
import fcntl
import os
import stat
import sys
from contextlib import ExitStack, closing, suppress
from importlib import import_module

from ngc_tools.cli import line_times
from ngc_tools.cli.run import add_ngc, new_parser, run
from ngc_tools.failure import Failure, WrongWords
from ngc_tools.language import Language, language, names, of_environment
from ngc_tools.ngc.before_start import CannotBegin, look
from ngc_tools.ngc.console import Console, Ended
from ngc_tools.ngc.machine_report import Motion
from ngc_tools.operator.meter import LIMIT, LIMITS, Meter, check_limit
from ngc_tools.operator.operator import Operator
from ngc_tools.operator.recovery import OutFound
from ngc_tools.operator.sentences import explained
from ngc_tools.operator.session import ALARM
from ngc_tools.operator.setter import Setter
from ngc_tools.operator.synced import SYNCED_AT_ONCE, SYNCED_PARTS, SyncedLink
from ngc_tools.link.machine import read_limits
from ngc_tools.link.progress import UNDER_WAY, Link, Report
from ngc_tools.ngc.run import find_ngc
from ngc_tools.ngc.usable_settings import look_at_settings
from ngc_tools.cli.terminal import AskedToEnd, Screen
from ngc_tools.formats.device import Device, NoDevice
from ngc_tools.formats.settings import Settings, read_table
from ngc_tools.shown import shown

ABOUT = """A console for people over `ngc run`: programs by name, G-code as typed, Enter or Ctrl-C holds.

With --player it is metered: it gives ticks only while the player has less lines in hand than it wants for its motors to
stop in, so that a loss of power costs at most so many lines. And nothing moves from where the player says that the
motors aren't, unless that is asked for by `anyway`. A player with --machine is held by ramps, and goes slower by
`percent N`, or by `-`, `+` and `0` and Enter while something runs."""

EXAMPLE = """example:
  ngc format mill.dev                                   (once; it OVERWRITES mill.dev)
  mkfifo axis
  player axis mill.toml position --progress progress    (in another terminal)
  ngc-operate mill.dev mill.toml axis --player progress
  ngc> load part.ngc
  ngc> run

exit status:
  0  the session was ended by quit, or by the end of the input
  2  the words are wrong, `ngc run` can't be started or failed, a signal came, the terminal is gone: it says why"""


def make_parser() -> argparse.ArgumentParser:
    """The words that it takes."""
    parser = new_parser("ngc-operate", ABOUT, EXAMPLE)
    add_session(parser)
    parser.add_argument("--machine", metavar="FILE",
                        help="the machine's file: with its table [motion] times are those with ramps; `touch` takes"
                        " height_um of its table [setter]")
    parser.add_argument("--language", choices=names(),
                        help="what it speaks; without it what LC_ALL, LC_MESSAGES or LANG names, else English. What is"
                        " typed is the same in each")
    add_ngc(parser)
    return parser


def add_session(parser: argparse.ArgumentParser) -> None:
    """Adds the words of a session, for the page too."""
    parser.add_argument("device", metavar="DEVICE", help="the device, as `ngc format` made it")
    parser.add_argument("settings", metavar="SETTINGS", help="the machine's settings, in TOML")
    parser.add_argument("out", metavar="OUT", help="where pulses go: a named pipe with a player, a file, a serial line")
    parser.add_argument("--player", metavar="SOCKET", help="the socket of the player's --progress")
    parser.add_argument("--ahead", type=int, metavar="N",
                        help="how many lines OUT may be ahead of the player at most (without it as many as the player"
                        f" wants, {LIMIT} of one that doesn't say it)")


def main(arguments: list[str] | None = None) -> int:
    """Runs it, and returns the exit status."""
    with suppress(ImportError):
        import_module("readline")  # history and editing for input()
    return run(make_parser(), work, arguments)


def work(args: argparse.Namespace) -> int:
    """Looks at what is given, and does the session. Raises WrongWords, CannotBegin, NoAnswer, BadSettings, BadMachine,
    ValueError, OSError."""
    spoken = language(args.language or of_environment())
    try:
        return _work(args, spoken)
    except WrongWords as error:
        raise WrongWords(spoken.say(str(error))) from None
    except Failure as error:
        raise Told(spoken.say(error.said()), error.exit_status) from None


class Told(Failure):
    """A failure in the words in which it is told."""

    def __init__(self, text: str, status: int) -> None:
        super().__init__(text)
        self.exit_status = status


def _work(args: argparse.Namespace, spoken: Language) -> int:
    """The same in a language. Raises Failure, ValueError, OSError."""
    check_ahead(args)
    ngc = find_ngc(args.ngc)
    setter = Setter.read(args.machine) if args.machine else Setter()
    meter = metered(args)
    pipe = look(args.device, args.settings, args.out)
    look_at_settings(ngc, args.settings)
    args.machine = with_motion(ngc, args)
    try:
        return session(ngc, args, meter, pipe, setter, spoken)
    except Ended as ended:
        raise Failure(told(ended)) from None


def with_motion(ngc: str, args: argparse.Namespace) -> str | None:
    """The machine's file, if one is named that says what the motors allow. Raises BadMachine if it is refused,
    BadSettings if it isn't TOML, OSError."""
    if args.machine is None or "motion" not in read_table(args.machine):
        return None
    Motion.read(ngc, args.machine, args.settings)
    return args.machine


def check_ahead(args: argparse.Namespace) -> None:
    """Looks at the bound of lines ahead. Raises ValueError if it is out of its range, WrongWords if no player is named
    that could heed it."""
    if args.ahead is None:
        return
    check_limit(args.ahead)
    if args.player is None:
        raise WrongWords("--ahead N goes with --player SOCKET: without a player nothing is metered")


def metered(args: argparse.Namespace) -> Meter | None:
    """The meter, if a player is named. Raises CannotBegin if that player reads another OUT, NoAnswer, ValueError."""
    if args.player is None:
        return None
    meter = Meter(Link(args.player), args.ahead)
    report = meter.link.ask()
    if os.path.realpath(report.out) != os.path.realpath(args.out):
        raise CannotBegin(f"{args.player}: that player reads {report.out}, not {args.out}")
    if report.word in (UNDER_WAY, ALARM):  # nobody of this session wants what moves, as home in an alarm
        meter.link.end_move()
    if os.path.isfile(args.out):
        meter.link.close()
        meter.link = link = SyncedLink(args.player, args.out, device=args.device)
        meter.parts, meter.at_once = SYNCED_PARTS, SYNCED_AT_ONCE
        link.hole = link.cut_hole()
        if part := link.cut_part():
            print(f"{args.out}: a part of a line at its end is cut off: {part} bytes", file=sys.stderr)
    return meter


def bound(args: argparse.Namespace, meter: Meter | None, pipe: int | None) -> str:
    """How far OUT may be ahead of the motors, in words."""
    if meter:
        return metered_by(meter, meter.link.ask())
    if pipe is None:
        kind = "a file" if not os.path.exists(args.out) or stat.S_ISREG(os.stat(args.out).st_mode) else "no pipe"
        return f"not metered: {shown(args.out)} is {kind}, which takes any number of lines ahead of the motors"
    size = fcntl.fcntl(pipe, fcntl.F_GETPIPE_SZ)
    line = len(f"P 1 0 0 {Settings.read(args.settings).period_us}\n")
    return (f"not metered: {shown(args.out)} holds {size:,} bytes, so some {size // line:,} lines can be ahead of the"
            " motors, and a loss of power can cost them; --player bounds it")


def metered_by(meter: Meter, report: Report) -> str:
    """How far OUT may be ahead of a player, in words."""
    costs = "which is what a loss of power can cost"
    if isinstance(meter.link, SyncedLink):
        costs = "and synced before it goes on: a loss of power costs none"
    if not report.wants:
        return f"metered: OUT is at most {meter.limit(report):,} lines ahead of the player, {costs}"
    return (f"metered by need: OUT is ahead of the player by as many lines as its motors need for a stop, now"
            f" {meter.limit(report):,} and never more than {meter.most or LIMITS[-1]:,}, {costs}")


def session(ngc: str, args: argparse.Namespace, meter: Meter | None, pipe: int | None, setter: Setter,
            spoken: Language) -> int:
    """From the start of `ngc` to its end. Raises Ended if it ends by itself."""
    found = as_found(args.device)
    link = meter.link if meter else None
    out = OutFound.of(ngc, args.settings, link, found) if isinstance(link, SyncedLink) else None
    with closing(Screen(spoken)) as screen, ExitStack() as stack:
        console = Console(ngc, args.device, args.settings, args.out, Patience(screen))
        try:
            console.status()
            operator = Operator(console, screen, meter)
            operator.recover.found = out
            if args.machine:
                limits = read_limits(args.machine, operator.session.settings.step_nm)
                operator.recover.most_percent = limits.most_percent
                operator.loading.times_command = line_times.command(ngc, args.settings, args.machine)
            stack.callback(operator.loading.close)
            operator.know(setter)
            operator.keys = screen.keys if screen.is_terminal else None
            said = bound(args, meter, pipe)
            if pipe is not None:
                os.close(pipe)
            cause = talk(operator, screen, said, found)
            operator.ending.tell_player()
        except BaseException:
            if console.child.poll() is None:
                console.kill()
            raise
        status = console.quit()
    if status:
        cause = f"ngc ended with status {status}: the device or OUT failed in this session"
    if cause:
        print(f"ngc-operate: {spoken.say(cause)}", file=sys.stderr)
    return 2 if cause else 0


def as_found(path: str) -> Device | None:
    """The device as it stands before `ngc` is started, which writes its log anew."""
    try:
        return Device.read(path)
    except (OSError, NoDevice):
        return None


def talk(operator: Operator, screen: Screen, said: str, found: Device | None) -> str:
    """Begins, and does what a person types. Where something else ended the session, all is held, and it says what."""
    try:
        operator.begin(said, found)
        converse(operator, screen)
    except AskedToEnd as why:
        reply = operator.console.ask("hold")[0]
        status = operator.console.status()
        stays = f"; {operator.session.half(status)} stays half-done" if status.half != "none" else ""
        return f"{why}: {reply}{stays}"
    return ""


def converse(operator: Operator, screen: Screen) -> None:
    """Reads what a person types until the session is over. Raises AskedToEnd."""
    while not operator.over:
        try:
            line = screen.prompt("ngc> ")
        except EOFError:
            screen.say("")
            operator.ending.say()
            return
        except KeyboardInterrupt:
            screen.say("\nnothing runs; quit ends the session")
            continue
        operator.do(line)
        if screen.stops():
            operator.do("stop")


class Patience:
    """Says it once if `ngc` doesn't answer, since nobody reads OUT; the third Ctrl-C then ends it."""

    def __init__(self, screen: Screen) -> None:
        self.screen = screen

    def __call__(self, seconds: float) -> None:
        """Is called while a reply doesn't come."""
        if seconds > 2:
            self.screen.once("ngc waits until the reader of OUT takes lines; a hold is heeded after that. Ctrl-C three"
                             " times ends ngc, as a loss of power would")
            if self.screen.asked_to_hold >= 3 or self.screen.ending:
                raise CannotBegin(f"{self.screen.ending or 'ended'}; a block that was under way is half-done")


def told(ended: Ended) -> str:
    """Why `ngc` ended by itself."""
    refusals = [explained(reply) for reply in ended.replies if reply.startswith("refused")]
    error = refusals[-1] if refusals else "it said no word; memory or the terminal may have failed it"
    return f"ngc ended with status {ended.status}: {error}"
