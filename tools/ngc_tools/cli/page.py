"""The words of `ngc-page`, and its session from start to end."""
import argparse
import os
import re
import secrets
import socket
import sys
import time
from collections.abc import Mapping
from dataclasses import dataclass

from ngc_tools.cli.operate import add_session, as_found, bound, check_ahead, metered
from ngc_tools.cli.run import add_ngc, new_parser, run
from ngc_tools.failure import Failure, WrongWords
from ngc_tools.formats.device import Device
from ngc_tools.ngc.before_start import CannotBegin, look
from ngc_tools.ngc.console import Console
from ngc_tools.ngc.machine_report import Motion
from ngc_tools.ngc.run import find_ngc
from ngc_tools.ngc.usable_settings import look_at_settings
from ngc_tools.operator.meter import Meter
from ngc_tools.operator.operator import Operator
from ngc_tools.operator.recovery import OutFound
from ngc_tools.operator.setter import Setter
from ngc_tools.operator.synced import SyncedLink
from ngc_tools.page.face import PageFace
from ngc_tools.page.server import Server
from ngc_tools.page.session import Opened, PageSession
from ngc_tools.page.start_player import PlayerStarter
from ngc_tools.link.machine import read_limits
from ngc_tools.link.progress import Link, NoAnswer
from ngc_tools.shown import shown

ABOUT = """A page in the browser over `ngc run`: the machine's state, the program, its path, and what an operator does.

It holds the session as ngc-operate does; with --player it is metered. It listens at this computer alone, and whoever
opens the page has to know the key in the address that it prints. Each start makes a new one, unless NGC_PAGE_KEY in the
environment is one that stays the same."""

EXAMPLE = """example:
  ngc format mill.dev                                   (once; it OVERWRITES mill.dev)
  mkfifo axis
  player axis mill.toml position --progress progress    (in another terminal)
  ngc-page mill.dev mill.toml axis --player progress

environment:
  NGC_PAGE_KEY  the key in the address;
                or each start makes one

exit status:
  0  the session was ended by quit
  2  the words are wrong, `ngc run` can't be started or failed, a signal came: it says why"""

_ADDRESS = re.compile(r"https?://[A-Za-z0-9.-]+(?::[0-9]{1,5})?")
_KEY = re.compile(r"[A-Za-z0-9_-]{22,86}")
_LEAST_SIGNS = 10  # that differ; of 22 by chance fewer never do
_WEAK = ("NGC_PAGE_KEY: a key that somebody could guess. It takes 22 to 86 signs of A-Z a-z 0-9 _ - by chance, as"
         " `python3 -c 'import secrets; print(secrets.token_urlsafe(16))'` prints")
_ALL = ("0.0.0.0", "[::]", "::")
_ANSWERS_S = 1.0  # a player that doesn't answer for so long doesn't know the question
_SWITCH_S = 0.0005  # after so long threads take turns, so that a tick doesn't wait for a page
_OVER_S = 0.05  # so often it is looked whether the session is over


def make_parser() -> argparse.ArgumentParser:
    """The words that it takes."""
    parser = new_parser("ngc-page", ABOUT, EXAMPLE)
    add_session(parser)
    parser.add_argument("--machine", metavar="FILE", help="the machine's file, as the player takes it: times with"
                        " ramps, and the height of the tool setter")
    parser.add_argument("--start-player", metavar="COMMAND", help="starts a player where none listens at --player, and"
                        " once the last one is gone and `Start ngc again` is touched: one word, as"
                        " 'player -f -s progress -m player.toml out mill.toml position'")
    parser.add_argument("--jobs", metavar="FOLDER", help="a folder of programs, which the page shows to be loaded")
    parser.add_argument("--listen", default="127.0.0.1:8585", metavar="HOST:PORT", help="where pages come from"
                        " (without it 127.0.0.1:8585); another HOST lets in whoever hears the network, which the key"
                        " crosses in clear: docs/PAGE.md has a safer way for a tablet")
    parser.add_argument("--address", action="append", default=[], metavar="URL", help="another address by which pages"
                        " come, as https://mill.example through a proxy that has TLS; it may be given again")
    add_ngc(parser)
    return parser


def main(arguments: list[str] | None = None) -> int:
    """Runs it, and returns the exit status."""
    return run(make_parser(), work, arguments)


def work(args: argparse.Namespace) -> int:
    """Looks at what is given, and does the session. Raises WrongWords, CannotBegin, NoAnswer, BadSettings, BadMachine,
    ValueError, OSError."""
    check_ahead(args)
    host, port = address(args.listen)
    if wrong := next((url for url in args.address if not _ADDRESS.fullmatch(url)), None):
        raise WrongWords(f"{wrong}: --address takes https://NAME, or http://NAME:PORT")
    if args.start_player is not None and args.player is None:
        raise WrongWords("--start-player COMMAND goes with --player SOCKET")
    starter = PlayerStarter(args.start_player, args.player) if args.start_player is not None else None
    if args.jobs is not None and not os.path.isdir(args.jobs):
        raise WrongWords(f"{shown(os.fsencode(args.jobs))}: --jobs takes a folder of programs")
    key = key_of(os.environ)
    ngc = find_ngc(args.ngc)
    if args.machine:
        look_at_settings(ngc, args.settings)
        Motion.read(ngc, args.machine, args.settings)
    sys.setswitchinterval(_SWITCH_S)
    with listening(host, port) as file:
        session = PageSession(Opener(ngc, args, starter), PageFace(), args.machine or "")
        try:
            if args.jobs:
                session.show_jobs(args.jobs)
            session.start()
            serve(session, key, host, file, args.address)
        finally:
            status = ended(session)
    if status:
        raise Failure(f"ngc ended with status {status}: the device or OUT failed in this session")
    return 0


def address(text: str) -> tuple[str, int]:
    """The host and the port of --listen. Raises WrongWords."""
    host, _, port = text.rpartition(":")
    if not host or not port.isdecimal() or int(port) > 65_535:
        raise WrongWords(f"{text}: --listen takes HOST:PORT")
    if host in _ALL:
        raise WrongWords(f"{text}: name the address of one network, since pages have to come by its name")
    return host, int(port)


def key_of(environment: Mapping[str, str]) -> str:
    """The key in the path: that of the environment, else a new one of 128 bits. Raises WrongWords for a weak one."""
    key = environment.get("NGC_PAGE_KEY") or secrets.token_urlsafe(16)
    if not _KEY.fullmatch(key) or len(set(key)) < _LEAST_SIGNS:
        raise WrongWords(_WEAK)
    return key


def listening(host: str, port: int) -> socket.socket:
    """A socket that listens there. Raises CannotBegin."""
    family = socket.AF_INET6 if host.startswith("[") else socket.AF_INET
    try:
        return socket.create_server((host.strip("[]"), port), family=family, backlog=128)
    except OSError as error:
        raise CannotBegin(f"{host}:{port}: pages can't come from there: {error.strerror or error}") from None


@dataclass(frozen=True, slots=True)
class Opener:
    """Begins sessions of `ngc run` with these words."""

    ngc: str
    args: argparse.Namespace
    starter: PlayerStarter | None = None

    def __call__(self, face: PageFace) -> Opened:
        """Begins one. Motors that go on along lines of the session before are held first, since nobody could hold them
        meanwhile. Raises CannotBegin, NoAnswer, BadSettings, ValueError, Ended, OSError."""
        if self.starter:
            self.starter.start()
        meter = metered(self.args)
        try:
            is_told = meter is not None and meter.link.rest()
            opened = self._begun(face, meter)
        except BaseException:
            if meter:
                meter.link.close()
            raise
        opened.operator.motors.is_told = is_told
        return opened

    def _begun(self, face: PageFace, meter: Meter | None) -> Opened:
        args = self.args
        pipe = look(args.device, args.settings, args.out)
        look_at_settings(self.ngc, args.settings)
        found, left_at = as_found(args.device), os.stat(args.device).st_mtime
        link = meter.link if meter else None
        out = OutFound.of(self.ngc, args.settings, link, found) if isinstance(link, SyncedLink) else None
        console = Console(self.ngc, args.device, args.settings, args.out, PagePatience(face))
        try:
            return self._opened(console, face, meter, (found, left_at), out, pipe)
        except BaseException:
            if console.child.poll() is None:
                console.kill()
            raise

    def _opened(self, console: Console, face: PageFace, meter: Meter | None, before: tuple[Device | None, float],
                out: OutFound | None, pipe: int | None) -> Opened:
        console.starts = face.level.start
        if meter:
            meter.link.starts = face.level.start
        console.status()
        operator = Operator(console, face, meter)
        operator.recover.found = out
        if self.args.machine:
            operator.know(Setter.read(self.args.machine))
            limits = read_limits(self.args.machine, operator.session.settings.step_nm)
            operator.recover.most_percent = limits.most_percent
        said = bound(self.args, meter, pipe)
        if pipe is not None:
            os.close(pipe)
        if meter is None:
            return Opened(operator, said, *before, None)
        return Opened(operator, said, *before, Link(self.args.player, 0.0), self._has_moves(meter))

    def _has_moves(self, meter: Meter) -> bool:
        """Whether the player makes moves without lines: one with ramps that answers such a question."""
        if not meter.link.ask().wants:
            return False
        link = Link(self.args.player, _ANSWERS_S)
        try:
            link.machine()
        except NoAnswer:
            return False
        finally:
            link.close()
        return True


class PagePatience:
    """Says it once if `ngc` doesn't answer, since nobody reads OUT."""

    def __init__(self, face: PageFace) -> None:
        self.face = face

    def __call__(self, seconds: float) -> None:
        """Is called while a reply doesn't come."""
        if seconds > 2:
            self.face.once("ngc waits until the reader of OUT takes lines; a hold is heeded after that")
            if self.face.is_left:
                self.face.is_stuck = True
                raise CannotBegin("ended; a block that was under way is half-done")


def serve(session: PageSession, key: str, host: str, file: socket.socket, addresses: list[str]) -> None:
    """Serves pages that know a key until the session is over. Raises OSError."""
    server = Server(key, session, addresses)
    server.listen(host, file)
    for origin in (f"http://{host}:{server.port}", *addresses):
        print(f"{origin}/{server.key}/", flush=True)
    try:
        while not session.over.is_set():  # Ctrl-C within its `wait` may leave it locked
            time.sleep(_OVER_S)
    finally:
        session.leave()
        server.close()


def ended(session: PageSession) -> int:
    """Ends what is left of `ngc`, as a loss of power would where it doesn't answer, and returns its exit status."""
    operator = session.operator
    if not session.leave():
        operator.console.kill()
    if operator.console.child.poll() is not None:
        return operator.console.child.returncode
    operator.ending.tell_player()
    return operator.console.quit()
