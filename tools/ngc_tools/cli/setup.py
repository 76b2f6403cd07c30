"""The words of `ngc-setup`, and the files that it makes."""
import argparse
import os
import secrets
import subprocess
from collections.abc import Callable
from dataclasses import dataclass
from pathlib import Path

from ngc_tools import files
from ngc_tools.cli.check import say_file
from ngc_tools.cli.run import add_ngc, new_parser, run
from ngc_tools.failure import Failure
from ngc_tools.formats.device import Device
from ngc_tools.formats.settings import Settings
from ngc_tools.ngc import machine_report, settings_report
from ngc_tools.ngc.before_start import CannotBegin, look
from ngc_tools.ngc.machine_report import Motion
from ngc_tools.ngc.run import find_ngc
from ngc_tools.ngc.usable_settings import look_at_settings
from ngc_tools.scratch import Scratch
from ngc_tools.setup.asking import ask_accel, ask_axes, ask_line, ask_settings, ask_yes
from ngc_tools.setup.texts import machine_text, settings_text
from ngc_tools.shown import shown

ABOUT = """Make the files of a machine: ask once for its axes, steps, travel and step sink, write its settings and its
machine's file with a comment on each key, make its device, and check all of it.

What is there stays as it is, and isn't asked for: remove a file to be asked again. Nothing is made before all is
answered."""

EXAMPLE = """example:
  sudo ngc-setup
  ngc-setup --config . --state .

exit status:
  0  all is there, and it is valid
  2  the words or an answer are wrong, the answers ended, or a file can't be used: it says which, and why"""

CONFIG, STATE = "/etc/ngc", "/var/lib/ngc"


@dataclass(frozen=True, slots=True)
class MachineFiles:
    """Where the files of a machine are."""

    settings: Path
    machine: Path
    device: Path
    out: Path
    position: Path
    key: Path

    @staticmethod
    def of(config: str, state: str) -> "MachineFiles":
        """Those of a folder for what a person writes, and of one for what a session does."""
        kept = Path(state)
        return MachineFiles(Path(config, "settings.toml"), Path(config, "machine.toml"), kept / "mill.dev",
                            kept / "out", kept / "position", kept / "page.key")


@dataclass(frozen=True, slots=True)
class SetupAnswers:
    """The texts that are to be written; None of a file that is there already."""

    settings: str | None
    machine: str | None
    key: str | None


def make_parser() -> argparse.ArgumentParser:
    """The words of the command line."""
    parser = new_parser("ngc-setup", ABOUT, EXAMPLE)
    parser.add_argument("--config", metavar="FOLDER", default=CONFIG,
                        help=f"where settings.toml and machine.toml are; without it {CONFIG}")
    parser.add_argument("--state", metavar="FOLDER", default=STATE,
                        help=f"where the device, OUT and the player's record are; without it {STATE}. What is made"
                        " there belongs to the folder's owner")
    add_ngc(parser)
    return parser


def main(arguments: list[str] | None = None) -> int:
    """Sets a machine up, and returns the exit status; without arguments those of the command line count."""
    return run(make_parser(), work, arguments)


def work(args: argparse.Namespace) -> int:
    """Asks, makes and checks. Raises Failures, OSError."""
    ngc, places = find_ngc(args.ngc), MachineFiles.of(args.config, args.state)
    for folder in (args.config, args.state):
        _look_at_folder(folder)
    answers = asked(places)
    try_texts(ngc, answers, places)
    make(ngc, answers, places)
    check(ngc, places)
    print("\n".join(next_words(args, places)))
    return 0


def _look_at_folder(folder: str) -> None:
    """Raises Failure for one in which nothing can be made."""
    if not os.path.isdir(folder):
        raise Failure(f"{folder}: there is no such folder")
    if not os.access(folder, os.W_OK | os.X_OK):
        raise Failure(f"{folder}: nothing can be made there by this account; sudo ngc-setup")


def asked(places: MachineFiles) -> SetupAnswers:
    """The answers of a person. Raises NoMoreAnswers, BadSettings, OSError."""
    has_settings, has_machine = places.settings.exists(), places.machine.exists()
    for path in (path for path in (places.settings, places.machine, places.device, places.out) if path.exists()):
        print(f"{shown(str(path))}: it is there, and stays as it is")
    if not (has_settings and has_machine):
        print("Enter takes what stands in brackets.")
    axes = None if has_settings else ask_axes()
    line = None if has_machine else ask_line()
    settings = Settings.read(places.settings) if axes is None else ask_settings(axes, line is not None)
    machine = None if has_machine else machine_text(ask_accel(), line, settings)
    is_new = not places.device.exists() and not places.key.exists()
    keeps = is_new and ask_yes("shall the page have the same address after each start? It is a password, and a new one"
                               " at each start is safer")
    return SetupAnswers(None if has_settings else settings_text(settings), machine, secrets.token_urlsafe(16)
                   if keeps else None)


def try_texts(ngc: str, answers: SetupAnswers, places: MachineFiles) -> None:
    """Asks `ngc` whether it takes the texts, before anything is made. Raises BadSettings, BadMachine, OSError."""
    with Scratch("ngc-setup-") as folder:
        settings, machine = Path(folder, "settings.toml"), Path(folder, "machine.toml")
        settings.write_text(answers.settings or places.settings.read_text())
        machine.write_text(answers.machine or places.machine.read_text())
        look_at_settings(ngc, settings)
        Motion.read(ngc, machine, settings)


def make(ngc: str, answers: SetupAnswers, places: MachineFiles) -> None:
    """Makes each file that isn't there. Raises NotWritten, Failure, OSError."""
    for path, text in ((places.settings, answers.settings), (places.machine, answers.machine)):
        if text is not None:
            files.write_new(path, text.encode(), ())
            path.chmod(0o644)
            print(f"{shown(str(path))}: written")
    if not places.device.exists():
        _make_new(places.device, lambda path: _format(ngc, path))
    if not places.out.exists():
        _make_new(places.out, lambda path: path.touch())
    if answers.key is not None:
        _make_new(places.key, lambda path: path.write_text(answers.key + "\n"), 0o600)


def _make_new(path: Path, fill: Callable[[Path], object], mode: int = 0o640) -> None:
    """Makes a file of the folder's owner whole or not at all, and never in the place of another. Raises Failure,
    OSError."""
    beside = path.with_name(f"{path.name}.{os.getpid()}.new")
    try:
        os.close(os.open(beside, os.O_WRONLY | os.O_CREAT | os.O_EXCL | os.O_CLOEXEC, mode))
        fill(beside)
        owner = path.parent.stat()
        if os.geteuid() == 0:
            os.chown(beside, owner.st_uid, owner.st_gid)
        os.chmod(beside, mode)
        _sync(beside)
        os.link(beside, path)
    finally:
        beside.unlink(missing_ok=True)
    _sync(path.parent)
    print(f"{shown(str(path))}: made")


def _sync(path: Path) -> None:
    file = os.open(path, os.O_RDONLY | os.O_CLOEXEC)
    try:
        os.fsync(file)
    finally:
        os.close(file)


def _format(ngc: str, path: Path) -> None:
    """Makes a device in a new file. Raises Failure, OSError."""
    path.unlink()
    done = subprocess.run([ngc, "format", str(path)], stdin=subprocess.DEVNULL, capture_output=True, text=True)
    if done.returncode:
        raise Failure(f"{path}: ngc format ended with status {done.returncode}: {done.stdout.strip()}")


def check(ngc: str, places: MachineFiles) -> None:
    """Looks at all that is there, and says what it means in mm. Raises BadSettings, BadMachine, CannotBegin, Failure,
    OSError."""
    look_at_settings(ngc, places.settings)
    settings, motion = Settings.read(places.settings), Motion.read(ngc, places.machine, places.settings)
    say_file(str(places.settings), settings_report.report(settings), settings_report.warnings(settings))
    say_file(str(places.machine), machine_report.report(motion), machine_report.warnings(motion))
    pipe = look(str(places.device), str(places.settings), str(places.out))
    if pipe is not None:
        os.close(pipe)
    if damage := Device.read(places.device).damage:
        raise CannotBegin(f"{places.device}: damaged (J3): {damage[0]}")


def next_words(args: argparse.Namespace, places: MachineFiles) -> list[str]:
    """What to do next."""
    if (args.config, args.state) == (CONFIG, STATE) and os.path.isdir("/run/systemd/system"):
        return ["All is there. Next: systemctl start ngc-player ngc-page, and ngc-address says where the page is."]
    socket = places.position.with_name("progress")
    words = f"-f -s {socket} -m {places.machine} {places.out} {places.settings} {places.position}"
    return ["All is there. Next, in two terminals:", f"  player {words}",
            f"  ngc-page {places.device} {places.settings} {places.out} --player {socket} --machine {places.machine}"]
