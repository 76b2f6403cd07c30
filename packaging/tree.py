"""The files of a package, laid out in a folder as they are to be installed."""
import gzip
import os
import re
import shutil
import subprocess
import sys
from collections.abc import Iterable
from dataclasses import dataclass
from pathlib import Path

import completion
import manual
from deb import BUILD

TOP = Path(__file__).resolve().parent.parent
FILES = Path(__file__).resolve().parent / "files"
sys.path.insert(0, str(TOP / "tools"))

from ngc_tools.formats.settings import Settings
from ngc_tools.setup.texts import machine_text, settings_text

MILL = Settings((5000, 5000, 2500), (-150_000_000, -100_000_000, -200_000_000), (150_000_000, 100_000_000, 0),
                3 * 10**9, 50, ())
"""A machine to begin with: 300 by 200 by 200 mm, its zero in the middle of the table and at the top of Z."""

BOARDS = ("stm32f103", "stm32f103_boot", "stm32f411", "nucleo_f411re", "pico")
"""Those of tools/sink/Makefile, for each of which there is firmware."""

_SHEBANG = b"#!/usr/bin/env python3\n"
_NOT_FOR_USERS = ("STATE.md",)
_PLAYER = "player that carries out the lines of OUT, with ramps"
_ADDRESS = "shows the address of the machine's page"
_NGC = "a controller for three-axis milling machines"


@dataclass(frozen=True)
class Target:
    """An architecture, and the programs of the compiler for it."""

    debian: str
    prefix: str  # of gcc, strip and objdump


AMD64 = Target("amd64", "x86_64-linux-gnu-")
ARM64 = Target("arm64", "aarch64-linux-gnu-")


@dataclass(frozen=True)
class Given:
    """What the package is made of beside the repository: the folder of the built ngc and archives, where programs are
    that this computer can run, and the package's version."""

    built: Path
    runs: Path
    version: str


class Tree:
    """A folder that is filled."""

    def __init__(self, root: Path, target: Target, given: Given) -> None:
        self.root, self.target, self.given = root, target, given

    def fill(self) -> None:
        """Lays all out but what tells of the build. Raises CalledProcessError, OSError."""
        self._programs()
        self._tools()
        self._firmware()
        self._services()
        self._machine()
        self._documents()
        self._helps()

    def put(self, name: str, data: bytes, mode: int = 0o644) -> None:
        """Makes a file."""
        path = self.root / name
        path.parent.mkdir(parents=True, exist_ok=True)
        path.write_bytes(data)
        path.chmod(mode)

    def copy(self, source: Path, name: str, mode: int = 0o644) -> None:
        """Copies a file."""
        self.put(name, source.read_bytes(), mode)

    def _programs(self) -> None:
        """ngc and the player, without what a debugger wants."""
        self.copy(self.given.built / "ngc", "usr/bin/ngc", 0o755)
        player = self.root / "usr/libexec/ngc/player"
        player.parent.mkdir(parents=True)
        archives = " ".join(str(self.given.built / name) for name in ("libng_pace_c.a", "libng_lines_c.a"))
        flags = ("-std=c11 -O2 -Wall -Wextra -Wconversion -Werror -fPIE -pie -fstack-protector-strong"
                 f" -D_FORTIFY_SOURCE=2 -DBUILD='\"/{BUILD}\"' -Wl,-z,relro,-z,now")
        run(["make", "-s", "-B", "-C", str(TOP / "tools/player"), f"OUT={player.parent}", f"ARCHIVES={archives}",
             f"CC={self.target.prefix}gcc", f"CFLAGS={flags}", str(player)])
        for path in (self.root / "usr/bin/ngc", player):
            run([f"{self.target.prefix}strip", "--strip-all", "--remove-section=.comment", str(path)])

    def _tools(self) -> None:
        """The tools with their modules, and their names on PATH."""
        tools = TOP / "tools"
        for path in sorted(tools.glob("ngc-*")):
            text = path.read_bytes().replace(_SHEBANG, b"#!/usr/bin/python3\n")
            self.put(f"usr/share/ngc/{path.name}", text, 0o755)
            os.symlink(f"../share/ngc/{path.name}", self.root / "usr/bin" / path.name)
        self.copy(tools / "start.py", "usr/share/ngc/start.py")
        for path in tracked(tools / "ngc_tools"):
            self.copy(path, f"usr/share/ngc/{path.relative_to(tools)}")
        self.copy(tools / "posts/ngc_post.py", "usr/share/ngc/posts/ngc_post.py")
        self.copy(FILES / "ngc-address", "usr/bin/ngc-address", 0o755)

    def _firmware(self) -> None:
        """What tools/sink builds for each board, as it is flashed."""
        to = self.root / "usr/share/ngc/firmware"
        built = to / "built"
        for board in BOARDS:
            run(["make", "-s", "-C", str(TOP / "tools/sink"), "arm", f"OUT={built}", f"BOARD={board}"])
        for path in sorted(built.iterdir()):
            if path.suffix in (".bin", ".hex", ".uf2"):
                self.copy(path, f"usr/share/ngc/firmware/{path.name}")
        shutil.rmtree(built)

    def _services(self) -> None:
        """Units, what they run, the rule of the sink's line, and what is shown at login."""
        for name in ("ngc-player.service", "ngc-page.service"):
            self.copy(FILES / name, f"lib/systemd/system/{name}")
        for name in ("start-player", "start-page"):
            self.copy(FILES / name, f"usr/libexec/ngc/{name}", 0o755)
        self.copy(FILES / "60-ngc-sink.rules", "lib/udev/rules.d/60-ngc-sink.rules")
        self.copy(FILES / "default", "etc/default/ngc")
        self.copy(FILES / "profile.sh", "etc/profile.d/ngc-address.sh")

    def _machine(self) -> None:
        """A machine to begin with."""
        self.put("etc/ngc/example/settings.toml", settings_text(MILL).encode())
        self.put("etc/ngc/example/machine.toml", machine_text([100] * 3, "/dev/ttyUSB0", MILL).encode())

    def _documents(self) -> None:
        """Pages, pictures and examples, in the folders that the pages name."""
        to = "usr/share/doc/ngc"
        for path in tracked(TOP / "docs"):
            if path.name not in _NOT_FOR_USERS:
                self.copy(path, f"{to}/docs/{path.relative_to(TOP / 'docs')}")
        for path in tracked((TOP / "examples").resolve()):
            self.copy(path, f"{to}/examples/{path.name}")
        self.copy(TOP / "README.md", f"{to}/README.md")
        self.put(f"{to}/CHANGELOG.md.gz", packed((TOP / "CHANGELOG.md").read_bytes()))
        self.copy(FILES.parent / "debian/copyright", f"{to}/copyright")

    def _helps(self) -> None:
        """Pages of the manual and completion, of what each program prints for --help."""
        helps = helps_of(self.given.runs)
        for name, (section, about, texts) in sorted(pages(helps).items()):
            page = manual.page(name, section, about, texts, self.given.version)
            self.put(f"usr/share/man/man{section[0]}/{name}.{section}.gz", packed(page.encode()))
        folder = "usr/share/bash-completion/completions"
        self.put(f"{folder}/ngc", completion.script(helps).encode())
        for name in sorted(name for name in helps if " " not in name and name != "ngc"):
            os.symlink("ngc", self.root / folder / name)


def pages(helps: dict[str, str]) -> dict[str, tuple[str, str, list[manual.Text]]]:
    """The section, what it is, and the texts of each page, by its name."""
    commands = [manual.Text(words, text) for words, text in helps.items() if words.startswith("ngc ")]
    found = {"ngc": ("1", _NGC, [manual.Text("ngc", helps["ngc"]), *commands]),
             "ngc-address": ("1", _ADDRESS, [manual.Text("ngc-address", helps["ngc-address"])]),
             "player": ("8ngc", _PLAYER, [manual.Text("player", player_words())])}
    for path in sorted((TOP / "tools").glob("ngc-*")):
        about = re.match("[^.,:(]*[^.,:( ]", helps[path.name].split("\n\n")[1])[0]
        found[path.name] = ("1", about[0].lower() + about[1:], [manual.Text(path.name, helps[path.name])])
    return found


def helps_of(runs: Path) -> dict[str, str]:
    """What ngc, each of its commands and each tool print for help, by the words that name them. `runs` has an ngc."""
    ngc = str(runs / "ngc")
    found = {"ngc": printed([ngc, "help"])}
    for name in completion.commands_of(found["ngc"]):
        if name != "help":
            found[f"ngc {name}"] = printed([ngc, "help", name])
    for path in [*sorted((TOP / "tools").glob("ngc-*")), FILES / "ngc-address"]:
        found[path.name] = printed([str(path), "--help"])
    return found


def player_words() -> str:
    """How the player is called, by its source: it has no --help of its own."""
    text = (TOP / "tools/player/options.c").read_text()
    usage = re.search(r'usage\[\] = ((?:\s*"[^"]*")+);', text)[1]
    words = "".join(re.findall('"([^"]*)"', usage))
    words = re.sub("player (?=\\[|--)", "/usr/libexec/ngc/player ", words)
    return (f"{words}\n\nCarries out the lines of OUT, each in its time or with ramps, over a step sink, and keeps in"
            " POSITION how far it came. What each word means, and what its socket answers, stands in"
            " /usr/share/doc/ngc/docs/tools/player.md and PROTOCOL.md. Each word has a short and a long form."
            " ngc-player.service runs it.\n")


def printed(words: list[str]) -> str:
    """What a program prints, in lines that aren't broken."""
    environment = {**os.environ, "COLUMNS": "1000", "LC_ALL": "C.UTF-8", "PYTHONDONTWRITEBYTECODE": "1"}
    return subprocess.run(words, env=environment, stdin=subprocess.DEVNULL, stdout=subprocess.PIPE, text=True).stdout


def tracked(folder: Path) -> Iterable[Path]:
    """The files of the repository in a folder, or those of a copy of it without its history."""
    for path in sorted(folder.rglob("*")):
        if path.is_file() and "__pycache__" not in path.parts and path.suffix != ".pyc":
            yield path


def packed(data: bytes) -> bytes:
    """The same by gzip, without a time."""
    return gzip.compress(data, 9, mtime=0)


def run(words: list[str]) -> None:
    """Runs a program that has to end well. Raises CalledProcessError, OSError."""
    subprocess.run(words, check=True, stdin=subprocess.DEVNULL)
