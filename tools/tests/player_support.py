"""What tests of the player share: tools/player as a compiler builds it, and as its sanitizers watch it."""
import atexit
import fcntl
import hashlib
import os
import re
import shutil
import subprocess
import tempfile
import unittest
from concurrent.futures import ThreadPoolExecutor
from functools import cache
from pathlib import Path

from session_support import PATIENCE_S, TOOLS, InFolder

from ngc_tools.link.progress import Link, NoAnswer

FOLDERS = [TOOLS / "player", *(TOOLS / "player" / name for name in ("source", "motion", "motors", "talk", "files"))]
SOURCES = [*(path for folder in FOLDERS for path in sorted(folder.glob("*.c"))), TOOLS / "sink" / "sender.c",
           TOOLS / "sink" / "wire.c"]
INCLUDES = [f"-I{folder}" for folder in FOLDERS]
PROVED = [Path(os.environ.get("NGC_PROVED", TOOLS / "player" / "out"), name).absolute()
          for name in ("libng_pace_c.a", "libng_lines_c.a")]
"""The proved pacer and reader of lines, which `make archives` builds; NGC_PROVED is another folder that has them."""
STANDARD = ("-std=c11", "-Wall", "-Wextra", "-Wconversion", "-Werror", "-pthread")
NO_RAMPS = "out: no --machine: no ramps, and no motor follows full rates from rest\n"
SANITIZERS = ("-O0", "-g", "-fsanitize=address,undefined", "-fno-sanitize-recover=all")


def parts(*names: str) -> tuple[Path, ...]:
    """The sources of the player that have these names."""
    return tuple(path for path in SOURCES if path.stem in names)


@cache
def built(*options: str, compiler: str = "cc", pins: Path | None = None, sources: tuple[Path, ...] = ()) -> str:
    """The path of a player in C, or of what else these sources are, built without a warning."""
    sources = sources or [path for path in SOURCES if not pins or path.name != "pins.c"] + ([pins] if pins else [])
    with ThreadPoolExecutor(os.cpu_count()) as several:
        objects = list(several.map(lambda path: compiled(path, compiler, *options), sources))
    is_proved = any(path.name in ("pace.c", "line.c") for path in sources)
    return made("player", compiler, *STANDARD, *options, *objects, *(proved() if is_proved else ()), "-lm")


def proved() -> list[str]:
    """The paths of the archives of the proved crates."""
    if missing := [path for path in PROVED if not path.exists()]:
        raise AssertionError(f"no {missing[0]}: make -C {TOOLS / 'player'} archives")
    return list(map(str, PROVED))


@cache
def compiled(source: Path, compiler: str, *options: str) -> str:
    """The path of a source's object, compiled without a warning."""
    return made("object.o", compiler, *STANDARD, *options, *INCLUDES, "-c", str(source))


def made(name: str, *command: str) -> str:
    """The path of what a compiler makes, in a folder of its own; where `.ci/tools` gives one, in a folder that several
    processes share, and once for all of them."""
    path = Path(builds(), hashlib.sha256("\0".join(map(str, command)).encode()).hexdigest()[:16] + "-" + name)
    with open(f"{path}.lock", "w") as lock:
        fcntl.flock(lock, fcntl.LOCK_EX)
        if not path.exists():
            done = subprocess.run([*command, "-o", f"{path}.part"], capture_output=True, text=True)
            if done.returncode:
                raise AssertionError("tools/player isn't built:\n" + done.stderr)
            os.rename(f"{path}.part", path)
    return str(path)


@cache
def builds() -> str:
    """The folder for what compilers make."""
    if shared := os.environ.get("NGC_BUILDS"):
        return shared
    folder = tempfile.mkdtemp(prefix="ngc-player-")
    atexit.register(shutil.rmtree, folder)
    return folder


def sector(*lines: str) -> bytes:
    """A record with these lines."""
    text = "".join(line + "\n" for line in lines).encode("utf-8", "surrogateescape")
    return text.ljust(511) + b"\n"


def record(path: str = "position") -> str:
    """A record's text after its first line, without the mark of its file, its age, and the blanks at its end."""
    text = Path(path).read_text().split("\n", 1)[1]
    return re.sub("^(file|age) .*\n", "", text, flags=re.MULTILINE).rstrip(" \n") + "\n"


def preloaded(name: str, text: str) -> dict[str, str]:
    """The environment in which functions of the C library are those of this text, in the folder of the test."""
    Path(f"{name}.c").write_text(text)
    subprocess.run(["cc", "-shared", "-fPIC", f"{name}.c", "-o", f"{name}.so"], check=True)
    return {**os.environ, "LD_PRELOAD": f"{os.getcwd()}/{name}.so"}


class PlayerTest(InFolder):
    """A test of the player."""

    takes_preloads = True

    def command(self) -> list[str]:
        """The player."""
        return [built("-O2")]

    def play(self, *words: str, **how: object) -> subprocess.CompletedProcess[str]:
        """Plays `out` to its end, or what `words` name besides, with a tool changer."""
        names = () if words and words[-1] == "position" else ("out", "first.toml", "position")
        return self.run_player("--no-ask-tool", "--pins", "pins", *words, *names, **how)

    def run_player(self, *words: str, **how: object) -> subprocess.CompletedProcess[str]:
        """Runs it to its end."""
        return subprocess.run([*self.command(), *words], capture_output=True, text=True, timeout=PATIENCE_S, **how)

    def begin(self, *words: str, **how: object) -> subprocess.Popen[str]:
        """Starts it."""
        child = subprocess.Popen([*self.command(), *words], stdin=subprocess.PIPE, stdout=subprocess.PIPE,
                                 stderr=subprocess.PIPE, text=True, **how)
        self.addCleanup(self._end, child)
        return child

    def linked(self, path: str = "progress") -> Link:
        """A link to the player, once it listens."""
        found: list[Link] = []

        def tried() -> bool:
            try:
                found.append(Link(path, PATIENCE_S))
            except NoAnswer:
                return False
            return True

        self.wait_for("the player listens", tried)
        self.addCleanup(found[0].close)
        return found[0]

    def refused(self, *words: str) -> str:
        """What is said, after the player's name, at status 2."""
        done = self.run_player("--untimed", *words)
        self.assertEqual((done.returncode, done.stdout), (2, ""), words)
        self.assertRegex(done.stderr, r"^player: .*\n$")
        return done.stderr.partition(": ")[2].removesuffix("\n")


def played(*words: str) -> tuple[int, str, str]:
    """The status, standard output and standard error of the player, which runs to its end."""
    done = subprocess.run([built("-O2"), *words], capture_output=True, text=True, timeout=PATIENCE_S)
    return done.returncode, done.stdout, done.stderr


@cache
def has_sanitizers() -> bool:
    """Whether the compiler of this computer has them."""
    with tempfile.TemporaryDirectory() as folder:
        command = ["cc", *SANITIZERS, "-x", "c", "-", "-o", f"{folder}/tried"]
        return subprocess.run(command, input=b"int main(void) { return 0; }", capture_output=True).returncode == 0


class Sanitized:
    """The same under the compiler's sanitizers of addresses and undefined behaviour."""

    takes_preloads = False

    @classmethod
    def setUpClass(cls) -> None:
        """Needs a compiler that has them."""
        super().setUpClass()
        if not has_sanitizers():
            raise unittest.SkipTest("the compiler has no sanitizers")

    def command(self) -> list[str]:
        """The player."""
        return [built(*SANITIZERS)]
