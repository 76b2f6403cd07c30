"""Odd conditions: closed streams, Ctrl-C, odd files, a plain locale, a narrow terminal. Whatever comes, a tool ends in
time, with a status of its page, and without a traceback.

A tool runs in a fork of this process, which has loaded it already: that takes some milliseconds."""
import gc
import os
import shutil
import signal
import socket
import subprocess
import sys
import time
import traceback
import unittest
import warnings
from collections.abc import Callable, Iterable
from contextlib import closing, suppress
from dataclasses import dataclass
from http.client import HTTPConnection, HTTPException
from pathlib import Path

sys.path.insert(0, str(Path(__file__).resolve().parent))

from session_support import FIRST, TOOLS, InFolder, ngc, told

from ngc_tools import scratch
from ngc_tools.cli import adapt, check, device, operate, page, plot, rehearse, split
from ngc_tools.formats.device import Device

MAINS = {"ngc-adapt": adapt.main, "ngc-check": check.main, "ngc-device": device.main, "ngc-operate": operate.main,
         "ngc-page": page.main, "ngc-plot": plot.main, "ngc-rehearse": rehearse.main,
         "ngc-split": split.main}
ASKS = [name for name in MAINS if name != "ngc-device"]
TEXT = "G21 G90 G17\n(Stück)\nM3 S1000\nG0 X5 Y0 Z5\nG1 X8 F600\nG2 X9 Y1 I1\nM2\n"
LIMIT_S = 60  # also where the machine has other work
KEY = "MmJ0pTn-Qe7Y_h3sKx4v1A"  # of the address of ngc-page
# Each tool with words that go well; ODD stands in turn for each file that it takes. ngc-page goes on until Ctrl-C.
GOOD = {
    "ngc-adapt": ("part.ngc",), "ngc-check": ("part.ngc",), "ngc-device": ("mill.dev",),
    "ngc-operate": ("mill.dev", "first.toml", "out"), "ngc-page": ("mill.dev", "first.toml", "out"),
    "ngc-plot": ("part.txt", "--settings", "first.toml"), "ngc-rehearse": ("mill.dev", "first.toml"),
    "ngc-split": ("part.ngc", "--settings", "first.toml"),
}
ODD = (
    ("ngc-adapt", "ODD"), ("ngc-adapt", "part.ngc", "--settings", "ODD"), ("ngc-adapt", "part.ngc", "--device", "ODD"),
    ("ngc-check", "ODD", "--most", "2"), ("ngc-check", "--settings", "ODD", "--settings-only"),
    ("ngc-check", "part.ngc", "--device", "ODD"),
    ("ngc-check", "--settings", "first.toml", "--settings-only", "--machine", "ODD"),
    ("ngc-device", "ODD"),
    ("ngc-operate", "ODD", "first.toml", "out"), ("ngc-operate", "mill.dev", "ODD", "out"),
    ("ngc-operate", "mill.dev", "first.toml", "ODD"),
    ("ngc-page", "ODD", "first.toml", "out"), ("ngc-page", "mill.dev", "ODD", "out"),
    ("ngc-page", "mill.dev", "first.toml", "ODD"), ("ngc-page", "mill.dev", "first.toml", "out", "--machine", "ODD"),
    ("ngc-plot", "ODD"), ("ngc-plot", "part.txt", "--settings", "ODD"), ("ngc-plot", "part.ngc", "--device", "ODD"),
    ("ngc-rehearse", "ODD", "first.toml"), ("ngc-rehearse", "mill.dev", "ODD"),
    ("ngc-rehearse", "mill.dev", "first.toml", "--carried-out", "1", "--before", "ODD"),
    ("ngc-rehearse", "mill.dev", "first.toml", "--out", "pulses", "--position", "ODD"),
    ("ngc-split", "ODD", "--limit", "1000"), ("ngc-split", "part.ngc", "--settings", "ODD"),
    ("ngc-split", "part.ngc", "--settings", "first.toml", "--device", "ODD"),
)


@dataclass(frozen=True, slots=True)
class Ended:
    """How a tool ended: its status, below 0 for a signal, and what it wrote."""

    status: int
    out: str
    error: str


def begin(name: str, words: Iterable[str], before: Callable[[], object]) -> int:
    """Starts a tool in a fork with a process group of its own, its outputs in files; `before` is done in it first."""
    gc.freeze()
    signal.pthread_sigmask(signal.SIG_BLOCK, {signal.SIGINT})
    child = os.fork()
    if child:
        with suppress(OSError):
            os.setpgid(child, child)  # here too, so that a signal right after this reaches it
        signal.pthread_sigmask(signal.SIG_UNBLOCK, {signal.SIGINT})
        return child
    try:
        gc.disable()  # a page that nobody touches isn't copied
        os.setpgid(0, 0)
        signal.signal(signal.SIGINT, signal.SIG_DFL)  # as the scripts begin
        for number, path in ((0, "/dev/null"), (1, "tool.out"), (2, "tool.err")):
            os.dup2(os.open(path, os.O_RDWR | os.O_CREAT | os.O_TRUNC, 0o666), number)
        for stream, number, mode in (("stdin", 0, "r"), ("stdout", 1, "w"), ("stderr", 2, "w")):
            setattr(sys, stream, open(number, mode, closefd=False))
        warnings.simplefilter("ignore")  # as outside of tests
        scratch.use(os.path.abspath("tmp"))
        signal.pthread_sigmask(signal.SIG_UNBLOCK, {signal.SIGINT})  # not before all of this is done
        before()
        own = ("--ngc", ngc()) if name in ASKS else ()
        status = MAINS[name]([*words, *own])
        sys.stdout.flush()
        sys.stderr.flush()
    except BaseException:
        with open("tool.trace", "w") as file:
            traceback.print_exc(file=file)
        status = 99
    os._exit(status)


def wait(child: int, within_s: float, is_enough: Callable[[], bool] = lambda: False) -> int | None:
    """Waits for a tool's end: its status, or None if it doesn't end in time, or if before that something is enough."""
    until = time.monotonic() + within_s
    while not (found := os.waitpid(child, os.WNOHANG))[0]:
        if time.monotonic() > until or is_enough():
            return None
        time.sleep(0.002)
    return os.waitstatus_to_exitcode(found[1])


def free_port() -> int:
    """The number of a port at which nobody listens."""
    with socket.create_server(("127.0.0.1", 0)) as file:
        return file.getsockname()[1]


def serves(port: int) -> bool:
    """Whether ngc-page answers there."""
    with closing(HTTPConnection("127.0.0.1", port, timeout=LIMIT_S)) as link, suppress(OSError, HTTPException):
        link.request("GET", f"/{KEY}/")
        return link.getresponse().status == 200
    return False


def close(*numbers: int) -> None:
    """Closes standard streams, as a shell's `>&-` does: Python knows none then."""
    for number in numbers:
        setattr(sys, ("stdin", "stdout", "stderr")[number], None)
        os.close(number)


class Odd(InFolder):
    """A folder with a program, its canonical text, settings, a device, an OUT."""

    def setUp(self) -> None:
        """Makes them."""
        super().setUp()
        self.port = free_port()
        self.listen = "--listen", f"127.0.0.1:{self.port}"
        os.environ["NGC_PAGE_KEY"] = KEY
        self.addCleanup(os.environ.pop, "NGC_PAGE_KEY")
        Path("part.ngc").write_bytes(TEXT.encode())
        Path("part.txt").write_bytes(subprocess.run([ngc(), "dry", "part.ngc"], capture_output=True).stdout)
        Path("pulses").write_text("P 1 0 0 50\nP 0 1 0 50\n")
        Path("tmp").mkdir()
        Path("tmp").chmod(0o777)
        self.device()

    def ended(self, name: str, *words: str, before: Callable[[], object] = lambda: None,
              interrupted_s: float | None = None, prints: bool = True) -> Ended:
        """Runs a tool to its end. After `interrupted_s`, Ctrl-C is pressed; it is too where the tool doesn't end, and
        without it once a page is served, and its address printed if it `prints`."""
        Path("tool.trace").unlink(missing_ok=True)
        is_page = name == "ngc-page"
        child = begin(name, [*words, *self.listen] if is_page else words, before)
        if interrupted_s is None:
            status = wait(child, LIMIT_S, lambda: is_page and serves(self.port)
                          and (not prints or os.path.getsize("tool.out") > 0))
        else:
            status = wait(child, interrupted_s)
        if status is None:
            with suppress(ProcessLookupError):
                os.killpg(child, signal.SIGINT)
            status = wait(child, LIMIT_S)
        if status is None:
            os.killpg(child, signal.SIGKILL)
            os.waitpid(child, 0)
            self.fail(f"{name} {' '.join(words)} doesn't end, interrupted after {interrupted_s} s")
        if Path("tool.trace").exists():
            self.fail(f"{name} {' '.join(words)}: {Path('tool.trace').read_text()}")
        return Ended(status, *(Path(path).read_text(errors="replace") for path in ("tool.out", "tool.err")))

    def check_end(self, name: str, end: Ended, what: object) -> None:
        """No traceback, a status of the page, and for status 2 the tool's line, with no other behind it: what belongs
        to it is indented, and a name may have a newline in it."""
        for sign in ("Traceback", "internal error", "Exception ignored"):
            self.assertFalse(sign in end.out + end.error, (what, end.error[-400:]))
        self.assertIn(end.status, (0, 1, 2), (what, end.error[-400:]))
        if end.status == 2:
            says = [line for line in end.error.replace("[2J\n", "[2J").splitlines() if line[:1] != " "]
            self.assertTrue(says and says[-1].startswith(f"{name}: "), (what, end.error[-400:]))

    def test_closed_streams(self) -> None:
        """Each tool does its work with some of the streams closed, and what goes to the others is as ever."""
        closings = [(), *((0,), (1,), (2,), (0, 1), (0, 2), (1, 2), (0, 1, 2))]
        for name, words in GOOD.items():
            ends = []
            for numbers in closings:
                Path("position").unlink(missing_ok=True)
                ends.append(self.ended(name, *words, before=lambda: close(*numbers), prints=1 not in numbers))
            for numbers, end in zip(closings, ends, strict=True):
                self.assertEqual(end.status, ends[0].status, (name, numbers, end.error))
                self.assertEqual(end.out, "" if 1 in numbers else ends[0].out, (name, numbers))
                self.assertEqual(end.error, "" if 2 in numbers else ends[0].error, (name, numbers))
            self.assertEqual(ends[0].status, 2 if name == "ngc-page" else 0, (name, ends[0].error))
        self.assertEqual((Path("part.ngc").read_text(), Path("first.toml").read_text()), (TEXT, FIRST))
        self.assertEqual(Device.read("mill.dev").damage, [])

    def test_scripts_with_closed_streams(self) -> None:
        """The scripts themselves, with none of the three open."""
        begun = [subprocess.Popen(["sh", "-c", 'exec "$@" <&- >&- 2>&-', "sh", sys.executable, TOOLS / name, *words,
                                   *(("--ngc", ngc()) if name in ASKS else ())])
                 for name, words in GOOD.items() if name not in ("ngc-operate", "ngc-page")]
        self.assertEqual([child.wait(LIMIT_S) for child in begun], [0] * (len(GOOD) - 2))

    def test_interrupted(self) -> None:
        """Ctrl-C at ten moments: a line and the page's status, and none of its folders and files is left. A tool that
        is through by then has ended as ever."""
        Path("part.ngc").write_bytes(TEXT.replace("M2\n", "G1 X1 F600\nX2\nX1\n" * 60 + "M2\n").encode())
        Path("part.txt").write_bytes(subprocess.run([ngc(), "dry", "part.ngc"], capture_output=True).stdout)
        self.run_ngc("load 16\nG0 X1\nG0 X2\nM2\n\nquit\n")
        stops = "ngc-check", "ngc-page", "ngc-plot", "ngc-adapt", "ngc-split"
        for name, words in GOOD.items():
            tries = 5 if name in stops else 1  # where others work too, what it took once tells little
            self.assertTrue(any(self._interrupted(name, words) for _ in range(tries)) or name not in stops, name)
        self.assertEqual(os.listdir("tmp"), [])

    def _interrupted(self, name: str, words: tuple[str, ...]) -> int:
        """How often a tool was stopped, of ten moments."""
        took, stopped = self._lasts(name, words), 0
        for moment in range(10):
            end = self.ended(name, *words, interrupted_s=took * moment / 10)
            if end.status != -signal.SIGINT:  # its work was done, and it was about to end
                self.check_end(name, end, (name, moment))
            self.assertFalse("Traceback" in end.error, (name, moment))
            stopped += "stopped" in end.error
        return stopped

    def _lasts(self, name: str, words: tuple[str, ...]) -> float:
        """How long a tool takes."""
        begun = time.monotonic()
        self.ended(name, *words)
        return time.monotonic() - begun

    def test_killed(self) -> None:
        """A rehearsal that is ended by `kill` leaves no folder."""
        self.run_ngc("load 25\nG0 X900\nG0 X-900\nG0 X900\nM2\nquit\n")
        for moment_s in (0, 0.05):
            child = begin("ngc-rehearse", GOOD["ngc-rehearse"], lambda: None)
            self.wait_for("its folder", lambda: os.listdir("tmp"))
            time.sleep(moment_s)
            os.kill(child, signal.SIGTERM)
            self.assertEqual(wait(child, LIMIT_S), -signal.SIGTERM)
            self.assertEqual(os.listdir("tmp"), [])

    def odd_files(self) -> dict[str, bytes | None]:
        """The bytes of files; None for a path that has none."""
        utf16 = TEXT.encode("utf-16")
        return {"empty": b"", "newlines": b"\n" * 1000, "nul": b"\0" * 1000, "nul.ngc": b"G0 X1\0\nM2\n",
                "binary": bytes(range(256)) * 40, "cr.ngc": TEXT.replace("\n", "\r").encode(), "utf16.ngc": utf16,
                "utf16le.ngc": utf16[2:], "cut.ngc": utf16[:-1], "latin.ngc": TEXT.encode("latin-1"),
                "escapes.ngc": b"G0 \x1b[2JX1 ; \x1b]0;x\x07\nM2\n", "zeros": bytes(875_520),
                "large": b"\xff" * 1_100_000,
                "line": b"G1 X1 " * 10_000, "long.toml": b"a." * 50_000 + b"b = 1\n",
                "deep.toml": b"period_us = " + b"[" * 5000, "digits": b"period_us = " + b"9" * 5000 + b"\n",
                "part": b"P 1 0 0 50\nP 1 0", "name\x1b[2J\n": b"G0 X1\n", "surrogate\udcff": b"G0 X1\n",
                "folder": None, "loop": None, "none": None, "none/none": None, "/dev/null": None}

    def test_odd_files(self) -> None:
        """Each of them in the place of each file of each tool."""
        files = self.odd_files()
        for path, data in files.items():
            if data is not None:
                Path(path).write_bytes(data)
        os.mkdir("folder")
        os.symlink("loop", "loop")
        for name, *words in ODD:
            for path, data in files.items():
                for made in ("position", "none"):
                    Path(made).unlink(missing_ok=True)
                end = self.ended(name, *(path if word == "ODD" else word for word in words))
                self.check_end(name, end, (name, words, path))
                shown = end.error + ("" if name == "ngc-adapt" else end.out)  # that one writes the program as it is
                self.assertFalse("\x1b" in shown, (name, words, path))
                is_made = path == "none" and name in ("ngc-operate", "ngc-page") and words[2] == "ODD"
                option = words[words.index("ODD") - 1] in ("--settings", "--device", "--machine", "--before")
                if option or path in ("folder", "loop", "none", "none/none"):
                    self.assertEqual(end.status, 0 if is_made and name != "ngc-page" else 2, (name, words, path))
                is_named = path in end.error or not path.isprintable() or "stopped" in end.error
                self.assertTrue(end.status != 2 or is_named, (name, words, path, end.error))
                if data is not None:
                    self.assertTrue(Path(path).read_bytes()[:len(data)] == data, (name, words, path))

    def test_odd_names(self) -> None:
        """What a terminal obeys, in a name, is shown escaped; so are newlines, on standard output."""
        Path("long.ngc").write_text("G21 G90 G17\nG0 X0 Y0 Z5\n" + "G1 Z-1 F600\nG0 Z5\nG0 X1\n" * 20 + "M2\n")
        odd = {path: f"{path}\x1b[2J\n{path}" for path in ("part.ngc", "part.txt", "long.ngc", "first.toml", "mill.dev",
                                                         "pulses", "out", "position")}
        for path, name in odd.items():
            if Path(path).exists():
                os.rename(path, name)
        part = ("ngc-split", "long.ngc", "--settings", "first.toml", "--limit", "500")
        for name, *words in (*((name, *words) for name, words in GOOD.items()), part,
                             ("ngc-split", *part[1:], "--device", "mill.dev", "--force"),
                             ("ngc-plot", "part.ngc", "--settings", "part.ngc"), ("ngc-check", "part.ngc", "pulses"),
                             ("ngc-rehearse", "pulses", "first.toml"), ("ngc-device", "pulses"),
                             ("ngc-check", "pulses")):
            end = self.ended(name, *(odd.get(word, word) for word in words))
            self.check_end(name, end, (name, words))
            self.assertFalse("\x1b" in end.out + end.error, (name, words, end))
            begins = [line for line in end.out.splitlines() if line.startswith(tuple(odd)) and "\\x1b" not in line]
            self.assertEqual(begins, [], (name, words))

    def test_odd_input(self) -> None:
        """Standard input that can't be read is named."""
        def unreadable() -> None:
            os.dup2(os.open("/dev/null", os.O_WRONLY), 0)

        for name, *words in (("ngc-plot",), ("ngc-plot", "-"), ("ngc-adapt", "-")):
            end = self.ended(name, *words, before=unreadable)
            self.assertEqual((end.status, end.error), (2, f"{name}: standard input: Bad file descriptor\n"))

    def test_escapes_on_a_device(self) -> None:
        """A program and a line of the operator's with escape sequences on a device are shown without them."""
        text = "G0 X1 (\x1b[2J)\n(MSG, \x1b]0;x\x07)\nM0\n"
        self.run_ngc(f"load {len(text)}\n{text}mdi G0 X2 (\x1b[31m)\ntick 3\n")
        for name, words in (("ngc-device", ("mill.dev",)), ("ngc-rehearse", ("mill.dev", "first.toml")),
                            ("ngc-rehearse", ("mill.dev", "first.toml", "1", "0", "0")),
                            ("ngc-operate", ("mill.dev", "first.toml", "out"))):
            end = self.ended(name, *words)
            self.check_end(name, end, (name, words))
            self.assertFalse("\x1b" in end.out + end.error or "\x07" in end.out + end.error, (name, end.out))
            self.assertTrue("\\x1b" in end.out or name == "ngc-operate", (name, end.out))

    def test_unreadable(self) -> None:
        """A file that the user may not read is named, with the cause."""
        Path("secret").write_text(FIRST)
        Path("secret").chmod(0)
        self.folder.chmod(0o777)
        for path in ("mill.dev", "pulses"):
            Path(path).chmod(0o666)

        def give_up_rights() -> None:
            if os.geteuid() == 0:
                os.setgroups([])
                os.setuid(65534)

        for name, *words in ODD:
            end = self.ended(name, *("secret" if word == "ODD" else word for word in words), before=give_up_rights)
            self.assertEqual((end.status, end.out), (2, ""), (name, words))
            self.assertRegex(end.error, rf"^{name}: secret: .*[Pp]ermission denied", (name, words))

    def test_pipe_without_writer(self) -> None:
        """It waits for one, as `cat` does, or says that this is no file; Ctrl-C ends the waiting."""
        os.mkfifo("axis")
        for name, *words in ODD:
            for patience_s in (0.1, 1, 10):
                Path("position").unlink(missing_ok=True)
                end = self.ended(name, *("axis" if word == "ODD" else word for word in words), interrupted_s=patience_s)
                if end.status != -signal.SIGINT:  # it had begun
                    break
            self.check_end(name, end, (name, words))
            self.assertIn(end.status, (1, 2), (name, words))
            self.assertTrue("axis: " in end.error or "stopped" in end.error, (name, words, end.error))

    def test_plain_locale(self) -> None:
        """LC_ALL=C without Python's UTF-8 mode: texts, names and sentences with other letters do no harm."""
        plain = {**os.environ, "LC_ALL": "C", "PYTHONUTF8": "0", "PYTHONCOERCECLOCALE": "0"}
        begun = {}
        for name, words in GOOD.items():
            os.mkdir(f"{name} Süd")
            for path in ("part.ngc", "part.txt", "first.toml", "mill.dev", "pulses"):
                os.link(path, f"{name} Süd/{path}") if path != "mill.dev" else shutil.copy(path, f"{name} Süd")
            own = ("--ngc", ngc()) if name in ASKS else ()
            own += self.listen if name == "ngc-page" else ()
            inside = [word if word.startswith("-") else f"{name} Süd/{word}" for word in words]
            begun[name] = subprocess.Popen([sys.executable, TOOLS / name, *inside, *own], env=plain, text=True,
                                           stdin=subprocess.DEVNULL, stdout=subprocess.PIPE, stderr=subprocess.PIPE)
        self.wait_for("a page is served", lambda: serves(self.port) or begun["ngc-page"].poll() is not None)
        begun["ngc-page"].send_signal(signal.SIGINT)
        for name, child in begun.items():
            out, error = child.communicate(timeout=LIMIT_S)
            self.assertEqual(child.returncode, 2 if name == "ngc-page" else 0, (name, error))
            self.assertFalse("Traceback" in error or not out.isascii() and name != "ngc-adapt", (name, error))

    def test_narrow(self) -> None:
        """At 40 columns help and wrong words fit, but for commands, which stay whole."""
        os.environ["COLUMNS"] = "40"
        self.addCleanup(os.environ.pop, "COLUMNS")
        for name, main in MAINS.items():
            status, said, error = told(main, "--help")
            commands = ("  ngc", "  player", "  mkfifo", "  (in")
            _, _, below = said.partition("\n\n")
            long = [line for line in below.splitlines() if len(line) > 40 and not line.startswith(commands)]
            self.assertEqual((status, error, long), (0, "", []), name)
            status, said, error = told(main, "--nothing")
            self.assertEqual((status, said), (2, ""), name)
            self.assertTrue(error.splitlines()[-1].startswith(f"{name}: error: "), error)


if __name__ == "__main__":
    unittest.main()
