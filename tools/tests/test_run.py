"""The one way through a tool: what each end of it says, and with which status; text as a terminal may show it."""
import argparse
import os
import signal
import subprocess
import sys
import threading
import unittest
from collections.abc import Callable
from pathlib import Path

sys.path.insert(0, str(Path(__file__).resolve().parent))

from session_support import TOOLS, told

from ngc_tools.cli.run import new_parser, run
from ngc_tools.failure import BadNumber, Failure, WrongWords, speaking_of
from ngc_tools.shown import shown, shown_line

ABOUT = "Try things out, and say in a paragraph of some length what comes of it, as a help does.\n\nAnother paragraph."
EXAMPLE = """example:
  try-out --with-a-rather-long-command line.of.it

exit status:
  0  all went well
  2  the words are wrong, or a file can't be used, or something else is the matter with what was given"""
SCRIPT = f"""import os, signal, sys, tempfile
sys.path.insert(0, {str(TOOLS)!r})
from ngc_tools.cli.run import new_parser, run
def work(args):
    {{}}
sys.exit(run(new_parser('try', 'about', 'example'), work, []))
"""


class Gone(Failure):
    """A failure with another status."""

    exit_status = 1


def ended(what: Callable[[argparse.Namespace], int], *words: str) -> tuple[int, str, str]:
    """The status of a tool that does this, and what it writes."""
    parser = new_parser("try", ABOUT, EXAMPLE)
    parser.add_argument("--count", type=int)
    return told(lambda arguments: run(parser, what, arguments), *words)


def raised(error: BaseException) -> tuple[int, str, str]:
    """What is said of an error."""
    def work(_args: argparse.Namespace) -> int:
        raise error
    return ended(work)


def script(body: str, **options: object) -> subprocess.CompletedProcess[str]:
    """A tool with this body in a process of its own."""
    words = [sys.executable, "-c", SCRIPT.format(body)]
    return subprocess.run(words, text=True, capture_output="stdout" not in options, timeout=60, **options)


class Ends(unittest.TestCase):
    """Each end."""

    def test_failures(self) -> None:
        """A line with the tool's name, and the status of the failure."""
        self.assertEqual(ended(lambda _: 1), (1, "", ""))
        self.assertEqual(raised(Failure("no tool")), (2, "", "try: no tool\n"))
        self.assertEqual(raised(Gone("no way")), (1, "", "try: no way\n"))
        self.assertEqual(raised(FileNotFoundError(2, "No such file", "a\x1b[2Jb")),
                         (2, "", "try: a\\x1b[2Jb: No such file\n"))
        self.assertEqual(raised(BadNumber("not a number: x")), (2, "", "try: not a number: x\n"))
        self.assertEqual(raised(MemoryError()), (2, "", "try: out of memory\n"))
        self.assertEqual(raised(KeyboardInterrupt()), (2, "", "try: stopped\n"))
        self.assertEqual(raised(BrokenPipeError(32, "Broken pipe")), (2, "", ""))
        self.assertEqual(raised(BrokenPipeError(32, "Broken pipe", "axis")), (2, "", "try: axis: Broken pipe\n"))

    def test_what_it_speaks_of(self) -> None:
        """Failures of the kinds that are named get the path, others don't."""
        def work(args: argparse.Namespace) -> int:
            with speaking_of("part.ngc", Gone):
                raise Gone("gone") if args.count else Failure("other")
        self.assertEqual(ended(work, "--count", "1"), (1, "", "try: part.ngc: gone\n"))
        self.assertEqual(ended(work), (2, "", "try: other\n"))

    def test_words(self) -> None:
        """Wrong words show the usage, also those that the tool finds wrong together."""
        wrong = ended(lambda _: 0, "--count", "x")
        self.assertEqual((wrong[0], wrong[2].splitlines()[-1]),
                         (2, "try: error: argument --count: invalid int value: 'x'"))
        said = raised(WrongWords("one of the two"))
        self.assertEqual((said[0], said[2].splitlines()), (2, ["usage: try [-h] [--version] [--count COUNT]",
                                                               "try: error: one of the two"]))

    def test_bugs(self) -> None:
        """One line; the traceback if it is asked for."""
        self.assertEqual(raised(KeyError("x")), (2, "", "try: internal error: KeyError: 'x'\n"))
        self.assertEqual(raised(ValueError("x")), (2, "", "try: internal error: ValueError: x\n"))
        os.environ["NGC_DEBUG"] = "1"
        self.addCleanup(os.environ.pop, "NGC_DEBUG")
        self.assertIn("Traceback", raised(KeyError("x"))[2])

    def test_bug_in_a_thread(self) -> None:
        """One line, and no traceback."""
        def work(_args: argparse.Namespace) -> int:
            thread = threading.Thread(target=lambda: {}["x"])
            thread.start()
            thread.join()
            return 0
        self.assertEqual(ended(work), (0, "", "try: internal error: KeyError: 'x'\n"))

    def test_help_is_narrow(self) -> None:
        """At 40 columns all is within them but a command, which stays whole."""
        os.environ["COLUMNS"] = "40"
        self.addCleanup(os.environ.pop, "COLUMNS")
        status, said, _ = ended(lambda _: 0, "--help")
        long = [line for line in said.splitlines() if len(line) > 40]
        self.assertEqual((status, long), (0, ["  try-out --with-a-rather-long-command line.of.it"]))
        self.assertIn("  2  the words are wrong, or a file\n     can't be used, or something else\n", said)

    def test_signals(self) -> None:
        """Ctrl-C, twice at that, is a line; a kill ends by the signal; each removes a folder that is in use."""
        body = ("with tempfile.TemporaryDirectory() as folder:\n        print(folder, flush=True)\n"
                "        os.kill(os.getpid(), signal.{0}), os.kill(os.getpid(), signal.{0})")
        for name, status, said in (("SIGINT", 2, "try: stopped\n"), ("SIGTERM", -15, ""), ("SIGHUP", -1, "")):
            done = script(body.format(name))
            self.assertEqual((done.returncode, done.stderr), (status, said), name)
            self.assertFalse(os.path.exists(done.stdout.strip()), name)

    def test_signals_within_finalizers(self) -> None:
        """A signal that comes while Python takes an object apart, where nothing can be raised, is heeded after it."""
        body = ("class Held:\n        def __del__(self):\n            os.kill(os.getpid(), signal.{0})\n"
                "            self.killed = True\n    held = Held()\n    del held\n    signal.pause()")
        for name, status, said in (("SIGINT", 2, "try: stopped\n"), ("SIGTERM", -15, ""), ("SIGHUP", -1, "")):
            done = script(body.format(name))
            self.assertEqual((done.returncode, done.stderr), (status, said), name)

    def test_half_made(self) -> None:
        """What was half made as a signal came is let go without a word."""
        body = ("class Half:\n        def __init__(self):\n            os.kill(os.getpid(), signal.{0})\n"
                "            self.made = True\n        def __del__(self):\n            self.made\n"
                "    return len(str(Half()))")
        for name, status, said in (("SIGINT", 2, "try: stopped\n"), ("SIGTERM", -15, "")):
            done = script(body.format(name))
            self.assertEqual((done.returncode, done.stderr), (status, said), name)

    def test_ignored_signals(self) -> None:
        """What the shell made it ignore stays so, as under nohup."""
        done = script("os.kill(os.getpid(), signal.SIGINT); os.kill(os.getpid(), signal.SIGHUP); return 0",
                      preexec_fn=lambda: [signal.signal(number, signal.SIG_IGN) for number in (2, 1)])
        self.assertEqual((done.returncode, done.stderr), (0, ""))

    def test_closed_streams(self) -> None:
        """A stream that is closed is /dev/null: no file gets its number, nothing is lost but what is written there."""
        for closed in ("<&-", ">&-", "2>&-", "<&- >&- 2>&-"):
            reader, writer = os.pipe()
            body = (f"number = os.open({__file__!r}, os.O_RDONLY); os.write({writer}, b'%d' % number); print('x');"
                    " print('y', file=sys.stderr); return len(sys.stdin.read())")
            words = ["sh", "-c", f'exec "$0" "$@" {closed}', sys.executable, "-c", SCRIPT.format(body)]
            done = subprocess.run(words, input=b"", capture_output=True, pass_fds=(writer,), timeout=60)
            os.close(writer)
            with os.fdopen(reader) as file:
                number = file.read()
            self.assertEqual((done.returncode, int(number) > 2), (0, True), (closed, done.stderr))
            self.assertEqual(done.stderr, b"" if "2>&-" in closed else b"y\n")

    def test_outputs(self) -> None:
        """A reader that has gone, without a word; a full disk, with one."""
        reader, writer = os.pipe()
        os.close(reader)
        done = script("print('x' * 100_000); return 0", stdout=writer, stderr=subprocess.PIPE)
        os.close(writer)
        self.assertEqual((done.returncode, done.stderr), (2, ""))
        with open("/dev/full", "w") as full:
            done = script("print('x'); return 0", stdout=full, stderr=subprocess.PIPE)
        self.assertEqual((done.returncode, done.stderr), (2, "try: standard output: No space left on device\n"))

    def test_plain_locale(self) -> None:
        """Text that the locale can't show is escaped."""
        plain = {**os.environ, "LC_ALL": "C", "PYTHONUTF8": "0", "PYTHONCOERCECLOCALE": "0"}
        done = script("print(chr(220)); return 0", env=plain)
        self.assertEqual((done.returncode, done.stdout, done.stderr), (0, "\\xdc\n", ""))


class Text(unittest.TestCase):
    """What a terminal may show."""

    def test_shown(self) -> None:
        """UTF-8 stays; controls of all kinds, directions and other bytes are escaped."""
        for text, wanted in ((b"G1 \xc3\x9c (\xe2\x82\xac)\tX", "G1 \u00dc (\u20ac) X"),
                             (b"\x1b[31m\r\x00\x7f", r"\x1b[31m\r\x00\x7f"), (b"\xff\x80", r"\xff\x80"),
                             ("\x9b2J\u202e\u2066\u200f", r"\x9b2J\u202e\u2066\u200f"), (b"\xc2\x9b", r"\x9b"),
                             ("a\udcffb", r"a\xffb"), ("", "")):
            self.assertEqual(shown(text), wanted)
        self.assertEqual((shown_line(b"M2\r\n"), shown_line("M2\r")), ("M2", "M2"))


if __name__ == "__main__":
    unittest.main()
