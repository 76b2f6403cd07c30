"""Files that a tool writes: whole or not at all, and never over what somebody needs."""
import os
import resource
import signal
import subprocess
import sys
import tempfile
import threading
import time
import unittest
from concurrent.futures import ThreadPoolExecutor
from pathlib import Path
from unittest import mock

sys.path.insert(0, str(Path(__file__).resolve().parent))

from session_support import FIRST, TOOLS, InFolder, going_on
from out_support import text_of

from ngc_tools import files
from ngc_tools.files import NotWritten, kind, read, write_new
from ngc_tools.formats.record import Record
from ngc_tools.formats.settings import KEYS
from ngc_tools import scratch
from ngc_tools.scratch import Scratch, nothing_left, scratch_file


class Written(InFolder):
    """`write_new`."""

    def refused(self, path: str, *inputs: str, force: bool = True) -> str:
        """Why a file isn't written, which is left as it was."""
        before = Path(path).read_bytes() if Path(path).is_file() else b""
        with self.assertRaises(NotWritten) as caught:
            write_new(path, b"new", inputs, force)
        self.assertEqual(Path(path).read_bytes() if Path(path).is_file() else b"", before)
        return str(caught.exception)

    def machine(self) -> None:
        """A device, an OUT and a record beside the settings."""
        self.device()
        self.run_ngc("mdi G0 X0.002\ntick 9\nquit\n")
        Path("position").write_bytes(text_of(Record("/home/mill/out")))

    def test_new(self) -> None:
        """A new file has 0640 less the umask, and nothing is left beside it."""
        for umask, mode in ((0o022, 0o640), (0o077, 0o600)):
            self.addCleanup(os.umask, os.umask(umask))
            write_new(f"{umask}.svg", b"new", [None, "none"])
            self.assertEqual((Path(f"{umask}.svg").read_bytes(), Path(f"{umask}.svg").stat().st_mode & 0o777),
                             (b"new", mode))
        self.assertEqual(sorted(os.listdir()), ["18.svg", "63.svg", "first.toml"])

    def test_there_already(self) -> None:
        """With `force` alone; the permissions stay, and a link goes on leading there."""
        Path("old.svg").write_text("old")
        Path("old.svg").chmod(0o604)
        os.symlink("old.svg", "link.svg")
        self.assertEqual(self.refused("old.svg", force=False), "old.svg: it is there already; --force writes over it")
        write_new("link.svg", b"new", ["first.toml"], force=True)
        self.assertEqual((Path("old.svg").read_text(), Path("old.svg").stat().st_mode & 0o777), ("new", 0o604))
        self.assertTrue(Path("link.svg").is_symlink())

    def test_inputs(self) -> None:
        """What is read isn't written over, by whatever name, with `force` neither."""
        Path("part.nc").write_text("G0 X1\n")
        os.symlink("part.nc", "symbolic")
        os.link("part.nc", "hard")
        for path in ("part.nc", "./part.nc", "symbolic", "hard"):
            self.assertEqual(self.refused(path, "first.toml", "part.nc"),
                             f"{path}: it is what is read here, and isn't written over; name another file")

    def test_machines_files(self) -> None:
        """A device, settings, an OUT and a record are known by what they hold, and refused."""
        self.machine()
        Path("half.toml").write_text("# of the small mill\nfeed = 1\n  'period_us' = [")
        for path, what in (("mill.dev", "a device"), ("first.toml", "settings"), ("half.toml", "settings"),
                           ("out", "an OUT"), ("position", "a player's record")):
            self.assertEqual(self.refused(path), f"{path}: it is {what}, which isn't written over; name another file")
        image = bytearray(Path("mill.dev").read_bytes())
        image[512:1024] = bytes(512)
        Path("mill.dev").write_bytes(image)
        self.assertEqual(kind("mill.dev"), "a device" if image[:8] == b"RS274NGC" else None)
        for key in KEYS:
            Path("one.toml").write_text(f"{key} = 1\n")
            self.assertEqual(kind("one.toml"), "settings")
        for line in ("P -1 0 1 50\n", "D 0\n", "S 2 8000.000000 0 1 128 3\n", "D 5"):
            Path("line").write_text(line)
            self.assertEqual(kind("line"), "an OUT")
        for text in (FIRST.replace("_", "-"), "G0 X1\n", "P 1\n", "D1\n", "out of stock\n", ""):
            Path("other").write_text(text)
            self.assertEqual(kind("other"), None)

    def test_no_files(self) -> None:
        """A pipe, a folder, a socket's place; /dev/null and /dev/stdout take all."""
        os.mkfifo("axis")
        self.assertEqual(self.refused("axis"), "axis: no file, but a pipe, which isn't written over; name a file")
        self.assertIn("a terminal or a line to a machine", self.refused("/dev/zero"))
        os.symlink("loop", "loop")
        for path, said in ((".", "Is a directory"), ("loop", "Too many levels of symbolic links"),
                           ("none/x", "No such file or directory"),
                           ("none/../first.toml", "No such file or directory"), ("first.toml/x", "Not a directory")):
            with self.assertRaisesRegex(OSError, said) as caught:
                write_new(path, b"new", [])
            self.assertEqual(caught.exception.filename, path)
        write_new("/dev/null", b"new", [])
        self.assertTrue(Path("/dev/null").is_char_device())
        body = f"import sys; sys.path.insert(0, {str(TOOLS)!r})\nfrom ngc_tools.files import write_new\n" \
               "write_new('/dev/stdout', b'new', [])"
        done = subprocess.run([sys.executable, "-c", body], capture_output=True, text=True)
        self.assertEqual((done.stdout, done.stderr), ("new", ""))

    def test_full_disk(self) -> None:
        """What was there stays where there is no room, and nothing is left beside it."""
        Path("old.svg").write_text("old")
        before = resource.getrlimit(resource.RLIMIT_FSIZE)
        self.addCleanup(resource.setrlimit, resource.RLIMIT_FSIZE, before)
        resource.setrlimit(resource.RLIMIT_FSIZE, (1000, before[1]))
        with self.assertRaises(OSError) as caught:
            write_new("old.svg", b"x" * 100_000, [], force=True)
        resource.setrlimit(resource.RLIMIT_FSIZE, before)
        self.assertEqual(files.cause(caught.exception), "old.svg: File too large")
        self.assertEqual((Path("old.svg").read_text(), sorted(os.listdir())), ("old", ["first.toml", "old.svg"]))


class Read(InFolder):
    """`read`."""

    def test_read(self) -> None:
        """Errors name the path; what never ends is refused."""
        self.assertEqual(read("first.toml"), FIRST.encode())
        with self.assertRaises(OSError) as caught:
            read(".")
        self.assertEqual(files.cause(caught.exception), ".: Is a directory")
        most, files.MOST = files.MOST, 1000
        self.addCleanup(setattr, files, "MOST", most)
        Path("long").write_bytes(bytes(1001))
        os.mkfifo("pipe")
        for path, said in (("long", "it has more than 1,000 bytes"), ("pipe", "no file, but a pipe"),
                           ("/dev/zero", "no file, but a terminal or a line to a machine")):
            with self.assertRaises(OSError) as caught:
                read(path)
            self.assertEqual(files.cause(caught.exception), f"{path}: {said}")
        with open("/dev/zero") as zero, mock.patch.object(sys, "stdin", zero), self.assertRaises(OSError) as caught:
            files.read_input()
        self.assertEqual(files.cause(caught.exception), "standard input: it has more than 1,000 bytes")


class Scratched(unittest.TestCase):
    """`Scratch` and `scratch_file`."""

    def setUp(self) -> None:
        """What ends here doesn't end this process."""
        self.enterContext(going_on())

    def test_interrupted_while_it_is_removed(self) -> None:
        """What is left where Ctrl-C comes in the midst of the removal is removed as the work ends."""
        before = signal.signal(signal.SIGINT, signal.default_int_handler)
        self.addCleanup(signal.signal, signal.SIGINT, before)
        folder = Scratch("ngc-test-")
        for name in range(3):
            (Path(folder.name) / str(name)).touch()
        with mock.patch.object(os, "unlink", side_effect=KeyboardInterrupt), self.assertRaises(KeyboardInterrupt):
            folder.cleanup()
        self.assertEqual(len(os.listdir(folder.name)), 3)
        with nothing_left():
            pass
        self.assertFalse(os.path.exists(folder.name))

    def test_interrupted_while_a_file_is_made(self) -> None:
        """Ctrl-C right after the file is there leaves none."""
        before = signal.signal(signal.SIGINT, signal.default_int_handler)
        self.addCleanup(signal.signal, signal.SIGINT, before)
        folder = self.enterContext(tempfile.TemporaryDirectory())
        self.enterContext(mock.patch.object(tempfile, "tempdir", folder))
        opens, made = os.open, []

        def interrupted(*words: object, **options: object) -> int:
            made.append(opens(*words, **options))
            os.kill(os.getpid(), signal.SIGINT)
            return made[-1]

        with mock.patch.object(os, "open", interrupted), self.assertRaises(KeyboardInterrupt):
            self.enterContext(scratch_file("M2\n", "test", ".ngc"))
        self.assertEqual((len(made), os.listdir(folder)), (1, []))

    def test_interrupted_at_any_place(self) -> None:
        """Where Ctrl-C comes just before the removal, whoever ends the work removes it."""
        folder = self.enterContext(tempfile.TemporaryDirectory())
        self.enterContext(mock.patch.object(tempfile, "tempdir", folder))
        with mock.patch.object(scratch, "remove", side_effect=KeyboardInterrupt), self.assertRaises(KeyboardInterrupt):
            with scratch_file("M2\n", "test", ".ngc"):
                pass
        self.assertEqual(len(os.listdir(folder)), 1)
        with nothing_left():
            pass
        self.assertEqual(os.listdir(folder), [])

    def test_too_late(self) -> None:
        """A thread that would make one as the process ends, ends there itself; the next work makes them as ever."""
        folder = self.enterContext(tempfile.TemporaryDirectory())
        self.enterContext(mock.patch.object(tempfile, "tempdir", folder))
        self.enterContext(mock.patch.object(scratch, "_folders", [folder]))
        with nothing_left():
            pass
        for make in (lambda: Scratch("ngc-test-"), lambda: self.enterContext(scratch_file("M2\n", "test", ".ngc"))):
            with ThreadPoolExecutor(1) as thread:
                self.assertIsInstance(thread.submit(make).exception(), SystemExit)
        self.assertEqual(os.listdir(folder), [])
        with nothing_left(), ThreadPoolExecutor(1) as thread:
            thread.submit(Scratch, "ngc-test-").result().cleanup()
        self.assertEqual(os.listdir(folder), [])

    def test_others_as_it_ends(self) -> None:
        """Whatever threads make meanwhile, nothing is left."""
        folder = self.enterContext(tempfile.TemporaryDirectory())
        self.enterContext(mock.patch.object(scratch, "_folders", [folder]))

        def make_many() -> None:
            while True:
                kept.append(Scratch("ngc-test-"))

        for _ in range(20):
            kept: list[Scratch] = []
            with nothing_left():
                threads = [threading.Thread(target=make_many) for _ in range(3)]
                for thread in threads:
                    thread.start()
                while len(kept) < 5:
                    time.sleep(0.001)
            for thread in threads:
                thread.join()
            self.assertEqual(os.listdir(folder), [])


if __name__ == "__main__":
    unittest.main()
