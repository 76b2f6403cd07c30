"""What the tools take: files alone, of which there is an end, and no more memory or dry runs than is said."""
import os
import re
import resource
import signal
import subprocess
import sys
import unittest
from pathlib import Path
from types import FrameType
from unittest import mock

sys.path.insert(0, str(Path(__file__).resolve().parent))

from player_support import played
from session_support import PATIENCE_S, InFolder, ngc, told, used_s

from ngc_tools.cli import adapt, check, device, operate, page, plot, rehearse, split
from ngc_tools.ngc import run
from ngc_tools.ngc.run import TooLong, dry

CAM = Path(__file__).resolve().parent / "cam"
MOTION = "[motion]\naccel_mm_s2 = [500, 500, 500]\n"
HEAD = "G21 G90 G17 G54 G94 G98 F100\n"
HOLES = "G91 G81 X0.001 Z-1 R0.5 L9999\n"
FILES = {"PROGRAM": "part.ngc", "SETTINGS": "first.toml", "MACHINE": "motion.toml", "DEVICE": "mill.dev", "OUT": "out",
         "POSITION": "position"}
WORDS = {
    check: ("PROGRAM --settings SETTINGS --machine MACHINE", "PROGRAM --device DEVICE",
            "--settings-only --settings SETTINGS"),
    adapt: ("PROGRAM --settings SETTINGS --device DEVICE",),
    plot: ("PROGRAM --settings SETTINGS --machine MACHINE --device DEVICE", "OUT --settings SETTINGS"),
    split: ("PROGRAM --settings SETTINGS --device DEVICE",),
    rehearse: ("DEVICE SETTINGS", "DEVICE SETTINGS --carried-out 1 --before DEVICE",
               "DEVICE SETTINGS --out OUT --position POSITION"),
    device: ("DEVICE",),
    operate: ("DEVICE SETTINGS OUT", "DEVICE SETTINGS OUT --machine MACHINE"),
    page: ("DEVICE SETTINGS OUT", "DEVICE SETTINGS OUT --machine MACHINE"),
}
MAY_BE_PIPES = {operate, page}
"""These take a pipe as OUT."""


def waits(_number: int, _frame: FrameType | None) -> None:
    """A tool waits for what may never come."""
    raise AssertionError("it waits")


class NoFiles(InFolder):
    """Pipes, folders and devices as arguments."""

    def setUp(self) -> None:
        """Files that can be used, and what is none."""
        super().setUp()
        self.device()
        self.run_ngc("load 3\nM2\nquit\n")
        Path("part.ngc").write_text("G21 G90 G17 G54 G94 G98\nG1 X1 F100\nM2\n")
        Path("motion.toml").write_text(MOTION)
        Path("good").write_text("P 1 0 0 50\n")
        played("--untimed", "good", "first.toml", "position")
        os.mkfifo("pipe")
        os.mkdir("folder")
        before = signal.signal(signal.SIGALRM, waits)
        self.addCleanup(signal.signal, signal.SIGALRM, before)
        self.addCleanup(signal.alarm, 0)

    def test_each(self) -> None:
        """Each tool ends with status 2 and names what it was given."""
        for tool, forms in WORDS.items():
            for form in forms:
                for word in dict.fromkeys(word for word in form.split() if word in FILES):
                    for given in ("pipe", "folder", "/dev/zero"):
                        if not (word == "OUT" and given == "pipe" and tool in MAY_BE_PIPES):
                            with self.subTest(tool=tool.__name__, form=form, word=word, given=given):
                                self.named(tool, form, word, given)

    def named(self, tool: object, form: str, word: str, given: str) -> None:
        """Looks at one argument."""
        words = [given if one == word else FILES.get(one, one) for one in form.split()]
        ask = [] if tool is device else ["--ngc", ngc()]
        before = {name: Path(name).read_bytes() for name in FILES.values() if Path(name).exists()}
        signal.alarm(PATIENCE_S)
        status, _, said = told(tool.main, *words, *ask)
        signal.alarm(0)
        self.assertEqual(status, 2, (tool.__name__, words, said))
        self.assertIn(given, said, (tool.__name__, words))
        self.assertNotIn("internal error", said, (tool.__name__, words))
        self.assertEqual({name: Path(name).read_bytes() for name in before}, before, (tool.__name__, words))

    def test_ngc(self) -> None:
        """`ngc` waits for no pipe that nobody writes, but for a program and for OUT, which may come and go by one."""
        settings, machine = (f"refused {name}: no file, but a pipe\n" for name in ("SETTINGS", "MACHINE"))
        for words, wanted in (("dry part.ngc --settings pipe", settings), ("run mill.dev pipe out", settings),
                              ("pace pipe motion.toml", settings), ("pace first.toml pipe", machine),
                              ("dry part.ngc --from pipe", "refused J1 DeviceFailed\n"),
                              ("run pipe first.toml out", "refused J1 DeviceFailed\n"),
                              ("format pipe", "refused J1 DeviceFailed\n"), ("grow pipe", "refused J1 DeviceFailed\n")):
            with self.subTest(words):
                done = subprocess.run([ngc(), *words.split()], input="", capture_output=True, text=True,
                                      timeout=PATIENCE_S)
                self.assertEqual((done.returncode, done.stdout), (2, wanted))
        for program in ("part.ngc", "/dev/stdin"):
            done = subprocess.run([ngc(), "dry", program], input=Path("part.ngc").read_text(), capture_output=True,
                                  text=True, timeout=PATIENCE_S)
            self.assertEqual((done.returncode, "STRAIGHT_FEED" in done.stdout), (0, True), program)

    def test_settings(self) -> None:
        """Settings and a machine's file have at most a mebibyte."""
        Path("long.toml").write_text(Path("first.toml").read_text() + "#" * 2**20)
        Path("long-motion.toml").write_text(MOTION + "#" * 2**20)
        for tool, words in ((check, ("part.ngc", "--settings", "long.toml")),
                            (operate, ("mill.dev", "long.toml", "out")),
                            (check, ("part.ngc", "--settings", "first.toml", "--machine", "long-motion.toml"))):
            self.too_long(words, told(tool.main, *words, "--ngc", ngc()))
        for words in (("good", "long.toml", "position", "--untimed"),
                      ("good", "first.toml", "position", "--untimed", "--machine", "long-motion.toml")):
            self.too_long(words, played(*words))

    def too_long(self, words: tuple[str, ...], done: tuple[int, str, str]) -> None:
        """A tool names the file of these words that is too long."""
        name = next(word for word in words if word.startswith("long"))
        status, _, said = done
        self.assertEqual(status, 2, words)
        self.assertEqual(said.partition(": ")[2], f"{name}: it has more than 1,048,576 bytes\n", words)


class Bounds(InFolder):
    """Memory, and dry runs."""

    def test_long_text(self) -> None:
        """A dry run that prints more than is looked at is ended, and that is said with the bound."""
        Path("long.ngc").write_text(HEAD + "G0 X0 Y0 Z5\n" + 9 * (HOLES + "G90\n") + "M2\n")
        with mock.patch.object(run, "MOST_TEXT", 10**6):
            with self.assertRaises(TooLong):
                dry(ngc(), Path("long.ngc"))
            self.assertEqual(dry(ngc(), b"M2\n")[0], 0)
            said = ("its dry run has more than 1,000,000 bytes of commands, and no more are looked at: is the L of a"
                    " cycle right?\n")
            for tool, words in ((check, ()), (plot, ("--output", "picture.svg")), (adapt, ("--output", "new.ngc"))):
                self.assertEqual(told(tool.main, "long.ngc", "--ngc", ngc(), *words)[::2],
                                 (2, f"{tool.make_parser().prog}: long.ngc: {said}"))

    def test_memory(self) -> None:
        """A tool that looks at files may take so much memory and no more, which it says; the bound is gone after it."""
        before = resource.getrlimit(resource.RLIMIT_AS)
        Path("part.ngc").write_text("M2\n")
        found = []

        def take(*_words: object) -> int:
            found.append(resource.getrlimit(resource.RLIMIT_AS)[0])
            return len(bytes(2**40))

        with mock.patch.object(check, "check", take):
            self.assertEqual(told(check.main, "part.ngc", "--ngc", ngc()),
                             (2, "", "ngc-check: out of memory: it takes at most 2,048 MiB\n"))
        self.assertEqual((found, resource.getrlimit(resource.RLIMIT_AS)), ([2**31], before))

    def test_many_refusals(self) -> None:
        """Of 3,000 refused lines 200 are looked at, or as many as were asked for; that there are more is said."""
        Path("many.ngc").write_text("Q1\n" * 3000)
        status, said, _ = told(check.main, "many.ngc", "--ngc", ngc())
        self.assertEqual((status, said.count(": B12 UnusedWord\n")), (1, 200))
        self.assertIn("many.ngc: 200 refusals, and more\n", said)
        said = told(check.main, "many.ngc", "--most", "3", "--ngc", ngc())[1]
        self.assertIn("many.ngc: 3 refusals, and more\n", said)

    def test_all_refusals(self) -> None:
        """Where all of 2,000 refused lines are asked for, it stops within seconds of processor time (two on a quiet
        machine), and says at which bound, no sooner than without that word; what is asked for by a number is found."""
        for line, counts in (("Q1\n", range(225, 251)), ("G1 X1 Y2 A3\n", range(200, 201))):
            Path("many.ngc").write_text("F9\n" + line * 2000 + "M2\n")
            (_, one), (said, all_s) = (self.timed(*most) for most in (("--most", "1"), ("--most", "0")))
            self.assertLess(all_s - one, PATIENCE_S, line)
            found = re.search(r"many\.ngc: (\d+) refusals, and more\n", said)
            self.assertTrue(found and int(found[1]) in counts, said[-500:])
            stops = "--most 0 stops after 200 refusals and 500 dry runs; --most N looks for N.\n"
            self.assertTrue(said.endswith(stops), said[-500:])
        Path("many.ngc").write_text("Q1\n" * 260 + "M2\n")
        self.assertIn("many.ngc: 260 refusals, no warnings\n", self.timed("--most", "300")[0])

    def test_cam_text(self) -> None:
        """A raw text of FreeCAD with 100 arcs, each of which is refused for its K, takes some seconds too: three on a
        quiet machine."""
        *lines, end = (CAM / "freecad_linuxcnc.ngc").read_text().splitlines(True)
        Path("many.ngc").write_text("".join([*lines * 100, end]))
        said, took_s = self.timed()
        self.assertIn("many.ngc: 100 refusals, no warnings\n", said[-500:])
        self.assertLess(took_s, 12)

    def timed(self, *words: str) -> tuple[str, float]:
        """What ngc-check says of the program, and the processor time that it and its dry runs take, in seconds."""
        before = used_s()
        said = told(check.main, "many.ngc", *words, "--ngc", ngc())[1]
        return said, used_s() - before

    def test_many_words(self) -> None:
        """Lines of many words that are refused take many dry runs: it stops after so many."""
        Path("many.ngc").write_text((" ".join(f"G{code}" for code in range(40)) + "\n") * 30)
        with mock.patch.object(check, "MOST_ASKED", 60):
            said = told(check.main, "many.ngc", "--ngc", ngc())[1]
        count = int(said.partition(" refusal")[0].rpartition(" ")[2])
        self.assertTrue(1 <= count < 30, said)
        self.assertIn(", and more\n", said)

    def test_adapted(self) -> None:
        """What ngc-adapt can't mend is looked for until 500 dry runs have been done, and it says so; where they aren't
        needed, ten refused lines are told."""
        lines = {" ".join(f"G{code}" for code in range(40)): ("There may be more: it stops after 500 dry runs, and"
                                                              " ngc-check new.ngc looks further\n", 600),
                 "G1 X1 Y2 A3": ("and more: ngc-check new.ngc lists each\n", 200)}
        for line, (ending, most) in lines.items():
            Path("many.ngc").write_text("F9\n" + f"{line}\n" * 30 + "M2\n")
            with mock.patch.object(adapt, "refusal", side_effect=run.refusal) as asked:
                status, _, said = told(adapt.main, "many.ngc", "--ngc", ngc(), "--output", "new.ngc", "--force")
            self.assertEqual((status, said[-len(ending):]), (1, ending))
            self.assertLess(asked.call_count, most, line)

    def test_killed(self) -> None:
        """A tool that is killed leaves no `ngc` behind."""
        Path("long.ngc").write_text(HEAD + HOLES * 9999)
        child = self.start("ngc-plot", "long.ngc", "--ngc", ngc(), "--output", "picture.svg")
        children = Path(f"/proc/{child.pid}/task/{child.pid}/children")
        self.wait_for("it asks ngc", lambda: bool(children.read_text().split()))
        begun = [int(number) for number in children.read_text().split()]
        child.kill()
        child.wait()
        self.wait_for("ngc ends", lambda: not any(Path(f"/proc/{number}/exe").exists() for number in begun))


if __name__ == "__main__":
    unittest.main()
