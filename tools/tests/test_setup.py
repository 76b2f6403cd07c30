"""ngc-setup: what it asks, what it makes of the answers, and that it never writes over what is there."""
import os
import re
import subprocess
import sys
import tomllib
import unittest
from io import StringIO
from pathlib import Path
from unittest.mock import patch

sys.path.insert(0, str(Path(__file__).resolve().parent))

from session_support import InFolder, ngc, told

from ngc_tools.cli import setup
from ngc_tools.cli.page import key_of
from ngc_tools.failure import BadNumber, Failure
from ngc_tools.formats import machine
from ngc_tools.formats.settings import Settings
from ngc_tools.ngc.machine_report import Motion
from ngc_tools.setup.axes import Axis, settings_of, step_of, travel
from ngc_tools.setup.texts import machine_text, settings_text

MADE = ["machine.toml", "mill.dev", "out", "settings.toml"]
KEY = re.compile(r"^(?:# )?(\w+) = ", re.MULTILINE)
# What is answered in turn, by Enter where nothing stands: three axes of three questions, the sink, traverse,
# acceleration, the address.
ENTER = [""] * 13


class Asked(InFolder):
    """The tool with answers that come from a pipe."""

    def setUp(self) -> None:
        """No serial line is there."""
        super().setUp()
        os.mkdir("mill")
        lines = patch("ngc_tools.setup.asking.LINES", (f"{self.folder}/tty*",))
        lines.start()
        self.addCleanup(lines.stop)

    def answered(self, *answers: str) -> tuple[int, str, str]:
        """The status and what it says."""
        with patch.object(sys, "stdin", StringIO("".join(f"{answer}\n" for answer in answers))):
            return told(setup.main, "--config", "mill", "--state", "mill", "--ngc", ngc())

    def made(self) -> list[str]:
        """The files in the folder."""
        return sorted(os.listdir("mill"))

    def test_enter(self) -> None:
        """What is proposed makes a valid machine: a screw of 5 mm and 2,000 pulses are 2,500 nm, which a traverse of
        1,000 mm a minute makes each 150 us."""
        status, said, error = self.answered(*ENTER)
        self.assertEqual((status, error, self.made()), (0, "", MADE))
        self.assertEqual(Settings.read("mill/settings.toml"),
                         Settings((2500,) * 3, (0, 0, -100_000_000), (300_000_000, 200_000_000, 0), 1_000_000_000, 150,
                                  ()))
        tables = machine.read_tables("mill/machine.toml")
        self.assertEqual((tables["motion"]["accel_mm_s2"], "sink" in tables), ([100] * 3, False))
        self.assertIn("steps     X 0.0025   Y 0.0025   Z 0.0025 mm", said)
        self.assertIn("accel     X 100   Y 100   Z 100 mm/s2", said)
        self.assertIn("Next, in two terminals:", said)

    def test_a_session(self) -> None:
        """What was made begins a session."""
        self.answered(*ENTER)
        words = [ngc(), "run", "mill/mill.dev", "mill/settings.toml", "mill/out"]
        done = subprocess.run(words, input="tool 1 20\nmdi G0 X1\ntick 500\n", capture_output=True, text=True)
        self.assertEqual((done.returncode, done.stdout.splitlines()[:3]), (0, ["done 1", "begun", "done 2"]))
        self.assertEqual(Path("mill/out").read_text().count("P 1 0 0 150\n"), 400)

    def test_other_answers(self) -> None:
        """Each axis its own; a sink, whose line bounds the period; three accelerations."""
        Path("tty1").touch()
        status, said, error = self.answered("8", "1600", "-150 150", "4", "800", "-100 100", "2", "1000", "-80.5 0",
                                            f"{self.folder}/ttyX", "9000", "500 400 300", "no")
        self.assertEqual((status, error), (0, ""))
        found = Settings.read("mill/settings.toml")
        self.assertEqual((found.step_nm, found.low_nm[2], found.period_us), ((5000, 5000, 2000), -80_500_000, 27))
        tables = machine.read_tables("mill/machine.toml")
        self.assertEqual((tables["sink"]["line"], tables["motion"]["accel_mm_s2"]),
                         (f"{self.folder}/ttyX", [500, 400, 300]))
        self.assertIn(f"serial lines that are there: {self.folder}/tty1", said)
        self.assertIn(f"[{self.folder}/tty1]: ", said)
        self.assertIn("warning: a traverse of Z of 9,000 mm/min is capped", said)  # 37,000 steps of 2 um a second

    def test_wrong_answers(self) -> None:
        """Each is asked again, with what it takes."""
        wrong = {2: ["5", "1 300", "300 0", "0 0", "0 99999999"], 9: ["ttyACM0", "/dev/\x1b[2J"],
                 10: ["0", "1.5", "100001", "²"], 11: ["0", "1 2", "1 2 x"], 12: ["Yes", "1"]}
        # a turn that isn't above 0 is known once the pulses are answered
        answers = ["-5", "2000", "0", "2000", "x", "5", *ENTER[1:2]]
        answers += [answer for place in range(2, 13) for answer in [*wrong.get(place, []), ENTER[place]]]
        status, said, error = self.answered(*answers)
        self.assertEqual((status, error, self.made()), (0, "", MADE))
        self.assertEqual(said.count("both are above 0"), 2)
        self.assertEqual(said.count("0 lies between the two"), 4)
        self.assertNotIn("\x1b", said)

    def test_a_step_that_isnt_whole(self) -> None:
        """5 mm by 3,200 pulses: it says which pulses would do, and asks for both again."""
        status, said, _ = self.answered("5", "3200", "", "1600", *ENTER[2:])
        self.assertEqual(status, 0)
        self.assertIn("a step would be 1,562.5 nm, and it has to be a whole number of nanometres from 10 to 1,000,000:"
                      " 2,000 or 4,000 pulses would do", said)
        self.assertEqual(Settings.read("mill/settings.toml").step_nm, (3125,) * 3)

    def test_answers_end(self) -> None:
        """Wherever they end nothing is made."""
        for count in range(13):
            status, _, error = self.answered(*ENTER[:count])
            self.assertEqual((status, error, self.made()),
                             (2, "ngc-setup: the answers ended before all was asked: nothing is made\n", []))

    def test_never_over(self) -> None:
        """What is there stays to the byte, and isn't asked for; what is missing is made."""
        self.answered(*ENTER)
        before = {name: Path("mill", name).read_bytes() for name in MADE}
        status, said, _ = self.answered()
        self.assertEqual((status, said.count("it is there, and stays as it is")), (0, 4))
        for name in MADE:
            os.unlink(f"mill/{name}")
            count = {"settings.toml": 10, "machine.toml": 2, "mill.dev": 1, "out": 0}[name]
            status, said, _ = self.answered(*[""] * count)
            self.assertEqual((status, self.made(), said.count("stays as it is")), (0, MADE, 3), name)
            self.assertEqual({name: Path("mill", name).read_bytes() for name in MADE}, before)

    def test_what_is_there_is_looked_at(self) -> None:
        """Settings, a machine's file, a device and an OUT that aren't ones are told of, and stay."""
        self.answered(*ENTER)
        for name, text, cause in (("settings.toml", "step_nm = 1\n", "low_nm is missing (S2)"),
                                  ("machine.toml", "[motion]\naccel_mm_s2 = [0, 1, 1]\n", "accel_mm_s2"),
                                  ("mill.dev", "a picture", "not a device"), ("out", "a letter\n", "lines of OUT")):
            before = Path("mill", name).read_bytes()
            Path("mill", name).write_text(text)
            status, _, error = self.answered(*ENTER)
            self.assertEqual((status, Path("mill", name).read_text()), (2, text), error)
            self.assertIn(cause, error)
            Path("mill", name).write_bytes(before)

    def test_same_address(self) -> None:
        """A key that the page takes, and that its owner alone may read."""
        status, _, _ = self.answered(*ENTER[:12], "yes")
        self.assertEqual((status, self.made()), (0, [*MADE[:3], "page.key", MADE[3]]))
        key = Path("mill/page.key").read_text().strip()
        self.assertEqual(key_of({"NGC_PAGE_KEY": key}), key)
        self.assertEqual(os.stat("mill/page.key").st_mode & 0o777, 0o600)
        self.assertEqual(os.stat("mill/mill.dev").st_mode & 0o777, 0o640)

    def test_a_format_that_fails(self) -> None:
        """No device is left that stands for nothing, and the next try makes one."""
        with patch.object(setup, "_format", side_effect=Failure("no room")):
            self.assertEqual(self.answered(*ENTER)[0], 2)
        self.assertEqual(self.made(), ["machine.toml", "settings.toml"])
        self.assertEqual((self.answered("no")[0], self.made()), (0, MADE))

    def test_folders(self) -> None:
        """One that isn't there is named, before anything is asked."""
        self.assertEqual(told(setup.main, "--config", "none", "--state", "mill", "--ngc", ngc()),
                         (2, "", "ngc-setup: none: there is no such folder\n"))
        self.assertEqual(told(setup.main, "--config", "mill", "--state", "none", "--ngc", ngc()),
                         (2, "", "ngc-setup: none: there is no such folder\n"))


class Texts(InFolder):
    """The files that are written."""

    SETTINGS = Settings((5000, 5000, 2500), (-150_000_000, 0, -80_000_000), (150_000_000, 200_000_000, 0), 3 * 10**9,
                        40, ())

    def test_each_key(self) -> None:
        """Each key of both files is there once, behind a comment of its own; none is one that isn't known."""
        text = machine_text([1, 2, 3], "/dev/ttyACM0", self.SETTINGS)
        known = [key for keys in machine._TABLES.values() for key in keys]
        self.assertEqual(sorted(KEY.findall(text)), sorted(known))
        lines = text.splitlines() + settings_text(self.SETTINGS).splitlines()
        for line, before in zip(lines[1:], lines):
            if KEY.match(line):
                self.assertTrue(before.startswith("# ") and not KEY.match(before), line)
                self.assertLessEqual(len(line), 120)

    def test_settings(self) -> None:
        """They are read back."""
        Path("settings.toml").write_text(settings_text(self.SETTINGS))
        self.assertEqual(Settings.read("settings.toml"), self.SETTINGS)

    def test_all_tables(self) -> None:
        """What stands there as a comment is valid once the # is taken away: `ngc` and the tools take all of it."""
        text = machine_text([100] * 3, 'a "line"\\', self.SETTINGS)
        text = re.sub(r"^# (?=\[|\w+ = )", "", text, flags=re.MULTILINE)
        Path("settings.toml").write_text(settings_text(self.SETTINGS))
        Path("machine.toml").write_text(text)
        self.assertEqual(list(machine.read_tables("machine.toml")), list(dict.fromkeys(tomllib.loads(text))))
        self.assertEqual(set(tomllib.loads(text)), set(machine._TABLES))
        self.assertEqual(tomllib.loads(text)["sink"]["line"], 'a "line"\\')
        self.assertEqual(tomllib.loads(text)["home"]["at_um"], [-148_000, 2000, -2000])
        self.assertEqual(tomllib.loads(text)["home"]["way_mm"], [330, 220, 88])
        self.assertEqual(Motion.read(ngc(), "machine.toml", "settings.toml").accel_mm_s2, (100, 100, 100))


class Steps(unittest.TestCase):
    """Numbers by hand."""

    def test_steps(self) -> None:
        """docs/SETTINGS.md: 5 mm, 200 steps, 5 microsteps are 5,000 nm."""
        self.assertEqual(step_of(5_000_000, 1000), 5000)
        self.assertEqual(step_of(10_000_000, 10), 1_000_000)
        for turn, pulses in ((5_000_000, 3200), (0, 200), (5_000_000, 0), (1_000_000_000, 200), (1000, 200)):
            self.assertRaises(BadNumber, step_of, turn, pulses)

    def test_travel(self) -> None:
        """0 lies within it."""
        self.assertEqual(travel("-300 0"), (-300_000_000, 0))
        self.assertEqual(travel(" 0  0.5"), (0, 500_000))
        for text in ("", "1", "1 2", "-2 -1", "5 0", "0 0", "0 10000.1", "a b", "0 1 2"):
            self.assertRaises(BadNumber, travel, text)

    def test_period(self) -> None:
        """The axis of the smallest step reaches the traverse; a sink's line carries 37,000 steps a second."""
        axes = Axis(5000, 0, 1), Axis(5000, 0, 1), Axis(2500, -1, 0)
        self.assertEqual(settings_of(axes, 3000, False).period_us, 50)  # 2.5 um each 50 us are 3,000 mm a minute
        self.assertEqual(settings_of(axes, 10_000, False).period_us, 15)
        self.assertEqual(settings_of(axes, 10_000, True).period_us, 27)
        self.assertEqual(settings_of(axes, 100_000, False).period_us, 1)
        self.assertEqual(settings_of((Axis(10**6, 0, 1),) * 3, 1, False).period_us, 10**6)


if __name__ == "__main__":
    unittest.main()
