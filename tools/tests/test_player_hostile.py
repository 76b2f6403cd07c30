"""What both players say of lines, records, settings, files and words that they can't use: the same, to the letter."""
import os
import subprocess
import sys
import unittest
from pathlib import Path

sys.path.insert(0, str(Path(__file__).resolve().parent))

from player_support import PlayerTest, Sanitized, sector
from session_support import FIRST, ngc

NO_LINE = "not a line of OUT: "
ZEROS = ("; zeros stand where the disk lost what was written, or its room was given back: recover in ngc-operate says"
         " what it was")
# What stands in a line of OUT, and what is said of it.
LINES = (
    ("", NO_LINE + "''"), ("P", NO_LINE + "'P'"), ("P 1 0 0", NO_LINE + "'P 1 0 0'"),
    ("P 1 0 0 ", NO_LINE + "'P 1 0 0 '"),
    ("P 1 0 0 50 ", NO_LINE + "'P 1 0 0 50 '"), (" P 1 0 0 50", NO_LINE + "' P 1 0 0 50'"),
    ("P 1  0 0 50", NO_LINE + "'P 1  0 0 50'"), ("P 2 0 0 50", NO_LINE + "'P 2 0 0 50'"),
    ("P -0 0 0 50", NO_LINE + "'P -0 0 0 50'"), ("P +1 0 0 50", NO_LINE + "'P +1 0 0 50'"),
    ("P 1 0 0 050", NO_LINE + "'P 1 0 0 050'"), ("P 1 0 0 -50", NO_LINE + "'P 1 0 0 -50'"),
    ("P 1 0 0 5x", NO_LINE + "'P 1 0 0 5x'"), ("p 1 0 0 50", NO_LINE + "'p 1 0 0 50'"),
    ("P 1 0 0 50P 1 0 0 50", NO_LINE + "'P 1 0 0 50P 1 0 0 50'"), ("P 1 0 0 50\r", NO_LINE + r"'P 1 0 0 50\r'"),
    ("P 1 0 0 50\0", NO_LINE + r"'P 1 0 0 50\x00'" + ZEROS), ("\0" * 99, NO_LINE + "'" + r"\x00" * 60 + "...'" + ZEROS),
    ("P 1 0 0\t50", NO_LINE + "'P 1 0 0 50'"),
    ("P 1 0 0 49", "a period of 49 us, and period_us of the settings is 50"),
    ("P 1 0 0 0", "a period of 0 us, and period_us of the settings is 50"),
    ("P 1 0 0 18446744073709551616", "a time of 18446744073709551616 microseconds"),
    ("P 1 0 0 99999999999999999999", "a time of 99999999999999999999 microseconds"),
    ("P 1 0 0 100000000000000000000", NO_LINE + "'P 1 0 0 100000000000000000000'"),
    ("D", NO_LINE + "'D'"), ("D -1", NO_LINE + "'D -1'"), ("D 1.5", NO_LINE + "'D 1.5'"), ("D 00", NO_LINE + "'D 00'"),
    ("D 1 ", NO_LINE + "'D 1 '"), ("D 18446744073709551616", "a time of 18446744073709551616 microseconds"),
    ("S", NO_LINE + "'S'"), ("S 0 0 0 0 0 0", NO_LINE + "'S 0 0 0 0 0 0'"),
    ("S 3 0.000000 0 0 0 0", NO_LINE + "'S 3 0.000000 0 0 0 0'"),
    ("S 0 0.00000 0 0 0 0", NO_LINE + "'S 0 0.00000 0 0 0 0'"),
    ("S 0 0.0000000 0 0 0 0", NO_LINE + "'S 0 0.0000000 0 0 0 0'"),
    ("S 0 00.000000 0 0 0 0", NO_LINE + "'S 0 00.000000 0 0 0 0'"),
    ("S 0 10000000.000000 0 0 0 0", NO_LINE + "'S 0 10000000.000000 0 0 0 0'"),
    ("S 0 0.000000 2 0 0 0", NO_LINE + "'S 0 0.000000 2 0 0 0'"),
    ("S 0 0.000000 0 0 0", NO_LINE + "'S 0 0.000000 0 0 0'"),
    ("S 0 0.000000 0 0 1000 0", NO_LINE + "'S 0 0.000000 0 0 1000 0'"),
    ("S 0 0.000000 0 0 0 01", NO_LINE + "'S 0 0.000000 0 0 0 01'"),
    ("S 0 0.000000 0 0 129 0", "a slot above 128: S 0 0.000000 0 0 129 0"),
    ("S 0 0.000000 0 0 0 999", "a slot above 128: S 0 0.000000 0 0 0 999"),
    ("x\xff\x1b[2J", NO_LINE + r"'x\xff\x1b[2J'"), ("y" * 61, f"{NO_LINE}'{'y' * 60}...'"),
    ("z" * 5000, f"{NO_LINE}'{'z' * 60}...'"),
    ("off", NO_LINE + "'off'"),
)
RIGHT = ("out /o", "lines 2", "bytes 22", "outputs S 1 1000.000000 0 0 2 2", "reference 1.000000 -0.500000 0.000000",
         "file 12 1795797148035276815 3a392a21")
# A record, and what is said of it.
NO_NUMBER = "not a number of millimetres with at most six decimals: "


def with_line(number: int, text: str) -> bytes:
    """A record with another line; without it, if the text is empty."""
    lines = [*RIGHT[:number - 1], *([text] if text else []), *RIGHT[number:]]
    return sector(*lines)


RECORDS = (
    (b"", "it has 0 bytes, and a record has 512"), (b"7.21 0 0\n", "it has 9 bytes, and a record has 512"),
    (sector(*RIGHT)[:-1], "it has 511 bytes, and a record has 512"),
    (sector(*RIGHT) + b"\n", "it has more bytes, and a record has 512"), (bytes(512), "line 1 isn't 'out PATH'"),
    (b" " * 512, "line 1 isn't 'out PATH'"), (b"\n" * 512, "line 1 isn't 'out PATH'"),
    (b"x" * 512, "line 1 isn't 'out PATH'"), (b"out " + b"x" * 508, "line 1 isn't 'out PATH'"),
    (with_line(1, ""), "line 1 isn't 'out PATH'"), (with_line(1, "OUT /o"), "line 1 isn't 'out PATH'"),
    (with_line(1, "out "), "line 1 isn't 'out PATH'"), (with_line(1, "out /o\0"), "line 1 isn't 'out PATH'"),
    (with_line(2, "lines -2"), "line 2 isn't 'lines N'"), (with_line(2, "lines 02"), "line 2 isn't 'lines N'"),
    (with_line(2, "lines 2 "), "line 2 isn't 'lines N'"), (with_line(2, "lines"), "line 2 isn't 'lines N'"),
    (with_line(2, "lines 1000000000000000000"), "line 2 isn't 'lines N'"),
    (with_line(2, "bytes 22"), "line 2 isn't 'lines N'"), (with_line(3, "bytes 2.2"), "line 3 isn't 'bytes N'"),
    (with_line(3, "bytes 99999999999999999999999"), "line 3 isn't 'bytes N'"),
    (with_line(4, "outputs S 3 0.000000 0 0 2 2"), "line 4 isn't 'outputs S ..'"),
    (with_line(4, "outputs S 1 0.000000 0 0 2 129"), "line 4 isn't 'outputs S ..'"),
    (with_line(4, "outputs P 1 0 0 50"), "line 4 isn't 'outputs S ..'"),
    (with_line(4, "outputs S 1 1000.000000 0 0 2"), "line 4 isn't 'outputs S ..'"),
    (with_line(5, ""), "line 5 isn't 'reference X Y Z'"),
    (with_line(5, "reference 1 2"), "line 5 isn't 'reference X Y Z'"),
    (with_line(5, "reference 1 2 3 4"), "line 5 isn't 'reference X Y Z'"),
    (with_line(5, "reference  1 2 3"), "line 5 isn't 'reference X Y Z'"),
    (with_line(5, "reference 1 2 3 "), "line 5 isn't 'reference X Y Z'"),
    (with_line(5, "reference 1.0000001 2 3"), NO_NUMBER + "1.0000001"),
    (with_line(5, "reference 1 1e3 3"), NO_NUMBER + "1e3"),
    (with_line(5, "reference 1 2 ."), NO_NUMBER + "."), (with_line(5, "reference - 2 3"), NO_NUMBER + "-"),
    (with_line(5, "reference 1,5 2 3"), NO_NUMBER + "1,5"), (with_line(5, "reference --1 2 3"), NO_NUMBER + "--1"),
    (with_line(5, "reference 1.2.3 2 3"), NO_NUMBER + "1.2.3"), (with_line(5, "reference nan 2 3"), NO_NUMBER + "nan"),
    (with_line(5, "reference 9999999999999 2 3"), NO_NUMBER + "9999999999999"),
    (with_line(5, "reference 99999999999999999999.5 2 3"), NO_NUMBER + "99999999999999999999.5"),
    (with_line(5, "reference 1\x1b[2J 2 3"), NO_NUMBER + r"1\x1b[2J"),
    (with_line(6, "file 12 0"), "line 6 is no line of a record"),
    (with_line(6, "file 12 0 3A392A21"), "line 6 is no line of a record"),
    (with_line(6, "file 12 0 3a392a211"), "line 6 is no line of a record"),
    (with_line(6, "file -1 0 3a392a21"), "line 6 is no line of a record"),
    (with_line(6, "more"), "line 6 is no line of a record"),
    (with_line(6, "stopped Line"), "line 6 is no line of a record"),
    (with_line(6, "age 0"), "line 6 is no line of a record"),
    (with_line(6, "age 10000"), "line 6 is no line of a record"),
    (sector(*RIGHT, "stopped"), "line 7 is no line of a record"),
    (sector(*RIGHT, RIGHT[5]), "line 7 is no line of a record"),
    (sector(*RIGHT, "stopped line", "more"), "line 8 is no line of a record"),
    (sector(*RIGHT)[:-2] + b"x\n", "line 7 is no line of a record"),
    (sector(*RIGHT)[:-2] + b"\n\n", "line 7 is no line of a record"),
)
# Millimetres of a record, and where the machine stands then, with steps of 1 um.
PLACES = (
    ("7.21 -0.5 2.1", "7.210000 -0.500000 2.100000"), ("7 0 0", "7.000000 0.000000 0.000000"),
    (".5 -.5 +3", "0.500000 -0.500000 3.000000"), ("1. 007 -0", "1.000000 7.000000 0.000000"),
    ("0.000499 0.0005 -0.0005", "0.000000 0.001000 -0.001000"),
    ("999999999999.999999 -999999999999 0", "1000000000000.000000 -999999999999.000000 0.000000"),
)
THREE = "it takes three whole numbers of nanometres, "
MICROSECONDS = "a whole number of microseconds, 1 to 1,000,000"
A_MINUTE = "it takes a whole number of nanometres a minute, 1 to 100,000,000,000"
# A change of the settings, and what is said of it.
SETTINGS = (
    ("period_us = 50", "period_us = 0", f"period_us = 0 (S5): it takes {MICROSECONDS}"),
    ("period_us = 50", "period_us = 1000001", f"period_us = 1000001 (S5): it takes {MICROSECONDS}"),
    ("period_us = 50\n", "", f"period_us is missing (S2): {MICROSECONDS}"),
    ("period_us = 50\n", "period_us = 50\nmore = 1\n", "more isn't one of the six keys (S3)"),
    ("[1000, 1000, 1000]", "[1000, 9, 1000]", f"step_nm = [1000, 9, 1000] (S5): {THREE}10 to 1,000,000"),
    ("[1000, 1000, 1000]", "[1000, 1000]", f"step_nm = [1000, 1000] (S4): {THREE}10 to 1,000,000"),
    ("[1000, 1000, 1000]", "1000", f"step_nm = 1000 (S4): {THREE}10 to 1,000,000"),
    ("= 6000000000\n", "= 0\n", f"traverse_nm_per_min = 0 (S5): {A_MINUTE}"),
    ("= 6000000000\n", "= [1]\n", f"traverse_nm_per_min = [1] (S4): {A_MINUTE}"),
    ("low_nm = [-1000000000,", "low_nm = [1,",
     f"low_nm = [1, -1000000000, -1000000000] (S5): {THREE}-10,000,000,000 to 0"),
    ("[50000000]", "[-1]",
     "tools_nm = [-1] (S5): it takes an array of at most 128 whole numbers of nanometres, 0 to 1,000,000,000"),
)
# Settings that aren't TOML, or not in the form that the player in C takes, and whether `ngc` takes them.
OTHER_SETTINGS = (
    ("period_us = 50\nperiod_us = 50", False), ("period_us = 050", False), ("period_us = 5__0", False),
    ("period_us = 50 x", False),
    ("period_us = _50", False), ("period_us = fast", False), ("period_us = 50.0", False), ("period_us 50", False),
    ("period_us = 50\r", True), ("period_us = 50\rx", False), ("period_us = 50 # \x01", False),
    ("period_us = 50 # \udcff", False),
    ("period_us = 99999999999999999999", False), ("period_us = ", False), ("period_us = [50", False),
    ("period_us = 5_0 # µs", True), ("period_us = +50", True), ("\tperiod_us\t=\t50\r\n# more\r", True),
)


class Hostile:
    """Each is tried with the player in Python and with the one in C."""

    def test_lines(self) -> None:
        """It stops at the first line that isn't one of OUT, says which and why, and turns spindle and coolant off."""
        for line, said in LINES:
            for name in ("pins", "position"):
                Path(name).unlink(missing_ok=True)
            text = f"S 1 5.000000 1 1 0 0\nP 1 0 0 50\n{line}\nP 1 0 0 50\n"
            Path("out").write_text(text, encoding="latin-1", newline="")
            done = self.play("--untimed")
            self.assertEqual((done.returncode, done.stderr), (1, f"out:3: {said}; stopped, spindle and coolant off\n"))
            self.assertEqual(Path("pins").read_text(), "S 1 5.000000 1 1 0 0\nP 1 0 0 50\noff\n", line)
            self.assertTrue(Path("position").read_text().startswith(
                f"out {self.folder}/out\nlines 2\nbytes 32\noutputs S 0 5.000000 0 0 0 0\n"
                "reference 0.001000 0.000000 0.000000\n"))

    def test_records(self) -> None:
        """A file that is no record is named, and stays as it is."""
        Path("out").write_text("P 1 0 0 50\n")
        for text, said in RECORDS:
            Path("position").write_bytes(text)
            self.assertEqual(self.refused("out", "first.toml", "position"), "position: not a player's record: "
                             f"{said}; remove it, and tell by --at where the machine stands", text)
            self.assertEqual(Path("position").read_bytes(), text)
        self.assertIn("not a player's record: it has ", self.refused("out", "first.toml", "/dev/null"))

    def test_places(self) -> None:
        """Millimetres of any number of decimals up to six are read for what they are."""
        Path("out").write_text("D 0\n")
        for given, place in PLACES:
            Path("position").write_bytes(with_line(5, f"reference {given}"))
            done = self.play("--untimed")
            self.assertEqual((done.returncode, done.stdout.splitlines()[-1:]), (0, [f"reference {place}"]), given)
            os.unlink("position")
            done = self.play("--untimed", "--at", *given.split())
            self.assertEqual((done.returncode, done.stdout.splitlines()[-1:]), (0, [f"reference {place}"]), given)
        for text in ("ten", "1e3", "1.2345678", "0x1", "9999999999999", ""):
            self.assertEqual(self.refused("--at", "0", text, "0", "out", "first.toml", "position"), NO_NUMBER + text)

    def test_settings(self) -> None:
        """Settings that `ngc` refuses are refused, with the key and its limits."""
        Path("out").write_text("P 1 0 0 50\n")
        for old, new, said in SETTINGS:
            self.assertIn(old, FIRST)
            Path("bad.toml").write_text(FIRST.replace(old, new))
            self.assertEqual(self.refused("out", "bad.toml", "position"), f"bad.toml: {said}")
        Path("bad.toml").write_text(FIRST.replace("[50000000]", str([0] * 129)))
        self.assertRegex(self.refused("out", "bad.toml", "position"), r"^bad.toml: tools_nm = \[0, .*\(S6\): it takes")
        Path("program").write_text("M2\n")
        for text, is_taken in OTHER_SETTINGS:
            Path("bad.toml").write_text(FIRST.replace("period_us = 50", text), errors="surrogateescape", newline="")
            done = subprocess.run([ngc(), "dry", "program", "--settings", "bad.toml"], capture_output=True)
            self.assertEqual(done.returncode, 0 if is_taken else 2, text)
            done = self.play("--untimed", "--anew", "out", "bad.toml", "position")
            self.assertEqual(done.returncode, 0 if is_taken else 2, (text, done.stderr))
            self.assertEqual(done.stderr.partition("bad.toml")[0].partition(": ")[2], "", done.stderr)

    def test_files(self) -> None:
        """Files that can't be used are named, with status 2."""
        Path("out").write_text("P 1 0 0 50\n")
        os.mkdir("folder")
        os.mkfifo("pipe")
        self.device()
        Path("half.dev").write_bytes(Path("mill.dev").read_bytes()[512:2048])  # its other header is lost
        gone, no_record = "No such file or directory", "not a player's record: it has .*"
        for words, wanted in (
                (("none", "first.toml", "position"), f"none: {gone}"),
                (("folder", "first.toml", "position"), "folder: Is a directory"),
                (("/dev/null", "first.toml", "position"), "/dev/null: neither a file nor a named pipe"),
                (("mill.dev", "first.toml", "position"), "mill.dev: it is a device, and no OUT"),
                (("half.dev", "first.toml", "position"), "half.dev: it is a device, and no OUT"),
                (("out", "none", "position"), f"none: {gone}"),
                (("out", "folder", "position"), "folder: Is a directory"),
                (("out", "first.toml", "folder"), "folder: Is a directory"),
                (("out", "first.toml", "out"), f"out: {no_record}"),
                (("out", "first.toml", "none/position"), f"none/position: {gone}"),
                (("--pins", "none/pins", "out", "first.toml", "position"), f"none/pins: {gone}"),
                (("--pins", "pipe", "out", "first.toml", "position"), "pipe: nobody reads this pipe yet"),
                (("--pins", "folder", "out", "first.toml", "position"), "folder: Is a directory"),
                (("--progress", "none/progress", "out", "first.toml", "position"), f"none/progress: {gone}"),
                (("--progress", "folder", "out", "first.toml", "position"), "folder: it is there, and is no socket"),
                (("--progress", "p" * 200, "out", "first.toml", "position"),
                 f"{'p' * 200}: too long a path for a socket")):
            self.assertRegex(self.refused(*words), f"^{wanted}$", words)
        self.assertFalse(os.path.exists("position"))

    def test_long_path(self) -> None:
        """A path of OUT for which a record has no room is refused before anything moves."""
        deep = Path(*["d" * 100] * 3)
        deep.mkdir(parents=True)
        for name in (f"{deep}/out", "line\nend"):
            Path(name).write_text("P 1 0 0 50\n")
        path = f"{self.folder / deep}/out"
        self.assertEqual(self.refused(f"{deep}/out", "first.toml", "position"),
                         f"{path}: too long a path for a record: it has {len(path)} bytes, and at most 236 fit")
        done = self.run_player("--untimed", "line\nend", "first.toml", "position")
        self.assertEqual(done.returncode, 2)
        self.assertIn("a path with a line's end in it can't stand in a record", done.stderr)
        self.assertFalse(os.path.exists("position"))

    def test_pins(self) -> None:
        """The pins are appended to pins alone: no device, settings, OUT, record or program is written to."""
        self.device()
        Path("out").write_text("P 1 0 0 50\n")
        self.play("--untimed")
        Path("program").write_text("G0 X1\n")
        for name in ("out", "first.toml", "position"):
            before = Path(name).read_bytes()
            self.assertEqual(self.refused("--pins", name, "out", "first.toml", "position"),
                             f"{name}: it is {name} too: the pins need a file of their own")
            self.assertEqual(Path(name).read_bytes(), before)
        Path("other").write_bytes(Path("position").read_bytes())
        for name in ("mill.dev", "other", "program"):
            before = Path(name).read_bytes()
            self.assertEqual(self.refused("--pins", name, "out", "first.toml", "position"),
                             f"{name}: it holds something else than pins, and stays as it is: name a new file")
            self.assertEqual(Path(name).read_bytes(), before)

    def test_words(self) -> None:
        """Numbers that are none, and numbers out of range."""
        Path("out").write_text("P 1 0 0 50\n")
        for option, texts, said in (("--off-after", ("nan", "-3", "", "1e3", "3600.5", "1.2345678", "inf"),
                                     "not a number of seconds from 0 to 3600: "),
                                    ("--pipe", ("0", "-1", "x", "4096x", "1048577", "99999999999999999999"),
                                     "not a number of bytes from 1 to 1048576: ")):
            for text in texts:
                done = self.run_player(f"{option}={text}", "out", "first.toml", "position")
                self.assertEqual(done.returncode, 2)
                self.assertTrue(done.stderr.endswith(f"{said}{text}\n"), done.stderr)
        self.assertFalse(os.path.exists("position"))


class Player(Hostile, PlayerTest):
    """As a compiler builds it, optimized."""


class PlayerSanitized(Hostile, Sanitized, PlayerTest):
    """Under sanitizers."""


if __name__ == "__main__":
    unittest.main()
