"""Settings and a machine's file as tools/player reads them and as Python's reader of TOML does: files that were changed
by chance are read the same by both, or refused.

    NGC_MUTATIONS=100000 python3 -m unittest tests.test_machine_file

tries so many."""
import os
import random
import re
import subprocess
import sys
import unittest
from collections.abc import Iterator
from pathlib import Path

sys.path.insert(0, str(Path(__file__).resolve().parent))

from player_support import SANITIZERS, PlayerTest, built, has_sanitizers, parts
from session_support import FIRST, InFolder

from ngc_tools.failure import Failure
from ngc_tools.formats import machine, settings
from ngc_tools.formats.machine import read_tables
from ngc_tools.formats.settings import Settings

MUTATIONS = int(os.environ.get("NGC_MUTATIONS", "3000"))
NAMES = ("cause", "machine_keys", "scan", "settings", "sink_serial", "toml", "utf8")
SOURCES = (*parts(*NAMES), Path(__file__).parent / "settings_drive.c")
MACHINE = """[motion]
accel_mm_s2 = [500, 500, 300]   # of X, Y and Z
rate_mm_min = [3000, 3000, 1_500]
start_mm_min = [0, 0, 0]
slack_steps = 2
most_percent = 200

[window]
lines = 0
[wait]
spindle_s = +4
[spindle]
max_rpm = 12000
[backlash]
steps = [0,
    5, # of Y
    0]
[sink]
line = "/dev/ttyUSB0"
baud = 2000000
debounce_us = 200

[inputs]
emergency_stop = 0
limits_low = [1, 2, 3]
limits_high = [1, 2, -1]
door = 4
spindle_at_speed = 5
probe = 6
on_while_low = [5, 6]
at_speed_s = 10

[home]
order = [2, 3, 1]
switch = [1, 2, 3]
direction = [-1, -1, 1]
fast_mm_min = [1500, 1500, 600]
slow_mm_min = [60, 60, 60]
pull_off_um = [2000, 2000, 2000]
at_um = [-150000, -100000, 0]
way_mm = [330, 220, 220]
agree_um = 20

[setter]
height_um = -81250
at_um = [-140000, 90000, -5_000]
probe_tool = 9
probe_radius_um = 1000
fast_mm_min = 300
slow_mm_min = 30
retract_um = 1000
agree_um = 50
"""
KEYS = re.findall(r"^(?:\[(\w+)\]|(\w+) =)", MACHINE, re.MULTILINE)
PIECES = (" ", "\t", "\n", "\r\n", "\r", "#", '"', "'", '"""', "'''", ".", ",", "=", "[", "]", "[[", "]]", "{", "}",
          "\\", "\\u0069", "_", "-", "+", "0", "1", "15", "16", "-1", "0x1", "0b1", "1e3", "1.0", "true", "nan",
          "1979-05-27",
          "9223372036854775807", "9223372036854775808", "[inputs]", "[ inputs ]", '["inputs"]', "[Inputs]",
          "[inputs.x]", "inputs.emergency_stop = 0", 'inputs . "door" = 3', "[home]", "[[inputs]]",
          "inputs = {door = 4}", "[extra]",
          "extra = 1", '"" = 1', "emergency_stop", "door", "\0", "\x7f", "\x1b", "\x80", "\xff", "\xc3\xa9",
          "\xe2\x80\xae", "\xed\xa0\x80", "\xef\xbb\xbf", "[\n1, 2,\n3, ]", "[1, 2, 3,]", "[1 2 3]", "[]")
ODD = re.compile(rb"""\\|\{|\[\[|0[xob]|""\"|'''""")
"""Without these, what Python reads tools/player reads too: escapes, tables within a line, numbers to other bases,
quotes over several lines."""


def changed(chance: random.Random, text: bytes, least: int = 1) -> bytes:
    """The text with some changes, most of them where a name begins or ends."""
    for _ in range(max(least, chance.choice((1, 1, 1, 2, 3)))):
        places = [match.start() for match in re.finditer(rb"\b|^|$", text, re.MULTILINE)]
        at = chance.choice(places) if chance.random() < 0.7 else chance.randrange(len(text) + 1)
        piece = chance.choice(PIECES).encode("latin-1")
        match chance.randrange(6):
            case 0 | 1:
                text = text[:at] + piece + text[at:]
            case 2:
                text = text[:at] + text[at + chance.randrange(1, 6):]
            case 3:
                text = text[:at] + piece + text[at + chance.randrange(1, 6):]
            case 4:
                lines = text.split(b"\n")
                lines.insert(chance.randrange(len(lines) + 1), chance.choice([*lines, piece]))
                text = b"\n".join(lines)
            case _:
                text = text[:at] + text[at:at + 1].swapcase() + text[at + 1:]
    return text


def with_number(text: str, table: str, key: str, number: int) -> bytes:
    """The text with all numbers of a key of a table, of the text's top where it is named "", changed to this one."""
    before, name, rest = text.partition(f"[{table}]\n") if table else ("", "", text)
    keys, end, behind = rest.partition("\n[")
    changed, count = re.subn(rf"(?m)(?<=^{key} = )[^#\n]*",
                             lambda value: re.sub(r"[-+]?[\d_]+", str(number), value[0]), keys)
    if count != 1:
        raise AssertionError(f"{key} stands {count} times in {table}")
    return (before + name + changed + end + behind).encode()


def found_in_machine(path: str) -> str:
    """What Python reads of a machine's file, as the drive says it."""
    tables = read_tables(path)
    if "motion" not in tables:
        raise Failure("the table [motion] is missing")
    said = []
    for number, (name, key) in enumerate(keys()):
        if key in tables.get(name, {}):
            value = tables[name][key]
            values = value if isinstance(value, list) else value.encode() if isinstance(value, str) else [value]
            said.append(" ".join(map(str, [number, *values])) + ";")
    return "".join(said)


def keys() -> Iterator[tuple[str, str]]:
    """Each table and key of the machine above, which has all."""
    table = ""
    for name, key in KEYS:
        table = name or table
        if key:
            yield table, key


def found_in_settings(path: str) -> str:
    """What Python reads of settings, as the drive says it."""
    found = Settings.read(path)
    axes = "".join(f"{step} {low} {high};" for step, low, high in zip(found.step_nm, found.low_nm, found.high_nm))
    return f"{axes}{found.traverse_nm_per_min} {found.period_us}"


NO_INPUTS = "motion.toml: inputs: the pins of this player have none"
NO_TABLE = ("isn't one of the nine tables of a machine's file: motion, window, wait, spindle, backlash, sink, inputs,"
            " home, setter")
MOTION = "[motion]\naccel_mm_s2 = [500, 500, 500]\n"
HEEDED = ("[inputs]\nemergency_stop = 0\n", "[ inputs ]\nemergency_stop = 0\n", "[inputs ]\nemergency_stop = 0\n",
          '["inputs"]\nemergency_stop = 0\n', "['inputs']\nemergency_stop = 0\n", '[ "inputs"\t] # those\ndoor = 0\n',
          '[inputs]\n"emergency_stop" = 0\n', "[inputs]\n")
"""Ways to write the inputs of safety."""
NAMED = {
    "[Inputs]\nemergency_stop = 0\n": f"motion.toml: Inputs {NO_TABLE}",
    "[wait.more]\nspindle_s = 4\n": None, "[[inputs]]\ndoor = 0\n": None, "[inputs]\n[inputs]\n": None,
    "[inputs]\nDoor = 0\n": "motion.toml: inputs has a key that isn't one of its eight: Door",
    "[inputs]\ndoor.x = 0\n": None,
    "[inputs]\ndoor = '0'\n": "motion.toml: inputs: door takes a whole number from -1 to 15",
    "[setter]\nheight = 1\n": "motion.toml: setter has a key that isn't one of its eight: height",
    "[sink]\nline = 1\n": "motion.toml: sink: line takes the path of the sink's serial line in \"quotes\", of at most"
                          " 255 bytes",
    "[inputs]\nprobe = 16\n": "motion.toml: inputs: probe takes a whole number from -1 to 15",
}
"""What no player takes, and what both say, where it is the same."""


class Safety:
    """Each with the player in Python and with the one in C."""

    def setUp(self) -> None:
        """A pulse."""
        super().setUp()
        Path("out").write_text("P 1 0 0 50\n")

    def says(self, text: str) -> str:
        """What is said of a machine's file, before anything moves."""
        Path("motion.toml").write_text(text)
        said = self.refused("--machine", "motion.toml", "out", "first.toml", "position")
        self.assertFalse(Path("position").exists())
        return said

    def test_refused(self) -> None:
        """Tables and keys that aren't known are refused by name, and so is what isn't of its kind."""
        for text, said in NAMED.items():
            found = self.says(MOTION + text)
            self.assertTrue(found.startswith("motion.toml:"), found)
            self.assertEqual(found, said or found)
        self.assertEqual(self.says("inputs = 0\n" + MOTION),
                         "motion.toml: inputs isn't a table: [inputs], and its keys below it")


class Player(Safety, PlayerTest):
    """As a compiler builds it, optimized."""

    def test_heeded(self) -> None:
        """Inputs are heeded however they are written: the pins of this player have none, so it doesn't begin."""
        for text in HEEDED:
            self.assertEqual(self.says(MOTION + text), NO_INPUTS, text)
        for text in ("inputs.emergency_stop = 0\n", 'inputs . "door" = 0\ninputs.probe = -1\n'):
            self.assertEqual(self.says(text + MOTION), NO_INPUTS, text)

    def test_no_file(self) -> None:
        """Pipes, devices and files of more than a mebibyte are named, and nothing is waited for."""
        os.mkfifo("pipe")
        Path("long").write_bytes(b"#" * (2**20 + 1))
        for path, said in (("pipe", "no file"), ("/dev/zero", "no file"), ("long", "it has more than 1,048,576 bytes")):
            for words in (("--machine", path, "out", "first.toml"), ("out", path)):
                self.assertEqual(self.refused(*words, "position"), f"{path}: {said}")


class ByChance(InFolder):
    """Files that were changed by chance."""

    def said(self, kind: str, texts: list[bytes]) -> list[str]:
        """What tools/player says of each text."""
        options = SANITIZERS if has_sanitizers() else ("-O2",)
        given = b"".join(f"{kind} {len(text)}\n".encode() + text for text in texts)
        done = subprocess.run([built(*options, sources=SOURCES), "read.toml"], input=given, capture_output=True)
        self.assertEqual((done.returncode, done.stderr), (0, b""))
        return done.stdout.decode("utf-8", "replace").split("\n")[:-1]

    def compare(self, kind: str, texts: list[bytes]) -> int:
        """Compares what both read of each; how many both took."""
        taken = 0
        for text, said in zip(texts, self.said(kind, texts), strict=True):
            Path("given.toml").write_bytes(text)
            try:
                found = (found_in_machine if kind == "machine" else found_in_settings)("given.toml")
            except Failure as error:
                found = f"refused {error}"
            if said.startswith("refused "):
                self.assertIn("read.toml:", said, text)
                self.assertTrue(found.startswith("refused ") or ODD.search(text), (text, said))
            else:
                self.assertEqual(said, found, text)
                taken += 1
        return taken

    def test_machine(self) -> None:
        """A machine's file: none is read another way by the player, with all inputs of safety in each."""
        chance = random.Random(20261128)
        for _ in range(2 * MUTATIONS // 3000):
            texts = [changed(chance, MACHINE.encode()) for _ in range(1000)]
            self.assertGreater(self.compare("machine", [MACHINE.encode(), *texts]), 100)

    def test_ranges(self) -> None:
        """The numbers at both ends of each key's range, and those beyond them: both take the same ones."""
        of_machine = {(table, name): key.numbers for table, keys in machine._TABLES.items()
                      for name, key in keys.items() if key.numbers}
        of_settings = {("", name): numbers for name, numbers in settings._RANGES.items()}
        for kind, text, ranges in (("machine", MACHINE, of_machine), ("settings", FIRST, of_settings)):
            texts = [with_number(text, table, name, number) for (table, name), numbers in ranges.items()
                     for number in (numbers[0] - 1, numbers[0], numbers[-1], numbers[-1] + 1)]
            self.assertGreater(self.compare(kind, texts), len(texts) // 3)

    def test_settings(self) -> None:
        """Settings."""
        chance = random.Random(20261129)
        for _ in range(MUTATIONS // 3000):
            texts = [changed(chance, FIRST.encode()) for _ in range(1000)]
            self.assertGreater(self.compare("settings", [FIRST.encode(), *texts]), 100)


if __name__ == "__main__":
    unittest.main()
