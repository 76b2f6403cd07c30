"""Settings: read as a dataclass, shown as a person reads them, and the key that a fault means."""
import re
import sys
from pathlib import Path

sys.path.insert(0, str(Path(__file__).resolve().parent))

from session_support import FIRST, InFolder, ngc

from ngc_tools import files
from ngc_tools.ngc import settings_report
from ngc_tools.formats.settings import LIMITS, BadSettings, Settings, toml_line
from ngc_tools.ngc.run import settings_refusal
from ngc_tools.ngc.usable_settings import look_at_settings

MILL = Path(__file__).resolve().parents[2] / "examples" / "mill.toml"


class Read(InFolder):
    """The file as a dataclass."""

    def test_values(self) -> None:
        """All six keys, in nanometres and microseconds."""
        self.assertEqual(Settings.read(MILL), Settings(
            (5000, 5000, 2500), (-150_000_000, -100_000_000, -200_000_000), (150_000_000, 100_000_000, 0),
            3_000_000_000, 40, (50_000_000, 62_500_000, 0)))

    def test_errors_name_path_and_key(self) -> None:
        """Each fault names the key and what it takes; no control character of a key or a value is shown."""
        whole = "a whole number of microseconds, 1 to 1,000,000"
        cases = {
            FIRST.replace("period_us = 50\n", ""): f"bad.toml: period_us is missing (S2): {whole}",
            FIRST + '"\\u001b[2J" = 1\n': 'bad.toml: "\\u001b[2J" isn\'t one of the six keys (S3)',
            FIRST.replace("= 50\n", "= 50.0\n"): f"bad.toml: period_us = 50.0 (S4): it takes {whole}",
            FIRST.replace("= 50\n", "= true\n"): f"bad.toml: period_us = true (S4): it takes {whole}",
            FIRST.replace("= 50\n", '= "\x7f"\n'.replace("\x7f", "\\u009b")):
                f'bad.toml: period_us = "\\x9b" (S4): it takes {whole}',
            FIRST.replace("= 50\n", "= 0\n"): f"bad.toml: period_us = 0 (S5): it takes {whole}",
            FIRST.replace("[1000, 1000, 1000]", "[1000, 1000]"): "bad.toml: step_nm = [1000, 1000] (S4): it takes three"
                " whole numbers of nanometres, 10 to 1,000,000",
            FIRST.replace("[50000000]", str([0] * 129)): f"bad.toml: tools_nm = {[0] * 129} (S6): it takes an array of"
                " at most 128 whole numbers of nanometres, 0 to 1,000,000,000",
            "step_nm\n": "bad.toml: not TOML: Expected '=' after a key in a key/value pair (at line 1, column 8)",
            "a = " + "[" * 4_000: "bad.toml: not TOML that ngc takes: nested too deeply",
            "\n" + "a." * 3_000: "bad.toml: line 2 has more than 4,096 bytes",
        }
        for text, said in cases.items():
            Path("bad.toml").write_text(text)
            with self.assertRaises(BadSettings) as caught:
                Settings.read("bad.toml")
            self.assertEqual(str(caught.exception), said)
        Path("bad.toml").write_bytes(b"# \xfc\n")
        with self.assertRaisesRegex(BadSettings, "^bad.toml: not UTF-8: byte 2 can't stand there$"):
            Settings.read("bad.toml")
        with self.assertRaises(OSError):
            Settings.read("none.toml")

    def test_what_ngc_takes(self) -> None:
        """Values within and beyond each limit, of each type: they are taken where `ngc` takes them, and refused with
        the same fault."""
        edges = {"step_nm": (10, 10**6), "low_nm": (-10**10, 0), "high_nm": (0, 10**10),
                 "traverse_nm_per_min": (1, 10**11), "period_us": (1, 10**6), "tools_nm": (0, 10**9)}
        others: list[object] = [1.0, True, "1", [], [1.5], [[1]], {"a": 1}]
        for key, (low, high) in edges.items():
            is_one = key in ("traverse_nm_per_min", "period_us")
            each = [value if is_one else [value] * 3 for value in (low - 1, low, high, high + 1)]
            for value in [*each, *others, *([[low] * 128, [low] * 129] if key == "tools_nm" else [])]:
                Path("edge.toml").write_text("".join(f"{toml_line(name, value if name == key else of)}\n"
                                                     for name, of in settings_report.GOOD.items()))
                refused = settings_refusal(ngc(), "edge.toml")
                try:
                    Settings.read("edge.toml")
                    self.assertIsNone(refused, (key, value))
                except BadSettings as error:
                    self.assertIsNotNone(refused, (key, value))
                    self.assertIn(f"({refused.code})", str(error), (key, value))

    def test_fastest(self) -> None:
        """docs/SETTINGS.md: 5,000 nm and 40 us allow 7,500 mm a minute, 2,500 nm 3,750."""
        mill = Settings.read(MILL)
        self.assertEqual([mill.fastest_nm_per_min(axis) for axis in range(3)],
                         [7_500_000_000, 7_500_000_000, 3_750_000_000])


class Shown(InFolder):
    """`ngc-check --settings-only`."""

    def only(self, path: str | Path) -> tuple[int, str, str]:
        """Status, standard output, standard error."""
        done = self.tool("ngc-check", "--settings-only", "--settings", str(path), "--ngc", ngc())
        return done.returncode, done.stdout, done.stderr

    def test_first(self) -> None:
        """The default settings, whose traverse is never reached."""
        self.assertEqual(self.only("first.toml"), (0, """first.toml:
    steps     X 0.001   Y 0.001   Z 0.001 mm
    travel    X -1,000 to 1,000   Y -1,000 to 1,000   Z -1,000 to 1,000 mm
    traverse  6,000 mm/min
    period    50 us: at most 20 kHz
    fastest   X 1,200   Y 1,200   Z 1,200 mm/min, one step of the axis each period
    tools     T1 50 mm, for ngc dry
first.toml: warning: a traverse of 6,000 mm/min is capped to 1,200 by period_us
""", ""))

    def test_first_is_capped_by_ngc(self) -> None:
        """A millimetre of traverse has 1,000 pulses of 50 us: 1,200 mm a minute."""
        self.device()
        self.run_ngc("mdi G0 X1\ntick 5000\n")
        self.assertEqual(Path("out").read_text(), "P 1 0 0 50\n" * 1000)

    def test_mill(self) -> None:
        """Nothing to warn of; axes and tools that differ."""
        Path("mill.toml").write_bytes(MILL.read_bytes())
        self.assertEqual(self.only("mill.toml"), (0, """mill.toml:
    steps     X 0.005   Y 0.005   Z 0.0025 mm
    travel    X -150 to 150   Y -100 to 100   Z -200 to 0 mm
    traverse  3,000 mm/min
    period    40 us: at most 25 kHz
    fastest   X 7,500   Y 7,500   Z 3,750 mm/min, one step of the axis each period
    tools     T1 50   T2 62.5   T3 0 mm, for ngc dry
""", ""))

    def test_one_axis_and_slow(self) -> None:
        """A cap of one axis alone; a traverse in mm a minute; an axis without travel."""
        text = MILL.read_text()
        Path("a.toml").write_text(text.replace("= 3000000000", "= 5000000000").replace("62500000, 0]", "0]"))
        self.assertIn("a.toml: warning: a traverse of Z of 5,000 mm/min is capped to 3,750 by period_us\n",
                      self.only("a.toml")[1])
        Path("b.toml").write_text(text.replace("= 3000000000", "= 3000").replace("-200000000]", "0]")
                                  .replace("50000000, 62500000, 0", ""))
        self.assertEqual(self.only("b.toml")[1].splitlines()[-3:], [
            "    tools     none for ngc dry",
            "b.toml: warning: a traverse of 0.003 mm/min is very slow: 1 mm/min is 1,000,000 nm/min",
            "b.toml: warning: Z has no travel: low_nm and high_nm are both 0"])

    def test_keys_of_faults(self) -> None:
        """S1 to S6: each key that the fault means, found by asking `ngc` of each key alone."""
        cases = {
            "step_nm = \n": """bad.toml: S1 NotToml: the text isn't TOML
    not TOML: Invalid value (at line 1, column 11)
""",
            FIRST.replace("period_us = 50\n", "").replace("low_nm", "low"): """bad.toml: S2 MissingKey: a key is missing
    low_nm is missing: three whole numbers of nanometres, -10,000,000,000 to 0
    period_us is missing: a whole number of microseconds, 1 to 1,000,000
""",
            FIRST + "tool_nm = 1\nfeed = 2\n": """bad.toml: S3 UnknownKey: there is another key
    line 7: tool_nm isn't one of the six keys; tools_nm?
    line 8: feed isn't one of the six keys
""",
            FIRST.replace("= 50\n", "= 50.0\n").replace("[50000000]", '["a"]'): """\
bad.toml: S4 WrongType: a value isn't of its type
    line 5: period_us = 50.0 (S4): it takes a whole number of microseconds, 1 to 1,000,000
    line 6: tools_nm = ["a"] (S4): it takes an array of at most 128 whole numbers of nanometres, 0 to 1,000,000,000
""",
            FIRST.replace("= 50\n", "= true\n").replace("= 6000000000\n", "= {a = '1'}\n"): """\
bad.toml: S4 WrongType: a value isn't of its type
    line 4: traverse_nm_per_min = {a = "1"} (S4): it takes a whole number of nanometres a minute, 1 to 100,000,000,000
    line 5: period_us = true (S4): it takes a whole number of microseconds, 1 to 1,000,000
""",
            FIRST + '"\\u0066eed" = 2\n"\\u009b2J" = 1\n': """\
bad.toml: S3 UnknownKey: there is another key
    feed isn't one of the six keys
    "\\x9b2J" isn't one of the six keys
""",
            FIRST.replace("[1000, 1000, 1000]", "[1000, 1000, 5]"): """\
bad.toml: S5 OutOfLimits: a number is beyond its limits
    line 1: step_nm = [1000, 1000, 5] (S5): it takes three whole numbers of nanometres, 10 to 1,000,000
""",
        }
        for text, said in cases.items():
            Path("bad.toml").write_text(text)
            self.assertEqual(self.only("bad.toml"), (2, "", f"ngc-check: {said}"))
        Path("bad.toml").write_text(FIRST.replace("[50000000]", str([1] * 129)))
        self.assertEqual(self.only("bad.toml")[2].splitlines()[0],
                         "ngc-check: bad.toml: S6 TooManyTools: there are more than 128 tool lengths")

    def test_each_tool_names_the_key(self) -> None:
        """The key and its limits, of a value that `ngc` alone calls S5 OutOfLimits."""
        Path("bad.toml").write_text(FIRST.replace("= 50\n", "= 0\n"))
        with self.assertRaises(BadSettings) as caught:
            look_at_settings(ngc(), "bad.toml")
        self.assertEqual(str(caught.exception), "bad.toml: S5 OutOfLimits: a number is beyond its limits\n    line 5:"
                         " period_us = 0 (S5): it takes a whole number of microseconds, 1 to 1,000,000")
        Path("p.ngc").write_text("M2\n")
        for words in (("ngc-adapt", "p.ngc", "--settings", "bad.toml"),
                      ("ngc-split", "p.ngc", "--settings", "bad.toml"), ("ngc-rehearse", "mill.dev", "bad.toml")):
            done = self.tool(*words, "--ngc", ngc())
            self.assertEqual(done.returncode, 2, words)
            self.assertIn("period_us = 0 (S5): it takes", done.stderr)

    def test_no_file(self) -> None:
        """Where `ngc` says nothing, the path and the cause."""
        self.assertEqual(self.only("none.toml"), (2, "", "ngc-check: none.toml: No such file or directory\n"))
        with self.assertRaises(OSError) as caught:
            look_at_settings(ngc(), "/dev/zero")  # of which there is no end
        self.assertEqual(files.cause(caught.exception), "/dev/zero: no file, but a terminal or a line to a machine")

    def test_limits_are_those_of_the_page(self) -> None:
        """The limits that are said stand in docs/SETTINGS.md's table."""
        page = Path(__file__).resolve().parents[2] / "docs" / "SETTINGS.md"
        rows = dict(re.findall(r"^\| `(\w+)` \| [^|]* \| ([^|;]*)[^|]* \|", page.read_text(), re.MULTILINE))
        for key, said in LIMITS.items():
            self.assertTrue(said.endswith(rows[key].strip()), (key, rows[key]))
