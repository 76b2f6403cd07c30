"""Above the work's zero, park, and macros: the lines that are shown, and where they lead."""
import sys
import unittest
from pathlib import Path

sys.path.insert(0, str(Path(__file__).resolve().parent))

from session_support import InFolder
from test_operator import Core, FileLink

from ngc_tools.operator.setter import Setter

HOME = """[motion]
accel_mm_s2 = [500, 500, 500]
[home]
order = [2, 3, 1]
switch = [1, 2, 3]
direction = [-1, -1, 1]
fast_mm_min = [1500, 1500, 600]
slow_mm_min = [60, 60, 60]
pull_off_um = [2000, 2000, 1000]
at_um = [-8000, -7000, 9000]
"""


class ToHome(Core):
    """A machine that is homed at X-8 Y-7 Z9."""

    def setUp(self) -> None:
        """What its file says."""
        super().setUp()
        Path("mill.toml").write_text(HOME)

    def begins(self, link: FileLink | None = None) -> None:
        """Begins, as the tools do."""
        self.begin(link)
        self.operator.know(Setter.read("mill.toml"))

    def lines(self, said: list[str]) -> list[str]:
        """Of what was said the lines that were done."""
        return [text for text in said if text.startswith(("G53", "M", "G0"))]

    def test_above(self) -> None:
        """Z goes up first, then X and Y to 0 of the work: by its offsets, in any mode and unit."""
        self.begins()
        self.do("G55", "G10 L2 P2 X3 Y4 Z-5", "G92 X0.5", "G91")  # here is X0.5
        self.do("G53 G0 X1 Y1 Z-2")
        said = self.do("above")
        self.assertEqual(self.lines(said), ["G53 G0 Z9", "G53 G0 X-0.5 Y4"])
        self.assertEqual(self.status().at, ("-0.500000", "4.000000", "9.000000"))
        self.do("G20", "G53 G0 X0 Y0 Z0.1")
        said = self.do("above")
        self.assertEqual(self.lines(said), ["G53 G0 Z0.354330", "G53 G0 X-0.019685 Y0.157480"])
        self.assertEqual(self.status().at, ("-0.499999", "3.999992", "8.999982"))
        self.assertEqual(self.operator.stored().state.unit, 20)

    def test_higher(self) -> None:
        """Where Z is higher already it stays there; without a home it goes to the travel's end."""
        self.begins()
        self.do("G53 G0 Z12")
        self.assertEqual(self.lines(self.do("above")), ["G53 G0 X0 Y0"])
        self.operator.know(Setter())
        self.assertEqual(self.lines(self.do("above")), ["G53 G0 Z1000", "G53 G0 X0 Y0"])

    def test_park(self) -> None:
        """Spindle and coolant go off first; a machine whose X isn't homed has no park."""
        self.begins()
        self.do("M3 S100", "M8")
        self.assertEqual(self.lines(self.do("park")), ["M5", "M9", "G53 G0 Z9", "G53 G0 X-8 Y-7"])
        self.assertEqual(self.status().at, ("-8.000000", "-7.000000", "9.000000"))
        Path("mill.toml").write_text(HOME.replace("order = [2, 3, 1]", "order = [0, 2, 1]"))
        self.operator.know(Setter.read("mill.toml"))
        self.assertEqual(self.do("park"), ["the machine's file doesn't say where X and Y are homed: at_um in its"
                                           " [home], which the park is"])

    def test_refused(self) -> None:
        """Where the machine stands elsewhere than `ngc` takes it to be, and amid a held program, nothing moves; after
        a line that is held none follows."""
        self.begins(FileLink("1 0 0"))
        said = self.do("above")
        self.assertIn("1.000 mm apart. Nothing is done.", said[1])
        self.assertEqual((said[-1], self.out()), ("nothing more moves", []))
        self.end()
        self.begins()
        self.hold_after(1)
        self.assertEqual(self.do("above")[-1], "nothing more moves")
        self.assertEqual(self.status().at[2], "0.000000")
        self.face.holds_at = 0
        self.assertIn("held before line 1", self.do("park")[-1])


class Macro(Core):
    """Those of first.macros, beside the settings."""

    def setUp(self) -> None:
        """Begins a session."""
        super().setUp()
        self.begin()

    def test_does(self) -> None:
        """Each line is shown and done, and what they leave in force is said."""
        Path("first.macros").write_text('"Lift" = ["G53 G0 Z2"]\nLights = ["M8", "G91 G0 X1"] # and more\n')
        said = self.do("macro Lights")
        self.assertEqual([text for text in said if text[0] in "GM"], ["M8", "G91 G0 X1"])
        self.assertEqual(self.status().at, ("1.000000", "0.000000", "0.000000"))
        self.assertEqual(said[-1], "in force now: G91 (G90 before). restore puts it back")
        self.do("MACRO lift")
        self.assertEqual(self.status().at[2], "2.000000")
        self.assertEqual(self.do("macro"), ["macro NAME: Lift; Lights"])
        self.assertEqual(self.do("macro none"), ["macro NAME: Lift; Lights"])

    def test_tried_first(self) -> None:
        """A line that `ngc` refuses, from how the device stands then: none is done before it either."""
        Path("first.macros").write_text('Far = ["G0 X1", "G0 X2000"]\nWrong = ["M5", "G1 X1 F60 Q"]\n')
        self.assertIn("macro Far: nothing is done: G0 X2000: refused X2 OutsideTravel", self.do("macro Far")[0])
        self.assertIn("macro Wrong: nothing is done: G1 X1 F60 Q: refused", self.do("macro Wrong")[0])
        self.assertEqual((self.status().at, self.status().entries, self.out()), (("0.000000",) * 3, 0, []))

    def test_held(self) -> None:
        """After a line that is held none follows."""
        Path("first.macros").write_text('Two = ["G0 X1", "G0 X2"]\n')
        self.hold_after(1)
        self.assertEqual(self.do("macro Two")[-1], "no more line of the macro is done")
        self.face.holds_at = 0
        self.assertIn("held before line 1", self.do("macro Two")[0])


class File(InFolder):
    """Files that can't be used are named, and nothing is done."""

    def test_wrong(self) -> None:
        """What isn't TOML, and what isn't names with lines."""
        self.device()
        bench = Core("begin")
        self.addCleanup(bench.doCleanups)
        bench.begin()
        self.assertEqual(bench.do("macro x"), ["macro NAME: none, since first.macros has none"])
        for text in ("x", "x = 1", "x = 'M5'", "x = []", "x = ['']", "x = [5]", 'x = ["M5\\nM9"]', '"" = ["M5"]',
                     f'"{"n" * 41}" = ["M5"]', "[x]\ny = ['M5']", f"x = ['{'0' * 251}']",
                     "".join(f"m{number} = ['M5']\n" for number in range(25))):
            Path("first.macros").write_text(text)
            said = bench.do("macro x")
            self.assertEqual((len(said), said[0][:13]), (1, "first.macros:"), (text, said))


if __name__ == "__main__":
    unittest.main()
