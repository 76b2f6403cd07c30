"""OUT's lines, positions and records, by docs/OUTPUT.md and docs/SETTINGS.md."""
import shutil
import subprocess
import sys
import unittest
from pathlib import Path

sys.path.insert(0, str(Path(__file__).resolve().parent))

from player_support import INCLUDES, parts, proved
from session_support import InFolder
from out_support import after, text_of

from ngc_tools.formats.out import BadLine, Dwell, Pulse, Switch, read_line
from ngc_tools.formats.position import Position, millimetres, nanometres
from ngc_tools.formats.record import BadRecord, FileMark, Record

GREATEST = Record("/" + "x" * 235, 10**15 - 1, 10**15 - 1, Switch(2, 9_999_999_999_999, True, True, 128, 128),
                  (-(10**18 - 1),) * 3, FileMark(2**63 - 1, 2**63 - 1, 2**32 - 1), "emergency", 9999, "XYZ", True,
                  "998 998 998")


class Lines(unittest.TestCase):
    """Each of the three lines, and what is none."""

    def test_lines(self) -> None:
        """What each line says."""
        self.assertEqual(read_line("P 1 0 -1 50", 1), Pulse(1, 0, -1, 50))
        self.assertEqual(read_line(b"D 0", 1), Dwell(0))
        self.assertEqual(read_line("D 9999999999999", 1), Dwell(9_999_999_999_999))
        self.assertEqual(read_line("S 2 1000.500000 0 1 128 3", 1),
                         Switch(2, 1_000_500_000, False, True, 128, 3))
        self.assertEqual(str(read_line("S 0 0.000000 1 0 0 0", 1)), "S 0 0.000000 1 0 0 0")

    def test_other_lines(self) -> None:
        """A line that isn't exactly one of them is refused, with its number."""
        wrong = ["", "P", "P 1 0 0", "P 1 0 0 50 ", " P 1 0 0 50", "P 1  0 0 50", "P 2 0 0 50", "P -0 0 0 50",
                 "P +1 0 0 50", "P 1 0 0 050", "P 1 0 0 -50", "P 1 0 0 5x", "p 1 0 0 50", "P 1 0 0 50\r",
                 "P 1 0 0 18446744073709551616", "D",
                 "D -1", "D 1.5", "D 00", "S 0 0 0 0 0 0", "S 3 0.000000 0 0 0 0", "S 0 0.00000 0 0 0 0",
                 "S 0 00.000000 0 0 0 0", "S 0 10000000.000000 0 0 0 0", "S 0 0.000000 2 0 0 0",
                 "S 0 0.000000 0 0 129 0", "S 0 0.000000 0 0 0 129",
                 "S 0 0.000000 0 0 1000 0", "S 0 0.000000 0 0 0 01", "S 0 0.000000 0 0 0", "P 1 0 0 50P 1 0 0 50",
                 "P 1 0 0 \N{DEVANAGARI DIGIT FIVE}0"]
        for line in wrong:
            with self.assertRaises(BadLine, msg=line) as caught:
                read_line(line, 7)
            self.assertEqual(caught.exception.number, 7)

    def test_period(self) -> None:
        """A pulse lasts as long as the settings' period at least."""
        self.assertEqual(read_line("P 0 1 0 50", 1, 50).lasts_us, 50)
        with self.assertRaisesRegex(BadLine, "^line 3: a period of 49 us, and period_us of the settings is 50$"):
            read_line("P 0 1 0 49", 3, 50)


class Positions(unittest.TestCase):
    """Steps and millimetres."""

    def test_steps(self) -> None:
        """Pulses count; waits and switches move nothing."""
        position = Position((5000, 1000, 2500), (10_000, -1000, 0))
        lines = ["P 1 0 -1 50", "D 5", "S 0 0.000000 0 0 0 0", "P 1 -1 -1 50"]
        after(position, (read_line(line, number) for number, line in enumerate(lines, 1)))
        self.assertEqual(position.steps, [4, -2, -2])
        self.assertEqual(position.reference(), "reference 0.020000 -0.002000 -0.005000")

    def test_rounding(self) -> None:
        """A point is rounded to steps, half away from zero."""
        self.assertEqual(Position((1000, 1000, 1000), (1499, 1500, -1500)).steps, [1, 2, -2])

    def test_millimetres(self) -> None:
        """Nanometres as text and back."""
        self.assertEqual([millimetres(nm) for nm in (0, -1, 7_210_000, -12_000_000_001)],
                         ["0.000000", "-0.000001", "7.210000", "-12000.000001"])
        self.assertEqual([nanometres(text) for text in ("-7.21", ".5", "+3", "-0.000001")],
                         [-7_210_000, 500_000, 3_000_000, -1])
        for text in ("", ".", "-", "1.2345678", "1e3", "1_0", "x"):
            with self.assertRaises(ValueError, msg=text):
                nanometres(text)


class Records(InFolder):
    """A player's record."""

    def test_record(self) -> None:
        """It is one sector, and is read as it was written."""
        record = Record("/a b/axis", 412, 4532, Switch(1, 1_000_000_000, False, False, 2, 2), (7_210_000, 0, -1000))
        wanted = ("out /a b/axis\nlines 412\nbytes 4532\noutputs S 1 1000.000000 0 0 2 2\n"
                  "reference 7.210000 0.000000 -0.001000\n")
        self.assertEqual(len(text_of(record)), 512)
        self.assertEqual(text_of(record).decode().rstrip(" \n") + "\n", wanted)
        Path("position").write_bytes(text_of(record))
        self.assertEqual(Record.read("position"), record)

    def test_all_lines(self) -> None:
        """A file's mark, screws, an age, what a home and a move leave, and a stop have lines of their own. With the
        longest path all has room, each at its greatest: a count has fifteen digits, which are years of lines."""
        text = text_of(GREATEST)
        self.assertIn(b"\nfile 9223372036854775807 9223372036854775807 ffffffff\nscrews 998 998 998\nage 9999\n"
                      b"homed XYZ\noff\nstopped emergency\n", text)
        self.assertEqual(len(text), 512)
        self.assertEqual(Record.of_text(text, "position"), GREATEST)

    @unittest.skipUnless(shutil.which("cc"), "no C compiler")
    def test_all_lines_in_c(self) -> None:
        """The player in C reads the same record, and writes the same bytes."""
        sources = [*map(str, parts("record", "place", "scan", "line", "cause", "utf8", "backlash")), *proved()]
        Path("copy.c").write_text('''#include "record.h"
#include <stdio.h>
int main(void) {
    static char text[RECORD_SIZE + 1];
    static struct record record;
    static struct cause why;
    if (!record_read(text, fread(text, 1, sizeof text, stdin), "position", &record, &why)) {
        return puts(why.text) < 0 ? 2 : 1;
    }
    record_print(&record, text);
    return fwrite(text, 1, RECORD_SIZE, stdout) == RECORD_SIZE ? 0 : 2;
}
''')
        subprocess.run(["cc", "-std=c11", *INCLUDES, "copy.c", *sources, "-o", "copy"], check=True)
        for record in (Record("/a", 7, 80), GREATEST):
            done = subprocess.run(["./copy"], input=text_of(record), capture_output=True, check=False)
            self.assertEqual((done.returncode, done.stdout), (0, text_of(record)))

    def test_other_files(self) -> None:
        """Another file is refused."""
        right = text_of(Record("/axis"))
        for text in (b"", b"7.21 0 0\n", b"x" * 512, right[:-1], right.replace(b"lines", b"LINES")):
            Path("position").write_bytes(text)
            with self.assertRaisesRegex(BadRecord, "^position: not a player's record"):
                Record.read("position")


if __name__ == "__main__":
    unittest.main()
