"""The record of runs: what stands in it, that it is only appended to, and a line that a loss of power tore."""
import os
import re
import sys
import time
import unittest
from pathlib import Path
from unittest import mock
from zlib import crc32

sys.path.insert(0, str(Path(__file__).resolve().parent))

from test_operator import Core, FileLink, RampLink

from ngc_tools.operator.runs import RecordedRun, RunEvent, last_runs, read_lines

RECORD = Path("mill.dev.runs")
PART = "G21 G90 G17 G54 G94 G49\nG0 X1\nT2 M6\nM0\nG0 X2\nM2\n"
WHEN = re.compile(r"\d{4}-\d\d-\d\d \d\d:\d\d:\d\d [-+]\d{4} ")


class Recorded(Core):
    """Each line without its time."""

    def setUp(self) -> None:
        """Notes when it began, in whole seconds as the record has them."""
        super().setUp()
        self.began_s = int(time.time())

    def lines(self) -> list[str]:
        """Those of the record; each has its time, and they follow each other."""
        lines = RECORD.read_text().split("\n")
        self.assertEqual(lines.pop(), "")
        self.assertTrue(all(map(WHEN.match, lines)), lines)
        times = [self.began_s, *(event.at for event in map(RunEvent.read, lines) if event), time.time()]
        self.assertEqual((len(times), sorted(times)), (len(lines) + 2, times))
        return [re.sub(r"after 0:\d\d", "after 0:NN", WHEN.sub("", line)) for line in lines]

    def begin_with_tools(self) -> None:
        """Two tools."""
        self.begin(FileLink())
        self.do("tool 2 0")

    def test_run(self) -> None:
        """A run with a stop: when it began and ended, how long it took, what came between, and the tool."""
        self.begin_with_tools()
        self.assertEqual(self.do("runs"), ["no run is recorded yet"])
        self.load(PART)
        self.do("run", "G0 X1.5", "run", answers=("yes",))
        self.assertEqual(self.do("runs"), [RECORD.read_text().rstrip("\n")])
        self.assertEqual(self.lines(), [
            f"loaded 48 bytes, mark {crc32(PART.encode()):08x}: part.ngc", "began part.ngc", "tool 2 is in",
            "stopped before line 5", "went on in line 5", "ended, through, after 0:NN, 1 stop"])

    def test_tool_in(self) -> None:
        """A run that begins with a tool in the spindle says which, and one that lasts a minute says how long."""
        self.begin_with_tools()
        self.load(PART)
        self.do("T1 M6", "run")
        with mock.patch("ngc_tools.operator.runs.time") as clock:
            clock.time.return_value = time.time() + 75
            self.do("run")
        self.do("run")
        self.assertEqual([re.sub("after 1:1[5-9]", "after 1:1N", line) for line in self.lines()[1:]], [
            "began part.ngc", "tool 1 is in", "tool 2 is in", "stopped before line 5", "went on in line 5",
            "ended, through, after 1:1N, 1 stop", "began part.ngc", "tool 2 is in", "stopped before line 5"])

    def test_held(self) -> None:
        """Holds are counted; a line of one's own is none of the program's; another program gives the first one up."""
        self.begin(RampLink())
        self.load("G21 G90 G17 G54 G94 G49\nG1 X1 F6000\nX2\nM2\n")
        self.hold_after(6)
        self.do("run")
        self.hold_after(0)
        self.do("release", "run", "G0 X0")
        lines = self.lines()
        self.assertEqual(lines[1], "began part.ngc")
        self.assertRegex(lines[2], "^held in line [123]$")
        self.assertRegex(lines[3], "^went on in line [123]$")
        self.assertEqual(lines[4:], ["ended, through, after 0:NN, 1 hold"])
        self.do("rewind")
        self.assertEqual(self.lines(), lines)

    def test_tools(self) -> None:
        """A tool that is in already isn't told again, and one that is taken out is."""
        self.begin_with_tools()
        self.load("G21 G90\nT2 M6\nM0\nT2 M6\nM0\nT0 M6\nM0\nT2 M6\nM2\n")
        self.do("run", "run", "run", "run")
        self.assertEqual([line for line in self.lines() if line.startswith("tool")],
                         ["tool 2 is in", "tool out", "tool 2 is in"])

    def test_refused(self) -> None:
        """A line that is refused is told, and is no hold; what is given up says so far."""
        self.begin_with_tools()
        self.load("G21 G90\nM0\nG0 X999.5\nM2\n")
        self.do("run", "G10 L2 P1 X5", "run", answers=("yes",))
        self.assertEqual(self.lines()[1:], ["began part.ngc", "stopped before line 3", "went on in line 3",
                                            "refused at line 3"])
        self.load(PART)
        self.assertEqual(self.lines()[5], "given up, after 0:NN, 1 stop")

    def test_begun_within(self) -> None:
        """A run of which the record has no beginning begins with its line; one that broke off at a stop didn't break
        off."""
        self.begin_with_tools()
        self.load(PART)
        self.do("run")
        self.cut()
        before = RECORD.read_bytes()
        self.begin(FileLink("1 0 0"))
        self.assertEqual(RECORD.read_bytes(), before)
        self.cut()
        RECORD.unlink()
        self.begin(FileLink("1 0 0"))
        self.do("run")
        self.assertEqual(self.lines(), ["began the stored program in line 5", "tool 2 is in",
                                        "ended, through, after 0:NN"])

    def test_from_line(self) -> None:
        """The rest of a program, and the rest of that, have its name, and its last run is that of their line."""
        self.begin_with_tools()
        self.load(PART)
        for first in (5, 6):
            text = f"(ngc: the way to line {first}, tool 0)\nG0 X1\n(ngc: line {first})\nG0 X2\nM2\n"
            self.assertTrue(self.operator.load(f"the program from line {first} on", text.encode()))
        self.assertTrue(self.operator.runs.goes())
        self.assertEqual([line.partition(": ")[2] for line in self.lines()[:3]],
                         ["part.ngc", "part.ngc, from line 5", "part.ngc, from line 6"])
        self.assertEqual(list(last_runs(read_lines(RECORD))), ["part.ngc"])

    def test_single(self) -> None:
        """With single block it is one run, which ends with the program's last line."""
        self.begin(FileLink())
        for text, runs in (("G21 G90\nG1 X1 F600\nM2\n", 2), ("M3 S100\nG1 X0 F600\nM30\n", 3)):
            self.load(text)
            self.do("single on", *["run"] * runs)
            self.assertEqual((self.status().does, self.status().place), ("idle", 0))
            self.assertEqual(self.lines()[-2:], ["began part.ngc", "ended, through, after 0:NN"])
        self.assertEqual(self.operator.runs.ends, 2)

    def test_given_up(self) -> None:
        """A program that is loaded amid another one gives that up; it is left as the session ends."""
        self.begin_with_tools()
        self.load(PART)
        self.do("run", "quit")
        self.assertEqual(self.lines()[-1], "left in line 5: the session ended")
        self.end()
        self.begin(FileLink("1 0 0"))
        self.load("G21\nM2\n")
        self.assertEqual([line.partition(",")[0] for line in self.lines()[-2:]], ["given up", "loaded 7 bytes"])

    def test_power_lost(self) -> None:
        """A run that nobody ended broke off; it goes on by the same name, and its end counts the loss."""
        self.begin_with_tools()
        self.load(PART.replace("M2", "M0\nG0 X3\nM2"))
        self.do("run")
        with mock.patch.object(type(self.operator.runs), "rests"):  # power is lost before that
            self.do("run")
        before = RECORD.read_bytes()
        self.cut()
        self.begin(FileLink("2 0 0"))
        self.assertTrue(RECORD.read_bytes().startswith(before))
        self.assertEqual(self.operator.runs.run.name, "part.ngc")
        self.do("run")
        self.assertEqual(self.lines()[-4:], [
            "broke off in line 7: power was lost, or the session ended amid it", "went on in line 7", "tool 2 is in",
            "ended, through, after 0:NN, 1 stop, 1 loss of power"])

    def test_torn(self) -> None:
        """A last line that was torn stays as it is, is said, and counts for nothing; the next one stands by itself."""
        self.begin_with_tools()
        self.load(PART)
        self.do("run")
        self.cut()
        whole = RECORD.read_bytes()
        for cut in range(1, 60):
            with self.subTest(cut):
                RECORD.write_bytes(whole[:-cut])
                lines = read_lines(RECORD)
                is_torn = not whole[:-cut].endswith(b"\n")
                self.assertEqual(lines[-1].endswith(" (torn)"), is_torn)
                self.assertEqual(sum(RunEvent.read(line) is not None for line in lines), len(lines) - is_torn)
        RECORD.write_bytes(whole[:-9])
        self.begin(FileLink("1 0 0"))
        self.assertTrue(any("its last line was torn, and doesn't count: 20" in one for one in self.begun), self.begun)
        text = RECORD.read_bytes()
        self.assertTrue(text.startswith(whole[:-9] + b" (torn)\n"), text)
        self.assertTrue(text.endswith(b"broke off in line 5: power was lost, or the session ended amid it\n"))

    def test_synced(self) -> None:
        """Each line is on the disk before what comes next, and the new file's name is too."""
        synced, folders, sync = [], [], os.fdatasync

        def syncs(file: int) -> None:
            """Notes what it has."""
            sync(file)
            synced.append(RECORD.read_text())

        self.begin_with_tools()
        with mock.patch.object(os, "fdatasync", syncs), mock.patch.object(
                os, "fsync", lambda file: folders.append(os.readlink(f"/proc/self/fd/{file}"))):
            self.load(PART)
            self.do("run")
        lines = RECORD.read_text().splitlines(True)
        self.assertEqual([text for text in synced if text], ["".join(lines[:end]) for end in range(1, len(lines) + 1)])
        self.assertIn(os.getcwd(), folders)

    def test_long(self) -> None:
        """Of a long record its end is read: a line that this begins within is none. Its last 20 lines are shown."""
        line = "2026-01-02 03:05:00 +0000 began a.ngc"
        lines = [f"{line}{number:05d}" for number in range(30_000)]
        RECORD.write_text("\n".join(lines) + "\n")
        found = read_lines(RECORD)
        self.assertEqual((found[-1], set(map(len, found)), found), (lines[-1], {len(line) + 5}, lines[-len(found):]))
        self.assertTrue(1 << 20 >= len("\n".join(found)) > (1 << 20) - 99)
        self.begin()
        self.assertEqual(self.do("runs")[0].split("\n")[-20:-1], lines[-19:])
        self.assertEqual(len(self.do("runs")[0].split("\n")), 20)

    def test_not_kept(self) -> None:
        """A record that can't be written is said once, and the program runs; no link is followed."""
        Path("elsewhere").write_text("")
        RECORD.symlink_to("elsewhere")
        self.begin_with_tools()
        self.load(PART)
        self.assertIn("the record of runs isn't kept", "\n".join(text for _, text in self.face.said))
        self.do("run")
        self.assertEqual((self.status().does, Path("elsewhere").read_text()), ("stopped", ""))

    def test_last_runs(self) -> None:
        """Of each program how its last run ended; a name with odd characters is one line."""
        os.environ["TZ"] = "UTC"
        said = ["2026-01-02 03:04:05 +0000 loaded 9 bytes, mark 00000001: a.ngc",
                "2026-01-02 03:05:00 +0000 began a.ngc", "2026-01-02 03:06:00 +0000 ended, through, after 1:00",
                "2026-01-02 04:00:00 +0000 loaded 9 bytes, mark 00000002: b.ngc", "nonsense",
                "2026-01-02 04:01:00 +0000 began b.ngc", "2026-13-02 04:01:00 +0000 ended",
                "2026-01-02 04:01:01 +0000 tool 2 is in", "2026-01-02 04:02:0 (torn)"]
        found = {name: what[17:] for name, what in last_runs(said).items()}
        self.assertEqual(found, {"a.ngc": "ended, through, after 1:00", "b.ngc": "began b.ngc"})
        run = RecordedRun()
        for line in said[:3]:
            run = run.after(RunEvent.read(line))
        self.assertEqual((run.name, run.is_open), ("a.ngc", False))
        self.begin(FileLink())
        self.operator.load("odd\nname\x1b[31m.ngc", b"M2\n")
        self.assertEqual(self.lines()[-1].partition(": ")[2], r"odd\nname\x1b[31m.ngc")


if __name__ == "__main__":
    unittest.main()
