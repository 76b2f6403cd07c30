"""What was handed out before the device's log was full and begun anew is told by what was kept before the command."""
import os
import sys
import unittest
from dataclasses import dataclass, replace
from pathlib import Path

sys.path.insert(0, str(Path(__file__).resolve().parent))

from out_support import after
from session_support import InFolder, ngc

from ngc_tools.formats.before import Before, BeforeFile
from ngc_tools.formats.device import Device
from ngc_tools.formats.out import read_line
from ngc_tools.formats.out_note import OutNote
from ngc_tools.formats.position import Position
from ngc_tools.formats.settings import Settings
from ngc_tools.link.out_file import born_ns
from ngc_tools.ngc.carried import CannotTell
from ngc_tools.ngc.console import Console
from ngc_tools.ngc.handed_out import FileRecord, Finder, SegmentBeginning

THERE_AND_BACK = "G0 X0.001\nG0 X-0.001\n"


@dataclass(frozen=True)
class Told:
    """What is known after a loss of power: the device before a command and after it, and what OUT was noted to have."""

    before: Before
    note: OutNote
    device: Device


class LogBegunAnew(InFolder):
    """A log is begun anew amid what a command hands out, and OUT loses lines of before and behind that."""

    def setUp(self) -> None:
        super().setUp()
        self.begin_afresh()

    def begin_afresh(self) -> None:
        """A fresh device, and an OUT without a line."""
        self.device()
        Path("out").write_text("")

    def handed_out(self, setup: list[str], text: str, command: str, ticks: int, begins: int = -1) -> Told:
        """Does a command, behind others, with a program, for so many ticks. OUT's half-done segment begins behind its
        first `begins` bytes, at its end without a number."""
        console = Console(ngc(), "mill.dev", "first.toml", "out")
        self.addCleanup(console.kill)
        if text:
            self.assertTrue(console.load(text.encode()).startswith("done"))
        for each in setup:
            self.assertFalse(console.ask(each)[0].startswith("refused"), each)
        size, device = os.path.getsize("out"), Device.read("mill.dev")
        with open("out", "rb") as file:
            note = OutNote(os.fstat(file.fileno()).st_ino, born_ns(file.fileno()), device.epoch, len(device.records),
                           device.state.entries, size, size if begins < 0 else begins, 0, device.state.point_nm)
        BeforeFile("mill.dev").keep(device, command)
        self.assertFalse(console.ask(command)[0].startswith("refused"))
        for _ in range(ticks // 1000):
            if "stopped" in console.ask("tick 1000"):
                console.ask("continue")
        console.kill()
        now = Device.read("mill.dev")
        self.assertGreater(now.epoch, device.epoch)
        before = BeforeFile("mill.dev").read(now)
        assert before is not None
        return Told(before, note, now)

    def found(self, told: Told, whole: list[str], count: int) -> SegmentBeginning:
        """What is told where OUT has its first `count` lines, and all of them are carried out."""
        text = "".join(f"{line}\n" for line in whole[:count])
        with open("out", "r+") as file:
            file.truncate()
            file.write(text)
        at = after(Position(Settings.read("first.toml").step_nm), (read_line(line, 1) for line in whole[:count]))
        finder = Finder(ngc(), "first.toml", told.device.image, told.note, before=told.before)
        return finder.find("out", FileRecord(len(text), (at.steps[0], at.steps[1], at.steps[2])))

    def tells(self, told: Told, begins: int, *counts: int) -> None:
        """Of an OUT that lost all but so many lines the rest is told, up to line `begins`, where what is half-done
        begins."""
        whole = Path("out").read_text().splitlines()
        size = sum(len(line) + 1 for line in whole[:begins])
        for count in (*counts, len(whole)):
            found = self.found(told, whole, count)
            missing = "".join(f"{line}\n" for line in whole[count:begins])
            self.assertEqual((found.missing.decode(), found.size, found.is_told, found.is_off),
                             (missing, size, True, False), count)

    def test_program(self) -> None:
        """A program that is over; also after it went on behind stops and tool changes."""
        for within in ("", "M0\n", "T1 M6\nG43 H1\n"):
            with self.subTest(within=within):
                self.begin_afresh()
                text = f"G91\n{THERE_AND_BACK * 200}{within}{THERE_AND_BACK * 150}M2\n"
                told = self.handed_out(["tool 1 0.5"], text, "start", 9000)
                count = len(Path("out").read_text().splitlines())
                self.tells(told, count, 0, 299, 510)

    def test_half_done(self) -> None:
        """Power is lost within a line of 9,000 pulses."""
        told = self.handed_out([], f"G91\n{THERE_AND_BACK * 300}G0 X9\nM2\n", "start", 6000)
        self.assertEqual(told.device.state.half, 1)
        self.tells(told, 600, 3, 400, 599, 600, 700)

    def test_more_than_once(self) -> None:
        """It is begun anew twice within one piece."""
        told = self.handed_out([], f"G91\n{THERE_AND_BACK * 700}M2\n", "start", 9000)
        self.assertEqual(told.device.epoch, told.before.device.epoch + 2)
        self.tells(told, 1401, 17, 700, 1399)  # the last one is M2's switch

    def test_deleted(self) -> None:
        """Lines with a slash were left out."""
        told = self.handed_out(["delete on"], f"G91\n{'/G0 X0.5' + chr(10) + THERE_AND_BACK}"
                               f"{THERE_AND_BACK * 300}M2\n", "start", 9000)
        self.tells(told, 603, 0, 480)

    def test_typed(self) -> None:
        """A line of one's own: 400 holes, of three segments each."""
        told = self.handed_out(["mdi G91 F100", "tick 5"], "", "mdi G81 X0.001 Z-0.001 R0 L400", 9000)
        count = len(Path("out").read_text().splitlines())
        self.tells(told, count, 5, count // 2, count - 1)

    def test_resumed(self) -> None:
        """A block that was half-done is taken up, and the program goes on."""
        Path("program").write_text(f"G91\nG0 X0.005\n{THERE_AND_BACK * 300}M2\n")
        text = Path("program").read_text()
        self.run_ngc(f"load {len(text)}\n{text}start\ntick 7\nquit\n")
        self.assertEqual(Path("out").read_text(), "P 1 0 0 50\n" * 3)
        Path("out").write_text("")
        told = self.handed_out(["reference 0.000 0 0"], "", "resume", 9000, 0)
        count = len(Path("out").read_text().splitlines())
        self.tells(told, count, 0, 1, 5, 480)

    def test_others(self) -> None:
        """What was kept of another program, before another command or is cut off tells nothing."""
        lines = "".join(f"G1 X{0.001 - 0.002 * (line % 2):.3f} F{60 + line}\n" for line in range(600))
        told = self.handed_out([], f"G91\n{lines}M2\n", "start", 9000)
        whole = Path("out").read_text().splitlines()
        self.assertEqual(self.found(told, whole, 299).missing.count(b"\n"), 302)
        for before in (None, Before(told.before.device, "mdi G0 X0.005"), Before(told.device, "start")):
            with self.assertRaises(CannotTell):
                self.found(replace(told, before=before), whole, 299)
        kept = Path("mill.dev.before").read_bytes()
        for text in (kept[:-5], kept[:20], b"ngc before 1\n", b""):
            Path("mill.dev.before").write_bytes(text)
            self.assertIsNone(BeforeFile("mill.dev").read(told.device))
        Path("mill.dev.before").write_bytes(kept)
        self.run_ngc("load 3\nM2\nload 3\nM2\nquit\n")  # the first one is stored elsewhere
        self.assertIsNone(BeforeFile("mill.dev").read(Device.read("mill.dev")))


if __name__ == "__main__":
    unittest.main()
