"""ngc-check-disk: what it writes, what it says of rates, and what it finds after power was lost."""
import os
import re
import shutil
import signal
import subprocess
import sys
import tempfile
import unittest
from pathlib import Path
from unittest.mock import patch

sys.path.insert(0, str(Path(__file__).resolve().parent))

from session_support import TOOLS, InFolder, told

from ngc_tools.cli.check_disk import main
from ngc_tools.disk import mounted as mounting
from ngc_tools.disk.mounted import Mounted, mounted
from ngc_tools.disk.records import NAME, SECTORS, NoRecords, Records, look, record


class Kept(InFolder):
    """What stands in the file once power is back, as disks may leave it."""

    def written(self, count: int) -> bytes:
        """A file in which so many records were written; its bytes."""
        records = Records(NAME)
        for _ in range(count):
            records.write()
        records.close()
        return Path(NAME).read_bytes()

    def sectors(self, data: bytes, changed: dict[int, bytes]) -> None:
        """The file with other sectors."""
        for sector, piece in changed.items():
            data = data[:512 * sector] + piece + data[512 * (sector + 1):]
        Path(NAME).write_bytes(data)

    def test_all_there(self) -> None:
        """Before the first round ends, at its end, and after it."""
        for count in (1, 7, SECTORS - 1, SECTORS, SECTORS + 1, 2 * SECTORS + 5):
            self.written(count)
            found = look(NAME, count)
            self.assertEqual((found.last, found.lost, found.torn), (count, [], []))
            self.assertEqual(look(NAME, max(1, count - 3)).lost, [])
            os.unlink(NAME)

    def test_lost(self) -> None:
        """The last ones, one in the midst, and one of the round before; each is named."""
        self.written(40)
        self.assertEqual(look(NAME, 43).lost, [41, 42, 43])
        os.unlink(NAME)
        data = self.written(SECTORS + 9)
        before = Path(NAME).read_bytes()[0:512]
        self.sectors(data, {6: record(int.from_bytes(before[8:16], "little"), 6)})
        self.assertEqual(look(NAME, SECTORS + 9).lost, [SECTORS + 6])
        self.assertEqual(told(main, ".", "--after-pull", str(SECTORS + 9))[0], 1)
        self.assertIn(f"LOST: 1 records that were synced aren't there: {SECTORS + 6}.",
                      told(main, ".", "--after-pull", str(SECTORS + 9))[2])

    def test_torn(self) -> None:
        """A sector that holds a half of a record and a half of the one before it, or nothing that is one."""
        data = self.written(SECTORS + 9)
        run = int.from_bytes(data[8:16], "little")
        self.sectors(data, {3: record(run, SECTORS + 3)[:256] + record(run, 3)[256:]})
        self.assertEqual((look(NAME, SECTORS + 9).torn, look(NAME, SECTORS + 9).lost), ([3], []))
        self.sectors(data, {1: bytes(512)})
        self.assertEqual(look(NAME, 5).torn, [1])
        self.sectors(data, {2: record(run, SECTORS + 4)})  # in another's place
        self.assertEqual(look(NAME, 5).torn, [2])
        self.sectors(data, {2: record(run + 1, SECTORS + 2)})  # of another run
        self.assertEqual(look(NAME, 5).torn, [2])
        status, _, error = told(main, ".", "--after-pull", "5")
        self.assertEqual(status, 1)
        self.assertIn("tears a write of 512 bytes", error)

    def test_each_byte_differs(self) -> None:
        """No part of a record could be taken for one of the round before."""
        for number in (1, 700, 300 * SECTORS + 1):
            one, next_one = record(5, number), record(5, number + SECTORS)
            self.assertEqual([place for place in range(24, 508) if one[place] == next_one[place]], [])

    def test_no_records(self) -> None:
        """Another file isn't looked at; one that isn't there is told of."""
        for data in (b"", bytes(512 * SECTORS), b"x" * 512):
            Path(NAME).write_bytes(data)
            self.assertRaises(NoRecords, look, NAME, 1)
        os.unlink(NAME)
        status, _, error = told(main, ".", "--after-pull", "1")
        self.assertEqual((status, error.count("\n")), (1, 1))
        self.assertIn("it isn't there", error)

    def test_one_that_is_there_stays(self) -> None:
        """Neither a measurement nor another run writes over it."""
        data = self.written(3)
        for words in ((".",), (".", "--until-pulled")):
            status, _, error = told(main, *words)
            self.assertEqual((status, Path(NAME).read_bytes()), (2, data))
            self.assertIn("it is there, of a run until the plug was pulled", error)


class Runs(InFolder):
    """The tool itself."""

    def test_measures(self) -> None:
        """Its figures are those of its syncs, and its file is gone. In memory nothing is kept, which is its status."""
        for folder, wanted in ((tempfile.mkdtemp(dir="/var/tmp"), 0), ("/dev/shm", 1)):
            if mounted(folder).kind in mounting.IN_MEMORY:
                wanted = 1
            status, said, error = told(main, folder, "--seconds", "1")
            self.assertEqual((status, bool(error)), (wanted, bool(wanted)), error)
            count, rate = re.search(r"^([\d,]+) syncs: ([\d,.]+) a second", said, re.MULTILINE).groups()
            blocks, = re.search(r"^blocks of one segment: ([\d,.]+) a second", said, re.MULTILINE).groups()
            number = [float(text.replace(",", "")) for text in (count, rate, blocks)]
            self.assertLess(abs(number[0] / number[1] - 1), 0.1)  # of one second
            self.assertLess(abs(number[1] / number[2] - 2), 0.05)  # two syncs each
            self.assertFalse(Path(folder, NAME).exists())
            if folder != "/dev/shm":
                os.rmdir(folder)

    @unittest.skipUnless(shutil.which("strace"), "no strace")
    def test_writes_as_ngc_does(self) -> None:
        """512 bytes at a multiple of 512, then an fdatasync, again and again, over a file that has its length."""
        words = ["strace", "-e", "trace=pwrite64,fdatasync,fsync", "-o", "calls", sys.executable,
                 TOOLS / "ngc-check-disk", ".", "--seconds", "1"]
        subprocess.run(words, capture_output=True, check=False)
        calls = re.findall(r"^(\w+)\(\d+(?:, .*, (\d+), (\d+))?\) += (\d+)$", Path("calls").read_text(),
                           re.MULTILINE)
        begun = next(place for place, call in enumerate(calls) if call[0] == "fdatasync") - 1
        self.assertEqual([call[0] for call in calls[:begun]], ["pwrite64"] * SECTORS + ["fsync"] * 2)
        pairs = list(zip(calls[begun::2], calls[begun + 1::2]))
        self.assertGreater(len(pairs), 100)
        for write, sync in pairs:
            self.assertEqual((write[0], write[1], int(write[2]) % 512, write[3], sync[0]),
                             ("pwrite64", "512", 0, "512", "fdatasync"))

    def test_power_is_lost(self) -> None:
        """What it says before it is killed is synced; a file without the last ones is found out."""
        child = self.start("ngc-check-disk", ".", "--until-pulled")
        said = []
        while len(said) < 6:
            said.append(child.stdout.readline().strip())
        child.send_signal(signal.SIGKILL)
        child.wait()
        last = int((said + child.stdout.read().split())[-1])
        self.assertEqual(told(main, ".", "--after-pull", str(last))[0], 0)
        number = look(NAME, last).last
        self.assertEqual(told(main, ".", "--after-pull", str(number + 2))[0], 1)

    def test_wrong_words(self) -> None:
        """Words that don't go together, and a folder that can't be written."""
        for words in ((".", "--until-pulled", "--after-pull", "3"), (".", "--seconds", "0"), (".", "--seconds", "601")):
            self.assertEqual(told(main, *words)[0], 2)
        self.assertEqual(told(main, "none")[0], 2)
        with patch("os.fdatasync", side_effect=OSError(5, "Input/output error")):
            status, _, error = told(main, ".")
        self.assertEqual((status, error), (2, f"ngc-check-disk: {NAME}: Input/output error\n"))
        self.assertFalse(Path(NAME).exists())


class Places(unittest.TestCase):
    """File systems by the lines of /proc/self/mountinfo."""

    def test_kinds(self) -> None:
        """Why a sync keeps nothing."""
        def warning(kind: str, *options: str) -> str:
            return Mounted(kind, "/dev/sda1", frozenset(options), "").warning()

        self.assertEqual((warning("ext4", "rw", "data=ordered"), warning("vfat", "rw")), ("", ""))
        self.assertIn("in memory", warning("tmpfs"))
        self.assertIn("another computer's", warning("nfs4"))
        self.assertIn("without barriers", warning("ext4", "rw", "nobarrier"))
        self.assertIn("without barriers", warning("ext4", "barrier=0"))

    def test_lines(self) -> None:
        """The line of the folder's device counts; blanks in paths are octal there."""
        number = os.stat(".").st_dev
        line = (f"36 35 {os.major(number)}:{os.minor(number)} / /a\\040b rw,noatime shared:1 - ext4 /dev/mmc\\0401"
                " rw,data=ordered\n")
        with patch.object(Path, "read_text", lambda path: "35 1 0:99 / / rw - tmpfs none rw\n" + line):
            found = mounted(".")
        self.assertEqual((found.kind, found.source), ("ext4", "/dev/mmc 1"))
        self.assertLessEqual({"rw", "noatime", "data=ordered"}, found.options)
        self.assertIn("ext4 (data=ordered) on /dev/mmc 1", found.said())


if __name__ == "__main__":
    unittest.main()
