"""The device, by the images of examples/ and of docs/DEVICE.md: what is expected is what stands on that page."""
import fcntl
import re
import shutil
import struct
import subprocess
import sys
import unittest
from pathlib import Path

sys.path.insert(0, str(Path(__file__).resolve().parent))

from session_support import TOOLS, InFolder, ngc

from ngc_tools.formats.device import LARGE_SIZE, LOG_END, SECTOR, SIZE, Device, Held, NoDevice, copied

ROOT = TOOLS.parent
DATA = ROOT / "crates" / "ngc_cases" / "data"


def image_of(rows: str) -> bytes:
    """A device of rows of a sector, a place in it, and the bytes there."""
    image = bytearray(SIZE)
    for line in rows.splitlines():
        sector, place, digits = line.split(None, 2)
        content = bytes.fromhex(digits)
        start = SECTOR * int(sector) + int(place)
        image[start:start + len(content)] = content
    return bytes(image)


def stored(name: str) -> bytes:
    """A device of the gate's data."""
    return image_of((DATA / name).read_text())


def page(title: str) -> str:
    """A chapter of docs/DEVICE.md."""
    return (ROOT / "docs" / "DEVICE.md").read_text().partition(f"## {title}\n")[2].partition("\n## ")[0]


def worked(title: str) -> bytes:
    """A device that docs/DEVICE.md works out."""
    rows = re.findall(r"^ {3,}([0-9]+ +[0-9]+)   ((?:[0-9a-f]{2} )*[0-9a-f]{2})   ", page(title), re.MULTILINE)
    return image_of("\n".join(" ".join(row) for row in rows))


class Devices(unittest.TestCase):
    """What images stand for."""

    def test_each_field(self) -> None:
        """A device each of whose fields differs from a fresh one's, in both formats."""
        for form, tools in ((1, []), (2, [5000, 0, 10**9])):
            device = Device(stored("examples/device.hex" if form == 1 else "examples/device2.hex"))
            state = device.state
            self.assertEqual((device.format, device.epoch, device.header.area), (form, 3, 1))
            self.assertEqual((device.program, device.tools_nm, device.damage), (b"G0 X0.002\nM2\n", tools, []))
            self.assertEqual((state.entries, state.place), (1, 10))
            self.assertEqual(state.point_nm, (1_000_000, -2_000_000, 9_999_999_999_999))
            self.assertEqual((state.feed_nm_per_min, state.speed), (250_000_000, 1_000_500_000))
            self.assertEqual((state.g92_nm, state.origin_nm), ((-2, 3, 5), (10_000_000, 0, -1)))
            self.assertEqual((state.tool_length_nm, state.kept_rzpq), (50_000_000, (7, 0, 500_000, 0)))
            self.assertEqual((state.motion, state.plane, state.distance, state.feed_mode), (1, 18, 91, 93))
            self.assertEqual((state.unit, state.retract, state.system, state.path_mode), (20, 99, 2, 0))
            self.assertEqual((state.spindle, state.mist, state.flood, state.overrides), (1, 1, 1, 0))
            self.assertEqual((state.point_known, state.kept, device.selected, device.slot), (0, 5, 3, 64))
            self.assertEqual((state.half, state.opened, state.half_known, state.segment), (1, 0, 1, 2))
            self.assertEqual((state.half_point_nm, state.half_text), ((4, 5, -6), b"G81 X1 R2 L3"))
            changed = {index: value for index, value in device.parameters.items() if value}
            self.assertEqual(changed, {1: 5_000_000, 5220: 2_000_000, 5399: -1})
            self.assertEqual((len(device.records), device.end), (0, 686))

    def test_worked_log(self) -> None:
        """A record of two parts, and one of an open segment; without each of their sectors."""
        image = worked("A worked log")
        device = Device(image)
        self.assertEqual((device.format, device.epoch, len(device.records), device.end), (1, 2, 2, 689))
        self.assertEqual((device.state.entries, device.parameters[1]), (1, 5_000_000))
        self.assertEqual((device.state.half, device.state.opened, device.state.half_text), (2, 1, b"G0 X0.002"))
        for lost, records, torn in ((688, 1, []), (687, 0, [686, 688]), (686, 0, [687, 688])):
            left = Device(image[:SECTOR * lost] + bytes(SECTOR) + image[SECTOR * (lost + 1):])
            self.assertEqual((len(left.records), left.torn), (records, torn))
        self.assertEqual([len(Device(device.before(record)).records) for record in (0, 1, 2)], [0, 1, 2])

    def test_worked_format_2(self) -> None:
        """Slots of a snapshot and of a record."""
        image = worked("A worked device of format 2")
        device = Device(image)
        self.assertEqual((device.format, device.epoch, len(device.records)), (2, 3, 2))
        self.assertEqual((device.state.entries, device.state.tool_length_nm), (3, 5000))
        self.assertEqual(device.tools_nm, [50_000_000, 5000])
        where = SECTOR * 686 + 488
        self.assertEqual(Device(image[:where] + b"\1\0" + image[where + 2:]).tools_nm, [5000])
        damaged = Device(image[:where] + b"\3\0" + image[where + 2:])
        self.assertEqual(damaged.damage, ["sector 686, record 0: slot 3 5000"])

    def test_damage(self) -> None:
        """Fields out of their range."""
        image = stored("examples/device2.hex")
        for sector, place, content, said in (
                (88, 152, b"\3", "sector 88: spindle 3"),
                (88, 456, b"\x81\0", "sector 88: number of slots 129"),
                (88, 158, b"\x81\0", "sector 88: selected slot 129"),
                (88, 8, b"\x0e", "sector 88: place 14 of 13 bytes"),
                (88, 163, b"\1", "sector 88: half-done block 1, what of it is open 1, its point known 1"),
                (88, 166, b"\1\1", "sector 88: bytes of its text 257"),
                (1708, 16, struct.pack("<q", 10**9 + 1), "sector 1708: slot 3 1000000001"),
                (89, 0, struct.pack("<q", 10**13), "sector 89: #1 10000000000000")):
            start = SECTOR * sector + place
            device = Device(image[:start] + content + image[start + len(content):])
            self.assertEqual(device.damage, [said])

    def test_damaged_change(self) -> None:
        """A record's change of a parameter that isn't there, or of a value beyond its range; the others count."""
        image = worked("A worked log")
        great = struct.pack("<q", 10**13)
        for place, content, said in ((32, b"\x18\x15", "#5400 5000000"), (34, great, "#1 10000000000000")):
            start = SECTOR * 687 + place
            device = Device(image[:start] + content + image[start + len(content):])
            self.assertEqual((device.damage, device.parameters[1]), ([f"sector 687, record 0: change 0, {said}"], 0))

    def test_no_device(self) -> None:
        """Too short, or without a header; without the header in force the other one counts."""
        image = stored("examples/device2.hex")
        with self.assertRaisesRegex(NoDevice, "875,519 bytes"):
            Device(image[:-1])
        with self.assertRaisesRegex(NoDevice, "isn't formatted"):
            Device(bytes(SIZE))
        older = Device(image).without_header()
        self.assertEqual(Device(older or b"").epoch, 2)
        self.assertIsNone(Device(older or b"").without_header())

    def test_two_sectors_of_tools(self) -> None:
        """128 slots, and the slot after the last one; lengths past 64 stand in the tool area's second sector."""
        image = bytearray(worked("A worked device of format 2"))
        image[SECTOR * 88 + 456:SECTOR * 88 + 458] = b"\x7f\0"
        struct.pack_into("<q", image, SECTOR * 1709, 65)
        struct.pack_into("<q", image, SECTOR * 1709 + 496, 127)
        struct.pack_into("<Hxxxxxxq", image, SECTOR * 686 + 488, 128, 10**9)
        device = Device(bytes(image))
        self.assertEqual((device.damage, len(device.tools_nm)), ([], 128))
        self.assertEqual((device.tools_nm[64], device.tools_nm[126:]), (65, [127, 10**9]))
        struct.pack_into("<H", image, SECTOR * 686 + 488, 129)
        self.assertEqual(Device(bytes(image)).damage, ["sector 686, record 0: slot 129 1000000000"])
        struct.pack_into("<q", image, SECTOR * 1708 + 504, -1)
        struct.pack_into("<q", image, SECTOR * 1709, 10**9 + 1)
        self.assertEqual(Device(bytes(image)).damage[:2],
                         ["sector 1708: slot 64 -1", "sector 1709: slot 65 1000000001"])

    def test_program_areas(self) -> None:
        """Areas 2 and 3 hold up to 1,048,576 bytes, on a large device alone; areas 0 and 1 131,072 on any."""
        small = bytearray(image_of((DATA / "examples/device2.hex").read_text()))
        large = bytearray(LARGE_SIZE)
        large[:SIZE] = small
        for place, text in ((174, b"0"), (430, b"1"), (1710, b"2"), (3758, b"3")):
            large[SECTOR * place:SECTOR * place + 100] = 100 * text
        for area, length, on_small, on_large in (
                (0, 131_072, 3, 3), (0, 131_073, 2, 2), (1, 131_072, 3, 3), (1, 131_073, 2, 2),
                (2, 131_073, 2, 3), (2, 1_048_576, 2, 3), (2, 1_048_577, 2, 2),
                (3, 100, 2, 3), (3, 1_048_576, 2, 3), (3, 1_048_577, 2, 2), (4, 0, 2, 2)):
            for image, epoch in ((small, on_small), (large, on_large)):
                struct.pack_into("<QQ", image, SECTOR + 24, area, length)
                with self.subTest(area=area, length=length, size=len(image)):
                    device = Device(bytes(image))
                    self.assertEqual((device.is_large, device.epoch), (len(image) == LARGE_SIZE, epoch))
                    if epoch == 3 and image is large:
                        self.assertEqual(len(device.program), length)
                        self.assertEqual(device.program[:100], 100 * str(area).encode())
        self.assertFalse(Device(bytes(large[:-1])).is_large)

    def test_full_log(self) -> None:
        """A log of format 1 ends after sector 1709, under format 2 before the tool areas."""
        image = stored("format1/full_log.hex")
        device = Device(image)
        self.assertEqual((len(device.records), device.end, device.state.entries), (1023, LOG_END[1], 1024))
        self.assertEqual(device.before(1023), image)
        header = SECTOR + 8
        other = Device(image[:header] + b"\2" + image[header + 1:])
        self.assertEqual((len(other.records), other.end, other.state.entries), (1020, 1706, 1021))


class Script(InFolder):
    """`examples/read_device.py`, which prints what a device stands for."""

    def read_device(self, *words: str, script: Path = ROOT / "examples" / "read_device.py") -> tuple[int, str, str]:
        """Runs it: the exit status and what it writes."""
        done = subprocess.run([sys.executable, script, *words], capture_output=True, text=True)
        return done.returncode, done.stdout, done.stderr

    def test_each_field(self) -> None:
        """The devices of examples/, in both formats."""
        for name in ("device", "device2"):
            Path("mill.dev").write_bytes(stored(f"examples/{name}.hex"))
            printed = (DATA / "examples" / f"{name}.txt").read_text()
            self.assertEqual(self.read_device("mill.dev"), (0, printed, ""))

    def test_worked(self) -> None:
        """What docs/DEVICE.md prints of the devices that it works out."""
        for title in ("A worked log", "A worked device of format 2"):
            Path("mill.dev").write_bytes(worked(title))
            status, printed, _ = self.read_device("mill.dev")
            wanted = re.findall(r"^    ([a-z#][^:\n]*: .*)$", page(title), re.MULTILINE)
            self.assertEqual((status, len(wanted) > 6, set(wanted) - set(printed.splitlines())), (0, True, set()))

    def test_refused(self) -> None:
        """No device, a damaged one, no file, other words, and the script without the package beside it."""
        image = stored("examples/device2.hex")
        Path("damaged.dev").write_bytes(image[:512 * 88 + 152] + b"\3" + image[512 * 88 + 153:])
        status, printed, said = self.read_device("damaged.dev")
        self.assertEqual((status, said), (1, "ngc-device: damaged.dev: damaged (J3): sector 88: spindle 3\n"))
        self.assertIn("spindle: 3\n", printed)
        Path("short.dev").write_bytes(image[:-1])
        self.assertEqual(self.read_device("short.dev"), (
            1, "", "ngc-device: short.dev: not a device (J2): 875,519 bytes, and a device has 875,520 or more\n"))
        self.assertEqual(self.read_device("none.dev"), (2, "", "ngc-device: none.dev: No such file or directory\n"))
        self.assertEqual(self.read_device()[0], 2)
        alone = Path(shutil.copy(ROOT / "examples" / "read_device.py", self.folder))
        self.assertEqual(self.read_device("short.dev", script=alone), (
            2, "", f"{alone}: no folder above it has tools/ngc_tools/cli/device.py, by which it reads: leave it"
                   " in its checkout\n"))


class Large(InFolder):
    """Devices that `ngc` made large."""

    def test_loads(self) -> None:
        """Programs that `ngc run` stored, before a grow and after it."""
        self.device()
        texts = ["M2\n", "G0 X1\nM2\n".ljust(200_000, "\n"), "M2\n".ljust(1_048_576), "G0 X0.002\nM2\n"]
        for number, (text, area) in enumerate(zip(texts, (1, 2, 3, 2), strict=True), 1):
            self.assertEqual(self.run_ngc(f"load {len(text)}\n{text}"), [f"done {number}"])
            device = Device.read("mill.dev")
            self.assertEqual((device.is_large, device.header.area), (number > 1, area))
            self.assertEqual((device.program.decode(), device.damage), (text, []))
            self.assertEqual(Device(copied("mill.dev")).program, device.program)
            subprocess.run([ngc(), "grow", "mill.dev"], check=True)
        with open("mill.dev", "r+b") as file:
            file.truncate(LARGE_SIZE - 1)
        with self.assertRaisesRegex(NoDevice, "isn't formatted"):
            Device.read("mill.dev")
        self.assertEqual(self.run_ngc(""), ["refused J2 NotFormatted"])


class Copies(InFolder):
    """A copy is made of a device that nobody holds."""

    def test_held(self) -> None:
        """A session's lock is heeded."""
        self.device()
        self.assertEqual(Device(copied("mill.dev")).epoch, 1)
        with open("mill.dev", "rb") as file:
            fcntl.flock(file, fcntl.LOCK_EX | fcntl.LOCK_NB)
            with self.assertRaises(Held):
                copied("mill.dev")
        with self.assertRaises(FileNotFoundError):
            copied("none.dev")


if __name__ == "__main__":
    unittest.main()
