"""The step sink's firmware on the emulated chip: the quick scenarios. All of them, and planted faults, are tried by
`python3 tests/chip_planted.py`."""
import os
import shutil
import struct
import subprocess
import sys
import tempfile
import time
import unittest
from pathlib import Path

sys.path.insert(0, str(Path(__file__).resolve().parent))

import chip_planted
import chip_scenarios
from chip_support import COMPILER, SINK, chip_model, elf_of, has_compiler, make_chip
from sink_frames import REST, begin_frame, steep, words_frame


FLASH = 0x08000000
EACH = (chip_scenarios.boot, chip_scenarios.worked_frame, chip_scenarios.still_directions, chip_scenarios.debounced,
        chip_scenarios.reset_amid, chip_scenarios.power, chip_scenarios.crystal)
QUICK = {"stm32f103": (*EACH, chip_scenarios.switches, chip_scenarios.pulled, chip_scenarios.input_stops,
                       chip_scenarios.hung), "stm32f411": EACH}
"""Some seven seconds of processor time."""


def loaded(elf: bytes) -> dict[int, int]:
    """The bytes of an ELF by the addresses at which a programmer writes them."""
    found: dict[int, int] = {}
    first, = struct.unpack_from("<I", elf, 28)
    size, count = struct.unpack_from("<HH", elf, 42)
    for at in range(first, first + size * count, size):
        kind, offset, _, place, length = struct.unpack_from("<5I", elf, at)
        found |= enumerate(elf[offset:offset + length], place) if kind == 1 else ()
    return found


def hexadecimal(text: str) -> dict[int, int]:
    """The bytes of a file of Intel's format, whose checksums hold, by their addresses."""
    found: dict[int, int] = {}
    base = 0
    for line in text.split():
        record = bytes.fromhex(line[1:])
        count, place, kind = struct.unpack_from(">BHB", record)
        assert line[0] == ":" and sum(record) % 256 == 0 and len(record) == count + 5, line
        if kind == 4:
            base = int.from_bytes(record[4:6], "big") << 16
        found |= enumerate(record[4:-1], base + place) if kind == 0 else ()
    return found


@unittest.skipUnless(has_compiler(), f"no {COMPILER} here: Debian's gcc-arm-none-eabi and libnewlib-arm-none-eabi")
class OnChip(unittest.TestCase):
    """The ELF as `make arm` builds it."""

    def test_scenarios(self) -> None:
        """Each does what docs/SINK.md says, at its pins and in its answers."""
        for board, scenarios in QUICK.items():
            for scenario in scenarios:
                with self.subTest(board, scenario=scenario.__name__):
                    scenario(elf_of(board))

    def test_planted(self) -> None:
        """Faults that were planted are shown: of a register, of the linker script, and of the program."""
        for name in ("APB1 at 72 MHz", "stack beyond the RAM", "directions of axes that stand"):
            with self.subTest(name):
                said = chip_planted.shown_by(chip_planted.FAULTS["stm32f103"][name])
                self.assertNotIn(said, ("", "the build refuses it"))

    def test_clock_stands(self) -> None:
        """Where a sender is late the clock of `serve` stands, though it says all the time that it is there: each word
        is made in its time."""
        child = subprocess.Popen([chip_model("stm32f103", "emulate-stm32f103"), elf_of("stm32f103"), "1"], text=True,
                                 stdin=subprocess.PIPE, stdout=subprocess.PIPE)
        self.addCleanup(child.communicate)
        line = os.open(child.stdout.readline().strip(), os.O_RDWR | os.O_NOCTTY)
        self.addCleanup(os.close, line)
        session = (1 << 16) + 1
        os.write(line, begin_frame(session - 1))
        begun = [steep(4000, 1)] * 96
        child.stdin.write("serve 20000\n")
        child.stdin.flush()
        for frame in (words_frame(session, 0, *begun[:48]), words_frame(session, 48, *begun[48:])):
            time.sleep(0.1)
            os.write(line, frame)
        for _ in range(100):
            time.sleep(0.005)
            os.write(line, words_frame(session, 96))
        os.write(line, words_frame(session, 96, *[steep(4000, 1)] * 40, (4000, 1 | REST)))
        time.sleep(0.3)
        said, _ = child.communicate("serve 0\nrun 800000 0\n")
        ticks = [int(words.split()[1]) for words in said.splitlines() if words.startswith("P")]
        self.assertEqual(len(ticks), 137)
        self.assertLessEqual(max(abs(after - at - 4000) for at, after in zip(ticks, ticks[1:])), 80)

    def test_line_is_full(self) -> None:
        """A sender that says more than the line carries by the clock of `serve` waits, as over a line that is one."""
        child = subprocess.Popen([chip_model("stm32f103", "emulate-stm32f103"), elf_of("stm32f103"), "1"], text=True,
                                 stdin=subprocess.PIPE, stdout=subprocess.PIPE)
        self.addCleanup(child.communicate)
        line = os.open(child.stdout.readline().strip(), os.O_RDWR | os.O_NOCTTY)
        self.addCleanup(os.close, line)
        child.stdin.write("serve 20000\n")
        child.stdin.flush()
        frame = words_frame(0, 0, *[steep(4000, 1)] * 48)
        for _ in range(100_000 // len(frame)):
            os.write(line, frame)
        child.communicate("serve 0\nrun 8000 0\n")
        self.assertEqual(child.returncode, 0)

    def test_images(self) -> None:
        """The files for programmers have the ELF's bytes, from where the chip or its bootloader begins."""
        for board, begins in (("stm32f103", FLASH), ("stm32f103_boot", FLASH + 0x2000), ("stm32f411", FLASH)):
            with self.subTest(board), tempfile.TemporaryDirectory() as folder:
                make_chip(SINK, Path(folder), board, "arm")
                wanted = loaded(Path(folder, f"{board}.elf").read_bytes())
                self.assertEqual(hexadecimal(Path(folder, f"{board}.hex").read_text()), wanted)
                self.assertEqual(dict(enumerate(Path(folder, f"{board}.bin").read_bytes(), begins)), wanted)
                stack, start = struct.unpack("<II", bytes(wanted[begins + at] for at in range(8)))
                self.assertEqual((min(wanted), stack >> 28, stack % 8, start % 2), (begins, 2, 0, 1))
                self.assertIn(start - 1, wanted)

    def test_no_chip(self) -> None:
        """What isn't an ELF for this chip is refused by name."""
        with tempfile.TemporaryDirectory() as folder:
            shutil.copy(SINK / "Makefile", Path(folder, "elf"))
            words = [chip_model("stm32f103", "emulate-stm32f103"), f"{folder}/elf", "1"]
            done = subprocess.run(words, capture_output=True, text=True)
        self.assertEqual((done.returncode, done.stdout), (2, ""))
        self.assertIn("emulate ELF BOOT", done.stderr)


if __name__ == "__main__":
    unittest.main()
