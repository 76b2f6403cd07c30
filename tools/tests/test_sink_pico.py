"""The step sink's firmware for a Raspberry Pi Pico on the emulated RP2040: some scenarios. All of them are tried by
`python3 tests/chip_scenarios.py pico` and `python3 tests/pico_scenarios.py`, planted faults by
`python3 tests/pico_planted.py`."""
import sys
import unittest
from pathlib import Path

sys.path.insert(0, str(Path(__file__).resolve().parent))

import chip_scenarios as each_chip
import pico_planted
import pico_scenarios as of_pico
from chip_support import COMPILER, elf_of, has_compiler

QUICK = (each_chip.boot, each_chip.worked_frame, each_chip.still_directions, each_chip.switches, each_chip.pulled,
         each_chip.input_stops, of_pico.kept, of_pico.long_line, of_pico.bites, of_pico.instructions)
PLANTED = ("flash's clock by 2", "vectors stay in the flash", "instructions of a Cortex-M3")


@unittest.skipUnless(has_compiler(), f"no {COMPILER} here: Debian's gcc-arm-none-eabi and libnewlib-arm-none-eabi")
class OnPico(unittest.TestCase):
    """The ELF as `make arm BOARD=pico` builds it."""

    def test_scenarios(self) -> None:
        """Each does what docs/SINK.md says, at its pins and in its answers."""
        for scenario in QUICK:
            with self.subTest(scenario.__name__):
                scenario(elf_of("pico"))

    def test_planted(self) -> None:
        """Faults that were planted are shown: of the boot block, of the program, and of the core's instructions."""
        for name in PLANTED:
            with self.subTest(name):
                self.assertNotIn(pico_planted.shown_by(name), ("", "the build refuses it"))


if __name__ == "__main__":
    unittest.main()
