"""What `make arm BOARD=pico` makes for a Raspberry Pi Pico: the boot block, as the chip's ROM looks at it, and the UF2
file, as the board's drive reads it: by the RP2040's datasheet and Microsoft's format, and by nothing of ours."""
import struct
import subprocess
import sys
import tempfile
import unittest
import zlib
from pathlib import Path

sys.path.insert(0, str(Path(__file__).resolve().parent))

from chip_support import COMPILER, SINK, chip_folder, has_compiler

FLASH, PAGE = 0x10000000, 256
RP2040 = 0xe48bff56


def turned(value: int, bits: int) -> int:
    """Its bits from the other end."""
    return int(f"{value:0{bits}b}"[::-1], 2)


def checksum(data: bytes) -> int:
    """The CRC-32 of the ROM by zlib's, which takes all bits from the other end and turns the sum round."""
    return turned(zlib.crc32(bytes(turned(byte, 8) for byte in data)) ^ 0xffffffff, 32)


def flash_of(uf2: bytes) -> dict[int, bytes]:
    """The pages of a UF2 file, as the ROM of an RP2040 takes them."""
    pages: dict[int, bytes] = {}
    assert uf2 and len(uf2) % 512 == 0, len(uf2)
    for number, at in enumerate(range(0, len(uf2), 512)):
        first, second, flags, address, size, block, blocks, family = struct.unpack_from("<8I", uf2, at)
        last, = struct.unpack_from("<I", uf2, at + 508)
        assert (first, second, last) == (0x0a324655, 0x9e5d5157, 0x0ab16f30), f"block {number} isn't one"
        assert flags == 0x2000 and family == RP2040, f"block {number} isn't for an RP2040"
        assert (block, blocks) == (number, len(uf2) // 512), f"block {number} says that it is {block} of {blocks}"
        assert size == PAGE and address % PAGE == 0 and address not in pages, f"block {number}: {address:#x}"
        assert FLASH <= address < FLASH + (2 << 20) - 8192, f"block {number} isn't below the log of boots"
        pages[address] = uf2[at + 32:at + 32 + size]
    return pages


def loaded(elf: Path) -> bytes:
    """What the ELF has for the flash, from its begin on, by the cross compiler's objcopy."""
    with tempfile.NamedTemporaryFile() as file:
        subprocess.run([COMPILER.replace("gcc", "objcopy"), "-O", "binary", elf, file.name], check=True)
        return Path(file.name).read_bytes()


def made(elf: bytes) -> tuple[int, str, bool]:
    """The status of rp2040_image.py for a file of these bytes, what it says, and whether it left all as it was."""
    with tempfile.TemporaryDirectory() as folder:
        file = Path(folder, "elf")
        file.write_bytes(elf)
        done = subprocess.run([sys.executable, SINK / "rp2040_image.py", file, Path(folder, "uf2")],
                              capture_output=True, text=True)
        return done.returncode, done.stderr, file.read_bytes() == elf and not Path(folder, "uf2").exists()


@unittest.skipUnless(has_compiler(), f"no {COMPILER} here: Debian's gcc-arm-none-eabi and libnewlib-arm-none-eabi")
class Image(unittest.TestCase):
    """The files of a Pico."""

    def test_checksum(self) -> None:
        """The CRC has the check value of the catalogues; the boot block's last four bytes are that of the others."""
        self.assertEqual(checksum(b"123456789"), 0x0376e6e7)
        block = loaded(chip_folder("pico") / "pico.elf")[:PAGE]
        self.assertEqual(struct.unpack("<I", block[252:])[0], checksum(block[:252]))

    def test_uf2(self) -> None:
        """The drive takes each block, and the flash has then what the ELF has; what is beside that is as erased."""
        pages = flash_of((chip_folder("pico") / "pico.uf2").read_bytes())
        wanted = loaded(chip_folder("pico") / "pico.elf")
        self.assertEqual(sorted(pages), [FLASH + at for at in range(0, len(wanted), PAGE)])
        self.assertEqual(b"".join(pages[at] for at in sorted(pages)),
                         wanted + b"\xff" * (-len(wanted) % PAGE))

    def test_refused(self) -> None:
        """What isn't such an ELF is refused in a line, and nothing is written: no ELF, one of another chip, a part."""
        elf = (chip_folder("pico") / "pico.elf").read_bytes()
        other = (chip_folder("stm32f103") / "stm32f103.elf").read_bytes()
        for bad in (b"", b"\x7fELF", elf[:60], other):
            with self.subTest(size=len(bad)):
                status, said, is_left = made(bad)
                self.assertEqual((status, said.count("\n"), is_left), (1, 1, True))
                self.assertTrue(said.startswith("rp2040_image.py: "), said)


if __name__ == "__main__":
    unittest.main()
