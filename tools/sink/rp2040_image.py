#!/usr/bin/env python3
"""Makes of a linked firmware for an RP2040 what the chip takes: `rp2040_image.py ELF UF2`.

In the ELF it puts the checksum of the boot block, without which the chip's ROM doesn't start it (RP2040's datasheet,
"Boot sequence"). UF2 is the file that is copied to the drive which a board shows with BOOTSEL held (Microsoft's "USB
Flashing Format"). Where the ELF isn't such a firmware it says so in a line, with status 1, and writes nothing."""
import struct
import sys
from collections.abc import Iterator
from pathlib import Path

FLASH, FLASH_BYTES = 0x10000000, 2 << 20
BOOT_BYTES = 252
PAGE = 256
RP2040_FAMILY = 0xe48bff56
HAS_FAMILY = 0x2000
PT_LOAD = 1


def crc32(data: bytes) -> int:
    """The CRC-32 of the chip's ROM: of 0x04c11db7, from all ones, each byte from its high bit on, as it is."""
    crc = 0xffffffff
    for byte in data:
        crc ^= byte << 24
        for _ in range(8):
            crc = (crc << 1 ^ 0x04c11db7 if crc >> 31 else crc << 1) & 0xffffffff
    return crc


def parts(elf: bytes) -> Iterator[tuple[int, int, int]]:
    """What is loaded: where it stands in the file, where in the flash, how many bytes."""
    if elf[:6] != b"\x7fELF\x01\x01":
        raise ValueError("not an ELF of 32 bits")
    head, = struct.unpack_from("<I", elf, 28)
    size, count = struct.unpack_from("<HH", elf, 42)
    for at in range(head, head + size * count, size):
        kind, offset, _, address, in_file = struct.unpack_from("<5I", elf, at)
        if kind == PT_LOAD and in_file:
            if not FLASH <= address <= FLASH + FLASH_BYTES - in_file:
                raise ValueError(f"{in_file} bytes at {address:#x}, which isn't the flash")
            yield offset, address, in_file


def checked(elf: bytes) -> bytes:
    """It with the checksum of its boot block."""
    offset = next((offset for offset, address, size in parts(elf) if address == FLASH and size >= PAGE), None)
    if offset is None:
        raise ValueError("no boot block at the flash's begin")
    crc = crc32(elf[offset:offset + BOOT_BYTES])
    return elf[:offset + BOOT_BYTES] + struct.pack("<I", crc) + elf[offset + PAGE:]


def pages(elf: bytes) -> dict[int, bytes]:
    """The pages of the flash that it fills, by their addresses; what it leaves of them is as erased."""
    found: dict[int, bytearray] = {}
    for offset, address, size in parts(elf):
        for at in range(size):
            page, within = divmod(address + at, PAGE)
            found.setdefault(page * PAGE, bytearray(b"\xff" * PAGE))[within] = elf[offset + at]
    return {address: bytes(page) for address, page in sorted(found.items())}


def uf2(filled: dict[int, bytes]) -> bytes:
    """A block of 512 bytes a page."""
    blocks = []
    for number, (address, page) in enumerate(filled.items()):
        head = struct.pack("<8I", 0x0a324655, 0x9e5d5157, HAS_FAMILY, address, PAGE, number, len(filled),
                           RP2040_FAMILY)
        blocks.append(head + page.ljust(476, b"\0") + struct.pack("<I", 0x0ab16f30))
    return b"".join(blocks)


def main(elf: str, to_uf2: str) -> int:
    """Makes both."""
    try:
        firmware = checked(Path(elf).read_bytes())
        Path(to_uf2).write_bytes(uf2(pages(firmware)))
        Path(elf).write_bytes(firmware)
    except (OSError, ValueError, struct.error) as why:
        print(f"rp2040_image.py: {elf}: {why}", file=sys.stderr)
        return 1
    return 0


if __name__ == "__main__":
    sys.exit(main(*sys.argv[1:]))
