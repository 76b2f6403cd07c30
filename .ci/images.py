"""Images of devices, and what sectors of them hold, made by hand from docs/DEVICE.md."""
import struct
from collections.abc import Iterable
from dataclasses import dataclass

from mill import DEVICE, LARGE_DEVICE

SECTOR = 512
Sectors = Iterable[tuple[int, bytes]]
"""Numbers of sectors, and what begins there; the rest of the last sector of each is 0."""
_FRESH = struct.pack("<144x13B299x", 80, 17, 90, 94, 21, 98, 1, 2, 0, 0, 0, 1, 1)
ONE = struct.pack("<280xq", 1_000_000)
"""The sector of a snapshot with parameter 5220, which is 1."""
ONE_AT = 82
"""Its number in the snapshot."""
FIVE = struct.pack("<Hq", 1, 5_000_000)
"""A change: parameter 1 is 5."""
OPENED = "G43 H1 G0 X0.005"
"""The operator's line that is half done on a device of format 1. It uses the length of a tool, which only the settings
have there."""


def header(epoch: int, area: int = 0, length: int = 0, form: int = 2) -> bytes:
    return struct.pack("<8sI4xQQQ", b"RS274NGC", form, epoch, area, length)


def state(entries: int, half: bytes = b"") -> bytes:
    """The state field of a fresh controller after so many entries, with what it has from byte 162 on."""
    return (struct.pack("<Q", entries) + _FRESH[8:162] + half).ljust(len(_FRESH), b"\0")


def opened(line: bytes) -> bytes:
    """What a state field has of a line of the operator whose first segment is open."""
    return struct.pack("<BBxxH32x", 2, 1, len(line)) + line


def part(record: int, number: int, parts: int, changes: int, content: bytes) -> bytes:
    """A part of a record of epoch 2."""
    return struct.pack("<QQHHH10x", 2, record, number, parts, changes) + content


def put_sectors(image: bytearray, sectors: Sectors) -> None:
    for sector, content in sectors:
        size = SECTOR * max(1, -(-len(content) // SECTOR))
        image[SECTOR * sector:SECTOR * sector + size] = content.ljust(size, b"\0")


def image_of(sectors: Sectors, size: int = DEVICE) -> bytes:
    """An image of so many bytes with these sectors, and zeros in all others."""
    image = bytearray(size)
    put_sectors(image, sectors)
    return bytes(image)


NEW = image_of([(1, header(1)), (88, state(0)), (88 + ONE_AT, ONE)])
"""A formatted device."""
NEW_LARGE = NEW.ljust(LARGE_DEVICE, b"\0")
OLD_SECTORS = ((0, header(2, form=1)), (1, header(1, form=1)), (2, state(0)), (2 + ONE_AT, ONE), (88, state(0)),
               (88 + ONE_AT, ONE))
"""A device of format 1 without entries."""


def set_five(sector: int, record: int) -> Sectors:
    """A record of two parts, which sets parameter 1."""
    return ((sector, part(record, 0, 2, 1, state(record + 1))), (sector + 1, part(record, 1, 2, 1, FIVE)))


def image_of_format_1(size: int, blanks: int) -> bytes:
    """A device of format 1 under epoch 2, whose log has so many blank lines, then a line that sets parameter 1, and a
    line whose segment is open. With 1,021 blank lines the log is full."""
    records = [(686 + record, part(record, 0, 1, 0, state(record + 1))) for record in range(blanks)]
    last = part(blanks + 1, 0, 1, 0, state(blanks + 1, opened(OPENED.encode())))
    return image_of([*OLD_SECTORS, *records, *set_five(686 + blanks, blanks), (688 + blanks, last)], size)


PROGRAMS_FIRST = (174, 430, 1_710, 3_758)
"""The first sectors of the program areas of a large device, which take 131,072 or 1,048,576 bytes."""


def with_program(area: int, text: bytes) -> bytes:
    """A new large device with this program in an area. All else in the four areas is another text."""
    image = bytearray(NEW_LARGE)
    others = (174, b"y" * (512 * SECTOR)), (1_710, b"y" * (4_096 * SECTOR))
    put_sectors(image, [(1, header(1, area, len(text))), *others])
    begin = SECTOR * PROGRAMS_FIRST[area]
    image[begin:begin + len(text)] = text
    return bytes(image)


@dataclass(frozen=True)
class Replaced:
    """A program of so many bytes in an area of a large device, and the one that is loaded after it."""

    old_area: int
    old_bytes: int
    area: int
    bytes: int

    @property
    def old_text(self) -> bytes:
        """The old program, in which each line says its place."""
        return b"".join(b"G4 P0 (%07d)\n" % place for place in range(0, self.old_bytes, 16))[:self.old_bytes]


REPLACED = (Replaced(0, 131_072, 2, 1_048_576), Replaced(1, 13, 2, 131_073), Replaced(2, 1_048_576, 3, 13),
            Replaced(2, 131_073, 3, 1_048_576), Replaced(3, 1_048_576, 2, 1_048_576))
