"""What a loss of power leaves of files, by what `power_disk.c` told of each call."""
import random
import struct
from dataclasses import dataclass
from pathlib import Path

FILES = ("mill.dev", "out", "position")
SECTOR = 512

ENTRY, HEAD = struct.Struct("=IIIIqqQQ"), struct.Struct("=QQQIIII64i")
ALIGNED = 8  # bytes: at a multiple of them each entry begins
WRITE, SYNC, CUT, PUNCH = range(4)
LOG_BYTES = 1 << 26
SPARED = 2**64 - 1


@dataclass(slots=True)
class Call:
    """A call that changed a file, or synced it: when it began and ended, in ns, and whether what it wrote is lasting.
    One that didn't end has no end."""

    op: int
    at: int
    data: bytes
    length: int
    begun: int
    ended: int
    failed: bool
    is_lasting: bool = False


def read_log(path: Path) -> list[list[Call]]:
    """The calls for each file, in order. Of a process that was killed as it began an entry all of that is zeros."""
    calls: list[list[Call]] = [[] for _ in FILES]
    with path.open("rb") as file:
        end, = struct.unpack("=Q", file.read(8))
        file.seek(0)
        whole = file.read(end)
    place = HEAD.size
    while place + ENTRY.size <= len(whole):
        size, state, which, op, at, length, begun, ended = ENTRY.unpack_from(whole, place)
        if size == 0:
            place += ALIGNED
            continue
        data = whole[place + ENTRY.size:place + ENTRY.size + length] if op == WRITE and state != 3 else b""
        if state and which < len(FILES):
            calls[which].append(Call(op, at, data, length, begun, ended, state == 3))
        place += size
    for each in calls:
        mark_lasting(each)
    return calls


def mark_lasting(calls: list[Call]) -> None:
    """Marks what a sync made lasting. What a sync that failed was to write isn't, whatever comes after it."""
    waiting: list[Call] = []
    for call in calls:
        if call.op == SYNC and call.ended:
            for each in waiting:
                each.is_lasting = not call.failed and 0 < each.ended <= call.begun
            waiting = [each for each in waiting if not 0 < each.ended <= call.begun]
        elif call.op != SYNC and not call.failed:
            waiting.append(call)


class Image:
    """A file's bytes, to which calls are applied."""

    def __init__(self, content: bytes) -> None:
        self.content = bytearray(content)

    def apply(self, call: Call, begin: int = 0, end: int | None = None) -> None:
        """All of a call, or these bytes of it."""
        if call.op == CUT:
            self._lengthen(call.at)
            del self.content[call.at:]
        elif call.op == PUNCH:
            self.content[call.at:call.at + call.length] = bytes(
                min(call.length, max(0, len(self.content) - call.at)))
        elif call.op == WRITE:
            data = call.data[begin:end]
            self._lengthen(call.at + begin)
            self.content[call.at + begin:call.at + begin + len(data)] = data

    def _lengthen(self, size: int) -> None:
        self.content += bytes(max(0, size - len(self.content)))


KEEPS = ("all", "none", "first", "torn", "any", "hole")


def left_of(before: bytes, calls: list[Call], keeps: str, chance: random.Random, is_torn: bool) -> bytes:
    """What is left of a file: what was lasting, and of the rest all, none, the first calls, these with a part of the
    next one, any sectors, or the last without some before it."""
    image = Image(before)
    open_calls = [call for call in calls if call.op != SYNC and not call.failed and not call.is_lasting]
    kept = chance.randint(0, len(open_calls)) if keeps in ("first", "torn") else len(open_calls)
    for call in calls:
        if call.op == SYNC or call.failed:
            continue
        if call.is_lasting or keeps == "all":
            image.apply(call)
        elif keeps in ("first", "torn") and kept > 0:
            kept -= 1
            part = chance.randint(0, len(call.data)) if keeps == "torn" and is_torn and kept == 0 else None
            image.apply(call, 0, part)
        elif keeps == "any":
            apply_sectors(image, call, chance)
        elif keeps == "hole" and (chance.random() < 0.5 or call is open_calls[-1]):
            image.apply(call)
    return bytes(image.content)


def apply_sectors(image: Image, call: Call, chance: random.Random) -> None:
    """Any sectors of a call; of one that writes none all of it, or nothing."""
    if call.op != WRITE:
        if chance.random() < 0.5:
            image.apply(call)
        return
    begin = 0
    while begin < len(call.data):
        end = min(len(call.data), begin + SECTOR - (call.at + begin) % SECTOR)
        if chance.random() < 0.5:
            image.apply(call, begin, end)
        begin = end
