"""What a device stands for, by docs/DEVICE.md: formats 1 and 2. It is read here, never written."""
import fcntl
import struct
from dataclasses import dataclass, field, fields, replace
from functools import cached_property, lru_cache
from itertools import islice
from pathlib import Path
from typing import Any

from ngc_tools.failure import Failure
from ngc_tools.files import naming, opened
from ngc_tools.formats.out import SLOTS, Switch

SECTOR = 512
SIZE = SECTOR * 1710  # bytes of the sectors that a device needs
LARGE_SIZE = SECTOR * 5806  # bytes from which on it is large
LOG_FIRST = 686
LOG_END = {1: 1710, 2: 1706}  # the sector after the log, by the format
MOST_PROGRAM = 131_072  # bytes; of more `ngc run` says J5
MOST_LARGE_PROGRAM = 1_048_576  # the same on a large device
AREAS = ((174, MOST_PROGRAM), (430, MOST_PROGRAM), (1710, MOST_LARGE_PROGRAM), (3758, MOST_LARGE_PROGRAM))
"""The program areas: the first sector of each, and the most bytes of a program in it. A large device alone has the
last two."""

TOOLS_FIRST, TOOLS_END = 1706, 1710  # sectors of the two tool areas
LENGTHS = range(10**9 + 1)
_COUNTS = range(9_999_999_999_999 + 1)
_SIGNED = range(-9_999_999_999_999, 9_999_999_999_999 + 1)
_COUNTERS = range(10**12 + 1)
STATE_BYTES = 456  # of a state field
_EPOCH = struct.Struct(f"<Q{SECTOR - 8}x")  # a sector of the log, as far as it says whose it is

Limits = range | tuple[int, ...]


@dataclass(frozen=True, slots=True)
class Field:
    """A field of a state: its first byte, its type by `struct`, the limits of its numbers, and what it is called."""

    byte: int
    kind: str
    limits: Limits
    label: str

    def holds(self, value: int | tuple[int, ...]) -> bool:
        """Whether its number, or each of its numbers, is within the limits."""
        return value in self.limits if isinstance(value, int) else all(number in self.limits for number in value)

    def end(self) -> int:
        """The byte after it."""
        return self.byte + struct.calcsize(f"<{self.kind}")


def _stored(byte: int, kind: str, limits: Limits, label: str) -> Any:
    """The place of one of the numbers of `State`."""
    return field(metadata={"field": Field(byte, kind, limits, label)})


class NoDevice(Failure, ValueError):
    """Bytes that are no device (J2 of `ngc run`); the text says why."""

    def said(self) -> str:
        """The text for people, with the path before it."""
        return f"{self.of}: not a device: {self}" if self.of else str(self)


class Held(OSError):
    """A session holds the device."""


@dataclass(frozen=True, slots=True, order=True)
class Header:
    """A valid header. `length` is that of the program, in bytes."""

    epoch: int
    area: int
    length: int
    format: int


@dataclass(frozen=True, slots=True)
class State:
    """A state field. Lengths and points are in nm, the feed in nm a minute, `speed` in millionths; `kept_rzpq` R, Z and
    Q in nm, P in millionths of a second. The modes are numbers of G codes; `system` is 1 to 9; `spindle` is 0 stopped,
    1 clockwise, 2 counter-clockwise. `half` is 0 for no half-done block, 1 for one of the program, 2 for one of the
    operator; the names after it speak of that block: `opened` is 0 nothing, 1 its segment, 2 its approach; its text is
    `half_text`."""

    entries: int = _stored(0, "Q", _COUNTERS, "entry count")
    place: int = _stored(8, "Q", range(MOST_LARGE_PROGRAM + 1), "place")
    point_nm: tuple[int, int, int] = _stored(16, "3q", _SIGNED, "machine point, nm")
    feed_nm_per_min: int = _stored(40, "Q", _COUNTS, "feed, nm per minute")
    speed: int = _stored(48, "Q", _COUNTS, "spindle speed, millionths")
    g92_nm: tuple[int, int, int] = _stored(56, "3q", _SIGNED, "G92 offset, nm")
    origin_nm: tuple[int, int, int] = _stored(80, "3q", _SIGNED, "origin in force, nm")
    tool_length_nm: int = _stored(104, "q", _SIGNED, "tool length in force, nm")
    kept_rzpq: tuple[int, int, int, int] = _stored(112, "4q", _SIGNED, "kept R, Z, P, Q")
    motion: int = _stored(144, "B", (0, 1, 2, 3, 80, 81, 82, 83, 85, 86, 89), "motion mode")
    plane: int = _stored(145, "B", (17, 18, 19), "plane")
    distance: int = _stored(146, "B", (90, 91), "distance mode")
    feed_mode: int = _stored(147, "B", (93, 94), "feed mode")
    unit: int = _stored(148, "B", (20, 21), "unit")
    retract: int = _stored(149, "B", (98, 99), "retract mode")
    system: int = _stored(150, "B", range(1, 10), "coordinate system")
    path_mode: int = _stored(151, "B", (0, 1, 2), "path mode")
    spindle: int = _stored(152, "B", (0, 1, 2), "spindle")
    mist: int = _stored(153, "B", (0, 1), "mist")
    flood: int = _stored(154, "B", (0, 1), "flood")
    overrides: int = _stored(155, "B", (0, 1), "overrides allowed")
    point_known: int = _stored(156, "B", (0, 1), "machine point known")
    kept: int = _stored(157, "B", range(16), "which of R, Z, P, Q are kept")
    selected: int = _stored(158, "H", range(SLOTS + 1), "selected slot")
    slot: int = _stored(160, "H", range(SLOTS + 1), "slot in the spindle")
    half: int = _stored(162, "B", (0, 1, 2), "half-done block")
    opened: int = _stored(163, "B", (0, 1, 2), "what of it is open")
    half_known: int = _stored(164, "B", (0, 1), "its point known")
    half_bytes: int = _stored(166, "H", range(257), "bytes of its text")
    segment: int = _stored(168, "Q", range(2**64), "its segment")
    half_point_nm: tuple[int, int, int] = _stored(176, "3q", _SIGNED, "its point, nm")
    half_text: bytes

    @property
    def outputs(self) -> Switch:
        """The outputs as `ngc` handed them out last."""
        return Switch(self.spindle, self.speed, bool(self.mist), bool(self.flood), self.selected, self.slot)

    @staticmethod
    def read(stored: bytes) -> "State":
        """The state of a state field's bytes. Limits aren't looked at."""
        numbers = iter(_PACKED.unpack_from(stored))
        state = State(*(next(numbers) if many == 1 else tuple(islice(numbers, many)) for many in _MANY), b"")
        return replace(state, half_text=stored[_PACKED.size:][:state.half_bytes]) if state.half else state

    def numbers(self, name: str) -> tuple[int, ...]:
        """The numbers of a field, one or more."""
        value = getattr(self, name)
        return value if isinstance(value, tuple) else (value,)

    def said(self, *names: str) -> str:
        """Fields with their numbers, for people."""
        return ", ".join(f"{STATE[name].label} {' '.join(map(str, self.numbers(name)))}" for name in names)

    def damage(self, length: int) -> list[str]:
        """What is out of its range, the program having `length` bytes."""
        found = [self.said(name) for name, stored in STATE.items()
                 if not stored.holds(getattr(self, name)) and self._counts(name)]
        if length < self.place <= MOST_LARGE_PROGRAM:
            found.append(f"{self.said('place')} of {length} bytes")
        if (self.opened or self.half_known) and not self.half or self.opened and self.half_known:
            found.append(self.said("half", "opened", "half_known"))
        return found

    def _counts(self, name: str) -> bool:
        """Whether a field says something: of a half-done block only where there is one."""
        if name == "half_point_nm":
            return bool(self.half and self.half_known)
        return bool(self.half) or name not in ("half_bytes", "segment")


STATE: dict[str, Field] = {each.name: each.metadata["field"] for each in fields(State) if each.metadata}
"""The fields of a state by their names in `State`, in the order of the page."""

_PACKED = struct.Struct("<" + "".join(f"{each.byte - before}x{each.kind}" for each, before in zip(
    STATE.values(), (0, *(each.end() for each in STATE.values())), strict=False)))
_MANY = [len(struct.unpack(f"<{each.kind}", bytes(each.end() - each.byte))) for each in STATE.values()]
"""How many numbers each field has."""


@dataclass(frozen=True, slots=True)
class LogRecord:
    """A complete record of the log: its first sector, how many parts it has, and the state that it gives."""

    first: int
    parts: int
    state: State


class Device:
    """What an image stands for.

    `is_large` says that it has the sectors of a large device. `header` is the one in force, `headers` those in sectors
    0 and 1, None if none is valid; `snapshot` is the state at its checkpoint, `records` the log's, which ends before
    sector `end`, and `state` what stands after them. `tools_nm` are the lengths of slots 1, 2 .., `program` is its
    text. `torn` are sectors of a record that isn't complete. `damage` says what is out of its range (J3); if it isn't
    empty, the rest is as found."""

    def __init__(self, image: bytes) -> None:
        """Raises NoDevice."""
        if len(image) < SIZE:
            raise NoDevice(f"{len(image):,} bytes, and a device has {SIZE:,} or more")
        self.image = image
        self.is_large = len(image) >= LARGE_SIZE
        self.headers = [self._header(sector) for sector in (0, 1)]
        valid = [header for header in self.headers if header]
        if not valid:
            raise NoDevice("it isn't formatted: neither sector 0 nor sector 1 holds a valid header")
        self.header = max(valid)
        self.epoch, self.format = self.header.epoch, self.header.format
        start = SECTOR * AREAS[self.header.area][0]
        self.program = image[start:start + self.header.length]
        self.damage: list[str] = []
        self._take_snapshot(2 + 86 * (self.epoch % 2))
        self.records: list[LogRecord] = []
        self.end = LOG_FIRST
        while parts := self._complete(self.end):
            self._take_record(parts)
        self.state = self.records[-1].state if self.records else self.snapshot
        rest = memoryview(image)[SECTOR * self.end:SECTOR * LOG_END[self.format]]
        self.torn = [sector for sector, (epoch,) in enumerate(_EPOCH.iter_unpack(rest), self.end)
                     if epoch == self.epoch]

    @staticmethod
    def read(path: str | Path) -> "Device":
        """Reads the file, whether a session holds it or not. Raises NoDevice or OSError."""
        with naming(path), opened(path, may_be_disk=True) as file:
            image = file.read(LARGE_SIZE)
        return Device(image)

    @cached_property
    def parameters(self) -> dict[int, int]:
        """1 to 5399, in millionths."""
        return dict(enumerate(self._at_checkpoint, 1)) | self._changed

    @property
    def selected(self) -> int:
        """The slot that is selected, 0 for none."""
        return self.state.selected

    @property
    def slot(self) -> int:
        """The slot in the spindle, 0 for none."""
        return self.state.slot

    def before(self, record: int) -> bytes:
        """The image that stood before record `record` of the log, from 0: the records from it on are taken away."""
        first = self.records[record].first if record < len(self.records) else self.end
        if first == LOG_END[self.format]:
            return self.image
        return self.image[:SECTOR * first] + bytes(SECTOR) + self.image[SECTOR * (first + 1):]

    def without_header(self) -> bytes | None:
        """The image without the header in force, or None if the other sector has no valid one: what stood before
        the last checkpoint, as long as nothing was recorded after it."""
        sector = self.epoch % 2
        if self.headers[1 - sector] is None:
            return None
        return self.image[:SECTOR * sector] + bytes(SECTOR) + self.image[SECTOR * (sector + 1):]

    def _header(self, sector: int) -> Header | None:
        """The header in a sector, if it is valid on a device of this length."""
        mark, form, epoch, area, length = struct.unpack_from("<8sI4xQQQ", self.image, SECTOR * sector)
        rooms = [room for _, room in AREAS if self.is_large or room == MOST_PROGRAM]
        right = (mark == b"RS274NGC" and form in LOG_END and 1 <= epoch <= 10**12 and epoch % 2 == sector
                 and area < len(rooms) and length <= rooms[area])
        return Header(epoch, area, length, form) if right else None

    def _take_snapshot(self, first: int) -> None:
        """Reads the snapshot that begins at a sector, and the tool area beside it."""
        image = self.image
        self.snapshot = self._state(SECTOR * first, f"sector {first}")
        values = struct.unpack_from("<5399q", image, SECTOR * (first + 1))
        self._at_checkpoint, self._changed = values, dict[int, int]()
        wrong = {value for value in set(values) if value not in _SIGNED}
        if wrong:
            self.damage += [f"sector {first + 1 + (index - 1) // 64}: #{index} {value}"
                            for index, value in enumerate(values, 1) if value in wrong]
        self.tools_nm: list[int] = []
        if self.format == 1:
            return
        area, slots = TOOLS_FIRST + 2 * (self.epoch % 2), struct.unpack_from("<H", image, SECTOR * first + 456)[0]
        if slots > SLOTS:
            self.damage.append(f"sector {first}: number of slots {slots}")
            return
        self.tools_nm = list(struct.unpack_from(f"<{slots}q", image, SECTOR * area))
        self.damage += [f"sector {area + (slot - 1) // 64}: slot {slot} {nm}"
                        for slot, nm in enumerate(self.tools_nm, 1) if nm not in LENGTHS]

    def _complete(self, first: int) -> int:
        """How many parts the complete record that begins at a sector has, 0 if there is none."""
        end = LOG_END[self.format]
        if first == end:
            return 0
        parts, changes = struct.unpack_from("<HH", self.image, SECTOR * first + 18)
        if parts != 1 + (changes + 47) // 48 or first + parts > end:
            return 0
        labels = (struct.unpack_from("<QQHHH", self.image, SECTOR * (first + part)) for part in range(parts))
        wanted = ((self.epoch, len(self.records), part, parts, changes) for part in range(parts))
        return parts if all(label == right for label, right in zip(labels, wanted, strict=True)) else 0

    def _take_record(self, parts: int) -> None:
        """Takes over the record at the log's end."""
        first, number = self.end, len(self.records)
        where = f"sector {first}, record {number}"
        state = self._state(SECTOR * first + 32, where)
        if self.format == 2:
            self._take_slot(first, where)
        for change in range(struct.unpack_from("<H", self.image, SECTOR * first + 20)[0]):
            sector = first + 1 + change // 48
            index, value = struct.unpack_from("<Hq", self.image, SECTOR * sector + 32 + 10 * (change % 48))
            if 1 <= index <= len(self._at_checkpoint) and value in _SIGNED:
                self._changed[index] = value
            else:
                self.damage.append(f"sector {sector}, record {number}: change {change}, #{index} {value}")
        self.records.append(LogRecord(first, parts, state))
        self.end += parts

    def _take_slot(self, first: int, where: str) -> None:
        """Takes over what a record changes of the tool table: a slot, or one more after the last."""
        slot, nm = struct.unpack_from("<H6xq", self.image, SECTOR * first + 488)
        if slot > min(len(self.tools_nm) + 1, SLOTS) or nm not in LENGTHS:
            self.damage.append(f"{where}: slot {slot} {nm}")
        elif slot:
            self.tools_nm[slot - 1:slot] = [nm]

    def _state(self, byte: int, where: str) -> State:
        """The state field that begins at a byte, whose damage is noted."""
        state, found = _state_of(self.image[byte:byte + STATE_BYTES], self.header.length)
        self.damage += [f"{where}: {what}" for what in found]
        return state


@lru_cache(maxsize=LOG_END[1] - LOG_FIRST)
def _state_of(stored: bytes, length: int) -> tuple[State, tuple[str, ...]]:
    """A state field by its bytes, and its damage, where the program has `length` bytes. A session reads its device at
    each command, and the log has most of it from before."""
    state = State.read(stored)
    return state, tuple(state.damage(length))


def copied(path: str | Path) -> bytes:
    """The sectors of a device that no session holds, up to the 5,806 of a large one. It is opened to read, and held (by
    a shared lock) for as long as that takes.

    Raises Held if a session has it, or OSError."""
    with opened(path, may_be_disk=True) as file:
        try:
            fcntl.flock(file, fcntl.LOCK_SH | fcntl.LOCK_NB)
        except BlockingIOError as error:
            raise Held(error.errno, "a session holds the device: end it by quit", str(path)) from None
        with naming(path):
            return file.read(LARGE_SIZE)
