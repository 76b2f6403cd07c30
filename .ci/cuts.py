"""What a cut of power leaves of a device in memory, by the calls that a session of `ngc run` made of it."""
import subprocess
from collections.abc import Iterable, Iterator
from dataclasses import dataclass
from pathlib import Path

from device_in_memory import INPUT_READ, READ, SAID_WRITE, SECTOR, SYNC, WRITE, Call, InMemory
from images import OPENED, image_of_format_1
from mill import SETTINGS, Wrong
from standing import FRESH, Event, Standing, after, difference, executes, opens, stands

SMALL, LARGE = 1_710, 5_806
TOOL_NM = 50_000_000
TOOLED = SETTINGS.replace("tools_nm = []", f"tools_nm = [{TOOL_NM}]")
POWER_ON = 92
"""The writes and syncs of a power on: 88 sectors, a header and three syncs."""
MIGRATION, CONVERTED = 181, 179
"""Those over a device of format 1, and how many of them come before the header of format 2."""

FILLING = 1_021
"""The blank lines that fill the log of a device of format 1 up to its last three sectors."""

Kept = tuple[tuple[int, bytes], ...]
"""Sectors that a cut keeps of what isn't synced, and what they hold."""


@dataclass(frozen=True)
class Moment:
    """After some of a session's calls: how many syncs made something lasting, what is synced, and what was written
    since."""

    syncs: int
    synced: bytes
    waiting: Kept


def with_kept(image: bytes, kept: Kept) -> bytearray:
    """An image with these sectors."""
    made = bytearray(image)
    for sector, written in kept:
        made[SECTOR * sector:SECTOR * (sector + 1)] = written
    return made


def moments(image: bytes, waiting: Kept, calls: Iterable[Call]) -> Iterator[Moment]:
    """The moment before the first of these calls, and that after each of them, over a device that holds this, of which
    some isn't synced."""
    syncs, synced, written = 0, image, dict(waiting)
    yield Moment(syncs, synced, waiting)
    for call in calls:
        if call.kind == WRITE and not call.is_failed:
            written.pop(call.sector, None)
            written[call.sector] = call.written
        if call.kind == SYNC and written and not call.is_failed:
            syncs, synced, written = syncs + 1, bytes(with_kept(synced, tuple(written.items()))), {}
        yield Moment(syncs, synced, tuple(written.items()))


def settled(image: bytes, calls: list[Call]) -> list[Call]:
    """The calls of a session besides reads and what it says, after it has written each sector once, the last one twice,
    as it was, and synced. Raises Wrong if it hasn't."""
    made = [call for call in calls if call.kind not in (READ, INPUT_READ, SAID_WRITE)]
    sectors = len(image) // SECTOR
    first, rest = made[:sectors + 1], made[sectors + 2:]
    order = [*range(sectors), sectors - 1]
    is_same = all(image.startswith(call.written, SECTOR * call.sector) for call in first if not call.is_failed)
    if [call.sector for call in first] != order or not is_same or made[sectors + 1].kind != SYNC:
        raise Wrong("a session doesn't begin with writing each sector as it was")
    return rest


class Bench:
    """Programs over devices in memory, of one size: one under settings with a tool, one under settings without; and how
    many cuts were tried."""

    def __init__(self, tooled: InMemory, bare: InMemory, folder: Path, ngc: str) -> None:
        self.tooled, self.bare, self.folder, self.ngc, self.cuts = tooled, bare, folder, ngc, 0

    def found(self, cut: str, image: bytes | bytearray) -> Standing:
        """What power on finds after a cut, by its status, and by the device that it leaves. Raises Wrong."""
        self.cuts += 1
        self.bare.image[:] = image
        status, said = self.bare.answer("status\n")
        if status != 0:
            raise Wrong(f"{cut}: power on ends with status {status}, and says {said!r}")
        try:
            standing = stands(self.bare.image)
        except Wrong as wrong:
            raise Wrong(f"{cut}: after power on {wrong}") from None
        if said != standing.status():
            raise Wrong(f"{cut}: power on says {said!r}, and leaves a device that says {standing.status()!r}")
        return standing

    def power_on(self, image: bytes | bytearray) -> list[Call]:
        """The calls of a power on, but for reads."""
        self.bare.run(bytes(image))
        return settled(bytes(image), self.bare.calls())


def fresh(bench: Bench) -> bytes:
    """A formatted device."""
    folder = Path(bench.folder)
    path = folder / f"new{len(bench.bare.image)}.dev"
    if not path.exists():
        words = ["--large"] if len(bench.bare.image) == SECTOR * LARGE else []
        subprocess.run([bench.ngc, "format", *words, path], check=True)
    return path.read_bytes()


@dataclass(frozen=True)
class Played:
    """A session over an image: its calls besides reads, and the device that it leaves."""

    image: bytes
    calls: list[Call]
    left: bytes


def play(machine: InMemory, image: bytes, standing: Standing, events: Iterable[Event], power_on: int) -> Played:
    """A session. Raises Wrong if it is answered, hands out or calls its device otherwise."""
    events = tuple(events)
    ended = machine.run(image, "".join(event.asked for event in events))
    entries, answers = standing.state.entries, []
    for event in events:
        answers.append(event.answered(entries))
        entries += "{done}" in event.answer
    if (ended.status, ended.said) != (0, "".join(answers)):
        raise Wrong(f"a session ended with status {ended.status}, and said {ended.said!r}, not {''.join(answers)!r}")
    if ended.out != "".join(event.hands for event in events):
        raise Wrong(f"a session handed out {ended.out!r}")
    calls = settled(image, machine.calls())
    if len(calls) != power_on + sum(event.calls for event in events):
        raise Wrong(f"a session of {len(events)} events made {len(calls)} calls")
    return Played(image, calls, ended.image)


def left_by(bench: Bench, image: bytes, standing: Standing, events: Iterable[Event]) -> tuple[bytes, Standing]:
    """What a session leaves, and what that stands for."""
    events = tuple(events)
    return play(bench.bare, image, standing, events, POWER_ON).left, after(standing, events)


Stage = tuple[int, Standing]
"""The number of the call with which an event is over, and what the device stands for then."""


def stages_of(standing: Standing, events: Iterable[Event], power_on: int) -> list[Stage]:
    """Power on, and each event that makes calls."""
    stages = [(power_on, standing)]
    for event in events:
        standing = event.changes(standing)
        stages.append((stages[-1][0] + event.calls, standing))
    return stages


def look_at(cut: str, found: Standing, allowed: tuple[Standing, ...]) -> None:
    """Raises Wrong if this isn't one of those that are allowed after a cut."""
    if found not in allowed:
        raise Wrong(f"{cut}: {' or '.join(difference(found, wanted) for wanted in allowed)}")


def allowed_at(stages: list[Stage], before: Standing, count: int) -> tuple[Standing, ...]:
    """What a device may stand for after this many calls; `before` is what it stood for at first."""
    for over, standing in stages:
        if count < over:
            return before, standing
        if count == over:
            return (standing,)
        before = standing
    return (before,)


def of_format_1(sectors: int, blanks: int) -> tuple[bytes, Standing]:
    """A device of format 1 with so many blank lines, and what it stands for under settings without tools."""
    standing = after(FRESH, [executes()] * blanks + [executes(parameters={1: 5_000_000}), opens(OPENED, 2)])
    return image_of_format_1(SECTOR * sectors, blanks), standing


def grown(image: bytes) -> bytes:
    """A device that is lengthened by zeros."""
    return image + bytes(SECTOR * LARGE - len(image))
