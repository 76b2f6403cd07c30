"""How far the motors may be past the player's record: by what they can carry out between two syncs of it.

A loss of power, or `kill -9`, leaves the record as it was synced last. What the motors did since then isn't in it. It
lasted no longer than the record ever got old, unless the disk was slower at the very end than ever before: how old it
got then nothing tells."""
import os
from collections.abc import Iterable, Iterator
from dataclasses import dataclass

from ngc_tools.formats.out import BadLine
from ngc_tools.formats.position import Position
from ngc_tools.formats.settings import Settings
from ngc_tools.job.figures import millimetres as rounded
from ngc_tools.operator.motors import diagonal_nm
from ngc_tools.link.progress import KEEPS_MS
from ngc_tools.link.way import CarriedLine, look, moves


@dataclass(frozen=True, slots=True)
class Past:
    """The motors may have carried out so many lines, `nm` along their path, that the record doesn't have: `of_out`, if
    OUT has them. `age_ms` is how old the record was at most; 0 if that isn't known."""

    lines: int
    nm: int
    of_out: bool
    age_ms: int

    @property
    def at_most_mm(self) -> str:
        """How far that is, in mm, rounded up."""
        return rounded(self.nm + 499)

    def words(self) -> str:
        """All of it, for people."""
        lines = f"{self.lines:,} line{'s' if self.lines > 1 else ''}{' of OUT' if self.of_out else ''}"
        made = f"{lines}, {self.at_most_mm} mm"
        if self.age_ms:
            return f"It was up to {self.age_ms:,} ms old while they moved: they make at most {made}, in that time"
        return f"It may be {KEEPS_MS} ms and a sync old: they make at most {made}, in {KEEPS_MS} ms"


def by_rate(settings: Settings, age_ms: int, percent: int = 100) -> Past:
    """By the machine's greatest rate, at which each line moves each axis by a step; `percent` of it, if an override may
    have been so much."""
    lines = (age_ms or KEEPS_MS) * 10 * percent // settings.period_us + 1
    return Past(lines, diagonal_nm(lines, settings), False, age_ms)


def along_out(file: int, lines: int, size: int, settings: Settings, age_ms: int, percent: int = 100) -> Past:
    """The same along OUT, which is open, from behind so many lines and bytes of it, on or back; by the machine's rate
    if no line stands behind them, as some may be cut off. `percent` is that of OUT's rates."""
    us = (age_ms or KEEPS_MS) * 10 * percent
    end, least = os.fstat(file).st_size, settings.period_us
    ways = [look(_within(moves(file, lines, size, to, least), us), Position(settings.step_nm)) for to in (end, 0)]
    if not ways[0].lines:
        return by_rate(settings, age_ms, percent)
    return Past(max(way.lines for way in ways), max(way.length_nm for way in ways), True, age_ms)


def _within(found: Iterable[CarriedLine], us: int) -> Iterator[CarriedLine]:
    """The moves that begin before so much time has passed; none behind a line that can't be read."""
    try:
        for move in found:
            if us < 0:
                return
            yield move
            us -= move.line.lasts_us if move.line else 0
    except BadLine:
        return
