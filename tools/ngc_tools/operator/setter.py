"""What a machine touches off with, by the table `[setter]` of its file: its tool setter, and its probe."""
from dataclasses import dataclass
from pathlib import Path
from typing import Any

from ngc_tools.formats.machine import read_tables

_UM = 1000  # nm


@dataclass(frozen=True, slots=True)
class Touches:
    """How a place is touched: it is sought fast, and touched once more, slow, a way back in between; both may differ by
    so much, in nm."""

    fast_mm_min: int = 300
    slow_mm_min: int = 30
    retract_nm: int = 1_000_000
    agree_nm: int = 50_000

    @staticmethod
    def of(table: dict[str, Any]) -> "Touches":
        """Those of a table; what it doesn't say is as above."""
        usual = Touches()
        return Touches(table.get("fast_mm_min", usual.fast_mm_min), table.get("slow_mm_min", usual.slow_mm_min),
                       _UM * table.get("retract_um", usual.retract_nm // _UM),
                       _UM * table.get("agree_um", usual.agree_nm // _UM))


@dataclass(frozen=True, slots=True)
class Probe:
    """The slot of the tool table that is the probe's, and the radius of its ball in nm by the machine's file; None
    where that doesn't say it: the table does."""

    slot: int
    radius_nm: int | None = None


@dataclass(frozen=True, slots=True)
class Setter:
    """What a machine's file says of touching off: the machine Z in nm at which a tool of length 0 touches the setter,
    None where it doesn't say; whether an input is the probe's; its probe, and the machine point above the setter in nm,
    where it has one; how places are touched; and where each axis stands once it is homed, None for one that isn't."""

    height_nm: int | None = None
    has_probe: bool = False
    probe: Probe | None = None
    at_nm: tuple[int, int, int] | None = None
    touches: Touches = Touches()
    home_nm: tuple[int | None, ...] = (None, None, None)

    @staticmethod
    def read(path: str | Path) -> "Setter":
        """Reads it. Raises BadMachine, BadSettings if the file isn't TOML, or OSError."""
        tables = read_tables(path)
        table = tables.get("setter", {})
        height_um, at_um = table.get("height_um"), table.get("at_um")
        return Setter(None if height_um is None else _UM * height_um, "probe" in tables.get("inputs", {}),
                      _probe(table.get("probe_tool"), table.get("probe_radius_um")),
                      None if at_um is None else (_UM * at_um[0], _UM * at_um[1], _UM * at_um[2]), Touches.of(table),
                      _homes(tables.get("home", {})))


def _probe(slot: int | None, radius_um: int | None) -> Probe | None:
    """The probe of a slot."""
    return None if slot is None else Probe(slot, None if radius_um is None else _UM * radius_um)


def _homes(table: dict[str, Any]) -> tuple[int | None, ...]:
    """Where the axes stand that a table `[home]` names, in nm."""
    order, at_um = table.get("order", [0] * 3), table.get("at_um", [0] * 3)
    return tuple(_UM * um if turn else None for turn, um in zip(order, at_um, strict=True))
