"""What tests make of OUT: where its lines lead, and a player's record of it (docs/tools/player.md, "The record")."""
from collections.abc import Iterable

from ngc_tools.formats.out import Line
from ngc_tools.formats.position import Position, millimetres
from ngc_tools.formats.record import SIZE, Record


def after(position: Position, lines: Iterable[Line]) -> Position:
    """The position behind lines of OUT."""
    for line in lines:
        position.take(line)
    return position


def text_of(record: Record) -> bytes:
    """What stands in the file, 512 bytes."""
    lines = [f"out {record.out}", f"lines {record.lines}", f"bytes {record.size}", f"outputs {record.outputs}",
             f"reference {' '.join(map(millimetres, record.at_nm))}"]
    if record.mark:
        lines.append(f"file {record.mark.inode} {record.mark.born_ns} {record.mark.digest:08x}")
    for name, value in (("screws", record.screws), ("age", record.age_ms), ("homed", record.homed)):
        lines += [f"{name} {value}"] if value else []
    lines += ["off"] * record.is_off + [f"stopped {record.stopped}"] * bool(record.stopped)
    if record.mark and record.path_nm is not None and (record.is_off or record.path_nm != record.at_nm):
        path = f"path {' '.join(map(millimetres, record.path_nm))}"
        lines[6:6] = [path] if len(_bytes([*lines, path])) < SIZE else []
    return _bytes(lines).ljust(SIZE - 1) + b"\n"


def _bytes(lines: list[str]) -> bytes:
    return "".join(f"{line}\n" for line in lines).encode("utf-8", "surrogateescape")
