"""Settings as a person reads them, and which key a fault of their file means. `ngc` decides what is valid: each key is
tried beside five good ones."""
from dataclasses import asdict
from pathlib import Path
from typing import Any

from ngc_tools.formats.settings import (AXES, DEFAULT, KEYS, LIMITS, BadSettings, Settings, read_table, toml_key,
                                        toml_line)
from ngc_tools.ngc import faults
from ngc_tools.ngc.run import Refusal, settings_refusal
from ngc_tools.scratch import scratch_file
from ngc_tools.shown import shown

GOOD: dict[str, Any] = asdict(DEFAULT)

SENTENCES = faults.SETTINGS


def fault_lines(ngc: str, path: str | Path, refused: Refusal) -> list[str]:
    """What is wrong with a settings file that `ngc` refuses, a line each. Raises OSError, CannotRun."""
    said = [f"{path}: {refused.code} {refused.name}: {SENTENCES.get(refused.code, 'see docs/SETTINGS.md')}"]
    try:
        table = read_table(path)
    except BadSettings as error:
        return [*said, f"    {str(error).removeprefix(f'{path}: ')}"]
    lines = Path(path).read_bytes().decode("utf-8", "replace").splitlines()
    if refused.code == "S2":
        said += [f"    {key} is missing: {LIMITS[key]}" for key in KEYS if key not in table]
    elif refused.code == "S3":
        said += [f"    {_place(lines, key)}{shown(toml_key(key))} isn't one of the six keys{_meant(key)}"
                 for key in table if key not in KEYS]
    else:
        said += [f"    {_place(lines, key)}{shown(toml_line(key, table[key]))} ({fault.code}): it takes {LIMITS[key]}"
                 for key in KEYS if key in table and (fault := _tried(ngc, key, table[key]))]
    return said


def _tried(ngc: str, key: str, value: Any) -> Refusal | None:
    """The fault of this value of the key beside five good ones."""
    text = "".join(f"{toml_line(name, value if name == key else good)}\n" for name, good in GOOD.items())
    with scratch_file(text, "settings", ".toml") as path:
        return settings_refusal(ngc, path)


def _place(lines: list[str], key: str) -> str:
    """The line of the file that begins with this key, as `line 4: `, or nothing."""
    for number, line in enumerate(lines, 1):
        if line.replace('"', " ").replace("'", " ").replace("[", " ").replace("=", " ").split()[:1] == [key]:
            return f"line {number}: "
    return ""


def _meant(key: str) -> str:
    """The key that a wrong one may stand for."""
    stems = [good for good in KEYS if key.lower().split("_")[0].rstrip("s") == good.split("_")[0].rstrip("s")]
    return f"; {stems[0]}?" if stems else ""


def report(settings: Settings) -> list[str]:
    """The settings in mm, mm/min and kHz, a line each."""
    ends = zip(settings.low_nm, settings.high_nm, strict=True)
    travel = [f"{number(low, 6)} to {number(high, 6)}" for low, high in ends]
    fastest = [number(settings.fastest_nm_per_min(axis), 6) for axis in range(3)]
    tools = [f"T{slot} {number(nm, 6)}" for slot, nm in enumerate(settings.tools_nm, 1)]
    return [
        f"steps     {_axes([number(nm, 6) for nm in settings.step_nm])} mm",
        f"travel    {_axes(travel)} mm",
        f"traverse  {number(settings.traverse_nm_per_min, 6)} mm/min",
        f"period    {settings.period_us:,} us: at most {number(1_000_000 // settings.period_us, 3)} kHz",
        f"fastest   {_axes(fastest)} mm/min, one step of the axis each period",
        f"tools     {'   '.join(tools)} mm, for ngc dry" if tools else "tools     none for ngc dry",
    ]


def _axes(each: list[str]) -> str:
    return "   ".join(f"{axis} {text}" for axis, text in zip(AXES, each, strict=True))


def warnings(settings: Settings) -> list[str]:
    """What is valid in the settings and may be meant otherwise, a line each."""
    said = []
    rates: dict[int, list[str]] = {}
    for index, axis in enumerate(AXES):
        fastest = settings.fastest_nm_per_min(index)
        if settings.traverse_nm_per_min > fastest:
            rates.setdefault(fastest, []).append(axis)
    for fastest, axes in rates.items():
        of = "" if len(axes) == 3 else f" of {' and '.join(axes)}"
        said.append(f"a traverse{of} of {number(settings.traverse_nm_per_min, 6)} mm/min is capped to"
                    f" {number(fastest, 6)} by period_us")
    if settings.traverse_nm_per_min < 1_000_000:
        said.append(f"a traverse of {number(settings.traverse_nm_per_min, 6)} mm/min is very slow: 1 mm/min is"
                    " 1,000,000 nm/min")
    for index, axis in enumerate(AXES):
        if settings.low_nm[index] == settings.high_nm[index]:
            said.append(f"{axis} has no travel: low_nm and high_nm are both {settings.low_nm[index]}")
    return said


def number(value: int, decimals: int) -> str:
    """A whole count of 10**-decimals as a number with commas, its zeros at the end left out: `6,000`, `0.0025`."""
    size = abs(value)
    whole, rest = divmod(size, 10**decimals)
    text = f"{whole:,}" + (f".{rest:0{decimals}d}".rstrip("0") if rest else "")
    return f"-{text}" if value < 0 else text
