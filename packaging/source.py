"""A copy of the crates in which `ngc --version` says of which commit and kit it is. What is proved and built of it is
what a package has: nothing is changed once it is proved."""
import re
import shutil
from collections.abc import Iterable
from pathlib import Path

VERSION = "crates/ng_console/src/command_line.rt"
_CRATES = "crates.txt"
_BUILT = ("ngc", "ng_pace_c", "ng_lines_c")
_LINE = re.compile(r'^const VERSION: &str = "([\d.]+)";$', re.MULTILINE)
_PLAIN = re.compile(r"[\w. +-]+")


def told(text: str, commit: str, kit: str) -> str:
    """The text of VERSION, whose version goes on with the commit and the kit. Raises ValueError where that can't be."""
    if len(_LINE.findall(text)) != 1 or not (_PLAIN.fullmatch(commit) and _PLAIN.fullmatch(kit)):
        raise ValueError(f"{VERSION} has no such version, or a commit or kit isn't a few words: {commit}, {kit}")
    return _LINE.sub(rf'const VERSION: &str =\n    "\1\\ncommit: {commit}\\nkit: {kit}";', text)


def make(top: Path, names: Iterable[str], to: Path, commit: str, kit: str) -> None:
    """Makes it of these files of a checkout, without the crates that no package needs, and without edits that are to
    fail. Raises OSError, ValueError."""
    needed = _needed((top / _CRATES).read_text())
    for name in names:
        folders = name.split("/")
        if folders[0] == "crates" and (folders[1] not in needed or folders[2] == "must-fail"):
            continue
        (to / name).parent.mkdir(parents=True, exist_ok=True)
        shutil.copy(top / name, to / name)
    (to / _CRATES).write_text("".join(f"{line}\n" for line in needed.values()))
    (to / VERSION).write_text(told((to / VERSION).read_text(), commit, kit))


def _needed(crates: str) -> dict[str, str]:
    """The line of each crate that is built, or that one of these stands on, by its name."""
    lines = {line.split()[0].rstrip(":"): line for line in crates.splitlines() if line.partition("#")[0].strip()}
    found, left = {}, list(_BUILT)
    while left:
        name = left.pop()
        if name in lines and name not in found:
            found[name] = lines[name]
            left += lines[name].partition("#")[0].partition(":")[2].split()
    return found
