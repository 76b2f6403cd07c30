"""On which file system and disk a folder lies, as the system tells it."""
import os
import re
from dataclasses import dataclass
from pathlib import Path

IN_MEMORY = ("tmpfs", "ramfs")
_ELSEWHERE = ("nfs", "nfs4", "cifs", "smb3", "9p", "ceph", "fuse.sshfs")
_NO_BARRIER = {"nobarrier", "barrier=0"}
_ESCAPED = re.compile(r"\\([0-7]{3})")


@dataclass(frozen=True, slots=True)
class Mounted:
    """The kind of a file system, the disk that it names, the options that count, and what that disk's cache is as Linux
    takes it, `` where it doesn't say."""

    kind: str
    source: str
    options: frozenset[str]
    cache: str

    def said(self) -> str:
        """One line for people."""
        counts = sorted(option for option in self.options if option.startswith("data=") or option in _NO_BARRIER)
        options = f" ({', '.join(counts)})" if counts else ""
        cache = f"; its cache, as Linux takes it: {self.cache}" if self.cache else ""
        return f"{self.kind}{options} on {self.source}{cache}"

    def warning(self) -> str:
        """Why nothing that is synced there can be relied on, `` where no reason is known."""
        if self.kind in IN_MEMORY:
            return "it is in memory: nothing that is written there outlives a loss of power"
        if self.kind in _ELSEWHERE:
            return "it is another computer's: what a sync keeps is what that one keeps"
        if self.options & _NO_BARRIER:
            return "it is mounted without barriers: a sync doesn't reach the disk. Mount it without that option"
        return ""


def mounted(folder: str | Path) -> Mounted:
    """What a folder lies on. Raises OSError."""
    number = os.stat(folder).st_dev
    device = f"{os.major(number)}:{os.minor(number)}"
    where, found = os.path.realpath(folder), None
    for line in Path("/proc/self/mountinfo").read_text().splitlines():
        head, _, tail = line.partition(" - ")
        fields, (kind, source, options) = head.split(), tail.split(" ", 2)
        if fields[2] == device or _is_below(where, _plain(fields[4])) and found is None:
            found = Mounted(kind, _plain(source), frozenset(f"{fields[5]},{options}".split(",")), _cache(device))
            if fields[2] == device:
                return found
    return found or Mounted("unknown", "unknown", frozenset(), _cache(device))


def _is_below(path: str, folder: str) -> bool:
    return os.path.commonpath([path, folder]) == folder


def _plain(text: str) -> str:
    """A path of mountinfo, in which blanks are octal."""
    return _ESCAPED.sub(lambda match: chr(int(match[1], 8)), text)


def _cache(device: str) -> str:
    """`write back` or `write through`, of the disk or of that whose part it is."""
    place = Path("/sys/dev/block") / device
    for folder in (place, place.resolve().parent):
        try:
            return (folder / "queue/write_cache").read_text().strip()
        except OSError:
            continue
    return ""
