"""Runs the cases of docs/CASES.md by calls of a program, as of `qemu-aarch64 ngc`; ngc_cases runs the same ones within
its own process."""
import fcntl
import os
import re
import subprocess
from collections.abc import Callable, Iterator
from dataclasses import dataclass, field
from pathlib import Path

LEAST_DEVICE, SECTOR = 875_520, 512
_ESCAPE = re.compile(rb"\\(?:\{(\d+) (s|n|r|t|x[0-9a-f]{2})\}|(s|n|r|t|x[0-9a-f]{2}))")
_BYTES = {b"s": b" ", b"n": b"\n", b"r": b"\r", b"t": b"\t"}

Call = Callable[[list[str], bytes], tuple[int, bytes]]
"""Calls ngc with these words, in the folder /, and what it is asked: its status, and what it says."""


class Wrong(Exception):
    """A case isn't as it should be."""


@dataclass
class Part:
    """A part: what its head says, the name that stands there, what is asked, the text, a file that holds the text."""

    verb: str
    name: str = ""
    asked: bytes = b""
    text: bytes = b""
    blank: int = 0
    said: dict[str, "Part"] = field(default_factory=dict)  # what parts below say of it

    def put(self, line: bytes) -> None:
        """Adds a line. Empty ones count where another line of the text follows."""
        if not line:
            self.blank += 1
        elif line == b">" or line.startswith(b"> "):
            self.asked += meant(line[2:])
            self.blank = 0
        else:
            self.text += b"\n" * self.blank + meant(line)
            self.blank = 0


def meant(line: bytes) -> bytes:
    """The bytes that a line stands for, with its newline if it has one."""
    whole = line.removesuffix(b"\\")
    plain = _ESCAPE.sub(lambda match: int(match[1] or 1) * _byte(match[2] or match[3]), whole)
    return plain if whole != line else plain + b"\n"


def _byte(name: bytes) -> bytes:
    return _BYTES.get(name) or bytes([int(name[1:], 16)])


def cases_of(path: Path) -> Iterator[tuple[str, list[Part]]]:
    """The cases of a file: the title and the parts, the first of which stands below the title."""
    title, parts = "", []
    for line in path.read_bytes().replace(b"\r\n", b"\n").rstrip(b"\n").split(b"\n"):
        if line.startswith(b"== "):
            if parts:
                yield title, parts
            title, parts = line[3:].decode(), [Part("")]
        elif line.startswith(b"$ "):
            parts.append(Part("$", line[2:].decode()))
        elif line.startswith(b"-- "):
            said, colon, file = line[3:].decode().partition(": ")
            verb, _, name = said.partition(" ")
            parts.append(Part(verb, name, text=(path.parent / file).read_bytes() if colon else b""))
        elif parts:
            parts[-1].put(line)
    yield title, parts


_PACKAGED = re.compile(rb"\A(ngc [\d.]+\n)commit: .*\nkit: .*\n\Z")
"""What the ngc of a package says for --version: of which commit and kit it is stands below the version."""


def starting(program: list[str]) -> Call:
    """Starts a program that is given as words for each call."""
    def call(words: list[str], asked: bytes) -> tuple[int, bytes]:
        done = subprocess.run([*program, *words], input=asked, stdout=subprocess.PIPE, stderr=subprocess.PIPE, cwd="/")
        return done.returncode, done.stdout
    return call


class Cases:
    """Cases in a folder of their own, which is emptied for each. Of `every` cases one is run."""

    def __init__(self, call: Call, data: Path, folder: Path, every: int = 1) -> None:
        self.call, self.data, self.folder, self.handed = call, data, folder, b""
        self.every, self.found, self.ran = every, 0, 0

    def _is_chosen(self) -> bool:
        """Whether the next case is one that is run; it counts both."""
        self.found += 1
        is_chosen = self.found % self.every == 0
        self.ran += is_chosen
        return is_chosen

    def count(self, path: Path) -> int:
        """Runs cases of a file, and returns how many it has. Raises Wrong with the title of one that is wrong."""
        count = 0
        for title, parts in cases_of(path):
            try:
                count += self._run(path.suffix, parts)
            except Wrong as wrong:
                raise Wrong(f"{path.name}: {title}: {wrong}") from None
        return count

    def _run(self, kind: str, parts: list[Part]) -> int:
        """Runs a case of this kind, if it is chosen, and returns how many it is."""
        if kind == ".refused":
            return self._refused(parts)
        if self._is_chosen():
            self._dry(parts) if kind == ".dry" else self._steps(parts, kind == ".run")
        return 1

    def _refused(self, parts: list[Part]) -> int:
        rows = parts[0].text.split(b"\n")[:-1]
        for row in filter(lambda _: self._is_chosen(), rows):
            line, _, fault = row.partition(b" | ")
            self._dry([Part("", text=line), Part("writes", text=b"REFUSED line 1: " + fault + b"\n")])
        return len(rows)

    def _dry(self, parts: list[Part]) -> None:
        found = {part.verb: part for part in parts if part.verb or part.text}
        program = found.get("program") or found.get("") or Part("")
        (self.folder / "program.ngc").write_bytes(program.text)
        words = "ngc dry @program.ngc" + (" --block-delete" if "block" in found else "")
        if "settings" in found:
            (self.folder / "settings.toml").write_bytes(found["settings"].text)
            words += " --settings @settings.toml"
        writes = found["writes"].text
        refused = writes.rstrip(b"\n").rpartition(b"\n")[2].startswith(b"REFUSED ")
        self._call(Part("$", words, text=writes), 2 if "status" in found else int(refused))

    def _steps(self, parts: list[Part], has_mill: bool) -> None:
        """A case of an operator, who has a mill, or of command lines, step by step."""
        for path in sorted(self.folder.rglob("*"), reverse=True):
            path.rmdir() if path.is_dir() else path.unlink()
        if has_mill:
            (self.folder / "mill.toml").write_bytes((self.data / "default.toml").read_bytes())
            self._call(Part("$", "ngc format @mill.dev"), 0)
        self.handed = b""
        steps: list[Part] = []
        for part in parts:
            if part.verb in ("status", "held", "hands"):
                steps[-1].said[part.verb] = part
            elif part.verb or part.asked or part.text:
                steps.append(part)
        for step in steps:
            self._step(step)

    def _step(self, step: Part) -> None:
        status = int(step.said["status"].name) if "status" in step.said else 0
        if step.verb == "$":
            self._call(step, status)
        elif step.verb in ("", "power"):
            session = Part("$", "ngc run @mill.dev @mill.toml @out", step.asked, step.text, said=step.said)
            self._call(session, status)
            self.handed += step.said["hands"].text if "hands" in step.said else b""
            same(self.handed, self._held("out"), "handed out")
        else:
            self._file(step)

    def _call(self, step: Part, status: int) -> None:
        """Runs a command line, while another program holds a file if one is named."""
        words = [word.replace("@", f"{self.folder}/") for word in step.name.split()]
        other = open(self.folder / step.said["held"].name, "rb") if "held" in step.said else None
        if other:
            fcntl.flock(other, fcntl.LOCK_EX)
        found, said = self.call(words[1:], step.asked)
        if other:
            other.close()
        if found != status:
            raise Wrong(f"{step.name}: status {found}, wanted was {status}: {said[-200:]!r}")
        same(step.text, _PACKAGED.sub(rb"\1", said), step.name)

    def _file(self, step: Part) -> None:
        """Makes a file, or looks at one."""
        path = self.folder / step.name
        if step.verb == "file":
            path.write_bytes(step.text)
        elif step.verb == "folder":
            path.mkdir()
        elif step.verb == "overwritten":
            path.write_bytes(with_rows(self._held(step.name), step.text))
        elif step.verb == "sectors":
            same(with_rows(bytes(LEAST_DEVICE), step.text), self._held(step.name), step.name)
        elif step.verb == "leaves":
            same(step.text, self._held(step.name), step.name)
        elif step.verb != "absent" or os.path.lexists(path):
            raise Wrong(f"{step.verb} {step.name}: it is there, or no part of a case")

    def _held(self, name: str) -> bytes:
        path = self.folder / name
        return path.read_bytes() if path.is_file() else b""


def with_rows(data: bytes, rows: bytes) -> bytes:
    """A device with the bytes of these rows, lengthened by zeros where it is too short."""
    device = bytearray(data)
    for row in rows.decode().splitlines():
        sector, place, digits = row.split(" ")
        start, piece = SECTOR * int(sector) + int(place), bytes.fromhex(digits)
        device.extend(bytes(max(0, start + len(piece) - len(device))))
        device[start:start + len(piece)] = piece
    return bytes(device)


def same(wanted: bytes, found: bytes, what: str) -> None:
    """Raises Wrong where two texts differ; `...` in what is wanted stands for anything."""
    pieces = wanted.split(b"...")
    pattern = b"(?s:.*)".join(map(re.escape, pieces)) if len(pieces) > 1 else None
    if found != wanted and not (pattern and re.fullmatch(pattern, found)):
        place = next((n for n, (a, b) in enumerate(zip(wanted, found)) if a != b), min(len(wanted), len(found)))
        raise Wrong(f"{what}: at byte {place} {found[place:place + 80]!r}, wanted was {wanted[place:place + 80]!r}")
