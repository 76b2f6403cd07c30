"""A package of Debian, made of a folder of files: its lists, its control files, its bytes."""
import gzip
import hashlib
import os
import re
import subprocess
import time
from collections.abc import Iterator
from dataclasses import dataclass
from pathlib import Path

DEBIAN = Path(__file__).resolve().parent / "debian"
BUILD = "usr/share/ngc/BUILD"
"""Where the tools look for it: beside their modules."""
_SCRIPTS = ("postinst", "prerm", "postrm")
_CONTROL = """Package: ngc
Version: {version}
Architecture: {architecture}
Maintainer: {maintainer}
Installed-Size: {size}
Depends: {depends}
Suggests: caddy
Section: electronics
Priority: optional
Description: controller for three-axis mills that goes on after a loss of power
 It reads G-code (RS274/NGC, NISTIR 6556), hands out step pulses one at a time,
 and keeps a journal on disk: after a loss of power it knows which line was
 under way, and goes on at the segment that was cut off. Its core is proved.
 .
 With it come a player that makes steps over a microcontroller, with ramps; a
 page in the browser and a console for the operator; tools that check, adapt and
 draw programs; firmware of the step sink; and services that start the machine.
"""
_GLIBC = re.compile(r"GLIBC_(\d+)\.(\d+)")


@dataclass(frozen=True)
class Facts:
    """What is told of a package: its version, who made it, when, of which commit and kit, and how ngc was built."""

    version: str
    maintainer: str
    epoch: int
    commit: str
    kit: str
    ngc: str

    def text(self) -> str:
        """The same, for people and programs."""
        day = time.strftime("%Y-%m-%d", time.gmtime(self.epoch))
        return (f"version: {self.version}\ncommit: {self.commit}\ndate: {day}\nkit: {self.kit}\n"
                f"ngc: {self.ngc}\n")

    def changelog(self) -> bytes:
        """That of the package."""
        when = time.strftime("%a, %d %b %Y %H:%M:%S +0000", time.gmtime(self.epoch))
        return (f"ngc ({self.version}) unstable; urgency=medium\n\n  * Built of commit {self.commit}.\n"
                f"    What changed stands in CHANGELOG.md.gz.\n\n -- {self.maintainer}  {when}\n").encode()


def tell(root: Path, facts: Facts) -> None:
    """Puts in what tells of the build: BUILD, which each program's --version prints, and the checksums of all other
    files."""
    folder = root / "usr/share/doc/ngc"
    (root / BUILD).parent.mkdir(parents=True, exist_ok=True)
    (root / BUILD).write_text(facts.text())
    (folder / "changelog.gz").write_bytes(gzip.compress(facts.changelog(), 9, mtime=0))
    sums = [f"{hashlib.sha256(path.read_bytes()).hexdigest()}  {path.relative_to(root)}\n" for path in files(root)]
    (folder / "SHA256SUMS").write_text("".join(sums))


def pack(root: Path, objdump: str, architecture: str, facts: Facts, package: Path) -> None:
    """Makes the package of a folder. Raises CalledProcessError, OSError."""
    size = sum(path.stat().st_size for path in files(root)) // 1024 + 1
    conffiles = [f"/{path.relative_to(root)}\n" for path in files(root) if path.relative_to(root).parts[0] == "etc"]
    sums = [f"{hashlib.md5(path.read_bytes()).hexdigest()}  {path.relative_to(root)}\n" for path in files(root)
            if path.relative_to(root).parts[0] != "etc"]
    control = root / "DEBIAN"
    control.mkdir()
    (control / "control").write_text(_CONTROL.format(
        version=facts.version, architecture=architecture, maintainer=facts.maintainer, size=size,
        depends=", ".join(["adduser", f"libc6 (>= {least_libc(root, objdump)})", "python3 (>= 3.11)"])))
    (control / "conffiles").write_text("".join(conffiles))
    (control / "md5sums").write_text("".join(sums))
    for name in _SCRIPTS:
        (control / name).write_bytes((DEBIAN / name).read_bytes())
    _settle(root, facts.epoch)
    words = ["dpkg-deb", "--root-owner-group", "--threads-max=1", "-Zxz", "--build", str(root), str(package)]
    subprocess.run(words, check=True, stdout=subprocess.DEVNULL,
                   env={**os.environ, "SOURCE_DATE_EPOCH": str(facts.epoch)})


def least_libc(root: Path, objdump: str) -> str:
    """The C library that the programs need, as `2.34`; of one that is linked with none 2.2."""
    found = [(2, 2)]
    for path in (root / "usr/bin/ngc", root / "usr/libexec/ngc/player"):
        said = subprocess.run([objdump, "-p", str(path)], check=True, stdout=subprocess.PIPE, text=True).stdout
        found += [(int(major), int(minor)) for major, minor in _GLIBC.findall(said)]
    return ".".join(map(str, max(found)))


def files(root: Path) -> Iterator[Path]:
    """The files of a folder in the order of their names, without links and control files."""
    for path in sorted(root.rglob("*")):
        if path.is_file() and not path.is_symlink() and path.relative_to(root).parts[0] != "DEBIAN":
            yield path


def _settle(root: Path, epoch: int) -> None:
    """Modes that don't depend on whoever builds, and one time for all."""
    for path in [root, *sorted(root.rglob("*"))]:
        if path.is_symlink():
            os.utime(path, (epoch, epoch), follow_symlinks=False)
            continue
        runs = path.is_dir() or path.parent.name == "DEBIAN" and path.name in _SCRIPTS or path.stat().st_mode & 0o100
        path.chmod(0o755 if runs else 0o644)
        os.utime(path, (epoch, epoch))
