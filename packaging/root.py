"""A Debian in a folder, in which programs run as in one of their own."""
import contextlib
import os
import signal
import subprocess
from pathlib import Path

NOT_LOOKED_AT = ("proc", "sys", "dev", "run", "tmp", "root", "var/cache", "var/log", "var/lib/dpkg", "etc/ld.so.cache")
BACKUPS = {"etc/passwd-", "etc/group-", "etc/shadow-", "etc/gshadow-", "etc/subuid-", "etc/subgid-"}
"""What adduser leaves, whatever it does."""


class Wrong(Exception):
    """A step isn't as it should be."""


def check(holds: object, what: str) -> None:
    """Says that something is so. Raises Wrong."""
    if not holds:
        raise Wrong(what)
    print(f"  {what}", flush=True)


class Root:
    """A Debian in a folder."""

    def __init__(self, path: Path) -> None:
        self.path = path
        self.children: list[subprocess.Popen] = []

    def mount(self) -> None:
        """What programs need there; in a mount namespace of this process alone."""
        for kind, name in (("proc", "proc"), ("tmpfs", "run"), ("tmpfs", "tmp")):
            subprocess.run(["mount", "-t", kind, kind, self.path / name], check=True)
        subprocess.run(["mount", "--rbind", "/dev", self.path / "dev"], check=True)

    def unmount(self) -> None:
        """Takes that away again."""
        for name in ("dev", "tmp", "run", "proc"):
            subprocess.run(["umount", "--recursive", "--lazy", self.path / name], check=False,
                           stderr=subprocess.DEVNULL)

    def has_mounts(self) -> bool:
        """Whether something is mounted there still, as this computer's own /dev: then nothing may be removed."""
        places = (line.split()[4] for line in Path("/proc/self/mountinfo").read_text().splitlines())
        return any(place.startswith(f"{self.path}/") for place in places)

    def words(self, words: list[str], user: str = "root", groups: str = "") -> list[str]:
        """The command that runs another one there."""
        given = ["--userspec", self.ids(user), f"--groups={groups}"] if user != "root" else []
        place = "PATH=/usr/local/sbin:/usr/local/bin:/usr/sbin:/usr/bin:/sbin:/bin"
        return ["chroot", *given, str(self.path), "env", "-i", place, "LC_ALL=C.UTF-8", *words]

    def run(self, *words: str, text: str = "", user: str = "root", groups: str = "", status: int | None = 0) -> str:
        """What a command prints there, on both outputs. Raises Wrong where its status is another one."""
        done = subprocess.run(self.words(list(words), user, groups), input=text, stdout=subprocess.PIPE,
                              stderr=subprocess.STDOUT, text=True)
        if status is not None and done.returncode != status:
            raise Wrong(f"{' '.join(words)}: status {done.returncode}: {done.stdout}")
        return done.stdout

    def start(self, *words: str, groups: str = "") -> subprocess.Popen:
        """Starts one as the user ngc, as systemd would."""
        child = subprocess.Popen(self.words(list(words), "ngc", groups), stdin=subprocess.DEVNULL)
        self.children.append(child)
        return child

    def entry(self, user: str, name: str = "passwd") -> list[str] | None:
        """The fields of a user or a group; None where there is none."""
        lines = (self.path / "etc" / name).read_text().splitlines()
        return next((line.split(":") for line in lines if line.startswith(f"{user}:")), None)

    def ids(self, user: str) -> str:
        """The numbers of a user and its group."""
        fields = self.entry(user)
        if fields is None:
            raise Wrong(f"there is no user {user}")
        return f"{fields[2]}:{fields[3]}"

    def group(self, name: str) -> str:
        """The number of a group."""
        return self.entry(name, "group")[2]

    def listed(self) -> set[str]:
        """All paths there that a package could leave."""
        found = set()
        for folder, folders, names in os.walk(self.path):
            place = os.path.relpath(folder, self.path)
            here = "" if place == "." else f"{place}/"
            folders[:] = [name for name in folders if f"{here}{name}" not in NOT_LOOKED_AT]
            found |= {f"{here}{name}" for name in [*folders, *names]}
        return found - BACKUPS - set(NOT_LOOKED_AT)

    def kill(self) -> None:
        """A loss of power for what was started there, with the processes that those started."""
        for pid in self.pids():
            with contextlib.suppress(ProcessLookupError):
                os.kill(pid, signal.SIGKILL)
        for child in self.children:
            child.wait()
        self.children.clear()

    def pids(self) -> list[int]:
        """The processes whose root it is."""
        found = []
        for path in Path("/proc").glob("[0-9]*"):
            with contextlib.suppress(OSError):
                if os.readlink(path / "root") == str(self.path):
                    found.append(int(path.name))
        return found
