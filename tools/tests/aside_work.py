"""What tests of work aside have done there. It is quick to import."""
import subprocess
from pathlib import Path

from ngc_tools.scratch import Scratch


def take_memory(folder: str) -> int:
    """Takes more memory than it may, with a folder left behind."""
    left = Scratch("ngc-test-")
    Path(left.name, folder).mkdir()
    return len([bytes(1 << 20) for _ in range(1 << 20)])


def work_for_ever(path: str) -> None:
    """Doesn't end, nor does a process of its own, and tells in a file where it has its files, and that process."""
    folder = Scratch("ngc-test-")
    with subprocess.Popen(["sleep", "1000"]) as child:
        Path(path).write_text(f"{folder.name} {child.pid}\n")
