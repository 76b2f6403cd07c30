"""What the gate's scripts that run the program `ngc` share: where it is, as the gate proved and built it, the devices
that the cases keep, and a folder in memory."""
import contextlib, os, shutil, sys, tempfile

HERE = os.path.dirname(os.path.dirname(os.path.abspath(__file__)))
NGC = f"{HERE}/crates/ngc/out/ngc"
# Seconds on the clock after which a process is ended.
SECONDS = 60

# The bytes of a new device, and of a large one.
DEVICE = 875_520
LARGE_DEVICE = 2_972_672

# The default machine, without tools.
SETTINGS = """step_nm = [1000, 1000, 1000]
low_nm = [-1000000000, -1000000000, -1000000000]
high_nm = [1000000000, 1000000000, 1000000000]
traverse_nm_per_min = 6000000000
period_us = 50
tools_nm = []
"""


class Wrong(Exception):
    """Something isn't as it has to be."""


def contents(path):
    """The bytes of a file; none if it isn't there."""
    try:
        with open(path, "rb") as file:
            return file.read()
    except FileNotFoundError:
        return b""


def stored_device(name):
    """A device that the cases keep as rows of a sector, a place in it, and the bytes there; all other bytes are 0."""
    device = bytearray(DEVICE)
    with open(f"{HERE}/crates/ngc_cases/data/{name}.hex") as rows:
        for row in rows:
            sector, place, digits = row.split()
            start = 512 * int(sector) + int(place)
            device[start : start + len(digits) // 2] = bytes.fromhex(digits)
    return bytes(device)


@contextlib.contextmanager
def new_folder():
    """A folder in memory if there is one, since all writes to a device are synced. It is removed at the end."""
    with tempfile.TemporaryDirectory(dir="/dev/shm" if os.path.isdir("/dev/shm") else None) as folder:
        yield folder


def judge(name, programs, test):
    """Runs a test: says that it passed, or ends with status 1 and says what is wrong or which program is missing."""
    for program in programs:
        if not shutil.which(program):
            sys.exit(f"{name}: FAILED, there is no {program}")
    try:
        test()
    except Wrong as wrong:
        sys.exit(f"{name}: FAILED, {wrong}")
    print(f"{name}: passed")
