"""What `ngc` does with a device's file, call by call, by a library that tells its calls and changes the device at a
read (device_calls.c). What is expected is said in docs/DEVICE.md and by `ngc dry --help`."""
import os
import subprocess
import sys
import unittest
from pathlib import Path

sys.path.insert(0, str(Path(__file__).resolve().parent))

from session_support import PATIENCE_S, InFolder, ngc

from ngc_tools.formats.device import LARGE_SIZE, SECTOR, SIZE

SECTORS = SIZE // SECTOR
UNITS_SECTOR, HOME_SECTOR = 88, 169
"""Where the third epoch's snapshot has its units, and #5161: there are 86 sectors for each parity of the epoch, from
sector 2 on. The first of them has the modes, each other one 64 parameters."""


class DeviceCalls(InFolder):
    """A test in whose folder the library is loaded before `ngc`."""

    def setUp(self) -> None:
        """Builds the library."""
        super().setUp()
        source = Path(__file__).resolve().parent / "device_calls.c"
        words = ["cc", "-std=c11", "-Wall", "-Wextra", "-Werror", "-shared", "-fPIC", source, "-o", "calls.so"]
        subprocess.run(words, check=True)

    def run_told(self, *words: str, **env: str) -> tuple[int, str]:
        """The status of `ngc` and what it writes; its calls are in the file `calls` afterwards."""
        Path("calls").unlink(missing_ok=True)
        done = subprocess.run([ngc(), *words], env={**os.environ, "LD_PRELOAD": f"{self.folder}/calls.so", **env},
                              stdin=subprocess.DEVNULL, capture_output=True, text=True, timeout=PATIENCE_S)
        return done.returncode, done.stdout

    @staticmethod
    def calls() -> list[list[str]]:
        """The calls of the last run, each in words."""
        return [line.split() for line in Path("calls").read_text().splitlines()]


class Readings(DeviceCalls):
    """`dry --from` while a session changes the device."""

    def setUp(self) -> None:
        """Two devices in files, of one session after the other: in millimetres with #5161 of 1, in inches with 2. Each
        was powered on once more, so both have that in the snapshot of one parity, the later one over the earlier."""
        super().setUp()
        self.device()
        for line, name in (("G21 #5161=1", "before.dev"), ("G20 #5161=2", "after.dev")):
            self.assertEqual(self.run_ngc(f"mdi {line}\ntick 100\n")[1].split()[0], "done")
            self.run_ngc("")
            Path(name).write_bytes(Path("mill.dev").read_bytes())
        Path("home.ngc").write_text("G0 X#5161\nM2\n")

    def dry(self, **env: str) -> tuple[int, str]:
        """The status of a dry run from the device, and its first line."""
        status, text = self.run_told("dry", "--from", "mill.dev", "home.ngc", **env)
        return status, text.partition("\n")[0]

    def test_one_moment(self) -> None:
        """Where the device changes between two sectors, the run begins with what it held before or after, and with
        nothing between: never two millimetres."""
        before = 0, "STRAIGHT_TRAVERSE(1.000000, 0.000000, 0.000000)"
        after = 0, "STRAIGHT_TRAVERSE(50.800000, 0.000000, 0.000000)"
        for name, wanted in (("before.dev", before), ("after.dev", after)):
            Path("mill.dev").write_bytes(Path(name).read_bytes())
            self.assertEqual(self.dry(), wanted)
        for at in (1, UNITS_SECTOR + 2, HOME_SECTOR, SECTORS, SECTORS + 1, SECTORS + HOME_SECTOR):
            Path("mill.dev").write_bytes(Path("before.dev").read_bytes())
            with self.subTest(read=at):
                self.assertEqual(self.dry(DEVICE_CHANGES=str(at)), after)

    def test_never_the_same(self) -> None:
        """A device that changes all the time is refused in the end, and a run writes nothing else."""
        self.assertEqual(self.run_told("dry", "--from", "mill.dev", "home.ngc", DEVICE_CHANGES="all"),
                         (2, "refused J1 DeviceFailed\n"))

    def test_only_reads(self) -> None:
        """It neither writes to a file nor syncs one."""
        self.assertEqual(self.dry()[0], 0)
        self.assertFalse(Path("calls").exists())


class Durable(DeviceCalls):
    """What is written and synced of a device that is made, grown, or begun with."""

    def test_new(self) -> None:
        """A new device is written in full and synced, then its folder is, before its format writes anything; and what
        that writes is synced."""
        self.assertEqual(self.run_told("format", "mill.dev"), (0, ""))
        calls = self.calls()
        folder = calls.index(["sync", "."])
        self.assertEqual(calls[folder - 1], ["sync", "mill.dev"])
        made = calls[:folder - 1]
        self.assertEqual({call[0] for call in made}, {"write"})
        self.assertEqual(sum(int(size) for _, _, _, size in made), SIZE)
        self.assertEqual(calls[-1], ["sync", "mill.dev"])
        self.assertIn("write", {call[0] for call in calls[folder:]})

    def test_grown(self) -> None:
        """A device that grows has its last sector written once more before it is synced. So has one that is long
        enough, since a sync of the call that lengthened it may have failed. No byte changes."""
        self.device()
        last = ["write", "mill.dev", str(LARGE_SIZE - SECTOR), str(SECTOR)]
        self.assertEqual(self.run_told("grow", "mill.dev"), (0, ""))
        self.assertEqual(self.calls()[-2:], [last, ["sync", "mill.dev"]])
        held = Path("mill.dev").read_bytes()
        self.assertEqual(self.run_told("grow", "mill.dev"), (0, ""))
        self.assertEqual(self.calls(), [last, ["sync", "mill.dev"]])
        self.assertEqual(Path("mill.dev").read_bytes(), held)

    def test_run(self) -> None:
        """A session first writes each sector of its device again, the last one twice, and syncs."""
        self.device()
        self.assertEqual(self.run_told("run", "mill.dev", "first.toml", "out")[0], 0)
        places = *range(0, SIZE, SECTOR), SIZE - SECTOR
        first = [["write", "mill.dev", str(place), str(SECTOR)] for place in places]
        self.assertEqual(self.calls()[:SECTORS + 2], [*first, ["sync", "mill.dev"]])


class Acknowledged(DeviceCalls):
    """What a session tells of."""

    def test_synced(self) -> None:
        """Nothing is answered, and nothing is handed out, while something that was written to the device isn't synced.
        """
        self.device()
        program = "G21\nG0 X0.02\nG1 Y0.02 F600\nM2\n"
        told = f"mdi G0 X0.01\ntick 100\nload {len(program)}\n{program}start\ntick 1000\n"
        with open("said", "wb") as said:
            subprocess.run([ngc(), "run", "mill.dev", "first.toml", "out"], input=told.encode(), stdout=said,
                           env={**os.environ, "LD_PRELOAD": f"{self.folder}/calls.so"}, timeout=PATIENCE_S, check=True)
        found, is_synced = {"said": 0, "out": 0, "mill.dev": 0}, True
        for call, name, *_ in self.calls():
            found[name] += 1
            if name == "mill.dev":
                is_synced = call == "sync"
            else:
                self.assertTrue(is_synced, found)
        self.assertEqual(Path("said").read_text().count("done "), 6)
        self.assertGreaterEqual(found["out"], Path("out").read_bytes().count(b"\n"))
        self.assertGreater(found["said"], 6)


if __name__ == "__main__":
    unittest.main()
