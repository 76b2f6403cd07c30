"""What tests of the probe and the setter share: the operator's core, tools/player, and the simulated machine with work
that can be touched."""
import os
import subprocess
from pathlib import Path

from session_support import InFolder, ngc
from test_moves import PROBE, STOP, World, program
from test_operator import ListFace

from ngc_tools.formats.device import Device
from ngc_tools.link.progress import Link, NoAnswer
from ngc_tools.ngc.console import Console, Status
from ngc_tools.operator.face import SAID
from ngc_tools.operator.meter import Meter
from ngc_tools.operator.operator import Operator
from ngc_tools.operator.recovery import OutFound
from ngc_tools.operator.setter import Setter
from ngc_tools.operator.synced import SYNCED_AT_ONCE, SYNCED_PARTS, SyncedLink

MACHINE = """[motion]
accel_mm_s2 = [500, 500, 500]

[inputs]
emergency_stop = 0
probe = 6
on_while_low = [0]

[setter]
height_um = -30000
at_um = [40000, 30000, 35000]
probe_tool = 1
fast_mm_min = 600
slow_mm_min = 60
"""
"""Its ramps take 0.1 mm to rest from 600 mm a minute."""
REST = 110
"""Steps of 1 um within which the motors rest behind a fast touch."""


class AtMachine(ListFace):
    """A face of somebody who puts in each tool that is asked for, and may do more before."""

    def __init__(self, *answers: str) -> None:
        super().__init__(*answers)
        self.puts_in = ["go"]

    def say(self, text: str, kind: str = SAID) -> None:
        """Keeps it."""
        super().say(text, kind)
        if text.startswith("the player waits for"):
            self.given += self.puts_in


class Bench(InFolder):
    """A machine with steps of 1 um and a travel of 50 mm each way, which stands at 0, known. The probe, tool 1, is 20
    mm long, its ball 2 mm wide, and it is in the spindle."""

    maxDiff = None
    words = ("--untimed", "--no-ask-tool")

    def setUp(self) -> None:
        """Starts the player and the console."""
        super().setUp()
        self.device()
        Path("first.toml").write_text(Path("first.toml").read_text().replace("1000000000", "50000000"))
        Path("mill.toml").write_text(MACHINE)
        Path("out").touch()
        self.world = World()
        self.addCleanup(self.world.close)
        for number in range(3):
            self.world.no_switch(number)
        self.world.touching(PROBE)
        self.world.put(STOP, True)
        for slot, length, radius in ((0, 0, 0), (1, 20_000, 1_000), (2, 15_000, 0), (3, 30_000, 0)):
            self.world.tool(slot, length, radius)
        self.world.forget_reached()
        self.player = subprocess.Popen([program(), *self.words, "-f", "-s", "progress", "-m", "mill.toml", "out",
                                        "first.toml", "position"], stdin=subprocess.DEVNULL, stdout=subprocess.PIPE,
                                       stderr=subprocess.PIPE, text=True)
        self.addCleanup(self._end, self.player)
        self.wait_for("the player listens", self._listens)
        self.face = AtMachine()
        self._begin()

    def _listens(self) -> bool:
        if not os.path.exists("progress"):
            return False
        try:
            Link("progress").close()
        except NoAnswer:
            return False
        return True

    def _begin(self) -> None:
        """Begins the session, as `ngc-operate` does, with the probe in the spindle."""
        meter = Meter(SyncedLink("progress", "out", device="mill.dev"))
        out = OutFound.of(ngc(), "first.toml", meter.link, Device.read("mill.dev"))
        console = Console(ngc(), "mill.dev", "first.toml", "out")
        self.addCleanup(console.kill)
        meter.parts, meter.at_once = SYNCED_PARTS, SYNCED_AT_ONCE
        self.operator = Operator(console, self.face, meter)
        self.addCleanup(meter.link.close)
        console.status()
        self.operator.recover.found = out
        self.operator.know(Setter.read("mill.toml"))
        self.operator.begin("bound")
        self.do("reference 0 0 0", "tool 1 20", "tool 2 15", "shape 1 2 ball", "T1 M6", "G43 H1")
        self.world.forget_reached()

    def do(self, *lines: str, answers: tuple[str, ...] = ()) -> list[str]:
        """What is said once these are typed, and these questions answered."""
        self.face.said.clear()
        self.face.asked.clear()
        self.face.answers = list(answers)
        for line in lines:
            self.operator.do(line)
        self.assertEqual(self.face.answers, [], (self.face.said, self.face.asked))
        return [text for _, text in self.face.said]

    def status(self) -> Status:
        """The status of `ngc`."""
        return self.operator.console.status()

    def stays_within(self, low: tuple[int, ...], high: tuple[int, ...], deepest: int = REST) -> None:
        """The table stayed within this, and the ball went at most so far into a body, in steps, since that was asked
        last."""
        depth, least, greatest = self.world.reached
        self.assertTrue(all(end <= at for end, at in zip(low, least)), (least, low))
        self.assertTrue(all(at <= end for end, at in zip(high, greatest)), (greatest, high))
        self.assertLessEqual(depth, deepest)
        self.world.forget_reached()
