"""Home, jog and seek of tools/player, its inputs, and what stops it, over a simulated machine."""
import mmap
import os
import random
import struct
import subprocess
import sys
import time
import unittest
from collections.abc import Iterable
from dataclasses import replace
from pathlib import Path

sys.path.insert(0, str(Path(__file__).resolve().parent))

from player_support import SANITIZERS, SOURCES, PlayerTest, built, has_sanitizers, record, sector
from session_support import PATIENCE_S, TOOLS
from out_support import text_of

from ngc_tools.formats.out import Switch
from ngc_tools.formats.record import BadRecord, FileMark, Record
from ngc_tools.link.progress import MoveReport

STOP, X_LOW, Y_LOW, Z_HIGH, DOOR, AT_SPEED, PROBE, X_HIGH = range(8)  # inputs
UM = 1  # a step is 1 um
MACHINE = """[motion]
accel_mm_s2 = [500, 500, 500]

[inputs]
emergency_stop = 0
limits_low = [1, 2, -1]
limits_high = [7, -1, 3]
door = 4
spindle_at_speed = 5
probe = 6
on_while_low = [0]
at_speed_s = 1

[home]
order = [2, 3, 1]
switch = [1, 2, 3]
direction = [-1, -1, 1]
fast_mm_min = [1500, 1500, 600]
slow_mm_min = [60, 60, 60]
pull_off_um = [2000, 2000, 1000]
at_um = [-8000, -7000, 9000]
way_mm = [40, 40, 40]
agree_um = 20
"""
_HEAD, _TOGGLE = struct.Struct("=8Q3q"), struct.Struct("=4i4q")
_BACKLASH = _HEAD.size + 8 * _TOGGLE.size
_WORK = _BACKLASH + 6 * 8
_DEEPEST, _SOLIDS = _WORK + 12 * 8, _WORK + 19 * 8
_GROWS = _SOLIDS + 6 * 7 * 8
_LOW = _GROWS + 2 * 8
BOX, POST, HOLE = 1, 2, 3
_INPUTS, _PULSES, _AT_PULSE, _TURNED, _IS_ON, _SPEED, _ERROR, _CHANCE = range(8)


class World:
    """The simulated machine: what its inputs are, and what its motors did."""

    def __init__(self) -> None:
        """Has switches of X and Y at -10 mm of its own, and of Z at 5 mm; the emergency stop isn't pressed: high."""
        with open("world", "wb") as file:
            file.write(bytes(_LOW + 8))
        with open("world", "r+b") as file:
            self._bytes = mmap.mmap(file.fileno(), 0)
        self.set(_INPUTS, 1 << STOP)
        self.set(_CHANCE, 12345)
        self.switch(0, X_LOW, 0, -1, -10_000)
        self.switch(1, Y_LOW, 1, -1, -10_000)
        self.switch(2, Z_HIGH, 2, 1, 5_000)

    def set(self, field: int, value: int) -> None:
        """Sets a number."""
        struct.pack_into("=Q", self._bytes, 8 * field, value)

    def get(self, field: int) -> int:
        """What a number is."""
        return int(struct.unpack_from("=Q", self._bytes, 8 * field)[0])

    def put(self, number: int, is_high: bool) -> None:
        """Sets an input by hand."""
        before = self.get(_INPUTS)
        self.set(_INPUTS, before | 1 << number if is_high else before & ~(1 << number))

    def switch(self, number: int, high: int, axis: int, sign: int, at: int, bounces: int = 0, drifts: int = 0) -> None:
        """Places a switch, in steps."""
        _TOGGLE.pack_into(self._bytes, _HEAD.size + number * _TOGGLE.size, 1, high, axis, sign, at, bounces, drifts, 0)

    def no_switch(self, number: int) -> None:
        """Takes one away."""
        _TOGGLE.pack_into(self._bytes, _HEAD.size + number * _TOGGLE.size, *[0] * 8)

    def wire(self, low: Iterable[int], at_speed: int) -> None:
        """How inputs are wired: these are low where others are high, and high where others are low. At `at_speed` the
        spindle tells that it turns."""
        struct.pack_into("=Q", self._bytes, _LOW, sum(1 << number for number in low))
        self.set(_SPEED, 1 << at_speed)

    @property
    def place(self) -> tuple[int, ...]:
        """Where the table is, in its own steps."""
        return struct.unpack_from("=3q", self._bytes, 64)

    @place.setter
    def place(self, at: tuple[int, int, int]) -> None:
        struct.pack_into("=3q", self._bytes, 64, *at)

    def loosen(self, backlash: tuple[int, int, int], turned_up: tuple[int, int, int]) -> None:
        """Gives screws backlash, of which so many steps were turned up."""
        struct.pack_into("=6q", self._bytes, _BACKLASH, *backlash, *turned_up)

    def solid(self, number: int, kind: int, low: tuple[int, ...], high: tuple[int, ...]) -> None:
        """Places a body, in steps: a box from `low` to `high`; a post or a hole about `low`, `high` being its radius
        and its top."""
        ends = (*low, 0)[:3], high if kind == BOX else (high[0], 0, high[1])
        struct.pack_into("=7q", self._bytes, _SOLIDS + 56 * number, kind, *ends[0], *ends[1])

    def tool(self, slot: int, length: int, radius: int = 0) -> None:
        """What hangs in the spindle with that slot in it, in steps."""
        struct.pack_into("=q", self._bytes, _WORK + 8 * (4 + slot), length)
        struct.pack_into("=q", self._bytes, _WORK + 8 * (8 + slot), radius)

    @property
    def slot(self) -> int:
        """The slot of what is in the spindle, as the player told it; 0 before it did."""
        return int(struct.unpack_from("=q", self._bytes, _WORK + 24)[0])

    def touching(self, number: int, bounces: int = 0, is_dumb: bool = False, grows: int = 0) -> None:
        """Which input is high while that touches a body; within `bounces` steps by chance. Behind the first touch, from
        now on, bodies are felt `grows` steps farther out."""
        struct.pack_into("=3q", self._bytes, _WORK, number, bounces, is_dumb)
        struct.pack_into("=2q", self._bytes, _GROWS, grows, 0)

    def forget_reached(self) -> None:
        """From now on it is noted anew where the table was."""
        struct.pack_into("=7q", self._bytes, _DEEPEST, -10**12, *self.place, *self.place)

    @property
    def reached(self) -> tuple[int, tuple[int, ...], tuple[int, ...]]:
        """Since then: how far what is in the spindle went into a body, less than 0 where it didn't, and the least and
        the greatest place of each axis."""
        deepest, *ends = struct.unpack_from("=7q", self._bytes, _DEEPEST)
        return deepest, tuple(ends[:3]), tuple(ends[3:])

    def close(self) -> None:
        """Lets go of its file."""
        self._bytes.close()


def program() -> str:
    """The player over the simulated machine, with the sanitizers where there are any."""
    sources = tuple(path for path in SOURCES if path.name not in ("pins.c", "input_pins.c"))
    return built(*(SANITIZERS if has_sanitizers() else ("-O2",)), sources=(*sources, TOOLS / "tests/machine_world.c"))


class Moving(PlayerTest):
    """A player over a simulated machine, with steps of 1 um and a travel of 10 mm each way."""

    def setUp(self) -> None:
        """Makes the machine, and a pipe."""
        super().setUp()
        settings = Path("first.toml").read_text()
        Path("first.toml").write_text(settings.replace("1000000000", "10000000"))
        Path("mill.toml").write_text(MACHINE)
        self.world = World()
        self.addCleanup(self.world.close)
        os.mkfifo("axis")

    def command(self) -> list[str]:
        """The player."""
        return [program()]

    def started(self, *words: str, changes: str = "--no-ask-tool") -> None:
        """Starts the player, and opens the pipe as `ngc` does."""
        self.child = self.begin(*words, changes, "--machine", "mill.toml", "--progress", "progress", "axis",
                                "first.toml", "position")
        self.link = self.linked()
        self.pipe = open("axis", "wb", buffering=0)
        self.addCleanup(self.pipe.close)

    def ended(self, status: int) -> str:
        """Ends the session: what was said."""
        self.link.end()
        self.pipe.close()
        _, said = self.child.communicate(timeout=PATIENCE_S)
        self.assertEqual(self.child.returncode, status, said)
        return said

    def how(self, taken: tuple[int, str]) -> str:
        """How a move ends, once it does; why it is refused, if it is."""
        number, refused = taken
        self.wait_for("the move is over", lambda: bool(refused) or self.link.machine().ended == number)
        return f"refused: {refused}" if refused else self.link.machine().how

    def at(self) -> tuple[float, ...]:
        """Where the motors are by the player, in mm."""
        return tuple(map(float, self.link.ask().at.split()))

    def told(self) -> None:
        """Says to the player that `ngc` knows where the machine is; once it answers after that, it has heard it."""
        self.link.at(self.link.ask().at)
        self.link.ask()

    def kept(self, *lines: str) -> None:
        """Waits until the record on the disk ends with these lines."""
        self.wait_for(f"the record says {lines}", lambda: record().splitlines()[-len(lines):] == list(lines))


class Homing(Moving):
    """`home`, without times."""

    def test_all(self) -> None:
        """Z first, then X and Y: each stands its pull-off away from the switch, at its coordinate."""
        self.started("--untimed")
        self.assertEqual(self.link.machine(), MoveReport("stands"))
        self.assertEqual(self.how(self.link.home()), "done")
        self.assertEqual(self.world.place, (-8_000, -8_000, 4_000))
        self.assertEqual(self.at(), (-8, -7, 9))
        self.assertEqual(self.link.machine(), MoveReport("stands", "XYZ", ended=self.link.machine().ended, how="done"))
        self.kept("reference -8.000000 -7.000000 9.000000", "homed XYZ", "off")
        self.assertEqual(Record.read("position").homed, "XYZ")
        self.assertEqual(self.ended(0), "")

    def test_some(self) -> None:
        """Those that are named, in the file's order."""
        self.started("--untimed")
        self.assertEqual(self.how(self.link.home("YX")), "done")
        self.assertEqual(self.world.place, (-8_000, -8_000, 0))
        self.assertEqual(self.link.machine().homed, "XY")
        self.assertEqual(self.how(self.link.home("XX")), "refused: it takes home N, or home N XZ")

    def test_pressed(self) -> None:
        """A switch that is on at first is left first; one that bounces, or comes on at another place within agree_um,
        does as well."""
        self.world.place = (-10_500, 0, 0)
        self.world.switch(1, Y_LOW, 1, -1, -10_000, bounces=10)
        self.world.switch(2, Z_HIGH, 2, 1, 5_000, drifts=10)
        self.started("--untimed")
        self.assertEqual(self.link.ask().word, "alarm")  # it is a limit, too
        self.assertEqual(self.how(self.link.home()), "done")
        x, y, z = self.world.place
        self.assertEqual((x, z), (-8_000, 4_020))  # it moved by 10 steps each time that it was left
        self.assertAlmostEqual(y, -8_000, delta=10)
        self.assertEqual(self.at(), (-8, -7, 9))
        self.assertEqual(self.link.ask().word, "moved")

    def test_sticks(self) -> None:
        """A switch that doesn't go off is named, and the axis isn't homed."""
        self.started("--untimed")
        self.world.switch(2, Z_HIGH, 2, 1, -100_000)
        self.assertEqual(self.how(self.link.home()), "Z: its switch stays on")
        self.assertEqual(self.link.machine().homed, "")
        self.assertEqual(self.world.place[2], -10_000)  # ten times the pull-off

    def test_out_of_reach(self) -> None:
        """A switch that isn't on within its way is named."""
        self.world.no_switch(0)
        self.started("--untimed")
        self.assertEqual(self.how(self.link.home()), "X: its switch isn't on within 40.000 mm")
        self.assertEqual(self.world.place, (-40_000, 0, 4_000))
        self.assertEqual(self.link.machine().homed, "Z")

    def test_way(self) -> None:
        """Without way_mm it is the travel, a tenth, and a millimetre."""
        Path("mill.toml").write_text(MACHINE.replace("way_mm = [40, 40, 40]\n", ""))
        self.world.no_switch(2)
        self.started("--untimed")
        self.assertEqual(self.how(self.link.home("Z")), "Z: its switch isn't on within 23.000 mm")

    def test_differ(self) -> None:
        """Two touches that are farther apart than agree_um are both told."""
        self.world.switch(2, Z_HIGH, 2, 1, 5_000, drifts=21)
        self.started("--untimed")
        self.assertEqual(self.how(self.link.home("Z")), "Z: two touches differ: 5.021000 and 5.042000")
        self.assertEqual(self.link.machine().homed, "")

    def test_stopped(self) -> None:
        """`stop` ends it by a ramp; the axis isn't homed."""
        self.world.no_switch(2)
        self.started()
        number, _ = self.link.home("Z")
        self.wait_for("it goes", lambda: self.link.ask().at != "0.000000 0.000000 0.000000")
        report = self.link.ask()
        self.assertEqual((report.word, report.behind), ("moves", 1))
        self.assertEqual(self.link.machine().does, "home Z")
        self.link.stop()
        self.assertEqual(self.how((number, "")), "stopped")
        self.assertEqual(self.link.machine(), MoveReport("stands", ended=number, how="stopped"))
        self.assertEqual(self.world.place[2], round(self.at()[2] * 1000))


class Jogging(Moving):
    """`jog` and `seek`."""

    def test_for(self) -> None:
        """So far, with ramps; then the lines go on from there, and the record is true."""
        self.started("--untimed")
        self.assertEqual(self.how(self.link.jog("X+", "600", "1.25")), "done")
        self.assertEqual(self.how(self.link.jog("Y-", "60.5", "0.5")), "done")
        self.assertEqual((self.world.place, self.at()), ((1_250, -500, 0), (1.25, -0.5, 0)))
        self.kept("reference 1.250000 -0.500000 0.000000", "off")
        self.told()
        self.pipe.write(b"P 1 0 0 50\n")
        self.wait_for("the line is carried out", lambda: self.link.ask().carried == 1)
        self.kept("reference 1.251000 -0.500000 0.000000")
        self.assertEqual(record(), "lines 1\nbytes 11\noutputs S 0 0.000000 0 0 0 0\n"
                                   "reference 1.251000 -0.500000 0.000000\n")
        self.assertEqual(self.ended(0), "")

    def test_untold(self) -> None:
        """Behind a move no line is carried out before somebody says that `ngc` knows where the motors are; another
        player waits for that too, and doesn't begin where nobody could say it. At another point `ngc` isn't told."""
        self.started()
        self.assertEqual(self.how(self.link.jog("X+", "600", "1")), "done")
        self.pipe.write(b"P 1 0 0 50\n" * 10)
        self.wait_for("lines are in hand", lambda: self.link.ask().received == 10)
        self.link.at("1.5 0 0")
        self.link.release()
        self.link.last()
        time.sleep(0.1)
        report = self.link.ask()
        self.assertEqual((report.word, report.carried, report.is_held, self.world.place), ("moved", 0, False,
                                                                                        (1_000, 0, 0)))
        self.told()
        self.wait_for("they are carried out", lambda: self.link.ask().carried == 10)
        self.assertEqual(self.link.ask().word, "works")
        self.assertEqual(self.how(self.link.jog("Y+", "600", "1")), "done")
        self.assertEqual(self.ended(0), "axis: lines came, and the motors moved without lines before: they stand until"
                                        " `at X Y Z` says that ngc knows where\n")
        words = ("--untimed", "axis", "first.toml", "position")
        why = ("position: the motors were moved without lines, and ngc may not know where they are: --at X Y Z tells"
               " where the machine stands")
        for others in ((), ("--machine", "mill.toml"), ("--progress", "progress")):
            self.assertEqual(self.refused(*others, *words), why)
        self.started()
        self.assertEqual((self.link.ask().word, self.at()), ("moved", (1.01, 1, 0)))
        self.assertEqual(self.how(self.link.jog("Y-", "600", "1")), "done")
        self.assertEqual(self.link.ask().word, "moved")  # where `ngc` was told last isn't known to this player
        self.told()
        self.assertEqual(self.how(self.link.jog("X+", "600", "1")), "done")
        self.assertEqual(self.how(self.link.jog("X-", "600", "1")), "done")  # where `ngc` takes it to be
        self.assertEqual(self.link.ask().word, "works")
        self.ended(0)

    def test_held(self) -> None:
        """As long as it is repeated: to rest once it isn't, and by a ramp."""
        self.started()
        number, refused = self.link.jog("X+", "60")
        self.assertEqual(refused, "")
        for _ in range(3):
            time.sleep(0.05)
            self.link.keep_on(number, "X+", "60")
        self.assertEqual(self.how((number, "")), "the key isn't held any more")
        self.assertGreater(self.world.place[0], 0)
        self.assertEqual(self.at(), (self.world.place[0] / 1000, 0, 0))
        self.link.keep_on(number, "X+", "60")  # one that comes late begins nothing
        self.assertEqual(self.link.machine().does, "stands")
        number, _ = self.link.jog("X-", "60")
        self.link.stop()
        self.assertEqual(self.how((number, "")), "stopped")

    def waits_for_tool(self, *words: str) -> None:
        """Over a file as OUT, whose lines go 5 steps along X, ask for tool 3, and go 5 along Y: waits for it."""
        Path("out").write_text("P 1 0 0 50\n" * 5 + "S 0 0.000000 0 0 3 3\n" + "P 0 1 0 50\n" * 5)
        self.begins_over_file(*words)
        self.link.synced(Path("out").stat().st_size)
        self.wait_for("it waits", lambda: (self.link.ask().waits, self.link.ask().received) == (True, 11))

    def begins_over_file(self, *words: str) -> None:
        """Starts the player, which follows the file."""
        self.child = self.begin("--untimed", "--follow", "--machine", "mill.toml", "--progress", "progress", *words,
                                "out", "first.toml", "position")
        self.link = self.linked()

    def ends_over_file(self) -> None:
        """The tool is in, the lines behind it are carried out, and lead where they do."""
        self.link.go()
        self.link.last()
        self.wait_for("it is through", lambda: self.link.ask().carried == 11)
        self.assertEqual((self.world.place, self.at()), ((5, 5, 0), (0.005, 0.005, 0)))
        self.link.end()
        self.child.communicate(timeout=PATIENCE_S)
        self.assertEqual(self.child.returncode, 0)

    def test_while_a_tool_is_waited_for(self) -> None:
        """The motors jog and seek then, and don't home. The tool is in only once they are back: neither a word for that
        counts before, nor a place that is told, and the lines behind it go on from where those before it lead."""
        self.world.switch(3, PROBE, 2, -1, -3_000)
        self.waits_for_tool()
        self.assertEqual(self.how(self.link.home()), "refused: a tool is waited for: home once it is in")
        for way, length in (("Z+", "2"), ("X+", "1"), ("Y-", "0.5")):
            self.assertEqual(self.how(self.link.jog(way, "600", length)), "done")
        for says in (self.link.go, lambda: self.link.at("1.005 -0.5 2"), self.link.go):
            says()
            report = self.link.ask()
            self.assertEqual((report.waits, report.tool, report.carried, report.received), (True, 3, 5, 11))
        self.assertEqual((self.world.place, self.link.leads()), ((1_005, -500, 2_000), "0.005000 0.000000 0.000000"))
        self.assertEqual(self.how(self.link.seek("Z-", "600", "6")), "done")
        self.assertEqual(self.link.machine().touched, "1.005000 -0.500000 -3.000000")
        number, _ = self.link.jog("X-", "60", "1")
        self.link.go()  # amid a move
        self.assertTrue(self.link.ask().waits)
        self.assertEqual(self.how((number, "")), "done")
        for way, length in (("Z+", f"{-self.at()[2]:.3f}"), ("Y+", "0.5")):
            self.assertEqual(self.how(self.link.jog(way, "600", length)), "done")
        self.ends_over_file()

    def test_tool_behind_a_jog(self) -> None:
        """Where they were jogged before, the line that asks for a tool leads on from there: they have to be back there.
        """
        self.started(changes="--untimed")
        self.assertEqual(self.how(self.link.jog("X+", "600", "1")), "done")
        self.told()
        self.pipe.write(b"S 0 0.000000 0 0 3 3\n")
        self.wait_for("it waits", lambda: self.link.ask().waits)
        self.assertEqual(self.link.leads(), "")  # at once, though the record may be older
        self.assertEqual(self.how(self.link.jog("Z+", "600", "2")), "done")
        self.assertEqual(self.link.leads(), "1.000000 0.000000 0.000000")
        self.link.go()
        self.assertTrue(self.link.ask().waits)
        self.assertEqual(self.how(self.link.jog("Z-", "600", "2")), "done")
        self.link.go()
        self.wait_for("it is through", lambda: self.link.ask().carried == 1)
        self.assertEqual(self.world.place, (1_000, 0, 0))
        self.ended(0)

    def test_tool_right_behind_a_jog(self) -> None:
        """So it does at once, while the record on the disk is still of before that line, and leads to before the jog.
        """
        self.started(changes="--untimed")
        for slot in range(1, 9):
            self.assertEqual(self.how(self.link.jog("X+", "600", "0.1")), "done")
            self.wait_for("the record leads elsewhere", lambda: bool(self.link.leads()))
            self.told()
            self.pipe.write(b"S 0 0.000000 0 0 %d %d\n" % (slot, slot))
            while not self.link.ask().waits:
                pass
            self.assertEqual(self.link.leads(), "")
            self.link.go()
            self.wait_for("it is through", lambda: self.link.ask().carried == slot)
        self.ended(0)

    def test_power_lost_while_a_tool_is_waited_for(self) -> None:
        """Wherever they were jogged then, the record says that and where the lines lead; the next player goes there by
        legs alone, and asks for the tool again."""
        self.waits_for_tool()
        self.assertEqual(self.how(self.link.jog("Z+", "600", "2")), "done")
        self.assertEqual(self.how(self.link.jog("X+", "600", "1")), "done")
        self.wait_for("it is kept", lambda: Record.read("position").at_nm == (1_005_000, 0, 2_000_000))
        self.child.kill()
        self.child.communicate()
        found = Record.read("position")
        self.assertEqual((found.lines, found.at_nm, found.path_nm), (5, (1_005_000, 0, 2_000_000), (5_000, 0, 0)))
        self.begins_over_file()
        report = self.link.ask()
        self.assertEqual((report.word, report.carried, report.received, report.waits), ("moved", 5, 5, False))
        self.link.legs("3", "0.005 0 0", found.size)
        self.wait_for("they are there", lambda: (self.at(), self.link.ask().word) == ((0.005, 0, 0), "works"))
        self.link.synced(Path("out").stat().st_size)
        self.wait_for("it waits again", lambda: self.link.ask().waits)
        self.ends_over_file()

    def test_left_alone(self) -> None:
        """Nobody asks any more: a move of some length comes to rest."""
        self.started()
        number, _ = self.link.jog("X+", "60", "9")
        self.link.close()
        self.wait_for("it moves", lambda: self.world.place[0] > 0)
        self.kept_still()
        self.assertLess(self.world.place[0], 9_000)
        self.link = self.linked()
        self.assertEqual(self.link.machine(), MoveReport("stands", ended=number, how="nobody asks any more"))

    def kept_still(self) -> None:
        """Waits until the motors stood for half a second."""
        seen = [(0.0, (0,))]

        def stands() -> bool:
            place, now = self.world.place, time.monotonic()
            if place != seen[-1][1]:
                seen.append((now, place))
            return now > seen[-1][0] + 0.5

        self.wait_for("the motors stand", stands)

    def test_cut_off(self) -> None:
        """Before a move's first pulse the record on the disk says that it is under way: a player that finds that isn't
        sure where the motors are, over moves and other players too, until somebody tells it, or all axes are homed."""
        self.started()
        self.link.jog("X+", "6")  # a pulse each 10 ms
        self.wait_for("it moves", lambda: self.world.place[0] > 0)
        self.kept("off", "stopped moving")
        self.lost()
        self.assertEqual(self.refused("--untimed", "axis", "first.toml", "position"),
                         "position: the motors were moved without lines, and ngc may not know where they are: --at X Y"
                         " Z tells where the machine stands")
        self.started("--untimed")
        self.assertEqual(self.link.ask().word, "unsure")
        self.assertEqual(self.how(self.link.jog("Y+", "600", "1")), "done")
        self.assertEqual(self.link.ask().word, "unsure")
        self.wait_for("it is kept", lambda: Record.read("position").at_nm[1] == 1_000_000)
        self.lost()
        self.started("--untimed")
        self.assertEqual(self.link.ask().word, "unsure")
        self.told()
        self.wait_for("it is kept", lambda: Record.read("position").stopped == "")
        self.lost()
        self.started("--untimed")
        self.assertEqual(self.link.ask().word, "works")
        self.link.home("Z")
        self.wait_for("it homes", lambda: self.world.place[2] > 0)
        self.lost()
        self.started("--untimed")
        self.assertEqual(self.link.ask().word, "unsure")
        self.assertEqual(self.how(self.link.home()), "done")
        self.assertEqual((self.link.ask().word, self.at()), ("moved", (-8, -7, 9)))
        self.kept("homed XYZ", "off")

    def lost(self) -> None:
        """The player is gone, as by a loss of power."""
        self.child.kill()
        self.child.communicate()
        self.pipe.close()

    def test_travel(self) -> None:
        """None goes beyond its travel."""
        self.started("--untimed", "--at", "9.5", "0", "0")
        self.assertEqual(self.how(self.link.jog("X+", "600", "0.501")), "refused: X ends at 10.000000")
        self.assertEqual(self.how(self.link.jog("X+", "600")), "X ends at 10.000000")
        self.assertEqual(self.world.place, (500, 0, 0))
        self.assertEqual(self.how(self.link.jog("X+", "600")), "refused: X ends at 10.000000")
        self.assertEqual(self.how(self.link.seek("X+", "600", "1")), "refused: X ends at 10.000000")
        self.assertEqual(self.how(self.link.jog("X-", "600", "2.5")), "done")
        self.assertEqual(self.at(), (7.5, 0, 0))

    def test_seek(self) -> None:
        """To the probe: the point is told, and the motors stand behind it by a stop's way."""
        self.started("--untimed")
        self.world.switch(3, PROBE, 2, -1, -3_000)
        self.assertEqual(self.how(self.link.seek("Z-", "600", "5")), "done")
        self.assertEqual(self.link.machine().touched, "0.000000 0.000000 -3.000000")
        self.assertAlmostEqual(self.world.place[2], -3_100, delta=2)  # (10 mm/s)^2 / 2 / 500 mm/s2 = 0.1 mm
        self.assertEqual(self.link.machine().on, ("probe",))
        self.assertEqual(self.how(self.link.seek("Z-", "600", "5")), "refused: the probe is on already")
        self.assertEqual(self.how(self.link.jog("Z+", "600", "2")), "done")
        self.assertEqual(self.how(self.link.seek("X-", "600", "1.5")), "the probe isn't touched within 1.500000 mm")
        self.assertEqual(self.link.machine().touched, "")

    def test_refused(self) -> None:
        """Lines in hand, a hold, and words that aren't right."""
        self.started()
        self.link.hold()
        self.pipe.write(b"P 1 0 0 50\n" * 10)
        self.wait_for("it is held", lambda: self.link.ask().is_held and self.link.ask().received == 10)
        self.assertEqual(self.how(self.link.jog("X+", "60", "1")), "refused: lines are in hand")
        self.link.release()
        self.link.last()
        self.wait_for("they are carried out", lambda: self.link.ask().behind == 0)
        self.link.hold()
        self.assertEqual(self.how(self.link.jog("X+", "60", "1")), "refused: held: release comes first")
        self.link.release()
        form = "refused: it takes jog N X+ RATE, or jog N X+ RATE for MM"
        for way, rate, length in (("X", "60", "1"), ("A+", "60", "1"), ("X+", "0", "1"), ("X+", "-6", "1"),
                                  ("X+", "60", "0"), ("X+", "60", "x"), ("X+", "100001", "")):
            self.assertEqual(self.how(self.link.jog(way, rate, length)), form, way)
        self.assertEqual(self.how(self.link.jog("X+", "60", "0.0001")), "refused: it is less than a step")
        self.pipe.write(b"S 0 1.000000 0 1 0 0\n")
        self.wait_for("the coolant is on", lambda: self.link.ask().outputs.flood)
        self.assertEqual(self.how(self.link.home()), "refused: the spindle or the coolant is on")
        self.assertEqual(self.how(self.link.seek("X+", "60", "1")), "refused: the spindle or the coolant is on")
        number, _ = self.link.jog("X+", "60", "9")
        self.assertEqual(self.how(self.link.jog("X-", "60", "1")), "refused: a move is under way")
        self.link.stop()
        self.assertEqual(self.how((number, "")), "stopped")

    def test_words_by_chance(self) -> None:
        """Whatever words come, it answers, and its count is where the motors are."""
        self.world.switch(3, PROBE, 0, 1, 3_000)
        self.started("--untimed")
        chance = random.Random(65)
        tokens = ("home", "jog", "seek", "stop", "machine", "X+", "Y-", "Z+", "X", "XZ", "ZZ", "for", "within", "600",
                  "0.3", "1e3", "-1", "999999999999.999999", "1000000000000", "18446744073709551615", "0", "", "\0",
                  "\xff")
        for number in range(1, 400):
            words = [chance.choice(tokens[:5]), str(number)] if chance.random() < 0.8 else []
            words += [chance.choice(tokens) for _ in range(chance.randint(0, 5))]
            if chance.random() < 0.4:
                words = [f"jog {number} {chance.choice('XYZ')}{chance.choice('+-')} 600 for 0.{chance.randint(0, 999)}"]
            self.link.socket.send(" ".join(words).encode("latin-1"))
            self.assertEqual(self.link.ask().carried, 0)
        self.link.stop()
        self.wait_for("it stands", lambda: self.link.machine().does == "stands")
        self.assertIsNone(self.child.poll())
        if not self.link.machine().homed:
            self.assertEqual(self.at(), tuple(each / 1000 for each in self.world.place))

    def test_next_console(self) -> None:
        """A move that another console asks for as its first one isn't taken for the first one of the console before."""
        self.started("--untimed")
        for way in ("X+", "Y+"):
            self.link = self.linked()
            self.assertEqual(self.how(self.link.jog(way, "600", "1")), "done")
        self.assertEqual(self.at(), (1, 1, 0))

    def test_half_done(self) -> None:
        """Lines that the last session left are no lines in hand: the count stays, and along them it doesn't go then."""
        Path("out").write_text("P 1 0 0 50\n" * 30)
        child = self.begin("--untimed", "--follow", "--machine", "mill.toml", "--progress", "progress", "out",
                           "first.toml", "position")
        self.link = self.linked()
        self.link.synced(110)
        self.wait_for("ten lines are carried out", lambda: self.link.ask().carried == 10)
        self.assertEqual(self.how(self.link.jog("Y+", "600", "1")), "done")
        self.link.along(330)
        self.kept("reference 0.010000 1.000000 0.000000", "path 0.010000 0.000000 0.000000", "off")
        self.assertEqual(self.link.leads(), "0.010000 0.000000 0.000000")
        self.assertEqual((self.link.ask().carried, self.link.ask().behind), (10, 0))
        self.link.legs("2", "0.010 0 0", 110)
        self.wait_for("legs lead back", lambda: self.at() == (0.01, 0, 0) and self.link.ask().behind == 0)
        self.kept("reference 0.010000 0.000000 0.000000")
        self.assertEqual(self.how(self.link.jog("Z+", "600", "1")), "done")
        self.assertEqual(self.how(self.link.jog("Z-", "600", "1")), "done")  # where they left it, on the path again
        self.link.along(330)
        self.wait_for("it goes on along them", lambda: self.link.ask().carried == 30)
        self.assertEqual(self.world.place, (30, 0, 0))
        self.link.end()
        self.assertEqual(child.communicate(timeout=PATIENCE_S)[1].splitlines()[1:],
                         ["out: it doesn't go: the motors were moved off the path of OUT: legs lead back to it"])


class Alarms(Moving):
    """The emergency stop, limits, the door, the spindle's speed."""

    def alarmed(self, number: int, pulse: int) -> None:
        """An input comes on at a pulse, among lines: the state of alarm, checked."""
        self.world.set(_PULSES, 0)
        self.world.set(_TURNED, 1 << number)
        self.world.set(_AT_PULSE, pulse)
        self.world.set(_SPEED, 1 << AT_SPEED)
        self.started("--untimed")
        self.told()
        before = self.world.place
        x, y, z = self.at()
        self.pipe.write(b"S 1 1000.000000 1 0 0 0\n" + b"P 1 0 0 50\n" * 3_000)
        self.wait_for("it stops", lambda: self.link.ask().word == "alarm")
        self.assertEqual((self.world.get(_PULSES), self.world.get(_IS_ON)), (pulse, 0))
        self.assertEqual(self.world.place, (before[0] + pulse, *before[1:]))
        word = "emergency" if number == STOP else "limit"
        self.kept(f"stopped {word}")
        found = Record.read("position")
        self.assertEqual((found.lines, found.outputs.spindle, found.outputs.mist), (pulse + 1, 0, False))
        self.assertEqual(found.at_nm, (round(x * 1e6) + 1000 * pulse, round(y * 1e6), round(z * 1e6)))
        self.assertEqual(self.link.machine().alarm, "emergency_stop" if number == STOP else "limits")

    def test_at_once(self) -> None:
        """At a pulse by chance no further one is made, the outputs are off, and the record says where and why. Nothing
        but home is taken, and no line that was in hand is carried out after it."""
        chance = random.Random(65)
        for number in (STOP, X_HIGH, Y_LOW, Z_HIGH) * 2:
            pulse = chance.randint(1, 2_900)
            with self.subTest(pulse=pulse, number=number):
                self.alarmed(number, pulse)
                self.assertEqual(self.how(self.link.jog("X-", "600", "1")),
                                 "refused: the emergency stop is on" if number == STOP else
                                 "refused: the alarm stands: home comes first")
                if number == STOP:
                    self.assertEqual(self.how(self.link.home()), "refused: the emergency stop is on")
                    self.world.set(_AT_PULSE, 0)
                    self.wait_for("it is known", lambda: not self.link.machine().on)
                    self.assertEqual(self.how(self.link.jog("X-", "600", "1")),
                                     "refused: the alarm stands: home comes first")
                self.world.set(_AT_PULSE, 0)
                self.assertEqual(self.how(self.link.home("XZ")), "done")
                self.assertEqual(self.link.ask().word, "alarm")
                self.assertEqual(self.how(self.link.home("Y")), "done")
                self.assertEqual((self.link.ask().word, self.at()), ("broken", (-8, -7, 9)))
                self.pipe.write(b"P 1 0 0 50\n" * 10)
                self.assertEqual(self.how(self.link.jog("X+", "600", "1")), "done")
                self.assertEqual(self.at(), (-7, -7, 9))
                said = self.ended(1)
                self.assertRegex(said, f"axis: the (emergency stop|limit [XYZ].) is on, after line {pulse + 1}: the"
                                       " motors stopped at once; spindle and coolant off; home the machine\n")
                self.assertIn("axis: the session is over, and lines in hand weren't carried out; spindle and coolant"
                              " off", said)
                self.assertEqual(Record.read("position").stopped, "")

    def test_with_nothing_in_hand(self) -> None:
        """After home lines go on."""
        self.started("--untimed")
        self.pipe.write(b"P 1 0 0 50\n" * 10)
        self.wait_for("they are carried out", lambda: self.link.ask().carried == 10)
        self.world.put(STOP, False)
        self.wait_for("it is an alarm", lambda: self.link.ask().word == "alarm")
        self.link.at("1 2 3")  # isn't heeded
        self.world.put(STOP, True)
        self.wait_for("it is known", lambda: not self.link.machine().on)
        self.assertEqual(self.at(), (0.01, 0, 0))
        self.assertEqual(self.how(self.link.home()), "done")
        self.assertEqual(self.link.ask().word, "moved")
        self.told()
        self.pipe.write(b"P 1 0 0 50\n" * 10)
        self.wait_for("they are carried out", lambda: self.link.ask().carried == 20)
        self.assertEqual(self.at(), (-7.99, -7, 9))
        self.ended(0)

    def test_axis_without_home(self) -> None:
        """An axis that [home] doesn't name isn't believed: a person tells where it stands, once the others are homed,
        and while the emergency stop is off."""
        Path("mill.toml").write_text(MACHINE.replace("order = [2, 3, 1]", "order = [2, 0, 1]"))
        self.started("--untimed", "--at", "1", "2", "3")
        self.world.put(STOP, False)
        self.wait_for("it is an alarm", lambda: self.link.ask().word == "alarm")
        self.world.put(STOP, True)
        self.wait_for("it is known", lambda: not self.link.machine().on)
        self.assertEqual(self.how(self.link.home("X")), "done")
        self.untold("-8 2.5 3")  # Z can be homed, and isn't
        self.assertEqual(self.how(self.link.home()), "done")
        self.assertEqual((self.link.machine().homed, self.at()), ("XZ", (-8, 2, 9)))
        self.kept("homed XZ", "off", "stopped emergency")
        self.untold("-8.001 2.5 9")  # of a homed axis it knows better
        self.world.put(STOP, False)
        self.wait_for("what was homed isn't any more", lambda: not self.link.machine().homed)
        self.world.put(STOP, True)
        self.wait_for("it is known", lambda: not self.link.machine().on)
        self.untold("-8 2.5 9")
        self.assertEqual(self.how(self.link.home()), "done")
        self.link.at("-8 2.5 9")
        self.assertEqual((self.link.ask().word, self.at()), ("moved", (-8, 2.5, 9)))
        self.kept("homed XZ", "off")
        self.told()
        self.pipe.write(b"P 0 1 0 50\n" * 10)
        self.link.last()
        self.wait_for("lines go on", lambda: self.at() == (-8, 2.51, 9))
        self.ended(0)

    def untold(self, place: str) -> None:
        """A place doesn't end an alarm, nor moves it the count."""
        before = self.at()
        self.link.at(place)
        self.assertEqual((self.link.ask().word, self.at()), ("alarm", before))

    def test_another_player(self) -> None:
        """An alarm stays over other players: until one homes, or is told where the machine stands."""
        self.alarmed(STOP, 100)
        self.child.kill()
        self.child.communicate()
        self.pipe.close()
        self.world.set(_AT_PULSE, 0)
        words = ("axis", "first.toml", "position")
        why = "position: the emergency stop stopped the motors, and where they are isn't known: --at X Y Z tells it"
        self.assertEqual(self.refused(*words), why)
        self.assertEqual(self.refused("--machine", "mill.toml", *words), why)
        self.started("--untimed")
        self.pipe.write(b"P 1 0 0 50\n")
        self.assertEqual(self.link.ask().word, "alarm")
        self.ended(1)
        self.assertEqual((Record.read("position").lines, Record.read("position").stopped), (0, "emergency"))
        self.started("--untimed", "--at", "1", "2", "3")
        self.assertEqual((self.link.ask().word, self.at()), ("works", (1, 2, 3)))
        self.ended(0)
        self.assertEqual(Record.read("position").stopped, "")

    def test_within_home(self) -> None:
        """An emergency stop, or another limit, stops a home at once."""
        self.world.set(_AT_PULSE, 5_500)  # X is on its way
        self.world.set(_TURNED, 1 << STOP)
        self.started("--untimed")
        self.assertEqual(self.how(self.link.home()),
                         "the emergency stop is on, after line 0: the motors stopped at once")
        self.assertEqual((self.world.get(_PULSES), self.link.ask().word), (5_500, "alarm"))
        self.kept("stopped emergency")
        self.world.set(_AT_PULSE, 0)
        self.wait_for("it is known", lambda: not self.link.machine().on)
        self.world.set(_PULSES, 0)
        self.world.set(_AT_PULSE, 300)
        self.world.set(_TURNED, 1 << X_HIGH)
        self.assertRegex(self.how(self.link.home()), r"^the limit X\+ is on, after line 0: ")
        self.assertEqual(self.world.get(_PULSES), 300)

    def test_at_a_tool_change(self) -> None:
        """Amid a jog there it stops dead; who is asked for a tool isn't any more, and the line isn't carried out."""
        self.started(changes="--untimed")
        self.pipe.write(b"S 0 0.000000 0 0 3 3\nP 1 0 0 50\n")
        self.wait_for("it waits", lambda: self.link.ask().waits)
        self.world.set(_AT_PULSE, 300)
        self.world.set(_TURNED, 1 << STOP)
        self.assertEqual(self.how(self.link.jog("X+", "60", "1")),
                         "the emergency stop is on, after line 0: the motors stopped at once")
        self.assertEqual((self.world.get(_PULSES), self.link.ask().word), (300, "alarm"))
        self.world.set(_AT_PULSE, 0)
        self.wait_for("it is known", lambda: not self.link.machine().on)
        self.assertEqual(self.how(self.link.home()), "done")
        report = self.link.ask()
        self.assertEqual((report.word, report.waits, report.carried, report.outputs.slot), ("broken", False, 0, 0))
        self.ended(1)

    def test_on_the_way_back(self) -> None:
        """Stopped on a way back along OUT the record says how far it came; legs alone lead on after home."""
        Path("out").write_text("P 1 0 0 50\n" * 3_000)
        self.child = self.begin("--untimed", "--follow", "--machine", "mill.toml", "--progress", "progress", "out",
                                "first.toml", "position")
        self.link = self.linked()
        self.link.synced(33_000)
        self.wait_for("it is carried out", lambda: self.link.ask().carried == 3_000)
        self.world.set(_TURNED, 1 << X_HIGH)
        self.world.set(_AT_PULSE, 4_200)
        self.link.along(0)
        self.wait_for("it stops", lambda: self.link.ask().word == "alarm")
        self.kept("stopped limit")
        found = Record.read("position")
        self.assertEqual((found.lines, found.size, found.at_nm), (1_800, 19_800, (1_800_000, 0, 0)))
        self.world.set(_AT_PULSE, 0)
        self.wait_for("it is known", lambda: not self.link.machine().on)
        self.assertEqual(self.how(self.link.home()), "done")
        self.link.along(33_000)
        self.link.synced(33_000)
        self.assertEqual((self.link.ask().word, self.link.ask().carried, self.at()), ("broken", 1_800, (-8, -7, 9)))
        self.link.end()
        self.child.communicate(timeout=PATIENCE_S)
        self.assertEqual(self.child.returncode, 1)

    def test_door(self) -> None:
        """It holds by a ramp, and isn't released while it is open."""
        self.started()
        self.pipe.write(b"P 1 0 0 100\n" * 20_000)
        self.wait_for("it moves", lambda: self.world.place[0] > 100)
        self.world.put(DOOR, True)
        self.wait_for("it is held", lambda: self.link.ask().is_held)
        self.link.release()
        place = self.world.place
        self.assertTrue(self.link.ask().is_held)
        self.world.put(DOOR, False)
        self.wait_for("it is known", lambda: not self.link.machine().on)
        self.assertEqual((self.world.place, self.link.ask().is_held), (place, True))
        self.link.release()
        self.link.last()
        self.wait_for("it goes on", lambda: self.link.ask().carried == 20_000)
        self.world.put(DOOR, True)
        self.wait_for("it is open", lambda: bool(self.link.machine().on))
        self.assertEqual(self.how(self.link.jog("X+", "60", "1")), "refused: the door is open")
        self.assertEqual(self.ended(0), "axis: the door is open: held; release goes on once it is closed\n" * 2)

    def test_at_speed(self) -> None:
        """A switch waits for the spindle; after its time it is held, and waits again once it is released."""
        self.started()
        self.pipe.write(b"S 1 1000.000000 0 0 0 0\nP 1 0 0 50\nS 0 1000.000000 0 0 0 0\n")
        self.wait_for("it waits", lambda: self.link.ask().word == "waits spindle")
        self.wait_for("it is held", lambda: self.link.ask().is_held)
        self.assertEqual(self.link.ask().carried, 0)
        self.link.release()
        self.wait_for("it waits again", lambda: self.link.ask().word == "waits spindle")
        self.world.set(_SPEED, 1 << AT_SPEED)
        self.link.last()
        self.wait_for("it goes on", lambda: self.link.ask().carried == 3)
        self.assertRegex(self.ended(0), r"^(line 1: the spindle isn't at its speed after 1 s: held; release waits"
                                        r" again\n)+$")

    def test_without_home(self) -> None:
        """Where nobody could home the machine, the player ends at once."""
        Path("mill.toml").write_text(MACHINE.partition("[home]")[0])
        self.started()
        self.world.put(STOP, False)
        _, said = self.child.communicate(timeout=PATIENCE_S)
        self.assertEqual(self.child.returncode, 1)
        self.assertIn("start anew with --at X Y Z\n", said)
        self.assertEqual(Record.read("position").stopped, "emergency")


class Files(Moving):
    """What the machine's file may say."""

    def test_refused(self) -> None:
        """By name and key."""
        home = MACHINE[MACHINE.index("[home]"):]
        for before, after, said in (
                ("door = 4", "door = 16", "inputs: door takes a whole number from -1 to 15"),
                ("door = 4", "doors = 4", "inputs has a key that isn't one of its eight: doors"),
                ("low = [0]", "low = [16]", "inputs: on_while_low takes at most sixteen whole numbers from 0 to 15"),
                ("low = [0]", "low = 0", "inputs: on_while_low takes at most sixteen whole numbers from 0 to 15"),
                ("at_speed_s = 1", "at_speed_s = 0", "inputs: at_speed_s takes a whole number from 1 to 3600"),
                ("limits_low = [1, 2, -1]", "limits_low = [1, 2]",
                 "inputs: limits_low takes three whole numbers from -1 to 15"),
                ("order = [2, 3, 1]", "order = [2, 2, 1]",
                 "home: order has a number twice: one axis is homed after the other"),
                ("order = [2, 3, 1]", "order = [2, 3, 4]", "home: order takes three whole numbers from 0 to 3"),
                ("switch = [1, 2, 3]\n", "", "home: switch is missing: three whole numbers from 0 to 15"),
                ("direction = [-1, -1, 1]", "direction = [-1, 0, 1]",
                 "home: direction of Y is 0, and takes -1 or 1"),
                ("at_um = [-8000,", "at_um = [-10001,", "home: at_um of X is -10001: it lies outside the travel"),
                ("way_mm = [40, ", "way_mm = [0, ", "home: way_mm takes three whole numbers from 1 to 100000"),
                (home, home + home, "25: the table [home] stands twice")):
            self.assertIn(before, MACHINE)
            Path("wrong.toml").write_text(MACHINE.replace(before, after, 1))
            words = ("--machine", "wrong.toml", "--progress", "progress", "axis", "first.toml", "position")
            self.assertEqual(self.refused(*words).removeprefix("wrong.toml:").strip(), said)
        self.assertFalse(Path("position").exists())

    def test_without_progress(self) -> None:
        """A door needs somebody who says that it goes on."""
        self.assertEqual(self.refused("--machine", "mill.toml", "axis", "first.toml", "position"),
                         "mill.toml: inputs: the door takes --progress: nobody could say that the machine goes on")

    def test_without_inputs(self) -> None:
        """The pins of the player as it comes have none."""
        done = subprocess.run([built("-O2"), "-m", "mill.toml", "-s", "progress", "axis", "first.toml", "position"],
                              capture_output=True, text=True, timeout=PATIENCE_S)
        self.assertEqual((done.returncode, done.stderr),
                         (2, "player: mill.toml: inputs: the pins of this player have none\n"))

    def test_records(self) -> None:
        """Both read the lines that a home and a move without lines leave."""
        whole = Record("/axis", homed="XZ", is_off=True, stopped="limit")
        self.assertEqual(Record.of_text(text_of(whole), "position"), whole)
        longest = Record("/" + "a" * 235, 10**14, 10**14, Switch(2, 9_999_999_999_999, True, True, 128, 128),
                         (-(10**18 - 1),) * 3, FileMark(2**63 - 1, 2**63 - 1, 2**32 - 1), "emergency", 9999, "XYZ",
                         True, "998 998 998")
        self.assertEqual(Record.of_text(text_of(longest), "position"), longest)
        beside = replace(longest, out="/" + "a" * 100, path_nm=(-2_500, 0, 999_999_999_999_999_999))
        self.assertIn(b"\npath -0.002500 0.000000 999999999999.999999\nscrews ", text_of(beside))
        self.assertEqual(Record.of_text(text_of(beside), "position"), beside)
        self.assertEqual(text_of(replace(longest, path_nm=(1, 2, 3))), text_of(longest))  # OUT's name leaves no room
        there = replace(beside, path_nm=beside.at_nm)  # before the first pulse that leaves it
        self.assertEqual(Record.of_text(text_of(there), "position"), there)
        self.assertEqual(text_of(replace(there, is_off=False)), text_of(replace(beside, is_off=False, path_nm=None)))
        Path("position").write_bytes(text_of(longest))
        self.assertEqual(self.refused("axis", "first.toml", "position"),
                         "position: the emergency stop stopped the motors, and where they are isn't known: --at X Y Z"
                         " tells it")
        for lines in (("homed ",), ("homed ZX",), ("homed A",), ("off", "homed X"), ("offs",), ("screws",),
                      ("screws + -",), ("screws + - ??",), ("screws + - 0",), ("screws 999 - +",), ("screws + 07 -",),
                      ("path 1 2",), ("path 1 2 3 4",), ("path 1 2 .",), ("path 1  2",), ("path 1 2 3.1234567",),
                      ("screws + - +", "path 1 2 3")):
            text = sector("out /axis", "lines 0", "bytes 0", "outputs S 0 0.000000 0 0 0 0", "reference 0 0 0", *lines)
            self.assertRaises(BadRecord, Record.of_text, text, "position")
            Path("position").write_bytes(text)
            self.assertIn(f"line {5 + len(lines)} is no line of a record",
                          self.refused("axis", "first.toml", "position"))


if __name__ == "__main__":
    unittest.main()
