"""The settings and the machine's file that `ngc-setup` writes, with a comment on each key."""
import json
from collections.abc import Sequence

from ngc_tools.formats.settings import Settings

_SETTINGS = """# The settings of this machine, for ngc (SETTINGS.md). Axes are in the order X, Y, Z.

# Nanometres that an axis moves by one step: 10 to 1000000.
step_nm = {step_nm}

# The least machine coordinate of each axis in nanometres: -10000000000 to 0.
low_nm = {low_nm}

# The greatest machine coordinate of each axis in nanometres: 0 to 10000000000.
high_nm = {high_nm}

# Nanometres a minute of a traverse: 1 to 100000000000.
traverse_nm_per_min = {traverse_nm_per_min}

# The least time between two steps in microseconds: 1 to 1000000. No feed and no traverse is faster than a step of the
# axis each time that this passes.
period_us = {period_us}

# Tool lengths in nanometres of slots 1, 2 and so on, for ngc dry alone: 0 to 1000000000, at most 128 of them; [] for
# none. A session takes those of the device.
tools_nm = {tools_nm}
"""

_MACHINE = """# What the motors of this machine allow, and what is wired to it, for ngc pace, the players and the page
# (docs/tools/player.md, MACHINE.md, SINK.md). Axes are in the order X, Y, Z.

[motion]
# mm/s2 that an axis gains or loses: 1 to 1000000. To find it: MACHINE.md, "Motors".
accel_mm_s2 = {accel}
# The most mm a minute of each axis: 0 to 100000; 0 for what a program asks for.
rate_mm_min = [0, 0, 0]
# mm a minute at which each motor starts and stops at once: 0 to 100000.
start_mm_min = [0, 0, 0]
# How many steps a motor may be off its pulses: 1 to 64.
slack_steps = 2
# The most percent that an override of the rate may be: 100 to 200.
most_percent = 100

[window]
# How many lines to have in hand: 0 to 8000; 0 for as many as the ramps need.
lines = 0

[wait]
# Seconds that the spindle is given to start, to stop and to turn round: 0 to 3600.
spindle_s = 4

[backlash]
# Steps that a screw turns before its table follows: 0 to 999. To find them: MACHINE.md, "Backlash".
steps = [0, 0, 0]
{sink}
# What follows is for what is wired. Take away the # of a table and of its keys once that is so, and try each by itself.

# [spindle]
# The most turns a minute: 1 to 9999999. Without it no override of the speed is above 100 %.
# max_rpm = 12000

# [inputs]
# Numbers of inputs, 0 to 15; -1 for none. The emergency stop cuts the motors' power by wire all the same.
# emergency_stop = 0
# Where the travel of each axis begins; several may share an input.
# limits_low = [1, 2, 3]
# Where it ends.
# limits_high = [1, 2, 3]
# The door.
# door = -1
# On while the spindle has its speed.
# spindle_at_speed = -1
# The probe, or the tool setter.
# probe = -1
# Those whose contact closes to ground; the others are on while their pin is high. At most sixteen.
# on_while_low = []
# Seconds that a switch waits for the spindle's speed: 1 to 3600.
# at_speed_s = 10

# [home]
# Which axis goes first, second and third: 1 to 3; 0 for one without a switch.
# order = [2, 3, 1]
# The input of each axis's switch, 0 to 15; it may be that of a limit.
# switch = [1, 2, 3]
# The way to the switch: -1 or 1.
# direction = [-1, -1, 1]
# mm a minute to the switch at first: 1 to 100000.
# fast_mm_min = [300, 300, 300]
# mm a minute of the two touches: 1 to 100000.
# slow_mm_min = [60, 60, 60]
# How far from the switch an axis stands at the end, in micrometres: 1 to 1000000.
# pull_off_um = [2000, 2000, 2000]
# The machine coordinate where it stands then, in micrometres: -10000000 to 10000000.
# at_um = {at_um}
# In how many mm its switch is: 1 to 100000.
# way_mm = {way_mm}
# By how many micrometres two touches may differ: 0 to 1000000.
# agree_um = 20

# [setter]
# The machine Z at which a tool of length 0 touches the tool setter, in micrometres: -10000000 to 10000000.
# height_um = -80000
# The machine point above the setter, in micrometres: over to its X and Y at its Z.
# at_um = [0, 0, 0]
# The probe's slot of the tool table, which has its length and its ball's diameter: 1 to 128.
# probe_tool = 9
# The ball's radius in micrometres, where the table has no diameter of it: 0 to 50000.
# probe_radius_um = 1000
# mm a minute at which a place is sought: 1 to 100000.
# fast_mm_min = 300
# mm a minute at which it is touched once more: 1 to 100000.
# slow_mm_min = 30
# How far back in between, in micrometres: 1 to 50000.
# retract_um = 1000
# By how many micrometres both touches may differ: 0 to 1000000.
# agree_um = 50
"""

_SINK = """
[sink]
# The serial line of the step sink (SINK.md). A name in /dev/serial/by-id stays the same over a restart.
line = {line}
# Its rate: 115200 to 4000000. The firmware here has 2000000.
baud = 2000000
# Microseconds for which an input has to be on before it stops the motors dead: 0 to 10000.
debounce_us = 0
"""


def settings_text(settings: Settings) -> str:
    """The settings."""
    values = {key: list(value) if isinstance(value, tuple) else value
              for key in Settings.__slots__ for value in [getattr(settings, key)]}
    return _SETTINGS.format(**values)


def machine_text(accel_mm_s2: Sequence[int], line: str | None, settings: Settings) -> str:
    """The machine's file. Without a sink's line there is no [sink]. What it proposes for [home], in comments, is the
    travel of these settings: X and Y low, Z high."""
    at_um = [settings.low_nm[0] // 1000 + 2000, settings.low_nm[1] // 1000 + 2000, settings.high_nm[2] // 1000 - 2000]
    ways = [max(1, (high - low) * 11 // (10 * 10**6)) for low, high in zip(settings.low_nm, settings.high_nm)]
    sink = "" if line is None else _SINK.format(line=json.dumps(line, ensure_ascii=False))
    return _MACHINE.format(accel=list(accel_mm_s2), sink=sink, at_um=at_um, way_mm=ways)
