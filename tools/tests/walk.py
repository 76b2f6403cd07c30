#!/usr/bin/env python3
"""Walks the operator's page by chance, and looks at each step whether what it says is so.

    NGC=PATH tools/tests/walk.py [--seed N] [--seconds S] [--steps N] [--again FILE] [--keep-on] [--tell]

A person's touches at the buttons that a page in Chromium shows, at moments by chance: jobs, jogs, typed lines, holds,
reloads, more pages; and the door, the emergency stop, limits, kills of the player, of the page's server, of `ngc`, and
losses of power, over a simulated machine that tells what its motors made. Each walk has so many steps, and begins with
a fresh machine; the walk of a seed is followed by that of the next one. One that fails prints its seed, what was wrong,
and the steps that lead there, shortened: `--again FILE` does these steps."""
import argparse
import json
import os
import random
import re
import signal
import sys
import tempfile
import time
import traceback
from collections import Counter
from collections.abc import Callable
from contextlib import suppress
from dataclasses import dataclass, field
from pathlib import Path

sys.path.insert(0, str(Path(__file__).resolve().parent))

from browser_support import ANSWERS_S, Failed, chromium
from session_support import PATIENCE_S, memory
from walk_late import Lateness
from walk_machine import JOBS, LIMITS, NO_HOME_SWITCH, Bench
from walk_page import Seen, Tabs
from walk_rules import ANSWER_S, Judge, Truth, Wrong, changes, motors_of, number, within_of
from walk_touches import Press, choices_kept, chosen, confirmed, flicked, refusals, second_tap, switched_off, taken

STEPS = 50
BEGINS_S = 1.0
"""So soon what was asked for has begun; what moves before may be just that. Of what a page asked for before it was
loaded anew, or another one was used, nothing else tells when it was answered."""
STILL_S = 0.15
"""Motors that made no pulse for so long rest, but in a dwell."""
WAYS = 60
"""In so many steps a person has to get on, whatever came; to wait is none, unless nothing comes of it."""
_DIGITS = re.compile(r"\d+(?:\.\d+)?")

Step = tuple[str, ...]
"""What was done, as ("touch", "Run")."""

HEAD = "G17 G21 G90 G94 G40 G49\n"
PROGRAMS = (
    HEAD + "M3 S1000\nG0 X3 Y3\nG1 Z-1 F300\nG1 X8 F600\nY8\nX3\nY3\nG0 Z2\nM5\nM2\n",
    HEAD + "T1 M6\nG43 H1\nM3 S2000\nM8\nG0 X5 Y5\nG1 X9 F120\nM5\nM9\nT2 M6\nG43 H2\nM4 S900\nG1 Y9 F300\nM2\n",
    HEAD + "M3 S800\nG1 X12 F180\n/G1 Y4\nM1\nG0 X1\nM0 (MSG, turn the part)\nG1 X2 F300\nM30\n",
    HEAD + "G1 X4 F60\nG1 X8\nG1 X4\nM2\n",
    HEAD + "M7\nM3 S1500\nG2 X6 Y6 I3 J3 F500\nG4 P0.2\nG81 X8 Y8 Z-2 R1 F200\nX10\nG80\nM2\n",
    HEAD + "G0 X20\nG0 Y20\nG0 X0 Y0\nG0 X20 Y20\nG0 X0 Y0\nM2\n",
    HEAD + "G1 X5 F600\nG1 X99 F600\nM2\n",
    "G20\nG0 X0.2\nG1 X0.5 F20\nG21\nM2\n",
)
LINES = ("G0 X1", "G0 X5 Y5", "G1 X3 F300", "G0 Z2", "G0 Z0", "M3 S500", "M5", "M8", "M9", "G91", "G90", "G20", "G21",
         "G91 G28 Z0", "G0 X500", "G1 Y2", "T1 M6", "T2 M6", "nonsense", "G43 H1", "G49", "G1 X30 F900", "M4 S1200",
         "G4 P0.1", "G54", "G55", "(a word)", "G53 G0 Z4", "G53 G0 X30 Y30 Z-8")


def _typed(*lines: str) -> tuple[Step, ...]:
    """Lines, each of which is through before the next one."""
    return tuple(step for line in lines for step in (("type", line), ("wait", "1.2")))


def _probed(routine: str, *lines: str, entries: tuple[Step, ...] = ()) -> tuple[Step, ...]:
    """The probe goes into the spindle, and where these lines lead; there a routine begins."""
    return (("type", "T1 M6"), ("touch", "Tool 1 is in"), *_typed("G43 H1", "M5", "G53 G0 Z4", *lines),
            ("touch", "Setup"), ("touch", "Probe the work\u2026 @Seek the probe"), ("touch", routine), *entries,
            ("touch", "Probe"), ("touch", "Yes: begins"), *[("wait", "5.0")] * 4)


ROUTINES = (
    _probed("XYEdge", "G53 G0 X14 Y30", "G53 G0 Z-17"), _probed("XYOutside corner", "G53 G0 X15 Y15", "G53 G0 Z-17"),
    _probed("XZSurface", "G53 G0 X30 Y30", "G53 G0 Z-8"),
    _probed("XZBoss", "G53 G0 X10 Y40", "G53 G0 Z-12", entries=(
        ("fill", "Its width, about, in mm", "8"), ("fill", "At most, to each face, in mm", "3"))),
    (("type", "T2 M6"), ("touch", "Tool 2 is in"), *_typed("M5", "G53 G0 Z4"), ("touch", "Setup"),
     ("touch", "Measure tool 2\u2026 @Touch off a tool"), ("touch", "Yes: measures"), *[("wait", "5.0")] * 4))
"""The steps by which a routine of the probe, or a measure, begins, and some of its time; a button with a picture is
named by its axes too. What comes of it is by chance."""
DAILY = (
    (("touch", "Setup"), ("touch", "By keys or gamepad"), ("key", "ArrowRight", "0.5"), ("key", "PageUp", "0.3"),
     ("key", "ArrowDown", "0.8"), ("touch", "0.1"), ("key", "z", "0.1"), ("key", "+", "0.1"), ("key", "-", "0.1")),
    (("touch", "Setup"), ("touch", "Offsets\u2026 @Work zero"), ("fill", "G54 X, in mm", "2.5"), ("touch", "Set G54"),
     ("wait", "0.5"), ("touch", "Back")),
    (("load", "0"), ("touch", "Load"), ("wait", "0.5"), ("touch", "Program"), ("row", "7"),
     ("touch", "From line 7\u2026"), ("wait", "1.0"), ("fill", "Answer", "4"), ("touch", "Go on"), ("wait", "1.0"),
     ("fill", "Answer", "600"), ("touch", "Go on"), ("wait", "1.0"), ("touch", "Yes: stores and begins it"),
     ("wait", "2.0"), ("touch", "On, as it should be: the spindle, clockwise at 1000"),
     ("touch", "The right tool is in, and sound"), ("touch", "The way is free, and my hand is at Hold"),
     ("touch", "Yes: goes there"), ("wait", "1.0")),
    (("touch", "Load\u2026"), ("wait", "1.0")), (("touch", "Log"), ("touch", "Record of runs"), ("touch", "Back")))
"""The steps by which something else begins that is done each day."""
NUMBERS = ("0", "1", "2.5", "-3", "4", "10", "-40", "0.1", "x")

_WEIGHTS: tuple[tuple[str, float], ...] = (
    (r"^From line \d+\u2026", 3), (r"^(Load\u2026|Offsets\u2026|By keys)", 0.6),
    (r"^(Run|Continue|Let go on|Tool .* (in|out)$|Yes|It is done|Go on|Load$|Recover|Home)", 9),
    (r"^(Next|Confirm|Go along|Go by|Resume|Rehearse again|Start ngc|They stand|It stands)", 7),
    (r"^(Spindle.* off|Coolant off|Take over|Where |Restore|Drop|Give up|Yes, give)", 5), (r"^(Stop|From line 1)", 1),
    (r"^(Set |Undo|Tool \d+ stands|Where the probe|[XYZ]([+\u2212]|$| @))", 2),
    (r"^(Back|No|Later|Close)", 2),
    (r"^(Program|Setup|Tools|Log)$", 1.2),
    (r"^(Probe|Measure tool \d)", 3), (r"^X[YZ](Edge|Outside corner|Surface|Boss)$", 6), (r"^Read the macros", 0.2),
    (r"^(Top|3-D|Fit|Light|Dark|All that|Stock|So far|After the job|Draw anew|As assumed|Flat|Ball|V$)", 0.2),
    (r"^Quit", 0.25), (r"^(Hold|Do$|English|Deutsch)", 0),  # the person knows the buttons by their English names
)
_WAYS_ON = (
    r"Take over", r"Yes, give it up", r"Yes: (cuts|drops)", r"(They|It) stand", r"Tool .* (is in|is out|in)$", r"Home$",
    r"Drop", r"Give up",
    r"Where is", r"Where the player counts", r"No\b", r"Next", r"Confirm", r"Start ngc again", r"Stop", r"Yes",
    r"It is done", r"Recover", r"Home all$",
    r"Continue", r"Let go on", r"Go on", r"Back", r"Close", r"Load")
_FORWARDS, _WAITS = len(_WAYS_ON) - 3, 8
"""What a person touches who wants to get on, the first of these that there is; the last three once nothing else comes.
"""
_MOVING = re.compile(r"^(Run|Continue|Let go on|Tool .* (in|out)$|Yes|It is done|Go on|Recover|Home|Restore|Resume"
                     r"|Go along|Go by|Resume|Above work zero|Park|Lift |To the boss|[XYZ]([+\u2212]| @|$))")
_BY_RECORD = "by the record"
"""A yes to a question with these words says that the motors stand where the player has them."""
_AXIS = re.compile(r"^([XYZ])([+\u2212]?)( @.*)?$")
_STORES = "Yes: stores"
"""Behind this yes a look is asked for, and before that nothing moves."""
KEYS = {"ArrowRight": "X+", "ArrowLeft": "X-", "ArrowUp": "Y+", "ArrowDown": "Y-", "PageUp": "Z+", "PageDown": "Z-"}
WHEEL = ("+", "-", "x", "y", "z")
"""What a wheel sends: a step, and of which axis."""
LET_GO_S = 0.15
"""So soon a key that was let go is heeded."""


@dataclass
class Covered:
    """What walks did."""

    tells: bool = False
    walks: int = 0
    steps: Counter = field(default_factory=Counter)
    buttons: Counter = field(default_factory=Counter)
    checked: Counter = field(default_factory=Counter)
    words: Counter = field(default_factory=Counter)

    def __str__(self) -> str:
        steps = ", ".join(f"{count} {name}" for name, count in self.steps.most_common())
        checked = ", ".join(f"{count} of {name}" for name, count in self.checked.most_common())
        return (f"{self.walks} walks, {sum(self.steps.values())} steps: {steps}; {len(self.buttons)} buttons touched;"
                f" the band said {', '.join(self.words)}; looked at: {checked}")


class Walk:
    """One walk over a fresh machine, in the working folder."""

    def __init__(self, tabs: Tabs, late: Lateness, covered: Covered) -> None:
        self.tabs, self.late, self.covered = tabs, late, covered
        self.bench = Bench()
        self.judge = Judge(self.bench, late)
        self.done: list[Step] = []
        self.has_stop, self.has_door = False, False
        self.limit = ""  # whose switch is on by hand
        self.pressed: tuple[str, Seen] | None = None  # the button that was touched in this step, as it was seen
        self.seen: Seen | None = None
        self.chosen: dict[str, bool] = {}
        self.chosen_in = ""  # the session

    @property
    def truth(self) -> Truth:
        """What the person knows."""
        return self.judge.truth

    def begin(self) -> None:
        """All is started, and a page is open."""
        os.mkdir(JOBS)
        for number_, text in enumerate(PROGRAMS):
            Path(JOBS, f"part{number_}.ngc").write_text(text)
        self.bench.start_player()
        self.bench.start_server()
        self.tabs.add(self.bench.address)
        self.seen = self.tabs.see()

    def close(self) -> None:
        """Ends all of it."""
        self.tabs.drop_all()
        self.bench.close()
        self.covered.checked.update(self.judge.checked)

    # a step, and what comes of it

    def do(self, step: Step) -> None:
        """Does a step, and looks at what comes of it. Raises Wrong."""
        self.done.append(step)
        self.covered.steps[step[0]] += 1
        begun, self.pressed = time.monotonic(), None
        getattr(self, f"_do_{step[0]}")(*step[1:])
        did = time.monotonic()
        self.settle()
        if self.pressed and self.tabs.sessions and self.bench.has_server():
            self._taken()
        if self.covered.tells:
            took = f"{did - begun:.2f} + {time.monotonic() - did:.2f} s"
            print(f"  {step} {took}; {self.seen and self.seen.word}", flush=True)
        if self.seen is not None:
            self.covered.words[self.seen.word] += 1

    def settle(self, most_s: float = 1.0) -> None:
        """Waits until all rests, or goes on for a while; all that is seen meanwhile has to be so."""
        begun = time.monotonic()
        while True:
            if self.tabs.sessions and self.bench.has_server():
                self.seen = self.tabs.see()
                if not self.seen.busy and self.seen.does == "idle":
                    self.truth.is_recovering = self.seen.half != "none"
                self.judge.all(self.seen)
            else:
                self.judge.moves()
            now, truth = time.monotonic(), self.truth
            is_still = self.bench.mill.last_pulse_at() < now - STILL_S
            if is_still and now - begun > 0.12 and not self._is_busy():
                if self._is_over(now):
                    truth.rest()
                    self._homed()
                return
            if now - begun > (0.35 if not is_still else most_s):
                return
            time.sleep(0.03)

    def _is_busy(self) -> bool:
        """Whether something is under way by which it may move."""
        seen = self.seen
        if seen is None or not self.bench.has_player():
            return False
        return bool(seen.busy or seen.runs) and not (seen.question or seen.waits)

    def _is_over(self, now: float) -> bool:
        """Whether what was asked for last is over, or nothing has come of it in the time in which it begins; and all
        that moved was looked at. A player that is late pauses, and isn't through yet."""
        seen, truth, mill = self.seen, self.truth, self.bench.mill
        slack_s = self.judge.slack_s(truth.touched_at)
        is_answered = seen is None or not seen.asks and seen.now > seen.answered
        is_through = seen is None or not self.bench.has_player() or seen.held or not seen.behind
        rests = mill.last_pulse_at() < now - STILL_S - slack_s and mill.pulses == truth.quiet_pulses
        return is_answered and is_through and rests and now > truth.touched_at + BEGINS_S + slack_s

    def _homed(self) -> None:
        """Once all axes are homed the person knows where the machine is, whatever was told before."""
        seen, truth = self.seen, self.truth
        if truth.homes_at is None or seen is None:
            return
        said = [says for _, says in seen.log[:max(0, seen.logs - truth.homes_at)]]
        if any(says.endswith("homed: X Y Z") for says in said):
            truth.offset, truth.is_place_known, truth.late_mm = (0.0, 0.0, 0.0), True, 0.0
        truth.homes_at = None

    def press(self, button: int, text: str) -> bool:
        """Presses a button, and sees that something comes of it; False where it isn't there any more."""
        before = self.tabs.see()
        found = self.tabs.find("buttons", button) if _text(before, button) == text else None
        if found is None:
            return False
        self._licence(text, before)
        self.covered.buttons[_DIGITS.sub("#", text)] += 1
        self.truth.touched_at = time.monotonic()
        self.tabs.down(*found)
        self.tabs.up(*found)
        if text.startswith("Stop"):
            self._stops()
        if text.startswith("Confirm"):
            self._confirms(before, button)
        self.pressed = text, before
        if not before.buttons[button]["chosen"]:
            self._answered(text, before.buttons[button]["says"], before)
        posts = self.tabs.posts(before.posts)
        if any(post["what"] == "go" and post["ok"] is False for post in posts):
            self.truth.tool = None  # that it is in wasn't taken
        self._told_place(posts, before)
        return True

    def _stops(self) -> None:
        """After Stop the motors come to rest as after Hold, and spindle and coolant go off."""
        touched = self.truth.touched_at
        self.judge.hold(touched)
        self._rests_now()
        switched_off(self.judge, touched)

    def _confirms(self, seen: Seen, button: int) -> None:
        """What is confirmed is at most as far off as its button says, but for what somebody told wrong before."""
        confirms = [i for i, one in enumerate(seen.buttons) if one["says"].startswith(("Confirm", "\u2713"))]
        axis = confirms.index(button)
        entries = [one for one in seen.entries if one["label"].startswith("Machine ")]
        if len(confirms) != 3 or len(entries) != 3 or (value := number(entries[axis]["value"])) is None:
            return
        at_mm, offset = self.bench.mill.at_mm[axis], (self.truth.offset or (0.0, 0.0, 0.0))[axis]
        off_mm = min(abs(value - at_mm), abs(value - offset - at_mm))
        confirmed("XYZ"[axis], off_mm - self.truth.late_mm, seen.buttons[button]["says"])

    def _told_place(self, posts: list[dict], before: Seen) -> None:
        """Where the person told that the machine stands: what is shown is off by as much from then on."""
        truth, at_mm = self.truth, self.bench.mill.at_mm
        counted = motors_of(before)
        is_asked = _BY_RECORD in (before.question or {}).get("text", "").lower()
        for post in posts:
            body = json.loads(post["body"] or "{}")
            at = body.get("at") if post["what"] in ("reference", "recover", "stands") else None
            if at == "player" or post["what"] == "answer" and body.get("yes") and is_asked:
                at = counted
            if isinstance(at, list):
                at = dict(zip("XYZ", at))
            if isinstance(at, dict) and at:
                were = truth.offset or (0.0, 0.0, 0.0)
                told = [float(at[axis]) - at_mm["XYZ".index(axis)] if axis in at else were["XYZ".index(axis)]
                        for axis in "XYZ"]
                truth.offset, truth.is_place_known, truth.is_zero_asked = (told[0], told[1], told[2]), True, True
                truth.late_mm = 0.0

    def _answered(self, text: str, says: str, before: Seen) -> None:
        """Something has to come of a touch of an enabled button."""
        begun = time.monotonic()
        until = begun + ANSWER_S
        while True:
            posts, clicks = self.tabs.posts(before.posts), self.tabs.clicks(before.clicks)
            self.seen = after = self.tabs.see()
            if after.session != before.session or after.clicks < before.clicks:
                return
            if not any(click["text"].strip() == says for click in clicks):
                return  # it was made anew under the finger
            if flicked(posts):
                return
            if any(changes(before, after)) or after.logs > before.logs and after.log[0][0] in ("said", "refused"):
                return
            if any(post["ok"] is None for post in posts):  # what is waited for may take its time
                until = min(time.monotonic(), begun + PATIENCE_S) + ANSWER_S
            if time.monotonic() > until + self.judge.slack_s(until):
                raise Wrong("nothing comes of it", f"{text}, at {before.word}: {before.detail}; posted {posts}")
            time.sleep(0.03)

    def _taken(self) -> None:
        """What was touched last is taken, or refused for what the page couldn't know; and that is told beside Log."""
        text, before = self.pressed
        until = time.monotonic() + ANSWER_S
        while True:
            after = self.tabs.see()
            if after.session != before.session or after.clicks < before.clicks:
                return
            posts = self.tabs.posts(before.posts)
            told = refusals(posts, after.log[:max(0, after.logs - before.logs)])
            silent = [says for says in told if not _is_told(says, after)]
            if not silent:
                break
            if time.monotonic() > until + self.judge.slack_s(until):
                raise Wrong("refused in Log alone", f"{text}, at {before.word}: {silent[0]!r}; the page says"
                                                    f" {after.word}: {after.detail}")
            time.sleep(0.05)
        has_player = self.bench.has_player()
        for press in (Press(text, says, before, after, posts, has_player) for says in told):
            taken(self.judge, press)

    def _licence(self, text: str, seen: Seen) -> None:
        """A person asks for motion by some buttons, of some axes alone."""
        truth = self.truth
        self.judge.moves()  # what was before it was before it
        if seen.waits and re.match(r"Tool .* (in|out)$|It is done$", text):
            truth.tool, truth.tool_told_at = int(seen.waitsTool), time.monotonic()
        if not _MOVING.match(text) or text.startswith(_STORES):
            self._zero_asked(text)
            return
        asked = (seen.question or {}).get("text", "") if text.startswith("Yes") else ""
        truth.within = within_of(asked, self.bench.mill.at_mm, truth.offset or (0.0, 0.0, 0.0))
        if truth.within is not None:
            self.bench.mill.forget_reached()
        truth.measures = asked.startswith("measure tool") or truth.measures and "would get" in asked
        if axis := _AXIS.match(text):
            self._axis_asked({f"{axis[1]}{way}" for way in {"+": "+", "\u2212": "-", "": "+-"}[axis[2]]})
            return
        truth.may_move, truth.is_change_done = True, text.startswith("Tool")
        truth.ways, truth.is_zero_asked = None, True
        truth.without_lines = text.startswith("Home")
        if text.startswith("Home"):
            truth.homes_at, truth.offset = seen.logs, None if any(truth.offset or (1,)) else truth.offset

    def _axis_asked(self, ways: set[str]) -> None:
        """A person asks for motion along one axis, as X+."""
        truth = self.truth
        truth.ways = ways if not truth.may_move else truth.ways and truth.ways | ways
        truth.may_move, truth.is_change_done, truth.without_lines = True, False, True

    def _zero_asked(self, text: str) -> None:
        if re.match(r"Set|Undo|Tool \d+ stands|Add|Load|Give up|Yes, give|Drop|None: |H\d+: |Yes: stores", text):
            self.truth.is_zero_asked = True

    # what a person does

    def _do_touch(self, text: str) -> None:
        """Touches a button of this text, of whatever numbers."""
        if (number_of := self._button(text)) is not None:
            self.press(*number_of)

    def _button(self, text: str) -> tuple[int, str] | None:
        """The number and the text of the button that is meant."""
        self.seen = seen = self.tabs.see()
        for alike in (lambda one: one == text, lambda one: _DIGITS.sub("#", one) == _DIGITS.sub("#", text)):
            for number_, button in enumerate(seen.buttons):
                if alike(button["text"]):
                    return number_, button["text"]
        return None

    def _do_double(self, text: str) -> None:
        """Taps twice."""
        found = self._button(text)
        place = self.tabs.find("buttons", found[0]) if found else None
        if place is None:
            return
        before = self.tabs.see()
        self._licence(found[1], before)
        self.truth.touched_at = time.monotonic()
        for wait_s in (0.2, 0.0):
            self.tabs.down(*place)
            self.tabs.up(*place)
            time.sleep(wait_s)
        second_tap(self.tabs.clicks(before.clicks), self.tabs.posts(before.posts))

    def _do_jog(self, text: str, seconds: str) -> None:
        """Keeps a finger on a button for a while."""
        found = self._button(text)
        place = self.tabs.find("buttons", found[0]) if found else None
        if place is None:
            return
        before = self.tabs.see()
        self._licence(found[1], before)
        self.pressed = found[1], before
        self.truth.touched_at = time.monotonic()
        self.tabs.down(*place)
        until = time.monotonic() + float(seconds)
        while time.monotonic() < until:
            self.seen = self.tabs.see()
            self.judge.all(self.seen)
            time.sleep(0.05)
        self.tabs.up(*place)

    def _do_key(self, key: str, seconds: str) -> None:
        """Keeps a key down for a while, which repeats as those of keyboards do, and lets it go."""
        self.judge.moves()
        self.seen = seen = self.tabs.see()
        jogs = seen.keys and not seen.busy and not seen.sheet and key not in WHEEL[2:]
        if jogs:
            self._axis_asked({KEYS.get(key, f"{seen.wheel}{key}")})
        self.truth.touched_at = time.monotonic()
        self.tabs.key("rawKeyDown", key)
        until = time.monotonic() + float(seconds)
        while time.monotonic() < until:
            time.sleep(0.03)
            self.tabs.key("rawKeyDown", key, autoRepeat=True)
            self.seen = self.tabs.see()
            self.judge.all(self.seen)
        let_go = time.monotonic()
        self.tabs.key("keyUp", key)
        if jogs and not seen.steps:
            self.judge.hold(let_go, LET_GO_S)
            self._rests_now()

    def _do_row(self, line: str) -> None:
        """Touches a line of the program."""
        self.seen = seen = self.tabs.see()
        place = self.tabs.find("rows", seen.rows.index(line)) if line in seen.rows else None
        if place is not None:
            self.tabs.down(*place)
            self.tabs.up(*place)

    def _do_type(self, line: str) -> None:
        """Types a line of G-code."""
        if not any(one["id"] == "line" for one in self.tabs.see().entries):
            return
        self.tabs.fill("#line", line)
        self.seen = before = self.tabs.see()
        button = next((i for i, one in enumerate(before.buttons) if one["id"] == "do"), None)
        if button is None:
            return
        axes = [axis for axis in "XYZ" if axis in line]
        self.judge.moves()
        self.truth.may_move, self.truth.is_zero_asked = bool(axes), True
        self.truth.ways = {f"{axis}{way}" for axis in axes for way in "+-"}
        self.truth.without_lines = True  # none of the program
        self.press(button, "Do")

    def _do_fill(self, label: str, value: str) -> None:
        """Writes into an entry."""
        self.seen = seen = self.tabs.see()
        entry = next((i for i, one in enumerate(seen.entries) if one["label"] == label), None)
        place = self.tabs.find("entries", entry) if entry is not None else None
        if label.startswith("Machine ") and label[-1] in "XYZ":  # somebody measures it
            value = f"{self.bench.mill.at_mm['XYZ'.index(label[-1])]:.3f}"
        if place is not None:
            self.tabs.js(f"(() => {{ const one = walked.entries[{entry}]; one.focus(); one.select(); }})()")
            self.tabs.type(value)

    def _do_load(self, which: str) -> None:
        """Chooses a program, and loads it."""
        self.seen = seen = self.tabs.see()
        if not any(one["id"] == "load" for one in seen.buttons):
            return
        Path("part.ngc").write_text(PROGRAMS[int(which)])
        self.tabs.choose_file(Path("part.ngc").resolve())
        self._until(lambda s: len(s.goes) or "all the same" in s.sheet or "bad" in s.sheet, 20)

    def _until(self, holds: Callable[[Seen], object], most_s: float) -> None:
        """Waits until a page shows something."""
        until = time.monotonic() + most_s
        while True:
            self.seen = self.tabs.see()
            self.judge.all(self.seen)
            if holds(self.seen) or time.monotonic() > until:
                return
            time.sleep(0.05)

    def _do_hold(self, how: str) -> None:
        """Touches Hold, or the space bar."""
        self.seen = before = self.tabs.see()
        if not any(one["id"] == "hold" for one in before.buttons):
            return
        number_ = next(i for i, one in enumerate(before.buttons) if one["id"] == "hold")
        place = self.tabs.find("buttons", number_)
        if place is None:
            return
        touched = time.monotonic()
        if how == "space":
            self.tabs.space()
        else:
            self.tabs.down(*place)
            self.tabs.up(*place)
        if before.isLost:
            return
        self.judge.hold(touched)
        self._rests_now()

    def _rests_now(self) -> None:
        """The motors rest, and nobody asked for motion since. A player that is late may pause before that."""
        mill, begun = self.bench.mill, time.monotonic()
        slack_s = self.judge.slack_s(begun)
        while mill.last_pulse_at() > time.monotonic() - 2 * STILL_S - slack_s:
            if time.monotonic() > begun + 1 + 3 * slack_s:
                return
            time.sleep(0.02)
        self.judge.moves()
        self.truth.may_move = False

    # pages

    def _do_reload(self) -> None:
        """The page is loaded anew; once more where Chromium refuses that."""
        try:
            self.tabs.call("Page.reload")
        except Failed:
            time.sleep(0.5)
            self.tabs.call("Page.reload")
        time.sleep(0.05)

    def _do_page(self, what: str) -> None:
        """One more page, or another one."""
        if what == "add" and len(self.tabs.sessions) < 3:
            self.tabs.add(self.bench.address)
        elif what == "use" and len(self.tabs.sessions) > 1:
            self.tabs.sessions.append(self.tabs.sessions.pop(0))
            self.tabs.use(0)
        elif what == "drop" and len(self.tabs.sessions) > 1:
            self.tabs.drop(0)

    # what happens at the machine

    def _do_door(self, what: str) -> None:
        """Somebody opens or shuts the door."""
        self.has_door = what == "opens"
        opened = time.monotonic()
        self.bench.input("door", self.has_door)
        if self.has_door:
            self.judge.hold(opened)
            self._rests_now()

    def _do_stop(self, what: str) -> None:
        """Somebody presses or frees the emergency stop."""
        self.has_stop = what == "pressed"
        pressed = time.monotonic()
        self.bench.input("stop", self.has_stop)
        if self.has_stop:
            self.judge.hold(pressed)
            self._rests_now()

    def _do_limit(self, name: str, what: str) -> None:
        """Somebody pushes a limit's switch, or its wire breaks; or it is free again. No switch that home seeks is
        pushed meanwhile: the machine would be homed where that was."""
        if what == "free":
            self.bench.input(f"limit {name}", False)
            self.limit = ""
            return
        is_seen = self.bench.has_player() and self.bench.has_server() and self.tabs.sessions
        before = self.tabs.see() if is_seen else None
        homes = before is None or before.command == "home" or self.truth.homes_at is not None
        if self.limit or homes and name != NO_HOME_SWITCH:
            return
        self.limit, pushed = name, time.monotonic()
        self.bench.input(f"limit {name}", True)
        self.judge.hold(pushed, is_dead=True)
        self._rests_now()
        if before and not (before.alarm or before.isLost or before.gone or before.ended or before.broken):
            while not self.judge.is_named(self.tabs.see(), name, pushed):
                time.sleep(0.05)

    def _do_kill(self, *names: str) -> None:
        """Processes are killed; all of them as by a loss of power."""
        is_moving = self.bench.mill.last_pulse_at() > time.monotonic() - 0.3
        self.judge.moves()
        if "server" in names and self.bench.has_server():
            self.settle()
            self.chosen, self.chosen_in = chosen(self.seen), self.seen.session
        if "ngc" in names and self.bench.has_server():
            self.bench.kill("ngc")
        self.bench.kill(*(name for name in names if name != "ngc"))
        if "player" in names:
            self.judge.killed()
            self._rests_now()
            if is_moving:
                self.truth.is_place_known = False
            if time.monotonic() < self.truth.tool_told_at + BEGINS_S:  # it may not have heard of it
                self.truth.tool = None
        if len(names) == 3:
            self.bench.mill.lose_power()

    def _do_start(self, what: str) -> None:
        """Somebody starts what is gone."""
        if what == "player" and not self.bench.has_player():
            self.bench.start_player()
        elif what == "server" and not self.bench.has_server() and self.bench.has_player():
            self._start_server()
            self._until(lambda s: not s.isLost and s.session != self.chosen_in, PATIENCE_S)
            self.settle()
            choices_kept(self.chosen, self.seen)
            self.chosen = {}  # of the next session nothing of it is asked

    def _start_server(self) -> None:
        """Starts the page's server, and the player again, where that was alone for so long that it has ended."""
        try:
            self.bench.start_server()
        except AssertionError:
            if self.bench.has_player():
                raise
            self.bench.start_player()
            self.bench.start_server()

    # the end of a walk

    def leads_out(self) -> None:
        """Whatever came: with all started again and nothing pressed, the buttons lead to a machine that rests, and
        takes a program. Raises Wrong."""
        freed = [("limit", self.limit, "free")] if self.limit else []
        for step in (("door", "shuts"), ("stop", "freed"), *freed, ("start", "player"), ("start", "server")):
            self.do(step)
        until, ways = time.monotonic() + ANSWERS_S, 0
        while ways < WAYS:
            self._until(lambda seen: not seen.is_at_work, until - time.monotonic())
            seen = self.seen
            if any(one["id"] == "load" for one in seen.buttons) and not seen.sheet:
                return
            step = self._way_on(seen)
            self.do(step)
            ways += step[0] != "wait" or time.monotonic() > until
        raise Wrong("no way on", f"{self.seen.word}: {self.seen.detail}; enabled are"
                                 f" {[one['text'] for one in self.seen.buttons]}")

    def _way_on(self, seen: Seen) -> Step:
        """The step that leads on."""
        if seen.isLost:
            return "wait", "0.5"
        for entry in (one for one in seen.entries if one["label"].startswith("Machine ")):
            true = f"{self.bench.mill.at_mm['XYZ'.index(entry['label'][-1])]:.3f}"
            if number(entry["value"]) != number(true):
                return "fill", entry["label"], true
        for form in _WAYS_ON if set(self.done[-_WAITS:]) == {("wait", "0.5")} else _WAYS_ON[:_FORWARDS]:
            for button in seen.buttons:
                if re.match(form, button["text"]) and not (button["look"] and button["pressed"] == "true"):
                    return "touch", button["text"]
        return "wait", "0.5"

    def _do_wait(self, seconds: str) -> None:
        """Waits, and sees."""
        until = time.monotonic() + float(seconds)
        while time.monotonic() < until:
            self.settle(0.3)
            time.sleep(0.05)


def _text(seen: Seen, button: int) -> str:
    return seen.buttons[button]["text"] if button < len(seen.buttons) else ""


def _is_told(says: str, seen: Seen) -> bool:
    """Whether what Log says stands where the person works: enough of it."""
    words = re.findall(r"\w+", says)[:6]
    shown = set(re.findall(r"\w+", seen.all_words))
    return sum(word in shown for word in words) >= min(3, len(words))


class Chance:
    """What the person does next, by chance."""

    def __init__(self, seed: int, walk: Walk) -> None:
        self.random, self.walk = random.Random(seed), walk
        self.routine: list[Step] = []  # what is left of the steps up to one

    def next(self) -> Step:
        """The next step."""
        walk, chance = self.walk, self.random
        bench, seen = walk.bench, walk.seen
        if not bench.has_player() and chance.random() < 0.35:
            return "start", "player"
        if not bench.has_server():
            return ("start", "server") if bench.has_player() else ("start", "player")
        if seen is None or seen.isLost:
            return chance.choice((("wait", "0.5"), ("reload",)))
        if self.routine and chance.random() < 0.98:
            return self.routine.pop(0)
        return self._at_machine() or self._at_page(seen)

    def _at_machine(self) -> Step | None:
        """What happens beside the page."""
        walk, chance = self.walk, self.random
        draw = chance.random()
        if walk.has_door and draw < 0.25:
            return "door", "shuts"
        if walk.has_stop and draw < 0.25:
            return "stop", "freed"
        if walk.limit and draw < 0.25:
            return "limit", walk.limit, "free"
        rare: tuple[tuple[float, Step], ...] = (
            (0.012, ("door", "opens")), (0.008, ("stop", "pressed")), (0.012, ("kill", "player")),
            (0.01, ("limit", chance.choice([*LIMITS]), "on")),
            (0.008, ("kill", "ngc")), (0.008, ("kill", "server")), (0.02, ("kill", "player", "server", "ngc")),
            (0.02, ("reload",)), (0.01, ("page", "add")), (0.02, ("page", "use")), (0.006, ("page", "drop")))
        for share, step in rare:
            if draw < share:
                return step
            draw -= share
        return None

    def _at_page(self, seen: Seen) -> Step:
        """What a person touches."""
        chance, draw = self.random, self.random.random()
        if draw < (0.16 if seen.runs else 0.03):
            return "hold", chance.choice(("button", "space"))
        if draw < 0.20:
            return "wait", chance.choice(("0.1", "0.3", "1.0"))
        if seen.tone == "idle" and not seen.sheet and chance.random() < 0.06:
            self.routine = list(chance.choice(ROUTINES + DAILY))
            return self.routine.pop(0)
        ids = {one["id"] for one in seen.buttons}
        has_program = "No program" not in seen.detail
        if draw < 0.26 and any(one["id"] == "line" for one in seen.entries):
            return "type", chance.choice(LINES)
        if draw < (0.31 if has_program else 0.6) and "load" in ids and not seen.sheet:
            return "load", str(chance.randrange(len(PROGRAMS)))
        if draw < 0.33 and seen.rows and not seen.sheet:
            return "row", chance.choice(seen.rows)
        if draw < 0.45 and seen.keys and not seen.sheet:
            return "key", chance.choice((*KEYS, *KEYS, *WHEEL)), chance.choice(("0.1", "0.3", "0.8"))
        entries = [one["label"] for one in seen.entries if one["id"] != "line" and one["label"]]
        if draw < 0.36 and entries:
            return "fill", chance.choice(entries), chance.choice(NUMBERS)
        return self._touch(seen)

    def _touch(self, seen: Seen) -> Step:
        """A button, the likelier the more it does."""
        texts = [one["text"] for one in seen.buttons]
        weights = [0 if seen.sheet and one["id"] in ("quit", "restart") else
                   _weight(text, one["part"]) + 8 * (one["id"] == "run") for text, one in zip(texts, seen.buttons)]
        if not texts or not any(weights):
            return "wait", "0.3"
        text = self.random.choices(texts, weights)[0]
        if _AXIS.match(text) and self.random.random() < 0.6:
            return "jog", text, self.random.choice(("0.2", "0.5", "0.9"))
        if self.random.random() < 0.06:
            return "double", text
        return "touch", text


def _weight(text: str, part: str) -> float:
    if part == "over":
        return max(3.0, next((weight for form, weight in _WEIGHTS if re.match(form, text)), 3.0))
    return next((weight for form, weight in _WEIGHTS if re.match(form, text)), 1.0)


def in_folder(work: Callable[[], object]) -> object:
    """Does something in a folder of its own."""
    before = os.getcwd()
    with tempfile.TemporaryDirectory(prefix="ngc-walk-", dir=memory()) as folder:
        os.chdir(folder)
        try:
            return work()
        finally:
            os.chdir(before)


@dataclass
class Failure:
    """How a walk failed: by which rule, with which steps."""

    seed: int
    says: str
    rule: str
    steps: list[Step]


def walked(tabs: Tabs, late: Lateness, covered: Covered, given: list[Step] | int, count: int, until: float,
           prepare: Callable[[Walk], None] = lambda _: None) -> Failure | None:
    """One walk: these steps, or so many by chance; how it failed, if it did."""
    def work() -> Failure | None:
        walk = Walk(tabs, late, covered)
        try:
            walk.begin()
            prepare(walk)
            chance = Chance(given if isinstance(given, int) else 0, walk)
            for number_ in range(count):
                if time.monotonic() > until:
                    break
                walk.do(chance.next() if isinstance(given, int) else given[number_])
            walk.leads_out()
        except Exception as error:  # a walk that dies is told as any other that fails
            rule = getattr(error, "rule", type(error).__name__)
            seed = given if isinstance(given, int) else 0
            says = str(error) if isinstance(error, (Wrong, Failed)) else traceback.format_exc()
            return Failure(seed, f"{says}\n  said by the processes: {walk.bench.said()}", rule, walk.done)
        finally:
            walk.close()
            covered.walks += 1
        return None
    return in_folder(work)


def shortened(tabs: Tabs, late: Lateness, failure: Failure, within_s: float) -> list[Step]:
    """The steps without those that aren't needed for it to fail so again."""
    steps, until = list(failure.steps), time.monotonic() + within_s
    size = max(1, len(steps) // 2)
    while size >= 1 and time.monotonic() < until:
        at, has_shortened = 0, False
        while at < len(steps) and time.monotonic() < until:
            fewer = steps[:at] + steps[at + size:]
            again = walked(tabs, late, Covered(), fewer, len(fewer), until + 60)
            if again is not None and again.rule == failure.rule:
                steps, has_shortened = again.steps, True
            else:
                at += size
        size = size // 2 if not has_shortened or size > 1 else 0
    return steps


def main(words: list[str]) -> int:
    """Walks, and returns the exit status."""
    parser = argparse.ArgumentParser(description=__doc__, formatter_class=argparse.RawDescriptionHelpFormatter)
    parser.add_argument("--seed", type=int, default=1, help="the first walk's (1)")
    parser.add_argument("--seconds", type=float, default=3600, help="how long it walks (3600)")
    parser.add_argument("--steps", type=int, default=STEPS, help=f"of each walk ({STEPS})")
    parser.add_argument("--again", metavar="FILE", help="does the steps that a failure printed, a line each")
    parser.add_argument("--keep-on", action="store_true", help="walks on after a failure, without shortening it")
    parser.add_argument("--tell", action="store_true", help="tells each step, and how long it took")
    given = parser.parse_args(words)
    for number_ in (signal.SIGINT, signal.SIGTERM):  # whoever ends it is told what was walked, in the background too
        signal.signal(number_, signal.default_int_handler)
    tabs, late, covered = Tabs(chromium() or "chromium"), Lateness(), Covered(given.tell)
    try:
        return _walk_on(given, tabs, late, covered)
    finally:
        tabs.close()
        late.close()
        print(covered, flush=True)


def _walk_on(given: argparse.Namespace, tabs: Tabs, late: Lateness, covered: Covered) -> int:
    until, seed, count = time.monotonic() + given.seconds, given.seed, 0
    if given.again:
        steps = [tuple(json.loads(line)) for line in Path(given.again).read_text().splitlines()]
        failure = walked(tabs, late, covered, steps, len(steps), until)
        print(told(failure, failure.steps) if failure else "nothing was wrong", flush=True)
        return int(failure is not None)
    while time.monotonic() < until:
        failure = walked(tabs, late, covered, seed, given.steps, until)
        if failure:
            count += 1
            steps = failure.steps if given.keep_on else shortened(tabs, late, failure, 120)
            print(told(failure, steps), flush=True)
            if not given.keep_on:
                break
        seed += 1
    return int(count > 0)


def told(failure: Failure, steps: list[Step]) -> str:
    """A failure in words."""
    lines = "\n".join(json.dumps(step, ensure_ascii=False) for step in steps)
    return f"seed {failure.seed}: {failure.says}\n  by these steps of {len(failure.steps)}:\n{lines}\n"


if __name__ == "__main__":
    with suppress(KeyboardInterrupt):
        sys.exit(main(sys.argv[1:]))
