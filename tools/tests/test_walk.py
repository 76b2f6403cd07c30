"""The walk by chance over the page, at seeds that are always the same, for two minutes, or for so many seconds as
NGC_WALK_S says; and that it finds faults that are planted. Skipped where there is no Chromium."""
import dataclasses
import json
import os
import signal
import sys
import time
import unittest
from collections.abc import Callable
from contextlib import nullcontext
from pathlib import Path
from types import SimpleNamespace

sys.path.insert(0, str(Path(__file__).resolve().parent))

from browser_support import chromium
from session_support import PATIENCE_S, InFolder
from walk import ROUTINES, Covered, Step, Walk, shortened, told, walked
from walk_late import Lateness
from walk_machine import Outputs
from walk_page import Seen, Tabs
from walk_rules import Judge, Truth, Wrong
from walk_touches import Press, choices_kept, confirmed, flicked, refusals, second_tap, switched_off, taken

WALK_S = float(os.environ.get("NGC_WALK_S", "120"))
SHORTEN_S = 60.0
"""So long a walk that failed is shortened; its seed and all of its steps are told before that."""
STEPS = 40
LONG = "G17 G21 G90 G94\nM3 S1000\nG1 X50 F200\nG1 X0\nM2\n"
"""Half a minute of cuts."""


def setUpModule() -> None:
    """One browser for all."""
    if not (path := chromium()):
        raise unittest.SkipTest("Chromium isn't installed")
    global TABS, LATE
    TABS, LATE = Tabs(path), Lateness()
    unittest.addModuleCleanup(TABS.close)
    unittest.addModuleCleanup(LATE.close)


@unittest.skipUnless(WALK_S, "NGC_WALK_S is 0")
class ByChance(unittest.TestCase):
    """Nothing is wrong."""

    def test_walks(self) -> None:
        """At the seeds from 1 on, each over a fresh machine, until the time is over."""
        until, covered, seed = time.monotonic() + WALK_S, Covered(), 0
        while time.monotonic() < until:
            seed += 1
            failure = walked(TABS, LATE, covered, seed, STEPS, until)
            if failure:
                print(told(failure, failure.steps), file=sys.stderr, flush=True)
                self.fail(told(failure, shortened(TABS, LATE, failure, SHORTEN_S)))
        print(f"walked by chance for {WALK_S:.0f} s: {covered}", file=sys.stderr)
        self.assertGreater(covered.checked["place"], 0)


class Late(unittest.TestCase):
    """What the load of a computer makes of times."""

    def test_chain(self) -> None:
        """A chain that stands still for a while is late by that."""
        late = Lateness()
        self.addCleanup(late.close)
        until = time.monotonic() + PATIENCE_S
        while not late.rounds and time.monotonic() < until:
            time.sleep(0.01)
        stood = time.monotonic()
        os.kill(late.pid, signal.SIGSTOP)
        time.sleep(0.5)  # it begins a round each 0.1 s
        os.kill(late.pid, signal.SIGCONT)
        while late.rounds[-1][0] < stood and time.monotonic() < until:
            time.sleep(0.01)
        self.assertGreater(late.slack_s(stood), 0.5)


class Told(unittest.TestCase):
    """What the person of a walk tells."""

    def test_inches(self) -> None:
        """Where the player counts, by a page that shows inches: what is told is in millimetres, in whole steps."""
        walk = SimpleNamespace(truth=Truth(), bench=SimpleNamespace(mill=SimpleNamespace(at_mm=(3.3, 5.42, 4.79))))
        for unit, motors in (("mm", ["3.300", "5.425", "4.790"]), ("in", ["0.1299", "0.2136", "0.1886"])):
            before = Seen(0.0, {"motors": motors, "units": [unit] * 3, "question": None})
            Walk._told_place(walk, [{"what": "reference", "body": '{"at": "player"}'}], before)
            for axis, (found, off) in enumerate(zip(walk.truth.offset, (0.0, 0.005, 0.0))):
                self.assertAlmostEqual(found, off, 6, (unit, axis))


class Places(unittest.TestCase):
    """Which place may be shown."""

    def test_alarm(self) -> None:
        """In an alarm one that was told a second ago is one of then; of a machine whose player was killed as it moved
        nobody knows it."""
        mill = SimpleNamespace(places=lambda begin, end: [(5.0, 0.0, 0.0)] if begin < 98.2 < end else [(6.0, 0.0, 0.0)],
                               at_mm=(6.0, 0.0, 0.0), last=lambda _: [], pulses=0)
        judge = Judge(SimpleNamespace(mill=mill), SimpleNamespace(slack_s=lambda _: 0.0))
        for known, x, risk, is_right in ((True, "5.000", ", told 1.5 s ago", True), (True, "5.000", "", False),
                                         (True, "4.000", ", told 1.5 s ago", False), (False, "4.000", "", True),
                                         (False, "4.000", ", told 1.5 s ago", True)):
            judge.truth.is_place_known = known
            seen = Seen(0.0, {"motors": [x, "0", "0"], "work": [x, "0", "0"], "units": ["mm"] * 3, "blind": True,
                              "past": "", "risk": f"As counted before the alarm{risk}: home tells where it is",
                              "tone": "fail", "word": "ALARM"})
            with self.subTest((known, x, risk)):
                with nullcontext() if is_right else self.assertRaises(Wrong):
                    judge.place(seen, 99.2, 100.0)


class Touched(unittest.TestCase):
    """What must hold of a touch, and of what comes of it: a record of each fault is found by its rule."""

    ALL_OFF = Outputs(0, 0.0, 0, 0, 0)

    def setUp(self) -> None:
        """A judge over a machine that rests, on a computer that is never late."""
        self.mill = SimpleNamespace(outputs=self.ALL_OFF, pulses=0, turns_since=0.0, moved=lambda *_: {},
                                    steps_between=lambda *_: (0.0, 0.0), last_pulse_at=lambda: 0.0,
                                    rate_mm_s=lambda _: 10.0, pauses_ms=lambda _: [])
        self.judge = Judge(SimpleNamespace(mill=self.mill), SimpleNamespace(slack_s=lambda _: 0.0))

    def wrong(self, rule: str, is_wrong: bool, does: Callable[..., object], *given: object) -> None:
        """A rule finds this, where it is a fault."""
        with self.subTest(given):
            if not is_wrong:
                does(*given)
                return
            with self.assertRaises(Wrong) as raised:
                does(*given)
            self.assertEqual(raised.exception.rule, rule)

    def test_moves_before_look(self) -> None:
        """Motion that follows the spindle without a touch, and one while the look is asked for; not what came before,
        nor what was agreed to."""
        self.mill.moved, self.judge.truth = lambda *_: {"Z-": 9}, Truth(may_move=True, is_recovering=True)
        for turns_since, is_wrong in ((5.0, True), (3.0, False)):
            self.mill.turns_since, self.judge.truth.touched_at = turns_since, 4.0
            self.wrong("moved before the look", is_wrong, self.judge.moves)
        for way_mm, is_wrong in ((0.005, True), (0.0, False)):
            self.mill.steps_between = lambda begin, end, way_mm=way_mm: (way_mm if begin < 11 < end else 0.0, end)
            self.judge.looks(self.look(["false"] * 3), 10.0)
            self.wrong("moved before the look", is_wrong, self.judge.looks, self.look(["true"] * 3), 12.0)

    @staticmethod
    def look(ticked: list[str], is_enabled: bool = False) -> Seen:
        """A page that asks for a look."""
        return Seen(0.0, {"question": {"id": 7, "purpose": "look"}, "session": "a", "yours": True, "looks": ticked,
                          "goes": [["Yes: goes there", is_enabled]], "detail": "Nothing moves"})

    def test_look_anew(self) -> None:
        """After a reload the ticks are gone, and it can be agreed to all the same, whether they are shown or not."""
        for ticked, is_enabled, is_wrong in (
                (["false"] * 3, True, True), ([], True, True), (["true", "false", "true"], True, True),
                (["true"] * 3, True, False), (["false"] * 3, False, False)):
            self.wrong("look unticked", is_wrong, self.judge.looks, self.look(ticked, is_enabled), 10.0)

    def test_second_tap(self) -> None:
        """The second tap on a button that says something else by then does something."""
        taps = [{"kind": "click", "id": "run", "text": text, "at": at} for text, at in (("Run", 1), ("Continue", 2))]
        same = [taps[0] | {"at": at} for at in (1, 2)]
        for clicks, at, is_wrong in ((taps, 3, True), (taps, 1.5, False), (same, 3, False)):
            self.wrong("second tap", is_wrong, second_tap, clicks, [{"what": "run", "at": at}])

    def test_choices(self) -> None:
        """What was chosen before a loss of power is lost for the job that goes on, and isn't named."""
        before = {"Block delete": True, "Single block": False, "Feed 80 %": True}
        for is_on, feed, says, begun, is_wrong in (
                ("true", "80", "", True, False), ("false", "80", "", True, True), ("true", "100", "", True, True),
                ("false", "80", "Block delete isn't given back", True, False), ("false", "80", "", False, False)):
            seen = {"switches": {"single": "false", "optional": "false", "delete": is_on}, "begun": begun, "word": "",
                    "detail": "", "overrides": [f"Feed {feed} %"], "sheet": says} | dict.fromkeys(
                        ("header", "toast", "place", "share"), "")
            self.wrong("choices lost", is_wrong, choices_kept, before, Seen(0.0, seen))

    def test_confirmed(self) -> None:
        """A place is confirmed that is further off than the button says."""
        off = "\u00b1\u00a00.500\u00a0mm"
        for off_mm, says, is_wrong in ((0.6, f"Confirm, {off}", True), (0.4, f"\u2713 There, {off}", False),
                                       (0.05, "Confirm", True), (0.0, "Confirm", False)):
            self.wrong("confirmed further off", is_wrong, confirmed, "X", off_mm, says)

    def test_stop(self) -> None:
        """Stop leaves the spindle or the coolant on."""
        for on, is_wrong in ((Outputs(1, 500.0, 0, 0, 1), True), (Outputs(0, 0.0, 0, 1, 1), True),
                             (self.ALL_OFF, False)):
            self.mill.outputs = on
            self.wrong("stop leaves it on", is_wrong, switched_off, self.judge, time.monotonic() - 10)

    def test_limit(self) -> None:
        """A limit isn't named, another one is, or the motors come to rest by a ramp."""
        long_ago = time.monotonic() - 10
        for word, detail, is_wrong in (("Idle", "Ready", True), ("ALARM", "Limit Y low. The motors stood", True),
                                       ("ALARM", "Limit X high. The motors stood", False)):
            seen = Seen(0.0, {"isLost": False, "word": word, "detail": detail})
            self.wrong("limit not named", is_wrong, self.judge.is_named, seen, "X high", long_ago)
        for late_s, is_wrong in ((0.115, True), (0.02, False)):
            self.mill.last_pulse_at = lambda late_s=late_s: long_ago + late_s
            self.mill.steps_between = lambda *_, late_s=late_s: (0.1, long_ago + late_s)
            self.wrong("hold too late", is_wrong, self.judge.hold, long_ago, 0.1, True)
        self.mill.last_pulse_at = lambda: long_ago + 0.115
        self.judge.hold(long_ago)  # by a ramp it may

    def test_refused(self) -> None:
        """An enabled button is refused: wrong, but where what was asked for has a value that decides, or the page
        couldn't know: by what it is told before and after."""
        rests, runs = ({"busy": is_busy, "question": 0, "stored": 7, "at": "0"} for is_busy in (False, True))
        went, busy = rests | {"at": "1"}, "something runs: hold first"
        load, jog, mdi, rehearse = (("load", {"id": "7"}), ("jog", {"length": "10"}), ("mdi", {"line": "G0 X500"}),
                                    ("rehearse", {"at": ["-9.005", "0", "4"]}))
        ends, held = "jog X+: X ends at 60.000000", "somebody held since it was touched, and so it isn't done"
        for says, asked, before, after, stamps, is_wrong in (
                (busy, load, rests, rests, "1-0 1-0", True), (busy, load, runs, went, "1-0 1-0", True),
                (busy, load, rests, runs, "1-0 1-0", False), (busy, load, rests, went, "1-0 1-0", False),
                (ends, jog, rests, rests, "1-0 1-0", False), (ends, ("home", {}), rests, rests, "1-0 1-0", True),
                ("refused X2 OutsideTravel: X goes to 500 mm", mdi, rests, rests, "1-0 1-0", False),
                ("refused X2 OutsideTravel: X goes to 500 mm", ("park", {}), rests, went, "1-0 1-0", True),
                ("reference -9.005 0 4: refused X2 OutsideTravel: X -9.005 is outside", rehearse, rests, rests,
                 "1-0 1-0", False),
                ("refused C3 RadiiDiffer: line 4: G2 X6 Y6 I3 J3 F500", rehearse, rests, rests, "1-0 1-0", False),
                ("refused C3 RadiiDiffer: line 4: G2 X6 Y6 I3 J3 F500", ("home", {}), rests, rests, "1-0 1-0", True),
                ("refused K3 PlaceUnknown: it isn't known", rehearse, rests, rests, "1-0 1-0", True),
                (held, load, rests, rests, "1-0 2-1", False), (held, load, rests, rests, "1-0 2-0", True),
                ("home: the emergency stop is on", ("home", {}), rests, went, "1-0 1-0", True)):
            stamp, heard = stamps.split()
            post = {"what": asked[0], "body": json.dumps(asked[1]), "ok": False, "stamp": stamp, "heard": heard}
            seen = [Seen(0.0, {"facts": facts, "word": "Idle", "detail": ""}) for facts in (before, after)]
            self.wrong("enabled, and refused", is_wrong, taken, self.judge, Press("Load", says, *seen, [post]))
        gone = Press("Start ngc again", "progress: no player listens there", *seen, [post], False)
        self.wrong("enabled, and refused", False, taken, self.judge, gone)
        self.wrong("enabled, and refused", True, taken, self.judge, dataclasses.replace(gone, has_player=True))

    def test_flicked(self) -> None:
        """A jog that is let go sooner than by a finger; nothing else that comes of a touch."""
        jog = ("jog", 1)
        for asked, is_so in (((jog, ("jogstop", 40)), True), ((jog, ("jogstop", 42)), False), ((jog,), False),
                             ((jog, ("jogstop", 9), ("hold", 9)), False), ((), False)):
            self.assertEqual(flicked([{"what": what, "at": at} for what, at in asked]), is_so, asked)

    def test_all_refusals(self) -> None:
        """They are found in answers, and in Log, each once."""
        posts = [{"what": "run", "ok": False, "said": '{"why": "no"}'},
                 {"what": "rehearse", "ok": True, "said": '{"refused": "nor that"}'},
                 {"what": "check", "ok": True, "said": '{"refused": {"line": 3}}'},
                 {"what": "draw", "ok": True, "said": '{"refused": {"line": 3}}'},
                 {"what": "run", "ok": True, "said": '{"taken": true}'}, {"what": "run", "ok": None}]
        log = [["refused", "10:00:00no"], ["said", "10:00:00yes"], ["refused", "10:00:01nor this"]]
        self.assertEqual(refusals(posts, log), ["no", "nor that", "nor this"])


class WaysOn(unittest.TestCase):
    """What a person touches who wants to get on."""

    def test_stop(self) -> None:
        """Stop is one, as the page's button is named, before lines in hand are gone on with, which has to be looked at.
        """
        named = [{"text": text, "look": False, "pressed": ""} for text in ("Quit", "Recover", "Stopends the job")]
        seen = Seen(0.0, {"isLost": False, "entries": [], "buttons": named})
        self.assertEqual(Walk._way_on(SimpleNamespace(done=[]), seen), ("touch", "Stopends the job"))

    def test_at_work(self) -> None:
        """What somebody is at work on is waited for; a sheet with a button that opens another one is there at once."""
        file = {"says": "A file of this device\u2026"}
        for sheet, is_at_work in (("Load\npart.ngc\nBack\nA file of this device\u2026", False),
                                  ("Load part.ngc\nngc looks at each line\u2026\nBack", True), ("", False)):
            self.assertEqual(Seen(0.0, {"sheet": sheet, "buttons": [file]}).is_at_work, is_at_work, sheet)


class Killed(InFolder):
    """What comes of kills, by hand."""

    def test_player_twice(self) -> None:
        """Power is lost while the probe is sought, and then the next player is gone: the place is by its record, which
        stands there, and isn't one that was known."""
        walk = Walk(TABS, LATE, Covered())
        self.addCleanup(walk.close)
        walk.begin()
        for step in (("touch", "Setup"), ("touch", "Y+ @Seek the probe"), ("wait", "0.5"),
                     ("kill", "player", "server", "ngc"), ("start", "player"), ("start", "server"), ("kill", "player"),
                     ("wait", "1")):
            walk.do(step)
        self.assertRegex(walk.seen.risk, r"^By the record of the player, \u00b1 [\d.]+ mm; told [\d.:]+ \w+ ago$")


class Planted(InFolder):
    """Faults that are planted in the page's server are found, each by its rule."""

    def setUp(self) -> None:
        """A walk that begins with a tool in the spindle, which turns."""
        super().setUp()
        self.walk = Walk(TABS, LATE, Covered())
        self.addCleanup(self.walk.close)
        self.walk.bench.serves = Path(__file__).resolve().parent / "walk_planted.py"
        self.walk.begin()

    def plant(self, fault: str) -> None:
        """From now on the page has this fault."""
        Path("planted").write_text(fault)

    def does(self, *steps: Step) -> None:
        """Does steps."""
        for step in steps:
            self.walk.do(step)

    def found(self, fault: str, rule: str, *steps: Step) -> None:
        """A fault is found by its rule, at one of these steps; without it nothing is wrong after them."""
        with self.subTest(fault):
            self.plant(fault)
            with self.assertRaises(Wrong) as raised:
                self.does(*steps)
                until = time.monotonic() + 3
                while time.monotonic() < until + 2 * LATE.slack_s(until):
                    self.does(("wait", "0.3"))
            self.assertEqual(raised.exception.rule, rule, raised.exception)
        self.plant("")
        told, mill = time.time(), self.walk.bench.mill
        self.wait_for("the page has heard the truth", lambda: TABS.see().now > told + 0.2)
        if fault == "moves":
            self.wait_for("it rests", lambda: mill.last_pulse_at() < time.monotonic() - 1)
        self.walk.truth.quiet_pulses = mill.pulses
        self.does(("wait", "1"))

    def until(self, holds: Callable[[Walk], object]) -> None:
        """Waits, and looks, until something holds."""
        for _ in range(400):
            if holds(self.walk):
                return
            self.does(("wait", "0.1"))
        self.fail(f"it doesn't come: {self.walk.seen}")

    def test_lies(self) -> None:
        """A place one step off, a tool of before, outputs that aren't so, what runs and what rests."""
        self.does(("type", "T1 M6"))
        self.until(lambda walk: any(one["text"] == "Tool 1 is in" for one in walk.seen.buttons))
        self.does(("touch", "Tool 1 is in"))
        self.until(lambda walk: not walk.seen.busy and walk.seen.tool.startswith("T1"))
        self.does(("type", "M3 S500"))
        self.until(lambda walk: walk.truth.zero and not walk.truth.is_zero_asked)
        for fault, rule in (("place", "place"), ("work", "work zero"), ("tool", "tool"), ("spindle", "spindle"),
                            ("coolant", "coolant")):
            self.found(fault, rule)
        self.loads()
        self.does(("touch", "Run"))
        self.found("rests", "says it rests")
        self.does(("hold", "button"))
        self.found("runs", "says it runs")

    def test_deeds(self) -> None:
        """A button that does nothing, a move that nobody asked for, a refusal in Log alone, a late Hold, and
        an alarm that another limit is named for."""
        self.found("dead", "nothing comes of it", ("touch", "Single block"))
        self.does(("touch", "Setup"))
        self.found("moves", "moved unasked", ("touch", "Job goes on if this page is lost @This page"))
        TABS.js("document.getElementById('toast').style.display = 'none'")
        self.found("silent", "refused in Log alone", ("touch", "Set X @Work zero"))
        self.loads()
        self.does(("touch", "Run"))
        self.until(lambda walk: walk.bench.mill.rate_mm_s(time.monotonic()) > 3)
        later_s = 2 + 3 * LATE.slack_s(time.monotonic())  # than this computer may be by itself
        self.found(f"late {later_s:.1f}", "hold too late", ("hold", "button"))
        self.found("limit", "limit not named", ("limit", "X high", "on"))

    def routine(self, number: int, fault: str, rule: str) -> None:
        """A fault of a routine is found by its rule."""
        self.plant(fault)
        with self.assertRaises(Wrong) as raised:
            for step in ROUTINES[number]:
                self.does(step)
                self.until(lambda walk: not walk.seen.busy or walk.seen.waits or walk.seen.question
                           or walk.truth.within)
            self.until(lambda _: False)
        self.assertEqual(raised.exception.rule, rule, raised.exception)

    def test_narrow(self) -> None:
        """A routine of the probe that goes farther than it said."""
        self.routine(0, "narrow", "past what was said")

    def test_elsewhere(self) -> None:
        """One that finds the work elsewhere."""
        self.routine(2, "elsewhere", "not there")

    def test_longer(self) -> None:
        """A tool that is measured too long."""
        self.routine(-1, "longer", "not so long")

    def loads(self) -> None:
        """LONG is loaded."""
        Path("part.ngc").write_text(LONG)
        TABS.choose_file(Path("part.ngc").resolve())
        self.until(lambda walk: walk.seen.goes and walk.seen.goes[-1][1])
        self.does(("touch", "Load"))
        self.until(lambda walk: not walk.seen.sheet and not walk.seen.busy)


if __name__ == "__main__":
    unittest.main()
