"""The table of commands, beside the pages that tell of them, the page that asks for them, and what their buttons need.
"""
import re
import sys
import unittest
from dataclasses import dataclass, field, replace
from pathlib import Path
from types import SimpleNamespace

sys.path.insert(0, str(Path(__file__).resolve().parent))

from session_support import TOOLS

from ngc_tools.formats.out import OFF, Switch
from ngc_tools.link.progress import MoveReport, Report
from ngc_tools.ngc.commands import FORMS
from ngc_tools.ngc.console import Status
from ngc_tools.operator.commands import BY_WORD, COMMANDS, Asked, Taken, help_text, words_taken
from ngc_tools.operator.face import is_aside, is_override
from ngc_tools.operator.setter import Probe, Setter
from ngc_tools.page.able import able
from ngc_tools.page.band import MOVING, OWN_LINES
from ngc_tools.page.deeds import DEEDS, SWITCHES, WAITING
from ngc_tools.page.session import WITHOUT_LINES

PAGE = (TOOLS.parent / "docs" / "tools" / "ngc-operate.md").read_text()
STATIC = TOOLS / "ngc_tools" / "page" / "static"
UNSAID = {"mdi", "tick", "exit", "?"}
"""Commands that nobody types, and other names."""


def cited(text: str) -> list[str]:
    """The words at which what is cited in a text begins."""
    return [cited.split()[0] for cited in re.findall("`([^`]+)`", text)]


class Pages(unittest.TestCase):
    """What the pages say of commands."""

    def test_tools(self) -> None:
        """The page has a row for each command, and none for others."""
        rows = re.findall(r"^\| ([^|]*) \|", PAGE.partition("| Typed |")[2], re.MULTILINE)
        first = {word for row in rows for word in cited(row) if word[0].isalpha() and word.islower()}
        self.assertEqual(first - {"anyway"}, BY_WORD.keys() - UNSAID)

    def test_help(self) -> None:
        """So has what `help` says, and no line of it is longer than a terminal of old."""
        forms = [form for command in COMMANDS for form, _ in command.forms]
        words = {part.split()[0] for form in forms for part in form.split(", ") if part.islower() or " " in part}
        self.assertEqual(words - {"anyway", "G0"}, BY_WORD.keys() - UNSAID)
        self.assertTrue(all(re.search(rf"(?m)^{re.escape(form)}  ", help_text()) for form in forms))
        self.assertLessEqual(max(map(len, help_text().splitlines())), 78)

    def test_session(self) -> None:
        """A console takes what `ngc run` takes, by the same words."""
        self.assertEqual({form.word for form in FORMS} - BY_WORD.keys(), set())

    def test_while_something_runs(self) -> None:
        """What the page says is taken then, and of a pipe or a file."""
        said = re.search(r"While something runs, ([^|]*?) are taken, each with Enter; of a pipe or a file the first five",
                         PAGE.replace("\n", " "))
        words = cited(said[1].replace("the switches", " ".join(f"`{name} on`" for name in sorted(SWITCHES))))
        self.assertEqual({word for word in words if word[0].isalpha()}, words_taken(Taken.AMID))
        self.assertTrue(all(map(is_aside, words)))
        self.assertEqual([is_override(word) for word in words], [True] * 5 + [False] * (len(words) - 5))
        self.assertFalse(is_aside("stop") or is_aside("G0 X1") or is_override("go"))

    def test_in_an_alarm(self) -> None:
        """What the page says is taken in an alarm."""
        said = re.search(r"nothing but (.*?) is taken until the machine is homed\. (.*?) Lines that were",
                         PAGE.replace("\n", " "))
        words = set(cited(said[1])) | set(cited(said[2])) & {"reference"}
        self.assertEqual(words | {"exit", "?"}, words_taken(Taken.IN_ALARM))


class Asks(unittest.TestCase):
    """What the page asks for."""

    SERVERS = {"hold", "beat", "takeover", "checking"}
    """What the server does itself."""

    def test_deeds(self) -> None:
        """Each command that a page may ask for is a deed, or a switch, and none else is; it waits where that is said.
        """
        asked = {command.word for command in COMMANDS if command.asked is not Asked.NEVER}
        self.assertEqual(asked - DEEDS.keys(), SWITCHES)
        self.assertEqual(DEEDS.keys() - asked, {"stands", "switch", "turn", "measurefrom", "answer", "shape", "step",
                                                "jogstop", "loss", "restart"})
        self.assertEqual(WAITING - {"stands", "switch", "shape", "measurefrom", "step", "restart"},
                         {command.word for command in COMMANDS if command.asked is Asked.AWAITED} - SWITCHES)
        self.assertEqual(SWITCHES, {"single", "optional", "delete", "measures"})

    def test_scripts(self) -> None:
        """What the scripts of the page ask for is done, and what enables their buttons is told."""
        text = "\n".join(path.read_text() for path in sorted(STATIC.glob("*.js")))
        asked = set(re.findall(r"\b(?:asks|post)\('(\w+)'", text))
        self.assertEqual(asked - DEEDS.keys(), self.SERVERS)
        enabled = {word for words in re.findall(r"\bmay\(s, '(\w+)'\)|\bs\.can\.(\w+)|\.asking\('(\w+)'", text)
                   for word in words if word}
        self.assertGreater(len(enabled), 12)
        self.assertEqual(enabled - told(Standing()).keys(), set())


@dataclass
class Standing:
    """How all stands in a test: at rest, with a player that makes moves, and a program whose first line is done."""

    status: Status = field(default_factory=lambda: Status(7, 20, ("0", "0", "0"), True, "none", 0, "idle"))
    report: Report | None = field(default_factory=lambda: Report(9, 9, False, "0 0 0", "out", OFF, wants=100))
    machine: MoveReport | None = field(default_factory=lambda: MoveReport("stands"))
    ended: str = ""
    gone: str = ""
    under: str = ""
    has_left: bool = False
    is_door_open: bool = False
    is_apart: bool = False
    slot: int | None = 1  # what is in the spindle; 1 is the probe's
    is_at_change: bool = False
    is_jog_held: bool = False
    goes_back: bool = False  # from where it was jogged to at a change


def told(standing: Standing) -> dict[str, bool]:
    """What the page is told of its buttons."""
    report, status = standing.report, standing.status
    is_broken = bool(standing.gone) or report is not None and report.word == "broken" or status.does == "broken"
    stand = SimpleNamespace(gone=standing.gone, is_broken=is_broken, recovery={"left": standing.has_left})
    inner = SimpleNamespace(program=SimpleNamespace(text=b"M2\n"), is_door_open=standing.is_door_open)
    touch = SimpleNamespace(setter=Setter(probe=Probe(1)))
    session = SimpleNamespace(ended=standing.ended, stand=stand, is_busy=bool(standing.under),
                              is_at_change=standing.is_at_change,
                              under=SimpleNamespace(word=standing.under) if standing.under else None,
                              operator=SimpleNamespace(session=inner, touch=touch,
                                                       change=SimpleNamespace(is_going=standing.goes_back)),
                              jogs=SimpleNamespace(is_going=standing.is_jog_held),
                              kept=SimpleNamespace(device=SimpleNamespace(slot=standing.slot)))
    return able(session, status, report, standing.machine, report.outputs if report else OFF, standing.is_apart)


class Words(unittest.TestCase):
    """What the page says while a command is under way."""

    def test_moves(self) -> None:
        """Each that moves without lines has its word; lines of one's own are those that no program has."""
        self.assertEqual(MOVING.keys(), WITHOUT_LINES)
        self.assertEqual(OWN_LINES, {"mdi", "restore", "above", "park", "macro"})


class Buttons(unittest.TestCase):
    """Which buttons are enabled."""

    SETTING_UP = {"load", "mdi", "tool", "zero", "touch", "undo", "offset", "restore", "above", "park", "macro",
                  "turn", "from"}
    MOVES = {"home", "jog", "seek", "probe", "measure"}
    ALWAYS = {"hold", "release", "rehearse"}
    CHOICES = {"single", "optional", "delete", "measures", "percent", "spindle"}

    def check(self, standing: Standing, *enabled: set[str]) -> None:
        """These and no others are."""
        self.assertEqual({word for word, is_so in told(standing).items() if is_so}, set().union(*enabled))

    def test_at_rest(self) -> None:
        """All but what there is nothing for; on the first line there is nothing to rewind."""
        going = {"run", "go", "reference", "resume", "recover", "drop", "abandon", "quit", "rewind"}
        self.check(Standing(), self.ALWAYS, self.CHOICES, self.SETTING_UP, self.MOVES, going)
        first = Standing()
        first.status = replace(first.status, place=0)
        self.check(first, self.ALWAYS, self.CHOICES, self.SETTING_UP, self.MOVES, going - {"rewind"})

    def test_apart(self) -> None:
        """Where two places are told no line goes from either of them but by a person's own words; M5 and M9, which
        `mdi` takes, go from none."""
        self.check(Standing(is_apart=True), self.ALWAYS, self.CHOICES, self.MOVES - {"probe", "measure"},
                   {"load", "mdi", "tool", "offset", "run", "go", "reference", "resume", "recover", "drop", "abandon",
                    "quit", "rewind"})

    def test_while_it_runs(self) -> None:
        """What is taken meanwhile; a jog goes on by its own button."""
        runs = Standing(under="run")
        runs.status = replace(runs.status, does="running", half="program")
        runs.report = replace(runs.report, received=12, outputs=Switch(1, 5, False, False, 0, 0))
        self.check(runs, self.ALWAYS, self.CHOICES, {"stop", "go"})
        self.check(Standing(under="jog"), self.ALWAYS, self.CHOICES, {"stop", "go", "jog"})
        waits = replace(runs, is_at_change=True, report=replace(runs.report, waits=True, tool=2))
        self.check(waits, self.ALWAYS, self.CHOICES, {"stop", "off", "go", "jog"})
        waits.report = replace(waits.report, outputs=OFF)
        self.check(waits, self.ALWAYS, self.CHOICES, {"stop", "go", "jog", "seek"})
        self.check(replace(waits, is_door_open=True), self.ALWAYS, self.CHOICES, {"stop", "go"})
        self.check(replace(waits, machine=MoveReport("seek Y-")), self.ALWAYS, self.CHOICES, {"stop"})
        self.check(replace(waits, machine=MoveReport("jog Y-")), self.ALWAYS, self.CHOICES, {"stop"})
        self.check(replace(waits, machine=MoveReport("jog Y-"), is_jog_held=True), self.ALWAYS, self.CHOICES,
                   {"stop", "jog"})
        self.check(replace(waits, goes_back=True), self.ALWAYS, self.CHOICES, {"stop"})

    def test_held(self) -> None:
        """Within a block: it goes on, is ended, or its outputs go off; with lines in hand no place is told."""
        held = Standing()
        held.status = replace(held.status, does="held", half="program")
        held.report = replace(held.report, received=12, is_held=True, outputs=Switch(1, 5, False, False, 0, 0))
        taken = {"run", "stop", "off", "go", "quit", "resume", "recover", "drop", "abandon"}
        self.check(held, self.ALWAYS, self.CHOICES, taken)
        held.report = replace(held.report, received=held.report.carried)
        self.check(held, self.ALWAYS, self.CHOICES, taken | {"reference"})

    def test_nowhere(self) -> None:
        """Where nobody told where the machine stands no line is taken; it is homed, or told."""
        nowhere = Standing()
        nowhere.status = replace(nowhere.status, known=False)
        self.check(nowhere, self.ALWAYS, self.CHOICES, self.MOVES - {"probe", "measure"},
                   {"load", "tool", "run", "go", "reference", "resume", "recover", "drop", "abandon", "quit", "rewind"})

    def test_in_hand(self) -> None:
        """Motors that are held with lines in hand, behind the program's end: these come first, or are let go of."""
        held = Standing()
        held.report = replace(held.report, received=12, is_held=True)
        self.check(held, self.ALWAYS, self.CHOICES, {"load", "tool", "run", "stop", "go", "quit", "resume", "recover",
                                                     "drop", "abandon", "rewind"})

    def test_alarm(self) -> None:
        """Home comes first, and a place may be told."""
        alarm = Standing(machine=MoveReport("stands", alarm="limits"))
        alarm.report = replace(alarm.report, word="alarm")
        self.check(alarm, {"hold", "home", "reference", "quit"})

    def test_broken_off(self) -> None:
        """The player carries out no more line: moves alone, and Stop, which begins another session."""
        broken = Standing()
        broken.report = replace(broken.report, word="broken", outputs=Switch(1, 5, False, False, 0, 0))
        self.check(broken, {"hold", "jog", "reference", "stop", "off", "quit"})
        broken.report = replace(broken.report, outputs=OFF)
        self.check(broken, {"hold", "jog", "reference", "home", "seek", "quit"})

    def test_moves(self) -> None:
        """None while the door is open, none but a jog while something turns, none of a player that makes none."""
        for standing, enabled in ((Standing(is_door_open=True), set()), (Standing(machine=None), set()),
                                  (Standing(report=replace(Standing().report, outputs=Switch(1, 5, False, False, 0, 0))),
                                   {"jog"})):
            found = told(standing)
            self.assertEqual({word for word in self.MOVES if found[word]}, enabled)

    def test_inputs(self) -> None:
        """None while the emergency stop is on, in an alarm neither; what seeks the probe while that is off alone, and
        work is probed by the probe alone."""
        for on, slot, enabled in ((("emergency_stop",), 1, set()), (("probe",), 1, {"home", "jog", "measure"}),
                                  (("limit_x_low",), 1, self.MOVES), ((), 2, self.MOVES - {"probe"}),
                                  ((), None, self.MOVES - {"probe"})):
            found = told(Standing(machine=MoveReport("stands", on=on), slot=slot))
            self.assertEqual({word for word in self.MOVES if found[word]}, enabled, (on, slot))
        alarm = Standing(machine=MoveReport("stands", alarm="emergency_stop", on=("emergency_stop",)))
        alarm.report = replace(alarm.report, word="alarm")
        self.check(alarm, {"hold", "reference", "quit"})

    def test_nothing_there(self) -> None:
        """Once `ngc` has ended, its player is gone, its device failed, or lines are left in OUT."""
        self.check(Standing(ended="ngc ended"), {"quit"})
        self.check(Standing(gone="no player"), self.ALWAYS, {"quit"})
        broken = Standing()
        broken.status = replace(broken.status, does="broken")
        self.assertFalse(any(told(broken)[word] for word in self.SETTING_UP | self.CHOICES | {"off", "stop", "rewind"}))
        self.assertFalse(any(told(Standing(has_left=True))[word] for word in self.SETTING_UP))


if __name__ == "__main__":
    unittest.main()
