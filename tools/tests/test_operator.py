"""The operator's core, without a terminal: what it compares, asks and says before something moves."""
import json
import sys
import unittest
from dataclasses import replace
from pathlib import Path
from unittest import mock

sys.path.insert(0, str(Path(__file__).resolve().parent))

from session_support import FIRST, TOOLS, InFolder, ngc

from ngc_tools.cli.line_times import command
from ngc_tools.formats.device import Device
from ngc_tools.formats.out import OFF, Switch, read_line
from ngc_tools.formats.position import Position, nanometres
from ngc_tools.ngc.console import Console, Status
from ngc_tools.operator.commands import BY_WORD
from ngc_tools.operator.face import MESSAGE, REFUSED, SAID, WARNING, WHERE, UnderWay
from ngc_tools.operator.meter import Meter
from ngc_tools.operator.operator import Operator
from ngc_tools.operator.ramp_times import RampTimes
from ngc_tools.link.progress import MoveReport, NoAnswer, Report

MODAL = ("feed_nm_per_min", "speed", "g92_nm", "origin_nm", "tool_length_nm", "motion", "plane", "distance",
         "feed_mode", "unit", "retract", "system", "path_mode", "spindle", "mist", "flood", "selected", "point_nm")


class ListFace:
    """A face that keeps what it is told; its answers are given before. It holds at the look of this number."""

    def __init__(self, *answers: str) -> None:
        self.said: list[tuple[str, str]] = []
        self.views: list[UnderWay | None] = []
        self.asked: list[str] = []
        self.answers = list(answers)
        self.given: list[str] = []
        self.holds_at = 0
        self.looks = 0
        self.gone = False

    def say(self, text: str, kind: str = SAID) -> None:
        """Keeps it."""
        self.said.append((kind, text))

    def once(self, text: str, kind: str = WARNING) -> None:
        """Keeps it, once."""
        if (kind, text) not in self.said:
            self.say(text, kind)

    def live(self, view: UnderWay | None) -> None:
        """Keeps it."""
        self.views.append(view)

    def moved(self, report: Report) -> None:
        """Reports aren't kept."""

    def ask(self, question: str) -> str:
        """The next answer."""
        self.asked.append(question)
        return self.answers.pop(0) if self.answers else ""

    def agrees(self, question: str) -> bool:
        """Whether that is a yes."""
        return self.ask(question).strip().lower() == "yes"

    def asides(self) -> list[str]:
        """Those that a test gave."""
        found, self.given = self.given, []
        return found

    def interrupted(self) -> bool:
        """Whether it holds now."""
        self.looks += 1
        return self.looks == self.holds_at

    def is_gone(self) -> bool:
        """Whether nobody is there any more."""
        return self.gone


class FileLink:
    """A player of the file `out`, which has carried out all that stands in it. It takes a point by `at`, if it
    `heeds` it; it is silent for as many questions as `silent` says."""

    failed = ""

    def __init__(self, at: str = "0 0 0") -> None:
        self.position = Position((1000, 1000, 1000), list(map(nanometres, at.split())))
        self.outputs: Switch = OFF
        self.carried = Path("out").read_bytes().count(b"\n") if Path("out").exists() else 0
        self.heeds = True
        self.silent = 0
        self.words: list[str] = []

    def ask(self) -> Report:
        """Carries out what stands in OUT, and says where that left the motors."""
        if self.silent:
            self.silent -= 1
            raise NoAnswer("progress: the player doesn't answer")
        lines = Path("out").read_bytes().split(b"\n")[:-1]
        for text in lines[self.carried:]:
            line = read_line(text, 1)
            self.position.take(line)
            self.outputs = line if isinstance(line, Switch) else self.outputs
        self.carried = len(lines)
        return Report(self.carried, self.carried, False, str(self.position), "out", self.outputs)

    def machine(self) -> MoveReport:
        """It makes no moves without lines."""
        raise NoAnswer("progress: the player doesn't answer")

    def at(self, place: str) -> None:
        """Takes where the machine stands."""
        self.words.append(f"at {place}")
        if self.heeds:
            self.position = Position((1000, 1000, 1000), list(map(nanometres, place.split())))

    def leads(self) -> str:
        """Nothing: the motors are where the lines lead."""
        return ""

    def end(self) -> None:
        """The session is over."""
        self.words.append("end")


class RampLink(FileLink):
    """A player of the file `out` that makes ramps: it carries out 40 lines each time that it is asked, and none while
    it is held. It wants 340 in hand. `most` is how far behind it ever was."""

    def __init__(self) -> None:
        super().__init__()
        self.at_once = 40
        self.is_held = False
        self.percent = self.spindle = 100
        self.most = 0

    def ask(self) -> Report:
        """Carries out some of what stands in OUT."""
        lines = Path("out").read_bytes().split(b"\n")[:-1]
        self.most = max(self.most, len(lines) - self.carried)
        for text in [] if self.is_held else lines[self.carried:self.carried + self.at_once]:
            self.position.take(read_line(text, 1))
            self.carried += 1
        return Report(self.carried, len(lines), False, str(self.position), "out", self.outputs, 0, self.is_held,
                      self.percent, 340, spindle=self.spindle)

    def hold(self) -> None:
        """Stands still."""
        self.is_held = True
        self.words.append("hold")

    def release(self) -> None:
        """Goes on."""
        self.is_held = False
        self.words.append("release")

    def override(self, percent: int) -> None:
        """Takes up to 120 percent."""
        self.words.append(f"percent {percent}")
        self.percent = percent if percent <= 120 else self.percent

    def override_spindle(self, percent: int) -> None:
        """Takes up to 100 percent."""
        self.words.append(f"spindle percent {percent}")
        self.spindle = percent if percent <= 100 else self.spindle

    def last(self) -> None:
        """Nothing more comes for now; how many lines stand in OUT then."""
        self.words.append(f"last {len(Path('out').read_bytes().splitlines())}")


class Core(InFolder):
    """A core over a fresh device, and perhaps a player."""

    maxDiff = None

    def setUp(self) -> None:
        """A fresh device."""
        super().setUp()
        self.device()

    def begin(self, link: FileLink | None = None, found: Device | None = None) -> Operator:
        """A session, which ends with the test."""
        console = Console(ngc(), "mill.dev", "first.toml", "out")
        self.addCleanup(console.kill)
        Path("out").touch()
        self.face = ListFace()
        self.operator = Operator(console, self.face, Meter(link) if link else None)
        console.status()
        self.operator.begin("bound", found)
        self.begun = [text for _, text in self.face.said]
        return self.operator

    def end(self) -> None:
        """Ends the session, so that another one may begin."""
        self.assertEqual(self.operator.console.quit(), 0)

    def cut(self) -> None:
        """Ends it as a loss of power does."""
        self.operator.console.kill()

    def do(self, *lines: str, answers: tuple[str, ...] = ()) -> list[str]:
        """What is said once these are typed, and these questions answered."""
        self.face.said.clear()
        self.face.asked.clear()
        self.face.answers = list(answers)
        for line in lines:
            self.operator.do(line)
        self.assertEqual(self.face.answers, [])
        return [text for _, text in self.face.said]

    def load(self, text: str) -> None:
        """Stores a program."""
        self.face.said.clear()
        self.assertTrue(self.operator.load("part.ngc", text.encode()), self.face.said)

    def hold_after(self, looks: int) -> None:
        """Somebody holds at the look of this number from now on."""
        self.face.looks, self.face.holds_at = 0, looks

    def status(self) -> Status:
        """The status of `ngc`."""
        return self.operator.console.status()

    def out(self) -> list[str]:
        """The lines that were handed out."""
        return Path("out").read_text().splitlines()


class Faces(Core):
    """The core speaks to a face, and knows no screen."""

    def test_no_screen(self) -> None:
        """Nothing of the package takes anything from the command lines, prints or reads."""
        for path in (TOOLS / "ngc_tools" / "operator").glob("*.py"):
            self.assertNotRegex(path.read_text(), r"ngc_tools\.cli|\bprint\(|\binput\(|sys\.std", path)

    def test_help(self) -> None:
        """Each command stands in the help but those that people don't type, and other names."""
        said = self.begin() and self.do("help")[0]
        for word in BY_WORD.keys() - {"mdi", "tick", "?", "exit"}:
            self.assertRegex(said, rf"(?m)^(\w+, )?{word}\b", word)

    def test_kinds(self) -> None:
        """Each thing is said with its kind; a program comes as bytes; how all stands can be asked."""
        operator = self.begin()
        self.face.said.clear()
        text = b"G21 G90\nG0 X0.1\n(MSG, hello)\nM2\n"
        self.assertTrue(operator.load("a name", text))
        with mock.patch.object(operator.console, "load"):  # `ngc` would read all of it first
            self.assertFalse(operator.load("long", b"M5\n" * 43_691 + b"M2\n"))
        operator.do("run")
        self.assertEqual([kind for kind, _ in self.face.said], [SAID, SAID, REFUSED, MESSAGE, WHERE])
        self.assertEqual(self.face.said[1][1], "done 1: a name, 32 bytes, 4 lines")
        self.assertRegex(self.face.said[2][1],
                         r"^long, 131,076 bytes: refused J5 ProgramTooLong: .*\. ngc-split parts it$")
        self.assertEqual(self.face.said[3][1], "message, line 3: hello")
        self.assertIn("line 2: G0 X0.1", [view.line for view in self.face.views if view])
        self.assertIsNone(self.face.views[-1])
        status, report = operator.look()
        self.assertEqual((status.at[0], status.does, report), ("0.100000", "idle", None))
        self.assertEqual(operator.stored().program, text)

    def test_messages(self) -> None:
        """Each message comes once, however many ticks are given at a time: the end of a program may be the last of
        them, and a program may be through within them."""
        self.begin()
        for count in (1, 2, 3, 5, 8, 1000):
            self.load("G21 G90\n(MSG, one)\nG0 X0.1\nX0\n(MSG, two)\nM2\n")
            with mock.patch.object(self.operator.work, "room", lambda: count):
                said = self.do("run")
            self.assertEqual([text for text in said if "message" in text],
                             ["message, line 2: one", "message, line 5: two"], count)


class Places(Core):
    """The motors are elsewhere than somebody or `ngc` takes them to be."""

    def test_reference(self) -> None:
        """A point that is mistyped isn't taken without `anyway`; the player's own needs no typing."""
        self.run_ngc("load 22\nM3 S1000\nG0 X0.005\nM2\nstart\ntick 10\n", "before")
        link = FileLink("4.325 -10 -10.5")
        self.begin(link)
        said = self.do("reference 43.25 -10 -10.5")
        self.assertEqual(said, [
            "the player says that the motors are at X4.325 Y-10 Z-10.5, and what was typed is X43.25 Y-10 Z-10.5:"
            " 38.925 mm apart. Nothing is done.\n  reference player takes the player's point; reference 43.25 -10 -10.5"
            " anyway takes what was typed"])
        self.assertFalse(self.status().known)
        self.assertEqual(self.do("reference player"), ["done 3"])
        self.assertEqual(self.status().at, ("4.325000", "-10.000000", "-10.500000"))
        self.assertEqual(self.do("reference player PLAYER -10.5"), ["done 4"])
        self.assertEqual(self.do("reference 4.3250004 -10 -10.5"), ["done 5"])  # the same step
        self.assertEqual(link.words, [])
        self.assertEqual(self.do("reference 43.25 -10 -10.5 Anyway"), ["done 6"])
        self.assertEqual(link.words, ["at 43.250000 -10.000000 -10.500000"])
        self.assertEqual(self.do("reference 1 2")[0].split(":")[0], "refused U1 BadCommand")

    def test_reference_without_player(self) -> None:
        """Without a player a point is taken as it is typed, and there is none to be named."""
        self.begin()
        self.assertEqual(self.do("reference player"), ["no player says where the motors are: reference X Y Z"])
        self.assertEqual(self.do("reference 1 2 3"), ["done 1"])

    def test_deaf_player(self) -> None:
        """A player that doesn't take the point is told of, with what to do."""
        link = FileLink("1 0 0")
        link.heeds = False
        self.begin(link)
        self.assertEqual(self.do("reference 2 0 0 anyway"),
                         ["done 1", "the player still says X Y Z 1.000000 0.000000 0.000000: start it anew with --at"
                          " 2.000000 0.000000 0.000000"])

    def test_resume(self) -> None:
        """A block isn't taken up from where the motors aren't."""
        self.run_ngc("mdi G0 X0.005\ntick 4\nquit\n", "before")
        self.run_ngc("reference 0.043 0 0\nquit\n", "before")
        self.begin(FileLink("0.004 0 0"))
        refused = ["the player says that the motors are at X0.004 Y0 Z0, and ngc takes them to be at X0.043 Y0 Z0:"
                   " 0.039 mm apart. Nothing is done.\n  reference player takes the player's point; resume anyway goes"
                   " on from ngc's"]
        self.assertEqual(self.do("resume"), refused)
        self.assertEqual((self.out(), self.status().does), ([], "idle"))
        self.hold_after(1)
        self.assertIn("taken up", self.do("resume anyway")[0])
        self.assertEqual(self.do("continue"), [refused[0].replace("resume", "continue")])
        self.assertEqual((self.out(), self.status().does), ([], "held"))
        self.do("continue anyway", answers=("yes",))
        self.assertEqual(self.out(), ["S 0 0.000000 0 0 0 0"] + ["P -1 0 0 50"] * 43 + ["P 1 0 0 50"] * 5)

    def test_lines_and_programs(self) -> None:
        """A line of one's own, `run` and `continue` go nowhere from a wrong point; M5 and M9 always go through."""
        link = FileLink("0.5 0 0")
        self.begin(link)
        refused = ("the player says that the motors are at X0.5 Y0 Z0, and ngc takes them to be at X0 Y0 Z0: 0.500 mm"
                   " apart. Nothing is done.\n  reference player takes the player's point; {} goes on from ngc's")
        self.load("G21 G90 G0 X0.001\nM0\nG0 X0.002\nM2\n")
        for typed, again in (("G0 X0.002", "anyway G0 X0.002"), ("mdi G0 X0.002", "anyway G0 X0.002"),
                             ("run", "run anyway"), ("start", "start anyway")):
            self.assertEqual(self.do(typed), [refused.format(again)], typed)
        self.assertEqual(self.out(), [])
        self.do("M5", "n10 m05 m9")
        self.assertEqual(self.out(), ["S 0 0.000000 0 0 0 0"] * 3)
        self.do("anyway G0 X0.001", "G0 X0.002 anyway")
        self.assertEqual(self.out()[3:], ["P 1 0 0 50"] * 2)
        self.do("run anyway")
        self.assertEqual(self.out()[5:], ["P -1 0 0 50"])
        self.assertEqual(self.do("run"), [refused.format("run anyway").replace("X0.5 Y", "X0.501 Y").replace("X0 Y0",
                                                                                                        "X0.001 Y0")])
        self.assertEqual(self.status().does, "stopped")
        link.position = Position((1000, 1000, 1000), (1000, 0, 0))
        self.do("continue")
        self.assertEqual(self.out()[6:], ["P 1 0 0 50", "S 0 0.000000 0 0 0 0"])

    def test_player_that_waits(self) -> None:
        """While the player doesn't say where the motors are, nothing is begun."""
        link = FileLink()
        self.begin(link)
        link.silent = 2  # it is looked for an alarm first
        silent = ("nothing is done. Once the player answers, again; if it is gone, quit, and start a player and this"
                  " again")
        self.assertEqual(self.do("G0 X1"), ["progress: the player doesn't answer", silent])
        link.silent = 2  # it is looked for an alarm first
        self.assertEqual(self.do("reference player"), ["progress: the player doesn't answer", silent])
        self.assertEqual(self.out(), [])


class LeftBehind(Core):
    """Lines of one's own, `abandon` and G92 leave a program another machine than it had."""

    def stop(self, rest: str, head: str = "G21 G90 G17 G94 G54 F600") -> None:
        """A program that stands at its M0."""
        self.begin()
        self.face.answers = ["yes"]
        self.load(f"{head}\nG1 X0.001\nM0\n{rest}\nM2\n")
        self.do("run")
        self.assertEqual(self.status().does, "stopped")

    def test_told(self) -> None:
        """What a line leaves in force is said, once, and `run` asks before the program goes on in it."""
        self.stop("G0 X0.002\nG1 X0.005")
        self.assertEqual(self.do("G91")[-1], "in force now: G91 (G90 before). restore puts it back")
        self.assertNotIn("in force", self.do("G4 P0")[-1])
        self.assertEqual(self.do("run", answers=("",)), ["line 4 begins where the machine is, at X0.001 Y0 Z0",
                                                         "in force now: G91 (G90 before)", "restore types: G90"])
        self.assertEqual(self.face.asked, ["go on all the same? yes goes on: "])
        self.assertEqual((self.status().does, self.out()[-1]), ("stopped", "D 0"))
        self.do("run", answers=("yes",))
        self.assertEqual(self.status().at[0], "0.008000")  # 0.001 + 0.002 + 0.005: it goes on in G91

    def test_not_told(self) -> None:
        """It isn't asked where the rest of the program doesn't rely on it."""
        self.stop("G90 G21 G0 X0.002\nG1 X0.005 F600")
        self.do("G91", "G20", "F7")
        self.do("run")
        self.assertEqual((self.face.asked, self.status().at[0]), ([], "0.005000"))

    def test_anyway(self) -> None:
        """`anyway` answers the question too."""
        self.stop("G0 X0.002")
        self.do("G91", "run anyway")
        self.assertEqual((self.face.asked, self.status().at[0]), ([], "0.003000"))

    def test_motion(self) -> None:
        """A motion mode that leaks: `X0.15` after G1 would become a traverse. It is asked only where a line relies on
        it."""
        self.stop("X0.15")
        self.assertNotIn("in force", self.do("G53 G0 Z0")[-1])
        self.assertEqual(self.do("run", answers=("no",))[1:],
                         ["in force now: G0 (G1 before)", "restore types: F1 G53 G1 X0.001000; F600"])
        self.do("restore")
        self.do("run")
        self.assertEqual(self.face.asked, [])
        self.assertEqual(self.out()[1:-1], ["P 1 0 0 100"] * 149)  # at F600, not at the traverse rate

    def test_motion_that_is_named(self) -> None:
        """The same with a line that names its motion: nothing is asked."""
        self.stop("G1 X0.15")
        self.do("G53 G0 Z0", "run")
        self.assertEqual(self.face.asked, [])

    def test_feed(self) -> None:
        """A feed that leaks is asked of where the next cut has none of its own."""
        self.stop("X0.002")
        self.assertEqual(self.do("F100")[-1], "in force now: F100 mm/min (F600 mm/min before). restore puts it back")
        self.do("run", answers=("yes",))

    def test_spindle(self) -> None:
        """A spindle that was stopped is asked of; one that was started, or that stands as a program begins, isn't."""
        self.stop("G90 G1 X0.002 F600", "G21 G90 F600 M3 S1000")
        self.assertNotIn("in force", self.do("M8", "M5")[-1])
        self.assertEqual(self.do("run", answers=("no",))[1:],
                         ["in force now: M5 (M3 before), M8 (M9 before)", "restore types: M3; M9"])
        self.do("M3", "run", "M4", "run")
        self.assertEqual(self.face.asked, [])

    def test_restore(self) -> None:
        """Whatever lines leave in force, `restore` puts back, and moves nothing."""
        self.begin()
        self.do("tool 1 5", "tool 2 7", "tool 3 0")
        lines = ("G91", "G18", "G20", "G93", "G55", "G43 H2", "F1", "G99", "G61", "M3", "S500", "M8", "M7", "T3", "G49",
                 "G92 X1 Y2 Z3", "G92.1", "G10 L2 P1 X4 Y5", "G80", "G53 G0 Z0", "G20 F3 G93", "M5", "M9", "G54", "G19")
        self.load("G21 G90 G17 G94 G54 G43 H1 F600 S70.5\nT2 G92 Z1.5\nM4\nM8\nG1 X0.001\nM0\nM2\n")
        self.do("run")
        before = Device.read("mill.dev").state
        for first in range(len(lines)):
            self.do(*(lines[first:] + lines[:first])[:1 + first % 7], "restore")
            state, handed_out = Device.read("mill.dev").state, self.out()
            self.assertEqual({name: getattr(state, name) for name in MODAL},
                             {name: getattr(before, name) for name in MODAL}, (first, self.face.said))
            self.assertEqual(sum(line.startswith("P") for line in handed_out), 1)
            self.assertEqual(self.do("restore"), ["all is in force as it was"])

    def test_restore_what_cannot_be(self) -> None:
        """An arc's motion mode, a changed tool and a length that no slot has are named."""
        self.begin()
        self.do("tool 1 5", "tool 2 7")
        self.load("G21 G90 G17 G54 G43 H1 F600 T1 M6\nG2 X0 Y0 I1\nM0\nX0 Y0 I1\nM2\n")
        self.do("run")
        self.do("G53 G0 Z0", "T2 M6", "G49", "tool 1 6")
        self.assertEqual(self.do("restore")[-1], "it can't put back G2: no line without a move puts it back; nor a tool"
                         " length of 5 mm: no slot has it; nor the tool: T1 M6")

    def test_cycle(self) -> None:
        """A cycle that another motion ended would be drilled no more; what it kept is named."""
        self.stop("X0.002", "G21 G90 F600\nG81 X0 Z-0.01 R0.005")
        self.do("G0 Y0")
        self.assertEqual(self.do("run", answers=("no",))[1:],
                         ["in force now: G0 (G1 before)", "restore types: F1 G53 G1 X0.001000; F600"])
        self.do("G81 X0.001 Z-0.01 R0.005", "G0 Y0", "restore")
        self.do("G81 X0.001 Z-0.01 R0.005")
        self.assertEqual(self.do("run", answers=("no",))[1:],
                         ["in force now: G81 (G1 before)", "restore types: F1 G53 G1 X0.001000; F600"])

    def test_cycle_that_goes_on(self) -> None:
        """A cycle that is still in force is no question by itself: it is asked where a hole comes elsewhere."""
        self.begin()
        self.load("G21 G90 F600\nG81 X0 Z-0.01 R0.005\nM0\nG90 X0.002\nM0\nX0.003\nM2\n")
        self.do("run", "G91", "run")
        self.assertEqual(self.face.asked, [])
        self.do("G91")
        self.assertEqual(self.do("run", answers=("no",))[1:], ["in force now: G91 (G90 before)", "restore types: G90"])

    def test_other_tool(self) -> None:
        """Another tool in the spindle as a program begins is no question, another one that is selected is."""
        self.begin()
        self.do("tool 1 0.001", "tool 2 0.003", "T1 M6")
        self.load("G21 G90 G0 X0.002\nM2\n")
        self.do("run", "T2 M6", "run")
        self.load("M6\nM2\n")
        self.do("run")
        self.assertEqual(self.face.asked, [])
        self.do("T1")
        self.assertEqual(self.do("run", answers=("no",)), ["in force now: T1 (T2 before)", "restore types: T2"])

    def test_other_words_of_a_cycle(self) -> None:
        """A cycle that goes on with other words than the program gave it is asked about, and isn't put back."""
        self.begin()
        self.load("G21 G90 F600\nG81 X0 Z-0.01 R0.005\nM0\nX0.002\nM2\n")
        self.do("run", "G81 X0 Z-0.02 R0.005")
        self.assertEqual(self.do("run", answers=("no",))[1:],
                         ["in force now: R0.005 Z-0.02 of a cycle (R0.005 Z-0.01 of a cycle before)"])
        self.assertEqual(self.do("restore")[-1],
                         "it can't put back what a cycle kept: its next line has to name R and Z")

    def test_idle(self) -> None:
        """Lines while idle leave something too; a program that sets its modes isn't asked about."""
        self.begin()
        self.do("G91")
        self.load("G90 G0 X0.002\nM2\n")
        self.do("run")
        self.assertEqual(self.face.asked, [])
        self.do("G91")
        self.load("G0 X0.002\nM2\n")
        self.assertEqual(self.do("run", answers=("no",)), ["in force now: G91 (G90 before)", "restore types: G90"])

    def test_zero_set(self) -> None:
        """A zero point that is set before a program begins is no question; one that is set at a stop is."""
        self.begin()
        self.do("tool 1 0.001", "G10 L2 P2 X0.001", "G55", "G43 H1", "G92 Y0.002")
        self.load("G21 G90 G0 X0.002\nM0\nG0 X0.003\nM2\n")
        self.do("run")
        self.assertEqual((self.face.asked, self.status().at[0]), ([], "0.003000"))
        self.do("G10 L2 P2 X0.005")
        self.assertEqual(self.do("run", answers=("no",))[1:],
                         ["in force now: G55 at X0.005 Y0 Z0 (G55 at X0.001 Y0 Z0 before)",
                          "restore types: G10 L2 P2 X0.001 Y0 Z0"])

    def test_place(self) -> None:
        """At a stop the machine was moved: where the next line begins, and where the machine is."""
        self.stop("G0 X0.002")
        self.do("G0 Y0.003")
        self.assertEqual(self.do("run", answers=("no",)),
                         ["line 4 begins at X0.001 Y0 Z0. The machine is at X0.001 Y0.003 Z0, 0.003 mm away, and the"
                          " line would go from there"])
        self.do("G0 Y0", "run")
        self.assertEqual(self.face.asked, [])

    def test_refused_line(self) -> None:
        """After a line that is refused the program stands where it stood."""
        self.stop("G1 X5000", "G21 G90 F600")
        self.do("G0 Y0.003")
        for _ in range(2):
            self.assertIn("line 4 begins at X0.001 Y0 Z0", self.do("run", answers=("yes",))[0])

    def test_abandon(self) -> None:
        """A block that is given up: its line begins again from where the machine is, which `run` asks about, in this
        session and in the next."""
        self.begin()
        self.load("G21 G90 G94 F600\nG1 X0.001 Z-0.01\nG1 X-0.5\nM2\n")
        self.hold_after(4)
        self.do("run")
        self.cut()
        found = Device.read("mill.dev")
        self.assertEqual((found.state.half, found.state.place), (1, 34))
        self.begin()
        self.do("reference 0.0005 0 -0.01", "abandon", "reference 0.0005 0 -0.01", "G53 G0 Z0")
        asked = ("line 3 begins at X0.001 Y0 Z-0.01. The machine is at X0.0005 Y0 Z0, 0.010 mm away, and the line would"
                 " go from there")
        self.assertEqual(self.do("run", answers=("no",))[0], asked)
        self.end()
        self.begin(found=Device.read("mill.dev"))
        self.assertEqual(self.do("run", answers=("no",))[0], asked)
        self.assertEqual(self.status().does, "idle")
        self.end()
        self.begin(found=Device.read("mill.dev"))  # the log was begun anew meanwhile
        self.do("G0 Y0")
        self.assertEqual(self.do("run", answers=("no",))[0],
                         "line 3 comes next, and the device doesn't tell any more where it begins. The machine is at X"
                         " 0.000500 Y 0.000000 Z 0.000000, and the line would go from there")
        self.load("M2\n")
        self.do("run")
        self.assertEqual(self.face.asked, [])

    def test_quit_at_a_stop(self) -> None:
        """A session that ended at a stop, with nothing done since: the next one asks nothing."""
        self.stop("G0 X0.002")
        self.end()
        self.begin(found=Device.read("mill.dev"))
        self.do("run")
        self.assertEqual((self.face.asked, self.status().at[0]), ([], "0.002000"))

    def test_g92(self) -> None:
        """A G92 offset that the program's end drops is told of, with the lines that keep the zero point."""
        self.begin()
        self.do("G10 L2 P1 X1 Y2 Z3", "G0 X1 Y2", "G92 X-49 Y-48")
        self.load("G21 G90\nM2\n")
        self.assertIn("a G92 offset is in force, and the program's end, M2 or M30, drops it: the next run begins"
                      " without it. To keep the zero point: G21, then G92.1, then G10 L2 P1 X51 Y52 Z3",
                      self.do("run anyway"))
        self.assertNotIn("G92", " ".join(self.do("run anyway")))


class Causes(Core):
    """K1 says which of its causes holds, and what to do next."""

    def test_held_within(self) -> None:
        """A feed hold within a block."""
        self.begin()
        self.load("G21 G90\nG1 X3 F60\nM2\n")
        self.hold_after(3)
        self.do("run")
        for typed in ("M5", "G0 Z0", "abandon", "tool 1 5", "load", "reference 0 0 0"):
            said = (self.do(typed) if typed != "load" else
                    [self.operator.load("x", b"M2\n"), self.face.said[-1][1]])[-1]
            self.assertEqual(said, "refused K1 Busy: held in segment 0 of line 2: G1 X3 F60: run goes on; to give the"
                             " block up: stop. No other line is done before that", typed)
        self.do("run")
        self.assertEqual(self.status().at[0], "3.000000")

    def test_held_between(self) -> None:
        """A hold between two blocks: a line of one's own ends it."""
        self.begin()
        self.load("G21 G90\nM2\n")
        self.operator.console.ask("start")
        self.operator.console.ask("hold")
        self.assertEqual(self.do("abandon"), ["refused K1 Busy: held before line 1: G21 G90: run goes on; a line of"
                                              " G-code, as M5, is done and ends the hold; then abandon"])
        self.do("M5")
        self.assertTrue(self.operator.load("x", b"M2\n"))

    def test_half_done(self) -> None:
        """A block that the last session left."""
        self.run_ngc("mdi G0 X1\ntick 4\n", "before")
        self.begin(FileLink("0.002 0 0"))
        half = "refused K1 Busy: segment 0 of a line of yours is half-done. rehearse says what resume would do; "
        self.assertEqual(self.do("G0 Z0"), [half + "reference player, or reference X Y Z, then resume or abandon, and a"
                                            " line of yours after that"])
        self.assertEqual(self.do("resume")[0], "refused K3 PlaceUnknown: it isn't known where the machine stands:"
                         " reference player, or reference X Y Z")
        self.do("reference player")
        self.assertEqual(self.do("tool 1 5"), [half + "then resume or abandon, and tool after that"])


    def test_forms(self) -> None:
        """A command that is written otherwise is said how it is written; a slot, which one comes first."""
        self.begin()
        self.do("tool 1 5", "tool 2 5")
        self.assertEqual(self.do("reference 1 2", "tool one 3", "optional maybe", "tool 5 3"), [
            "refused U1 BadCommand: reference X Y Z: three machine coordinates in millimetres, without letters, as in"
            " `reference 7.21 0 -5`",
            "refused U1 BadCommand: tool N LENGTH: a slot from 1 to 128 and its length in millimetres, 0 to 1000, as in"
            " `tool 1 62.5`",
            "refused U1 BadCommand: optional on or optional off",
            "slots 3 to 4 have length 0 now, since the table has no gaps: measure before G43 takes that", "done 5"])


    def test_nothing_to_do(self) -> None:
        """Nothing is half-done, nothing waits, nothing is loaded."""
        self.begin()
        self.assertEqual(self.do("continue", "run", "resume"), [
            *["refused K2 NoProgram: no program is loaded: load FILE"] * 2,
            "refused K4 NothingHalfDone: no block is half-done: run goes on with the program"])
        self.load("M2\n")
        self.assertEqual(self.do("continue"), ["refused K2 NoProgram: nothing waits: run starts the program"])


    def test_outside(self) -> None:
        """X2 says which axis leaves the travel, and where: of a line, a point that is told, a line of the program."""
        self.begin()
        self.do("G10 L2 P1 X10", "G54")
        line = "X goes to 1,001 mm of the machine, and the travel ends at 1,000 (high_nm of the settings)"
        self.assertIn(f"refused X2 OutsideTravel: {line}\n", self.do("G0 X991")[0])
        self.assertEqual(self.do("reference 1 2 -1001"), ["refused X2 OutsideTravel: Z -1,001 is outside the travel,"
                                                          " which ends at -1,000 (low_nm of the settings)"])
        self.face.answers = ["yes"]
        self.load("G21 G90\nG0 X0\nG0 X991\nM2\n")
        self.assertIn(f"line 3: G0 X991\n  refused X2 OutsideTravel: {line}\n", self.do("run")[0])


class Beginnings(Core):
    """What a session begins with, and a rehearsal within it."""

    def test_power_lost(self) -> None:
        """What was lost, how far it came, and what to do; a rehearsal from where the player says the machine is."""
        self.run_ngc("load 34\nG21 G90 F600\nG81 Z-0.01 R0.005\nM2\nstart\ntick 13\n", "before")
        self.begin(FileLink("0 0 0.002"))
        self.assertEqual(self.begun[2].splitlines(), [
            "power was lost, or the session ended, in line 2: G81 Z-0.01 R0.005",
            "  in segment 2 of 4, counted from 0. Nothing moves by itself",
            "  where the machine is: reference player, or reference X Y Z; then rehearse, resume or abandon"])
        image = Path("mill.dev").read_bytes()
        said = self.do("rehearse")[0].splitlines()
        self.assertEqual(said[0], "half-done: line 2 of 3: G81 Z-0.01 R0.005")
        self.assertIn("the approach: from X 0.000000 Y 0.000000 Z 0.002000", said)
        self.assertIn("Z 0.004000", self.do("rehearse 0 0 0.004")[0])
        self.assertEqual(self.do("rehearse 1")[0], "rehearse, rehearse player, or rehearse X Y Z: where the machine"
                         " stands, in machine mm")
        self.assertEqual(self.do("rehearse 5000 0 0"), ["reference 5000 0 0: refused X2 OutsideTravel: X 5,000 is"
                         " outside the travel, which ends at 1,000 (high_nm of the settings)"])
        self.hold_after(1)
        self.assertEqual(self.do("rehearse"), ["the rehearsal was broken off; the machine wasn't touched"])
        self.assertEqual((Path("mill.dev").read_bytes(), self.out()), (image, []))
        self.do("reference player")
        self.end()
        self.begin()
        self.assertIn("the machine is where it is known to be, unless it was moved; then rehearse", self.begun[2])

    def test_other_settings(self) -> None:
        """Settings under which the half-done block is refused aren't those of its session, and that is said."""
        self.run_ngc("mdi G0 X1\ntick 4\n", "before")
        Path("first.toml").write_text(FIRST.replace("high_nm = [1000000000", "high_nm = [900000"))
        self.begin()
        self.assertEqual(self.begun[1].splitlines()[-1],
                         "  resume would be refused X2 OutsideTravel: is first.toml other than it was?")

    def test_other_steps(self) -> None:
        """A player that counts in other steps than the settings has."""
        Path("first.toml").write_text(FIRST.replace("[1000, 1000, 1000]", "[5000, 1000, 1000]"))
        self.begin(FileLink("0.007 0 0"))
        self.assertIn("the player is at 0.007000 0.000000 0.000000, which isn't a whole number of steps of first.toml:"
                      " has it other settings?", self.begun)


class Loads(Core):
    """A program is tried before it is stored."""

    def test_figures(self) -> None:
        """Extents, travel and time, from the device's own offsets: X 2 at 600 mm a minute is 0.2 s."""
        self.begin()
        self.do("G10 L2 P1 X10 Y0 Z-5")
        self.load("G21 G90 G54\nG0 X0 Y0 Z0\nG1 X2 F600\nM2\n")
        self.assertEqual(self.face.said[0][1], "by a dry run from here, in machine millimetres:\n"
                         "    moves   X 0.000 to 12.000   Y 0.000 to 0.000   Z -5.000 to 0.000\n"
                         "    travel  X -1000.000 to 1000.000   Y -1000.000 to 1000.000   Z -1000.000 to 1000.000\n"
                         "    about 0.312 s")

    def test_refused(self) -> None:
        """A line that would be refused, by the device's offset, a missing slot, a missing end: nothing is stored
        without a yes."""
        self.begin()
        self.do("G10 L2 P1 X999", "G54")
        outside = "X goes to 1,001 mm of the machine, and the travel ends at 1,000 (high_nm of the settings)"
        for text, line in (("G21 G90\nG0 X2\nM2\n", f"line 2: G0 X2\n  refused X2 OutsideTravel: {outside}\n  look at"),
                           ("T1 M6\nM2\n", "line 1: T1 M6\n  refused B14 BadSlot"),
                           ("G21\nG90\n", "line 3\n  refused X3 NoProgramEnd")):
            self.face.said.clear()
            self.assertFalse(self.operator.load("part.ngc", text.encode()))
            kind, said = self.face.said[1]
            self.assertEqual((kind, said[:len(line) + 17]), (REFUSED, f"it would stop at {line}"))
            self.assertEqual(self.face.said[2], (SAID, "nothing is stored"))
        self.assertEqual(Device.read("mill.dev").program, b"")
        self.face.answers = ["yes"]
        self.assertTrue(self.operator.load("part.ngc", b"T1 M6\nM2\n"))
        self.do("tool 1 5")
        self.assertTrue(self.operator.load("part.ngc", b"T1 M6\nM2\n"))

    def test_other_text(self) -> None:
        """UTF-16 and lines that end in carriage returns alone are refused with what to do."""
        self.begin()
        for text, why in (("G21\nM2\n".encode("utf-16"), "it is UTF-16, of which ngc reads no line"),
                          (b"G21\rM2\r", "its lines end in carriage returns alone, so ngc takes it for one line")):
            self.face.said.clear()
            self.assertFalse(self.operator.load("part.ngc", text))
            said = f"part.ngc: {why}: ngc-adapt part.ngc --output NEW.ngc writes it as ngc reads it. Nothing is stored"
            self.assertEqual(self.face.said, [(REFUSED, said)])
        self.assertTrue(self.operator.load("part.ngc", "(Ü)\r\nM2\r\n".encode()))

    def test_comment_of_stop(self) -> None:
        """At a stop its plain comment is told as a message is, once; a line of one's own doesn't repeat it."""
        self.begin()
        self.load("G21 G90\n(take the clamp off)\nM0\nM0 (MSG, b)\nM0\nM2\n")
        self.do("run")
        self.assertIn(("message", "comment, line 2: take the clamp off"), self.face.said)
        self.assertNotIn("take the clamp off", " ".join(self.do("G91 G90")))
        self.assertIn("message, line 4: b", self.do("run"))
        self.assertEqual([text for text in self.do("run") if text.startswith(("comment", "message"))], [])

    def test_unset_length(self) -> None:
        """A program that moves Z and sets no tool length: the one in force is told as it is loaded, and another one is
        asked before it begins, as that of the job before."""
        self.begin()
        self.do("tool 1 0.5")
        text = "G17 G21 G90 G94\nG0 Z0.02\nM2\n"
        none = ("line 2: it moves Z before it sets G43 or G49, and no tool length is in force, as it was left before:"
                " write G43 with the tool's H, or G49, before it")
        self.load(text)
        self.assertIn(("warning", none), self.face.said)
        self.do("run")
        self.assertEqual(self.face.asked, [])
        self.do("G0 Z0", "G43 H1")
        other = none.replace("no tool length", "a length of 0.500 mm")
        before = self.out()
        self.assertEqual(self.do("run", answers=("no",)), [other])
        self.assertEqual((self.face.asked, self.out()), (["begin all the same? yes begins: "], before))
        self.do("run", answers=("yes",))
        self.assertEqual(self.status().at[2], "0.520000")
        self.do("run")  # it was told
        self.end()
        self.begin()
        self.do("G0 Z0")
        self.do("run", answers=("no",))  # not in this session
        self.do("run anyway", "G49")
        self.load(f"G49\n{text}")
        self.do("run")
        self.assertEqual(self.face.asked, [])

    def test_unset_length_again(self) -> None:
        """Over the next part too, which begins where the one before ended: another line moves Z first, and the same
        length counts."""
        self.begin()
        self.do("tool 1 0.5")
        self.load("G17 G21 G90 G94\nG0 Z0.02\nG0 Z0.01\nG0 Z0.02\nM2\n")
        for _ in range(2):
            self.do("run")
            self.assertEqual((self.face.asked, self.status().at[2]), ([], "0.020000"))
        self.do("G43 H1", "G0 Z0.02")
        said = self.do("run", answers=("no",))
        self.assertEqual([text for text in said if text.startswith("line 3: it moves Z before it sets G43")], said)
        self.assertEqual(self.face.asked, ["begin all the same? yes begins: "])


class Shown(Core):
    """What stands, for a person at the machine."""

    def test_where(self) -> None:
        """Machine and work, offsets, modes, outputs, the times, the motors."""
        self.begin(FileLink())
        self.do("tool 1 2.5", "G10 L2 P2 X10 Y0 Z-5")
        self.load("G21 G90 G55 G43 H1 T1 M6\nM3 S1000\nG0 X0 Y0 Z0\nG1 X3 F60\nM0\nG1 X1\nM2\n")
        self.do("run")
        self.assertEqual(self.do("where"), [
            "stopped; X 13.000000 Y 0.000000 Z -2.500000; next line 6 of 7: G1 X1",
            "work X3.000 Y0.000 Z0.000; G55 at X10 Y0 Z-5, tool length 2.5",
            "G1 G17 G21 G90 G94; F60 mm/min; spindle clockwise at 1000; no coolant; tool 1 in the spindle",
            "about 0:03 done, 0:02 left",
            "the motors are at X 13.000000 Y 0.000000 Z -2.500000, 0 lines behind",
            "the player has spindle clockwise at 1000; no coolant; tool 1 in the spindle"])
        view = next(view for view in self.face.views if view and view.line.startswith("line 4"))
        self.assertEqual(view.line, "line 4: G1 X3 F60")
        self.assertEqual(view.more[1:], ("F60 S1000 T1", "about 0:05 left", "0:00 done"))
        self.assertRegex(view.more[0], r"^work X-?[0-2]\.\d{3} Y0\.000 Z0\.00\d$")
        self.assertEqual(self.do("G0 Z1")[-2], "work X3.000 Y0.000 Z1.000; G55 at X10 Y0 Z-5, tool length 2.5")

    def test_times_with_ramps(self) -> None:
        """20 mm at 20 mm/s take 1 s, and 20 / 20 s more to start and to stop; on the way back, and after a stop, again.
        They are those of a line once the child has worked them out."""
        Path("motion.toml").write_text("[motion]\naccel_mm_s2 = [20, 20, 20]\n")
        self.begin()
        self.operator.loading.times_command = command(ngc(), "first.toml", "motion.toml")
        self.addCleanup(self.operator.loading.close)
        self.load("G21 G90\nG1 X20 F1200\nX0\nM0\nX20\nM2\n")
        timeline = self.operator.loading.timeline(False)
        self.wait_for("the times are worked out", lambda: timeline.times(1).kind == "with ramps")
        self.assertEqual(self.do("where")[-1], "with ramps 0:06 in all")
        for line, done_s in ((1, 0), (2, 0), (3, 2), (5, 4), (6, 6), (99, 6)):
            times = timeline.times(line)
            self.assertAlmostEqual(times.done_us / 1e6, done_s, delta=0.3)  # 400 lines from rest take 0.2 s
            self.assertAlmostEqual((times.done_us + times.left_us) / 1e6, 6, delta=0.1)
        self.assertIs(self.operator.loading.timeline(True), timeline)
        self.do("run")
        self.assertEqual(self.do("where")[-1], "with ramps 0:04 done, 0:02 left")
        view = next(view for view in self.face.views if view and view.line.startswith("line 3"))
        self.assertRegex(" ".join(view.more), "with ramps 0:0[34] left 0:02 done$")

    def test_times_of_a_refused_line(self) -> None:
        """Of what can't be run to its end no child is asked; of what `ngc run` refuses, the times are about."""
        Path("motion.toml").write_text("[motion]\naccel_mm_s2 = [20, 20, 20]\n")
        self.begin()
        self.operator.loading.times_command = command(ngc(), "first.toml", "motion.toml")
        self.face.answers = ["yes"]
        self.load("G21 G90\nG1 X20\nM2\n")
        self.assertIsNone(self.operator.loading.timeline(False).ramps)
        words = command(ngc(), "first.toml", "motion.toml")
        ramps = RampTimes(words, b"G1 X1\nM2\n", Path("mill.dev").read_bytes(), False)
        self.addCleanup(ramps.close)
        ramps._child.wait(60)
        self.assertIsNone(ramps.times_us(1))

    def test_asides(self) -> None:
        """Optional stop may be set while a program runs."""
        self.begin()
        self.load("G21 G90\nG1 X0.5 F600\nM1\nG0 X0.6\nM2\n")
        self.face.given = ["optional on"]
        self.do("run")
        self.assertEqual((self.status().does, self.status().at[0]), ("stopped", "0.500000"))

    def test_tools_asked_for(self) -> None:
        """Each time that the player waits for a tool is told once, also for the same tool again."""
        link = FileLink()
        self.begin(link)
        real, waits = link.ask, iter([None, None, 1, 1, None, 2, 2, None, 1, 0])

        def asked() -> Report:
            """Answers as real, but waits for these tools in turn."""
            report, tool = real(), next(waits, None)
            return report if tool is None else replace(report, waits=True, tool=tool)

        link.ask = asked
        said = [text.partition(":")[0] for text in self.do("G1 X3 F600") if text.startswith("the player waits")]
        put_in = "the player waits for tool {} to be put in"
        self.assertEqual(said, [put_in.format(1), put_in.format(2), put_in.format(1),
                                "the player waits for the tool to be taken out"])

    def test_where_unknown(self) -> None:
        """Without a player nobody knows the work point within a block."""
        self.run_ngc("mdi G0 X1\ntick 4\n", "before")
        self.begin()
        self.assertEqual(self.do("where")[1], "the work point isn't known; G54")

    def test_fitted(self) -> None:
        """What is under way fits a line of any width: the line and the motors first."""
        status = Status(0, 0, ("0", "0", "0"), True, "none", 0, "running")
        view = UnderWay("line 12: G1 X40.55 Y30 F600", status, "40.550000 30.000000 -5.000000",
                        ("F600", "about 1:05 left"))
        whole = "line 12: G1 X40.55 Y30 F600  X 40.550000 Y 30.000000 Z -5.000000  F600"
        self.assertEqual(view.fitted(80), whole)
        self.assertEqual(view.fitted(100), whole + "  about 1:05 left")
        self.assertEqual(view.fitted(39), "line 12: G1..  X40.550 Y30.000 Z-5.000")
        moving = replace(view, motion=("100 %", "312 lines, <1.4 mm"))
        self.assertEqual(moving.fitted(79),
                         "line 12: G1 X40.55 Y30 F600  X40.550 Y30.000 Z-5.000  100 %  312 lines, <1.4 mm")
        for width in range(20, 100):
            self.assertLessEqual(max(len(view.fitted(width)), len(moving.fitted(width))), width)


class Motors(Core):
    """A player that makes ramps: it is held, let go on and made slower; so much is handed out as it wants."""

    def begin_ramps(self) -> RampLink:
        """A session with such a player, whose words are kept beside the commands to hold that `ngc` gets."""
        link = RampLink()
        console, words = self.begin(link).console, link.words
        real = console.ask

        def ask(command: str | bytes) -> list[str]:
            """Keeps the commands to hold."""
            words.extend(["ngc hold"] if command == "hold" else [])
            return real(command)

        console.ask = ask
        return link

    def test_single(self) -> None:
        """It holds after each line that hands something out, once the line is done; not after a line of one's own."""
        self.begin(FileLink())
        self.load("G21 G90\n(hello)\nG0 X0.002\nM3 S5\nG0 X0.001\nM2\n")
        self.assertEqual(self.do("single", "single on"),
                         ["single on, or single off: whether it holds after each line", "single on"])
        lines, places = [], []
        for _ in range(3):
            self.do("run")
            lines.append(Path("out").read_text().count("\n"))
            places.append((self.status().does, self.status().place, self.status().half))
        self.assertEqual(places, [("held", 26, "none"), ("held", 32, "none"), ("held", 42, "none")])
        self.assertEqual(lines, [2, 4, 5])
        self.do("G0 X0.003")
        self.assertEqual(self.status().at[0], "0.003000")
        self.do("single off", "run", answers=("yes",))
        self.assertEqual((self.status().does, self.status().place), ("idle", 0))

    def test_hold(self) -> None:
        """The motors are held first, and then `ngc`; nothing more is handed out; run lets both go on, and all is
        carried out: 1,000 lines, of which never more than 340 are in hand."""
        link = self.begin_ramps()
        self.load("G21 G90\nG1 X1 F600\nM2\n")
        self.hold_after(30)
        said = self.do("run")
        self.assertEqual(link.words, ["hold", "ngc hold"])
        there = link.ask()
        up_to = f"{there.behind * 3**0.5 / 1000 + 0.0005:.3f} mm"  # each axis may make a step of 0.001 mm in each
        self.assertEqual(said[:2], ["held", f"the motors stand, with {there.behind} lines in hand, up to {up_to}, which"
                                            " run or release lets them carry out"])
        self.assertEqual(said[-1], f"the motors are at X {there.at.split()[0]} Y 0.000000 Z 0.000000, {there.behind}"
                                   f" lines behind, up to {up_to}, held, 100 %")
        self.assertIn("held, 100 %", self.do("where")[-2])
        self.assertIn("held, 100 %", self.do("status")[-2])
        self.assertEqual(len(self.out()), there.received)
        self.do("run")
        self.assertEqual((link.words[2], self.status().does, link.carried), ("release", "idle", 1001))
        self.assertLessEqual(link.most, 340)
        self.assertGreater(link.most, 300)  # a sixteenth is 21

    def test_live(self) -> None:
        """While something runs it is shown how far behind they are, the override, and that they are held: by somebody
        else too, and then it waits for a person alone."""
        link = self.begin_ramps()
        self.load("G21 G90\nG1 X1 F600\nM2\n")
        real = link.ask

        def held_from_there() -> Report:
            """Somebody holds them after 500 lines."""
            link.is_held = link.is_held or link.carried >= 500
            return real()

        link.ask = held_from_there
        self.hold_after(60)
        said = self.do("run")
        shown = [view.motion for view in self.face.views if view]
        self.assertEqual([motion[0] for motion in shown if len(motion) == 2][0], "100 %")
        self.assertRegex(next(motion[1] for motion in shown if len(motion) == 2), r"^\d+ lines, <0\.\d mm$")
        self.assertIn("held", [motion[0] for motion in shown])
        self.assertEqual(said[0], "held")
        self.assertLessEqual(link.most, 340)
        link.ask = real
        self.do("run")
        self.assertEqual((link.carried, self.status().does), (1001, "idle"))

    def test_last(self) -> None:
        """At a stop and at the end the player is told that nothing more comes for now, once all is handed out: 700
        lines up to M0, 301 more up to the end."""
        link = self.begin_ramps()
        self.load("G21 G90\nG1 X0.7 F600\nM0\nX1\nM2\n")
        self.do("run")
        self.assertEqual(link.words, ["last 700"])
        self.do("run")
        self.assertEqual(link.words, ["last 700", "last 1001"])
        self.assertEqual(link.carried, 1001)

    def test_held_at_the_end(self) -> None:
        """All is handed out, and the motors are held before they have made it. Nothing else is begun; run lets them go
        on, and doesn't begin the program anew."""
        link = self.begin_ramps()
        self.load("G21 G90\nG1 X0.3 F600\nM2\n")
        link.at_once = 1
        self.hold_after(40)
        said = self.do("run")
        self.assertEqual((link.words[1:], said[0]), (["hold"], "the player isn't through with its lines yet"))
        self.assertIn("the motors stand, with ", said[1])
        left = link.ask().behind
        held = (f"nothing is done: the motors are held with {left} lines in hand. release lets them carry those out,"
                " and run goes on")
        self.assertEqual(self.do("M5"), [held])
        self.assertEqual(self.do("anyway G0 X0"), [held])
        self.assertEqual(self.do("reference 1 0 0")[::2], ["the player isn't through with its lines yet", held])
        self.assertEqual(link.carried + left, 301)
        link.at_once = 40
        self.do("run")
        self.assertEqual((link.carried, len(self.out()), link.is_held), (301, 301, False))
        self.do("G0 X0", "run")
        self.assertEqual(len(self.out()), 301 + 300 + 301)

    def test_held_at_a_change(self) -> None:
        """Somebody holds while the motors that a line waits for wait for a tool themselves: it is said that they are
        held, though their player doesn't say so yet."""
        link = self.begin_ramps()
        self.load("G21 G90\nG1 X0.3 F600\nM2\n")
        link.at_once = 1
        self.hold_after(40)
        self.do("run")
        real = link.ask
        link.ask = lambda: replace(real(), waits=True, tool=2, is_held=False)
        self.operator.motors.release()
        self.hold_after(5)
        said = self.do("G0 X1")[-1]
        self.assertEqual(said, f"nothing is done: the motors are held with {real().behind} lines in hand. release lets"
                         " them carry those out, and run goes on")

    def test_release(self) -> None:
        """What is in hand is carried out, and `ngc` stays held."""
        link = self.begin_ramps()
        self.assertEqual(self.do("release"), ["the motors aren't held"])
        self.hold_after(12)
        self.do("G1 X1 F600")
        self.assertGreater(link.ask().behind, 0)
        self.do("release")
        self.assertEqual((link.ask().behind, self.status().does), (0, "held"))
        self.assertEqual(self.do("hold")[:1], ["held"])
        self.assertTrue(link.is_held)
        self.do("run")
        self.assertEqual((link.carried, self.status().does), (1000, "idle"))
        self.do("hold", "G1 X0.9")  # with nothing in hand a line of one's own lets them go on
        self.assertEqual((link.carried, link.is_held), (1100, False))

    def test_held_before(self) -> None:
        """Motors that were held before the session: it is shown, and release lets them go on."""
        Path("out").write_text("P 1 0 0 50\n" * 100)
        link = RampLink()
        link.carried, link.is_held = 0, True
        self.begin(link)
        self.assertIn("100 lines behind, up to 0.174 mm, held, 100 %", self.begun[-1])
        self.assertEqual(self.do("G0 X1"), ["nothing is done: the motors are held with 100 lines in hand. release lets"
                                            " them carry those out, and run goes on"])
        self.assertEqual(link.words, [])
        self.do("release")
        self.assertEqual((link.words[0], link.carried), ("release", 100))

    def test_resume(self) -> None:
        """A block that is half-done while the motors are held: nobody says where the machine stands before they have
        carried out what is in hand; resume lets them go on too."""
        link = self.begin_ramps()
        self.hold_after(12)
        self.do("G1 X1 F600")
        self.cut()
        self.begin(link)
        self.assertTrue(self.do("resume")[0].startswith("refused K3"))
        self.assertTrue(self.do("reference player")[-1].startswith("nothing is done: the motors are held with "))
        self.do("release", "reference player", "hold")
        self.assertTrue(link.is_held)
        self.do("resume anyway", answers=("yes",))
        self.assertEqual((link.is_held, self.status().at[0], link.ask().at), (False, "1.000000", "1.000000 0.000000"
                                                                                                " 0.000000"))

    def test_given_back(self) -> None:
        """Overrides and switches are given back to a job that goes on, and what the player doesn't take is named; to
        one that begins they aren't. A file that is another's is left alone."""
        self.begin_ramps()
        self.load("G21 G90\nG1 X1 F600\nM2\n")
        self.do("percent 50", "spindle percent 90", "delete on", "optional on", "single on")
        self.hold_after(20)
        self.do("run")
        self.assertEqual(self.status().half, "program")
        self.cut()
        Path("out").write_text("")
        link = RampLink()
        self.begin(link)
        chosen = "spindle 90 %, block delete, optional stop, single block"
        self.assertIn(f"given back, as it was before the session ended: feed 50 %, {chosen}", self.begun)
        session = self.operator.session
        self.assertEqual((session.delete, session.optional, session.single, link.percent, link.spindle),
                         (True, True, True, 50, 90))
        self.do("percent 120")
        self.cut()
        link = RampLink()
        link.override = lambda _: None
        self.begin(link)
        self.assertIn(f"given back, as it was before the session ended: {chosen}", self.begun)
        self.assertIn("it isn't given back, since the player doesn't take it: feed 120 %", self.begun)
        self.do("reference player", "abandon")
        self.load("G0 X1\nM2\n")
        self.cut()
        self.begin(RampLink())
        self.assertEqual((self.operator.session.delete, Path("mill.dev.choices").exists()), (False, False))
        for text in ("mine", "{}x", '{"percent": 500}', '{"delete": 1}', "[]"):
            Path("mill.dev.choices").write_text(text)
            self.assertIn("mill.dev.choices: it isn't what is kept there", "".join(self.do("delete on", "delete off")))
            self.assertEqual(Path("mill.dev.choices").read_text(), text)

    def test_given_back_once(self) -> None:
        """What was given back is told in that session alone, and not in the next one, as after stop or an alarm: it may
        have been changed since."""
        self.begin_ramps()
        self.load("G21 G90\nG1 X1 F600\nM2\n")
        self.do("percent 30", "spindle percent 90")
        self.hold_after(20)
        self.do("run")
        self.cut()
        link = RampLink()
        link.override_spindle, link.anew = lambda _: None, lambda: None
        choices = self.begin(link).choices
        self.assertEqual((choices.given, choices.lost), (["feed 30 %"], ["spindle 90 %"]))
        self.do("percent 100")
        self.operator.following.begin()
        self.assertEqual((self.status().half, choices.given, choices.lost), ("program", [], []))

    def test_given_back_to_lines(self) -> None:
        """Where lines are left of a job that was handed out to its end, they have its overrides again; the switches
        aren't given back to them, nor to the job that begins next."""
        self.begin_ramps()
        for wants, heeds, said in (("20", True, "given back, as it was before the session ended"),
                                   ("30", False, "it isn't given back, since the player doesn't take it")):
            self.do(f"percent {wants}", "spindle percent 100", "delete on", "single on")
            self.cut()
            link = RampLink()
            link.override = link.override if heeds else lambda _: None
            with mock.patch.object(type(self.operator.recover), "is_left", return_value=True):
                self.begin(link)
            session = self.operator.session
            self.assertIn(f"{said}: feed {wants} %", self.begun)
            self.assertEqual((link.percent, session.delete, session.single), (20 if heeds else 100, False, False))
            kept = json.loads(Path("mill.dev.choices").read_text())
            self.assertEqual((kept["percent"], kept["delete"], kept["single"]), (int(wants), False, False))
        self.do("percent 100", "delete on")
        self.cut()
        with mock.patch.object(type(self.operator.recover), "is_left", return_value=True):
            self.begin(RampLink())
        self.assertFalse(Path("mill.dev.choices").exists())

    def test_given_back_by_another(self) -> None:
        """What a player has in force that goes on, before a job begins, is given back to that job too."""
        link = self.begin_ramps()
        self.load("G21 G90\nG1 X1 F600\nM2\n")
        self.do("percent 110", "delete on")
        self.cut()
        self.begin(link)
        self.assertEqual((link.percent, self.operator.session.delete), (110, False))
        self.hold_after(20)
        self.do("run")
        self.cut()
        Path("out").write_text("")
        link = RampLink()
        self.begin(link)
        self.assertIn("given back, as it was before the session ended: feed 110 %", self.begun)
        self.assertEqual(link.percent, 110)

    def test_override(self) -> None:
        """By tens, to one percent at least, back to 100; typed, and while something runs. What isn't taken is refused
        with its range."""
        link = self.begin_ramps()
        self.assertEqual(self.do("-", "percent 25", "-", "--", "-", "+", "+", "0", "+", "percent"), [
            f"{percent} % of OUT's rates" for percent in (90, 25, 20, 1, 1, 10, 20, 100, 110, 110)])
        self.assertEqual(link.words, [f"percent {percent}" for percent in (90, 25, 20, 1, 10, 20, 100, 110)])
        wrong = "percent takes a whole number from 1 to 200: so many percent of OUT's rates"
        self.assertEqual(self.do("percent 121"), ["the player stays at 110 %: it takes 1 to 200, as far as its"
                                                  " most_percent goes"])
        self.face.said.clear()
        self.assertEqual(self.do("percent 0", "percent 201", "percent x", "percent 1.5"), [wrong] * 4)
        self.assertEqual({kind for kind, _ in self.face.said}, {REFUSED})
        self.load("G21 G90\nG1 X0.5 F600\nM2\n")
        self.face.given = ["percent 70 %", "-"]
        self.assertEqual(self.do("run")[:2], ["70 % of OUT's rates", "60 % of OUT's rates"])
        self.assertIn("60 %", [view.motion[0] for view in self.face.views if view])
        self.assertTrue(self.do("where")[-2].endswith(", 60 %"))
        link.override = link.words.append
        self.assertEqual(self.do("+"), ["the player stays at 60 %: it takes 1 to 200, as far as its most_percent goes"])

    def test_spindle(self) -> None:
        """The spindle's override, also while something runs; the program's words stay as they are."""
        self.begin_ramps()
        self.assertEqual(self.do("spindle percent 80", "Spindle Percent 10 %", "spindle percent"), [
            "the spindle at 80 % of OUT's speeds", "the spindle at 10 % of OUT's speeds",
            "the spindle at 10 % of OUT's speeds"])
        self.assertEqual(self.do("spindle percent 101"), [
            "the player keeps the spindle at 10 %: it takes more than 100 where its machine's file has max_rpm in"
            " [spindle]"])
        wrong = "spindle percent takes a whole number from 10 to 200: so many percent of OUT's speeds"
        typed = ("spindle percent 9", "spindle percent 201", "spindle percent x", "spindle", "spindle 50")
        self.assertEqual(self.do(*typed), [wrong] * 5)
        self.load("G21 G90\nM3 S1000\nG1 X0.5 F600\nM2\n")
        self.face.given = ["spindle percent 70"]
        self.assertEqual(self.do("run")[0], "the spindle at 70 % of OUT's speeds")
        self.assertIn("spindle 70 %", [view.motion[1] for view in self.face.views if view])
        self.assertTrue(self.do("where")[-2].endswith(", 100 %, spindle 70 %"))
        self.assertIn("S 1 1000.000000 0 0 0 0", self.out())

    def test_without_ramps(self) -> None:
        """A player without a machine's file isn't told, and takes no percentage."""
        link = FileLink()
        link.override = lambda percent: link.words.append(f"percent {percent}")
        self.begin(link)
        self.hold_after(2)
        self.assertEqual(self.do("G1 X1 F600")[0], "held; up to 100 lines that are handed out are still carried out")
        self.assertEqual(link.words, [])
        self.assertEqual(self.do("percent 50"), ["the player stays at 100 %: it makes no ramps: start it with --machine"
                                                 " FILE"])
        self.end()
        self.begin()
        self.assertEqual(self.do("-"), ["no player is known: --player SOCKET"])

    def test_no_rest(self) -> None:
        """In a dwell nothing says that they stand: it isn't waited for longer than a moment."""
        link = self.begin_ramps()
        link.hold = lambda: link.words.append("hold")
        link.at_once = 0
        self.hold_after(12)
        said = self.do("G1 X1 F600")
        self.assertRegex(said[1], r"^the motors come to rest, with \d+ lines in hand, up to 0\.\d{3} mm, which run or")

    def test_nobody_there(self) -> None:
        """Where nobody can let them go on any more they aren't held: what is in hand is carried out."""
        link = self.begin_ramps()
        self.face.gone = True
        self.hold_after(12)
        self.do("G1 X1 F600")
        self.assertEqual((link.words, self.status().does), (["ngc hold"], "held"))

    def test_quit(self) -> None:
        """Lines in the hands of held motors are told of before the session ends."""
        link = self.begin_ramps()
        self.hold_after(12)
        self.do("G1 X1 F600")
        left = link.ask().behind
        said = self.do("quit", answers=("",))
        self.assertTrue(said[1].startswith(f"the motors are held, and {left} lines behind, up to 0."), said)
        self.assertFalse(self.operator.over)


class Ends(Core):
    """The end of a session, and a player that stays."""

    def test_quit(self) -> None:
        """What is on is said, and switched off if that is wanted; the player is told."""
        link = FileLink()
        self.begin(link)
        self.do("M3 S8000", "M8")
        self.do("quit", answers=("",))
        self.assertEqual(self.face.asked, ["still on: the spindle, clockwise at 8000 and flood. Switch off? yes does M5"
                                           " and M9, anything else doesn't: "])
        self.assertTrue(self.operator.over)
        self.do("quit", answers=("yes",))
        self.assertEqual(self.out()[-1], "S 0 8000.000000 0 0 0 0")
        self.do("quit")
        self.assertEqual(self.face.asked, [])
        self.operator.ending.tell_player()
        self.assertEqual(link.words, ["end"])

    def test_quit_within_a_block(self) -> None:
        """Within a block nothing can be switched off: how it goes off is said. Only a typed yes ends the session."""
        self.begin(FileLink())
        self.do("M3 S8000")
        self.load("G21 G90\nG1 X3 F60\nM2\n")
        self.hold_after(4)
        self.do("run")
        self.do("quit", answers=("",))
        self.assertFalse(self.operator.over)
        self.assertEqual(self.do("quit", answers=("yes",))[-1],
                         "still on: the spindle, clockwise at 8000. Within a block no M5 is done. The player switches"
                         " that off once the session has ended and the seconds of its --off-after are over; Ctrl-C in"
                         " the player does it at once")
        self.assertTrue(self.operator.over)

    def test_end_of_input(self) -> None:
        """At the end of the input nobody is asked: what stays on is said, and how it goes off."""
        self.begin()
        self.do("M3 S100 M7")
        self.operator.ending.say()
        said = ("still on: the spindle, clockwise at 100 and mist, as it was handed out last. Switch that off at the"
                " machine")
        self.assertEqual(self.face.said[-1], (WARNING, said))
        self.assertEqual(self.face.asked, [])

    def test_resume_no(self) -> None:
        """After a no the spindle that came on is named, and how it goes off."""
        self.run_ngc("mdi S70 M3\ntick 9\nmdi G0 X1\ntick 4\n", "before")
        self.begin(FileLink("0.002 0 0"))
        said = self.do("reference player", "resume anyway", answers=("no",))
        self.assertEqual(said[-2], "nothing has moved. continue asks again; after quit the block is still half-done")
        self.assertTrue(said[-1].startswith("on: the spindle, clockwise at 70. The player switches that off"), said)
        before = self.out()
        self.do("continue", answers=("no",))
        self.assertEqual((self.out(), self.status().does), (before, "held"))
        self.do("run", answers=("yes",))
        self.assertEqual((self.status().does, self.status().at[0]), ("idle", "1.000000"))

    def test_player_answers_again(self) -> None:
        """A player that was silent and answers again: `run` goes on."""
        link = FileLink()
        self.begin(link)
        self.load("G21 G90\nG1 X0.3 F600\nM2\n")
        link.ask()
        real, count = link.ask, iter(range(9))

        def sometimes() -> Report:
            """Answers all questions but the fifth."""
            if next(count, 9) == 4:
                raise NoAnswer("progress: the player doesn't answer")
            return real()

        link.ask = sometimes
        said = self.do("run")
        self.assertIn("progress: the player doesn't answer; nothing more is handed out. Once it answers again, run goes"
                      " on; if it is gone, quit, and start a player and this again", said)
        self.assertEqual(self.status().does, "held")
        self.do("run")
        self.assertEqual((self.status().does, self.out().count("P 1 0 0 100")), ("idle", 300))


if __name__ == "__main__":
    unittest.main()
