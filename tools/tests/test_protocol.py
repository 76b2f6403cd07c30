"""docs/PROTOCOL.md beside what a console sends and what the player answers."""
import re
import sys
import unittest
from collections.abc import Callable
from pathlib import Path

sys.path.insert(0, str(Path(__file__).resolve().parent))

from listener import Listener
from player_support import PlayerTest
from session_support import PATIENCE_S, TOOLS, InFolder

from ngc_tools.formats.out import OFF
from ngc_tools.link.progress import Link, NoAnswer, Report

PAGE = (TOOLS.parent / "docs" / "PROTOCOL.md").read_text()
NUMBER = r"-?\d+(?:\.\d+)?"
STATES = set(re.findall(r"(?:\| |; )`([a-z ]+T?)`", re.search(r"^\| STATE .*", PAGE, re.MULTILINE)[0]))
# What stands in a form, as text; any other word in capitals is a number.
WORDS = {" [": "(?: ", "]": ")?", "S ..": rf"S [012] {NUMBER} [01] [01] \d+ \d+", "X Y Z": " ".join([NUMBER] * 3),
         "AXES": "[XYZ]{1,3}", "WAY": "[XYZ][+-]", "PATH": "/.*",
         "STATE": "(?:" + "|".join(sorted(STATES)).replace("tool T", r"tool \d+") + ")"}
PIECES = re.compile("|".join([*map(re.escape, WORDS), "[A-Z]+"]))


def pattern(form: str) -> str:
    """The texts that a form stands for, none of whose own letters means anything to a pattern."""
    return PIECES.sub(lambda piece: WORDS.get(piece[0], NUMBER), form)


def chapter(title: str) -> list[str]:
    """The first column of a chapter's first table."""
    text = PAGE.partition(f"## {title}\n")[2].partition("\n## ")[0]
    return re.findall(r"^\| `([^`|]*)` \|", text.partition("| Field |")[0], re.MULTILINE)


def forms() -> dict[str, str]:
    """The datagrams of the page, each with the texts that it stands for."""
    return {form: pattern(form) for title in ("Questions", "Orders", "Ways", "Moves without lines")
            for form in chapter(title)}


class Sent(InFolder):
    """What a console sends."""

    def sent(self, does: Callable[[Link], object]) -> str:
        """The datagram by which a console does something."""
        try:
            does(self.link)
        except NoAnswer:
            pass  # nobody answers
        found = self.player.next()
        while later := self.player.next():
            found = later
        return found[0].decode()

    def setUp(self) -> None:
        """A socket, and a link to it."""
        super().setUp()
        self.player = Listener("progress")
        self.addCleanup(self.player.close)
        self.link = Link("progress", 0.01)
        self.addCleanup(self.link.close)

    def test_forms(self) -> None:
        """Each datagram that a console sends has a form of the page, and each form of the page is sent."""
        deeds: list[Callable[[Link], object]] = [
            Link.ask, Link.kept, Link.machine, Link.go, Link.hold, Link.release, lambda link: link.override(50),
            lambda link: link.override_spindle(80), Link.last, lambda link: link.at("1 2.5 -3"),
            lambda link: link.synced(7), Link.off, Link.anew, Link.end, Link.stop, lambda link: link.switch(OFF),
            lambda link: link.along(7), lambda link: link.along(7, "600"),
            lambda link: link.legs("5", "1 2 3", 7, "60.5"), lambda link: link.straight("1 2 3", 7, "60"), Link.home,
            lambda link: link.home("XZ"), lambda link: link.jog("X+", "600"), lambda link: link.jog("X-", "600", "1.5"),
            lambda link: link.seek("Z-", "60", "10")]
        known, met = forms(), set()
        for deed in deeds:
            text = self.sent(deed)
            fit = [form for form, texts in known.items() if re.fullmatch(texts, text)]
            self.assertEqual(len(fit), 1, text)
            met.update(fit)
        self.assertEqual(set(known) - met, set())


class States(unittest.TestCase):
    """What the player says of itself."""

    def test_states(self) -> None:
        """The page has each word that the player says, and no other; a console reads them all."""
        code = (TOOLS / "player" / "player.c").read_text()
        doing = code.partition("void player_doing(")[2].partition("\n}\n")[0]
        said = set(re.findall(r'word = "(.*)";', doing)) | {"waits tool T"}
        self.assertIn('"waits tool %d"', doing)
        self.assertEqual(STATES, said)
        for state in STATES:
            answer = (f"carried 1 received 2 {state.replace('T', '3')} reference 0.000000 0.000000 0.000000 outputs"
                      " S 0 0.000000 0 0 0 0 percent 100 spindle 100 wants 0 out /out")
            self.assertEqual(Report.read(answer.encode()).waits, state == "waits tool T", state)


class Answered(PlayerTest):
    """What the player answers."""

    def test_answers(self) -> None:
        """Each question of the page is answered as it says."""
        Path("out").write_text("S 1 5.000000 0 0 0 0\nP 1 0 0 50\n")
        Path("m.toml").write_text("[motion]\naccel_mm_s2 = [500, 500, 500]\n")
        self.begin("--follow", "--untimed", "--machine", "m.toml", "--pins", "pins", "--progress", "progress", "out",
                   "first.toml", "position")
        link = self.linked()
        link.synced(Path("out").stat().st_size)
        self.wait_for("both lines are carried out", lambda: link.ask().carried == 2)
        text = PAGE.partition("## Questions\n")[2]
        rows = re.findall(r"^\| `([^`]*)` \| `([^`]*)`", text.partition("| Field |")[0], re.MULTILINE)
        self.assertEqual([question for question, _ in rows], ["progress N", "kept N", "machine N"])
        for question, answer in rows[:2]:
            asked = question.replace("N", "77").encode()
            link.socket.settimeout(PATIENCE_S)
            link.socket.send(asked)
            self.assertRegex(link.socket.recv(8192).decode(), rf"\A{pattern(answer)}\Z")


if __name__ == "__main__":
    unittest.main()
