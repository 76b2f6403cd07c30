"""How a player is asked, and what is said where it doesn't answer."""
import os
import socket
import sys
import unittest
from pathlib import Path
from unittest import mock

sys.path.insert(0, str(Path(__file__).resolve().parent))

from session_support import InFolder

from ngc_tools.formats.out import Switch
from ngc_tools.link import progress
from ngc_tools.link.progress import Link, NoAnswer, Report

REPORT = Report(3, 203, True, "0.002000 0.000000 -1.000000", "/a b/axis",
                Switch(1, 1_000_000_000, False, True, 3, 2), 3, False, 40, 1960, spindle=80)
OUTPUTS = b"S 1 1000.000000 0 1 3 2 out /axis"
TEXT = (b"carried 3 received 203 waits tool 3 reference 0.002000 0.000000 -1.000000 outputs S 1 1000.000000 0 1 3 2"
        b" percent 40 spindle 80 wants 1960 out /a b/axis")


class Reports(unittest.TestCase):
    """What is answered."""

    def test_report(self) -> None:
        """A text is a report; other text isn't."""
        self.assertEqual((Report.read(TEXT), REPORT.behind), (REPORT, 200))
        works = (b"carried 3 received 3 works reference 0.002000 0.000000 -1.000000 outputs S 0 0.000000 0 0 0 0"
                 b" percent 100 spindle 100 wants 0 out /axis")
        self.assertEqual(Report.read(works), Report(3, 3, False, REPORT.at, "/axis"))
        for text in (b"", b"carried 3", TEXT.replace(b"waits", b"sleeps"), TEXT.replace(b" tool 3", b""), b"x" + TEXT,
                     TEXT.replace(b" outputs S 1 1000.000000 0 1 3 2", b""), TEXT.replace(b"S 1 ", b"S 7 "),
                     TEXT.replace(b" percent 40 spindle 80 wants 1960", b"")):
            with self.assertRaisesRegex(ValueError, "^not a report of a player: "):
                Report.read(text)


class Stranger(socket.socket):
    """A socket to which somebody else sends, before it is connected, an answer to its first question."""

    def connect(self, address: str) -> None:
        """Connects."""
        with socket.socket(socket.AF_UNIX, socket.SOCK_DGRAM) as other:
            for _ in range(3):
                other.sendto(b"progress 1 " + TEXT, self.getsockname())
        super().connect(address)


def listener() -> socket.socket:
    """A player's socket, at which nobody answers by itself."""
    made = socket.socket(socket.AF_UNIX, socket.SOCK_DGRAM)
    made.bind("progress")
    return made


class Sockets(InFolder):
    """Both ends in one process."""

    def test_stranger(self) -> None:
        """What somebody sent before the connection isn't taken for the player's answer."""
        player = listener()
        self.addCleanup(player.close)
        with mock.patch.object(progress.socket, "socket", Stranger):
            link = Link("progress", 0.2)
        self.addCleanup(link.close)
        with self.assertRaisesRegex(NoAnswer, "the player doesn't answer"):
            link.ask()

    def test_no_answer(self) -> None:
        """Nobody there, a player that doesn't answer, one that is gone, one that answers another question."""
        with self.assertRaisesRegex(NoAnswer, "^progress: no player listens there: No such file or directory$"):
            Link("progress")
        player = listener()
        link = Link("progress", patience_s=0.2)
        self.addCleanup(link.close)
        with self.assertRaisesRegex(NoAnswer, "^progress: the player doesn't answer$"):
            link.ask()
        question, sender = player.recvfrom(200)
        self.assertEqual(question, b"progress 1")
        player.sendto(b"progress 1 " + TEXT, sender)
        with self.assertRaisesRegex(NoAnswer, "^progress: the player doesn't answer$"):
            link.ask()  # the answer to question 1 isn't that to 2
        player.close()
        for asked in (link.ask, link.go):
            with self.assertRaisesRegex(NoAnswer, "^progress: the player is gone: "):
                asked()

    def test_another_version(self) -> None:
        """The answer of a player of another version isn't taken for a report."""
        player = listener()
        self.addCleanup(player.close)
        link = Link("progress")
        self.addCleanup(link.close)
        old = b"progress 1 carried 3 received 203 works reference 0.002000 0.000000 -1.000000 outputs " + OUTPUTS
        player.sendto(old, link.socket.getsockname())
        with self.assertRaisesRegex(NoAnswer, "^progress: not a report of a player: .*; it is of another version: take"
                                              " a player and a console of one version$"):
            link.ask()

    def test_full_queue(self) -> None:
        """A player that is too busy to take questions isn't gone."""
        player = listener()
        self.addCleanup(player.close)
        link = Link("progress", patience_s=0.2)
        self.addCleanup(link.close)
        with self.assertRaisesRegex(NoAnswer, "^progress: the player doesn't answer$"):
            for _ in range(5000):
                link.go()

    def test_not_a_datagram_socket(self) -> None:
        """Another program's socket isn't taken for a player's, and isn't removed."""
        with socket.socket(socket.AF_UNIX) as other:
            other.bind("progress")
            other.listen()
            with self.assertRaisesRegex(NoAnswer, "^progress: no player listens there: "):
                Link("progress")
        self.assertTrue(os.path.exists("progress"))


if __name__ == "__main__":
    unittest.main()
