"""ngc-page --start-player: a player is started where none listens, and once the last one is gone."""
import os
import shlex
import signal
import subprocess
import sys
import unittest
from pathlib import Path

sys.path.insert(0, str(Path(__file__).resolve().parent))

from page_support import Page
from player_support import built
from session_support import PATIENCE_S, InFolder, ngc, told

from ngc_tools.cli import page

WORDS = ("mill.dev", "first.toml", "out", "--player", "progress")


class Started(InFolder):
    """Over the player, which follows a file."""

    def setUp(self) -> None:
        """A device and an empty OUT."""
        super().setUp()
        self.device()
        Path("out").touch()

    def served(self, command: str) -> subprocess.Popen[str]:
        """A server that is told how a player is started."""
        return self.start("ngc-page", *WORDS, "--ngc", ngc(), "--listen", "127.0.0.1:0", "--start-player", command)

    def pid(self) -> int:
        """The process of the player, which holds its record."""
        inode = str(os.stat("position").st_ino)
        locks = [line.split() for line in Path("/proc/locks").read_text().splitlines()]
        return next((int(words[4]) for words in locks if words[5].rpartition(":")[2] == inode), 0)

    def test_started(self) -> None:
        """It begins with the server; killed, `Start ngc again` begins it once more, and lines are carried out."""
        command = shlex.join([built("-O2"), "out", "first.toml", "position", "--follow", "--untimed", "--progress",
                              "progress"])
        server = self.served(command)
        seen = Page(server.stdout.readline().strip())
        self.addCleanup(seen.close)
        self.assertEqual(seen.rested()["word"], "Idle")
        first = self.pid()
        os.kill(first, signal.SIGKILL)
        seen.until("the player is gone", lambda state: state["player_gone"])
        self.assertEqual(seen.post("restart"), (200, {}))
        seen.until("it is there again", lambda state: not state["player_gone"] and not state["ended"])
        self.assertNotIn(self.pid(), (0, first))
        seen.post("mdi", {"line": "G0 X1"})
        seen.until("it carries lines out", lambda state: state["motors"][0] == "1.000000" and not state["busy"])
        seen.post("quit")
        self.assertEqual(server.wait(PATIENCE_S), 0)
        self.wait_for("the player ended with it", lambda: not os.path.exists("progress"))

    def test_that_ends(self) -> None:
        """One that doesn't begin is told of by what it said, and the server doesn't begin either."""
        command = shlex.join([built("-O2"), "out", "other.toml", "position"])
        server = self.served(command)
        out, wrong = server.communicate(timeout=PATIENCE_S)
        self.assertEqual((server.returncode, out), (2, ""))
        self.assertIn("\nngc-page: the player ended: player: other.toml: ", "\n" + wrong)

    def test_words(self) -> None:
        """What is not a command, what can't be started, and a command without a socket."""
        for words, why in ((("--start-player", "player"), "--start-player COMMAND goes with --player SOCKET"),
                           (("--player", "progress", "--start-player", "'player"),
                            "--start-player: No closing quotation"),
                           (("--player", "progress", "--start-player", " "),
                            "--start-player COMMAND: as 'player -f -s progress -m player.toml out mill.toml position'"),
                           (("--player", "progress", "--start-player", "./nothing"),
                            "--start-player: ./nothing: No such file or directory")):
            status, out, wrong = told(page.main, *WORDS[:3], "--ngc", ngc(), "--listen", "127.0.0.1:0", *words)
            self.assertEqual((status, out), (2, ""), words)
            self.assertIn(why, wrong, words)


if __name__ == "__main__":
    unittest.main()
