"""tools/player under the compiler's sanitizers where two threads, or great numbers, meet."""
import socket
import subprocess
import sys
import tempfile
import unittest
from functools import cache
from pathlib import Path

sys.path.insert(0, str(Path(__file__).resolve().parent))

from player_support import PlayerTest, Sanitized, built
from session_support import PATIENCE_S

THREADS = ("-O1", "-g", "-fsanitize=thread")
MOTION = "[motion]\naccel_mm_s2 = [500, 500, 500]\n"


@cache
def has_thread_sanitizer() -> bool:
    """Whether the compiler of this computer has it, and the system lets it run."""
    with tempfile.TemporaryDirectory() as folder:
        command = ["cc", *THREADS, "-x", "c", "-", "-o", f"{folder}/tried"]
        done = subprocess.run(command, input=b"int main(void) { return 0; }", capture_output=True)
        return done.returncode == 0 and subprocess.run([f"{folder}/tried"], capture_output=True).returncode == 0


class Threads(PlayerTest):
    """Under the sanitizer of threads."""

    def command(self) -> list[str]:
        """The player."""
        return [built(*THREADS)]

    def test_override_at_the_start(self) -> None:
        """An override that comes as the play begins: the threads that answer and that play share nothing unlocked."""
        if not has_thread_sanitizer():
            raise unittest.SkipTest("the compiler has no sanitizer of threads")
        Path("motion.toml").write_text(MOTION)
        Path("out").write_text("P 1 0 0 50\n" * 4000)
        child = self.begin("--machine", "motion.toml", "--progress", "progress", "out", "first.toml", "position")
        self.wait_for("it listens", lambda: Path("progress").exists() or child.poll() is not None)
        with socket.socket(socket.AF_UNIX, socket.SOCK_DGRAM | socket.SOCK_NONBLOCK) as asker:
            while child.poll() is None:
                try:
                    asker.sendto(b"percent 90", "progress")
                    asker.sendto(b"release", "progress")
                except OSError:  # it is full, or gone
                    continue
        said = child.communicate(timeout=PATIENCE_S)[1]
        self.assertEqual((child.returncode, said), (0, ""))


class Numbers(Sanitized, PlayerTest):
    """Under the sanitizers of addresses and undefined behaviour."""

    def test_far_away(self) -> None:
        """A leg of 10^15 steps has pulses of a step each, all the same way."""
        Path("out").touch()
        self.begin("--untimed", "--follow", "--progress", "progress", "--pins", "pins", "out", "first.toml", "position")
        link = self.linked()
        link.at("999999999999 0 0")
        link.legs("1", "0 0 0", 0)
        self.wait_for("it goes", lambda: Path("pins").read_text().count("P -1 0 0 ") > 6000)
        made = [line.rsplit(" ", 1)[0] for line in Path("pins").read_text().splitlines()[:7000]]
        self.assertEqual(made, ["P 0 0 1"] * 1000 + ["P -1 0 0"] * 6000)


if __name__ == "__main__":
    unittest.main()
