"""Power is lost for controller and player together, over a named pipe: what is never carried out is bounded.

NGC_MOMENTS says how many moments are tried (default 200, an eighth of them metered by 20 lines, and twice as many with
ramps)."""
import os
import sys
import tempfile
import unittest
from pathlib import Path

sys.path.insert(0, str(Path(__file__).resolve().parent))

from player_support import built
from pulled_plug import Options, pull
from session_support import FIRST, ngc

MOMENTS = int(os.environ.get("NGC_MOMENTS", "200"))


class PulledPlug(unittest.TestCase):
    """`pull` raises where more lines than the bound are lost, where a session hands out other lines than the uncut run,
    where a record isn't true of its session, and where a job that was cut ends elsewhere than the uncut one."""

    def test_many(self) -> None:
        """Metered by 100 lines."""
        wanted = MOMENTS - 3 * (MOMENTS // 8)
        result = pull(Options(ngc(), 100, 4096, built("-O2"), 0.3), wanted, seed=1)
        self.assertEqual((len(result.lost), max(result.lost) <= 100), (wanted, True))
        self.assertGreaterEqual(result.finished + result.ended_short, 1)

    def test_few(self) -> None:
        """Metered by 20 lines."""
        wanted = MOMENTS // 8
        result = pull(Options(ngc(), 20, 4096, built("-O2"), 0.3), wanted, seed=2)
        self.assertEqual((len(result.lost), max(result.lost) <= 20), (wanted, True))
        self.assertGreaterEqual(result.finished + result.ended_short, 1)

    def test_ramps(self) -> None:
        """With ramps, metered by as many lines as those of F600 want: 30 for a stop, 200 and 520; and by as many as the
        player wants, with steps of 2 um: at most those of a traverse, 240 for a stop, 400 and 520. Some are lost."""
        with tempfile.TemporaryDirectory(prefix="ngc-plug-") as folder:
            machine = Path(folder) / "machine.toml"
            machine.write_text("[motion]\naccel_mm_s2 = [2000, 2000, 2000]\n")
            other = FIRST.replace("step_nm = [1000, 1000, 1000]", "step_nm = [2000, 2000, 2000]")
            for ahead, most, settings in ((750, 750, FIRST), (0, 1160, other)):
                wanted = MOMENTS // 8
                result = pull(Options(ngc(), ahead, 4096, built("-O2"), 0.3, str(machine), settings), wanted, seed=most)
                self.assertEqual((len(result.lost), max(result.lost) <= most), (wanted, True))
                self.assertGreater(sum(result.lost), 0)
                self.assertGreaterEqual(result.finished + result.ended_short, 1)


if __name__ == "__main__":
    unittest.main()
