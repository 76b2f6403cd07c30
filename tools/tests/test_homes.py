"""G28 and G30 as lines of one's own: which axes move is said, and asked."""
import sys
import unittest
from pathlib import Path

sys.path.insert(0, str(Path(__file__).resolve().parent))

from test_operator import Core, FileLink

ALONE = " To move Z alone write G53 G0 Z with the machine coordinate.\nyes goes there: "


class Homes(Core):
    """The machine stands at X 0.3 Y 0.2 Z -0.1; the home of G28 is machine 0, that of G30 X 0.3 Y 0.2 Z 0."""

    def setUp(self) -> None:
        """There are player and session."""
        super().setUp()
        self.begin(FileLink("0.3 0.2 -0.1"))
        self.do("reference 0.3 0.2 -0.1", "#5181=0.3 #5182=0.2 #5183=0 G90")

    def test_asked(self) -> None:
        """`G91 G28 Z0` moves X and Y too, which is asked; without a yes nothing moves, and no mode is set."""
        self.assertEqual(self.do("G91 G28 Z0", answers=("no",)), ["nothing is done"])
        whole = "G28 moves X, Y and Z, through what stands there, to machine X 0.000 Y 0.000 Z 0.000." + ALONE
        self.assertEqual(self.face.asked, [whole])
        self.assertEqual((self.out(), self.operator.stored().state.distance), ([], 90))
        self.do("G91 G28 Z0", answers=("yes",))
        self.assertEqual((self.face.asked, self.status().at), ([whole], ("0.000000",) * 3))

    def test_through(self) -> None:
        """The point that it goes through is told; so are the axes of a code that is computed, and in any form."""
        self.do("g 2 8.0 x.4 (lift)", answers=("no",))
        self.assertEqual(self.face.asked, [
            "G28 moves X, Y and Z, through what stands there, to machine X 0.400 Y 0.200 Z -0.100, and then to X 0.000"
            " Y 0.000 Z 0.000." + ALONE])
        self.do("G[14*2] Z-.1", answers=("no",))
        self.assertEqual(self.face.asked, [
            "this line moves X, Y and Z, through what stands there, to machine X 0.000 Y 0.000 Z 0.000." + ALONE])
        self.do("N5 G030", answers=("no",))
        self.assertEqual(self.face.asked, [
            "G30 moves Z, through what stands there, to machine X 0.300 Y 0.200 Z 0.000.\nyes goes there: "])
        self.assertEqual(self.out(), [])

    def test_not_asked(self) -> None:
        """Other lines, `anyway`, a line that is refused, one that moves nothing."""
        self.do("G53 G0 Z0", "G0 X0.3 (G28)", "G28.5 X1", "anyway G28", "G28")
        self.assertEqual(self.face.asked, [])
        self.assertIn("refused B2 UnknownCode", "\n".join(text for _, text in self.face.said))


if __name__ == "__main__":
    unittest.main()
