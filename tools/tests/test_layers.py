"""Which package of the tools imports which: none another in a circle, and what stands beside them none of them."""
import ast
import sys
import unittest
from graphlib import CycleError, TopologicalSorter
from pathlib import Path

sys.path.insert(0, str(Path(__file__).resolve().parent))

from session_support import TOOLS

TOP = TOOLS / "ngc_tools"


def imported(path: Path) -> set[str]:
    """The packages of ngc_tools that a module imports from, and the modules beside them."""
    found = (node.module for node in ast.walk(ast.parse(path.read_text())) if isinstance(node, ast.ImportFrom))
    return {name.split(".")[1] for name in found if name and name.startswith("ngc_tools.")}


def units() -> dict[str, set[str]]:
    """Each package, and each module beside them, with those that it imports from."""
    modules = {path.parent.name: list(path.parent.rglob("*.py")) for path in TOP.glob("*/__init__.py")}
    modules |= {path.stem: [path] for path in beside()}
    return {name: set().union(*map(imported, paths)) & modules.keys() - {name} for name, paths in modules.items()}


def beside() -> list[Path]:
    """The modules beside the packages."""
    return [path for path in TOP.glob("*.py") if path.stem != "__init__"]


class Layers(unittest.TestCase):
    """The packages stand on each other in one order."""

    def test_no_circle(self) -> None:
        """Whoever reads one needs no package above it."""
        stands_on = units()
        self.assertGreater(len(stands_on), 12)
        try:
            order = list(TopologicalSorter(stands_on).static_order())
        except CycleError as error:
            self.fail(f"a circle: {' -> '.join(error.args[1])}")
        self.assertEqual(order[-1], "cli")

    def test_beside(self) -> None:
        """What all packages stand on needs none of them."""
        stands_on, names = units(), {path.stem for path in beside()}
        self.assertEqual(set().union(*map(stands_on.get, names)) - names, set())


if __name__ == "__main__":
    unittest.main()
