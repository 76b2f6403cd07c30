"""What all tools have in common: help, wrong words, how they find `ngc`, an output that nobody reads."""
import ast
import os
import shutil
import subprocess
import sys
import tomllib
import unittest
from collections.abc import Callable
from importlib import import_module
from pathlib import Path
from unittest.mock import patch

sys.path.insert(0, str(Path(__file__).resolve().parent))

from session_support import TOOLS, InFolder, ngc, told

NAMES = sorted(path.name for path in TOOLS.glob("ngc-*"))
NOT_FOUND = "ngc: neither beside this tool nor on PATH; name it with --ngc PATH\n"
# What each that asks `ngc` is given; part.ngc and device are there.
WORDS = {"ngc-adapt": ("part.ngc",), "ngc-check": ("part.ngc",), "ngc-split": ("part.ngc",),
         "ngc-plot": ("part.txt", "--settings", "first.toml"), "ngc-rehearse": ("mill.dev", "first.toml"),
         "ngc-operate": ("mill.dev", "first.toml", "out")}


def imported(path: Path) -> set[str]:
    """The packages that a file imports from."""
    nodes = list(ast.walk(ast.parse(path.read_text())))
    names = [alias.name for node in nodes if isinstance(node, ast.Import) for alias in node.names]
    names += [node.module or "" for node in nodes if isinstance(node, ast.ImportFrom)]
    return {name.partition(".")[0] for name in names}


def main_of(name: str) -> Callable[[list[str]], int]:
    """What a tool calls, to be called in this process: to start one takes longer than what it does here."""
    return import_module(f"ngc_tools.cli.{name.removeprefix('ngc-').replace('-', '_')}").main


class Tools(InFolder):
    """Each of the ten."""

    def run_tool(self, name: str, *words: str, path: str = "", tools: Path = TOOLS) -> tuple[int, str, str]:
        """Runs a tool with this PATH: the exit status and what it writes."""
        done = subprocess.run([sys.executable, tools / name, *words], env={**os.environ, "PATH": path}, text=True,
                              input="", capture_output=True)
        return done.returncode, done.stdout, done.stderr

    def test_help(self) -> None:
        """An example and what each exit status means, on standard output."""
        self.assertEqual(len(NAMES), 10)
        for name in NAMES:
            status, said, error = self.run_tool(name, "--help")
            self.assertEqual((status, error), (0, ""), name)
            example, _, statuses = said.partition("\nexample:\n")[2].partition("\nexit status:\n")
            self.assertRegex(example, f"  (?:sudo )?{name}[ \n]")
            self.assertRegex(statuses, r"(?s)^  0  .*\n  2  ")
            self.assertEqual("--ngc PATH" in said, name not in ("ngc-device", "ngc-check-disk"))
            self.assertTrue((TOOLS / name).stat().st_mode & 0o111, name)

    def test_version(self) -> None:
        """In a checkout it says so; with the file that packaging writes beside the tools, what that says; of one that
        can't be read, why."""
        shutil.copytree(TOOLS, "installed", ignore=shutil.ignore_patterns("tests", "player", "sink", "__pycache__"))
        for name in NAMES:
            said = told(main_of(name), "--version")
            self.assertEqual(said, (0, f"{name}\nbuilt from a checkout\n", ""), name)
        Path("installed/BUILD").write_text("version: 1.0~x\ncommit: c\nkit: k\n")
        for name in ("ngc-check-disk", "ngc-page"):
            said = f"{name}\nversion: 1.0~x\ncommit: c\nkit: k\n"
            self.assertEqual(self.run_tool(name, "--version", tools=Path("installed")), (0, said, ""), name)
        Path("installed/BUILD").unlink()
        Path("installed/BUILD").mkdir()
        status, said, error = self.run_tool("ngc-check", "--version", tools=Path("installed"))
        self.assertEqual((status, said), (2, ""))
        self.assertRegex(error, r"^ngc-check: .*/BUILD: Is a directory\n$")

    def test_folder(self) -> None:
        """No Python of the folder in which a tool is started is run, by a tool or by what it starts."""
        for name in ("sitecustomize", "usercustomize", "argparse", "json", "re", "start", "ngc_tools"):
            Path(f"{name}.py").write_text("open('ran', 'w').close()\n")
        Path("part.ngc").write_text("G21 G90 G17 G54 G94 G98\nG1 X1 F100\nM2\n")
        Path("motion.toml").write_text("[motion]\naccel_mm_s2 = [500, 500, 500]\n")
        words = ("part.ngc", "--settings", "first.toml", "--machine", "motion.toml", "--ngc", ngc())
        for name, *given in (("ngc-check", *words), ("ngc-plot", *words), *((name, "--help") for name in NAMES)):
            self.assertEqual(self.run_tool(name, *given)[::2], (0, ""), name)
        self.assertFalse(Path("ran").exists())

    def test_one_name(self) -> None:
        """No two modules have a public class of one name."""
        names = [node.name for path in (TOOLS / "ngc_tools").rglob("*.py") for node in ast.parse(path.read_text()).body
                 if isinstance(node, ast.ClassDef) and not node.name.startswith("_")]
        self.assertGreater(len(names), 200)
        self.assertEqual({name for name in names if names.count(name) > 1}, set())

    def test_entry_points(self) -> None:
        """What `pip install` puts on PATH are the scripts' modules, and all of its folders are packages."""
        points = tomllib.loads((TOOLS / "pyproject.toml").read_text())["project"]["scripts"]
        modules = {name: name.removeprefix("ngc-").replace("-", "_") for name in NAMES}
        self.assertEqual(points, {name: f"ngc_tools.cli.{module}:main" for name, module in modules.items()})
        for name, module in modules.items():
            self.assertIn(f'run_tool("{module}")\n', (TOOLS / name).read_text())
        folders = {path.parent for path in TOOLS.glob("ngc_tools/**/*.py")}
        self.assertGreater(len(folders), 6)
        self.assertEqual([folder for folder in folders if not (folder / "__init__.py").is_file()], [])

    def test_wrong_words(self) -> None:
        """Status 2, on standard error, with the tool's name."""
        for name in NAMES:
            status, said, error = told(main_of(name), "--nothing")
            self.assertEqual((status, said), (2, ""), name)
            self.assertTrue(error.splitlines()[-1].startswith(f"{name}: error: "), error)

    def test_ngc_is_found(self) -> None:
        """On PATH, beside the tool, or not at all: that is said."""
        self.device()
        Path("part.ngc").write_text("G21 G90\nM2\n")
        Path("part.txt").write_text("PROGRAM_END()\n")
        os.mkdir("bin")
        os.symlink(ngc(), "bin/ngc")
        shutil.copytree(TOOLS, "tools", ignore=shutil.ignore_patterns("tests"))
        os.symlink(ngc(), "tools/ngc")
        for name, words in WORDS.items():
            main = main_of(name)
            with patch.dict(os.environ, PATH=""):
                self.assertEqual(told(main, *words), (2, "", f"{name}: {NOT_FOUND}"))
            self.assertEqual(told(main, *words, "--ngc", "first.toml"),
                             (2, "", f"{name}: first.toml: not a program that can be run\n"))
            on_path = self.run_tool(name, *words, path=str(self.folder / "bin"))
            self.assertEqual(on_path[0], 0, on_path)
            self.assertEqual(self.run_tool(name, *words, tools=self.folder / "tools"), on_path, name)

    def test_imports(self) -> None:
        """Python's standard library alone."""
        paths = [*TOOLS.glob("ngc-*"), TOOLS / "start.py", *TOOLS.glob("ngc_tools/**/*.py"), *TOOLS.glob("posts/*.py")]
        self.assertGreater(len(paths), 40)
        for path in paths:
            others = imported(path) - {*sys.stdlib_module_names, "start", "ngc_tools"}
            self.assertEqual((others, path), (set(), path))

    def test_nobody_reads(self) -> None:
        """Status 2 and no word where the reader of its output has gone."""
        Path("part.ngc").write_text("G4 P99\n" * 2000 + "M2\n")
        Path("part.txt").write_text("STRAIGHT_TRAVERSE(1.000000, 0.000000, 0.000000)\n")
        for name, word in (("ngc-check", "part.ngc"), ("ngc-plot", "part.txt")):
            reader, writer = os.pipe()
            os.close(reader)
            done = subprocess.run([sys.executable, TOOLS / name, word, "--ngc", ngc()], stdout=writer,
                                  stderr=subprocess.PIPE, text=True)
            os.close(writer)
            self.assertEqual((done.returncode, done.stderr), (2, ""), name)


if __name__ == "__main__":
    unittest.main()
