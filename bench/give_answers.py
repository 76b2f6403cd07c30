#!/usr/bin/env python3
"""Gives the goals of slow functions the narrowest tactic that proves them, where that makes a check quicker.

    bench/give_answers.py CRATE.. [--from SECONDS] [--only NAME].. [--write] [--test] [--libraries FOLDER]

A goal that no proof file answers is tried by `search rules`, then by `grind` with all of std's sets of lemmas. A goal
of arithmetic that `omega arith` or `grind arith` proves costs a fraction of that, where the file `Answers.antt` of its
function says so. No statement and no code is touched: an answer is a proof that the check judges as any other.

Each CRATE is a folder's name below crates/. The crate is checked once, on one lane, with the seconds of processor time
that each function takes. Of those that take as long as --from says, each goal without an answer is tried with one
tactic after the other. A function's answers are kept where all of its proof passes and a last check of it takes a
twentieth less, and half a second less, than it took before. They are printed, and with --write they are written into
the crate; then run `rt check`, and `rt must-fail` where the crate has edits.

The crates below it are taken as libraries from FOLDER/NAME/out/rlib or from FOLDER; without --libraries from this
checkout's crates/, where `rt check` or `rt lib` has made them. With --test the crate's tests count as its functions."""
import argparse
import os
import re
import shutil
import subprocess
import sys
import tempfile
from dataclasses import dataclass, field
from pathlib import Path

TOP = Path(__file__).resolve().parent.parent
KIT = Path("/opt/rattle")
TACTICS = ("omega arith", "grind arith", "search rules", "grind (arith, common_steps)")
SETS = {"arith": "Rattle.std.proofs.Common", "rules": "Rattle.std.proofs.Common",
        "common_steps": "Rattle.std.proofs.lemmas.Grind"}


@dataclass
class Goal:
    """A goal of a function that no file answers: its name, and the answer's line before the equals sign."""
    name: str
    head: str
    tactic: str = ""


@dataclass
class Function:
    """A function that is slow to prove: its path, where its answers stand, what it took, and its open goals."""
    name: str
    before_s: float
    answers: str = ""
    offered: str = ""
    was: str = ""
    goals: list[Goal] = field(default_factory=list)

    def text(self, goals: list[Goal]) -> tuple[str, dict[int, Goal]]:
        """The file of answers with these goals behind those that it has, and which goal stands on which line."""
        body = self.was or re.search(r"(?m)^use \S+Goals as goal$", self.offered)[0] + "\n"
        words = {word for goal in goals for word in SETS if re.search(rf"\b{word}\b", goal.tactic)}
        for word in sorted(words):
            body = with_import(body, word)
        lines: dict[int, Goal] = {}
        for goal in goals:
            body = body.rstrip("\n") + f"\n\npub {goal.name} : goal.{goal.name}\n{goal.head} = {goal.tactic}\n"
            last = body.count("\n")
            lines[last] = lines[last - 1] = goal
        return body, lines


def with_import(body: str, word: str) -> str:
    """The file with that word of std among its imports."""
    module = re.escape(SETS[word])
    line = re.search(rf"(?m)^use {module}\.\{{([^}}]*)\}}$", body)
    if not line:
        return f"use {SETS[word]}.{{{word}}}\n{body}"
    names = [name.strip() for name in line[1].split(",")]
    if word in names:
        return body
    return body[:line.end() - 1] + f", {word}" + body[line.end() - 1:]


class Crate:
    """A copy of a crate, and checks of it."""

    def __init__(self, name: str, libraries: Path, tests: bool, copy: Path) -> None:
        self.name, self.libraries, self.tests = name, libraries, tests
        self.folder = TOP / "crates" / name
        self.copy = copy
        for part in ("src", "specs", "proofs"):
            if (self.folder / part).is_dir():
                shutil.copytree(self.folder / part, copy / part)
        self.kept = copy / "kept"
        self.begun_s = self.last_s = 0.0
        self.stands_on = stands_on()

    def begin_with(self, kept: Path) -> None:
        """Has all checks from now on begin with what `rt check` kept of the crate, so that what a function calls isn't
        proved once more each time; what checks kept since then goes."""
        shutil.rmtree(self.kept, ignore_errors=True)
        if kept.is_dir():
            shutil.copytree(kept, self.kept, copy_function=os.link)
        self.kept.mkdir(exist_ok=True)

    def library(self, name: str) -> str:
        """Where the library of that name is."""
        for folder in (self.libraries / name / "out" / "rlib", self.libraries, KIT / "rlibs"):
            if (folder / f"{name}.rlib").is_dir():
                return str(folder / f"{name}.rlib")
        raise SystemExit(f"give_answers: there is no library {name}: run `rt lib` in its folder")

    def folders(self) -> set[str]:
        """The folders of the libraries that the crate stands on, by whatever way."""
        below, left = set(), [self.name]
        while left:
            name = left.pop()
            new = [other for other in self.stands_on.get(name, []) if other not in below]
            below.update(new)
            left.extend(new)
        return {str(Path(self.library(name)).parent) for name in below} | {str(KIT / "rlibs")}

    def words(self) -> list[str]:
        """The words of a check on one lane, as `rt ci` gives them."""
        root = "src/main.rt" if (self.copy / "src/main.rt").is_file() else "src/lib.rt"
        words = [str(KIT / "bin/rattle"), "check", "--crate-name", self.name, root]
        for below in ("std", *self.stands_on[self.name]):
            words += ["--extern", f"{below}={self.library(below)}"]
        for folder in sorted(self.folders()):
            words += ["-L", f"dependency={folder}"]
        words += ["--antt-project", f"{KIT}/rattle/logic/antt-project.json", "--logic-built", f"{KIT}/logic_built"]
        return words + ["--links", f"{self.name}=", "--jobs", "1"] + (["--test"] if self.tests else [])

    def check(self, *more: str) -> tuple[str, dict[str, float]]:
        """One check: what it prints, and the processor time of each function in seconds. The first function of a run
        also pays for some of what is loaded."""
        if self.kept.is_dir():
            more = ("--incremental", str(self.kept), *more)
        run = subprocess.Popen([*self.words(), *more], cwd=self.copy, stdin=subprocess.DEVNULL, stdout=subprocess.PIPE,
                               stderr=subprocess.STDOUT, text=True, errors="replace")
        lines, took_s, last_s = [], {}, self.begun_s
        for line in run.stdout:
            lines.append(line)
            checked = re.match(r"checked (\S+), \d+ of \d+$", line)
            if checked:
                now_s = processor_s(run.pid)
                took_s[checked[1]] = now_s - last_s
                last_s = now_s
        _, _, used = os.wait4(run.pid, 0)
        run.returncode = 0
        self.last_s = used.ru_utime + used.ru_stime
        return "".join(lines), took_s

    def find_beginning(self) -> None:
        """Finds what a check takes before its first function, in seconds."""
        self.check("--only", "")
        self.begun_s = self.last_s

    def write(self, function: Function, goals: list[Goal]) -> dict[int, Goal]:
        """Puts the answers to these goals into the copy."""
        place = self.copy / function.answers
        if not goals and not function.was:
            place.unlink(missing_ok=True)
            return {}
        text, lines = function.text(goals) if goals else (function.was, {})
        place.parent.mkdir(parents=True, exist_ok=True)
        place.write_text(text, encoding="utf8")
        return lines


def stands_on() -> dict[str, list[str]]:
    """The libraries that each crate of the repository names."""
    crates = {}
    for line in (TOP / "crates.txt").read_text(encoding="utf8").splitlines():
        name, colon, below = line.split("#")[0].partition(":")
        if colon:
            crates[name.split()[0]] = below.split()
    return crates


def processor_s(pid: int) -> float:
    """The processor time that a process has taken, with its children that have ended, in seconds."""
    fields = Path(f"/proc/{pid}/stat").read_text().rpartition(")")[2].split()
    return sum(int(ticks) for ticks in fields[11:15]) / os.sysconf("SC_CLK_TCK")


def offer(crate: Crate, functions: list[Function], scratch: Path) -> None:
    """Asks for the goals of these functions, and finds those that no file answers."""
    starts = [word for function in functions for word in ("--start", function.name)]
    said, _ = crate.check("--generated", str(scratch), *starts)
    root = scratch / f"Rattle-{crate.name}-proofs"
    offered = {str(place.parent.relative_to(root)): place for place in root.rglob("AnswersOffered.antt")}
    for function in functions:
        path = function.name.removeprefix(f"{crate.name}::").replace("::", "/")
        if path not in offered:
            print(f"{function.name}: no goals are offered")
            continue
        function.answers = f"proofs/{path}/Answers.antt"
        function.offered = offered[path].read_text(encoding="utf8")
        place = crate.copy / function.answers
        function.was = place.read_text(encoding="utf8") if place.is_file() else ""
        pairs = re.findall(r"(?m)^pub (\S+) : goal\.\S+\n(.*)$", function.offered)
        function.goals = [Goal(name, line.rsplit("=", 1)[0].rstrip()) for name, line in pairs
                          if not re.search(rf"(?m)^(pub )?{re.escape(name)} :", function.was)]
    if not offered:
        print(said[-2000:])


def try_tactic(crate: Crate, functions: list[Function], tactic: str) -> None:
    """Tries one tactic at each goal that has none yet, and leaves it at those that it proves."""
    lines: dict[str, dict[int, Goal]] = {}
    tried: list[Goal] = []
    for function in functions:
        for goal in function.goals:
            if not goal.tactic:
                goal.tactic = tactic
                tried.append(goal)
        lines[function.answers] = crate.write(function, [goal for goal in function.goals if goal.tactic])
    if not tried:
        return
    only = [word for function in functions for word in ("--only", function.name)]
    said, _ = crate.check("--allow-holes", *only)
    for path, line in re.findall(r"(\S*Answers\.antt):(\d+):\d+: error", said):
        goal = next((goals[int(line)] for place, goals in lines.items() if path.endswith(place) and int(line) in goals),
                    None)
        if goal:
            goal.tactic = ""
        else:
            print(f"{path}:{line} is refused, and is no answer of this run")


def keep(crate: Crate, functions: list[Function], write: bool) -> None:
    """Checks the functions with their answers, and keeps the answers of those that take less time now."""
    for function in functions:
        crate.write(function, [goal for goal in function.goals if goal.tactic])
    only = [word for function in functions for word in ("--only", function.name)]
    said, took_s = crate.check("--progress", *only)
    for function in functions:
        after_s = took_s.get(function.name)
        proved = re.search(rf"(?m)^fn {re.escape(function.name)}: proved", said)
        given = [goal for goal in function.goals if goal.tactic]
        counts = ", ".join(f"{sum(goal.tactic == tactic for goal in given)} {tactic}" for tactic in TACTICS)
        quicker = after_s is not None and after_s < min(function.before_s * 0.95, function.before_s - 0.5)
        kept = bool(given and proved and quicker)
        took = "no time" if after_s is None else f"{after_s:.1f} s"
        print(f"{function.name}: {function.before_s:.1f} s to {took}; of "
              f"{len(function.goals)} goals {counts}; {'kept' if kept else 'left' if proved else 'NOT PROVED, left'}",
              flush=True)
        if kept and write:
            place = crate.folder / function.answers
            place.parent.mkdir(parents=True, exist_ok=True)
            place.write_text(function.text(given)[0], encoding="utf8")


def sweep(crate: Crate, asked: argparse.Namespace, scratch: Path) -> None:
    """Gives answers to the slow functions of a crate."""
    crate.find_beginning()
    only = [word for name in asked.only for word in ("--only", name)]
    said, took_s = crate.check("--progress", *only)
    if "not proved" in said or not took_s:
        print(f"{crate.name}: the check as it stands doesn't pass\n{said[-2000:]}")
        return
    functions = [Function(name, before_s) for name, before_s in took_s.items() if before_s >= asked.least]
    functions = [function for function in functions
                 if not asked.only or any(f"::{name}::" in f"{function.name}::" for name in asked.only)]
    functions.sort(key=lambda function: -function.before_s)
    print(f"{crate.name}: {sum(took_s.values()):.0f} s in {len(took_s)} functions, of which {len(functions)} take "
          f"{sum(function.before_s for function in functions):.0f} s", flush=True)
    for function in functions:
        print(f"    {function.before_s:6.1f} s {function.name}", flush=True)
    if not functions or asked.list:
        return
    crate.begin_with(crate.folder / "out/incremental")
    offer(crate, functions, scratch)
    functions = [function for function in functions if function.goals]
    for tactic in TACTICS:
        try_tactic(crate, functions, tactic)
    # what the tries proved is left out of the last check, so that each function has a time
    crate.begin_with(crate.folder / "out/incremental")
    keep(crate, functions, asked.write)


def words() -> argparse.Namespace:
    """The words of the command line."""
    parser = argparse.ArgumentParser(description=__doc__, formatter_class=argparse.RawDescriptionHelpFormatter)
    parser.add_argument("crates", nargs="+", metavar="CRATE")
    parser.add_argument("--from", dest="least", type=float, default=3.0, metavar="SECONDS", help="3 without it")
    parser.add_argument("--only", action="append", default=[], metavar="NAME",
                        help="this function or module of the crate")
    parser.add_argument("--list", action="store_true", help="only list what each slow function takes")
    parser.add_argument("--write", action="store_true", help="write the answers into the crate")
    parser.add_argument("--test", action="store_true", help="with the crate's tests")
    parser.add_argument("--libraries", type=Path, default=TOP / "crates", metavar="FOLDER")
    return parser.parse_args()


def main() -> int:
    """Sweeps over each crate, and returns the exit status."""
    asked = words()
    for name in asked.crates:
        if not (TOP / "crates" / name / "src").is_dir():
            print(f"give_answers: there is no crate {name}", file=sys.stderr)
            return 2
        with tempfile.TemporaryDirectory(prefix="answers-") as place:
            copy, scratch = Path(place) / "crate", Path(place) / "goals"
            copy.mkdir()
            sweep(Crate(name, asked.libraries.resolve(), asked.test, copy), asked, scratch)
    return 0


if __name__ == "__main__":
    sys.exit(main())
