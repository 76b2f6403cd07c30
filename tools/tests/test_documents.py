"""The commands of docs/, tried as they are written: what stands below one is what it has to print."""
import os
import re
import shutil
import signal
import subprocess
import sys
import textwrap
import tomllib
import unittest
import xml.etree.ElementTree as ElementTree
from functools import cache
from importlib import import_module
from pathlib import Path
from types import ModuleType

sys.path.insert(0, str(Path(__file__).resolve().parent))

from player_support import builds, proved
from session_support import PATIENCE_S, TOOLS, InFolder, Terminal, ngc, told
from out_support import text_of
from test_rehearse import HOLE, OUT

from ngc_tools.formats.out import Switch
from ngc_tools.formats.record import Record
from ngc_tools.ngc.commands import FORMS
from ngc_tools.link.out_file import OutFile

DOCS = TOOLS.parent / "docs"
CAM = Path(__file__).resolve().parent / "cam"

_COMMAND = re.compile(r"(?:\$ )?((?:ngc|ngc-\w+|mkfifo|make|cp|grep|sed|tail|player|exec|echo|\{|:|tools/\S+) .*?)"
                      r"(?: {2,}[(#].*)?")
_INLINE = re.compile(r"`((?:tools/|examples/)?(?:ngc-\w+|grep|\w+\.py) [^`]*)`")

EXAMPLES = {form.word: form.example + "\n" for form in FORMS} | {"load": "load 3\nM2\n"}
PLAYER = "tools/player.md"
NAMES = ("operate", "page", "check", "plot", "rehearse", "device", "adapt", "split")
SYNOPSES = [f"tools/ngc-{name}.md" for name in NAMES]

# The chapters with commands; each is tried by a test below.
CHAPTERS = {page: ("",) for page in (PLAYER, "tools/tests.md", *SYNOPSES)} | {
    "RECOVERY.md": ("`recover`: back the way it came", "OUT is a pipe", "A half-done block"),
    "POST_PROCESSOR.md": ("",), "OUTPUT.md": (), "TOOLS.md": (),
    "SESSION.md": ("The device", "A first session"),
    "../README.md": ("",),
    "PAGE.md": ("",), "MOTION.md": ("",),
    "TUTORIAL.md": ("1. Look at the program", "2. Make a device", "3. Run it, and lose the power",
                    "4. Power comes back", "5. Resume"),
}

# The words of this project in README.md, and how each stands where it is told what it means.
INTRODUCED = {
    r"(?-i:OUT\b)": "a file, OUT", "player": "*player*", "step sink": "*step sink*", "segment": "*segment*",
    "entry|entries": "*entries*", "device": "*device*", "session": "*session*", "block(?! delete)": "*blocks*",
    "honest": "*honest*", "plain interpreter": "*plain interpreter*", "approach": "*approach*", "item": "*item*",
}
DEMO_ENDS = "`interpreter: no-answer`.*no endless loop.*`checked: ended status=0`"


def chapters(page: str) -> dict[str, str]:
    """The texts of a page's chapters by their titles; what stands before the first has none."""
    head, *rest = (DOCS / page).read_text().split("\n## ")
    return {"": head} | {title: text for title, _, text in (part.partition("\n") for part in rest)}


def blocks(text: str) -> list[str]:
    """The indented blocks of a chapter, without their indentation."""
    found = re.findall(r"(?:^ {4,}\S.*\n)+", text, re.MULTILINE)
    return [textwrap.dedent(block) for block in found]


def commands(text: str) -> list[tuple[str, str]]:
    """The commands of a chapter's blocks, each with what stands below it, up to the next one."""
    found: list[tuple[str, str]] = []
    for line in "\n".join(["", *blocks(text)]).split("\n"):
        if match := _COMMAND.fullmatch(line):
            found.append((match[1], ""))
        elif found and line:
            command, output = found.pop()
            found.append((command, output + line + "\n"))
    return found


def spoken(block: str) -> tuple[str, list[str]]:
    """A block of a console: what is typed on the left, and the answers beside it, without what is said of them."""
    lines = block.splitlines()
    column = min(match.end() for line in lines if (match := re.search(" {2,}(?=\\S)", line)))
    typed = [line[:column].rstrip() for line in lines]
    answers = [re.split(" {2,}", line[column:])[0] for line in lines]
    return "\n".join(filter(None, typed)) + "\n", list(filter(None, answers))


@cache
def player() -> str:
    """The path of tools/player, built as its page says."""
    folder = Path(builds(), "documents").absolute()
    build = next(command for command, _ in commands(chapters(PLAYER)[""]) if command.startswith("make "))
    words = [*build.split(), f"OUT={folder}", f"ARCHIVES={' '.join(proved())}"]
    folder.mkdir(exist_ok=True)
    done = subprocess.run(words, cwd=TOOLS.parent, capture_output=True, text=True)
    if done.returncode or done.stderr:
        raise AssertionError(f"{words}\n{done.stderr}")
    return str(folder / "player")


def tables(text: str) -> list[list[list[str]]]:
    """The tables of a text: the cells of each row, without the head."""
    bodies = re.findall(r"^\|[-| ]+\|\n((?:\|.*(?:\n|\Z))+)", text, re.MULTILINE)
    return [[[cell.strip() for cell in line.strip("|").split("|")] for line in body.splitlines()] for body in bodies]


def cli(name: str) -> ModuleType:
    """The module of a tool."""
    return import_module(f"ngc_tools.cli.{name.removeprefix('ngc-').replace('-', '_')}")


class Documents(InFolder):
    """A folder in which `ngc`, the tools and the examples are found as the pages say."""

    maxDiff = None

    def setUp(self) -> None:
        """Makes it."""
        super().setUp()
        os.mkdir("bin")
        os.symlink(ngc(), "bin/ngc")
        os.symlink(player(), "bin/player")
        os.symlink(TOOLS, "tools")
        shutil.copytree(TOOLS.parent / "examples", "examples")
        shutil.copy("examples/mill.toml", "mill.toml")
        path = f"{self.folder}/bin:{TOOLS}:{os.environ['PATH']}"
        self.environment = {**os.environ, "PATH": path, "PYTHONDONTWRITEBYTECODE": "1"}

    def chapter(self, page: str, begin: str) -> tuple[str, list[tuple[str, str]]]:
        """The text of the chapter whose title begins so, and its commands."""
        title = next(title for title in CHAPTERS[page] if title.startswith(begin))
        text = chapters(page)[title]
        return text, commands(text)

    def shell(self, command: str, text: str = "", status: int = 0) -> str:
        """What a command prints that ends with this status."""
        done = subprocess.run(["bash", "-c", command], env=self.environment, input=text, capture_output=True, text=True,
                              timeout=PATIENCE_S)
        self.assertEqual((done.returncode, done.stderr), (status, ""), command)
        return done.stdout

    def begin(self, command: str) -> subprocess.Popen[str]:
        """Starts a player, as in another terminal, and waits until it listens."""
        child = subprocess.Popen(["bash", "-c", f"exec {command}"], env=self.environment, stdin=subprocess.DEVNULL,
                                 stdout=subprocess.PIPE, stderr=subprocess.PIPE, text=True)
        self.addCleanup(self._end, child)
        self.wait_for("the player listens", lambda: os.path.exists("progress"))
        return child

    def operate(self, command: str) -> Terminal:
        """Starts a console at a terminal."""
        name, *words = command.split()
        return Terminal(str(TOOLS / name), *words, "--ngc", ngc())

    def same_options(self, tool: str, text: str, synopsis: str) -> None:
        """The options of the help stand in the chapter, but for those that the page says of all tools, and those of the
        synopsis are of the help."""
        known = set(re.findall(r"^  (--[a-z-]+)", cli(tool).make_parser().format_help(), re.MULTILINE))
        self.assertEqual(set(re.findall(r"--[a-z-]+", synopsis)) - known, set())
        self.assertEqual({option for option in known - {"--ngc", "--version"} if option not in text}, set())


class Pages(unittest.TestCase):
    """Nothing is left out."""

    def test_chapters(self) -> None:
        """Each chapter with a command is tried."""
        for page, tried in CHAPTERS.items():
            self.assertEqual(tuple(title for title, text in chapters(page).items() if commands(text)), tried, page)

    def test_words(self) -> None:
        """README.md introduces each word that a newcomer can't know where it first stands, and never speaks of ticks.
        It says how the demo ends, of which `rt` says that it may loop forever."""
        text = (DOCS / "../README.md").read_text()
        running = " ".join(re.sub("(?m)^ {4}.*$|`[^`]*`", "", text).split())
        for word, introduced in INTRODUCED.items():
            before, found, _ = running.partition(introduced)
            self.assertEqual((found, re.findall(rf"(?i)\b(?:{word})", before)), (introduced, []))
        self.assertEqual(re.findall(r"(?i)\bticks?\b|loop\s+forever", text), [])
        self.assertRegex(" ".join(chapters("../README.md")["Run and test it"].split()), DEMO_ENDS)


class Tools(Documents):
    """docs/TOOLS.md, and the page of each tool."""

    def test_pages(self) -> None:
        """Each tool has a row, whose page is there."""
        rows = [re.fullmatch(r"\[(\S+)\]\((\S+)\)", row[0]).groups() for row in tables(chapters("TOOLS.md")[""])[0]]
        names = {path.name for path in TOOLS.glob("ngc-*")}
        self.assertEqual(names | {"player", "tools/sink"}, {name for name, _ in rows})
        self.assertEqual({str(path.relative_to(DOCS)) for path in DOCS.glob("tools/*.md")} - {"tools/tests.md"},
                         {page for _, page in rows if "/" in page})
        self.assertEqual([page for _, page in rows if not (DOCS / page).is_file()], [])

    def test_player(self) -> None:
        """A pipe with a player; tools/player is built, and its words are those of the page."""
        (_, _), (words, more), (fifo, _), (play, _) = self.chapter(PLAYER, "")[1]
        self.shell(fifo)
        child = self.begin(play)
        open("axis", "wb").close()
        self.assertEqual(child.wait(PATIENCE_S), 0)
        self.assertEqual([line.split()[0] for line in blocks(chapters(PLAYER)["The record"])[0].splitlines()],
                         [line.split()[0] for line in Path("position").read_text().splitlines() if line.strip()])
        done = subprocess.run([player()], capture_output=True, text=True)
        self.assertEqual((done.returncode, done.stderr), (2, f"player: usage: {words} {more.strip()}\n"))

    def test_operate(self) -> None:
        """The session, to the byte, and the record that the player keeps of it."""
        text, tried = self.chapter("tools/ngc-operate.md", "")
        (synopsis, _), (make, _), (fifo, _), (play, _), (operate, rest) = tried
        self.same_options("ngc-operate", text, synopsis)
        program, session = rest[:rest.index("metered")], rest[rest.index("metered"):]
        Path("part.ngc").write_text(program)
        for command in (make, fifo):
            self.shell(command)
        player = self.begin(play)
        terminal = self.operate(operate)
        shown = b""
        for prompt, typed in re.findall(r"^(ngc> |.*\? yes .*: )(.*\n)", session, re.MULTILINE):
            shown += terminal.read_to(prompt.encode())
            terminal.send(typed.encode())
        shown += terminal.read_to(b"never")
        self.assertEqual((terminal.status(), player.wait(PATIENCE_S)), (0, 0))
        self.assertEqual(shown.decode().replace("\r\n", "\n"), session)
        wanted = blocks(chapters(PLAYER)["The record"])[0].split("\n", 1)[1]
        found = re.sub("(?m)^age .*\n", "", Path("position").read_text().split("\n", 1)[1])
        self.assertEqual(found.rstrip(" \n") + "\n", wanted)

    def test_words_that_go_together(self) -> None:
        """An option in the brackets of another one is refused without that one."""
        synopses = [self.chapter(page, "")[1][0][0] for page in SYNOPSES]
        pairs = [(synopsis.partition(" [")[0].split(), *pair) for synopsis in synopses
                 for pair in re.findall(r"\[(--[a-z-]+) [A-Z]+ \[(--[a-z-]+) ([A-Z]+)\]", synopsis)]
        self.assertEqual(len(pairs), 6, pairs)
        for (name, *given), outer, inner, value in pairs:
            status, said, error = told(cli(name).main, *given, inner, "2" if value == "N" else value, "--ngc", ngc())
            self.assertEqual((status, said), (2, ""), (name, inner))
            self.assertRegex(error.splitlines()[-1], f"^{name}: error: .*{inner} .*{outer}")

    def test_plug(self) -> None:
        """Their words, and a moment of each."""
        _, tried = self.chapter("tools/tests.md", "")
        moment = "--moments 1 --blocks 10"
        moments = f"{moment} --player bin/player"
        own = ((moments, "1 moments in "), (f"{moments} --cut", "1 moments in "), ("--chains 1", " 1 chains, "))
        for (synopsis, more), (words, said) in zip(tried, own, strict=True):
            program, wanted = synopsis.split()[0], set(re.findall(r"--[a-z-]+", synopsis + more))
            self.assertEqual(wanted - set(re.findall(r"--[a-z-]+", self.shell(f"{program} --help"))), set())
            self.assertIn(said, self.shell(f"{program} --ngc {ngc()} {words}"))

    def test_page(self) -> None:
        """The options of the page; tests/test_page.py has the rest."""
        text, ((synopsis, _),) = self.chapter("tools/ngc-page.md", "")
        self.same_options("ngc-page", text, synopsis)

    def test_check(self) -> None:
        """A refused line, settings, and settings that are refused."""
        text, tried = self.chapter("tools/ngc-check.md", "")
        (synopsis, _), (check, said), (only, _), (first, report), (ramps, times) = tried
        self.same_options("ngc-check", text, synopsis + only)
        shutil.copy(CAM / "freecad_linuxcnc.ngc", "part.ngc")
        self.assertEqual(self.shell(check, status=1), said)
        report, wrong = report.split("ngc-check: mill.toml")
        self.assertEqual(self.shell(first), report)
        self.assertIn("6,000 mm/min", self.shell(only.replace("FILE", "first.toml")))
        Path("player.toml").write_text("[motion]\naccel_mm_s2 = [500, 500, 300]\nrate_mm_min = [0, 0, 600]\n")
        Path("part.ngc").write_text("G17 G21 G40 G49 G54 G80 G90 G94\nM3 S1000\nG0 X0 Y0 Z0\nG1 X40 F1200\nM2\n")
        self.assertEqual(self.shell(ramps), times)
        Path("mill.toml").write_text(Path("mill.toml").read_text().replace("period_us = 40", "period_us = 50.0"))
        error = self.shell(only.replace("FILE", "mill.toml") + " 2>&1", status=2)
        self.assertEqual(error, "ngc-check: mill.toml" + wrong)

    def test_plot(self) -> None:
        """A program where the work is, and a picture beside an example with its figures."""
        text, ((synopsis, _), (pipe, _), (ring, said)) = self.chapter("tools/ngc-plot.md", "")
        self.same_options("ngc-plot", text, synopsis)
        shutil.copy("examples/pocket.ngc", "part.ngc")
        self.assertEqual(self.shell(pipe), "")
        ElementTree.parse("part.svg")
        os.unlink("examples/ring.svg")
        self.assertEqual(self.shell(ring), said)
        self.assertEqual(Path("examples/ring.svg").read_text(), (TOOLS.parent / "examples" / "ring.svg").read_text())

    def test_rehearse(self) -> None:
        """A hole whose way out is cut off."""
        text, ((synopsis, _), (resume, said), (carried, where)) = self.chapter("tools/ngc-rehearse.md", "")
        self.same_options("ngc-rehearse", text, synopsis)
        self.device()
        self.run_ngc("tool 1 0\n")
        self.run_ngc(f"load {len(HOLE)}\n{HOLE}start\n" + f"tick {OUT + 100}\n")
        self.assertEqual(self.shell(resume), said)
        self.assertTrue(self.shell(carried).startswith(where + "\n" + said[:said.index("the approach")]))

    def test_device(self) -> None:
        """The half-done block that docs/DEVICE.md speaks of first."""
        text, ((command, _),) = self.chapter("tools/ngc-device.md", "")
        self.same_options("ngc-device", text, command)
        self.device()
        self.run_ngc("mdi G0 X0.002\ntick 2\n")
        said = self.shell(command.replace("DEVICE", "mill.dev"))
        self.assertIn("half-done block: 2\n", said)
        self.assertIn("its text: G0 X0.002\n", said)

    def test_adapt(self) -> None:
        """The list of what is changed."""
        text, ((synopsis, _), (adapt, said)) = self.chapter("tools/ngc-adapt.md", "")
        self.same_options("ngc-adapt", text, synopsis)
        shutil.copy(CAM / "fusion_mach3.tap", "fusion_mach3.tap")
        self.assertEqual(self.shell(adapt), said)

    def test_split(self) -> None:
        """Its words."""
        text, ((synopsis, _),) = self.chapter("tools/ngc-split.md", "")
        self.same_options("ngc-split", text, synopsis)


class Helps(Documents):
    """The examples of `--help`."""

    LONG = ("ngc-operate", "ngc-page")  # these go on until they are ended: their words are tried alone
    ALONE = ("ngc-check-disk", "ngc-setup")  # so are those of these, which ask, or take seconds

    def setUp(self) -> None:
        """A half-done block on mill.dev, OUT and a player's record of it, and other files that the examples name."""
        super().setUp()
        program = "G21 G90 G17 G54 G94\nM3 S1000\nG0 X2\nG1 X20 F600\nM2\n"
        shutil.copy("first.toml", "mill.toml")
        self.device()
        self.run_ngc(f"load {len(program)}\n{program}start\ntick 9000\n")
        self.shell("player out mill.toml position --untimed 2>&1")
        shutil.copy("out", "axis.out")
        Path("player.toml").write_text("[motion]\naccel_mm_s2 = [500, 500, 300]\n")
        Path("part.nc").write_text("G21 G90\nG28 G91 Z0\nG90 G0 X1\nM2\n")

    def test_examples(self) -> None:
        """Each does its work, and writes the file that it names."""
        names = sorted(path.name for path in TOOLS.glob("ngc-*"))
        shown = [cli(name).make_parser().format_help().partition("\nexample:\n")[2] for name in names]
        lines = re.findall(r"^  (?:\(.*\) |sudo )?(ngc-[\w-]+(?: .*?)?)(?: {3,}.*)?$", "\n".join(shown), re.MULTILINE)
        self.assertEqual(sorted({line.split()[0] for line in lines}), names)
        for line in lines:
            self.check_example(line)

    def check_example(self, line: str) -> None:
        """Tries one."""
        name, *words = line.split()
        made = re.search("(?:--output|>) (.*)", line)
        if made:
            Path(made[1]).unlink(missing_ok=True)
        if name in self.ALONE:
            cli(name).make_parser().parse_args(words)
        elif name in self.LONG:
            self.assertIn("mill.toml", vars(cli(name).make_parser().parse_args(words)).values())
        elif ">" in words:
            self.shell(line)
        else:
            own = ("--ngc", ngc()) if name != "ngc-device" else ()
            status, out, error = told(cli(name).main, *words, *own)
            self.assertEqual((status, bool(out)), (0, True), (line, error))
        self.assertTrue(not made or Path(made[1]).stat().st_size, line)


class Readme(Documents):
    """README.md: what stands before its first chapter, and a line of a dry run."""

    def setUp(self) -> None:
        """Reads it."""
        super().setUp()
        shutil.copy("examples/mill.ngc", "mill.ngc")
        self.text, self.tried = self.chapter("../README.md", "")

    def test_dry_run(self) -> None:
        """What is printed of one line."""
        text = chapters("../README.md")["What it does"]
        line, said = re.search("for\\s+`(.*)` of `examples/mill.ngc` it is `(.*)`", text).groups()
        self.assertIn(line, Path("mill.ngc").read_text().splitlines())
        self.assertIn(said, self.shell("ngc dry mill.ngc --settings mill.toml").splitlines())

    def test_recover(self) -> None:
        """What the console says is what docs/RECOVERY.md has, which is tried; `..` stands for lines of it."""
        shown = re.escape(blocks(self.text)[0]).replace(re.escape("..\n"), "(?:.*\n)+")
        self.assertRegex(blocks(chapters("RECOVERY.md")["`recover`: back the way it came"])[1], shown)

    def test_contract(self) -> None:
        """The contract is that of the code."""
        code = (TOOLS.parent / "crates/ng_step/src/stepper.rt").read_text()
        contract, = (block for block in blocks(self.text) if block.startswith("pub fn"))
        for line in contract.splitlines():
            self.assertIn(line.partition("  //")[0].rstrip() + "\n", code)

    def test_job(self) -> None:
        """Each command, and what is typed at the console, but for the run, which takes a minute."""
        *before, play, operate = (command for command, _ in self.tried)
        for command in before:
            self.shell(command)
        *words, run, go = re.search(r"ngc-operate .*\((.*)\)", self.text)[1].split(", ")
        self.assertEqual((run, go), ("run", "go"))
        player = self.begin(play)
        terminal = self.operate(operate)
        shown = b""
        for line in (*words, "quit"):
            shown += terminal.read_to(b"ngc> ")
            terminal.send(f"{line}\n".encode())
        shown += terminal.read_to(b"never")
        self.assertEqual((terminal.status(), player.wait(PATIENCE_S)), (0, 0))
        self.assertIn(b"done 4: mill.ngc, 132 bytes, 10 lines\r\n", shown)


class Tutorial(Documents):
    """docs/TUTORIAL.md."""

    def test_tutorial(self) -> None:
        """The program that it shows, and each command, one after the other, with all that it prints."""
        shutil.copy("examples/mill.ngc", "mill.ngc")
        self.assertIn(Path("mill.ngc").read_text(), blocks(chapters("TUTORIAL.md")[""]))
        for title in CHAPTERS["TUTORIAL.md"]:
            for command, output in self.chapter("TUTORIAL.md", title)[1]:
                status = int(command == "ngc-check wrong.ngc --settings mill.toml")
                self.assertEqual(self.shell(command + " 2>&1", status=status), output, command)


class Recovery(Documents):
    """docs/RECOVERY.md."""

    BEFORE, BEGINS, TOLD = (1, 1, 5), (2, 2, -1), (2, 2, -0.99)  # of the half-done block below, in mm

    def half_done(self) -> None:
        """mill.dev in the midst of a hole's way out, segment 3 of its line."""
        self.device()
        self.run_ngc(f"tool 1 0\nload {len(HOLE)}\n{HOLE}start\ntick {OUT + 100}\n")
        shutil.copy("mill.dev", "half.dev")

    def replies(self, commands: str) -> list[str]:
        """What `ngc run` says to commands over a copy of it."""
        shutil.copy("half.dev", "mill.dev")
        return self.run_ngc(commands, "/dev/null")

    def test_recover(self) -> None:
        """A move that was cut off after 1,289 of its pulses, and `recover`."""
        text, ((play, _), (operate, typed)) = self.chapter("RECOVERY.md", "`recover`")
        program = "M3 S1000\nG0 X2 Y1 Z-1\nG1 X4 F600\nM2\n"
        self.device()
        self.run_ngc(f"load {len(program)}\n{program}start\ntick 3300\nquit\n")
        lines = Path("out").read_bytes().splitlines(True)
        self.assertEqual(len(lines), 2002 + 1289)
        source, size = OutFile("out"), sum(map(len, lines[:3202]))
        outputs = Switch(1, 1000_000_000, False, False, 0, 0)
        at_nm = (3_200_000, 1_000_000, -1_000_000)
        kept = Record(f"{self.folder}/out", 3202, size, outputs, at_nm, source.mark(size), age_ms=23)
        source.close()
        Path("position").write_bytes(text_of(kept))
        rehearse = re.search(r"`(ngc-rehearse [^`]*)`", text)[1]
        self.assertEqual(self.shell(rehearse).splitlines()[1:3], [
            "the open segment begins behind line 2002 of out",
            re.search("^back through what.*", typed, re.MULTILINE)[0].join(("recover: ", ""))])
        go = re.search(r"`(player out [^`]*) B`", text.replace("\n", " "))[1]
        line, way = re.search("(?m)^back through .* lines of OUT, to its line (.*): (.* mm) in", typed).groups()
        said = self.shell(f"{go} {line} 2>&1", text="no\n", status=2)
        self.assertIn(f"\nback to line {line} of out: {way} in ", said)
        self.assertEqual(Path("position").read_bytes(), text_of(kept))
        self.begin(play)
        answers = re.findall(r"(?:ngc> |: )(recover|yes|quit)\n", typed)
        shown = re.sub(r"(ngc> |: )(?:recover|yes|quit)\n", r"\1", typed)
        self.assertEqual(self.shell(f"{operate} --ngc {ngc()}", "".join(word + "\n" for word in answers)), shown)

    def test_pipe(self) -> None:
        """A move that was cut off behind the motors is taken up where these stand."""
        _, ((look, _), (play, _), (operate, typed)) = self.chapter("RECOVERY.md", "OUT is a pipe")
        self.device()
        self.run_ngc("load 10\nG0 X12\nM2\nstart\ntick 9000\n")
        os.mkfifo("axis")
        Path("position").write_bytes(text_of(Record(str(self.folder / "axis"), at_nm=(7_200_000, 0, 0))))
        self.assertEqual(self.shell(look), "reference 7.200000 0.000000 0.000000\n")
        player = self.begin(play)
        terminal = self.operate(operate)
        shown = b""
        for line, end in zip(typed.splitlines(True), (b"ngc> ",) * 3, strict=True):
            shown += terminal.read_to(end)
            terminal.send(line.removeprefix("ngc> ").encode())
        for end, answer in ((b"Nothing ends: ", b"600"), (b"anything else ends: ", b"yes"), (b"holds: ", b"yes"),
                            (b"ngc> ", b"quit")):
            shown += terminal.read_to(end)
            terminal.send(answer + b"\n")
        terminal.read_to(b"never")
        self.assertEqual((terminal.status(), player.wait(PATIENCE_S)), (0, 0))
        self.assertIn(b"segment 0 of line 1: G0 X12\r\n", shown)
        self.assertIn(b"idle; X 12.000000 Y 0.000000 Z 0.000000; next line 1 of 2: G0 X12\r\n", shown)
        self.assertEqual(player.stdout.read().splitlines()[-1], "reference 12.000000 0.000000 0.000000")

    def test_recovery(self) -> None:
        """A rehearsal by the tool, and by hand over a copy, with the OUT of the example's resume."""
        _, ((rehearse, _), (copy, _), (run, _)) = self.chapter("RECOVERY.md", "A half-done")
        Path("mill.toml").write_text(Path("first.toml").read_text())
        self.device()
        self.run_ngc("load 22\nM3 S1000\nG0 X0.005\nM2\nstart\ntick 10\n")
        before = Path("mill.dev").read_bytes()
        said = self.shell(rehearse.replace("X Y Z", "0.001 0 0"))
        self.assertTrue(said.startswith(
            "half-done: line 2 of 3: G0 X0.005\n"
            "segment 0 of 1, counted from 0: begins at X 0.000000 Y 0.000000 Z 0.000000\n"
            "first comes on: spindle clockwise at 1000;"))
        self.shell(copy)
        self.shell(run, text="reference 0.001 0 0\nresume\ntick 100\n")
        example = blocks(chapters("RECOVERY.md")["An example"])
        wanted = next(block for block in example if block.startswith("S 1 "))
        self.assertEqual(Path("try.out").read_text(), wanted)
        self.assertEqual(Path("mill.dev").read_bytes(), before)

    def test_example(self) -> None:
        """The example, taken up and given up, to the byte."""
        text = chapters("RECOVERY.md")["An example"]
        begun, taken_up, out, given_up = blocks(text)
        *lines, pulse, switch = re.findall("`([PSD] [^`]*)`", text)
        self.device()
        for name, block in (("begun", begun), ("taken-up", taken_up)):
            typed, answers = spoken(block)
            self.assertEqual(self.run_ngc(typed, name), answers)
            if name == "begun":
                shutil.copy("mill.dev", "half.dev")
        self.assertEqual(Path("begun").read_text().splitlines(), lines)
        self.assertEqual(Path("taken-up").read_text(), out)
        shutil.copy("half.dev", "mill.dev")
        typed, answers = spoken(given_up)
        self.assertEqual(self.run_ngc(typed, "given-up"), answers)
        self.assertIn(f"with `{pulse}` four times and `{switch}`", text)
        self.assertEqual(Path("given-up").read_text().splitlines(), [pulse] * 4 + [switch])

    def test_lost_again(self) -> None:
        """What stands after each loss of power: how the machine is known, its point, the segment."""
        self.half_done()
        told_at = "reference {} {} {}\n".format(*self.TOLD)
        typed = ((told_at, told_at + "resume\n"), (told_at + "resume\ntick 5\n",), (told_at + "resume\ntick 13\n",),
                 (told_at + "resume\ntick 20\n",), ("abandon\n", told_at + "abandon\n"))
        rows = tables(chapters("RECOVERY.md")["A half-done block"])[-1]
        lost = ((text, row) for several, row in zip(typed, rows, strict=True) for text in several)
        for commands, row in lost:
            self.replies(commands)
            self.check_status(self.run_ngc("status\n", "/dev/null")[0], row[1], told_at in commands)

    def check_status(self, said: str, cell: str, is_told: bool) -> None:
        """A status is the one that a cell of that table speaks of; a block that was given up is known where it was
        told of."""
        points = {"before the block": self.BEFORE, "where it begins": self.BEGINS, "that was told": self.TOLD}
        words = re.findall("`(known|unknown|half none)`", cell)
        is_given_up = words[0] == "half none"
        known = words[1 + (not is_told)] if is_given_up else words[0]
        self.assertIn(f" {known} half {'none' if is_given_up else 'program 3'} idle", said, cell)
        for point in (point for phrase, point in points.items() if phrase in cell):
            self.assertIn(" at {:.6f} {:.6f} {:.6f} ".format(*point), said, cell)

    def test_refused(self) -> None:
        """What is taken and refused with a block half-done, before and after `reference`."""
        self.half_done()
        table = tables(chapters("RECOVERY.md")["What is refused, and when"])[0]
        for word, before, cell in ((word, before, cell) for row in table for word in re.findall("`([a-z]+)`", row[0])
                                   for before, cell in (("", row[1]), ("reference 0 0 0\n", row[2]))):
            said = self.replies(before + EXAMPLES[word])[bool(before)]
            fault, answer, is_taken = re.match("([A-Z][0-9])|`(.*)`|(taken|the same)", cell).groups()
            wanted = f"refused {fault} " if fault else answer or "(?!refused)"
            self.assertRegex(said, f"^{wanted}", (word, cell, is_taken))
        self.assertTrue(self.replies("reference 2000 0 0\n")[0].startswith("refused X2 "))

    def test_refused_otherwise(self) -> None:
        """Without a half-done block, and while a program runs."""
        text = chapters("RECOVERY.md")["What is refused, and when"].replace("\n", " ")
        without, while_it_runs = re.search(r"Without one.*?answer (..)\..*?answer (..)\.", text).groups()
        runs = "load 8\nG0 X1\nM2start\ntick 3\n"
        for begin, word, fault in (("", "resume", without), ("", "abandon", without), (runs, "resume", while_it_runs),
                                   (runs, "abandon", while_it_runs), (runs, "reference", while_it_runs)):
            self.device()
            said = self.run_ngc(begin + EXAMPLES[word], "/dev/null")[-1]
            self.assertTrue(said.startswith(f"refused {fault} "), (begin, word, said))


class Machine(Documents):
    """docs/MACHINE.md, and the files for the player."""

    def test_files(self) -> None:
        """The player takes those of its page; of docs/MACHINE.md all but that these pins have no inputs."""
        Path("out").touch()
        tools = blocks(chapters(PLAYER)["Ramps"])
        self.assertEqual([block.split()[0] for block in tools],
                         ["[motion]", "[window]", "[wait]", "[backlash]", "[spindle]"])
        Path("player.toml").write_text("\n".join(tools))
        said = self.shell("player -m player.toml out mill.toml position 2>&1")
        self.assertIn("out: 0 lines carried out", said)
        page = chapters("MACHINE.md")
        parts = blocks(page["Motors"]) + blocks(page["Inputs and home"])
        self.assertEqual([part.split()[0] for part in parts], ["[motion]", "[inputs]", "[home]"])
        Path("player.toml").write_text("\n".join(parts))
        said = self.shell("player -m player.toml out mill.toml position 2>&1", status=2)
        self.assertEqual(said, "player: player.toml: inputs: the pins of this player have none\n")

    def test_goes_on(self) -> None:
        """How far motors go on behind a touch is said of the rates and the acceleration that are shown."""
        text = (DOCS / "MACHINE.md").read_text()
        shown = tomllib.loads("\n".join(block for block in blocks(text) if block.startswith("[")))
        accel = shown["motion"]["accel_mm_s2"][0]
        rates = shown["home"]["fast_mm_min"][0], shown["setter"]["fast_mm_min"]
        said = re.findall(r"v\^2 / 2a, (\S+) mm at (\S+) mm a minute and (\d+) mm/s2", text)
        for (mm, *of), rate in zip(said, rates, strict=True):
            way_mm = (rate / 60) ** 2 / 2 / accel
            self.assertEqual(of, [f"{rate:,}", str(accel)])
            self.assertAlmostEqual(float(mm), way_mm, delta=way_mm / 20)

    def test_pages(self) -> None:
        """What each page is for, of all that README.md names for a machine."""
        named = re.search(r"To run a machine: (.*?)\n\n", chapters("../README.md")["Documents"], re.DOTALL)[1]
        told_of = {row[0] for row in tables(chapters("MACHINE.md")[""])[0]}
        self.assertEqual(set(re.findall(r"\b\w+\.md", named)) - told_of, {"MACHINE.md"})
        self.assertEqual([page for page in told_of if not (DOCS / page).is_file()], [])

    def test_dry(self) -> None:
        """A look at a program without the machine."""
        command = re.search("`(ngc dry [^`]*)`", chapters("MACHINE.md")[""].replace("\n", " "))[1]
        said = self.shell(command.replace("PROGRAM", "examples/mill.ngc").replace("FILE", "mill.toml"))
        self.assertEqual(said, Path("examples/mill.txt").read_text())

    def test_page(self) -> None:
        """docs/PAGE.md: what it begins with, up to the address that is printed; Ctrl-C ends it, and the player that it
        started."""
        (make, _), (fresh, _), page = self.chapter("PAGE.md", "")[1]
        command = "\n".join(page).rstrip()
        Path("player.toml").write_text(blocks(chapters("MACHINE.md")["Motors"])[0])
        self.shell(f"{make}; {fresh}")
        served = subprocess.Popen(["bash", "-c", f"exec {command} --listen 127.0.0.1:0"], env=self.environment,
                                  text=True, stdout=subprocess.PIPE, stderr=subprocess.PIPE)
        self.addCleanup(self._end, served)
        self.assertRegex(served.stdout.readline(), r"^http://127\.0\.0\.1:\d+/[\w-]+/\n$")
        served.send_signal(signal.SIGINT)
        self.assertEqual((served.wait(PATIENCE_S), served.stderr.read()), (2, "ngc-page: stopped\n"))
        self.wait_for("the player has ended", lambda: not os.path.exists("progress"))

    def test_motion(self) -> None:
        """docs/MOTION.md: each line behind its time, the first at once, and how long all of it takes: X goes 5 mm by
        1,000 pulses, a ramp up and one down at 100 mm/s2."""
        lines, total = (command for command, _ in self.chapter("MOTION.md", "")[1])
        Path("player.toml").write_text(blocks(chapters("MACHINE.md")["Motors"])[0])
        Path("out").write_text("P 1 0 0 40\n" * 1000)
        said = [line.split(" ", 1) for line in self.shell(lines).splitlines()]
        self.assertEqual([line for _, line in said], ["P 1 0 0 40"] * 1000)
        self.assertEqual(said[0][0], "0")
        self.assertAlmostEqual(int(self.shell(total)) / 1e9, 2 * (5 / 100) ** 0.5, places=4)


class Others(Documents):
    """The pages beside it."""

    def test_session(self) -> None:
        """docs/SESSION.md: the first session, its answers and pulses, and a program that the shell sends."""
        text, ((make, _), (run, rest), *piped) = self.chapter("SESSION.md", "A first session")
        settings, _, talk, pulses, _ = blocks(text)
        Path("first.toml").write_text(settings)
        self.assertEqual(self.shell(make), "")
        typed, answers = spoken(talk)
        self.assertEqual(self.shell(run, text=typed).splitlines(), answers)
        self.assertEqual(Path("pulses").read_text(), pulses)
        self.assertIn(pulses, blocks(chapters("OUTPUT.md")["The lines"]))
        self.assertTrue(rest.startswith(talk))
        shutil.copy("examples/first.ngc", "part.ngc")
        script = "\n".join(command for command, _ in piped)
        self.assertRegex(self.shell(script + "\nwait"), r"^done 4\nstatus entries 4 place 0 .* half none idle\n$")

    def test_tool_lengths(self) -> None:
        """docs/SESSION.md: a fresh device's first slots, and the pulses by the length that G43 took."""
        text = chapters("SESSION.md")["Tool lengths: `tool N LENGTH`"]
        typed, answers = spoken(blocks(text)[0])
        self.device()
        self.assertEqual(self.run_ngc(typed), answers)
        self.assertEqual(Path("out").read_text(), re.search("`(P [^`]*)` six times", text)[1].join(("", "\n")) * 6)

    def test_given_up(self) -> None:
        """docs/SESSION.md: a run is given up without ending the session, and another program is loaded."""
        text = chapters("SESSION.md")["To give up a run"].replace("\n", " ").partition("Where it answers `held`: ")[2]
        mdi, begun, tick, done, stopped, ticks, load = re.findall("`([^`]+)`", text)
        self.device()
        program = "G0 X0.002\nG0 X0.004\nM2\n"
        said = self.run_ngc(f"load {len(program)}\n{program}start\ntick 5\nhold\n{mdi}\n{tick}\n{load} 3\nM2\n")
        self.assertEqual(said[:5], ["done 1", "going", "done 2", "ticks 5", "held"])
        self.assertEqual(said[5:], [begun, f"{done} 3", stopped, ticks, "done 4"])

    def test_device(self) -> None:
        """docs/SESSION.md: what makes a device where there is none, and what lengthens one."""
        for command, _ in self.chapter("SESSION.md", "The device")[1]:
            Path("mill.dev").unlink(missing_ok=True)
            if " grow " in command:
                self.device()
            self.assertEqual(self.shell(command), "")
            self.assertGreaterEqual(Path("mill.dev").stat().st_size, 875_520)

    def test_post_processor(self) -> None:
        """docs/POST_PROCESSOR.md: the first refused line, every one, what is written for it; a head and an end."""
        text, ((dry, _),) = self.chapter("POST_PROCESSOR.md", "")
        check, adapt, split = _INLINE.findall(text.replace("\n", " "))
        shutil.copy(CAM / "vectric_mach3mm.txt", "part.ngc")
        self.assertEqual(self.shell(dry, status=1).splitlines()[-1], "REFUSED line 11: B4 GroupTwice")
        self.assertRegex(self.shell(check, status=1), r"(?s)^part.ngc:11: B4 .*\npart.ngc:12: B2 ")
        shutil.copy(CAM / "fusion_mach3.tap", "part.nc")
        Path("part.ngc").unlink()
        self.assertIn("+ G53 G0 G91 Z0\n", self.shell(adapt.replace(" Z ", " 0 ")))
        self.assertRegex(self.shell(split), r"^part.ngc: \d+ bytes: ngc run takes it as it is\n$")
        head, end = (blocks(chapters("POST_PROCESSOR.md")[f"The {what} of a program"])[0] for what in ("head", "end"))
        Path("part.ngc").write_text(head + "G1 X1\n" + end)
        self.assertIn("STRAIGHT_FEED(1.000000, 0.000000, 0.000000)\n", self.shell(dry))

    def test_settings(self) -> None:
        """docs/SETTINGS.md: a look at the settings."""
        text = (DOCS / "SETTINGS.md").read_text().replace("\n", " ")
        command = next(command for command in _INLINE.findall(text) if "--settings-only" in command)
        self.assertIn("    traverse  3,000 mm/min\n", self.shell(command))

    def test_read_device(self) -> None:
        """docs/RECOVERY.md and docs/SESSION.md: what was on, and the slots."""
        self.device()
        self.run_ngc("tool 1 50\nmdi M4 S500\ntick 9\n")
        for page in ("RECOVERY.md", "SESSION.md"):
            text = (DOCS / page).read_text().replace("\n", " ")
            command = next(command for command in _INLINE.findall(text) if ".py" in command)
            said = self.shell(command.replace("examples/", str(TOOLS.parent / "examples") + "/"))
            self.assertIn("\nspindle: 2\n", said)
            self.assertIn("\ntool length of slot 1, nm: 50000000\n", said)


if __name__ == "__main__":
    unittest.main()
