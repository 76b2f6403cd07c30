"""A folder of programs on the page: which are listed, what is refused by name, times and pictures, the last run, the
record of runs; and in a browser the list, what is said by the browser itself, and the screen that stays on."""
import json
import os
import subprocess
import sys
import tempfile
import unittest
from pathlib import Path
from xml.etree import ElementTree

sys.path.insert(0, str(Path(__file__).resolve().parent))

import test_page_browser
from page_support import Served
from session_support import ngc

from ngc_tools.formats.settings import DEFAULT
from ngc_tools.job.moves import CUT, TRAVERSE, Move
from ngc_tools.job.thumbnail import thumbnail
from ngc_tools.page.drawing import DrawingRequest
from ngc_tools.page.jobs import Folder, JobFile, NoJob, summary_of

SQUARE = "G21 G90 G17 G54 G94 G49\nG0 X0 Y0\nG1 X10 F600\nY10\nX0\nY0\nM2\n"
"""40 mm at 10 mm a second."""


class Folders(unittest.TestCase):
    """Which files are given out."""

    maxDiff = None

    def files(self) -> dict[str, JobFile]:
        """Those of the folder, by their names for people."""
        return {file.shown: file for file in Folder(Path("jobs")).files()}

    def setUp(self) -> None:
        """A folder with odd things in it."""
        folder = tempfile.TemporaryDirectory(prefix="ngc-tools-")
        self.addCleanup(folder.cleanup)
        before = os.getcwd()
        os.chdir(folder.name)
        self.addCleanup(os.chdir, before)
        Path("jobs/within").mkdir(parents=True)
        Path("secret.ngc").write_text("secret")
        for name in ("b.ngc", "a part.NC", ".hidden.ngc", "picture.png", "within/c.ngc"):
            Path("jobs", name).write_text(SQUARE)

    def test_listed(self) -> None:
        """Programs of the folder itself, by name."""
        self.assertEqual([(name, file.size, file.why) for name, file in self.files().items()],
                         [("a part.NC", len(SQUARE), ""), ("b.ngc", len(SQUARE), "")])

    def test_refused(self) -> None:
        """Links that lead out, huge files, names with odd characters, what is no file: each by its name."""
        os.symlink("../secret.ngc", "jobs/link.ngc")
        os.symlink("within/c.ngc", "jobs/deep.ngc")
        os.symlink("b.ngc", "jobs/near.ngc")
        os.symlink("gone.ngc", "jobs/dead.ngc")
        os.symlink("/dev/zero", "jobs/zero.ngc")
        os.mkfifo("jobs/pipe.ngc")
        os.mkdir("jobs/folder.ngc")
        Path("jobs/line\nbreak.ngc").write_text(SQUARE)
        Path(os.fsdecode(b"jobs/\xff.ngc")).write_text(SQUARE)
        Path("jobs", f"{'n' * 77}.ngc").write_text(SQUARE)
        with open("jobs/huge.ngc", "wb") as file:
            file.truncate(1_048_577)
        Path("jobs/largest.ngc").write_bytes(b" " * 1_048_576)
        files = self.files()
        why = {name: file.why for name, file in files.items() if file.why}
        self.assertEqual(why, {
            "link.ngc": "a link that leads out of the folder", "deep.ngc": "a link that leads out of the folder",
            "dead.ngc": "No such file or directory",
            "zero.ngc": "no file, but a terminal or a line to a machine", "pipe.ngc": "no file, but a pipe",
            "folder.ngc": "Is a directory", "huge.ngc": "a program has at most 1,048,576 bytes: ngc-split parts it",
            r"line\nbreak.ngc": "a name has at most 80 characters, all of them printable: rename it",
            r"\xff.ngc": "a name has at most 80 characters, all of them printable: rename it",
            f"{'n' * 77}.ngc": "a name has at most 80 characters, all of them printable: rename it"})
        folder = Folder(Path("jobs"))
        for name in why:
            with self.assertRaises(NoJob):
                folder.read(files[name])
        self.assertEqual(folder.read(files["near.ngc"]), SQUARE.encode())
        with self.assertRaises(NoJob):
            folder.by("../secret.ngc")

    def test_became_a_link(self) -> None:
        """A file that became a link since it was listed isn't read."""
        file = self.files()["b.ngc"]
        os.unlink("jobs/b.ngc")
        os.symlink("../secret.ngc", "jobs/b.ngc")
        with self.assertRaises(NoJob):
            Folder(Path("jobs")).read(file)


class Pictures(unittest.TestCase):
    """The small picture."""

    def test_square(self) -> None:
        """A square of 10 mm fills the height; what is cut is drawn, no traverse, and no line of no length."""
        mm = 1_000_000
        points = [(0, 0, 0), (10 * mm, 0, 0), (10 * mm, 10 * mm, 0), (0, 10 * mm, 0), (0, 0, 0)]
        steps = [Move(TRAVERSE, ((-99 * mm, 0, 0), (0, 0, 0))), *(Move(CUT, pair) for pair in zip(points, points[1:]))]
        root = ElementTree.fromstring(thumbnail(steps))
        path = root.find("{http://www.w3.org/2000/svg}path").get("d")
        # 120 pixels less 6 on each side are 108 for 10 mm; a hundred units a pixel
        self.assertEqual(path, "M600 11400 11400 11400 11400 600 600 600 600 11400")
        self.assertIsNotNone(ElementTree.fromstring(thumbnail([])))

    def test_bounded(self) -> None:
        """A long program's picture stays small."""
        points = [((number * 7919) % 100_000_000, (number * 104_729) % 100_000_000, 0) for number in range(90_000)]
        self.assertLess(len(thumbnail([Move(CUT, tuple(points))])), 400_000)


class FromFolder(Served):
    """A page of a folder of programs."""

    JOBS = "jobs"

    def begin_player(self) -> None:
        """The programs."""
        Path("jobs").mkdir(exist_ok=True)
        Path("jobs/square.ngc").write_text(SQUARE)
        Path("jobs/wrong.ngc").write_text("G0 X1\nG99.5\nM2\n")
        super().begin_player()

    def listed(self, page) -> dict[str, dict]:
        """The list."""
        return {job["name"]: job for job in json.loads(page.get("jobs")[1])["jobs"]}

    def test_list(self) -> None:
        """Times and pictures come; what is refused says which line; a text is given out by its number alone."""
        page = self.page()
        self.assertTrue(page.rested()["jobs"])
        self.wait_for("all is known", lambda: not any(job["pending"] for job in self.listed(page).values()))
        square, wrong = self.listed(page).values()
        self.assertEqual((square["us"], square["ramps"], square["bytes"], square["failed"], square["last"]),
                         (4_000_000, False, len(SQUARE), "", ""))
        self.assertIn("line 2: B2", wrong["failed"])
        status, text, headers = page.get(f"jobpicture?id={square['id']}")
        self.assertEqual((status, headers["Content-Type"]), (200, "image/svg+xml"))
        self.assertEqual(ElementTree.fromstring(text).tag, "{http://www.w3.org/2000/svg}svg")
        self.assertEqual(page.get(f"jobtext?id={square['id']}")[:2], (200, SQUARE.encode()))
        for ident in ("", "../first.toml", "first.toml", "square.ngc", "%00", wrong["id"][:-1]):
            self.assertEqual(page.get(f"jobtext?id={ident}")[0], 422, ident)

    def test_last_run(self) -> None:
        """A run stands in the list, and in the record, which ends with the last line."""
        page = self.page()
        found = page.post("check", SQUARE.encode(), X_Name="square.ngc", Content_Type="application/octet-stream")[1]
        page.post("load", {"id": found["id"]})
        page.post("loss", {"goes": True})
        page.post("run")
        page.until("it is through", lambda s: s["finished"] and not s["busy"])
        last = self.listed(page)["square.ngc"]["last"]
        self.assertRegex(last, r"^20\d\d-\d\d-\d\d \d\d:\d\d ended, through, after 0:")
        lines = json.loads(page.get("runs")[1])["lines"]
        self.assertEqual([line.split()[3] for line in lines], ["loaded", "began", "ended,"])

    def test_no_folder(self) -> None:
        """What is no folder is refused as the page is started; a folder that is gone says so."""
        done = self.tool("ngc-page", "mill.dev", "first.toml", "axis", "--jobs", "first.toml", "--ngc", ngc())
        self.assertEqual((done.returncode, done.stderr.strip().splitlines()[-1]),
                         (2, "ngc-page: error: first.toml: --jobs takes a folder of programs"))
        for name in os.listdir("jobs"):
            os.unlink(f"jobs/{name}")
        os.rmdir("jobs")
        self.assertEqual(self.page().get("jobs")[0], 422)


class ToMachine(Served):
    """A page of a folder, of a machine whose motors are known."""

    JOBS = "jobs"
    MACHINE = "[motion]\naccel_mm_s2 = [500, 500, 500]\n"

    def begin_player(self) -> None:
        """A cut of 10 mm at 10 mm a second."""
        Path("jobs").mkdir(exist_ok=True)
        Path("jobs/cut.ngc").write_text("G17 G21 G90 G94\nG1 X10 F600\nM2\n")
        super().begin_player()

    def test_ramps(self) -> None:
        """The list has its time with ramps: a second, and a fiftieth in which its motors come to 10 mm a second."""
        page, found = self.page(), {}

        def is_known() -> bool:
            found.update(json.loads(page.get("jobs")[1])["jobs"][0])
            return not found["pending"]

        self.wait_for("its time is known", is_known)
        self.assertTrue(found["ramps"])
        self.assertAlmostEqual(found["us"], 1_020_000, delta=1_000)


class WithRamps(unittest.TestCase):
    """Times."""

    def test_about(self) -> None:
        """By length and rate: 40 mm at 600 mm a minute, and a dwell."""
        with tempfile.TemporaryDirectory() as folder:
            settings, device = Path(folder, "first.toml"), Path(folder, "mill.dev")
            settings.write_text(DEFAULT.text())
            subprocess.run([ngc(), "format", device], check=True)
            text = SQUARE.replace("M2", "G4 P1.5\nM2").encode()
            found = summary_of(DrawingRequest(ngc(), str(settings), "", device.read_bytes(), True, False, text))
            self.assertEqual((found.us, found.is_whole, found.ramps_us), (5_500_000, True, None))


MOCKED = """(() => {
    window.calls = []; window.kept = [];
    window.Notification = class {
        static permission = 'default';
        static async requestPermission() { Notification.permission = 'granted'; return 'granted'; }
        constructor(title, { body }) { window.calls.push([title, body]); }
        close() {}
    };
    document.hasFocus = () => false;
    Object.defineProperty(navigator, 'wakeLock', { value: { request: async kind => {
        window.kept.push(kind);
        return { addEventListener() {}, release: async () => { window.kept.push('released'); } };
    } } });
})()"""
"""What the browser does for calls, kept."""


class InBrowser(test_page_browser.InBrowser):
    """The list by touch, and what calls somebody."""

    JOBS = "jobs"

    def begin_player(self) -> None:
        """The programs."""
        Path("jobs").mkdir(exist_ok=True)
        Path("jobs/square.ngc").write_text(SQUARE.replace("X10 F600", "X0.4 F60").replace("Y10", "M0 (turn it)"))
        Path("jobs/name <img src=x onerror=alert(1)>.ngc").write_text(SQUARE)
        os.symlink("../first.toml", "jobs/out.ngc")
        super().begin_player()

    def test_jobs(self) -> None:
        """A program is chosen from the folder, looked at, loaded and run; the record has it."""
        browser = self.browser
        browser.open_with(MOCKED, self.address)
        browser.press("Load", "#load")
        browser.wait("document.querySelectorAll('#over .jobs button').length === 3")
        browser.wait("[...document.querySelectorAll('#over .jobs button:enabled img')].every(one => one.naturalWidth)")
        self.look("the jobs")
        says = browser.js("[...document.querySelectorAll('#over .jobs button')].map(one => [one.querySelector('b')"
                          ".textContent, one.querySelector('small').textContent, one.disabled])")
        self.assertEqual(says[0], ["name <img src=x onerror=alert(1)>.ngc", "58 bytes, about 4.0 s", False])
        self.assertEqual(says[1], ["out.ngc", "a link that leads out of the folder", True])
        browser.press("square.ngc", "#over .jobs button")
        browser.wait("document.querySelector('#over h1').textContent === 'Load square.ngc'")
        browser.press("Load", "#over .foot button")
        browser.wait("ngc.state.program.name === 'square.ngc' && ngc.job && !ngc.state.busy")
        browser.press("Setup", "nav button")
        browser.press("Tell me at a stop", "#tab-setup button")
        browser.wait("!document.querySelector('#tab-setup').textContent.includes('Tell me at a stop') || "
                     "Notification.permission === 'granted'")
        browser.press("Run", "#run")
        browser.wait("ngc.state.does === 'stopped' && !ngc.state.busy")
        browser.wait("window.calls.length === 1 && window.kept.length === 2")
        self.assertEqual(browser.js("window.calls[0]"), ["Stopped", "turn it"])
        self.assertEqual(browser.js("window.kept"), ["screen", "released"])
        browser.press("Continue", "#run")
        browser.wait("ngc.state.finished && window.calls.length === 2")
        self.assertEqual(browser.js("window.calls[1]"), ["The job is done", "square.ngc"])
        browser.press("Log", "nav button")
        browser.press("Record of runs", "#runs")
        browser.wait("document.querySelector('#over pre').textContent.includes('began square.ngc')")
        self.look("the record")
        self.no_complaints()


if __name__ == "__main__":
    unittest.main()
