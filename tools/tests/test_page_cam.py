"""A CAM system's text on the page: what is changed, what has to be said first, how far a check is, and its end."""
import http.client
import json
import os
import random
import sys
import unittest
from pathlib import Path
from unittest import mock

sys.path.insert(0, str(Path(__file__).resolve().parent))

from page_support import Page, Served, within_seconds
from session_support import FIRST, PATIENCE_S, InFolder, ngc, told, used_s

from ngc_tools.cli.check import main as check
from ngc_tools.formats.device import Device
from ngc_tools.formats.program_text import NotText, ProgramText
from ngc_tools.ngc import beginning
from ngc_tools.page.deeds import BadWords, cam_answers
from ngc_tools.page.findings import Check

CAM = "%\n(<b>)\nG21 G90 G17 G94 G91.1\nG64 P0.01\nG0 X1 Y0 ; to the start\nG2 X2 Y1 R1 F60\nM30\n%\n"
WRITTEN = "%\n(<b>)\nG21 G90 G17 G94\nG64\nG0 X1 Y0 (to the start)\nG2 X2 Y1 I1 J0 F60\nM30\n%\n"
"""An arc of a quarter, from (1, 0) to (2, 1) with the clock, by radius 1: its centre is at (2, 0) or at (1, 1); with
the clock the short way goes round (2, 0)."""
TEXTS = Path(__file__).resolve().parent / "cam"
FIVE = {"fusion_linuxcnc.ngc": (4, 12), "fusion_grbl.nc": (), "freecad_linuxcnc.ngc": (26,),
        "07_vcarve_mach_arcs_in.txt": (11, 12), "estlcam.nc": ()}
"""Texts of five CAM systems, and which lines are written otherwise: none where `ngc` takes it as it is."""
PROSE = "<p class='a'>The quick brown fox (jumps) over\nthe lazy dog, and so does each of the others.\n"
HOMES = "G21 G90 G17 G94 G91.1\nG91 G28 Z0\nG28 X0 Y0\nG90 T201 M6\nG0 X1\nM30\n"


class Cam(Served):
    """Over a page."""

    def look(self, page: Page, text: str | bytes, **headers: str) -> dict:
        """What a check finds."""
        data = text.encode() if isinstance(text, str) else text
        status, found = page.post("check", data, X_Name="part.nc", Content_Type="application/octet-stream", **headers)
        self.assertEqual(status, 200, found)
        return found

    def stored(self) -> str:
        """The program on the device."""
        return Device.read("mill.dev").program.decode()

    def test_adapted(self) -> None:
        """Each line that is written otherwise is shown, and the text as it is written is loaded, and drawn."""
        page = self.page()
        found = self.look(page, CAM)
        self.assertEqual([(one["line"], one["before"], one["after"]) for one in found["adapted"]["changes"]], [
            (3, "G21 G90 G17 G94 G91.1", "G21 G90 G17 G94"), (4, "G64 P0.01", "G64"),
            (5, "G0 X1 Y0 ; to the start", "G0 X1 Y0 (to the start)"), (6, "G2 X2 Y1 R1 F60", "G2 X2 Y1 I1 J0 F60")])
        self.assertTrue(all(one["why"] for one in found["adapted"]["changes"]))
        self.assertEqual((found["refusals"], found["adapted"]["needs"], found["unreadable"]), ([], [], ""))
        drawn = page.post("draw", b"", X_Checked=found["id"], Content_Type="application/octet-stream")
        self.assertEqual((drawn[0], drawn[1]["refused"], len(drawn[1]["steps"])), (200, None, 2))
        self.assertEqual(page.post("load", {"id": found["id"]}), (200, {"taken": True}))
        self.assertEqual(self.stored(), WRITTEN)
        self.assertEqual(page.rested()["program"]["name"], "part.nc, adapted")
        self.assertEqual(page.post("draw", b"", X_Checked="0", Content_Type="x/y")[0], 410)

    def test_as_it_is(self) -> None:
        """What `ngc` takes isn't adapted, also where it could be; what isn't cured is refused as before."""
        page = self.page()
        found = self.look(page, "G17 G21 G90 G94\nG91 G28 Z0\nG90\nM2\n")
        self.assertEqual((found["adapted"], found["refusals"]), (None, []))
        self.assertIn("G28 moves all three axes", found["warnings"][0]["what"])
        found = self.look(page, "G17 G21 G90 G94\nG1 X1 Q2 F10\nM2\n")
        self.assertEqual((found["adapted"], [one["code"] for one in found["refusals"]]), (None, ["B12"]))
        found = self.look(page, "G17 G21 G90 G94 G91.1\nG1 X1 Q2 F10\nM2\n")  # one of two
        self.assertEqual(([one["line"] for one in found["adapted"]["changes"]],
                          [(one["line"], one["code"]) for one in found["refusals"]]), ([1], [(2, "B12")]))

    def test_needs(self) -> None:
        """A height, a place and a slot that the text doesn't say are asked for, all at once, and nothing is guessed."""
        page = self.page()
        page.post("tool", {"slot": 1, "length": "5"})
        found = self.look(page, HOMES)
        self.assertEqual(found["adapted"]["needs"], [
            {"what": "lift", "tool": 0, "line": "line 2: G91 G28 Z0"},
            {"what": "park", "tool": 0, "line": "line 3: G28 X0 Y0"},
            {"what": "tool", "tool": 201, "line": "line 4: G90 T201 M6"}])
        answers = {"lift": "-1.5", "park": ["2", "3"], "tools": {"201": 1}}
        found = self.look(page, HOMES, X_Answers=json.dumps(answers))
        self.assertEqual([one["after"] for one in found["adapted"]["changes"]], [
            "G21 G90 G17 G94", "G91 G53 G0 Z-1.5", "G53 G0 X2 Y3", "G90 T1 M6"])
        self.assertEqual(found["refusals"], [])
        for bad in ("[]", "{", '{"lift": 1}', '{"park": ["1"]}', '{"tools": {"201": 129}}', '{"tools": {"x": 1}}',
                    '{"tools": {"201": true}}', '{"lift": "1e3"}'):
            with self.assertRaises(BadWords, msg=bad):
                cam_answers(bad)
        self.assertEqual(page.post("check", b"M2\n", X_Answers="[]", Content_Type="x/y")[0], 422)

    def test_ended(self) -> None:
        """Its own page is told how far a check has come, which grows. The check, and all that it started, ends within a
        second once the connection that asked for it is gone."""
        page = self.page()
        text = b"G17 G21 G90 G94\n" + b"G1 X1 F600\nG1 X0\n" * 20_000 + b"M2\n"
        asking = http.client.HTTPConnection("127.0.0.1", page.port, timeout=PATIENCE_S)
        asking.request("POST", f"/{page.key}/check", text, page.given() | {"X-Name": "long.nc"})
        seen: list[dict] = []

        def has_grown() -> bool:
            if (found := page.post("checking")[1]["told"]) and found not in seen:
                seen.append(found)
            return len(seen) > 3

        self.wait_for("it tells again and again", has_grown)
        self.assertEqual(seen, sorted(seen, key=lambda one: (one["what"], one["done"] / one["of"])))  # lines, warnings
        self.assertTrue(all(one["done"] < one["of"] for one in seen))
        self.assertEqual(self.page("page-number-2").post("checking"), (200, {"told": None}))
        (forks,) = set(self.started_by(self.server.pid)) - set(self.children())
        (child,) = self.started_by(forks)
        self.wait_for("it asks ngc", lambda: bool(self.started_by(child)))
        with within_seconds(1):
            asking.close()
            self.wait_for("it is ended", lambda: page.post("checking") == (200, {"told": None}))
            self.wait_for("all of it is", lambda: not self.has_group(child))
        self.look(page, "M2\n")

    @staticmethod
    def started_by(pid: int) -> list[int]:
        """The processes that a process started, and that go on."""
        lists = Path(f"/proc/{pid}/task").glob("*/children")
        return [int(child) for path in lists for child in path.read_text().split()]

    @staticmethod
    def has_group(pid: int) -> bool:
        """Whether a process goes on of those that this one led."""
        try:
            os.killpg(pid, 0)
        except ProcessLookupError:
            return False
        return True

    def test_no_stop(self) -> None:
        """Where a player asks for each tool nobody is warned that the program doesn't stop for it."""
        page = self.page()
        for slot in "12":
            page.post("tool", {"slot": int(slot), "length": "0"})
        text = "G17 G21 G90 G94 G49 G98\nT1 M6\nG0 X1 Y1 Z1\nT2 M6\nG0 X0\nM2\n"
        self.assertEqual(self.look(page, text)["warnings"], [])


class Checked(InFolder):
    """What is found of a text, over a device."""

    def setUp(self) -> None:
        """A device with two tools."""
        super().setUp()
        self.device()
        self.run_ngc("tool 1 20\ntool 2 20\n")

    def check(self) -> Check:
        """What a page asks with a text."""
        return Check(ngc(), "first.toml", Path("mill.dev").read_bytes(), False)


class Texts(Checked):
    """Raw texts of CAM systems."""

    def test_five(self) -> None:
        """Each that `ngc` refuses is offered as it is written for it, with each changed line, and no line of it is
        refused then; of others nothing is changed."""
        Path("first.toml").write_text(FIRST.replace("[50000000]", "[50000000, 50000000]"))
        for name, lines in FIVE.items():
            raw = (TEXTS / name).read_text()
            wanted = Path(f"{TEXTS / name}.expected").read_text() if lines else raw
            found, text = self.check().find(raw.encode())
            changes = (found["adapted"] or {"changes": []})["changes"]
            self.assertEqual((text.decode(), found["refusals"], found["unreadable"]), (wanted, [], ""), name)
            self.assertEqual([(one["line"], one["before"], one["after"]) for one in changes],
                             [(line, raw.splitlines()[line - 1], wanted.splitlines()[line - 1]) for line in lines])
            self.assertTrue(all(one["why"] for one in changes), name)

    def test_long(self) -> None:
        """One of FreeCAD with 100 arcs, 3,100 lines, takes less than a second of processor time on a quiet machine, and
        tells again and again how far that is."""
        *lines, end = (TEXTS / "freecad_linuxcnc.ngc").read_text().splitlines(True)
        told: dict[str, list[float]] = {}

        def tell(what: str, done: int, of: int) -> None:
            told.setdefault(what, []).append(done / of)

        begun_s = used_s()
        found, _ = self.check().find("".join([*lines * 100, end]).encode(), tell)
        self.assertLess(used_s() - begun_s, 4)
        self.assertEqual((found["refusals"], found["adapted"]["count"]), ([], 100))
        self.assertEqual(list(told), ["adapt", "lines", "warnings"])
        self.assertEqual({what: sorted(set(shares)) for what, shares in told.items()}, told)  # it grows
        for what in ("adapt", "warnings"):
            self.assertEqual((len(told[what]) > 5, 0.8 < told[what][-1] <= 1), (True, True), told[what])


class Garbage(Checked):
    """What is no program is told as that after a few dry runs."""

    def found(self, data: bytes) -> tuple[str, int, int]:
        """Why it is no program, how many lines are told, and how many dry runs that took."""
        runs = mock.Mock(side_effect=beginning.dry)
        with mock.patch.object(beginning, "dry", runs):
            found, _ = self.check().find(data)
        return found["unreadable"], len(found["refusals"]), runs.call_count

    def test_bytes(self) -> None:
        """Bytes by chance, of which `ngc-check` says the same."""
        data = random.Random(3).randbytes(3000)
        why, lines, runs = self.found(data)
        self.assertRegex(why, r"^it isn't a text: \d+ of its first 3,000 bytes are control characters$")
        self.assertEqual((lines, runs), (0, 0))
        Path("garbage").write_bytes(data)
        self.assertEqual(told(check, "garbage", "--ngc", ngc()), (2, "", f"ngc-check: garbage: {why}\n"))

    def test_prose(self) -> None:
        """Words that aren't G-code; a text with a few such lines is looked at."""
        why, lines, runs = self.found(400 * PROSE.encode())
        self.assertEqual((why, lines), ("it isn't G-code: ngc can read hardly any of its first lines", 0))
        self.assertLess(runs, 30)
        few = b"".join(b"G0 X%d\n" % number for number in range(20))
        self.assertEqual(self.found(b"what is this?\n" + few + b"M2\n")[:2], ("", 1))

    def test_soon(self) -> None:
        """It takes less than a second of processor time, however long it is: on the page, which takes a mebibyte, and
        of a file of 100 MB."""
        prose = 2**20 // len(PROSE) * PROSE
        for name, mark, data in (("bytes", b"", random.Random(3).randbytes(2**20)), ("prose", b"", prose.encode()),
                                 ("UTF-16", b"\xff\xfe", prose.encode("utf-16-le")),
                                 ("carriage returns", b"", prose.replace("\n", "\r").encode())):
            with self.subTest(name):
                Path("garbage").write_bytes(mark + 10**8 // len(data) * data)
                begun_s = used_s()
                for size in (3000, 2**20):
                    self.assertRegex(self.check().find((mark + data)[:size])[0]["unreadable"], "^(it|its lines) ")
                between_s = used_s()
                self.assertEqual(told(check, "garbage", "--ngc", ngc())[0], 2)
                self.assertLess(max(between_s - begun_s, used_s() - between_s), 1)

    def test_long_line(self) -> None:
        """A line of more pieces than a line of words has isn't tried piece by piece."""
        why, lines, runs = self.found(b"G0 X1\n" * 30 + b"a" * 250 + b"\nM2\n")
        self.assertEqual((why, lines), ("", 1))
        self.assertLess(runs, 40)

    def test_texts(self) -> None:
        """A few control characters make no text garbage; UTF-16 is one."""
        self.assertEqual(ProgramText.read(b"\0\0\x1bG0 X1\n\x1a").lines, ("\0\0\x1bG0 X1",))
        self.assertEqual(ProgramText.read("\ufeffG0 X1\n".encode("utf-16-le")).lines, ("G0 X1",))
        with self.assertRaises(NotText):
            ProgramText.read(bytes(100))


if __name__ == "__main__":
    unittest.main()
