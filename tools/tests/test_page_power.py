"""The page after a loss of power: what was never cut, and the steps back to the job, at many moments of it."""
import json
import os
import signal
import subprocess
import sys
import time
import unittest
from collections.abc import Callable
from pathlib import Path
from unittest.mock import patch

sys.path.insert(0, str(Path(__file__).resolve().parent))

from page_support import OTHER, SHORT, SLOW, Page, Served
from player_support import built, preloaded
from session_support import InFolder, ngc

from ngc_tools.cli.page import Opener, make_parser
from ngc_tools.failure import Failure
from ngc_tools.files import NotWritten
from ngc_tools.job.moves import CUT, TRAVERSE, Move
from ngc_tools.ngc.carried import CannotTell
from ngc_tools.ngc.console import Console
from ngc_tools.ngc.handed_out import Finder
from ngc_tools.page.aside import Aside, NotDone
from ngc_tools.page.face import LOOKS, PageFace
from ngc_tools.page.losses import Loss, Losses
from ngc_tools.page.never_cut import LossRequest, NeverCutSearch, found
from ngc_tools.page.rehearse import finished, rehearse
from ngc_tools.page.session import PageSession
from ngc_tools.link.progress import NoAnswer, Report

BACK = "G21 G90 G94\nG1 X0.01 F60\nX0\nX0.02\nM2\n"
"""Ten pulses on, ten back, and twenty on."""
CHANGE = "G17 G21 G90 G94\nG1 X0.02 F60\nT2 M6\n" + "G1 X0.04 F3\nG1 X0.02\n" * 20 + "M2\n"
"""Behind a tool change twenty pulses on and twenty back, again and again, 0.4 s each."""
SLOWER = SLOW.replace("F3", "F0.3")
"""Five pulses a second: 100 lines in hand last twenty seconds."""
TOOLS = "G17 G21 G90 G94\nT1 M6\nG1 X0.1 F60\nT2 M6\nG1 X0.2\nM2\n"
JOB = "G17 G21 G90 G94\nM3 S100\nG0 X0.4\nG1 Z-0.4 F600\nX1.2\nG2 X0.4 Y0.8 I-0.8 F900\nG1 X0 Y0\nM2\n"
"""7,200 pulses: a traverse, a plunge, lines, an arc."""


class Found(InFolder):
    """What is found in the log, for a place of the motors."""

    def setUp(self) -> None:
        """A device."""
        super().setUp()
        self.device()

    def lose_power(self, program: str, at: str, block_delete: str = "off") -> None:
        """Power is lost in the line of a program that begins so."""
        console = Console(ngc(), "mill.dev", "first.toml", "out")
        self.addCleanup(console.kill)
        console.load(program.encode())
        console.ask(f"delete {block_delete}")
        console.ask("start")
        while console.status().place != program.index(at) or console.status().half == "none":
            console.ask("tick 1")
        console.kill()
        self.image = Path("mill.dev").read_bytes()

    def lost(self, x: str, ahead: int) -> tuple[int, int]:
        """How many lines at most, and at least."""
        lost = Finder(ngc(), "first.toml", self.image).never_cut([x, "0.000000", "0.000000"], ahead)
        self.assertEqual(lost.text.count(b"\n"), lost.most)
        return lost.most, lost.least

    def test_places(self) -> None:
        """Where the path comes to the place more than once, the first of those counts that OUT could be ahead of."""
        self.lose_power(BACK, "X0.02")
        for x, ahead, lost in (("0.004000", 100, (16, 0)), ("0.004000", 10, (4, 0)), ("0.010000", 100, (10, 0)),
                               ("0.015000", 100, (0, 0))):
            self.assertEqual(self.lost(x, ahead), lost, (x, ahead))
        with self.assertRaises(CannotTell):
            self.lost("0.021000", 100)

    def test_words(self) -> None:
        """What is said of it, and its points."""
        self.lose_power(BACK, "X0.02")
        for x, lines, ends, words in (
                ("0.004000", 4, [[4, 0, 0], [0, 0, 0]], "NEVER CUT: 4 lines handed out before the half-done segment,"
                 " 0.004 mm, which no motor carried out"),
                ("0.015000", 0, [], "This loss of power left nothing uncut before the half-done segment")):
            told = found(LossRequest(ngc(), "first.toml", self.image, [x, "0.000000", "0.000000"], 10))
            self.assertEqual((told["lines"], told["points"][:1] + told["points"][-1:]), (lines, ends))
            self.assertIn(words, told["words"])

    def test_in_hand(self) -> None:
        """What the player has in hand isn't lost as long as it has it, and then as much as it let go of."""
        self.lose_power(BACK, "X0.02")
        at = ["0.004000", "0.000000", "0.000000"]
        for carried, lines in ((24, 0), (16, 4)):
            search = NeverCutSearch(Here(), PageFace())
            asked = LossRequest(ngc(), "first.toml", self.image, ["0.008000", *at[1:]], 100)
            search.begin(Losses("mill.dev"), BACK.encode(), asked, Report(12, 24, True, "0.008 0 0", "axis"))
            search.look(Report(13, 24, False, "0.007 0 0", "axis"))
            self.assertIsNone(search.awaited())
            search.look(Report(carried, carried, False, " ".join(at), "axis"))
            self.assertEqual((search.awaited()["lines"], Path("mill.dev.never-cut").exists()), (lines, lines > 0))

    def search(self, image: bytes, report: Report) -> NeverCutSearch:
        """What a server that begins finds, with its device and the player as they are then."""
        search = NeverCutSearch(Here(), PageFace())
        asked = LossRequest(ngc(), "first.toml", image, report.at.split(), 100)
        search.begin(Losses("mill.dev"), BACK.encode(), asked, report)
        return search

    def test_in_hand_over_kills(self) -> None:
        """What the player has in hand over kills of the server is told once it let go of it, after any number of them,
        and also where one came before it was told. Nobody knows then how much that was: it is told by the place alone.
        """
        self.lose_power(BACK, "X0.02")
        in_hand, let_go = (Report(carried, 24 if behind else carried, behind, f"0.00{x} 0 0", "axis")
                           for carried, behind, x in ((12, True, 8), (16, False, 4)))
        for report in (in_hand, in_hand, in_hand, let_go, let_go):
            with patch.object(Here, "begin", side_effect=NotDone("the server is killed")):
                self.assertFalse((self.search(Path("mill.dev").read_bytes(), report).awaited() or {}).get("lines"))
            self.run_ngc("quit\n")
        told = self.search(Path("mill.dev").read_bytes(), let_go).awaited()
        self.assertEqual((told["lines"], Path("mill.dev.asked").exists()), (16, False), told)
        self.assertIn("so it may be as few as 0", told["words"])

    def test_given_up(self) -> None:
        """Once the program is loaded anew, or the block is given up, the device isn't kept."""
        self.lose_power(BACK, "X0.02")
        report = Report(12, 24, True, "0.008 0 0", "axis")
        self.search(self.image, report).forget()
        self.assertFalse(Path("mill.dev.asked").exists())
        self.search(self.image, report)
        self.assertTrue(Path("mill.dev.asked").exists())
        self.run_ngc("abandon\nquit\n")
        self.search(Path("mill.dev").read_bytes(), report)
        self.assertFalse(Path("mill.dev.asked").exists())

    def test_block_delete(self) -> None:
        """Lines with a slash that were left out aren't on the path."""
        self.lose_power("G21 G90 G94\n/G1 Y0.02 F60\nG1 X0.04 F60\nX0.06\nM2\n", "X0.06", "on")
        self.assertEqual(self.lost("0.030000", 100), (10, 10))


class Finished(unittest.TestCase):
    """What counts as cut where the way back is looked at."""

    def test_finished(self) -> None:
        """Not what a loss of power left uncut, whose first move may be cut in part; nor traverses."""
        moves = [Move(CUT, ((0, 0, 0), (1000, 0, 0))), Move(TRAVERSE, ((1000, 0, 0), (2000, 0, 0))),
                 Move(CUT, ((2000, 0, 0), (900_000, 0, 0)))]
        for lost, points in ((None, [moves[0].points, moves[2].points]),
                             (((500_000, 0, 0), 400_000), [moves[0].points, ((2000, 0, 0), (500_000, 0, 0))]),
                             (((9_000_000, 0, 0), 400_000), [moves[0].points]),
                             (((9_000_000, 0, 0), 900_000), [])):
            self.assertEqual([move.points for move in finished(moves, lost)], points, lost)


# The disk of FILE is full while the file `full` is there, for `ngc` alone, behind one byte more.
FULL = r"""#define _GNU_SOURCE
#include <dlfcn.h>
#include <errno.h>
#include <string.h>
#include <sys/stat.h>
#include <sys/statvfs.h>
#include <unistd.h>
ssize_t write(int file, const void *text, size_t size) {
    static int is_full;
    struct stat what, out;
    ssize_t (*real)(int, const void *, size_t) = dlsym(RTLD_NEXT, "write");
    if (strcmp(program_invocation_short_name, "ngc") != 0 || access("full", F_OK) != 0 || fstat(file, &what) != 0
        || stat("FILE", &out) != 0 || what.st_ino != out.st_ino) {
        return real(file, text, size);
    }
    is_full++;
    errno = ENOSPC;
    return is_full > 1 ? -1 : real(file, text, 1);
}
int statvfs64(const char *path, struct statvfs64 *found) {
    int (*real)(const char *, struct statvfs64 *) = dlsym(RTLD_NEXT, "statvfs64");
    int result = real(path, found);
    found->f_bavail = access("full", F_OK) == 0 ? 0 : found->f_bavail;
    return result;
}
"""


class FullDisk(InFolder):
    """A disk is full in the midst of a job: it is named, and once there is room again the page's button leads on, with
    the player that goes on."""

    def begin(self, file: str) -> tuple[Page, subprocess.Popen]:
        """A page, and the player, where the disk of a file gets full."""
        self.device()
        Path("out").touch()
        words = (*("--follow", "--untimed", "--no-ask-tool", "--pins", "pins", "--progress", "progress"), "out",
                 "first.toml", "position")
        player = self.started(built("-O2"), *words)
        self.wait_for("the player listens", lambda: os.path.exists("progress"))
        with patch.dict(os.environ, preloaded("disk", FULL.replace("FILE", file))):
            server = self.start("ngc-page", "mill.dev", "first.toml", "out", "--player", "progress", "--ngc", ngc(),
                                "--listen", "127.0.0.1:0")
        page = Page(server.stdout.readline().strip())
        self.addCleanup(page.close)
        page.rested()
        return page, player

    def test_device(self) -> None:
        """The device's: nothing is handed out that it doesn't have, and the program goes on where it stopped. The pins
        got each pulse once."""
        page, player = self.begin("mill.dev")
        found = page.post("check", b"G21 G90 G94\nG1 X0.2 F600\nM0\nX0.5\nM2\n", X_Name="part.ngc",
                          Content_Type="application/octet-stream")[1]
        self.assertEqual(page.post("load", {"id": found["id"]}), (200, {"taken": True}))
        page.post("run")
        page.until("it stops", lambda state: state["does"] == "stopped" and not state["busy"])
        Path("full").touch()
        page.post("run")
        page.until("it is told", lambda state: state["word"] == "Device failed" and not state["busy"])
        self.assertEqual(Path("out").read_bytes().count(b"P "), 200)
        os.unlink("full")
        self.assertEqual(page.post("restart"), (200, {}))
        state = page.until("another session goes on", lambda state: not state["ended"] and not state["busy"])
        self.assertEqual((state["motors"][0], state["half"], player.poll()), ("0.200000", "none", None))
        self.assertEqual(page.post("run"), (200, {}))
        page.until("it is through", lambda state: state["finished"] and state["motors"][0] == "0.500000")
        self.assertEqual(Path("pins").read_text().count("P 1 0 0 "), 500)
        self.assertEqual(Path("out").read_bytes().count(b"P "), 500)

    def test_full(self) -> None:
        """OUT's: 400 pulses on, and 300 back. The pins got each of them once in the end, but for what is gone back
        over."""
        page, player = self.begin("out")
        page.post("mdi", {"line": "G0 X0.4"})
        page.until("it is there", lambda state: state["motors"][0] == "0.400000" and not state["busy"])
        Path("full").touch()
        page.post("mdi", {"line": "G0 X0.1"})
        state = page.until("it is told", lambda state: state["word"] == "Device failed" and not state["busy"])
        self.assertIn("no room is left on the disk of OUT, out", page.said())
        self.assertTrue(Path("out").read_bytes().endswith(b"\nP"))
        os.unlink("full")
        self.assertEqual(page.post("restart"), (200, {}))
        state = page.until("another session goes on", lambda state: state["half"] != "none" and not state["ended"])
        self.assertEqual((state["motors"][0], player.poll()), ("0.400000", None))
        page.post("recover")
        while state["motors"][0] != "0.100000":
            state = page.until("it asks, or is there", lambda state: state["motors"][0] == "0.100000" or (
                state["question"] and state["question"]["id"] not in page.answered))
            if state["question"]:
                page.agree(state)
        page.rested()
        pins = Path("pins").read_text().splitlines()
        self.assertEqual((pins.count("P 1 0 0 50"), pins.count("P -1 0 0 50")), (400, 300))
        self.assertEqual(Path("out").read_bytes().count(b"P -1 0 0 50\n"), 300)


class Kept(InFolder):
    """What is kept of losses of power beside the device."""

    def test_kept(self) -> None:
        """It is of one program, until it is forgotten; another file that stands there is left alone."""
        self.device()
        losses, loss = Losses("mill.dev"), Loss(9, 0, 1.5, 3, 3000, [[0, 0, 0], [3, 0, 0]])
        self.assertEqual(losses.of(b"M2\n"), [])
        losses.keep(b"M2\n", [loss])
        losses.keep(b"M2\n", [loss, loss])
        self.assertEqual((losses.of(b"M2\n"), losses.of(b"M30\n")), ([loss, loss], []))
        losses.forget()
        self.assertEqual((losses.of(b"M2\n"), losses.path.exists()), ([], False))
        for text in ("", "{}", "[1]", '{"program": "", "losses": [{}]}', "G0 X1\n"):
            losses.path.write_text(text)
            losses.forget()
            self.assertEqual(losses.of(b"M2\n"), [])
            with self.assertRaisesRegex(NotWritten, "mill.dev.never-cut: it isn't what ngc-page keeps there"):
                losses.keep(b"M2\n", [loss])
            self.assertEqual(losses.path.read_text(), text)
        with self.assertRaisesRegex(NotWritten, "null: it is no file"):
            Losses("/dev/null").keep(b"M2\n", [loss])


class OverPipe(Served):
    """Power is lost with a pipe as OUT."""

    def test_never_cut(self) -> None:
        """All between the motors and the half-done segment is told, in words and as a line from the one to the other,
        after another loss of power too; once the program begins anew it isn't any more."""
        page = self.page()
        self.load(page, SHORT)
        page, state = self.lost(page, 0.05)
        begins = round(1000 * float(page.post("rehearse")[1]["begins"][0]))
        stands = round(1000 * float(state["motors"][0]))
        told = self.never_cut(page)
        self.assertGreater(begins, stands)
        self.assertEqual((told["lines"], told["points"][0], told["points"][-1]),
                         (begins - stands, [stands, 0, 0], [begins, 0, 0]))
        page.until("it is said", lambda _: f"NEVER CUT: {begins - stands} lines handed out" in page.said())
        self.gives_up(page, state)
        self.assertEqual(self.never_cut(page), told)
        page, state = self.lost(page, begins / 1000 + 0.05)
        again = self.never_cut(page)
        self.assertGreater(again["points"][0][0], begins)
        self.assertEqual([one["points"] for one in again["earlier"]], [told["points"]])
        self.assertIn(f"left {begins - stands} lines uncut", again["earlier"][0]["words"])
        self.gives_up(page, state)
        self.load(page, "M2\n")
        self.assertIsNone(self.never_cut(page))
        self.assertFalse(Path("mill.dev.never-cut").exists())

    def test_in_hand(self) -> None:
        """`ngc` ends alone while the player waits for a tool: what it has in hand then, and carries out, isn't lost,
        though its path comes to the same places again."""
        page = self.ends_at_change()
        self.assertEqual(page.post("go")[0], 200)
        page.until("it is told", lambda _: "left nothing uncut" in page.said() or "NEVER CUT" in page.said())
        self.assertNotIn("NEVER CUT", page.said())
        self.assertEqual((self.never_cut(page)["lines"], Path("mill.dev.never-cut").exists()), (0, False))

    def test_let_go(self) -> None:
        """What it lets go of then is lost, also where `ngc` was started twice meanwhile."""
        page = self.ends_at_change()
        self.ends(page)
        self.lets_go(page)
        page.until("it is told", lambda _: "NEVER CUT: 82 lines" in page.said())
        self.assertEqual([loss.lines for loss in Losses("mill.dev").of(CHANGE.encode())], [82])

    def test_killed(self) -> None:
        """So it is where the server was killed three times before it let go of that."""
        self.waits_at_change().close()
        for _ in range(3):
            for pid in (*self.children(), self.server.pid):
                os.kill(pid, signal.SIGKILL)
            self.server.wait()
            self.begin_server()
        page = self.page()
        self.assertIsNone(self.never_cut(page))
        self.lets_go(page)
        page.until("it is told", lambda _: "NEVER CUT: 82 lines" in page.said())
        self.assertEqual([loss.lines for loss in Losses("mill.dev").of(CHANGE.encode())], [82])

    def begin_server(self) -> None:
        """A server, with the player that goes on."""
        self.server = self.start("ngc-page", "mill.dev", "first.toml", self.OUT, "--player", "progress", "--ngc", ngc(),
                                 "--listen", "127.0.0.1:0")
        self.address = self.server.stdout.readline().strip()

    def lets_go(self, page: Page) -> None:
        """The player lets go of what it has in hand."""
        self.assertEqual(page.post("stop"), (200, {}))
        asked = {"question": page.asked()["question"]["id"], "yes": False}
        self.assertEqual(page.post("answer", asked), (200, {"taken": True}))

    def ends_at_change(self) -> Page:
        """A page whose program runs to its tool change; `ngc` ends while the player waits for the tool."""
        page = self.waits_at_change()
        self.ends(page)
        return page

    def waits_at_change(self) -> Page:
        """A page whose program runs to its tool change."""
        page = self.page()
        page.post("tool", {"slot": 2, "length": "0"})
        self.load(page, CHANGE)
        self.assertEqual(page.post("run"), (200, {}))
        page.until("it waits", lambda state: state["waits"] and state["behind"] > 90)
        return page

    def ends(self, page: Page) -> None:
        """`ngc` ends, and is started again."""
        for pid in self.children():
            os.kill(pid, signal.SIGKILL)
        page.post("hold")  # `ngc` isn't asked anything while it waits for the tool
        page.until("it ended", lambda state: state["ended"])
        self.assertEqual(page.post("restart"), (200, {}))
        state = page.until("it goes on", lambda state: not state["ended"] and not state["busy"])
        self.assertGreater(state["behind"], 90)
        self.assertIsNone(self.never_cut(page))

    def gives_up(self, page: Page, state: dict) -> None:
        """The half-done line counts as not begun."""
        self.assertEqual(page.post("reference", {"at": state["motors"]})[0], 200)
        self.assertEqual(page.post("abandon")[0], 200)

    def lost(self, page: Page, at: float) -> tuple[Page, dict]:
        """Runs the program, and loses power beyond a place on X: the page then, and its state once it is found what was
        left."""
        self.assertEqual(page.post("run"), (200, {}))
        if page.next()["place"]:  # in the midst of it
            page.agree(page.asked())
        page.until("it cuts", lambda state: float(state["motors"][0]) > at and state["behind"] > 60)
        self.pull()
        self.begin()
        page = self.page()
        return page, page.until("it is found", lambda _: (self.never_cut(page) or {}).get("lines"))

    @staticmethod
    def never_cut(page: Page) -> dict | None:
        """What is told of it."""
        return json.loads(page.get("job")[1])["never_cut"]


class ServerKilled(Served):
    """The page's server and `ngc` are killed, and begun again while the player has lines in hand for some seconds."""

    OUT = "out"
    IN_HAND = 60

    def begin_player(self) -> None:
        """There is one as long as it isn't killed."""
        if not os.path.exists("progress"):
            super().begin_player()

    def begun_again(self, text: str = SLOWER) -> tuple[Page, dict]:
        """A page of the next session, and what it shows first."""
        page = self.page()
        self.load(page, text)
        self.assertEqual(page.post("run"), (200, {}))
        page.until("lines are in hand", lambda state: state["behind"] > self.IN_HAND and float(state["motors"][0]) > 0)
        for pid in (*self.children(), self.server.pid):
            os.kill(pid, signal.SIGKILL)
        self.server.wait()
        self.begin()
        page = self.page(OTHER)
        return page, page.until("it is shown", lambda state: state["motors"])


class KilledWithoutRamps(ServerKilled):
    """Motors that no hold stops."""

    def test_goes_on(self) -> None:
        """While they go on the band says so, and nothing of a recovery can be touched; once they rest it can."""
        page, state = self.begun_again()
        self.assertEqual((state["word"], state["tone"], state["half"]), ("Still running", "run", "program"))
        self.assertRegex(state["detail"], r"^The player carries out what it was given before, \d+ lines?$")
        self.assertEqual((state["busy"], state["goes_on"], state["can"]["hold"]), (True, True, True))
        touched = ("recover", "reference", "resume", "abandon", "jog", "run")
        self.assertFalse(any(state["can"][word] for word in touched))
        rested = page.until("they rest", lambda state: not state["busy"])
        self.assertEqual((rested["word"], rested["behind"], rested["goes_on"]), ("Half-done", 0, False))
        self.assertGreater(float(rested["motors"][0]), float(state["motors"][0]))
        self.assertTrue(rested["can"]["recover"] and rested["can"]["abandon"])

    def test_last_lines(self) -> None:
        """Once they have made the last lines of the job it has run to its end."""
        page, state = self.begun_again("G21 G90 G94\nG1 X0.09 F1\nM2\n")
        self.assertEqual((state["word"], state["half"], state["finished"]), ("Still running", "none", False))
        page.until("it is through", lambda state: state["finished"] and state["motors"][0] == "0.090000")
        self.assertRegex(Path("mill.dev.runs").read_text(), r" ended, through, after [0-9:]+, 1 loss of power\n$")


class KilledWithRamps(ServerKilled):
    """Motors that a hold stops, over a file."""

    MACHINE = "[motion]\naccel_mm_s2 = [500, 500, 500]\n\n[window]\nlines = 1000\n"
    IN_HAND = 500

    def test_held(self) -> None:
        """They are held as the session begins, which the band says from the first; lines in hand come first then."""
        page, state = self.begun_again()
        self.assertEqual((state["word"], state["held_motors"], state["busy"]), ("Held", True, False))
        self.assertEqual((state["half"], state["held_by"]), ("program", "here"))
        self.assertRegex(state["detail"], r"^Recover has them carry out \d+ lines in hand first; Stop lets go of")
        time.sleep(0.5)
        self.assertEqual(self.link.ask().at.split(), state["motors"])
        told = {"at": state["motors"], "anyway": True, "shown": state["motors"]}
        refused = page.post("reference", told)[1]["refused"]
        self.assertIn("lines in hand. Recover has them carry those out first", refused)
        self.assertEqual(page.post("recover", {"at": state["motors"], "shown": state["motors"]}), (200, {}))
        page.agree(page.asked())
        page.until("they go on", lambda now: float(now["motors"][0]) > float(state["motors"][0]))

    def test_last_lines(self) -> None:
        """Where all of the job was handed out, `Go on` has its last lines made, and then it has run to its end."""
        page, state = self.begun_again("G21 G90 G94\nG1 X0.6 F10\nM2\n")
        self.assertEqual((state["word"], state["half"], state["place"]), ("Held", "none", 0))
        self.assertRegex(Path("mill.dev.runs").read_text(), r" broke off in line 1: [^\n]+\n$")
        self.assertEqual(page.post("release"), (200, {}))
        state = page.until("they rest", lambda state: not state["busy"] and state["motors"][0] == "0.600000")
        self.assertRegex(Path("mill.dev.runs").read_text(), r" ended, through, after [0-9:]+, 1 loss of power\n$")
        self.assertTrue(state["finished"])


class KilledWithRampsOverPipe(KilledWithRamps):
    """The same with a pipe as OUT."""

    OUT = "axis"


class Confirmed(Served):
    """What a page confirms that wasn't told the newest state yet."""

    OUT = "out"

    def test_older_place(self) -> None:
        """A place that was confirmed before the motors moved isn't taken, and why is told; the one now is."""
        page = self.page()
        self.load(page, SLOW)
        self.cuts(page)
        self.pull()
        self.begin()
        page = self.page(OTHER)
        state = page.until("it is half-done", lambda state: state["word"] == "Half-done")
        at, older = state["motors"], ["0.000000", "0.000000", "0.000000"]
        self.assertNotEqual(at, older)
        refused = page.post("reference", {"at": older, "anyway": True, "shown": older})[1]["refused"]
        self.assertTrue(refused.startswith("the motors aren't where this page showed them"), refused)
        self.assertEqual(page.post("recover", {"at": older, "shown": older}), (200, {}))
        page.until("it is told twice", lambda state: page.said().count(refused) == 2 and not state["busy"])
        self.assertEqual(page.post("reference", {"at": "player", "shown": older}), (200, {"refused": refused}))
        self.assertEqual((self.link.ask().at.split(), page.rested()["known"]), (at, False))
        self.assertEqual(page.post("reference", {"at": older, "anyway": True, "shown": at}), (200, {"refused": ""}))
        self.assertEqual(self.link.ask().at.split(), older)

    def test_other_tool(self) -> None:
        """A tool that the player doesn't ask for any more isn't the one that it asks for now."""
        page = self.page()
        for slot in (1, 2):
            page.post("tool", {"slot": slot, "length": "0"})
        self.load(page, TOOLS)
        self.assertEqual(page.post("run"), (200, {}))
        for slot in (1, 2):
            state = page.until("it asks", lambda state, slot=slot: state["waits_tool"] == slot and state["waits"])
            for touch in ({"tool": 3 - slot, "shown": state["motors"]}, {"tool": slot, "shown": ["9", "0", "0"]}):
                status, said = page.post("go", touch)
                self.assertEqual((status, said.get("why", "").partition(",")[0]),
                                 (409, "the player doesn't ask for that tool any more"))
            self.assertEqual(self.link.ask().tool, slot)
            self.assertEqual(page.post("go", {"tool": slot, "shown": state["motors"]}), (200, {}))
        page.until("it is through", lambda state: state["finished"] and state["motors"][0] == "0.200000")


class Task:
    """Work aside that is done within this process."""

    def __init__(self, function: Callable, given: tuple) -> None:
        self.function, self.given = function, given

    def result(self) -> object:
        """Does it. Raises NotDone."""
        try:
            return self.function(*self.given)
        except (Failure, OSError) as error:
            raise NotDone(str(error)) from None

    def give_up(self) -> None:
        """It isn't wanted any more."""


class Here(Aside):
    """Does work aside within this process, which costs less."""

    def begin(self, function: Callable, *given: object) -> Task:
        """What is to be done."""
        return Task(function, given)


class Moments(InFolder):
    """Power is lost at moments of one job, so many as NGC_PAGE_MOMENTS says, and the four steps lead to its end."""

    def setUp(self) -> None:
        """The device with the job, and what OUT is to hold in the end: that of a run that nothing disturbs."""
        super().setUp()
        self.device()
        self.run_ngc(f"load {len(JOB)}\n{JOB}")
        self.image = Path("mill.dev").read_bytes()
        self.run_ngc("start\ntick 99999\n", "whole")
        self.pulses = pulses_of("whole")
        (patched := patch("ngc_tools.page.session.Aside", Here)).start()
        self.addCleanup(patched.stop)

    def test_moments(self) -> None:
        """Each time all pulses of the job are carried out, in turn, none is missing and none comes twice."""
        count = int(os.environ.get("NGC_PAGE_MOMENTS", "20"))
        halves = 0
        for number in range(count):
            lost_at = len(self.pulses) * (2 * number + 1) // (2 * count)
            self.begin_anew()
            self.lose_power(lost_at)
            halves += self.go_back()
            self.assertTrue(pulses_of("out") == self.pulses, f"lost at {lost_at}")
        self.assertGreater(halves, count // 2)

    def test_last_lines(self) -> None:
        """Power is lost with all of the job handed out, and its last lines not cut: once `recover` has them carried out
        the job has run to its end, and so the record of runs says."""
        self.begin_anew()
        session = self.session()
        self.assertTrue(session.load("job", JOB.encode()))

        def drained(_: object) -> bool:
            """Power is lost as nothing more is to be handed out."""
            self.player.kill()
            session.operator.console.child.kill()
            raise NoAnswer("power is lost")

        session.operator.session.meter.drained = drained
        session.run("run")
        self.wait_for("power is lost", lambda: session.ended != "")
        session.leave()
        self.end_player()
        session = self.session()
        self.assertEqual((session.stand.status.half, session.stand.status.place), ("none", 0))
        self.assertGreater(session.stand.recovery["left_lines"], 0)
        self.assertFalse(session.is_finished)
        session.recover(session.face.report.at.split())
        self.agrees(session)
        self.assertTrue(session.is_finished)
        self.assertEqual(session.face.report.at, "0.000000 0.000000 -0.400000")
        self.assertRegex(Path("mill.dev.runs").read_text(), r" ended, through, after [0-9:]+, 1 loss of power\n$")
        self.assertTrue(pulses_of("out") == self.pulses)

    def test_loaded_first(self) -> None:
        """Where OUT lost all that was handed out, another program isn't loaded before that is put back, and the four
        steps lead to its end."""
        self.begin_anew()
        session = self.session()
        self.assertTrue(session.load("job", b"G21 G90 G94\nM0\nG3 X0 Y0 I0.2 F900\nM2\n"))
        session.run("run")
        self.agrees(session)
        noted = Path("mill.dev.out").read_bytes()
        session.run("run")
        self.agrees(session)
        self.assertTrue(session.is_finished)
        pulses = pulses_of("out")
        session.operator.console.kill()
        session.leave()
        self.end_player()
        Path("mill.dev.out").write_bytes(noted)
        Path("position").unlink()
        Path("out").write_bytes(b"")
        session = self.session()
        with patch.object(type(session.operator.session), "agrees", return_value=True) as agrees:
            self.assertFalse(session.load("other", JOB.encode()))
        self.assertIn("has none of the", agrees.call_args[0][0])
        self.assertTrue(session.face.refusal.startswith("nothing is done: lines stand in OUT"))
        session.recover(session.face.report.at.split())
        self.agrees(session)
        self.assertTrue(pulses_of("out") == pulses)
        self.assertTrue(session.load("other", JOB.encode()))

    def begin_anew(self) -> None:
        """The device as the job was loaded, and nothing carried out."""
        Path("mill.dev").write_bytes(self.image)
        Path("out").write_bytes(b"")
        Path("position").unlink(missing_ok=True)

    def session(self) -> PageSession:
        """A player, and a session of a page."""
        words = ["--progress", "progress", "--follow", "--untimed", "out", "first.toml", "position"]
        self.player = subprocess.Popen([built("-O2"), *words], stdin=subprocess.DEVNULL, stdout=subprocess.DEVNULL,
                                       stderr=subprocess.DEVNULL)
        self.addCleanup(self.player.wait)
        self.addCleanup(self.player.kill)
        self.wait_for("the player listens", lambda: os.path.exists("progress"))
        words = ["mill.dev", "first.toml", "out", "--player", "progress", "--ngc", ngc()]
        session = PageSession(Opener(ngc(), make_parser().parse_args(words)), PageFace())
        self.addCleanup(session.leave)
        self.addCleanup(session.operator.console.kill)
        session.start()
        return session

    def lose_power(self, lost_at: int) -> None:
        """Starts the job, and ends `ngc` and the player once so many lines are carried out."""
        session = self.session()
        link, ask = session.operator.session.meter.link, session.operator.session.meter.link.ask

        def asked() -> Report:
            """Power is lost right behind an answer of the player."""
            report = ask()
            if report.carried >= lost_at:
                self.player.kill()
                session.operator.console.child.kill()
            return report

        link.ask = asked
        session.run("run")
        self.wait_for("power is lost", lambda: session.ended != "")
        session.leave()
        session.operator.console.kill()
        self.end_player()

    def end_player(self) -> None:
        """Ends the player as a loss of power does."""
        self.player.kill()
        self.player.wait()
        Path("progress").unlink(missing_ok=True)  # one that the session's end has ended first took it along

    def go_back(self) -> bool:
        """Through the four steps, where the page leads through them, and on to the end; whether it did."""
        session = self.session()
        status, stands = session.stand.status, session.face.report.at.split()
        is_half = status.half != "none"
        if is_half:
            self.assertIn("they make at most", session.past)
            rehearsed = rehearse(session, stands, True)
            self.assertEqual((rehearsed["refused"], session.stand.recovery["problem"]), ("", ""))
        if is_half or session.stand.recovery["left"]:
            session.recover(stands)
            asked = self.agrees(session)
            self.assertEqual([text for text in asked if "Do they stand there?" in text], [])
            looks = sum(text in LOOKS for text in asked)  # once more where a switch comes on the way
            self.assertIn(looks, (1, 2) if is_half else (0, 1))
        if not session.is_finished:
            session.run("run")
            self.agrees(session)
        self.assertEqual(session.face.report.at, "0.000000 0.000000 -0.400000")
        session.quit()
        self.agrees(session)
        self.wait_for("it is over", session.over.is_set)
        self.end_player()
        return is_half

    def agrees(self, session: PageSession) -> list[str]:
        """Agrees to all that is asked until nothing is under way; what was asked."""
        asked: list[str] = []
        seen = 0
        while True:
            self.wait_for("it asks, or is through", lambda seen=seen: not session.is_busy or is_new(session, seen))
            question = session.face.question
            if question is None or question.id == seen:
                return asked
            seen = question.id
            asked.append(question.text)
            session.face.answer(seen, "yes" if question.kind == "yes" else "1")


def is_new(session: PageSession, seen: int) -> bool:
    """Whether something is asked that wasn't before."""
    question = session.face.question
    return question is not None and question.id != seen


def pulses_of(out: str) -> list[bytes]:
    """The pulses of a file of OUT."""
    return [line for line in Path(out).read_bytes().splitlines() if line.startswith(b"P")]


if __name__ == "__main__":
    unittest.main()
