"""The page's server, without a browser: who may ask, what is asked, what is told, and a loss of power."""
import http.client
import itertools
import json
import os
import select
import signal
import socket
import subprocess
import sys
import threading
import time
import unittest
from collections.abc import Callable
from dataclasses import replace
from functools import partial
from pathlib import Path
from types import SimpleNamespace
from unittest.mock import MagicMock, patch

sys.path.insert(0, str(Path(__file__).resolve().parent))

from machine_support import SocketMachine
from page_support import CUT, OTHER, PAGE, SLOW, Page, Served, request
from session_support import FIRST, PATIENCE_S, TOOLS, InFolder, is_alive, ngc, told

from ngc_tools.cli.page import main
from ngc_tools.formats.lines import Program
from ngc_tools.formats.position import millimetres
from ngc_tools.ngc.console import Console, Status
from ngc_tools.operator.face import REFUSED, UnderWay
from ngc_tools.operator.recover import ON_WAY
from ngc_tools.operator.sentences import SWITCHED
from ngc_tools.operator.way_back import TYPE_GO
from ngc_tools.page import forks
from ngc_tools.page import server as server_module
from ngc_tools.page.aside import MOST_CPU_S, MOST_MEMORY, Aside, NotDone
from ngc_tools.page.band import Standing
from ngc_tools.page.drawing import SWITCH, DrawingRequest, draw, draw_exactly, job_of
from ngc_tools.page.face import LOOKS, PageFace, Question
from ngc_tools.page.jog import HeldJog, Wish
from ngc_tools.page.pages import LOST_S
from ngc_tools.page.rehearse import RehearsalRequest, rehearsed
from ngc_tools.page.session import SessionCommand, PageSession
from ngc_tools.page.stand import Stand
from ngc_tools.page.state import Pictured, state_of
from ngc_tools.link.progress import MoveReport, NoAnswer
from ngc_tools.scratch import Scratch

EXAMPLES = TOOLS.parent / "examples"
COARSE = """step_nm = [100000, 100000, 100000]
low_nm = [-1000000000, -1000000000, -1000000000]
high_nm = [1000000000, 1000000000, 1000000000]
traverse_nm_per_min = 60000000000
period_us = 50
tools_nm = [50000000, 62500000, 0]
"""
INTERRUPTED = """import sys
import threading
sys.path.insert(0, sys.argv.pop(1))
from ngc_tools.cli.page import main
start = threading.Thread.start
def interrupted(thread):
    start(thread)
    if thread.name == "session":
        raise KeyboardInterrupt
threading.Thread.start = interrupted
sys.exit(main())
"""
"""`ngc-page`, to which Ctrl-C comes as the session's thread has started."""


class Who(Served):
    """Who may ask, and how."""

    def test_key_host_origin(self) -> None:
        """Without the key, by another name, from another site nothing is answered; nor is any file of the server."""
        page = self.page()
        port, key = page.port, page.key
        headers = page.get("job")[2]
        self.assertIn("default-src 'none'", headers["Content-Security-Policy"])
        self.assertNotIn("unsafe", headers["Content-Security-Policy"])
        self.assertEqual((headers["Referrer-Policy"], headers["Cache-Control"], headers["X-Content-Type-Options"]),
                         ("no-referrer", "no-store", "nosniff"))
        for path in ("/", "/index.html", f"/{key[:-1]}/", f"/{key}x/", f"/{key}/../{key}/x", f"/{key}/../../etc/passwd",
                     f"/{key}/%2e%2e/server.py", f"/{key}//etc/passwd", f"/{key}/../server.py", "/%C3%A9", f"/{key}"
                     f"/../../../../../../../../etc/passwd"):
            self.assertEqual(request(port, "GET", path)[0], 404, path)
        self.assertEqual(page.get("job", Host="evil.example")[0], 421)
        self.assertEqual(page.get("job", Host=f"evil.example:{port}")[0], 421)
        self.assertEqual(page.get("job", Host=f"localhost:{port}")[0], 200)
        self.assertEqual(page.get("job", Origin="http://evil.example")[0], 403)
        self.assertEqual(page.get("job", Sec_Fetch_Site="cross-site")[0], 403)
        for given in ({"Origin": "http://evil.example"}, {"Origin": "null"}, {"Sec_Fetch_Site": "same-site"},
                      {"Origin": f"https://127.0.0.1:{port}"}, {"Origin": f"http://127.0.0.1:{port + 1}"}):
            self.assertEqual(page.post("hold", **given)[0], 403, given)
        no_origin = {"X_Page": PAGE, "Content_Type": "application/json"}
        self.assertEqual(request(port, "POST", f"/{key}/hold", b"{}", **no_origin)[0], 403)
        self.assertEqual(request(port, "PUT", f"/{key}/hold")[0], 501)

    def test_requests(self) -> None:
        """What is too long, of another kind, or no request of a page."""
        page = self.page()
        for body, given, status in ((b"{" * 5000, {}, 413), (b"{}", {"Content_Type": "text/plain"}, 415),
                                    (b"[]", {}, 400), (b"{", {}, 400), (b"{}", {"X_Page": "<b>"}, 400),
                                    (b"[" * 4000, {}, 400)):
            self.assertEqual(page.post("run", body, **given)[0], status, body[:9])
        for what in ("check", "draw"):
            self.assertEqual(page.post(what, b" " * 3_000_000)[0], 413)
        self.assertEqual(page.post("check", b"", Content_Length="999999999")[0], 413)
        for what in ("__init__", "nothing", "_json", "mdi/..", "RUN"):
            self.assertEqual(page.post(what)[0], 404, what)
        self.assertEqual(page.post("load", {"id": "/etc/passwd"})[0], 410)
        for line in ("G0 X1\nquit", "", "\x00", "G0 X1\r", "G0 X1\u2028M2", 7, "G" * 257):
            self.assertEqual(page.post("mdi", {"line": line})[0], 422, line)
        for at in (["1", "2"], ["1", "2", "3\nquit"], ["1", "2", "x"], "123", None, ["1", "2", "3 anyway"], [1, 2, 3]):
            self.assertEqual(page.post("reference", {"at": at})[0], 422, at)
        for what, words in (("tool", {"slot": "1\nquit", "length": "1"}), ("tool", {"slot": True, "length": "1"}),
                            ("switch", {"name": "load", "on": True}), ("percent", {"percent": 201}),
                            ("switch", {"name": "delete", "on": "on"}), ("answer", {"question": 1, "text": "a\nb"})):
            self.assertEqual(page.post(what, words)[0], 422, words)
        state = page.next()
        self.assertEqual((self.server.poll(), [entry["kind"] for entry in state["log"]]), (None, ["said"]))
        self.assertEqual(state["version"], "built from a checkout")

    def test_raw(self) -> None:
        """Texts that are no plain request, or could be taken for two: each is answered, and the connection closed."""
        page = self.page()
        head = f"POST /{page.key}/hold HTTP/1.1\r\nHost: 127.0.0.1:{page.port}\r\nX-Page: {PAGE}\r\n"
        for text, status in (("GET / HTTP/1.0\r\n\r\n", 400), ("GET  / HTTP/1.1\r\n\r\n", 400),
                             ("GET /\x00 HTTP/1.1\r\n\r\n", 400), ("GET / HTTP/1.1\nHost: a\n\n\r\n\r\n", 400),
                             ("GET / HTTP/1.1\r\nHost: a\r\nHost: a\r\n\r\n", 400),
                             ("GET / HTTP/1.1\r\nHost: a\r\n b\r\n\r\n", 400), ("GET / HTTP/1.1\r\n\r\n", 421),
                             ("PUT / HTTP/1.1\r\n\r\n", 501), ("GET /" + "a" * 20_000, 431),
                             ("GET / HTTP/1.1\r\nHost:" + " " * 16_000 + "\x01\r\n\r\n", 400),
                             (f"{head}Origin: http://127.0.0.1:{page.port}\r\n\r\n", 411),
                             (f"{head}Origin: http://127.0.0.1:{page.port}\r\nContent-Length: 2\r\n"
                              "Transfer-Encoding: chunked\r\n\r\n{}", 501)):
            with socket.create_connection(("127.0.0.1", page.port), PATIENCE_S) as link:
                link.sendall(text.encode("latin-1"))
                answer = b""
                while part := link.recv(65536):
                    answer += part
            self.assertEqual((answer[:13], answer.count(b"HTTP/1.1")), (b"HTTP/1.1 %d " % status, 1), text[:60])

    def test_two_pages(self) -> None:
        """The first commands; the other watches, may hold, and takes over; a fifth is one too many."""
        one, two = self.page(), self.page(OTHER)
        self.assertEqual((one.next()["yours"], two.next()["yours"]), (True, False))
        self.assertEqual(two.post("mdi", {"line": "G0 X1"})[0], 403)
        self.assertEqual(two.post("hold")[0], 200)
        self.assertEqual(two.post("takeover")[0], 200)
        two.until("it commands", lambda state: state["yours"] and not state["busy"])
        self.assertEqual((one.post("run")[0], two.post("switch", {"name": "optional", "on": True})[0]), (403, 200))
        self.assertTrue(one.until("it is told", lambda state: state["optional"])["optional"])
        self.page("page-number-3"), self.page("page-number-4")
        with self.assertRaisesRegex(AssertionError, "too many pages"):
            self.page("page-number-5")

    def test_idle_and_slow(self) -> None:
        """More connections that wait, or come in pieces, than there may be: a wish to hold is taken all the same."""
        page = self.page()
        self.load(page, SLOW)
        self.cuts(page)
        kept = http.client.HTTPConnection("127.0.0.1", page.port, timeout=PATIENCE_S)
        self.addCleanup(kept.close)
        given = {"Origin": f"http://127.0.0.1:{page.port}", "X-Page": PAGE, "Content-Type": "application/json"}
        kept.request("GET", f"/{page.key}/program", headers={"X-Page": PAGE})
        self.assertIn(b"G1 X2", kept.getresponse().read())
        pieces = (b"", b"GET /", b"POST / HTTP/1.1\r\nHost: a\r\nX: ", b"\r\n\r")
        for number in range(2 * server_module.MOST_CONNECTIONS):
            idle = socket.create_connection(("127.0.0.1", page.port), PATIENCE_S)
            self.addCleanup(idle.close)
            idle.sendall(pieces[number % len(pieces)])
        slow = socket.create_connection(("127.0.0.1", page.port), PATIENCE_S)
        self.addCleanup(slow.close)
        slow.sendall(f"POST /{page.key}/check HTTP/1.1\r\nHost: 127.0.0.1:{page.port}\r\nOrigin: http://127.0.0.1:"
                     f"{page.port}\r\nX-Page: {PAGE}\r\nContent-Length: 1000000\r\n\r\nG0 X".encode())
        kept.request("POST", f"/{page.key}/hold", b"{}", given)  # a page's own connection stays
        self.assertEqual(kept.getresponse().read(), b"{}")
        state = page.until("it is held", lambda state: state["does"] == "held" and not state["busy"])
        self.assertEqual(state["word"], "Held")
        self.assertEqual((page.post("hold"), page.next()["yours"]), ((200, {}), True))


class Work(Served):
    """What is done."""

    def test_job(self) -> None:
        """A program is looked at, loaded and run to its end; lines, tools, refusals; quit."""
        page = self.page()
        found = page.post("check", b"G1 X1 Q2 F10\n(<b>)\n", X_Name="..%2F%3Cb%3E", Content_Type="x/y")[1]
        self.assertEqual((found["name"], found["refusals"][0]["carets"]), ("<b>", "      ^^"))
        self.load(page, "(MSG, a <b>)\nG17 G21 G90 G94\nG0 X0.05\nM0\nG1 X0 F60\nM2\n")
        page.until("it is drawn", lambda state: page.job() and page.job()["exact"])
        job = page.job()
        self.assertEqual([(step["n"], step["k"], step["us"], step["p"]) for step in job["steps"]],
                         [(3, "t", 2500, [0, 0, 0, 50, 0, 0]), (5, "c", 50000, [50, 0, 0, 0, 0, 0])])
        self.assertEqual((job["exact"], job["refused"], json.loads(page.get("program")[1])["name"]),
                         (True, None, "part.ngc"))
        self.assertEqual(page.post("run"), (200, {}))
        state = page.until("it stopped", lambda state: state["does"] == "stopped" and not state["busy"])
        self.assertEqual((state["word"], state["detail"], state["motors"][0]), ("Stopped", "a <b>", "0.050000"))
        self.assertEqual(page.post("mdi", {"line": "G0 X9999"}), (200, {}))
        page.until("it is refused", lambda state: state["word"] == "Refused")
        self.assertIn("X2 OutsideTravel", page.log[-1]["text"])
        self.assertEqual(page.post("tool", {"slot": 1, "length": "50"}), (200, {}))
        self.assertEqual(page.until("it is there", lambda state: state["tools"])["tools"], ["50.000000"])
        self.assertEqual(page.post("run")[0], 200)
        state = page.until("it is through", lambda state: state["finished"] and not state["busy"])
        self.assertEqual((state["motors"][0], state["detail"]), ("0.000000", "The program ran to its end"))
        self.runs_again(page)
        self.assertEqual(page.post("quit"), (200, {}))
        self.assertTrue(page.last()["over"])
        self.assertEqual((self.server.wait(PATIENCE_S), self.player.wait(PATIENCE_S)), (0, 0))

    def runs_again(self, page: Page) -> None:
        """A second run up to the stop in line 4: no state is of the first one, neither that it is done nor its line."""
        seen: list[tuple[bool, int]] = []

        def stops(state: dict) -> bool:
            seen.append((state["finished"], state["line"]))
            return state["does"] == "stopped" and not state["busy"]

        self.assertEqual(page.post("run")[0], 200)
        page.until("it stops anew", stops)
        self.assertEqual((sorted(seen), seen[-1]), (seen, (False, 5)))
        self.assertEqual(page.post("run")[0], 200)
        page.until("it is through anew", lambda state: state["finished"] and not state["busy"])

    def test_remark(self) -> None:
        """At a stop the plain comment above it is shown, and then the one beside it."""
        page = self.page()
        self.load(page, "G21 G90\n(take the clamp off)\nM0\nM0 (turn it)\nM2\n")
        for line, detail in ((4, "take the clamp off"), (5, "turn it")):
            self.assertEqual(page.post("run"), (200, {}))
            state = page.until("it stopped", lambda state, line=line: state["line"] == line and not state["busy"])
            self.assertEqual((state["word"], state["detail"]), ("Stopped", detail))

    def test_drawn_first(self) -> None:
        """A program is drawn before it is loaded, and that is taken then, unless it begins otherwise by now."""
        page = self.page()
        text = b"G17 G21 G90 G94\nG0 X1\nM2\n"
        given = {"X_Name": "part.ngc", "Content_Type": "application/octet-stream"}
        for begins in (0, 2000):  # um
            drawn = page.post("draw", text, **given)[1]
            self.assertEqual([(step["n"], step["k"], step["p"]) for step in drawn["steps"]],
                             [(2, "t", [begins, 0, 0, 1000, 0, 0])])
            self.assertIsNone(page.job())
            self.assertEqual(page.post("mdi", {"line": "G0 X2"}), (200, {}))
            page.rested()
        self.load(page, text.decode())
        page.until("it is drawn", lambda state: page.job())
        self.assertEqual(page.job()["steps"][0]["p"], [2000, 0, 0, 1000, 0, 0])

    def test_tool(self) -> None:
        """While a tool is wanted what is in force is that of the tool before, though `ngc` is some lines ahead."""
        page = self.page()
        for slot, length in ((1, "0.5"), (2, "0.625")):
            self.assertEqual(page.post("tool", {"slot": slot, "length": length}), (200, {}))
        self.load(page, "G17 G21 G90 G94\nT1 M6\nG43 H1\nG0 Z0.1\nT2 M6\nG43 H2\nG0 Z0.15\nM0\nM2\n")
        page.until("it is drawn", lambda state: page.job())
        self.assertEqual(page.post("run"), (200, {}))
        for line, length, z, tool in ((2, "0.000000", "0.000000", 1), (5, "0.500000", "0.100000", 2)):
            state = page.until("it waits", lambda state, tool=tool: state["waits"] and state["waits_tool"] == tool and
                               state["half"] == "program")
            self.assertEqual((state["line"], state["tool_length"], state["work"][2]), (line, length, z))
            self.assertEqual(state["began_at"], state["motors"])  # `ngc` is some lines ahead
            self.assertEqual(page.post("go"), (200, {}))
        state = page.until("it stopped", lambda state: state["does"] == "stopped" and not state["busy"]
                           and not state["behind"])
        self.assertEqual((state["tool_length"], state["work"][2]), ("0.625000", "0.150000"))

    def test_tool_of_a_typed_line(self) -> None:
        """While the tool of a line of one's own is wanted, and somebody holds, that changes neither what is in force
        nor which line is next, though a line of the program wanted the same tool."""
        page = self.page()
        for slot, length in ((1, "0.5"), (2, "0.625")):
            self.assertEqual(page.post("tool", {"slot": slot, "length": length}), (200, {}))
        self.load(page, "G17 G21 G90 G94\nT1 M6\nG43 H1\nT2 M6\nM0\nM2\n")
        page.until("it is drawn", lambda state: page.job())
        self.assertEqual(page.post("run"), (200, {}))
        for tool in (1, 2):
            page.until("it waits", lambda state, tool=tool: state["waits"] and state["waits_tool"] == tool)
            self.assertEqual(page.post("go"), (200, {}))
        page.until("it stopped", lambda state: state["does"] == "stopped" and not state["busy"] and not state["behind"])
        page.post("mdi", {"line": "T1 M6"})
        page.until("it waits", lambda state: state["waits"] and state["waits_tool"] == 1)
        page.post("hold")
        state = page.until("nothing is under way", lambda state: not state["busy"])
        self.assertEqual((state["waits_tool"], state["tool_length"], state["line"]), (1, "0.500000", 6))

    def test_hold(self) -> None:
        """Hold is heeded within a line; what is asked meanwhile is refused; it goes on."""
        page = self.page()
        self.load(page, SLOW)
        self.cuts(page)
        self.assertEqual(page.post("mdi", {"line": "G0 X1"})[0], 409)
        self.assertEqual(page.post("switch", {"name": "delete", "on": True})[0], 200)
        page.post("hold")
        page.until("it is held", lambda state: state["does"] == "held" and not state["busy"])
        state = page.until("the motors stand", lambda state: state["behind"] == 0)
        self.assertEqual((self.link.ask().at.split(), state["line"], state["delete"]), (state["motors"], 3, True))
        page.post("run")
        page.until("it goes on", lambda later: float(later["motors"][0]) > float(state["motors"][0]))

    def test_page_lost(self) -> None:
        """Where the page that commands is lost, what runs is held, or goes on."""
        page, other = self.page(), self.page(OTHER)
        self.load(page, SLOW)
        self.cuts(page)
        page.close()
        other.until("it is held", lambda state: state["does"] == "held" and not state["busy"])
        self.assertIn("the page that commands is lost: hold", other.said())
        page = self.page()
        other.post("takeover")
        other.post("loss", {"goes": True})
        self.cuts(other)
        other.close()
        gone = page.until("it is gone", lambda state: state["pages"] == 1)
        state = page.until("it is lost", lambda state: state["now"] > gone["now"] + LOST_S + 1)
        self.assertEqual((state["does"], state["on_loss"]), ("running", "go"))

    def test_page_replaced(self) -> None:
        """A page that takes the place of a lost one doesn't keep what runs from being held."""
        page = self.page()
        self.load(page, SLOW)
        self.cuts(page)
        page.close()
        other = self.page(OTHER)
        other.until("it is held", lambda state: state["does"] == "held" and not state["busy"])
        self.assertIn("the page that commands is lost: hold", other.said())

    def test_hostile_text(self) -> None:
        """What a program says stays text, and nothing of it is obeyed."""
        page = self.page()
        self.load(page, "(MSG, <script>alert(1)</script>)\n(\x1b[2J data: x)\nG21 G90\nG0 X0.01\nM2\n".replace(
            "alert(1)", "alert"))
        page.post("run")
        state = page.until("it is through", lambda state: state["finished"])
        self.assertEqual(state["message"], "<script>alert</script>")
        status, text, headers = page.get("program")
        self.assertEqual((status, headers["Content-Type"]), (200, "application/json"))
        self.assertIn("\\x1b[2J", json.loads(text)["text"])

    def test_lines_are_lines(self) -> None:
        """A line of G-code is no command of the core, whatever it says: no file of the server's is read."""
        page = self.page()
        Path("part.ngc").write_text("M2\n")
        for line in ("load part.ngc", "quit", "anyway load part.ngc", "mdi load part.ngc", "load part.ngc anyway"):
            for anyway in (False, True):
                self.assertEqual(page.post("mdi", {"line": line, "anyway": anyway}), (200, {}))
                state = page.rested()
                self.assertEqual((state["word"], state["program"]["lines"], state["ended"]), ("Refused", 0, ""), line)

    def test_quit_asks(self) -> None:
        """What a session's end leaves on is asked about, and switched off. Switches are heeded while it is asked."""
        page = self.page()
        page.post("mdi", {"line": "M3 S100"})
        page.until("it turns", lambda state: state["spindle"] == 1 and not state["busy"])
        self.assertEqual(page.post("quit"), (200, {}))
        state = page.asked()
        self.assertEqual((state["question"]["kind"], state["question"]["purpose"]), ("yes", ""))
        self.assertIn("still on: the spindle", state["question"]["text"])
        self.assertEqual(page.post("answer", {"question": 0, "yes": True})[1], {"taken": False})
        self.assertEqual(page.post("switch", {"name": "single", "on": True}), (200, {}))
        heeded = page.until("a switch is heeded meanwhile", lambda state: state["single"])
        self.assertEqual(heeded["question"], state["question"])
        page.agree(state)
        self.assertEqual(page.last()["spindle"], 0)
        self.assertEqual(self.server.wait(PATIENCE_S), 0)

    def test_ngc_fails(self) -> None:
        """`ngc` is started again after it ended; a page sees that it is another session."""
        page = self.page()
        self.load(page, SLOW)
        before = page.rested()["session"]
        self.assertEqual(page.post("restart")[0], 409)
        self.cuts(page)
        os.kill(self.children()[0], signal.SIGKILL)
        state = page.until("it has ended", lambda state: state["ended"] and not state["busy"])
        self.assertEqual((state["word"], state["over"]), ("Ended", False))
        self.assertEqual(page.post("run")[0], 409)
        self.assertEqual(self.player.wait(PATIENCE_S), 1)  # its pipe has ended
        self.assertEqual(page.post("restart")[0], 422)
        self.begin_player()
        self.assertEqual(page.post("restart"), (200, {}))
        state = page.until("it stands again", lambda state: not state["ended"])
        self.assertNotEqual(state["session"], before)
        self.assertEqual((state["word"], state["half"]), ("Half-done", "program"))

    def test_player_gone(self) -> None:
        """Without its player nothing more is handed out."""
        page = self.page()
        self.load(page, SLOW)
        self.cuts(page)
        self.player.kill()
        self.assertEqual(page.until("that is said", lambda state: state["player_gone"])["word"], "Player gone")

    def test_signal(self) -> None:
        """A signal holds, and ends the session."""
        page = self.page()
        self.load(page, SLOW)
        self.cuts(page)
        self.server.send_signal(signal.SIGTERM)
        self.assertEqual(self.server.wait(PATIENCE_S), -signal.SIGTERM)
        self.player.wait(PATIENCE_S)
        self.assertIn("half-done", told_of_device())


class Ramps(Served):
    """A player with ramps: its motors are held, and go slower."""

    MACHINE = "[motion]\naccel_mm_s2 = [500, 500, 300]\nmost_percent = 120\n"

    def test_held(self) -> None:
        """The motors stand with lines in hand; `release` carries them out; `quit` asks about a half-done line."""
        page = self.page()
        self.load(page, "G21 G90\nG0 X0\nG1 X40 F60\nM2\n")
        page.until("its times are exact", lambda state: page.job() and page.job()["exact"])
        job = page.job()
        # 1 mm/s at 500 mm/s2 is 2 ms of each slope, of which half is lost
        self.assertTrue(40_000_000 < job["ramps_us"] < 40_100_000, job)
        self.cuts(page)
        self.assertEqual(page.post("percent", {"percent": 50}), (200, {}))
        page.until("it goes slower", lambda state: state["percent"] == 50)
        page.post("hold")
        state = page.until("it is held", lambda state: not state["busy"])
        self.assertEqual((state["held_motors"], state["does"], state["word"]), (True, "held", "Held"))
        self.assertEqual(self.link.ask().behind, state["behind"])
        self.assertGreater(state["behind_mm"], 0)
        page.post("release")
        state = page.until("all is carried out", lambda state: not state["busy"] and not state["held_motors"])
        self.assertEqual((state["behind"], state["does"]), (0, "held"))
        page.post("quit")
        state = page.asked()
        self.assertIn("quit? yes ends", state["question"]["text"])
        page.agree(state)
        self.assertTrue(page.last()["over"])

    def test_spindle(self) -> None:
        """The spindle is overridden while a program runs, and at rest; what the machine's file doesn't allow isn't
        taken. What `ngc` knows stays the program's speed."""
        page = self.page()
        state = page.next()
        self.assertEqual((state["spindle_percent"], state["most_percents"]), (100, [120, 100]))
        self.load(page, "G21 G90\nM3 S1000\nG1 X40 F60\nM2\n")
        self.cuts(page)
        self.assertEqual(page.post("spindle", {"percent": 50}), (200, {}))
        state = page.until("it turns slower", lambda state: state["spindle_percent"] == 50)
        self.assertEqual((state["busy"], state["spindle"], state["speed"], state["percent"]), (True, 1, 1000.0, 100))
        self.assertEqual(self.link.ask().spindle, 50)
        self.assertEqual(page.post("spindle", {"percent": 110}), (200, {}))
        state = page.until("it is refused", lambda state: "max_rpm in [spindle]" in page.said())
        self.assertEqual((state["busy"], state["spindle_percent"]), (True, 50))
        for percent in (201, "50", -10, True, None):
            self.assertEqual(page.post("spindle", {"percent": percent})[0], 422, percent)
        page.post("hold")
        page.rested()
        self.assertEqual(page.post("spindle", {"percent": 100}), (200, {}))
        page.until("it turns as it was", lambda state: state["spindle_percent"] == 100 and not state["busy"])
        self.assertEqual(self.link.ask().spindle, 100)


class WithRamps(SocketMachine):
    """A player with a machine's file."""

    wants = 340


class Moves(Served):
    """Home, jog, seek and touch-off, by a player that makes moves without lines."""

    def begin_player(self) -> None:
        """A player in this process, and a reader of OUT."""
        self.pipe = os.open("axis", os.O_RDONLY | os.O_NONBLOCK)
        self.addCleanup(os.close, self.pipe)
        self.machine = WithRamps(os.path.abspath("axis"))
        self.addCleanup(self.machine.close)

    def moved(self, page: Page, what: str, words: dict) -> dict:
        """How all stands once a move is over."""
        before = page.rested()["entries"]
        self.assertEqual(page.post(what, words), (200, {}), page.said())
        return page.until("it is over", lambda state: not state["busy"] and state["entries"] > before)

    def test_moves(self) -> None:
        """Each ends where the player says; `ngc` is told so."""
        page = self.page()
        self.assertEqual((page.next()["machine"], page.next()["homed"]), ("stands", ""))
        state = self.moved(page, "home", {"axes": "XYZ"})
        self.assertEqual((state["at"], state["homed"]), (["-298.000000", "-198.000000", "-2.000000"], "XYZ"))
        state = self.moved(page, "jog", {"axis": "X", "sign": 1, "rate": "600", "length": "8"})
        self.assertEqual((state["at"][0], self.machine.axes.words[-1].split()[2:]),
                         ("-290.000000", ["X+", "600", "for", "8"]))
        state = self.moved(page, "seek", {"axis": "Z", "sign": -1, "rate": "60", "within": "10"})
        self.assertEqual(state["touched"], ["-290.000000", "-198.000000", "-5.000000"])
        self.assertEqual(page.post("zero", {"axes": {"X": "0", "Z": "10"}}), (200, {}))
        page.agree(page.asked())  # it is far from the zero before
        state = page.until("it is over", lambda state: not state["busy"] and state["undo"])
        self.assertEqual((state["work"][0], state["work"][2], state["undo"]),
                         ("0.000000", "10.000000", "G10 L2 P1 X0 Y0 Z0"))
        state = self.moved(page, "undo", {})
        self.assertEqual((state["work"][0], state["undo"]), ("-290.000000", ""))
        self.moved(page, "touch", {"slot": 1, "height": "-9", "probe": True})
        state = page.until("it is read", lambda state: state["tools"])
        self.assertEqual((state["tools"], state["touched"]), (["4.000000"], None))  # its place counts once
        stood = page.rested()["motors"]
        self.assertEqual(page.post("mdi", {"line": "G91 G28 Z0"}), (200, {}))
        self.assertTrue(page.asked()["question"]["text"].startswith("G28 moves X, Y and Z, through what stands there"))
        page.post("hold")
        self.assertEqual(page.rested()["motors"], stood)
        for what, words in (("jog", {"axis": "A", "sign": 1, "rate": "1"}), ("jog", {"axis": "X", "sign": 2}),
                            ("home", {"axes": "ZX"}), ("zero", {"axes": {}}), ("zero", {"axes": {"X": "0 probe"}}),
                            ("seek", {"axis": "Z", "sign": -1, "rate": "60"}), ("touch", {"slot": "1 2"})):
            self.assertEqual(page.post(what, words)[0], 422, words)

    def jogs(self) -> int:
        """How often the player was told to jog, or to jog on."""
        return len([word for word in self.machine.axes.words if " Y- 300" in word])

    def test_held(self) -> None:
        """A jog goes on while its wish is repeated, and ends when that is let go, isn't repeated, or somebody holds."""
        page = self.page()
        ends = (lambda: page.post("jogstop", {"press": 1}), lambda: None, lambda: page.post("hold"))
        for press, end in enumerate(ends, 1):
            before = page.rested()["entries"]
            wish = {"axis": "Y", "sign": -1, "rate": "300", "press": press}
            count = self.jogs()
            while self.jogs() < count + 2:
                self.assertEqual(page.post("jog", wish), (200, {"goes": True}))
                page.next()
            end()
            page.until("it is over", lambda state, before=before: not state["busy"] and state["entries"] > before)
            self.assertIn("stop", self.machine.axes.words)
        count = len(self.machine.axes.words)
        self.assertEqual(page.post("jogstop", {"press": 7}), (200, {}))
        self.assertEqual(page.post("jog", wish | {"press": 7}), (200, {"goes": False}))  # it comes late
        self.assertFalse(page.rested()["moving"])
        self.assertEqual(len(self.machine.axes.words), count)

    def test_held_by_another(self) -> None:
        """A hold of a page that watches ends the press: the finger that stays on the button starts nothing."""
        page, other = self.page(), self.page(OTHER)
        wish = {"axis": "Y", "sign": -1, "rate": "300", "press": 1}
        before = page.rested()["entries"]
        while self.jogs() < 2:
            self.assertEqual(page.post("jog", wish), (200, {"goes": True}))
            page.next()
        other.post("hold")
        page.until("it is over", lambda state: not state["busy"] and state["entries"] > before)
        count = len(self.machine.axes.words)
        self.assertEqual(page.post("jog", wish), (200, {"goes": False}))
        self.assertFalse(page.rested()["moving"])
        self.assertEqual(len(self.machine.axes.words), count)

    def test_alarm(self) -> None:
        """It is shown in capitals, and home alone is taken."""
        page = self.page()
        self.machine.axes.alarm("emergency_stop")
        state = page.until("it is told", lambda state: state["alarm"])
        self.assertEqual((state["word"], state["tone"], state["alarm"]), ("ALARM", "fail", "emergency_stop"))
        page.post("run")
        state = page.until("it is refused", lambda state: "home comes first" in page.said() and not state["busy"])
        self.assertTrue(state["detail"].endswith("Home comes first"), state["detail"])
        self.machine.axes.refuses = "the emergency stop is on"
        page.post("home", {})
        page.until("it is told", lambda state: state["detail"] == "home: the emergency stop is on")
        state = self.moved(page, "home", {})
        self.assertEqual((state["word"], state["alarm"], state["broken"]), ("Idle", "", False))
        self.assertEqual(page.post("restart")[0], 409)
        self.machine.axes.word = "broken"
        page.until("that is told", lambda state: state["broken"] and state["word"] == "Broken off")
        self.assertEqual(page.post("restart"), (200, {}))
        page.until("another session goes on with that player", lambda state: state["word"] == "Idle")
        self.assertIn(b"anew", self.machine.others)

    def test_axis_without_home(self) -> None:
        """Of an axis that can't be homed a page tells where it stands; what the player counts isn't taken for it."""
        page, axes = self.page(), self.machine.axes
        axes.switches, axes.at_nm, axes.home_at[1] = "XZ", [0, 7_000_000, 0], 7_000_000
        axes.alarm("limits")
        self.assertEqual(page.until("it is told", lambda state: state["alarm"])["left"], "")
        self.assertIn("home comes first", page.post("stands", {"at": {"Y": "8.5"}})[1]["refused"])
        self.assertEqual(page.post("home", {}), (200, {}))
        state = page.until("an axis is left", lambda state: state["left"])
        self.assertEqual((state["left"], state["homed"], state["word"], state["motors"][1]),
                         ("Y", "XZ", "ALARM", "7.000000"))
        self.assertIn("Not homed: Y.", state["detail"])
        for at in (None, {}, ["1", "2", "3"], {"A": "1"}, {"Y": "player"}, {"Y": 8.5}, {"Y": "8\nquit"}):
            self.assertEqual(page.post("stands", {"at": at})[0], 422, at)
        for at, says in (({"Z": "-2"}, "Write where each axis is that isn't homed, in mm: the player counts X"),
                         ({"X": "1", "Y": "8.5"}, "the player doesn't take that")):
            self.assertIn(says, page.post("stands", {"at": at})[1]["refused"])
        state = page.rested()
        self.assertEqual((state["left"], state["entries"]), ("Y", 0))
        self.assertEqual(page.post("stands", {"at": {"Y": "8.5"}}), (200, {"refused": ""}))
        state = page.until("it is over", lambda state: not state["alarm"])
        self.assertEqual((state["left"], state["word"], state["at"]),
                         ("", "Idle", ["-298.000000", "8.500000", "-2.000000"]))


class Power(Served):
    """A loss of power with a pipe: the machine is told where it stands, and goes straight back."""

    def test_resume(self) -> None:
        """Rehearsal, reference, resume, which stops after the switch and asks."""
        page = self.page()
        self.load(page, CUT)
        session = self.cuts(page, 5)["session"]
        self.pull()
        self.begin()
        page = self.page()
        state = page.next()
        self.assertEqual((state["word"], state["line"], state["spindle"], state["known"], state["recover"]),
                         ("Half-done", 5, 0, False, None))
        self.assertNotEqual(state["session"], session)
        page.until("it is drawn", lambda state: page.job())
        self.assertTrue(page.job()["known_start"])
        said = page.post("rehearse", {"at": ["0.5", "0", "2"]})[1]
        self.assertEqual((said["begins"][0], said["approach"]["down"], said["refused"]), ("2.000000", "2.000", ""))
        self.assertIn("DOWN 2.000 mm, to Z 0.000, and 1.500 mm sideways at once, at the feed that was cut off, or a"
                      " slower one.", said["approach"]["warnings"][0])
        at = ["2.000000", "0.000000", "0.100000"]
        self.assertEqual(page.post("reference", {"at": at, "anyway": True})[0], 200)
        state = page.until("it is known", lambda state: state["known"])
        self.assertEqual(page.post("resume")[0], 200)
        state = page.asked()
        self.assertIn("How fast there, in mm a minute? It was cut off at 12;", state["question"]["text"])
        page.agree(state, "12")
        page.agree(page.asked())  # the spindle
        state = page.asked()
        self.looks(page, state, at)
        page = self.page(OTHER)
        self.assertEqual(page.post("takeover")[0], 200)
        again = page.until("it is taken over", lambda state: state["yours"])
        self.assertEqual(again["question"], state["question"])
        self.looks(page, again, at)
        page.agree(again)
        state = page.until("it is there", lambda state: "with the cut" in (state["question"] or {"text": ""})["text"])
        self.assertEqual((state["motors"], state["moving"]), (["2.000000", "0.000000", "0.000000"], False))
        page.agree(state)
        state = page.until("it goes on", lambda state: float(state["motors"][0]) < 2 and state["moving"])
        self.assertEqual((state["line"], state["word"]), (5, "Running"))


    def looks(self, page: Page, state: dict, at: list[str]) -> None:
        """The spindle turns, nothing has moved, and a yes isn't taken before all three things are looked at."""
        question = state["question"]
        self.assertEqual((state["motors"], state["spindle"], state["moving"], question["purpose"]),
                         (at, 1, False, "look"))
        self.assertEqual(question["looks"][0], "On, as it should be: the spindle, clockwise at 100")
        for seen in ({}, {"seen": 2}, {"seen": True}, {"seen": [1, 1, 1]}):
            self.assertEqual(page.post("answer", {"question": question["id"], "yes": True} | seen)[0], 422)


class WithoutPlayer(InFolder):
    """Nobody tells where the motors are, or moves them but by the lines of `ngc`."""

    def test_rate(self) -> None:
        """That its own way goes at the traverse rate is said in the rehearsal, and at the look, before it goes."""
        self.device()
        program = "M3 S100\nG21 G90 G94\nG1 X0.1 F6\nM2\n"
        self.run_ngc(f"load {len(program)}\n{program}start\ntick 30\n", "before")
        server = self.start("ngc-page", "mill.dev", "first.toml", "out", "--ngc", ngc(), "--listen", "127.0.0.1:0")
        page = Page(server.stdout.readline().strip())
        self.addCleanup(page.close)
        said = page.post("rehearse", {"at": ["0", "0", "0.02"]})[1]
        self.assertEqual((said["approach"]["rate"], said["approach"]["warnings"][0]),
                         ("the traverse rate", "It goes DOWN 0.020 mm, to Z 0.000, at the traverse rate."))
        self.assertEqual(page.post("reference", {"at": ["0", "0", "0.02"]})[0], 200)
        self.assertEqual(page.post("resume")[0], 200)
        state = page.asked()
        self.assertEqual((state["question"]["purpose"], state["question"]["looks"][2]), (
            "look", "The straight way is free, all of it at the traverse rate, and my hand is at Hold"))
        self.assertEqual(Path("out").read_text(), "S 1 100.000000 0 0 0 0\n")


class PowerOfFile(Served):
    """A loss of power with a file: the motors go back along it."""

    OUT = "out"

    def test_recover(self) -> None:
        """What `recover` would do is told before; its questions, its way, the switch, and on to the end."""
        page = self.page()
        self.load(page, CUT)
        self.cuts(page, 5)
        self.pull()
        self.begin()
        page = self.page()
        state = page.next()
        recover = state["recover"]
        self.assertIn("they make at most", state["past"])
        self.assertEqual((recover["way"]["back"], recover["problem"], recover["at"]),
                         (True, "", ["2.000000", "0.000000", "0.000000"]))
        said = page.post("rehearse", {"recover": True})[1]
        stands = [round(1000 * float(number)) for number in recover["stands"]]
        self.assertEqual((said["along"][0], said["along"][-1], said["approach"]["length"], said["refused"]),
                         (stands, [2000, 0, 0], "0.000", ""))
        self.assertEqual(page.post("recover")[0], 200)
        state = page.asked()  # nobody has confirmed where the record has them
        self.assertIn("Do they stand there?", state["question"]["text"])
        page.agree(state)
        state = self.look(page)
        self.assertEqual((state["motors"], state["spindle"], state["question"]["purpose"]),
                         (recover["stands"], 1, "look"))
        page.agree(state)
        state = page.until("it is there", lambda state: "with the cut" in (state["question"] or {"text": ""})["text"])
        self.assertEqual(state["motors"], ["2.000000", "0.000000", "0.000000"])
        page.agree(state)
        state = page.until("it goes on", lambda state: float(state["motors"][0]) < 2 and state["moving"])
        self.assertEqual((state["line"], state["word"]), (5, "Running"))

    def test_before_the_player(self) -> None:
        """`ngc` is begun again before the player is back: it says why that can't be, at each try, also where the socket
        of the one that was killed stays, and once the player is back it begins. Before that no place is told, since the
        player isn't there to be told too."""
        page = self.page()
        state = page.next()
        for stays, why in ((True, "Connection refused"), (False, "No such file or directory")):
            self.player.kill()
            self.player.wait()
            if not stays:
                os.unlink("progress")
            page.until("it is seen", lambda state: state["player_gone"])
            self.assertEqual(page.post("reference", {"at": ["1", "0", "0"], "anyway": True}), (409, {
                "why": "the player is gone. Start it, then Start ngc again"}))
            self.assertEqual(page.next()["at"], state["at"])
            for _ in range(3):
                status, said = page.post("restart")
                self.assertEqual((status, said["why"].partition(": ")[2]), (422, f"no player listens there: {why}"))
            self.begin_player()
            self.assertEqual(page.post("restart"), (200, {}))
            state = page.until("it begins", lambda now, last=state: now["session"] != last["session"]
                               and not now["ended"])

    def test_measured(self) -> None:
        """Where somebody measured another place than the record's, the player takes that, and legs lead back from it.
        Of one outside of the travel it is said why it isn't taken, and nothing follows."""
        page = self.page()
        self.load(page, CUT)
        self.cuts(page, 5)
        self.pull()
        self.begin()
        page = self.page()
        stood = page.next()["motors"]
        self.assertEqual(page.post("recover", {"at": ["0", "0", "1001"]}), (200, {}))
        state = page.rested()
        self.assertEqual((state["motors"], state["question"]), (stood, None))
        self.assertRegex(page.said(), "refused X2 OutsideTravel: .*Z")
        measured = [stood[0], "0.250000", stood[2]]
        self.assertEqual(page.post("recover", {"at": measured}), (200, {}))
        state = page.asked()
        self.assertIn("by legs then: straight up, over, and down", state["question"]["text"])
        self.assertEqual((state["motors"], state["recover"]["way"], state["past_mm"]), (measured, None, ""))
        self.assertIn("by the record the motors aren't on the path of OUT", page.said())
        page.agree(state, "-5")
        state = page.asked()  # a height that isn't taken is asked for again, with why
        self.assertIn("Z -5 lies below Z 0.000000: legs go up first", state["question"]["text"])
        self.assertEqual(state["motors"], measured)

    def look(self, page: Page) -> dict:
        """Agrees to all that is asked, up to the look at the machine; the state then, or where nothing more is asked.
        """
        while True:
            state = page.until("it asks, or is through", lambda state: not state["busy"] or state["question"] and
                               state["question"]["id"] not in page.answered)
            if not state["question"] or state["question"]["purpose"] == "look":
                return state
            self.assertFalse(state["moving"])
            page.agree(state, "1" if state["question"]["kind"] == "text" else "")


class Jobs(InFolder):
    """What is drawn, without a server."""

    def test_segments(self) -> None:
        """Each line of each example has as many segments as `ngc run` opens."""
        Path("coarse.toml").write_text(COARSE)
        for name in ("ring", "pocket", "bolts", "bores", "face", "percent"):
            subprocess.run([ngc(), "format", f"{name}.dev"], check=True, capture_output=True)
            console = Console(ngc(), f"{name}.dev", "coarse.toml", f"out-{name}")
            self.addCleanup(console.kill)
            for number, length in enumerate((50, 62.5, 0), 1):
                console.ask(f"tool {number} {length}")
            text = (EXAMPLES / f"{name}.ngc").read_bytes()
            console.load(text)
            job = job_of(DrawingRequest(ngc(), "coarse.toml", "", Path(f"{name}.dev").read_bytes(), True, False))
            console.ask("start")
            opened: dict[int, int] = {}
            while not any(reply in ("idle", "stopped") or reply.startswith("refused")
                          for reply in console.ask("tick 1")):
                status = console.status()
                if status.half == "program":
                    line = text.count(b"\n", 0, status.place) + 1
                    opened[line] = max(opened.get(line, 0), status.segment + 1)
            self.assertEqual({line: len(own) for line, own in job.segments.items() if line in opened}, opened, name)
            self.assertEqual(set(opened) - set(job.segments), set(), name)

    def test_offsets(self) -> None:
        """A job begins with the device's own offsets, and its exact times are those of the pulses."""
        self.device()
        self.run_ngc("mdi G10 L2 P1 X3 Y0 Z-1\ntick 5\nload 29\nG21 G90\nG0 X0\nM3 S5\nG0 Z0\nM2\n")
        source = DrawingRequest(ngc(), "first.toml", "", Path("mill.dev").read_bytes(), True, False)
        job = json.loads(draw_exactly(source).text)
        # 3 mm and 1 mm at 100 mm/s
        self.assertEqual([(step["p"], step["us"]) for step in job["steps"]],
                         [([0, 0, 0, 3000, 0, 0], 150_000), ([3000, 0, 0, 3000, 0, -1000], 50_000)])
        self.assertEqual(job["segments"], {"2": [0], "3": [SWITCH] * 2, "4": [1], "5": [SWITCH]})
        self.assertTrue(job["exact"])
        self.assertFalse(json.loads(draw(source).text)["exact"])


    def test_preview(self) -> None:
        """What was drawn of a text before it was loaded is that of the device's program, if all else stands as then."""
        self.device()
        before = Path("mill.dev").read_bytes()
        text = b"G21 G90\nG0 X1\nM2\n"
        preview = DrawingRequest(ngc(), "first.toml", "", before, True, False, text)
        self.run_ngc(f"load {len(text)}\n{text.decode()}")
        loaded = DrawingRequest(ngc(), "first.toml", "", Path("mill.dev").read_bytes(), True, False)
        self.assertEqual(draw(preview).text, draw(loaded).text)
        self.assertTrue(loaded.begins_as(preview))
        for other in (replace(preview, other=b"M2\n"), replace(preview, block_delete=True)):
            self.assertFalse(loaded.begins_as(other))
        self.run_ngc("mdi G10 L2 P1 X3\ntick 5\n")
        self.assertFalse(replace(loaded, image=Path("mill.dev").read_bytes()).begins_as(preview))

    def test_differs(self) -> None:
        """What a line of one's own makes of the rest of a program is told, with the time that it takes."""
        self.device()
        program = b"G21 G90\nG1 X0.1 F6\nM0\nX0\nM2\n"
        self.run_ngc(f"load {len(program)}\n{program.decode()}")
        begun = Path("mill.dev").read_bytes()
        drawing = draw_exactly(DrawingRequest(ngc(), "first.toml", "", begun, True, False))
        for line, differs in (("", []), ("mdi G0 X0.1\ntick 9\n", [
                "Line 4 goes by a traverse to X 0.000 Y 0.000 Z 0.000. As it was drawn, it cuts to X 0.000 Y 0.000"
                " Z 0.000.", "From line 4 to the end it takes 0.005 s. As it was drawn, that takes 1.000 s."])):
            Path("mill.dev").write_bytes(begun)
            self.run_ngc(f"start\ntick 9999\n{line}")
            asked = RehearsalRequest(ngc(), "first.toml", Path("mill.dev").read_bytes(), None, drawing, None)
            self.assertEqual(rehearsed(asked)["differs"], differs)

    def test_refused(self) -> None:
        """Where a block can't be taken up it is told what is refused, and what can be done."""
        self.device()
        program = b"G21 G90\nG1 X0.1 F6\nM2\n"
        self.run_ngc(f"load {len(program)}\n{program.decode()}start\ntick 20\n")
        Path("first.toml").write_text(FIRST.replace("high_nm = [1000000000", "high_nm = [50000"))
        for at, says in (("0.06", "reference 0.06 0 0: refused X2 OutsideTravel: X 0.06 is outside the travel, which"
                          " ends at 0.05 (high_nm of the settings)"),
                         ("0.02", "resume: refused X2 OutsideTravel: the end of a move lies outside the travel")):
            asked = RehearsalRequest(ngc(), "first.toml", Path("mill.dev").read_bytes(), [at, "0", "0"], None, None)
            said = rehearsed(asked)
            self.assertTrue(said["refused"].startswith(says), said)
            self.assertIn("\nIs a coordinate wrong? Write it anew: step 2.", said["refused"])
            self.assertEqual((said["begins"], said["approach"]), ([], None))


class PageWords(unittest.TestCase):
    """What is refused and warned of names the page's buttons, and no word that is typed at a console."""

    def test_words(self) -> None:
        """Each of these is said by the core."""
        for said, shown in (
                ("held before line 5: G1: run goes on; a line of G-code, as M5, is done and ends the hold; then home",
                 "held before line 5: G1: Continue goes on; a line of G-code, as M5, is done and ends the hold"),
                ("line 5: G1 X1 runs: hold first", "line 5: G1 X1 runs: Hold first"),
                ("held in segment 0 of line 5: G1 X1: run goes on; to give the block up: quit, start again, abandon. No"
                 " other line is done before that", "held in segment 0 of line 5: G1 X1: Continue goes on, and Stop"
                 " ends it. No other line is done before that"),
                ("segment 0 of line 4: X2 is half-done. rehearse says what resume would do; reference player, or"
                 " reference X Y Z, then resume or abandon, and home after that",
                 "segment 0 of line 4: X2 is half-done. Recover takes it up, or gives it up"),
                ("nothing is done: the motors are held with 5 lines in hand. release lets them carry those out, and run"
                 " goes on", "nothing is done: the motors are held with 5 lines in hand. Go on carries those out"),
                ("the player says that the motors are at X0 Y0 Z1, and ngc takes them to be at X0 Y0 Z0: 1.000 mm"
                 " apart. Nothing is done.\n  reference player takes the player's point; run anyway goes on from ngc's",
                 "The player counts X0 Y0 Z1, and the last line ended at X0 Y0 Z0: 1.000 mm apart. Nothing is done."
                 " Where is it? asks which is so; home tells it anew"),
                ("refused K3 PlaceUnknown: it isn't known where the machine stands: reference player, or reference X Y"
                 " Z", "it isn't known where the machine stands: home, or tell where it is"),
                ("the setter wasn't touched since the machine moved last, or its place was used: seek Z- RATE within"
                 " MM, and then touch tool 3; touch tool 3 anyway takes the machine's Z as it is", "the setter wasn't"
                 " touched since the machine moved last, or its place was used: Seek the probe, and then touch Tool 3"
                 " stands on the setter"),
                ("the zero point moves by it: G92.1 first, then zero, does without it",
                 "the zero point moves by it: G92.1 under Offsets first, then Set, does without it"),
                ("takes that. G43 H2 first, then zero, does without it",
                 "takes that. G43 H2 first, then Set, does without it"),
                ("given up: run begins that line again", "given up: Run begins that line again"),
                ("nothing has moved. continue asks again; after quit the block is still half-done",
                 "nothing has moved. Continue asks again; after Quit the block is still half-done"),
                (ON_WAY, "the way of Recover isn't at its end: Recover goes on with it"),
                ("refused X2 OutsideTravel: X leaves the travel", "refused X2 OutsideTravel: X leaves the travel")):
            face = PageFace()
            face.say(said, REFUSED)
            self.assertEqual((face.log[-1].text, face.refusal), (shown, shown))

    def test_questions(self) -> None:
        """What is asked names them too; a look at the machine stays the question that it is."""
        for said, shown in (("No move leaves that; measure from Z within MM says it otherwise\nyes measures: ",
                             "No move leaves that; Keep both heights says it otherwise\nyes measures:"),
                            ("it has 3 mm, and continue goes on with that\nyes measures: ",
                             "it has 3 mm, and Continue goes on with that\nyes measures:"),
                            ("held. yes goes on; anything else stays, and recover goes on later: ",
                             "held. yes goes on; anything else stays, and Recover goes on later:"),
                            ("what was cut of it stays, and run begins it again, whole. Kept, recover or resume goes on"
                             "\nwith it. Is it given up?", "what was cut of it stays, and Run begins it again, whole."
                             " Kept, Recover goes on\nwith it. Is it given up?"),
                            ("Dropped, nothing makes them any more. Kept, recover goes on\nalong them",
                             "Dropped, nothing makes them any more. Kept, Recover goes on\nalong them"),
                            *((text, text) for text in LOOKS)):
            face, asked = PageFace(), []
            face.look = lambda: asked.append(face.question.text) or face.leave()
            self.assertFalse(face.agrees(said))
            self.assertEqual(asked, [shown])


class Bands(unittest.TestCase):
    """What the band says, of plain parts of a session."""

    def band(self, word: str, own: str, has_begun: bool = True, behind: int = 0) -> tuple[str, str, str]:
        """That of a command under way, with a line of one's own, in a program at its line 1."""
        status = Status(3, 0, ("0", "0", "0"), True, "none", 0, "idle")
        session = self.session(own, status)
        session.under = SimpleNamespace(word=word)
        session.face.last = UnderWay("line 1", status, "") if has_begun else None
        report = SimpleNamespace(word="works", waits=False, behind=behind, is_held=False)
        return Standing(session, status, report, "line 1 of 4", "", "", "", False, PAGE).band()

    @staticmethod
    def session(own: str, status: Status) -> SimpleNamespace:
        """A session with a line of one's own, that stood so before what is under way."""
        operator = SimpleNamespace(session=SimpleNamespace(own=own, is_door_open=False))
        stand = SimpleNamespace(gone="", status=status, recovery=None)
        return SimpleNamespace(ended="", stand=stand, face=PageFace(), operator=operator, under=None, held_from="")

    def test_starting(self) -> None:
        """While `ngc` looks at a program nothing is told to run; what is in hand does."""
        self.assertEqual(self.band("run", "", False)[:2], ("Starting", "idle"))
        self.assertEqual(self.band("run", "", False, 5)[:2], ("Running", "run"))

    def test_tool_change(self) -> None:
        """What follows a tool change is told where no job runs that it is of: what the player has in hand, as after the
        page's server was killed."""
        for under, more in ((SimpleNamespace(word="run"), ""),
                            (None, ". What the player has in hand, 7 lines, is carried out then")):
            session = SimpleNamespace(ended="", stand=SimpleNamespace(gone=""), face=PageFace(), under=under)
            report = SimpleNamespace(word="works", waits=True, tool=2, behind=7, is_held=False)
            status = Status(3, 9, ("0", "0", "0"), False, "program", 0, "idle")
            standing = Standing(session, status, report, "line 1 of 4", "", "", "", False, PAGE)
            self.assertEqual(standing.band(), ("Tool change", "ask", f"Put in tool 2{more}"))

    def test_way_that_was_held(self) -> None:
        """On a way of recover that was held the band names the button that goes on with it; where lines of the last
        session are in hand, those that lead on."""
        in_hand = "Recover has them carry out 7 lines in hand first; Stop lets go of these"
        for left, sent, says in ((True, True, "Recover goes on with the way that was held"), (True, False, in_hand),
                                 (False, False, "Go on carries out what was handed out")):
            operator = SimpleNamespace(session=SimpleNamespace(is_door_open=False))
            stand = SimpleNamespace(gone="", recovery={"left": left, "sent": sent})
            session = SimpleNamespace(ended="", stand=stand, face=PageFace(), operator=operator, under=None)
            report = SimpleNamespace(word="works", waits=False, behind=7, is_held=True)
            status = Status(3, 0, ("0", "0", "0"), True, "none", 0, "idle")
            standing = Standing(session, status, report, "line 1 of 4", "", "", "here", False, PAGE)
            self.assertEqual(standing.band(), ("Held", "hold", says))

    def test_typed(self) -> None:
        """Before a line of one's own begins, and after it, no line of the program is told to run."""
        self.assertEqual(self.band("run", ""), ("Running", "run", "line 1 of 4"))
        self.assertEqual(self.band("mdi", "G0 X1"), ("Running", "run", "G0 X1"))
        for word in ("mdi", "restore"):
            self.assertEqual(self.band(word, ""), ("Running", "run", ""))

    def test_typed_held(self) -> None:
        """Before the rest of a line of one's own no line of the program is named; of one that another session began
        the text isn't known."""
        report = SimpleNamespace(word="works", waits=False, behind=0, is_held=False)
        for half, own, says in (("program", "", "Before the rest of line 1 of 4"), ("mdi", "", "Continue goes on"),
                                ("mdi", "G1 X50 F300", "Before the rest of G1 X50 F300")):
            status = Status(3, 0, ("0", "0", "0"), False, half, 0, "held")
            session = self.session(own, status)
            standing = Standing(session, status, report, "line 1 of 4", "", "", "here", False, PAGE)
            self.assertEqual(standing.band(), ("Held", "hold", says))

    def test_typed_taken_up(self) -> None:
        """Nor as it is taken up after a loss of power, also once all of it is handed out."""
        report = SimpleNamespace(word="works", waits=False, behind=9, is_held=False)
        begun = Status(3, 0, ("0", "0", "0"), False, "mdi", 0, "idle")
        for now in (replace(begun, does="running"), replace(begun, half="none", known=True)):
            session = self.session("", begun)
            session.under, session.face.has_looked = SimpleNamespace(word="recover"), True
            standing = Standing(session, now, report, "line 1 of 4", "", "", "", False, PAGE)
            self.assertEqual(standing.band(), ("Running", "run", ""))


class Faces(unittest.TestCase):
    """The face that pages see, without a session."""

    def setUp(self) -> None:
        """A face that does something whenever it looks while a page is asked."""
        self.face = PageFace()
        self.looks: list[Callable[[PageFace], object]] = []
        self.face.look = lambda: self.looks.pop(0)(self.face) if self.looks else None

    def test_answers(self) -> None:
        """What is typed, a yes, and anything else; a look at the machine is told from other questions."""
        def answer(text: str) -> Callable[[PageFace], object]:
            return lambda face: face.answer(face.question.id, text)

        self.face.begin(0)
        self.looks = [answer("1.5"), answer("yes"), answer("no"), answer("yes")]
        self.assertEqual((self.face.ask("Up to which Z? "), self.face.agrees("Go? "), self.face.agrees("Go? ")),
                         ("1.5", True, False))
        self.assertFalse(self.face.has_looked)
        self.assertEqual((self.face.agrees(SWITCHED), self.face.has_looked, self.face.question), (True, True, None))

    def test_tool_on_the_way(self) -> None:
        """A tool that comes on the way of recover is in once somebody says so by the button of tool changes too; no
        other question is answered by it."""
        session = PageSession.__new__(PageSession)
        session.face, session._wake, session._next, session._stops = self.face, threading.Condition(), None, False
        session.under = SimpleNamespace(word="recover")
        self.face.begin(0)
        self.looks = [lambda _: session.tell("go")]
        self.assertEqual(self.face.ask(f"tool 2 comes on the way: put it in{TYPE_GO}"), "go")
        self.looks = [lambda _: session.tell("go"), lambda face: face.answer(face.question.id, "no")]
        self.assertEqual((self.face.ask("Up to which Z? "), self.face.asides()), ("no", ["go"]))

    def test_holds(self) -> None:
        """A wish to hold is a no, and holds the command that was given before it, though that hadn't begun."""
        self.face.begin(self.face.holds)
        self.looks = [lambda face: face.hold()]
        self.assertEqual((self.face.agrees("Go? "), self.face.interrupted()), (False, True))
        given = self.face.holds
        self.face.hold()
        self.face.begin(given)
        self.assertTrue(self.face.interrupted())
        self.face.begin(self.face.holds)
        self.assertFalse(self.face.interrupted())
        self.looks = [lambda face: face.leave()]
        self.assertEqual((self.face.ask("Where? "), self.face.is_gone()), ("", True))

    def test_failing_look(self) -> None:
        """Where `ngc` ends while a page is asked, nothing is asked any more."""
        def fail(_: PageFace) -> None:
            raise NoAnswer("gone")

        self.looks = [fail]
        with self.assertRaises(NoAnswer):
            self.face.ask("Where? ")
        self.assertIsNone(self.face.question)
        self.assertFalse(self.face.answer(1, "here"))


class Told(unittest.TestCase):
    """What a page is told of the log."""

    def test_question(self) -> None:
        """With a question that is asked as the page is told comes what was said before it, and nothing that came later
        than the rest."""
        face, pages = PageFace(), MagicMock(commands=PAGE, on_loss="holds")
        face.say("it would stop at line 3", REFUSED)
        for asks, heard in ((True, ["it would stop at line 3", "look at the travel"]),
                            (False, ["it would stop at line 3"])):
            def stands(*_: object, asks: bool = asks) -> dict:
                face.say("look at the travel")
                return {"question": {"id": 10**6} if asks else None}

            with patch.object(server_module, "state_of", stands):
                server = SimpleNamespace(session=SimpleNamespace(face=face), pages=pages)
                said, last = server_module.Server.state(server, PAGE, 0)
            self.assertEqual([entry["text"] for entry in json.loads(said)["log"]], heard)
            self.assertEqual(last, json.loads(said)["log"][-1]["id"])
            face.log.pop()


class Given(unittest.TestCase):
    """What is given to a session while something runs."""

    def test_aside(self) -> None:
        """What a command didn't take up is done at its end, not within the next one."""
        session, done = PageSession.__new__(PageSession), []
        session.face, session.stand = PageFace(), SimpleNamespace(status=None)
        session.operator = SimpleNamespace(do=done.append, over=False, runs=SimpleNamespace(ends=0))
        session.face.give_aside("percent 50")
        session._do(SessionCommand("tool", lambda: done.append("tool"), 0, 0))
        self.assertEqual((done, session.face.asides()), (["tool", "percent 50"], []))

    def test_aside_behind_a_hold(self) -> None:
        """What was given behind a hold, as `off` at a question, isn't held by it; what was given before it is."""
        session, held = PageSession.__new__(PageSession), []
        session.face, session.stand = PageFace(), SimpleNamespace(status=None)
        def does(line: str) -> None:
            held.append((str(line), session.face.interrupted()))

        session.operator = SimpleNamespace(do=does, over=False, runs=SimpleNamespace(ends=0))
        session.face.give_aside("single on")
        session.face.hold()
        session.face.give_aside("off")
        session._do(SessionCommand("tool", lambda: does("tool"), 0, 0))
        self.assertEqual(held, [("tool", True), ("single on", True), ("off", False)])

    def test_late(self) -> None:
        """What is given once a command is through, while the session looks how all stands, is done then, before the
        next one."""
        session, done = PageSession.__new__(PageSession), []
        session.face, session.stand = PageFace(), SimpleNamespace(status=None, report=None)
        session.operator = SimpleNamespace(do=done.append, over=False, runs=SimpleNamespace(ends=0))
        session.ended, session.over, session._wake = "", threading.Event(), threading.Condition()
        session.under, session._next, session._stops = None, None, False

        def look() -> None:
            """Something is given, and then the next command."""
            if done == ["tool"]:
                session.tell("single on")
                session._next = SessionCommand("run", lambda: done.append("run"), 0, 0)
            elif "run" in done:
                session.over.set()

        session._look, session._see_end, session._see_place = look, lambda *_: None, lambda _: None
        session.give("tool", lambda: done.append("tool"))
        session._work()
        self.assertEqual(done, ["tool", "single on", "run"])

    def test_looks_at_rest(self) -> None:
        """Once at each place where the motors rest it is looked at what recover would do, also where that fails; not
        while something is under way, held or in hand."""
        session, looks = PageSession.__new__(PageSession), []
        session.face, session.under, session._rests_at = PageFace(), None, None
        session._look_at_way, session._see_carried_out = lambda: looks.append(1), MagicMock()
        idle = Status(5, 0, ("0", "0", "0"), True, "program", 0, "idle")
        at, on = (SimpleNamespace(carried=carried, at=f"{carried} 0 0", behind=0) for carried in (3, 5))
        for under, status, report, count in (
                (None, idle, at, 1), (None, idle, at, 1), (SimpleNamespace(word="jog"), idle, on, 1),
                (None, replace(idle, does="held"), on, 1), (None, idle, SimpleNamespace(**vars(on) | {"behind": 2}), 1),
                (None, idle, on, 2), (None, idle, on, 2), (None, idle, at, 3)):
            session.under = under
            session._look_at_rest(status, report)
            self.assertEqual(len(looks), count)
        session._look_at_way = MagicMock(side_effect=NoAnswer("no record"))
        for _ in range(2):
            session._look_at_rest(idle, on)
        self.assertEqual((session._look_at_way.call_count, session.face.log[-1].text), (1, "no record"))

    def test_finished(self) -> None:
        """A program that ran to its end isn't finished any more once another run, a move or a load is given, though
        that isn't begun yet; other commands leave it finished."""
        for word, is_finished in (("run", False), ("home", False), ("load", False), ("zero", True), ("tool", True)):
            session = PageSession.__new__(PageSession)
            session.face, session._wake, session.over = PageFace(), threading.Condition(), threading.Event()
            session.ended, session.under, session._next, session._stops = "", None, None, False
            session.is_finished = True
            session.give(word, lambda: None)
            self.assertEqual((session.is_busy, session.is_finished), (True, is_finished), word)


    def test_through(self) -> None:
        """It isn't finished as long as lines of it are in hand, as where the motors are held before its end; nor by a
        line of one's own that goes on, or is taken up, while the program stands at its beginning."""
        at_start = Status(5, 0, ("0", "0", "0"), True, "none", 0, "idle")
        for word, ends, behind, is_finished in (("run", 1, 2, False), ("run", 1, 0, True), ("run", 0, 0, False),
                                                ("recover", 0, 0, False), ("resume", 0, 0, False)):
            session = PageSession.__new__(PageSession)
            session.face = PageFace()
            session.operator = SimpleNamespace(console=SimpleNamespace(status=lambda: at_start), over=False,
                                               runs=SimpleNamespace(ends=0), session=MagicMock())
            session.operator.session.seen.behind, session.operator.session.program.way = behind, (0, 1)
            session._see_place = lambda _: None
            does = partial(setattr, session.operator.runs, "ends", ends)
            session._do(SessionCommand(word, does, 0, 0))
            self.assertEqual(session.is_finished, is_finished, (word, ends, behind))


class Shown(unittest.TestCase):
    """What a page is told of a session, of plain parts of it."""

    def pictured(self, word: str, entries: int = 0, is_finished: bool = False) -> Pictured:
        """A program of three lines, of which so many entries were made, all or none, with a command under way."""
        pictured = Pictured.__new__(Pictured)
        pictured.session = SimpleNamespace(is_finished=is_finished, drawer=SimpleNamespace(drawing=None))
        pictured.command = SimpleNamespace(word=word) if word else None
        pictured.report = SimpleNamespace(behind=0, waits=False)
        pictured.program = Program(b"G0 X1\nG0 X2\nM2\n")
        pictured.status = Status(5 + entries, 0, ("0", "0", "0"), True, "none", 0, "idle")
        pictured.stand = SimpleNamespace(status=replace(pictured.status, entries=5), report=None, gone="",
                                         recovery=None)
        return pictured

    def test_last_line(self) -> None:
        """Once all is handed out it is the last line that runs, until the motors are through."""
        for word, entries, number in (("run", 0, 1), ("run", 3, 3), ("recover", 3, 3), ("mdi", 1, 1), ("", 3, 1)):
            self.assertEqual(self.pictured(word, entries).number, number, (word, entries))

    def test_left(self) -> None:
        """Amid homing after an alarm nobody is asked where an axis stands as long as home is the way for one: the
        player takes no place before that."""
        pictured = self.pictured("")
        for homes, homed, left in (("XYZ", "", ""), ("XYZ", "Z", ""), ("XZ", "Z", ""), ("XZ", "XZ", "Y"),
                                   (None, "Z", "XY"), ("XYZ", "XYZ", "")):
            machine = MoveReport("stands", homed, "limits")
            pictured.session = SimpleNamespace(homes=homes)
            pictured.operator = SimpleNamespace(session=SimpleNamespace(machine=machine))
            pictured.stand = SimpleNamespace(machine=machine)
            self.assertEqual(pictured._left, left, (homes, homed))

    def test_until_over(self) -> None:
        """Once the work of a command has ended, and until the command has, what was under way last is told, and not
        what stood before it; where somebody is asked meanwhile, what stands then."""
        before, last = (Status(3, place, ("0", "0", "0"), True, "none", 0, "idle") for place in (0, 6))
        face = PageFace()
        operator = SimpleNamespace(session=SimpleNamespace(program=Program(b"G0 X1\nG0 X2\nM2\n")))
        session = SimpleNamespace(face=face, operator=operator, stand=SimpleNamespace(status=before),
                                  under=SimpleNamespace(word="run"), kept=SimpleNamespace(at=lambda *_: None))
        face.live(UnderWay("line 2", last, ""))
        face.live(None)
        self.assertEqual(Pictured(session, PAGE).status, last)
        face.question = Question(1, "go on?", "yes")
        self.assertEqual(Pictured(session, PAGE).status, before)
        face.question = None
        face.begin(0)
        self.assertEqual(Pictured(session, PAGE).status, before)

    def test_stale(self) -> None:
        """A place that wasn't known before isn't one that was known last, once the player is gone; nor is one that
        another player says as another session begins. What was said before that is, but where the player had it by its
        record alone."""
        for word, is_known, begins_at, why in (
                ("works", True, None, "player"), ("works", False, None, "power"), ("alarm", True, None, "alarm"),
                ("works", True, 4.5, "power"), ("works", True, 5.5, "player")):
            pictured = self.pictured("")
            pictured.session.begins_at = begins_at
            pictured.report.word, pictured.reported_at, pictured.face = word, 5.0, SimpleNamespace(view=None)
            pictured.status = replace(pictured.status, known=is_known)
            pictured.stand.gone = "it is gone"
            pictured.session.ended, pictured.session.opened = "", SimpleNamespace(left_at=4.0)
            for axes in ("", "XY"):
                pictured.session.past, pictured.session.past_mm, pictured.session.past_axes = "of a record", "0.4", axes
                stale = pictured._stale()
                self.assertEqual((stale["why"], stale.get("by_record", False)), (why, why == "player" and axes != ""))

    def test_two_places(self) -> None:
        """Where the motors rest elsewhere than the last line ended, their place isn't told as known while something is
        looked at that would go from there; a person who tells it knows it. What moves nothing leaves two places."""
        for word, why in (("mdi", "power"), ("run", "power"), ("restore", "power"), ("home", "power"),
                          ("reference", ""), ("hold", ""), ("", "")):
            pictured = self.pictured(word)
            pictured.report = pictured.stand.report = SimpleNamespace(behind=0, waits=False, word="works", at="1 0 0")
            pictured.face, pictured.reported_at = SimpleNamespace(view=None), time.time()
            pictured.session = SimpleNamespace(begins_at=None, ended="", opened=SimpleNamespace(left_at=4.0),
                                               settings=SimpleNamespace(step_nm=[1000] * 3))
            self.assertEqual((pictured._stale() or {"why": ""})["why"], why, word)
            self.assertEqual(pictured._apart, [not why, False, False], word)

    def test_apart_by_a_step(self) -> None:
        """Of each axis the motors are amber from a whole step on, whatever its size. They rest at their third step: a
        line that ended less than half a step from there made them stop at it, and any other at another step."""
        pictured = self.pictured("")
        for axis, step_nm in enumerate((5000, 3125, 400)):
            third, half = 3 * step_nm, step_nm // 2
            for at_nm, is_apart in ((third, False), (third - half, False), (third + half - 1, False),
                                    (third - half - 1, True), (third + half + 1, True),
                                    (third - step_nm, True), (third + step_nm, True)):
                places = ["0.000000"] * 3, ["0.000000"] * 3
                places[0][axis], places[1][axis] = millimetres(third), millimetres(at_nm)
                steps = [1000] * 3
                steps[axis] = step_nm
                pictured.report = SimpleNamespace(behind=0, waits=False, at=" ".join(places[0]))
                pictured.status = replace(pictured.status, at=tuple(places[1]))
                pictured.session = SimpleNamespace(settings=SimpleNamespace(step_nm=steps))
                self.assertEqual(pictured._apart, [is_apart and one == axis for one in range(3)], (step_nm, at_nm))

    def test_old(self) -> None:
        """While something is under way a place that was told a while ago isn't shown as the place now, as where the
        player, or this computer, stands still for a second; so it is while home leads out of an alarm."""
        pictured = self.pictured("run")
        pictured.session.begins_at, pictured.session.ended, pictured.report.word = None, "", "works"
        pictured.session.past = pictured.session.past_mm = pictured.session.past_axes = ""
        view, now = UnderWay("line 1", pictured.status, ""), time.time()
        old = {"why": "player", "at": now - 1, "by_record": False}
        for shown, at, stale in ((view, now - 1, old), (view, now, None),
                                 (None, now - 1, None), (view, 0.0, None)):
            pictured.face, pictured.reported_at = SimpleNamespace(view=shown), at
            self.assertEqual(pictured._stale(), stale, (shown, now - at))
        pictured.report.word = "alarm"
        for shown, at in ((view, now - 1), (None, 0)):
            pictured.face, pictured.reported_at = SimpleNamespace(view=shown), now - 1
            self.assertEqual(pictured._stale(), {"why": "alarm", "at": at})

    def test_finished(self) -> None:
        """Nothing is finished as long as a command is under way."""
        self.assertEqual((self.pictured("", 0, True).is_finished, self.pictured("run", 0, True).is_finished),
                         (True, False))


class Moments(unittest.TestCase):
    """When a state was so."""

    def test_of_one(self) -> None:
        """Where a command begins or ends, somebody is asked, or told where the motors are, while a state is put
        together, no part of it is of before and another of after; where that goes on and on a page sees something all
        the same."""
        session = PageSession.__new__(PageSession)
        session.face, session._wake, session._next, session._stops = PageFace(), threading.Condition(), None, False
        session.under, session.stand, session.ended = SimpleNamespace(word="run"), Stand(None), ""
        session.past_axes = "XYZ"
        changes = []

        def pictured(*_: object) -> SimpleNamespace:
            """It reads how all stands first, and what is under way last."""
            stand, told = session.stand, session.face.told
            if changes:
                changes.pop()()
            asked = session.face.question
            return SimpleNamespace(plain=lambda: (stand.gone, session.is_busy, asked and asked.text, told[1],
                                                  session.past_axes))

        def ends() -> None:
            """As the session's thread does."""
            session.stand, session.under = Stand(None, gone="it ended"), None

        def begins() -> None:
            """As a page's request does."""
            session._next = SimpleNamespace(word="run")

        def asks() -> None:
            """As the core does, once the spindle turns."""
            session.stand, session.face.question = Stand(None, gone="it turns"), Question(1, "look", "yes")

        def tells() -> None:
            """The player is where somebody told."""
            session.face.told, session.past_axes = (None, 7.0), ""

        with patch("ngc_tools.page.state.Pictured", pictured):
            for change, said in ((ends, ("it ended", False, None, 0.0, "XYZ")),
                                 (begins, ("it ended", True, None, 0.0, "XYZ")),
                                 (asks, ("it turns", True, "look", 0.0, "XYZ")),
                                 (tells, ("it turns", True, "look", 7.0, ""))):
                changes.append(change)
                self.assertEqual(state_of(session), said)
            changes.extend([session.face.publish] * 1000)
            self.assertEqual(state_of(session), ("it turns", True, "look", 7.0, ""))

    def test_now(self) -> None:
        """What a state says is at least as new as its `now`, however long the computer took to put it together."""
        clock = itertools.count(100)
        face, pages = SimpleNamespace(log=[]), MagicMock(commands=PAGE, on_loss="hold", __len__=lambda _: 1)
        server = SimpleNamespace(session=SimpleNamespace(face=face), pages=pages)
        with (patch("ngc_tools.page.server.state_of", lambda *_: {"seen_at": next(clock), "question": None}),
              patch("ngc_tools.page.server.time", SimpleNamespace(time=lambda: next(clock)))):
            text, _ = server_module.Server.state(server, PAGE, 0)
        state = json.loads(text)
        self.assertLess(state["now"], state["seen_at"])


class HeldJogs(unittest.TestCase):
    """The wish to jog, as pages repeat it."""

    def test_presses(self) -> None:
        """A press that was let go isn't taken up by a wish that comes late; the next one is."""
        jog = HeldJog()
        old, new = (Wish("X+", "600", press) for press in (2, 3))
        self.assertEqual((jog.wish(new), jog.is_wanted()), (True, True))
        jog.let_go(3)
        self.assertEqual((jog.is_wanted(), jog.wish(new), jog.wish(old)), (False, False, False))
        other = Wish("Y-", "60", 4)
        self.assertEqual((jog.wish(other), jog.is_wanted(), jog.taken), (True, True, other))
        self.assertEqual((jog.wish(new), jog.taken, jog.last), (False, other, 4))

    def test_by_keys(self) -> None:
        """One by keys holds from when the page said it; silence ends its press, which nothing takes up any more. That
        of a button goes on where its page is heard again."""
        for is_by_keys in (True, False):
            jog = HeldJog()
            wish = Wish("X+", "600", 1, 0.03, is_by_keys)
            self.assertEqual((jog.wish(wish), jog.is_wanted()), (True, True))
            time.sleep(0.04)
            self.assertFalse(jog.is_wanted())
            self.assertEqual(jog.wish(wish), not is_by_keys)
        self.assertTrue(jog.wish(Wish("X+", "600", 3, 9, True)) and jog.wish(Wish("X+", "600", 3, -0.01, True)))
        self.assertTrue(jog.is_wanted())  # one that was said before came later
        jog = HeldJog()
        self.assertEqual((jog.wish(Wish("X+", "600", 2, -0.01, True)), jog.is_wanted()), (True, False))
        self.assertEqual(jog.wish(Wish("X+", "600", 2, 9, True)), False)

    def test_ends(self) -> None:
        """A hold ends a press, and so does a jog that ends by itself; the next press is another one."""
        jog, done = HeldJog(), []

        class Refusing:
            @staticmethod
            def jog_while(*words: object) -> None:
                done.append(words[:2])

        one, two = (Wish("X+", "600", press) for press in (1, 2))
        self.assertTrue(jog.wish(one))
        jog.end()
        self.assertEqual((jog.is_wanted(), jog.wish(one)), (False, False))
        self.assertTrue(jog.wish(two))
        jog.go(Refusing)
        self.assertEqual((done, jog.wish(two), jog.wish(Wish("X+", "60", 3))), ([("X+", "600")], False, True))


class Asides(InFolder):
    """Work in processes aside."""

    def test_failed(self) -> None:
        """What a function raises is told; what is given up ends."""
        aside = Aside()
        self.addCleanup(aside.close)
        self.assertEqual(aside.call(divmod, 7, 2), (3, 1))
        with self.assertRaisesRegex(NotDone, "ZeroDivisionError"):
            aside.call(divmod, 7, 0)
        child = aside.begin(time.sleep, 1000)
        child.give_up()
        with self.assertRaises(NotDone):
            aside.finish(child)
        aside.close()
        with self.assertRaises(NotDone):
            aside.call(divmod, 7, 2)

    def test_cut_off(self) -> None:
        """What is given up as its result is under way counts as not done: a part of that is none."""
        aside = Aside()
        self.addCleanup(aside.close)
        child = aside.begin(bytes, 1 << 20)
        pipe, ended = child._said, select.poll()
        ended.register(pipe, 0)  # till nobody can write there

        def cut_off(size: int = -1) -> bytes:
            """What came before it was given up."""
            select.select([pipe], [], [])
            child.give_up()
            ended.poll()
            return pipe.read(size)

        child._said = SimpleNamespace(read=cut_off, close=pipe.close)
        with self.assertRaisesRegex(NotDone, "it was ended before it was done"):
            child.result()

    def test_interrupted_as_it_forks(self) -> None:
        """Ctrl-C as a fork begins ends that one; it heeds none as this process does, whose folders it would remove."""
        fork = os.fork

        def interrupted() -> int:
            if not (pid := fork()):
                os.kill(os.getpid(), signal.SIGINT)
            return pid

        ours, theirs = socket.socketpair(socket.AF_UNIX, socket.SOCK_SEQPACKET)
        with ours, theirs, patch.object(os, "fork", interrupted):
            _, status = forks._forked(theirs)()
        self.assertEqual(os.waitstatus_to_exitcode(status), -signal.SIGINT)
        self.assertEqual(signal.pthread_sigmask(signal.SIG_BLOCK, ()), set())

    def test_nothing_given(self) -> None:
        """A child whose parent was killed before it gave it work removes its folder all the same."""
        made, folder = forks.Forks(), Scratch("ngc-test-")
        self.addCleanup(made.close)
        for pipe in made.child(folder.name, MOST_MEMORY, MOST_CPU_S):
            pipe.close()
        self.wait_for("its folder is gone", lambda: not os.path.exists(folder.name))

    def test_forks_killed(self) -> None:
        """Where what forks children was killed another one does."""
        aside = Aside()
        self.addCleanup(aside.close)
        first = aside.call(os.getppid)
        os.kill(first, signal.SIGKILL)
        self.wait_for("it is gone", lambda: not is_alive(str(first)))
        self.assertEqual(aside.call(divmod, 7, 2), (3, 1))
        self.assertNotEqual(aside.call(os.getppid), first)

    def test_killed(self) -> None:
        """A kill of the parent leaves neither the work nor what that started behind, nor what forked it."""
        shell = 'echo $PPID $$ $(cut -d" " -f4 /proc/$PPID/stat) > pids; exec sleep 1000'
        text = ("import subprocess, sys; sys.path.insert(0, sys.argv[1]); from ngc_tools.page.aside import Aside;"
                f"Aside().call(subprocess.call, ['sh', '-c', {shell!r}])")
        asking = subprocess.Popen([sys.executable, "-c", text, str(TOOLS)])
        self.addCleanup(asking.wait)
        self.wait_for("it works", lambda: Path("pids").exists() and len(Path("pids").read_text().split()) == 3)
        pids = Path("pids").read_text().split()
        asking.kill()
        self.wait_for("all are gone", lambda: not any(map(is_alive, pids)))


class Interrupted(InFolder):
    """Ctrl-C at a moment that no signal of a test would meet."""

    def test_as_it_starts(self) -> None:
        """It comes right as the session's thread has started: that thread ends, and so does the process."""
        self.device()
        Path("out").touch()
        words = ("mill.dev", "first.toml", "out", "--listen", "127.0.0.1:0", "--ngc", ngc())
        done = subprocess.run([sys.executable, "-c", INTERRUPTED, TOOLS, *words], stdin=subprocess.DEVNULL,
                              capture_output=True, text=True, timeout=PATIENCE_S)
        self.assertEqual((done.returncode, done.stdout, done.stderr), (2, "", "ngc-page: stopped\n"))


class Words(InFolder):
    """The words of the command line."""

    def test_wrong(self) -> None:
        """What is wrong is said, with status 2."""
        self.device()
        taken = socket.create_server(("127.0.0.1", 0))
        self.addCleanup(taken.close)
        port = taken.getsockname()[1]
        for words, why in ((("mill.dev", "first.toml", "out", "--listen", "8585"), "8585: --listen takes HOST:PORT"),
                           (("mill.dev", "first.toml", "out", "--listen", "0.0.0.0:1"), "0.0.0.0:1: name the address"),
                           (("mill.dev", "first.toml", "out", "--address", "mill"), "mill: --address takes https://"),
                           (("mill.dev", "first.toml", "out", "--listen", "a:99999"), "a:99999: --listen takes"),
                           (("none.dev", "first.toml", "out"), "none.dev: there is no such device"),
                           (("mill.dev", "first.toml", "out", "--player", "none"), "none: no player listens there"),
                           (("mill.dev", "first.toml", "out", "--listen", f"127.0.0.1:{port}"), f"127.0.0.1:{port}:"
                            " pages can't come from there: Address already in use")):
            status, out, error = told(main, *words, "--ngc", ngc())
            self.assertEqual((status, out), (2, ""), words)
            self.assertIn(why, error.splitlines()[-1])


def told_of_device() -> str:
    """What `ngc-device` says of the device."""
    from ngc_tools.cli.device import main as device
    return told(device, "mill.dev")[1]


if __name__ == "__main__":
    unittest.main()
