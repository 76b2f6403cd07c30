"""Attacks on the page's server, with the key or without: Hold is taken all the same, and nothing is kept for ever."""
import base64
import http.client
import json
import os
import socket
import struct
import subprocess
import sys
import threading
import time
import unittest
from pathlib import Path
from types import SimpleNamespace
from unittest import mock

sys.path.insert(0, str(Path(__file__).resolve().parent))

from page_support import OTHER, PAGE, Page
from session_support import PATIENCE_S, TOOLS, InFolder, is_alive
from tests.aside_work import take_memory, work_for_ever

from ngc_tools import scratch
from ngc_tools.cli import page as page_module
from ngc_tools.cli.page import key_of, listening
from ngc_tools.failure import WrongWords
from ngc_tools.operator.face import MESSAGE
from ngc_tools.page import aside as aside_module
from ngc_tools.page import server as server_module
from ngc_tools.page.aside import Aside, NotDone, Wanted
from ngc_tools.page.deeds import Given
from ngc_tools.page.face import PageFace
from ngc_tools.page.jog import HeldJog
from ngc_tools.page.pages import MOST
from ngc_tools.page.server import MOST_CONNECTIONS, Server

KEY = "MmJ0pTn-Qe7Y_h3sKx4v1A"


class Session:
    """A session of which pages hold something that runs."""

    def __init__(self) -> None:
        self.face, self.jogs, self.over, self.is_busy = PageFace(), HeldJog(), threading.Event(), False
        self.held: list[str] = []
        self.heard = threading.Event()
        self.ended: list[str] = []
        self.works = threading.Event()

    def hold(self, page: str = "lost") -> None:
        """Somebody holds."""
        self.held.append(page)
        self.face.hold()
        self.heard.set()

    def check(self, page: str, text: bytes, _answers: object, wanted: object) -> tuple[dict, bytes]:
        """Looks at a program for as long as that is wanted."""
        over = threading.Event()
        wanted.by(SimpleNamespace(give_up=over.set))
        self.works.set()
        over.wait(PATIENCE_S)
        self.ended.append("check")
        return {}, text


class Served(unittest.TestCase):
    """A server over such a session."""

    def setUp(self) -> None:
        """Starts it."""
        self.enterContext(mock.patch.object(server_module, "state_of", lambda session, page: {"busy": session.is_busy}))
        self.session = Session()
        self.server = Server(KEY, self.session)
        self.server._static["large.js"] = bytes(1 << 20), "text/javascript"
        self.server.listen("127.0.0.1", listening("127.0.0.1", 0))
        self.addCleanup(self.server.close)

    def page(self, name: str = PAGE) -> Page:
        """A page that is there."""
        page = Page(f"http://127.0.0.1:{self.server.port}/{KEY}/", name)
        self.addCleanup(page.close)
        page.next()
        return page

    def connect(self, text: str = "") -> socket.socket:
        """A connection that sends something, and takes little before it is read."""
        link = socket.socket()
        self.addCleanup(link.close)
        link.settimeout(PATIENCE_S)
        link.setsockopt(socket.SOL_SOCKET, socket.SO_RCVBUF, 4096)
        link.connect(("127.0.0.1", self.server.port))
        link.sendall(text.encode())
        return link

    def head(self, what: str, more: str = "", method: str = "POST", page: str = "page-number-8") -> str:
        """The head of a request of somebody who has the key."""
        return (f"{method} /{KEY}/{what} HTTP/1.1\r\nHost: 127.0.0.1:{self.server.port}\r\nOrigin: http://127.0.0.1:"
                f"{self.server.port}\r\nX-Page: {page}\r\nContent-Type: application/json\r\n{more}\r\n")

    def line(self, name: str = PAGE) -> "Line":
        """The line of a page."""
        return Line(self.connect(upgrade(self.server.port, KEY, name)))

    def wait_for(self, what: str, holds: object) -> None:
        """Waits until something holds."""
        until = time.monotonic() + PATIENCE_S
        while not holds():
            self.assertLess(time.monotonic(), until, what)
            time.sleep(0.005)


def upgrade(port: int, key: str, name: str) -> str:
    """What a page asks for its line by."""
    return (f"GET /{key}/line?page={name} HTTP/1.1\r\nHost: 127.0.0.1:{port}\r\nOrigin: http://127.0.0.1:{port}\r\n"
            "Upgrade: websocket\r\nConnection: Upgrade\r\nSec-WebSocket-Version: 13\r\nSec-WebSocket-Key: "
            f"{base64.b64encode(bytes(16)).decode()}\r\n\r\n")


class Line:
    """The page's end of a line."""

    def __init__(self, link: socket.socket) -> None:
        """Waits until it is one. Its head is kept."""
        self.link, self.head = link, b""
        while not self.head.endswith(b"\r\n\r\n") and (piece := link.recv(1)):
            self.head += piece

    def say(self, text: str, kind: int = 0x81) -> None:
        """Sends a text."""
        mask, content = os.urandom(4), text.encode()
        masked = bytes(byte ^ mask[index % 4] for index, byte in enumerate(content))
        self.link.sendall(bytes([kind, 0x80 | len(content)]) + mask + masked)

    def hear(self) -> str:
        """The next text; nothing at its end."""
        head = self.link.recv(2, socket.MSG_WAITALL)
        return self.link.recv(head[1], socket.MSG_WAITALL).decode() if len(head) == 2 else ""


class Lines(Served):
    """The line of a page for Hold."""

    def test_hold(self) -> None:
        """RFC 6455's own example of its answer; Hold is taken and answered by a stamp, and pages say what they read."""
        page, line = self.page(), self.line()
        self.assertIn(b"HTTP/1.1 101 ", line.head)
        name = "dGhlIHNhbXBsZSBub25jZQ=="  # RFC 6455, 1.3
        sample = Line(self.connect(self.head(f"line?page={PAGE}", "Upgrade: websocket\r\nSec-WebSocket-Version: 13\r\n"
                                             f"Sec-WebSocket-Key: {name}\r\n", "GET")))
        self.assertIn(b"Sec-WebSocket-Accept: s3pPLMBiTxaQ9kYGzzhZRbK+xOo=\r\n", sample.head)
        line = self.line()
        line.say(f"beat {page.stamp}")
        line.say("", 0x89)
        line.say("hold")
        self.assertEqual(line.link.recv(2, socket.MSG_WAITALL), b"\x8a\x00")  # a pong
        word, stamp = line.hear().split(" ")
        self.assertEqual((word, stamp.partition("-")[2], self.session.held), ("held", "1", [PAGE]))

    def test_once(self) -> None:
        """A touch that is told by the line and by a request counts once; another one counts too."""
        page, line = self.page(), self.line()
        for touch, count in (("a", 1), ("b", 2), ("a", 3)):
            line.say(f"hold {touch}")
            self.assertEqual((line.hear()[:4], page.post("hold", {"touch": touch})), ("held", (200, {})))
            self.assertEqual(len(self.session.held), count)
        page.post("hold"), page.post("hold")
        self.assertEqual(len(self.session.held), 5)

    def test_refused(self) -> None:
        """Without a stream, from another site, without the key, or with other words there is none."""
        self.assertIn(b" 503 ", self.line().head)
        self.page()
        upgrade = "Upgrade: websocket\r\nSec-WebSocket-Version: 13\r\nSec-WebSocket-Key: a\r\n"
        head = self.head(f"line?page={PAGE}", upgrade, "GET")
        for text, status in ((head.replace("Origin: http://127", "Origin: http://128"), 403),
                             (head.replace("MmJ", "MmK"), 404), (head.replace("Upgrade: w", "Upgrade: x"), 400),
                             (head.replace(" 13", " 12"), 400),
                             (head.replace("Origin:", "Other:"), 400), (head.replace("page=page", "page=<b>"), 400)):
            self.assertIn(f" {status} ".encode(), Line(self.connect(text)).head)
        for kind, text in ((0x82, "hold"), (0x01, "hold"), (0x81, "run"), (0x88, "")):
            line = self.line()
            line.say(text, kind)
            self.assertEqual(line.hear(), "", (kind, text))
        line = self.line()
        line.say("beat now")
        self.assertEqual(line.hear(), "")
        line = self.line()
        line.link.sendall(struct.pack(">BBQ", 0x81, 0xFF, 1 << 40))
        self.assertEqual((line.hear(), self.session.held), ("", []))

    def test_lost(self) -> None:
        """The line of a page that is lost stays, whoever floods the server; of many such pages the last ones stay."""
        lines = []
        for number in range(2 * MOST):
            page = self.page(f"page-number-{number}")
            lines.append(self.line(page.name))
            page.close()
            self.wait_for("it is lost", lambda page=page: not self.server.pages.is_there(page.name))
        self.page()
        self.line()
        for _ in range(2 * MOST_CONNECTIONS):
            self.connect()
        for line in lines[MOST:]:
            line.say("hold")
            self.assertEqual(line.hear()[:4], "held")
        self.assertEqual([line.hear() for line in lines[:MOST]], [""] * MOST)

    def test_answers_unread(self) -> None:
        """Answers that a page doesn't take are no memory without bound: its line is ended."""
        self.page()
        line = self.line()
        with self.assertRaises(OSError):
            while True:
                line.say("hold")


class Floods(Served):
    """Hold is taken, by the line that was there, and by a request that comes then."""

    def holds(self, line: Line) -> None:
        """Looks that it is taken both ways."""
        before = len(self.session.held)
        line.say("hold")
        self.assertEqual(line.hear()[:4], "held")
        answer = self.connect(self.head("hold", "Content-Length: 2\r\n") + "{}").recv(65536)
        self.assertIn(b"200", answer[:13])
        self.assertEqual(len(self.session.held), before + 2)

    def flood(self, text: str) -> list[socket.socket]:
        """More connections than there may be, each of which sends this."""
        return [self.connect(text) for _ in range(2 * MOST_CONNECTIONS)]

    def test_strangers(self) -> None:
        """Idle ones, and heads that don't end."""
        self.page()
        line = self.line()
        for text in ("", "POST / HTTP/1.1\r\nHost: a\r\nX: "):
            self.flood(text)
            self.holds(line)

    def test_heads(self) -> None:
        """Heads without bodies of somebody who has the key."""
        self.page()
        line = self.line()
        for what, length in (("hold", 2), ("check", 1_000_000)):
            self.flood(self.head(what, f"Content-Length: {length}\r\n"))
            self.holds(line)

    def test_unread(self) -> None:
        """Answers that nobody reads, of somebody who has the key."""
        self.page()
        line = self.line()
        self.flood(self.head("large.js", method="GET"))
        self.holds(line)

    def test_works(self) -> None:
        """Programs that are looked at, or wait for that, of somebody who has the key; they end as he goes."""
        self.page()
        line = self.line()
        links = self.flood(self.head("check", "Content-Length: 2\r\n") + "M2")
        self.holds(line)
        for link in links:
            link.close()
        self.assertTrue(self.session.works.wait(PATIENCE_S))
        self.wait_for("all end", lambda: self.session.ended.count("check") >= 2)

    def test_rehearsal(self) -> None:
        """A rehearsal ends with the connection of whoever asked for it."""
        page, over = self.page(), threading.Event()

        def rehearse(given: Given) -> dict:
            given.wanted.by(SimpleNamespace(give_up=over.set))
            self.session.works.set()
            over.wait(PATIENCE_S)
            self.session.ended.append("rehearsal")
            return {}

        with mock.patch.dict(server_module.DEEDS, rehearse=rehearse):
            more = f"Content-Length: 2\r\nX-Stamp: {page.now()}\r\n"
            link = self.connect(self.head("rehearse", more, page=PAGE) + "{}")
            self.assertTrue(self.session.works.wait(PATIENCE_S))
            link.close()
            self.wait_for("it ends", lambda: "rehearsal" in self.session.ended)

    def test_streams(self) -> None:
        """Streams that nobody reads; each page but those four is refused, and the one that was there stays."""
        page = self.page()
        line = self.line()
        for number in range(20):
            self.connect(self.head(f"events?page=page-number-{number + 10}", method="GET"))
        self.holds(line)
        self.assertTrue(page.next())

    def test_again(self) -> None:
        """A page whose stream breaks behind a proxy, which keeps the old ones open, comes again as often as that."""
        self.page(OTHER)
        for _ in range(2 * MOST):
            stream = self.connect(self.head(f"events?page={PAGE}", method="GET"))
            self.assertIn(b" 200 ", stream.recv(100))
        self.assertIn(b" 503 ", self.connect(self.head("events?page=page-number-3", method="GET")).recv(100))
        self.assertEqual(len(self.server.pages), 2)

    def test_kept(self) -> None:
        """A connection of a page that is there outlives those of others who have the key."""
        self.page()
        kept = http.client.HTTPConnection("127.0.0.1", self.server.port, timeout=PATIENCE_S)
        self.addCleanup(kept.close)
        given = {"Origin": f"http://127.0.0.1:{self.server.port}", "X-Page": PAGE, "Content-Type": "application/json"}
        for _ in range(2):
            kept.request("POST", f"/{KEY}/hold", b"{}", given)
            self.assertEqual(kept.getresponse().read(), b"{}")
            kept.auto_open = 0
            self.flood(self.head("hold", "Content-Length: 2\r\n"))

    def test_closed(self) -> None:
        """What is ended for others is closed, though its answers wait to be taken."""
        links = self.flood(self.head("large.js", method="GET"))
        self.page()

        def is_closed(link: socket.socket) -> bool:
            link.setblocking(False)
            try:
                while link.recv(1 << 20):
                    pass
            except BlockingIOError:
                return False
            except OSError:
                pass
            return True

        self.wait_for("they are closed", lambda: sum(map(is_closed, links)) >= MOST_CONNECTIONS)


class Texts(Served):
    """What somebody wrote is shown without what turns or hides it."""

    def test_texts(self) -> None:
        """Names, rows of a program, what is said and what is asked."""
        text = "M2 (\u202eevil\x1b[2J\x85\x00)\r\n\xff".encode("latin-1", "ignore") + "(\u2066b\u2069 é)\n".encode()
        program = SimpleNamespace(session=SimpleNamespace(program=SimpleNamespace(text=text)))
        self.session.operator, self.session.program_id, self.session.name = program, 1, "part.ngc"
        self.assertEqual(json.loads(self.server.program())["text"],
                         "M2 (evil\\x1b[2J\\x85\\x00)\n\\xff(\\u2066b\\u2069 é)\n")
        self.assertEqual(server_module._name("..%2Fa%E2%80%AEcgn.b%00"), "a\\u202ecgn.b\\x00")
        face = self.session.face
        face.say("line 1: \u202ea\tb\nline 2", MESSAGE)
        self.assertEqual((face.log[-1].text, face.message), ("line 1: \\u202ea b\nline 2", "\\u202ea b\nline 2"))
        face.look = face.hold
        with mock.patch.object(face, "publish", lambda: self.session.held.append(face.question)):
            face.agrees("\u202ego? ")
        self.assertEqual(self.session.held[0].text, "\\u202ego?")


class Opened(unittest.TestCase):
    """What a session of the page begins with."""

    def test_starts(self) -> None:
        """The player's words that start motors, and the ticks of `ngc`, go by the level of the page's face."""
        face, link, console = PageFace(), SimpleNamespace(), SimpleNamespace(status=lambda: None)
        operator = SimpleNamespace(recover=SimpleNamespace(found=None))
        for name, fake in (("Operator", lambda *_: operator), ("bound", lambda *_: ""), ("Link", lambda *_: None)):
            self.enterContext(mock.patch.object(page_module, name, fake))
        self.enterContext(mock.patch.object(page_module.Opener, "_has_moves", lambda *_: False))
        args = SimpleNamespace(machine=None, player="progress")
        page_module.Opener("ngc", args)._opened(console, face, SimpleNamespace(link=link), (None, 0.0), None, None)
        self.assertEqual((console.starts, link.starts), (face.level.start, face.level.start))


class Keys(unittest.TestCase):
    """The key in the path."""

    def test_keys(self) -> None:
        """A new one has 128 bits; one that is given stays the same, and a weak one is refused by its name."""
        self.assertEqual({len(key_of({})) for _ in range(20)}, {22})  # of 6 bits each
        self.assertEqual(len({key_of({"NGC_PAGE_KEY": ""}) for _ in range(20)}), 20)
        self.assertEqual(key_of({"NGC_PAGE_KEY": KEY}), KEY)
        for weak in ("a", KEY[:21], "a" * 22, "1234567" * 4, f"{KEY}/..", f"{KEY} x", f"{KEY}é", KEY * 4):
            with self.assertRaisesRegex(WrongWords, "NGC_PAGE_KEY: a key that somebody could guess"):
                key_of({"NGC_PAGE_KEY": weak})


class Children(InFolder):
    """What the page does aside."""

    def setUp(self) -> None:
        """Nothing is aside yet."""
        super().setUp()
        self.aside = Aside()
        self.addCleanup(self.aside.close)
        self.enterContext(mock.patch.object(scratch, "_folders", [str(self.folder)]))

    def left(self) -> list[Path]:
        """What is left of children."""
        return list(self.folder.glob("ngc-*"))

    def starts(self) -> bool:
        """Whether `work_for_ever` is at work."""
        return Path("pids").exists() and "\n" in Path("pids").read_text()

    def test_folder(self) -> None:
        """No Python of the current folder is run, whatever is named like a module there."""
        for name in ("sitecustomize", "usercustomize", "json", "pickle", "ngc_tools", "resource"):
            Path(f"{name}.py").write_text("open('ran', 'w').close()\n")
        for path in ("", ":/tmp"):
            with mock.patch.dict(os.environ, {"PYTHONPATH": path} if path else {}):
                self.assertEqual(self.aside.call(divmod, 7, 2), (3, 1))
        self.assertFalse(Path("ran").exists())

    def test_killed_first(self) -> None:
        """Where the computer's memory runs out all the same, the system ends it before a player."""
        self.assertEqual(self.aside.call(Path.read_text, Path("/proc/self/oom_score_adj")), "1000\n")

    def test_memory(self) -> None:
        """One that takes too much memory is ended, which is said with the bound, and leaves nothing behind."""
        with mock.patch.object(aside_module, "MOST_MEMORY", 300 << 20), self.assertRaises(NotDone) as ended:
            self.aside.call(take_memory, "left")
        self.assertEqual(ended.exception.said(), "it takes more than 300 MiB of memory, and was ended")
        self.assertEqual(self.left(), [])

    def test_time(self) -> None:
        """So is one that takes too long, with what it started."""
        with mock.patch.object(aside_module, "MOST_CPU_S", 0.01), self.assertRaises(NotDone) as ended:
            self.aside.call(time.sleep, 1000)
        self.assertEqual(ended.exception.said(), "it takes more than 0.01 s of processor time, and was ended")
        self.assertEqual(self.left(), [])

    def test_given_up(self) -> None:
        """One that nobody wants any more leaves nothing behind; one that was given up before it began ends too."""
        wanted, early = Wanted(), Wanted()
        child = wanted.by(self.aside.begin(work_for_ever, str(self.folder / "pids")))
        ending = threading.Thread(target=lambda: self.wait_for("it works", self.starts) or wanted.end())
        ending.start()
        with self.assertRaises(NotDone):
            self.aside.finish(child)
        ending.join()
        early.end()
        with self.assertRaises(NotDone):
            self.aside.finish(early.by(self.aside.begin(time.sleep, 1000)))
        self.assertEqual(self.left(), [])

    def test_killed(self) -> None:
        """A kill of whoever asked leaves nothing behind either."""
        text = ("import sys; sys.path.insert(0, sys.argv[1]); from tests.aside_work import work_for_ever;"
                "from ngc_tools.page.aside import Aside; Aside().call(work_for_ever, sys.argv[2])")
        words = [sys.executable, "-P", "-c", text, str(TOOLS), str(self.folder / "pids")]
        asking = subprocess.Popen(words, stdout=subprocess.DEVNULL)
        self.addCleanup(asking.wait)
        self.wait_for("it works", self.starts)
        folder, pid = Path("pids").read_text().split()
        self.assertTrue(os.path.exists(folder))
        asking.kill()
        self.wait_for("all is gone", lambda: not is_alive(pid) and not os.path.exists(folder))


class Lost(Served):
    """A page that is lost is a hold."""

    def test_failing(self) -> None:
        """A look that fails is told of, and isn't the last one."""
        told, hold = [], self.session.hold

        def fail(_: str) -> None:
            self.session.hold = hold
            raise ValueError

        self.session.hold, self.session.is_busy = fail, True
        with mock.patch.object(server_module, "tell_bug", told.append):
            self.connect(self.head(f"events?page={PAGE}", method="GET"))
            self.assertTrue(self.session.heard.wait(PATIENCE_S))
        self.assertEqual((list(map(type, told)), self.session.held), ([ValueError], ["lost"]))

    def test_silent(self) -> None:
        """One that goes on to take its stream, as a proxy does for a tablet that is gone, and says nothing: it holds
        within two seconds, and a look more of a busy machine; its stream ends."""
        self.session.is_busy = True
        silent = self.connect(self.head(f"events?page={PAGE}", method="GET"))
        came, taken = time.monotonic(), b""
        while piece := silent.recv(65536):
            taken += piece
        self.assertEqual(self.session.held, ["lost"])
        self.assertGreater(time.monotonic(), came + 1.5)
        self.assertIn(b"event: stamp\ndata: ", taken)

    def test_unread(self) -> None:
        """One that reads nothing, and goes on to say that it did."""
        self.session.is_busy = True
        self.connect(self.head(f"events?page={PAGE}", method="GET"))
        stamp = str(self.server.pages.stamp())
        for _ in range(1000):
            if self.session.heard.wait(0.02):
                break
            self.connect(self.head("beat", f"Content-Length: {len(stamp) + 12}\r\n", page=PAGE)
                         + f'{{"stamp":"{stamp}"}}').recv(65536)
        self.assertEqual(self.session.held, ["lost"])

    def test_there(self) -> None:
        """One that reads is there for longer than that, and what it asks for with an old stamp isn't done."""
        page = self.page()
        self.session.is_busy = True
        stamp, begun = page.stamp, time.monotonic()
        while time.monotonic() < begun + 3:
            page.next()
        self.assertEqual(self.session.held, [])
        status, said = page.post("run", X_Stamp=stamp)
        self.assertEqual((status, "more than a second ago" in said["why"]), (409, True))
        self.page(OTHER).post("hold")
        status, said = page.post("run", X_Stamp=f"{self.server.pages.stamp().ms}-0")
        self.assertEqual((status, "somebody held" in said["why"]), (409, True))
        self.assertEqual(page.post("run", X_Stamp="")[0], 400)


if __name__ == "__main__":
    unittest.main()
