"""What a page asks for is done once, though a connection breaks before it is answered, and it is sent again: by the
server, and by the page in Chromium, or in Firefox where NGC_BROWSER says so."""
import asyncio
import gc
import re
import socket
import sys
import threading
import unittest
from contextlib import suppress
from pathlib import Path
from types import SimpleNamespace

sys.path.insert(0, str(Path(__file__).resolve().parent))

import test_page
import test_page_browser
from page_support import Served
from session_support import PATIENCE_S
from test_page_measure import SETTER, OverWorld

from ngc_tools.page.server import Server

JOG = {"axis": "X", "sign": 1, "rate": "600", "length": "2"}
PROXY = "127.0.0.2"
"""As long as the server's own address, so that one stands for the other in a request."""


class Again(Served):
    """A page that sends a request again and again, as soon as what it asks for is over."""

    def setUp(self) -> None:
        """Opens it."""
        super().setUp()
        self.seen = self.page()
        self.seen.rested()

    def sent(self, what: str, words: dict, times: int = 3) -> dict:
        """Sends a touch several times: each is answered as the first one. How all stands then."""
        stamp = self.seen.now()
        for _ in range(times):
            self.assertEqual(self.seen.post(what, words, X_Stamp=stamp, X_Touch=f"touch-{what}-{stamp}"), (200, {}))
            state = self.seen.rested()
        return state


class Sent(Again, test_page.Moves):
    """Moves without lines, and what is set."""

    test_moves = test_held = test_held_by_another = test_alarm = test_axis_without_home = None

    def jogged(self) -> list[str]:
        """What the player was told to jog."""
        return [word for word in self.machine.axes.words if word.startswith("jog")]

    def test_jog(self) -> None:
        """A jog by a length goes that far; the next touch goes on from there, and one of another page is another one.
        """
        state = self.sent("jog", JOG)
        self.assertEqual((state["at"][0], len(self.jogged())), ("2.000000", 1))
        state = self.sent("jog", JOG)
        self.assertEqual((state["at"][0], len(self.jogged())), ("4.000000", 2))

    def test_zero(self) -> None:
        """A zero is set once, so that Undo leads back to the one before."""
        self.sent("jog", JOG)
        self.assertEqual(self.sent("zero", {"axes": {"X": "0"}})["origin"][0], "2.000000")
        self.assertEqual(self.sent("undo", {})["origin"][0], "0.000000")
        self.assertNotIn("nothing to undo", self.seen.said())

    def test_refused(self) -> None:
        """What is refused stays so, whatever may be done by then."""
        self.assertEqual(self.seen.post("jog", JOG | {"rate": "x"}, X_Touch="a-touch-of-its-own")[0], 422)
        self.assertEqual(self.seen.post("jog", JOG, X_Touch="a-touch-of-its-own")[0], 422)
        self.assertEqual(self.seen.post("jog", JOG, X_Touch="none of a page")[0], 400)
        self.assertEqual((self.seen.rested()["at"][0], self.jogged()), ("0.000000", []))

    def test_at_once(self) -> None:
        """Of two touches at the same moment one is done."""
        answers: list[int] = []
        both = [threading.Thread(target=lambda: answers.append(self.seen.post("jog", JOG)[0])) for _ in range(2)]
        self.machine.axes.asks = 50
        for one in both:
            one.start()
        for one in both:
            one.join()
        self.assertEqual((sorted(answers), self.seen.rested()["at"][0]), ([200, 409], "2.000000"))


class Lines(Again, OverWorld):
    """Over a simulated machine, whose tool 2 is in the spindle."""

    EXTRA = SETTER

    def device(self) -> None:
        """From where the setter is sought."""
        super().device()
        Path("mill.dev.measure").write_text('{"down_nm": 2000000, "within_nm": 6000000}')
        self.run_ngc("tool 1 0\ntool 2 3\nmdi T2 M6\ntick 9\n", "before")

    def test_line(self) -> None:
        """A line by G91 moves once."""
        self.assertEqual(self.sent("mdi", {"line": "G91 G0 X3"})["at"][0], "3.000000")
        self.assertEqual(self.world.place, (3_000, 0, 0))

    def test_measure(self) -> None:
        """A tool is measured once: after a no nothing is asked any more."""
        stamp = self.seen.now()
        for _ in range(2):
            self.assertEqual(self.seen.post("measure", X_Stamp=stamp, X_Touch="touch-measure"), (200, {}))
        question = self.seen.asked()["question"]["id"]
        self.seen.post("answer", {"question": question, "yes": False})
        self.seen.rested()
        self.assertEqual(self.seen.post("measure", X_Stamp=stamp, X_Touch="touch-measure"), (200, {}))
        self.assertEqual((self.seen.rested()["question"], self.world.place), (None, (0, 0, 0)))


class Unheard(unittest.TestCase):
    """A refusal that nobody waits for any more."""

    def test_refused(self) -> None:
        """It is no fault of the server, which would be told of; who asks again by this touch is refused too."""
        told, server = [], SimpleNamespace(_touched={})

        async def refuse() -> dict:
            await asyncio.sleep(0.01)
            raise ValueError("not now")

        async def ask() -> None:
            asyncio.get_running_loop().set_exception_handler(lambda _, context: told.append(context))
            asked = asyncio.ensure_future(Server.once(server, "page", "touch", refuse()))
            await asyncio.sleep(0)
            asked.cancel()
            await asyncio.wait([asked, *server._touched.values()])
            with self.assertRaises(ValueError):
                await Server.once(server, "page", "touch", refuse())
            asked = asyncio.ensure_future(Server.once(server, "page", "third", refuse()))
            await asyncio.sleep(0)
            asked.cancel()
            await asyncio.sleep(0.05)
            server._touched.clear()
            gc.collect()

        asyncio.run(ask())
        self.assertEqual(told, [])


class Cutting:
    """A proxy that passes all on, and lets one answer go lost: that to the first jog over a connection that was used
    before, which breaks once the test `breaks` it. `heard` is how many jogs were sent."""

    def __init__(self, address: str) -> None:
        self.port, path = re.fullmatch(r"http://127\.0\.0\.1:(\d+)(/.*)", address).groups()
        self.address, self.heard, self.is_cut = f"http://{PROXY}:{self.port}{path}", 0, False
        self.breaks = threading.Event()
        self.listening = socket.create_server((PROXY, int(self.port)))
        threading.Thread(target=self._listen, daemon=True).start()

    def close(self) -> None:
        """It takes no connection any more."""
        self.listening.shutdown(socket.SHUT_RDWR)
        self.listening.close()

    def _listen(self) -> None:
        """Serves each connection in two threads."""
        with suppress(OSError):
            while True:
                asking, _ = self.listening.accept()
                serving = socket.create_connection(("127.0.0.1", int(self.port)))
                goes_lost = threading.Event()
                for passes in (self._asks, self._answers):
                    threading.Thread(target=passes, args=(asking, serving, goes_lost), daemon=True).start()

    def _asks(self, asking: socket.socket, serving: socket.socket, goes_lost: threading.Event) -> None:
        """What the browser sends."""
        with suppress(OSError):
            is_used = False
            while data := asking.recv(1 << 16):
                is_jog = re.match(rb"POST /[^ ]*/jog ", data) is not None
                self.heard += is_jog
                if is_jog and is_used and not self.is_cut:
                    self.is_cut = True
                    goes_lost.set()
                is_used = True
                serving.sendall(data.replace(PROXY.encode(), b"127.0.0.1"))
            serving.shutdown(socket.SHUT_WR)

    def _answers(self, asking: socket.socket, serving: socket.socket, goes_lost: threading.Event) -> None:
        """What the server sends."""
        with suppress(OSError):
            while data := serving.recv(1 << 16):
                if goes_lost.is_set():
                    self.breaks.wait(PATIENCE_S)
                    break
                asking.sendall(data)
        for one in (asking, serving):
            with suppress(OSError):
                one.shutdown(socket.SHUT_RDWR)
            one.close()


class Resent(test_page_browser.Moves):
    """The page behind this proxy."""

    test_setup = test_axis_without_home = test_ended_in_an_alarm = None

    def begin(self) -> None:
        """Starts that too."""
        super().begin()
        self.proxy = Cutting(self.address)
        self.addCleanup(self.proxy.close)
        self.address = self.proxy.address

    def test_jog(self) -> None:
        """A jog by a length, whose answer goes lost, is sent again by the browser once it is over, and goes once."""
        browser = self.browser
        browser.press("Setup", "nav button")
        browser.press("0.1", "#tab-setup .lengths button")
        browser.press("X+", "#tab-setup .pad button")
        browser.wait("!ngc.state.busy && ngc.state.at[0] === '0.100000'")
        self.proxy.breaks.set()
        self.wait_for("it is sent again", lambda: self.proxy.heard == 2)
        browser.press("Y+", "#tab-setup .pad button")
        browser.wait("!ngc.state.busy && ngc.state.at[1] === '0.100000'")
        self.assertEqual(browser.js("ngc.state.at[0]"), "0.100000")
        self.assertEqual(len([word for word in self.machine.axes.words if word.startswith("jog")]), 2)


if __name__ == "__main__":
    unittest.main()
