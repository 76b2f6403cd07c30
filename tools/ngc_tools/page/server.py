"""The server of `ngc-page`: who may ask, what is answered, and the streams by which pages are told what changes.

One thread serves all connections in turn, none of which waits for another one: a wish to hold is taken however many are
idle or slow. Each page keeps a line of its own for it, which has its place whatever comes. Of the other connections,
where there are too many, one goes: of a stranger who says nothing before one that has shown the key, that before one
that has just come, that before one of a page that is there, the oldest first. Whoever asks has to know the key in the
path. No request names a path: what is served was read before, and a program comes by upload, or is one of the folder of
`--jobs`, by a number."""
import asyncio
import hmac
import socket
import threading
import time
import urllib.parse
from collections.abc import Coroutine, Iterable
from contextlib import suppress
from dataclasses import asdict
from http import HTTPStatus
from pathlib import Path
from typing import Any

from ngc_tools.operator.macros import BadMacros
from ngc_tools.page.aside import Wanted
from ngc_tools.page.connection import Connection, packed
from ngc_tools.page.deeds import DEEDS, WAITING, Given, cam_answers, keep_checked
from ngc_tools.page.http import MOST_HEAD, RequestRefused, Request
from ngc_tools.page.pages import LOOK_S, LOST_S, MOST, Pages, Stamp
from ngc_tools.page.session import PageSession, Unwanted
from ngc_tools.page.state import state_of
from ngc_tools.page.texts import Texts
from ngc_tools.shown import shown, shown_lines

STATIC = Path(__file__).resolve().parent / "static"
MOST_CONNECTIONS = 64
_KINDS = {".html": "text/html; charset=utf-8", ".css": "text/css; charset=utf-8", ".svg": "image/svg+xml",
          ".js": "text/javascript; charset=utf-8", ".png": "image/png", ".woff2": "font/woff2"}
_POLICY = ("default-src 'none'; script-src 'self'; style-src 'self'; connect-src 'self' {lines}; font-src 'self';"
           " img-src 'self' data:; base-uri 'none'; form-action 'none'; frame-ancestors 'none'")
_HEADERS = {"Cache-Control": "no-store", "Referrer-Policy": "no-referrer", "X-Content-Type-Options": "nosniff",
            "Cross-Origin-Opener-Policy": "same-origin", "Cross-Origin-Resource-Policy": "same-origin"}
_AT_ANY_AGE = ("hold", "stop", "jogstop")
"""What ends motion, and is done however late it comes."""
_UNSENT = 1 << 17  # bytes that the system keeps of answers that nobody takes, of each connection
_STAMP_S = 0.25  # and a stamp
_TOUCHES = 256  # that are remembered: more than pages make before one is too old


class Server:
    """`key` is the secret in the path; `port` is where it listens, once it does."""

    def __init__(self, key: str, session: PageSession, addresses: Iterable[str] = ()) -> None:
        """`addresses` are other ones by which pages come, as `https://mill.example` through a proxy. Reads what is
        served. Raises OSError."""
        self.key, self.session, self.pages, self.port = key, session, Pages(session), 0
        self._origins = set(addresses)
        self._static = {str(path.relative_to(STATIC)): (path.read_bytes(), _KINDS[path.suffix])
                        for path in sorted(STATIC.rglob("*")) if path.suffix in _KINDS}
        self.texts = Texts()
        self._checked: dict[str, tuple[str, bytes]] = {}
        self._all: dict[asyncio.Task, Connection] = {}
        self._count = 0
        self._held_by = ""  # the touch that held last
        self._touched: dict[tuple[str, str], asyncio.Task] = {}  # by the page, and how it named the touch
        self._new = asyncio.Event()
        self._uploads = asyncio.Semaphore(4)
        self._loop = asyncio.new_event_loop()
        self._thread = threading.Thread(target=self._loop.run_forever, name="server", daemon=True)

    # its beginning and end, in another thread

    def listen(self, host: str, listening: socket.socket) -> None:
        """Begins to serve at a socket that listens at a host. Raises OSError."""
        self.port = listening.getsockname()[1]
        listening.setsockopt(socket.SOL_SOCKET, socket.SO_SNDBUF, _UNSENT)
        self._origins |= {f"http://{name}:{self.port}" for name in (host, "127.0.0.1", "localhost")}
        self._names = {origin.partition("://")[2] for origin in self._origins}
        lines = " ".join(sorted(origin.replace("http", "ws", 1) for origin in self._origins))
        self.headers = _HEADERS | {"Content-Security-Policy": _POLICY.format(lines=lines)}
        self._loop.set_exception_handler(lambda _, context: tell_bug(context.get("exception")))
        self._thread.start()
        self._call(asyncio.start_server(self._connected, sock=listening, limit=MOST_HEAD))
        self._watch = asyncio.run_coroutine_threadsafe(self._look(), self._loop)
        self.session.face.changed = lambda: self._loop.call_soon_threadsafe(self._new.set)

    def close(self) -> None:
        """Tells pages how the session ended, and ends."""
        self.session.face.changed = lambda: None
        with suppress(TimeoutError):
            self._call(self._end(), 2 * LOST_S)
        self._loop.call_soon_threadsafe(self._loop.stop)
        self._thread.join(LOST_S)

    def _call(self, work: Coroutine, patience_s: float | None = None) -> Any:
        return asyncio.run_coroutine_threadsafe(work, self._loop).result(patience_s)

    async def _look(self) -> None:
        """Looks again and again which pages are lost, whatever fails in one look."""
        while True:
            try:
                self.pages.look()
            except Exception as error:
                tell_bug(error)
            await asyncio.sleep(LOOK_S)

    async def _end(self) -> None:
        self._watch.cancel()
        self._new.set()
        streams = [task for task, one in self._all.items() if one.is_stream]
        await asyncio.wait(streams, timeout=LOST_S / 3) if streams else None
        for task in list(self._all):
            task.cancel()

    # connections

    async def _connected(self, reader: asyncio.StreamReader, writer: asyncio.StreamWriter) -> None:
        """Serves a connection to its end."""
        task, connection = asyncio.current_task(), Connection(self, reader, writer)
        self.make_room(MOST_CONNECTIONS - 1)
        self._all[task] = connection
        try:
            await connection.serve()
        except (OSError, TimeoutError, asyncio.CancelledError):
            pass  # a connection that breaks is none
        except Exception as error:
            tell_bug(error)
        finally:
            self._all.pop(task, None)
            # what nobody takes isn't kept
            writer.transport.abort() if writer.transport.get_write_buffer_size() else writer.close()

    def make_room(self, most: int) -> None:
        """Ends connections, but for streams and lines, until there are so many at most."""
        while len(going := [task for task, one in self._all.items() if not one.has_place]) > most:
            task = min(going, key=lambda task: self._all[task].rank())
            del self._all[task]
            task.cancel()

    def count(self) -> int:
        """The next number of what connections do."""
        self._count += 1
        return self._count

    async def ends_stream(self, page: str) -> bool:
        """Ends the oldest stream of a page, as one that a proxy kept though it broke; whether there was one."""
        found = [task for task, one in self._all.items() if one.is_stream and one.page == page][:1]
        if found:
            found[0].cancel()
            await asyncio.wait(found)
        return bool(found)

    def has_line(self, page: str, line: Connection) -> bool:
        """Whether a page that is there may have this line. It takes the place of the one that it had; of pages that are
        lost some lines stay, since they may come again."""
        if not self.pages.is_there(page):
            return False
        line.is_line = True
        lines = {task: one for task, one in self._all.items() if one.is_line and one is not line}
        old = [task for task, one in lines.items() if one.page == page]
        lost = [task for task, one in lines.items() if one.page != page and not self.pages.is_there(one.page)]
        for task in old + lost[:max(0, len(lost) - MOST)]:
            del self._all[task]
            task.cancel()
        return True

    def checked_path(self, request: Request) -> str:
        """The path after the key. Raises Refused for whoever doesn't know the key, comes by another name, as after DNS
        was rebound, or from another site."""
        if request.headers.get("host", "") not in self._names:
            raise RequestRefused(HTTPStatus.MISDIRECTED_REQUEST)
        key, _, path = request.path.removeprefix("/").partition("/")
        if not hmac.compare_digest(key.encode(), self.key.encode()):
            raise RequestRefused(HTTPStatus.NOT_FOUND)
        origin = request.headers.get("origin")
        if origin is not None and origin not in self._origins or request.method == "POST" and origin is None:
            raise RequestRefused(HTTPStatus.FORBIDDEN, "another origin")
        if request.headers.get("sec-fetch-site", "same-origin") not in ("same-origin", "none"):
            raise RequestRefused(HTTPStatus.FORBIDDEN, "another site")
        return path

    # what is answered

    def static(self, name: str) -> tuple[bytes, str]:
        """What is served by a name, and its kind. Raises Refused."""
        if (name or "index.html") not in self._static:
            raise RequestRefused(HTTPStatus.NOT_FOUND)
        return self._static[name or "index.html"]

    def program(self) -> bytes:
        """The program that is stored."""
        session = self.session
        text = shown_lines(session.operator.session.program.text)
        return packed({"id": session.program_id, "name": session.name, "text": text})

    def macros(self) -> dict:
        """The macros that there are now, each with its lines, or why their file can't be used."""
        macros = self.session.operator.macros
        try:
            return {"path": str(macros.path.name), "macros": [{"name": name, "lines": lines}
                                                              for name, lines in macros.read().items()], "failed": ""}
        except BadMacros as error:
            return {"path": str(macros.path.name), "macros": [], "failed": str(error)}

    def job(self) -> bytes:
        """What is drawn of it."""
        drawer, settings = self.session.drawer, self.session.settings
        said = {"failed": drawer.failed, "never_cut": self.session.never_cut.found,
                "low": [nm / 1000 for nm in settings.low_nm],
                "high": [nm / 1000 for nm in settings.high_nm], "traverse": settings.traverse_nm_per_min // 10**6}
        job = drawer.drawing.text if drawer.drawing else b"null"
        return packed(said)[:-1] + b',"job":' + job + b"}"

    def state(self, page: str, told: int) -> tuple[bytes, int]:
        """What a page shows, with the entries of the log behind the one that it was told last, and the last one now.
        All of it is at least as new as its `now`. With a question come the entries before it: its sheet has them."""
        entries = self.session.face.log
        newest = max((entry.id for entry in list(entries)), default=0)
        pages = {"yours": self.pages.commands == page, "pages": len(self.pages), "on_loss": self.pages.on_loss,
                 "stamp": str(self.pages.stamp()), "now": time.time()}
        said = state_of(self.session, page) | pages
        question = said.get("question")
        before = question["id"] if question else 0
        log = [asdict(entry) for entry in list(entries) if told < entry.id < max(newest + 1, before)]
        return packed(said | {"log": log}), log[-1]["id"] if log else told

    async def changed(self, seen: int) -> int:
        """Waits until there is something new behind a version, or a stamp is due; returns the version."""
        if self.session.face.version == seen:
            self._new.clear()
            with suppress(TimeoutError):
                await asyncio.wait_for(self._new.wait(), _STAMP_S)
        return self.session.face.version

    def hold(self, page: str, touch: str) -> None:
        """Holds. A touch that a page names by chance counts once, however often and late it is told of it."""
        if not touch or touch != self._held_by:
            self._held_by = touch
            self.session.hold(page)

    async def once(self, page: str, touch: str, does: Coroutine) -> dict:
        """Does what a page asks for, unless it was asked for by this touch, which the page names by chance: a browser,
        or a proxy, asks again where a connection broke, and is answered as before. Raises what that raises."""
        if not touch:
            return await does
        if (page, touch) in self._touched:
            does.close()
        else:
            self._touched[page, touch] = task = asyncio.ensure_future(does)
            task.add_done_callback(lambda done: done.cancelled() or done.exception())  # who asked may be gone
            for old in list(self._touched)[:-_TOUCHES]:
                del self._touched[old]
        return await asyncio.shield(self._touched[page, touch])  # it is done to its end, whatever breaks

    async def do(self, name: str, page: str, words: dict, stamp: str) -> dict:
        """Does what a page asks for, as it had read a stamp. Whoever sees that something is wrong may hold, a page that
        watches too. Raises Refused, Busy, BadWords, Failure, OSError."""
        if name == "hold":
            self.hold(page, str(words.get("touch", "")))
            return {}
        if name == "beat":
            self.pages.read(page, Stamp.read(words.get("stamp")))
            return {}
        if name == "takeover":
            self.pages.check_age(Stamp.read(stamp))
            self.pages.take_over(page)
            return {}
        if name == "checking":
            return {"told": self.session.checking(page)}
        if page != self.pages.commands:
            raise RequestRefused(HTTPStatus.FORBIDDEN, "another page commands: take over first")
        if name not in DEEDS:
            raise RequestRefused(HTTPStatus.NOT_FOUND)
        if name not in _AT_ANY_AGE:
            self.pages.check_age(Stamp.read(stamp))
        given = Given(self.session, self.pages, self._checked, words, self.session.face.holds)
        try:
            done = await asyncio.to_thread(DEEDS[name], given) if name in WAITING else DEEDS[name](given)
        except asyncio.CancelledError:
            given.wanted.end()
            raise
        return done or {}

    async def upload(self, name: str, page: str, request: Request, text: bytes) -> bytes:
        """Draws or checks a program, of which so many are taken at once. Where nobody waits for it any more, it ends.
        Raises what these raise."""
        wanted = Wanted()
        try:
            async with self._uploads:
                if name == "check":
                    return await self._check(page, request, text, wanted)
                return await self._draw(request, text, wanted)
        except asyncio.CancelledError:
            wanted.end()
            raise

    async def _draw(self, request: Request, text: bytes, wanted: Wanted) -> bytes:
        """A program that isn't loaded, as it would be drawn; one that was looked at by its `id`. Raises
        RequestRefused, Failure, OSError."""
        if ident := request.headers.get("x-checked"):
            if ident not in self._checked:
                raise RequestRefused(HTTPStatus.GONE, "check it again")
            text = self._checked[ident][1]
        return await asyncio.to_thread(self.session.preview, text, wanted)

    async def _check(self, page: str, request: Request, text: bytes, wanted: Wanted) -> bytes:
        """What is wrong with a program; it is loaded by the `id` that is answered, as it is written for `ngc`. One that
        is ended by the page says so. Raises BadWords, Failure, OSError."""
        answers = cam_answers(request.headers.get("x-answers", "{}"))
        name = _name(request.headers.get("x-name", ""))
        try:
            found, meant = await asyncio.to_thread(self.session.check, page, text, answers, wanted)
        except Unwanted:
            return packed({"ended": True})
        ident = f"{time.monotonic_ns():x}"
        keep_checked(self._checked, name if meant == text else f"{name}, adapted", meant, ident)
        return packed(found | {"id": ident, "name": name, "bytes": len(text), "count": len(text.splitlines())})


def tell_bug(error: BaseException | None) -> None:
    """Tells a fault of this program itself as one in a thread is told."""
    if error is not None:
        threading.excepthook(threading.ExceptHookArgs((type(error), error, error.__traceback__, None)))


def _name(header: str) -> str:
    """The name of an upload, for people: no path, and what isn't printable as its escapes."""
    return shown(urllib.parse.unquote(header).replace("\\", "/").rpartition("/")[2])[:80] or "a program"
