"""A connection to the page's server: its requests in turn, a page's stream of states, or its line for Hold."""
import asyncio
import json
import re
import socket
import time
import urllib.parse
from collections.abc import Coroutine
from http import HTTPStatus
from typing import TYPE_CHECKING, Any

from ngc_tools.failure import Failure
from ngc_tools.files import cause
from ngc_tools.formats.device import MOST_LARGE_PROGRAM
from ngc_tools.page import websocket
from ngc_tools.page.deeds import BadWords
from ngc_tools.page.files import OF_FILES, of_files
from ngc_tools.page.http import RequestRefused, Request, head_of, read_body, read_request
from ngc_tools.page.pages import LOST_S, Stamp
from ngc_tools.page.routines import routines
from ngc_tools.page.session import Busy
from ngc_tools.page.stock import shapes_told

if TYPE_CHECKING:
    from ngc_tools.page.server import Server

_JSON = "application/json"
_UPLOADS = ("check", "draw")
"""What is asked with a program as it is."""
_PAGE = re.compile(r"[A-Za-z0-9-]{8,40}")
_MOST_UNREAD = 4096  # bytes of answers on a line that a page doesn't take
_MOST_WORDS = 4096  # bytes of a request that is no program
_REQUEST_S = 20.0  # how long a request may take to come, and an answer to be taken
_YOUNG_S = 1.0  # so long a connection may take to say who it is
_THERE_S = 0.2  # so often it is looked whether whoever waits for a program is still there
_IDLE_S = 120.0  # how long a connection may wait for its next request
_EVERY_S = 1.0  # the state is sent to each page at least so often
_AGAIN = b"retry: 500\n\n"  # a page whose stream breaks opens it again after so many ms
_APART_S = 0.03  # and not more often than so


class Connection:
    """One connection."""

    def __init__(self, server: "Server", reader: asyncio.StreamReader, writer: asyncio.StreamWriter) -> None:
        self.server, self.reader, self.writer = server, reader, writer
        self.is_known = self.is_stream = self.is_line = False
        self.page, self.since, self.began = "", server.count(), time.monotonic()

    @property
    def has_place(self) -> bool:
        """Whether it is never ended for others: the stream of a page, or its line."""
        return self.is_stream or self.is_line

    def rank(self) -> tuple[int, int]:
        """The lower, the sooner it goes where there are too many: who it is, and when it began what it does. Who has
        just come may be a page that wants to hold."""
        if self.is_known:
            return 3 if self.server.pages.is_there(self.page) else 1, self.since
        return 2 if time.monotonic() < self.began + _YOUNG_S else 0, self.since

    async def serve(self) -> None:
        """Answers its requests. Raises OSError, TimeoutError."""
        self.writer.get_extra_info("socket").setsockopt(socket.IPPROTO_TCP, socket.TCP_NODELAY, 1)
        self.writer.transport.set_write_buffer_limits(0)
        try:
            while request := await self._next():
                path = self.server.checked_path(request)
                self.is_known, self.since = True, self.server.count()
                self.page = request.headers.get("x-page", "")
                if request.method == "GET" and (name := path.partition("?")[0]) in ("events", "line"):
                    self.page = _page_of(path)
                    await (self._stream() if name == "events" else self._line(request))
                    return
                async with asyncio.timeout(_REQUEST_S):
                    body = await self._body(request, path)
                status, content, kind = await self._answered(request, path, body)
                await self._send(status, content, kind, {"X-Stamp": str(self.server.pages.stamp())})
                self.since = self.server.count()
        except RequestRefused as error:
            await self._send(error.status, packed({"why": str(error)}), _JSON, {"Connection": "close"})

    async def _next(self) -> Request | None:
        """Waits for the next request; None at the end. Raises Refused, OSError, TimeoutError."""
        async with asyncio.timeout(_IDLE_S):
            return await read_request(self.reader)

    async def _body(self, request: Request, path: str) -> bytes:
        """The body of a request. Raises Refused."""
        return await read_body(self.reader, request, MOST_LARGE_PROGRAM if path in _UPLOADS else _MOST_WORDS)

    async def _answered(self, request: Request, path: str, body: bytes) -> tuple[HTTPStatus, bytes, str]:
        """The status, the content and its kind."""
        try:
            if request.method == "GET" and path.partition("?")[0] in OF_FILES:
                return HTTPStatus.OK, *await asyncio.to_thread(of_files, self.server.session, path)
            if request.method == "GET":
                return HTTPStatus.OK, *self._got(path)
            return HTTPStatus.OK, await self._posted(request, path, body), _JSON
        except RequestRefused as error:
            status, why = error.status, str(error)
        except Busy as error:
            status, why = HTTPStatus.CONFLICT, str(error)
        except Failure as error:
            status, why = HTTPStatus.UNPROCESSABLE_ENTITY, error.said()
        except (BadWords, OSError) as error:
            status, why = HTTPStatus.UNPROCESSABLE_ENTITY, cause(error)
        return status, packed({"why": why}), _JSON

    def _got(self, path: str) -> tuple[bytes, str]:
        name = path.partition("?")[0]
        if name in ("program", "job"):
            return self.server.program() if name == "program" else self.server.job(), _JSON
        if name == "macros":
            return packed(self.server.macros()), _JSON
        if name == "shapes":
            return packed(shapes_told(self.server.session.shapes)), _JSON
        if name == "routines":
            return packed(routines()), _JSON
        if name == "texts":
            return self.server.texts.answer(path), _JSON
        return self.server.static(name)

    async def _posted(self, request: Request, path: str, body: bytes) -> bytes:
        """Does what is asked. Raises what `do`, `check` and `draw` raise."""
        page, touch = request.headers.get("x-page", ""), request.headers.get("x-touch", "")
        if not _PAGE.fullmatch(page):
            raise RequestRefused(HTTPStatus.BAD_REQUEST, "no page")
        if touch and not _PAGE.fullmatch(touch):
            raise RequestRefused(HTTPStatus.BAD_REQUEST, "no touch")
        if path in _UPLOADS:
            return await self._while_there(self.server.upload(path, page, request, body))
        if request.headers.get("content-type", "").partition(";")[0].strip() != _JSON:
            raise RequestRefused(HTTPStatus.UNSUPPORTED_MEDIA_TYPE)
        try:
            words = json.loads(body)
        except (ValueError, RecursionError):
            raise RequestRefused(HTTPStatus.BAD_REQUEST, "no JSON") from None
        if not isinstance(words, dict):
            raise RequestRefused(HTTPStatus.BAD_REQUEST, "no object")
        does = self.server.do(path, page, words, request.headers.get("x-stamp", ""))
        return packed(await (self._while_there(does) if path == "rehearse" else self.server.once(page, touch, does)))

    async def _while_there(self, work: Coroutine) -> Any:
        """The result of work that takes long, which ends where nobody waits for it any more. Raises OSError, and what
        it raises."""
        task = asyncio.ensure_future(work)
        try:
            while not task.done():
                await asyncio.wait({task}, timeout=_THERE_S)
                if self.reader.at_eof():
                    raise ConnectionResetError
            return task.result()
        finally:
            task.cancel()

    async def _line(self, request: Request) -> None:
        """Hears a page by its line: `hold TOUCH`, which is answered, and `beat STAMP`."""
        head = websocket.head_of(request)
        if not self.server.has_line(self.page, self):
            raise RequestRefused(HTTPStatus.SERVICE_UNAVAILABLE, "no page with a stream")
        self.writer.write(head)
        while (text := await websocket.read_text(self.reader, self.writer)) and self._heard(*text.partition(" ")[::2]):
            if self.writer.transport.get_write_buffer_size() > _MOST_UNREAD:
                return

    def _heard(self, word: str, rest: str) -> bool:
        """Does what a page says by its line; whether it says what it may."""
        if word == "hold":
            self.server.hold(self.page, rest)
            self.writer.write(websocket.frame_of(f"held {self.server.pages.stamp()}"))
        elif word == "beat" and Stamp.is_one(rest):
            self.server.pages.read(self.page, Stamp.read(rest))
        else:
            return False
        return True

    async def _stream(self) -> None:
        """Tells a page all that changes, as server-sent events."""
        page, pages = self.page, self.server.pages
        if not pages.came(page) and not (await self.server.ends_stream(page) and pages.came(page)):
            raise RequestRefused(HTTPStatus.SERVICE_UNAVAILABLE, "too many pages")
        self.is_stream = True
        try:
            self.writer.get_extra_info("socket").setsockopt(socket.IPPROTO_TCP, socket.TCP_USER_TIMEOUT,
                                                            int(1000 * LOST_S))
            self.writer.write(head_of(HTTPStatus.OK, self.server.headers, "text/event-stream", None) + _AGAIN)
            await self._tell(page)
        finally:
            self.server.pages.went(page)

    async def _tell(self, page: str) -> None:
        seen, told, due = -1, 0, 0.0
        while self.server.pages.is_there(page):
            version = await self.server.changed(seen)
            is_over = self.server.session.over.is_set()
            if version != seen or is_over or time.monotonic() > due:
                seen, due = version, time.monotonic() + _EVERY_S
                text, told = self.server.state(page, told)
            else:
                text = str(self.server.pages.stamp()).encode()
                self.writer.write(b"event: stamp\n")
            self.writer.write(b"data: " + text + b"\n\n")
            async with asyncio.timeout(LOST_S):
                await self.writer.drain()
            if is_over or self.reader.at_eof():
                return
            await asyncio.sleep(_APART_S)

    async def _send(self, status: HTTPStatus, content: bytes, kind: str, more: dict[str, str] | None = None) -> None:
        """Sends an answer. Raises TimeoutError for one that isn't taken."""
        self.writer.write(head_of(status, self.server.headers | (more or {}), kind, len(content)) + content)
        async with asyncio.timeout(_REQUEST_S):
            await self.writer.drain()


def _page_of(path: str) -> str:
    """The page that asks for its stream or its line. Raises RequestRefused."""
    page = urllib.parse.parse_qs(path.partition("?")[2]).get("page", [""])[0]
    if not _PAGE.fullmatch(page):
        raise RequestRefused(HTTPStatus.BAD_REQUEST, "no page")
    return page


def packed(what: dict) -> bytes:
    """What is answered, in JSON."""
    return json.dumps(what, separators=(",", ":")).encode()
