"""HTTP/1.1, as much of it as a page needs: requests whose length is told, answers, and streams of events.

What isn't in the plain form is refused. A text that two readers could take for two requests is none."""
import asyncio
import re
from dataclasses import dataclass
from http import HTTPStatus

MOST_HEAD = 16_384
"""Bytes of a request's first line and headers together."""
_MOST_PASSED_OVER = 1 << 25

_FIRST = re.compile(rb"(GET|POST|[A-Z]{1,10}) (/[\x21-\x7e]*) HTTP/1\.1")
_HEADER = re.compile(rb"([A-Za-z0-9-]{1,64}):([\x20-\x7e\x80-\xff\t]*)")  # blanks in one place: no time is lost
_FORM = re.compile("[0-9]{1,9}")


class RequestRefused(Exception):
    """A request that isn't done: the status, and why in words."""

    def __init__(self, status: HTTPStatus, why: str = "") -> None:
        super().__init__(why or status.phrase)
        self.status = status


@dataclass(frozen=True, slots=True)
class Request:
    """A request without its body; the names of its headers are in small letters, each once."""

    method: str
    path: str
    headers: dict[str, str]

    @property
    def length(self) -> int:
        """The bytes of the body, which follows. Raises Refused where that isn't told."""
        if "transfer-encoding" in self.headers:
            raise RequestRefused(HTTPStatus.NOT_IMPLEMENTED, "a body without a length")
        length = self.headers.get("content-length", "" if self.method == "POST" else "0")
        if not _FORM.fullmatch(length):
            raise RequestRefused(HTTPStatus.LENGTH_REQUIRED)
        return int(length)


async def read_request(reader: asyncio.StreamReader) -> Request | None:
    """The next request's head; None where the other side has closed. Raises Refused, OSError."""
    try:
        head = await reader.readuntil(b"\r\n\r\n")
    except asyncio.IncompleteReadError:
        return None
    except asyncio.LimitOverrunError:
        raise RequestRefused(HTTPStatus.REQUEST_HEADER_FIELDS_TOO_LARGE) from None
    first, *lines = head[:-4].split(b"\r\n")
    match = _FIRST.fullmatch(first)
    if match is None:
        raise RequestRefused(HTTPStatus.BAD_REQUEST)
    if match[1] not in (b"GET", b"POST"):
        raise RequestRefused(HTTPStatus.NOT_IMPLEMENTED)
    return Request(match[1].decode(), match[2].decode(), _headers(lines))


def _headers(lines: list[bytes]) -> dict[str, str]:
    found: dict[str, str] = {}
    for line in lines:
        match = _HEADER.fullmatch(line)
        name = match[1].decode().lower() if match else ""
        if match is None or name in found:
            raise RequestRefused(HTTPStatus.BAD_REQUEST)
        found[name] = match[2].decode("latin-1").strip()
    return found


async def read_body(reader: asyncio.StreamReader, request: Request, most: int) -> bytes:
    """The body of a request. Raises Refused, OSError."""
    if request.length > most:
        await _pass_over(reader, request.length)
        raise RequestRefused(HTTPStatus.REQUEST_ENTITY_TOO_LARGE, f"at most {most:,} bytes")
    try:
        return await reader.readexactly(request.length)
    except asyncio.IncompleteReadError:
        raise RequestRefused(HTTPStatus.BAD_REQUEST) from None


async def _pass_over(reader: asyncio.StreamReader, length: int) -> None:
    """Reads a body that isn't wanted, if it isn't very long: whoever sends one may not look at an answer before."""
    left = length if length <= _MOST_PASSED_OVER else 0
    while left and (piece := await reader.read(min(left, MOST_HEAD))):
        left -= len(piece)


def head_of(status: HTTPStatus, headers: dict[str, str], kind: str, length: int | None) -> bytes:
    """The head of an answer. Without a length it ends as the connection does."""
    end = {"Connection": "close"} if length is None else {"Content-Length": str(length)}
    lines = [f"{name}: {value}" for name, value in ({"Content-Type": kind} | headers | end).items()]
    return "\r\n".join([f"HTTP/1.1 {status} {status.phrase}", *lines, "", ""]).encode("latin-1")
