"""A WebSocket (RFC 6455), as much of it as a page's line for Hold needs: short texts of one frame each."""
import asyncio
import base64
import hashlib
from http import HTTPStatus

from ngc_tools.page.http import Request, RequestRefused

_NAME = b"258EAFA5-E914-47DA-95CA-C5AB0DC85B11"  # RFC 6455, 1.3
_TEXT, _CLOSE, _PING, _PONG = 0x81, 0x88, 0x89, 0x8A  # each whole in its frame
_MOST = 125  # bytes of such a frame


def head_of(request: Request) -> bytes:
    """The answer by which a request becomes one. Raises RequestRefused for another request, and for one that doesn't
    say from which pages it comes."""
    headers = request.headers
    key, version = headers.get("sec-websocket-key", ""), headers.get("sec-websocket-version", "")
    if headers.get("upgrade", "").lower() != "websocket" or version != "13" or not key or "origin" not in headers:
        raise RequestRefused(HTTPStatus.BAD_REQUEST, "no WebSocket")
    name = base64.b64encode(hashlib.sha1(key.encode() + _NAME).digest()).decode()  # no secret
    return (f"HTTP/1.1 101 {HTTPStatus.SWITCHING_PROTOCOLS.phrase}\r\nUpgrade: websocket\r\nConnection: Upgrade\r\n"
            f"Sec-WebSocket-Accept: {name}\r\n\r\n").encode()


def frame_of(text: str, kind: int = _TEXT) -> bytes:
    """A short text as the server sends it."""
    content = text.encode()
    return bytes([kind, len(content)]) + content


async def read_text(reader: asyncio.StreamReader, writer: asyncio.StreamWriter) -> str | None:
    """The next text of the other side; None once it closes, or for what is no short text. Raises OSError."""
    while True:
        try:
            kind, size = await reader.readexactly(2)
            if not size & 0x80 or size & 0x7F > _MOST:
                return None
            mask = await reader.readexactly(4)
            masked = await reader.readexactly(size & 0x7F)
        except asyncio.IncompleteReadError:
            return None
        content = bytes(byte ^ mask[index % 4] for index, byte in enumerate(masked)).decode("utf-8", "replace")
        if kind == _TEXT:
            return content
        if kind == _PING:
            writer.write(frame_of(content[:_MOST // 4], _PONG))
        elif kind != _PONG:
            return None
