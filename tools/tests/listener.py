"""A player's end of its socket, for players that tests make up."""
import os
import socket
from contextlib import suppress

from ngc_tools.link.progress import Report

_LONGEST = 192  # bytes of a question


class Listener:
    """A socket that answers whoever asks."""

    def __init__(self, path: str) -> None:
        self.path = path
        self.socket = socket.socket(socket.AF_UNIX, socket.SOCK_DGRAM)
        self.socket.setblocking(False)
        self.socket.bind(path)

    def next(self) -> tuple[bytes, str | bytes | None] | None:
        """A question and whom to answer, or None if nobody asks."""
        try:
            question, sender = self.socket.recvfrom(_LONGEST)
        except BlockingIOError:
            return None
        return question, sender

    def answer(self, text: bytes, sender: str | bytes | None) -> None:
        """Answers; whoever doesn't read the answer goes without."""
        try:
            self.socket.sendto(text, sender)
        except OSError:
            pass

    def close(self) -> None:
        """Closes the socket and removes its name."""
        self.socket.close()
        with suppress(FileNotFoundError):
            os.unlink(self.path)


def said(report: Report) -> bytes:
    """A report, as a player says it."""
    state = f"waits tool {report.tool}" if report.waits else "held" if report.is_held else report.word
    again = f" again {report.again}" if report.again else ""
    return (f"carried {report.carried} received {report.received} {state} reference {report.at} outputs"
            f" {report.outputs}{again} percent {report.percent} spindle {report.spindle} wants {report.wants} out"
            f" {report.out}").encode("utf-8", "surrogateescape")
