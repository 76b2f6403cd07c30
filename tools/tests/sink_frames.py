"""The frames between a sender and a step sink, by docs/SINK.md alone: what tests say and hear."""
import struct
import zlib
from typing import NamedTuple

MS = 8000  # ticks
LEAST = 40
TOKEN = 4_000_000_000
MARK = 2**60 + 3
REST, OUTPUT, SWITCH, SPEED, LINE_SWITCH = 0x40, 0x80, 0x01, 0x04, 0x02
LINE = 0x80 << 24
STEEP = 100  # the byte of a slope of 49,152: from 20,000 words a second it takes 559 to stop
NEW, STANDS, RUNS, STOPPED, BROKEN = range(5)
NOTHING, SILENT, WORD, ASKED, TOUCHED, INPUT, DEAD, HUNG = range(8)


def stuffed(body: bytes) -> bytes:
    """A body as it goes over the line: each zero replaced by how far it is to the next, and one at the end."""
    return b"".join(bytes([len(run) + 1]) + run for run in body.split(b"\0")) + b"\0"


def framed(body: bytes) -> bytes:
    """A body with its CRC as it goes over the line."""
    return stuffed(body + struct.pack("<I", zlib.crc32(body)))


def word(value: int, bits: int) -> bytes:
    """A word's five bytes."""
    return struct.pack("<IB", value, bits)


def steep(ticks: int, bits: int) -> tuple[int, int]:
    """A word with a slope."""
    return ticks | STEEP << 24, bits


def slope_of(value: int) -> int:
    """How much the square of the rate may change from a word to the next; 2^42 over the square of its ticks."""
    return (8 | value >> 24 & 7) << (value >> 27 & 15)


def words_frame(session: int, first: int, *words: tuple[int, int]) -> bytes:
    """A frame of words."""
    return framed(struct.pack("<BII", 1, session, first) + b"".join(word(*each) for each in words))


def begin_frame(session: int, stops: int = 0, low: int = 0, halts: int = 0, debounce_us: int = 0,
                token: int = TOKEN) -> bytes:
    """A frame that ends a session and begins the next."""
    return framed(struct.pack("<BIIHHHHQ", 2, session, token, stops, halts, low, debounce_us, MARK))


def stop_frame(session: int, at_once: int = 0) -> bytes:
    """A frame that stops."""
    return framed(struct.pack("<BIB", 3, session, at_once))


class Answer(NamedTuple):
    """What an answer says."""

    session: int
    taken: int
    made: int
    state: int
    fault: int
    inputs: int
    lost: int
    token: int
    touched: int = 0
    dry: int = 0
    mark: int = 0
    lines: int = 0


ANSWER = "<BIIIBBHHIIHQI"
"""An answer's body."""


def answer_of(frame: bytes) -> Answer | None:
    """The answer of a frame; None where it is damaged."""
    try:
        body = unstuffed(frame)
        kind, *fields, crc = struct.unpack(ANSWER + "I", body)
    except (IndexError, struct.error):
        return None
    return Answer(*fields) if kind == 4 and crc == zlib.crc32(body[:-4]) else None


def answers(line: bytes) -> list[Answer]:
    """The answers of a line without damage."""
    found = [answer_of(frame + b"\0") for frame in line.split(b"\0")[:-1]]
    assert None not in found, line
    return found


def unstuffed(frame: bytes) -> bytes:
    """The body of a frame, with its CRC."""
    body, at = b"", 0
    while frame[at]:
        body += frame[at + 1:at + frame[at]] + b"\0"
        at += frame[at]
    return body[:-1]


def switches(spindle: int, speed: int, mist: int, flood: int, selected: int, slot: int) -> list[tuple[int, int]]:
    """The two words of outputs."""
    value = speed >> 32 << 20 | slot << 12 | selected << 4 | flood << 3 | mist << 2 | spindle
    return [(speed & 0xffffffff, OUTPUT | REST), (value, OUTPUT | SWITCH | REST)]
