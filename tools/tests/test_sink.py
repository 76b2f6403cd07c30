"""The step sink: over a pseudo terminal and a clock that goes on as it is told to, with each fault of a line."""
import math
import os
import random
import select
import shutil
import struct
import subprocess
import sys
import tempfile
import time
import unittest
from collections.abc import Iterator
from pathlib import Path

sys.path.insert(0, str(Path(__file__).resolve().parent))

from player_support import SANITIZERS, built, has_sanitizers
from session_support import TOOLS
from sink_frames import (ANSWER, ASKED, BROKEN, DEAD, HUNG, INPUT, LEAST, LINE, LINE_SWITCH, MARK, MS,
                         NEW, NOTHING, OUTPUT, REST, RUNS, SILENT, STANDS, STEEP, STOPPED, SWITCH, TOKEN, TOUCHED, WORD,
                         Answer, answers, begin_frame, framed, slope_of, steep, stop_frame, switches, unstuffed, word,
                         words_frame)
from sink_support import IS_CHIP, bench, seen

SINK = TOOLS / "sink"
NO_MARK = 2**64 - 1
FIFO = 2048
SEEKS, BEGINS, LINKED, ENDED, RESET = range(5)
TAKEN, LATER, REFUSED = range(3)
WINDOW = 20 * MS
HEARD_MS = 10 if IS_CHIP else 5
"""By then an answer comes that knows of a frame: there is one each 5 ms, and on the chip a frame takes its time too."""
RUN_COUNT = int(os.environ.get("NGC_SINK_RUNS", "40"))
ON_HOST = unittest.skipIf(IS_CHIP, "it is of exact ticks, of what no pin shows, or of more than the line carries then")


def program(*parts: Path) -> str:
    """The path of a program of tools/sink, with the sanitizers where there are any."""
    return built("-std=c99", *(SANITIZERS if has_sanitizers() else ("-O2",)), "-I", SINK, sources=parts)


class Child:
    """A program that answers each line of its input with lines, the last of which begins with a point."""

    def __init__(self, *command: str) -> None:
        """Starts it."""
        self.child = subprocess.Popen(command, stdin=subprocess.PIPE, stdout=subprocess.PIPE, text=True)

    def ask(self, line: str) -> list[str]:
        """What it answers; the last line without the point."""
        self.child.stdin.write(line + "\n")
        self.child.stdin.flush()
        found = [self.child.stdout.readline()]
        while not found[-1].startswith(". "):
            if not found[-1]:
                raise AssertionError(f"it ended at: {line}")
            found.append(self.child.stdout.readline())
        return [*found[:-1], found[-1][2:]]

    def end(self) -> None:
        """Ends it; it has to end well."""
        self.child.stdin.close()
        self.child.stdout.close()
        if self.child.wait() != 0:
            raise AssertionError(f"status {self.child.returncode}")


class Sink(Child):
    """The sink, at the other end of a pseudo terminal."""

    def __init__(self) -> None:
        """Starts it with boot 1."""
        super().__init__(*bench())
        self.line = os.open(self.child.stdout.readline().strip(), os.O_RDWR | os.O_NOCTTY)
        self.wrote = self.read = self.now = 0

    def run(self, ms: int, line: bytes = b"") -> tuple[list[tuple[int, ...]], bytes]:
        """What the pins did in so many milliseconds, from when these bytes came, and the bytes that it sent."""
        for at in range(0, len(line), 2048):  # a terminal has no room for much more
            self.wrote += os.write(self.line, line[at:at + 2048])
            self.ask(f"run 0 {self.wrote}")
        *done, sent = self.ask(f"run {ms * MS} {self.wrote}")
        came = b""
        while self.read + len(came) < int(sent):
            came += os.read(self.line, 65536)
        self.read += len(came)
        self.now += ms * MS
        return [tuple(map(int, each[2:].split())) for each in done], came

    def boot(self, count: int) -> None:
        """The chip starts again; what it sent before it had started is dropped."""
        *_, sent = self.ask(f"boot {count}")
        while self.read < int(sent):
            self.read += len(os.read(self.line, 65536))

    def last(self, ms: int, line: bytes = b"") -> Answer:
        """The last answer of so many milliseconds."""
        return answers(self.run(ms, line)[1])[-1]

    def end(self) -> None:
        """Ends it."""
        os.close(self.line)
        super().end()


class Sender(Child):
    """The sender's half."""

    def __init__(self) -> None:
        """Starts it, without a session."""
        super().__init__(program(TOOLS / "tests" / "sender_drive.c", SINK / "sender.c", SINK / "wire.c"))
        self.state = self.given = self.made = self.session = self.taken = self.token = 0
        self.why = ""

    def tell(self, line: str) -> list[bytes]:
        """The frames that it answers a line with."""
        *frames, end = self.ask(line)
        *numbers, self.why = end.rstrip("\n").split(" ", 5)
        self.state, self.given, self.made, self.session, self.taken = map(int, numbers)
        return [bytes.fromhex(frame) for frame in frames]

    def begin(self, stops: int = 0) -> None:
        """Seeks the sink."""
        self.token += 1
        self.tell(f"begin {self.token} {stops} 0 0 {WINDOW}")

    def give(self, words: list[tuple[int, int]]) -> None:
        """Gives words, as long as they are wanted; outputs are whole."""
        self.tell("give " + " ".join(f"{value} {bits}" for value, bits in words))

    def step(self, now: int, line: bytes) -> list[bytes]:
        """The frames that it sends after these bytes came."""
        return self.tell(f"step {now} {line.hex()}")


def lasts(each: tuple[int, int]) -> int:
    """How many ticks a word is given."""
    return LEAST if each[1] & OUTPUT else each[0] & 0xffffff


def pins(each: tuple[int, int], low: int) -> tuple[int, ...]:
    """What the pins do at a word; `low` are the 32 bits of the word before."""
    value, bits = each
    if not bits & OUTPUT:
        return bits & 7, bits >> 3 & 7
    if not bits & SWITCH:
        return 0, 0
    return value & 3, value >> 20 << 32 | low, value >> 2 & 1, value >> 3 & 1, value >> 4 & 255, value >> 12 & 255


def is_off(event: tuple[int, ...]) -> bool:
    """Whether the outputs are turned off, by no word: those of the tests have a speed."""
    return len(event) == 7 and event[2] == 0


def motion(chance: random.Random, count: int, greatest: float) -> Iterator[tuple[int, int]]:
    """Steps from rest to rest, whose squares change by no more than their slopes and are no greater than this."""
    slopes = [(STEEP - chance.choice((0, 0, 0, 9))) << 24 for _ in range(count)]
    rise, squares = 0.0, []
    for slope in slopes:
        rise = min(rise + slope_of(slope), greatest)
        squares.append(rise)
    fall = 0.0
    for index in reversed(range(count)):
        squares[index] = min(squares[index], max(fall, 1))
        fall += slope_of(slopes[index])
    for index, (square, slope) in enumerate(zip(squares, slopes)):
        ticks = max(LEAST, math.ceil(2**21 / math.sqrt(square)))
        is_last = index == count - 1
        yield (chance.randint(LEAST, 9000) if is_last else ticks) | slope, chance.getrandbits(6) | REST * is_last


def some_words(chance: random.Random, parts: int) -> Iterator[tuple[int, int]]:
    """Motions of steps, each with its end at rest, with waits and switches between."""
    for _ in range(parts):
        yield from motion(chance, chance.choice((1, 2, 40, 600, 2000)), 10 ** chance.uniform(3, 7.5))
        if chance.random() < 0.3:
            yield from switches(chance.randint(0, 2), chance.randint(1, 9_999_999_999_999), chance.randint(0, 1),
                                chance.randint(0, 1), chance.randint(0, 128), chance.randint(0, 128))
        if chance.random() < 0.3:
            yield chance.randint(LEAST, 25 * MS), REST


class Line:
    """One direction of a line, which loses frames, damages them, doubles them and brings them late."""

    def __init__(self, chance: random.Random, rate: float) -> None:
        """Of so many frames of each fault."""
        self.chance = chance
        self.rate = rate
        self.cut_until = 0
        self.on_way: list[tuple[int, int, bytes]] = []
        self.count = 0

    def put(self, now: int, frame: bytes) -> None:
        """A frame is sent."""
        what = self.chance.random() / self.rate if self.rate else 9
        if now < self.cut_until or what < 1:
            return
        if what < 2:
            frame = self.damaged(frame)
        if what < 3:
            self.arrive(now + self.chance.choice((0, 1, 30, 300)), frame)
        if what >= 2:
            self.arrive(now + (self.chance.randint(1, 40) if 3 <= what < 4 else 0), frame)

    def arrive(self, at: int, frame: bytes) -> None:
        """It comes then."""
        self.count += 1
        self.on_way.append((at, self.count, frame))

    def damaged(self, frame: bytes) -> bytes:
        """A frame of which bytes are changed, left out or put in."""
        at = self.chance.randrange(len(frame))
        put = self.chance.randbytes(self.chance.choice((0, 1, 1, 5, 300)))
        return frame[:at] + put + frame[at + self.chance.choice((0, 1, 1, 9)):]

    def take(self, now: int) -> bytes:
        """What comes now."""
        come = sorted(each for each in self.on_way if each[0] <= now)
        self.on_way = [each for each in self.on_way if each[0] > now]
        return b"".join(frame for _, _, frame in come)


class Session:
    """A sender that has words to give, a line, and the sink; each session goes on where the sink's count is."""

    def __init__(self, test: unittest.TestCase, sink: Sink, sender: Sender, chance: random.Random, rate: float) -> None:
        """Nothing was given yet."""
        self.test, self.sink, self.sender = test, sink, sender
        self.forth, self.back = Line(chance, rate), Line(chance, rate)
        self.now = 0
        self.bases: dict[int, int] = {}  # words made before each of the chip's boots
        self.made: list[tuple[int, ...]] = []
        self.begins: set[int] = set()
        self.ends: list[str] = []
        self.dry = 0
        self.stops = 0
        sender.begin()

    def restart(self) -> None:
        """Another sender seeks the sink."""
        self.sender.begin(self.stops)

    def boot(self, count: int) -> None:
        """The chip starts again."""
        self.sink.ask(f"boot {count}")
        self.bases[count] = len(self.made)

    def base(self) -> int:
        """The words made before the chip started as it had for the sender's session."""
        return self.bases.get(self.sender.session >> 16, 0)

    def _link(self) -> None:
        """A session has begun: the count is what was made."""
        self.test.assertEqual(self.base() + self.sender.given, len(self.made))
        self.begins.add(len(self.made))

    def step(self, ms: int, words: list[tuple[int, int]]) -> Answer | None:
        """So many milliseconds go by; the last answer that the sink sent, heard or not."""
        was = self.sender.state
        self.now += ms
        self.test.assertLess(self.now, 60_000, "it doesn't come to its end")
        frames = self.sender.step(self.now, self.back.take(self.now))
        if was in (SEEKS, BEGINS) and self.sender.state == LINKED:
            self._link()
        if self.sender.state == LINKED:
            at = self.base() + self.sender.given
            self.sender.give(words[at:at + 200])
        for frame in frames:
            self.forth.put(self.now, frame)
        events, line = self.sink.run(ms, self.forth.take(self.now))
        self.made += [event for event in events if not is_off(event)]
        for frame in line.split(b"\0")[:-1]:
            self.back.put(self.now, frame + b"\0")
        if self.sender.state in (ENDED, RESET):
            self._end()
        found = answers(line)
        self.dry += bool(found) and found[-1].dry
        return found[-1] if found else None

    def _end(self) -> None:
        """The sink stopped: its count is what was made."""
        if self.sender.state == ENDED:
            self.test.assertEqual(self.base() + self.sender.made, len(self.made))
        self.ends.append(self.sender.why)
        self.restart()

    def check(self, words: list[tuple[int, int]], is_disturbed: bool = False) -> None:
        """Each word that was made is the one that was given, and lasts as long; where it `is_disturbed`, longer."""
        low = 0
        for index, (each, event) in enumerate(zip(words, self.made)):
            self.test.assertEqual(event[1:], pins(each, low), index)
            low = each[0]
            if index + 1 < len(self.made) and index + 1 not in self.begins:
                over = self.made[index + 1][0] - event[0] - lasts(each)
                self.test.assertTrue(over == 0 or (over > 0 and (is_disturbed or each[1] & REST)), (index, over))
        self.test.assertLessEqual(len(self.made), len(words))


class SinkTest(unittest.TestCase):
    """Tests with one sink and one sender."""

    @classmethod
    def setUpClass(cls) -> None:
        """Starts them."""
        cls.sink, cls.sender = Sink(), Sender()
        cls.boots = 1

    @classmethod
    def tearDownClass(cls) -> None:
        """Ends them: neither met a sanitizer or its watchdog."""
        cls.sink.end()
        cls.sender.end()

    def setUp(self) -> None:
        """The chip starts again, with all inputs low."""
        self.sink.ask("inputs 0")
        self.boot()

    def check_gaps(self, gaps: list[int], wanted: list[int]) -> None:
        """Ticks between steps: exactly these, on the chip within a microsecond of them."""
        self.assertEqual(len(gaps), len(wanted))
        off = max(abs(gap - each) for gap, each in zip(gaps, wanted))
        self.assertLessEqual(off, 8 if IS_CHIP else 0, gaps)

    def boot(self) -> int:
        """Starts the chip again; the session's number."""
        type(self).boots += 1
        self.sink.boot(self.boots)
        return self.boots << 16


class Bytes(SinkTest):
    """Frames made by hand, and what the sink answers."""

    def began(self, stops: int = 0, low: int = 0) -> int:
        """The number of a session that began."""
        session = self.boot() + 1
        answer = self.sink.last(6, begin_frame(session - 1, stops, low))
        self.assertEqual(answer, (session, 0, 0, STANDS, NOTHING, low, 0, TOKEN, 0, 0, MARK, 0))
        return session

    def test_boot_amid_an_answer(self) -> None:
        """A chip starts again amid an answer: the bench drops that part of it, and the next answer is whole."""
        for ticks in range(0, 5 * MS, MS // 8):
            session = self.boot()
            self.sink.last(6, begin_frame(session))
            self.sink.ask(f"run {ticks} {self.sink.wrote}")
        self.began()

    def test_worked_frame(self) -> None:
        """The frame of docs/SINK.md, byte by byte."""
        text = (TOOLS.parent / "docs" / "SINK.md").read_text()
        block = text.partition("as it goes over the line:\n\n")[2].partition("\n\n")[0]
        frame = words_frame(0x00010001, 0, steep(320, 0x01), steep(400, 0x52))
        self.assertEqual(bytes.fromhex(block), frame)
        self.sink.ask("boot 1")
        events, _ = self.sink.run(10, begin_frame(0x00010000) + frame)
        self.assertEqual([event[1:] for event in events if not is_off(event)], [(1, 0), (2, 2)])

    @ON_HOST
    def test_times(self) -> None:
        """Words are made in their times, and at their end it stands; an S line's outputs come in their place."""
        session = self.began()
        words = [(320, 1), (41, 2 | 8), (LEAST, 0), (2**16 + 7, 7 | 56), (100 * MS, 4 | REST)]
        words += switches(2, 9_999_999_999_999, 1, 0, 128, 3)
        words += [(LEAST, 1), (LEAST, REST)]
        events, line = self.sink.run(130, words_frame(session, 0, *words))
        self.assertEqual([event[1:] for event in events],
                         [(1, 0), (2, 1), (0, 0), (7, 7), (4, 0), (0, 0), (2, 9_999_999_999_999, 1, 0, 128, 3), (1, 0),
                          (0, 0)])
        gaps = [after[0] - event[0] for event, after in zip(events, events[1:])]
        self.assertEqual(gaps, [320, 41, 40, 2**16 + 7, 100 * MS, 40, 40, 40])
        self.assertEqual(answers(line)[-1], (session, 9, 9, STANDS, NOTHING, 0, 0, TOKEN, 0, 0, NO_MARK, 0))

    def test_answers(self) -> None:
        """Every 5 ms, in motion too, with the count of that moment; and it isn't silent before a session."""
        self.assertEqual(answers(self.sink.run(20)[1]), [(self.boots << 16, 0, 0, NEW, NOTHING, *[0] * 7)] * 4)
        session = self.began()
        found = answers(self.sink.run(30, words_frame(session, 0, *[(MS, 1)] * 24, (MS, REST)))[1])
        self.assertEqual(len(found), 6)
        self.assertEqual([after.made - answer.made for answer, after in zip(found, found[1:5])], [5] * 4)
        self.assertEqual({answer.state for answer in found[1:5]}, {RUNS})

    @ON_HOST
    def test_begins(self) -> None:
        """It begins with a rest in hand, with 10 ms, or with 256 words; not with less."""
        for words, is_begun in (([(LEAST, 1)] * 200, False), ([(LEAST, 1)] * 255, False), ([(LEAST, 1)] * 256, True),
                                ([(9999, 1)] * 8, False), ([(10_000, 1)] * 8, True), ([(LEAST, 1 | REST)], True)):
            session = self.began()
            line = b"".join(words_frame(session, at, *words[at:at + 48]) for at in range(0, len(words), 48))
            answer = self.sink.last(6, line)
            self.assertEqual((answer.taken, answer.made > 0), (len(words), is_begun), words[:1])

    def test_stray(self) -> None:
        """A call of the timer at rest makes nothing."""
        session = self.began()
        self.sink.run(5, words_frame(session, 0, (LEAST, 1)))
        self.assertEqual(len(self.sink.ask("stray 0")), 1)
        self.assertEqual(self.sink.last(5)[1:5], (1, 0, STANDS, NOTHING))

    def test_one_place(self) -> None:
        """A frame is taken in its place alone, once, undamaged and whole, of its session, where there is room."""
        session = self.began()
        first = words_frame(session, 0, (LEAST, 1), (LEAST, 1))
        second = words_frame(session, 2, (LEAST, 2))
        at = 0
        while first[at + first[at]]:
            at += first[at]
        too_far = first[:at] + bytes([first[at] + 1]) + first[at + 1:]  # ends before the zero that it tells of
        cases = [(second, 0, 1), (too_far, 0, 2), (b"\xff" * 400 + b"\0", 0, 3), (b"\0\0", 0, 3),
                 (words_frame(session - 1, 0, (LEAST, 1)), 0, 3), (words_frame(session + 1, 0, (LEAST, 1)), 0, 3),
                 (framed(b"\x01"), 0, 3), (framed(struct.pack("<BI", 1, session)), 0, 3),
                 (framed(struct.pack("<BII", 9, session, 0)), 0, 3), (first, 2, 3), (first, 2, 3), (second, 3, 3),
                 (second, 3, 3), (words_frame(session, 3), 3, 3), (words_frame(session, 4), 3, 4),
                 (words_frame(session, 2**32 - 1, (LEAST, 1)), 3, 4)]
        for frame, taken, lost in cases:
            self.assertEqual(self.sink.last(HEARD_MS, frame)[:7], (session, taken, 0, STANDS, NOTHING, 0, lost), frame)

    @ON_HOST
    def test_room(self) -> None:
        """A frame for which the FIFO has no room is lost, whole."""
        session = self.began()
        fill = [(60 * MS, REST)] + [(LEAST, 0)] * 2035
        line = b"".join(words_frame(session, at, *fill[at:at + 48]) for at in range(0, 2036, 48))
        answer = self.sink.last(40, line)
        self.assertEqual((answer.taken, answer.made, answer.lost), (2036, 1, 0))
        answer = self.sink.last(5, words_frame(session, 2036, *[(LEAST, 0)] * 14))
        self.assertEqual((answer.taken, answer.lost), (2036, 1))
        self.assertEqual(self.sink.last(5, words_frame(session, 2036, *[(LEAST, 0)] * 13)).taken, 2049)

    def test_numbers_wrap(self) -> None:
        """Each byte may be any: frames with zeros and without any."""
        session = self.began()
        for at, value in enumerate((0x01010101, 0x00ffff00, 0xffffffff, 256)):
            self.assertEqual(self.sink.last(5, words_frame(session, at, (value, 0x3f | REST))).taken, at + 1)

    def test_lines(self) -> None:
        """It tells the mark of its session, and how many lines were made; but no mark once there was a step beside. An
        extra step, which has a direction of an axis without a step, is none."""
        session = self.began()
        value, bits = switches(1, 1_000_000, 0, 0, 0, 0)[1]
        words = [(LEAST | LINE, 1), (LEAST, REST), (LEAST | LINE, REST), (LEAST, OUTPUT | REST),
                 (value, bits | LINE_SWITCH), (LEAST | LINE, 2 | REST)]
        answer = self.sink.last(5, words_frame(session, 0, *words))
        self.assertEqual((answer.made, answer.mark, answer.lines), (6, MARK, 4))
        answer = self.sink.last(5, words_frame(session, 6, (LEAST, 1 | 0x20 | REST)))
        self.assertEqual((answer.made, answer.mark, answer.lines), (7, MARK, 4))
        answer = self.sink.last(5, words_frame(session, 7, (LEAST, 1 | 0x08 | REST), (LEAST | LINE, 2 | REST)))
        self.assertEqual((answer.made, answer.mark, answer.lines), (9, NO_MARK, 5))
        self.assertEqual(self.sink.last(6, begin_frame(session))[-2:], (MARK, 0))

    @ON_HOST
    def test_sessions(self) -> None:
        """A session ends only by its number, and while nothing runs. The count goes on; old frames are nothing then."""
        session = self.began()
        self.assertEqual(self.sink.last(6, words_frame(session, 0, (2 * MS, 1), (12 * MS, REST)))[:4],
                         (session, 2, 2, RUNS))
        self.assertEqual(self.sink.last(5, begin_frame(session))[:4], (session, 2, 2, RUNS))
        self.assertEqual(self.sink.last(10)[:4], (session, 2, 2, STANDS))
        for frame in (begin_frame(session - 1), begin_frame(session + 1), words_frame(session, 2, (LEAST, 1))):
            self.assertEqual(self.sink.last(5, frame)[::3][:2], (session, STANDS))
        self.assertEqual(self.sink.last(5, begin_frame(session))[:4], (session + 1, 2, 2, STANDS))
        for frame in (begin_frame(session), words_frame(session, 2, (LEAST, 1 | REST)), stop_frame(session)):
            self.assertEqual(self.sink.last(5, frame)[:5], (session + 1, 2, 2, STANDS, NOTHING))
        self.assertEqual(self.sink.last(5, words_frame(session + 1, 2, (LEAST, REST)))[1:4], (3, 3, STANDS))


class Faults(SinkTest):
    """Each fault by its name: it stops at rest, or says that it was stopped in motion; spindle and coolant go off."""

    def stopped(self, answer: Answer, made: int, state: int, fault: int) -> None:
        """It has stopped for this fault, and makes nothing more of this session."""
        self.assertEqual(answer[2:5], (made, state, fault))
        session = answer.session
        events, line = self.sink.run(50, words_frame(session, answer.taken, (LEAST, 1 | REST)))
        self.assertEqual((events, answers(line)[-1][1:5]), ([], (answer.taken, made, state, fault)))
        answer = self.sink.last(HEARD_MS, begin_frame(session))
        self.assertEqual(answer[:5], (session + 1, made, made, STANDS, NOTHING))
        self.assertEqual(self.sink.last(HEARD_MS, stop_frame(session + 1))[2:5], (made, STOPPED, ASKED))
        line = begin_frame(session + 1) + words_frame(session + 2, made, (LEAST, REST))
        self.assertEqual(self.sink.last(10, line)[2:5], (made + 1, STANDS, NOTHING))

    def after(self, ms: int, line: bytes) -> Answer:
        """The last answer, by when spindle and coolant were turned off and nothing came after that; the tool stays."""
        events, sent = self.sink.run(ms, line)
        self.assertEqual(events[-1][1:], seen((0, 0, 0, 0, 4, 5)))
        self.assertEqual([event for event in events if is_off(event)], events[-1:])
        return answers(sent)[-1]

    def began(self, stops: int = 0, low: int = 0, halts: int = 0) -> int:
        """The number of a session in which the spindle is on: two words are made."""
        session = self.boot() + 1
        self.sink.run(5, begin_frame(session - 1, stops, low, halts))
        answer = self.sink.last(5, words_frame(session, 0, *switches(1, 12_000_000_000, 1, 1, 4, 5)))
        self.assertEqual(answer[:5], (session, 2, 2, STANDS, NOTHING))
        return session

    def test_begun_anew(self) -> None:
        """A session begins with spindle and coolant off; the tool stays."""
        session = self.began()
        self.assertEqual(self.after(5, begin_frame(session))[:5], (session + 1, 2, 2, STANDS, NOTHING))

    def test_dry(self) -> None:
        """The FIFO's end isn't a rest: it comes to rest by the slopes, says so, and goes on by them with what comes."""
        session = self.began()
        words = [steep(2000, 1)] * 200  # a stop takes 23
        events, line = self.sink.run(80, b"".join(words_frame(session, at + 2, *words[at:at + 40])
                                                  for at in range(0, 200, 40)))
        gaps = [after[0] - event[0] for event, after in zip(events, events[1:])]
        self.check_gaps(gaps[:170], [2000] * 170)
        # The last n words before a rest last 2^21 over the root of n slopes each.
        slope = slope_of(STEEP << 24)
        self.check_gaps(gaps[-22:], [math.ceil(2**21 / math.isqrt(slope * n)) for n in range(22, 0, -1)])
        self.assertEqual((answers(line)[-1][2:5], answers(line)[-1].dry), ((202, STANDS, NOTHING), 1))
        more = [steep(2000, 1)] * 40 + [steep(LEAST, REST)]
        events, line = self.sink.run(60, words_frame(session, 202, *more))
        gaps = [after[0] - event[0] for event, after in zip(events, events[1:])]
        self.check_gaps(gaps[:22], [math.ceil(2**21 / math.isqrt(slope * n)) for n in range(1, 23)])
        self.check_gaps(gaps[22:39], [2000] * 17)
        self.assertEqual((answers(line)[-1][2:5], answers(line)[-1].dry), ((243, STANDS, NOTHING), 1))

    def test_goes_on_in_time(self) -> None:
        """It slows down, and more comes: it goes on from the rate that it has, and isn't said to have run dry."""
        session = self.began()
        words = [steep(2000, 1)] * 200
        events, _ = self.sink.run(48, b"".join(words_frame(session, at + 2, *words[at:at + 40])
                                               for at in range(0, 200, 40)))
        count = len(events)
        self.assertGreater(events[-1][0] - events[-2][0], 2000)
        more, line = self.sink.run(60, words_frame(session, 202, *words[:40], steep(LEAST, REST)))
        ticks = [after[0] - event[0] for event, after in zip(events + more, (events + more)[1:])]
        slope = slope_of(STEEP << 24)
        rates = [2**42 / each**2 for each in ticks[count - 2:-1]]
        self.assertTrue(all(abs(after - rate) < slope * 1.05 for rate, after in zip(rates, rates[1:])))
        self.check_gaps(ticks[-2:-1], [2000])
        self.assertEqual((answers(line)[-1][2:5], answers(line)[-1].dry), ((243, STANDS, NOTHING), 0))

    def test_silent(self) -> None:
        """Nothing is heard for half a second: it stops at rest, also within a long wait, and where words are slow."""
        session = self.began()
        self.assertEqual(self.sink.last(490).state, STANDS)
        self.stopped(self.after(20, b""), 2, STOPPED, SILENT)
        for bits in (REST, 0):
            session = self.began()
            self.sink.run(5, words_frame(session, 2, (2000 * MS, 1 | bits), (LEAST, 1 | REST)))
            for _ in range(3):
                self.assertEqual(self.sink.last(400, words_frame(session, 4)).state, RUNS)
            self.stopped(self.after(200, b""), 3, STOPPED, SILENT)

    def test_silent_in_motion(self) -> None:
        """In motion it comes to rest by the slopes, although there are more words."""
        session = self.began()
        words = [steep(4000, 1)] * 1900 + [steep(LEAST, 1 | REST)]  # 950 ms; a stop takes six words
        line = b"".join(words_frame(session, at + 2, *words[at:at + 48]) for at in range(0, len(words), 48))
        events, _ = self.sink.run(480, line)
        events += self.sink.run(120)[0]
        steps = [event for event in events if len(event) == 3]
        gaps = [after[0] - event[0] for event, after in zip(steps, steps[1:])]
        slope = slope_of(STEEP << 24)
        left = math.ceil(2**21 / 4000) ** 2
        braked = [math.ceil(2**21 / math.isqrt(left - n * slope)) for n in range(1, 6)]
        self.check_gaps(gaps[-6:], [4000, *braked])
        self.assertTrue(is_off(events[-1]))
        answer = self.sink.last(5)
        self.assertEqual(answer.made - 2, len(steps))
        self.stopped(answer, answer.made, STOPPED, SILENT)

    def test_input(self) -> None:
        """An input that stops does so within a millisecond, in motion and at rest; others are told alone."""
        for low, on, off in ((0, 4, 0), (4, 0, 4), (6, 2, 6)):
            self.sink.ask(f"inputs {off}")
            session = self.began(4, low)
            self.sink.run(5, words_frame(session, 2, *[(MS // 2, 1)] * 40, (LEAST, REST)))
            self.sink.ask(f"inputs {off | 2 if not low & 2 else off & ~2}")
            answer = self.sink.last(5)
            self.assertEqual((answer.state, answer.inputs), (RUNS, 2))
            self.sink.ask(f"inputs {on}")
            made = answer.made
            answer = self.after(10, b"")
            self.assertEqual(answer.inputs & 4, 4)
            self.assertLessEqual(answer.made - made, 10)
            self.stopped(answer, answer.made, BROKEN, INPUT)

    @ON_HOST
    def test_debounce(self) -> None:
        """An input that stops dead is heeded once it was on for debounce_us, within twice that; one look alone isn't
        enough. In motion and at rest."""
        for ticks in (800, MS, 16 * MS):
            session = self.boot() + 1
            self.sink.run(6, begin_frame(session - 1, stops=4, debounce_us=2000))
            line = b"".join(words_frame(session, at, *[(ticks, 1)] * 40, (LEAST, REST)) for at in range(0, 820, 41))
            self.sink.run(5, line)
            self.sink.ask("inputs 4")
            self.sink.run(1)
            self.sink.ask("inputs 0")
            answer = self.sink.last(6)
            self.assertEqual((answer.state, answer.fault, answer.inputs), (RUNS, NOTHING, 0), ticks)
            at = self.sink.now
            self.sink.ask("inputs 4")
            events, line = self.sink.run(10)
            off = next(event[0] for event in events if len(event) == 7) - at
            self.assertTrue(2 * MS <= off <= 5 * MS, (ticks, off))
            told = [answer.inputs for answer in answers(line) if answer.state in (STANDS, RUNS)]
            self.assertEqual((answers(line)[-1].fault, answers(line)[-1].inputs, set(told) - {0}), (INPUT, 4, set()))
            self.sink.ask("inputs 0")

    @ON_HOST
    def test_hung(self) -> None:
        """The main loop doesn't come by any more: the timer alone brings the motors to rest, by the slopes."""
        session = self.began()
        words = [steep(400, 1)] * 2000  # 20,000 a second, from which a stop takes 559 words and 56 ms
        line = b"".join(words_frame(session, at + 2, *words[at:at + 48]) for at in range(0, len(words), 48))
        self.sink.run(20, line)
        self.sink.ask("hang 130")
        at = self.sink.now
        events, _ = self.sink.run(129)
        steps = [event for event in events if len(event) == 3]
        gaps = [after[0] - event[0] for event, after in zip(steps, steps[1:])]
        slope, left = slope_of(STEEP << 24), math.ceil(2**21 / 400) ** 2
        begun = len(gaps) - gaps[::-1].index(400)
        self.assertTrue(20 * MS <= steps[begun][0] - at < 22 * MS, steps[begun][0] - at)
        self.assertEqual(gaps[begun:begun + 555],
                         [math.ceil(2**21 / math.isqrt(left - n * slope)) for n in range(1, 556)])
        self.assertLess(len(gaps), begun + 562)
        self.assertTrue(is_off(events[-1]))
        answer = self.sink.last(10)
        self.assertEqual(answer[3:5], (STOPPED, HUNG))
        self.stopped(answer, answer.made, STOPPED, HUNG)

    @ON_HOST
    def test_comes_by(self) -> None:
        """A main loop that is late for less than 20 ms is no fault."""
        session = self.began()
        words = [(400, 1)] * 1000
        line = b"".join(words_frame(session, at + 2, *words[at:at + 48]) for at in range(0, len(words), 48))
        self.sink.run(5, line)
        self.sink.ask("hang 18")
        self.assertEqual(self.sink.last(26)[3:5], (RUNS, NOTHING))

    def test_halts(self) -> None:
        """An input that brings it to rest: by the slopes, and it says after how many words it came on."""
        session = self.began(halts=2)
        words = [steep(1000, 1)] * 400  # a stop takes 90 words
        line = b"".join(words_frame(session, at + 2, *words[at:at + 40]) for at in range(0, 400, 40))
        made = 2 + len(self.sink.run(10, line)[0])
        self.sink.ask("inputs 2")
        answer = self.after(200, b"")
        self.assertEqual(answer[3:6], (STOPPED, TOUCHED, 2))
        self.assertIn(answer.touched - made, (0, 1) if IS_CHIP else (0,))  # its inputs come on a little later
        self.assertAlmostEqual(answer.made - answer.touched, 90, delta=2)
        self.assertEqual(self.sink.last(HEARD_MS, begin_frame(session)).touched, 0)

    def test_halts_at_rest(self) -> None:
        """Where it is on at the beginning nothing is made; one that is on while its pin is low is heeded so."""
        self.sink.ask("inputs 2")
        session = self.boot()
        self.assertEqual(self.sink.last(6, begin_frame(session, halts=2))[1:5], (0, 0, STOPPED, TOUCHED))
        self.assertEqual(self.sink.last(6, begin_frame(session + 1, halts=2, low=2))[1:5], (0, 0, STANDS, NOTHING))
        self.sink.ask("inputs 0")
        self.assertEqual(self.sink.last(6)[1:5], (0, 0, STOPPED, TOUCHED))

    @ON_HOST
    def test_input_at_rest(self) -> None:
        """At rest too, and within a long wait."""
        self.began(1)
        self.sink.ask("inputs 1")
        self.stopped(self.after(5, b""), 2, STOPPED, INPUT)
        self.sink.ask("inputs 0")
        session = self.began(1)
        self.sink.run(5, words_frame(session, 2, (2000 * MS, REST)))
        self.sink.ask("inputs 1")
        events, line = self.sink.run(5)
        self.assertEqual([event[1:] for event in events], [(0, 0, 0, 0, 4, 5)])
        self.assertLessEqual(events[0][0] - self.sink.now + 5 * MS, MS)
        self.stopped(answers(line)[-1], 3, STOPPED, INPUT)

    @ON_HOST
    def test_word(self) -> None:
        """A word that isn't one: nothing of its frame is taken, and it comes to rest."""
        bad = [(39, 1), (0, REST), (LEAST, OUTPUT), (LEAST, OUTPUT | SWITCH), (LEAST, OUTPUT | REST | 4),
               (LEAST, OUTPUT | REST | 32), (3, OUTPUT | SWITCH | REST), (LEAST, OUTPUT | SWITCH | 4),
               (129 << 4, OUTPUT | SWITCH | REST), (129 << 12, OUTPUT | SWITCH | REST)]
        for each in bad:
            session = self.began()
            line = words_frame(session, 2, (LEAST, 1), (LEAST, REST)) + words_frame(session, 4, (LEAST, 1), each)
            answer = self.after(10, line + words_frame(session, 4, (LEAST, REST)))
            self.assertEqual(answer.taken, 4)
            self.stopped(answer, 2, STOPPED, WORD)
        session = self.began()
        self.sink.run(5, words_frame(session, 2, (15 * MS, 1)))
        cut_short = framed(struct.pack("<BII", 1, session, 3) + word(LEAST, 1)[:4])
        self.stopped(self.after(20, cut_short), 3, STOPPED, WORD)

    def test_asked(self) -> None:
        """The sender asks for a stop, in motion and at rest: by the slopes, or at once."""
        for at_once, state, fault, made in ((0, STOPPED, ASKED, 9), (1, BROKEN, DEAD, 7)):
            session = self.began()
            self.sink.run(5, words_frame(session, 2, *[steep(MS, 1)] * 20))
            self.stopped(self.after(10, stop_frame(session, at_once)), made, state, fault)
            session = self.began()
            self.stopped(self.after(10, stop_frame(session, at_once)), 2, STOPPED, fault)

    def test_boot(self) -> None:
        """The chip starts again: nothing of before is taken, and a new session needs its number."""
        session = self.began()
        late = begin_frame(session - 1) + words_frame(session, 0, (LEAST, 1 | REST))
        now = self.boot()
        events, line = self.sink.run(10, late)
        self.assertEqual((events, answers(line)[-1]), ([], (now, 0, 0, NEW, NOTHING, 0, 0, 0, 0, 0, 0, 0)))


@ON_HOST
class Sent(SinkTest):
    """Both halves, over a line."""

    def session(self, seed: int, rate: float = 0) -> tuple[Session, random.Random]:
        """A session over a line with so many faults of each kind."""
        chance = random.Random(seed)
        self.boot()
        return Session(self, self.sink, self.sender, chance, rate), chance

    def test_whole(self) -> None:
        """Over a good line all words are made, in one session, each as long after the one before as that lasts."""
        for seed in range(3):
            session, chance = self.session(seed)
            words = [*some_words(chance, 6), *motion(chance, 3000, 2**42 / 400**2)]  # 20,000 steps a second
            while len(session.made) < len(words):
                session.step(chance.randint(1, 3), words)
            session.check(words)
            self.assertEqual((session.ends, session.begins, session.dry), ([], {0}, 0))
            times = [event[0] for event in session.made[-1600:-1400]]
            self.assertTrue(all(after - at == 400 for at, after in zip(times, times[1:])))

    def test_resent(self) -> None:
        """Where one frame in thirty is lost, damaged or doubled, steps at 20,000 a second go on in their times."""
        for seed in range(5):
            session, chance = self.session(seed)
            session.forth.rate = 0.01
            words = list(motion(chance, 4000, 2**42 / 400**2))
            while len(session.made) < len(words) and not session.ends:
                session.step(1, words)
            session.check(words)
            self.assertEqual((session.ends, session.begins, len(session.made)), ([], {0}, 4000))

    def test_holds_no_more(self) -> None:
        """It gives no more ahead than the window and a stop take, and than the FIFO has room for."""
        slope = slope_of(STEEP << 24)
        for ticks, most in ((MS, 20 + 4), (800, 200 + 140), (LEAST, FIFO)):
            session, _ = self.session(1)
            words = [steep(ticks, 1)] * 4000
            while session.sender.state != LINKED:
                session.step(1, words)
            for _ in range(20):
                answer = session.step(5, words)
                self.assertLessEqual(answer.taken - answer.made, most)
                self.assertEqual((answer.lost, answer.dry), (0, 0))
            last = session.made[-1][0] - session.made[-2][0]
            fastest = math.isqrt(2**42 // (FIFO * slope))  # from which what the FIFO has room for is enough for a stop
            self.assertTrue(last == ticks if ticks > LEAST else fastest <= last < 1.3 * fastest, last)

    def test_why(self) -> None:
        """What the sink stopped for is said in words."""
        session, _ = self.session(1)
        while session.sender.state != LINKED:
            session.step(5, [])
        for frame in self.sender.tell("stop 0"):
            session.forth.put(session.now, frame)
        while not session.ends:
            session.step(5, [])
        self.assertEqual(session.ends, ["the sink was asked to stop"])
        while session.sender.state != LINKED:
            session.step(5, [])
        session.boot(1000)
        while len(session.ends) < 2:
            session.step(5, [])
        self.assertEqual(session.ends[1:], ["the sink's chip started again"])

    def test_count_lost(self) -> None:
        """A chip that doesn't keep the number of its boot starts again, with an earlier session: the sender says so."""
        for boot in (0, 1):
            self.boot()
            session = self.linked()
            while len(session.made) < 1:
                session.step(1, [(MS, 1)] * 400)
            session.boot(boot)
            until = session.now + 200
            while not session.ends and session.now < until:
                session.step(1, [(MS, 1)] * 400)
            self.assertEqual(session.ends, ["the sink's chip started again"], boot)

    def linked(self) -> Session:
        """A session that has begun."""
        session, _ = self.session(1)
        while session.sender.state != LINKED:
            session.step(1, [])
        return session

    def test_deaf(self) -> None:
        """The sender says so where no answer comes; once one does, it is that the sink stopped, with its count."""
        session = self.linked()
        for _ in range(120):
            session.step(5, [(MS, 1), (MS, REST)])
        session.forth.cut_until = session.back.cut_until = session.now + 2100
        for _ in range(39):
            session.step(50, [])
        self.assertEqual(self.sender.why, "nothing")
        for _ in range(3):
            session.step(50, [])
        self.assertEqual((self.sender.why, session.ends), ("no answer from the sink for two seconds", []))
        while not session.ends:
            session.step(10, [])
        self.assertEqual(session.ends, ["the sink heard nothing for half a second"])
        self.assertEqual(len(session.made), 2)

    def test_given(self) -> None:
        """What isn't a word isn't taken, nor more than there is room for; outputs are two words."""
        session = self.linked()

        def told(line: str) -> tuple[int, int]:
            self.sender.tell(line)
            return self.sender.taken, self.sender.given

        self.assertEqual(told("force 39 1 40 1"), (REFUSED, 0))
        self.assertEqual(told("force 40 64 40 132 40 64"), (REFUSED, 1))
        self.assertEqual(told("switch 2 9999999999999 1 0 128 3"), (TAKEN, 3))
        for outputs in ("3 1 0 0 0 0", "0 1 0 0 0 129", "0 1 2 0 0 0", f"0 {2**44} 0 0 0 0"):
            self.assertEqual(told(f"switch {outputs}"), (REFUSED, 3))
        self.assertEqual(told("force " + "80000 64 " * 2044), (TAKEN, 2047))
        self.assertEqual(told("switch 0 1 0 0 0 0"), (LATER, 2047))
        self.assertEqual(told("force 40 64 40 64"), (LATER, 2048))
        session.step(5, [])
        session.step(20, [])
        session.check([(LEAST, REST), *switches(2, 9_999_999_999_999, 1, 0, 128, 3), *[(80_000, REST)] * 2044])
        self.assertGreater(len(session.made), 3)
        session.restart()
        self.assertEqual(told("force 40 64"), (LATER, 0))

    def test_late_answers(self) -> None:
        """A late answer takes nothing back; what came after all isn't sent again, and what was lost is."""
        session = self.linked()
        self.sender.tell("force " + "40 1 " * 400)
        self.sender.step(session.now, b"")

        def heard(taken: int, made: int, lost: int) -> tuple[int, list[int]]:
            fields = (4, self.sender.session, taken, made, RUNS, 0, 0, lost, self.sender.token)
            line = framed(struct.pack(ANSWER, *fields, 0, 0, 0, 0))
            session.now += 1
            frames = self.sender.step(session.now, line)
            return self.sender.made, [unstuffed(frame)[5] for frame in frames]

        self.assertEqual(heard(96, 10, 0), (10, []))
        self.assertEqual(heard(96, 8, 0), (10, []))
        self.assertEqual(heard(300, 20, 1), (20, [300 & 255, 348 & 255, 396 & 255]))
        self.assertEqual(heard(96, 20, 1), (20, []))
        self.sender.tell("force " + "40 1 " * 400)
        self.assertEqual(heard(396, 390, 2)[1][:2], [396 & 255, 444 & 255])
        self.assertEqual(heard(401, 30, 2), (390, []))
        self.assertEqual(heard(5000, 4999, 2), (390, []))
        of_before = framed(struct.pack(ANSWER, 4, self.sender.session - 1, *[0] * 11))
        for _ in range(3):
            self.sender.step(session.now, of_before * 15)
            self.assertEqual(self.sender.state, LINKED)
            heard(401, 390, 2)

    def test_any_boot(self) -> None:
        """A chip may have started any number of times."""
        for boot in (0, 40_000, 65_535):
            session, _ = self.session(1)
            session.boot(boot)
            session.restart()
            while len(session.made) < 2:
                session.step(1, [(LEAST, 1), (LEAST, REST)])
            self.assertEqual(self.sender.session, boot * 65_536 + 1)

    def test_ahead_of_itself(self) -> None:
        """Where it goes back, and then hears that more came, it goes on from there."""
        session = self.linked()
        self.sender.tell("force " + "40 1 " * 200)
        self.sender.step(session.now, b"")
        line = b"".join(framed(struct.pack(ANSWER, 4, self.sender.session, taken, made, RUNS, 0, 0, 1,
                                           self.sender.token, 0, 0, 0, 0)) for taken, made in ((48, 40), (144, 140)))
        self.assertEqual([unstuffed(frame)[5] for frame in self.sender.step(session.now, line)], [144, 192])

    def test_fifo(self) -> None:
        """No more is sent than the FIFO has room for."""
        session = self.linked()
        self.sender.tell("force " + "40 1 " * 3000)
        frames = self.sender.step(session.now, b"")
        self.assertEqual((self.sender.given, sum((len(unstuffed(frame)) - 13) // 5 for frame in frames)), (FIFO, FIFO))

    def test_takes_over(self) -> None:
        """A sender that follows one that was killed within a long wait waits until the sink has stopped by itself."""
        session = self.linked()
        words = [(2000 * MS, 1 | REST), (LEAST, 2 | REST)]
        while not session.made:
            session.step(2, words)
        session.restart()
        began = session.now
        while len(session.made) < 2:
            session.step(5, words)
        self.assertLess(session.now - began, 700)
        session.check(words)

    def test_others(self) -> None:
        """A session that another sender asked for isn't taken for one's own, nor an answer that was late."""
        session = self.linked()
        first = self.boots << 16
        answered = {number: framed(struct.pack(ANSWER, 4, first + number, made, made, STANDS, 0, 0, 0, TOKEN, *[0] * 4))
                    for number, made in ((1, 5), (2, 246), (3, 700))}
        session.restart()
        for number, newest in ((1, 1), (2, 2), (1, 2), (3, 3), (2, 3)):
            self.sender.step(session.now, answered[number])
            self.assertEqual((self.sender.state, self.sender.session), (BEGINS, first + newest))

    def disturb(self, session: Session, chance: random.Random) -> None:
        """What befalls a run now and then, beside the line's own faults."""
        what = chance.random()
        if what < 0.01:
            session.restart()  # the sender was killed, and another one follows
        elif what < 0.02:
            session.forth.cut_until = session.now + chance.choice((5, 30, 700))
        elif what < 0.03:
            session.back.cut_until = session.now + chance.choice((5, 30, 700))
        elif what < 0.035:
            self.sink.ask(f"inputs {chance.getrandbits(2)}")
        elif what < 0.04:
            self.sink.ask("inputs 0")
        elif what < 0.042:
            for frame in self.sender.tell(f"stop {chance.getrandbits(1)}"):
                session.forth.put(session.now, frame)
        elif what < 0.044:
            type(self).boots += 1
            session.boot(self.boots)

    def to_rest(self, session: Session, words: list[tuple[int, int]]) -> None:
        """The link is cut: it comes to rest by itself, and its count is what was made."""
        session.forth.cut_until = session.back.cut_until = session.now + 10**9
        for _ in range(10):
            session.step(100, words)
        made = len(session.made)
        answer = session.step(100, words)
        self.assertEqual(len(session.made), made)
        self.assertIn(answer.state, (NEW, STOPPED, BROKEN))
        self.assertEqual(session.bases.get(answer.session >> 16, 0) + answer.made, made)

    def run_by_chance(self, seed: int) -> tuple[bool, list[str]]:
        """A run: whether all words were made, and the faults."""
        chance = random.Random(seed)
        session, _ = self.session(seed, chance.choice((0, 0.005, 0.03, 0.1)))
        self.sink.ask("inputs 0")
        words = list(some_words(chance, chance.randint(1, 6)))
        session.stops = 2 * chance.getrandbits(1)
        session.restart()
        is_disturbed = chance.random() < 0.8
        until = chance.choice((200, 500, 1500))
        while session.now < until and len(session.made) < len(words):
            if is_disturbed:
                self.disturb(session, chance)
            session.step(chance.choice((1, 1, 2, 3, 8)), words)
        self.to_rest(session, words)
        session.check(words, is_disturbed=True)
        return len(session.made) == len(words), session.ends

    def test_by_chance(self) -> None:
        """Whatever comes: no word is made twice or left out, it comes to rest, and its count is what was made."""
        whole, faults = 0, set()
        for seed in range(RUN_COUNT):
            with self.subTest(seed):
                is_whole, ends = self.run_by_chance(seed)
                whole += is_whole
                faults.update(ends)
        self.assertGreater(whole, RUN_COUNT // 4)
        self.assertGreaterEqual(len(faults), min(4, RUN_COUNT // 30), faults)


class ByChance(unittest.TestCase):
    """Many runs in one process, whose checks stand in sink_chance.c."""

    def test_runs(self) -> None:
        """No word is made twice or left out; whatever comes, it slows down and comes to rest by the slopes, within the
        words that they take; its count is what was made. All that may befall it does."""
        parts = [SINK / name for name in ("sink.c", "make.c", "wire.c", "sender.c")]
        chance = program(TOOLS / "tests" / "sink_chance.c", *parts)
        done = subprocess.run([chance, "1", "1000"], capture_output=True, text=True)
        self.assertEqual((done.returncode, done.stderr), (0, ""), done.stdout)
        names, counts = done.stdout.split()[::2], done.stdout.split()[1::2]
        self.assertIn("dry", names)
        self.assertTrue(all(int(count) > 2 for count in counts), done.stdout)


class Served(unittest.TestCase):
    """The bench's clock, where it goes on by itself."""

    def hear(self, line: int, seconds: float) -> list[Answer]:
        """The answers of so many real seconds."""
        until, came = time.monotonic() + seconds, b""
        while (left := until - time.monotonic()) > 0:
            came += os.read(line, 65536) if select.select([line], [], [], left)[0] else b""
        return answers(came[came.find(b"\0") + 1:])

    def test_heard_while_the_clock_stands(self) -> None:
        """While the clock waits for a sender that is late, the newest answer comes again and again, as for that sender
        time goes on; over a line that is cut nothing comes."""
        sink = Sink()
        self.addCleanup(sink.child.kill)
        sink.run(20, begin_frame(1 << 16))
        sink.run(2, b"".join(words_frame(1 << 16 | 1, at, *[steep(1000, 1)] * 40) for at in range(0, 200, 40)))
        sink.ask("serve 600000")
        self.hear(sink.line, 1)
        found = self.hear(sink.line, 1.2)
        self.assertGreaterEqual(len(found), 3)
        self.assertEqual(len(set(found)), 1, found)
        self.assertEqual((found[0].state, found[0].fault), (RUNS, NOTHING))
        self.assertLess(found[0].made, 200)
        sink.ask("cut 1000000")
        self.hear(sink.line, 0.3)
        self.assertEqual(self.hear(sink.line, 1), [])
        sink.child.communicate()


class Built(unittest.TestCase):
    """What a builder does first."""

    def test_make(self) -> None:
        """It is built by make, without a warning, and needs nothing that a chip hasn't."""
        with tempfile.TemporaryDirectory() as folder:
            shutil.copytree(SINK, f"{folder}/sink", ignore=shutil.ignore_patterns("out"))
            for target in ("all", "sizes"):
                done = subprocess.run(["make", "-C", f"{folder}/sink", target], capture_output=True, text=True)
                self.assertEqual((done.returncode, done.stderr), (0, ""))
            command = ["nm", "-u", *(f"{folder}/sink/out/{name}.o" for name in ("sink", "make", "wire"))]
            found = subprocess.run(command, capture_output=True, text=True, check=True).stdout.split()
            needed = {name for name in found if name.startswith(("sink_", "wire_", "mem", "__"))}
            others = {name for name in found if not name.endswith(":")} - needed - {"U"}
            self.assertEqual(others, set())

    def test_chip(self) -> None:
        """The port for a chip is built where the cross compiler is, and `make arm` says so where it isn't."""
        with tempfile.TemporaryDirectory() as folder:
            shutil.copytree(SINK, f"{folder}/sink", ignore=shutil.ignore_patterns("out"))
            done = subprocess.run(["make", "-C", f"{folder}/sink", "arm"], capture_output=True, text=True)
            if shutil.which("arm-none-eabi-gcc"):
                self.assertEqual((done.returncode, done.stderr), (0, ""))
            else:
                self.assertEqual(done.returncode, 2)
                self.assertIn("make arm: no arm-none-eabi-gcc here\n", done.stderr)

    @unittest.skipUnless(shutil.which("clang"), "clang isn't installed")
    def test_chip_by_clang(self) -> None:
        """The port for a chip compiles without a warning."""
        command = ["clang", "--target=thumbv7m-none-eabi", "-std=c99", "-Os", "-ffreestanding", "-Wall", "-Wextra",
                   "-Wconversion", "-Werror", "-fsyntax-only", SINK / "stm32f103.c"]
        done = subprocess.run(command, capture_output=True, text=True)
        self.assertEqual((done.returncode, done.stderr), (0, ""))


if __name__ == "__main__":
    unittest.main()
