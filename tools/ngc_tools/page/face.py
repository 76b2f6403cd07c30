"""The face of a session that pages see: what is said, what is under way, questions, and who wants to hold."""
import threading
import time
from collections import deque
from collections.abc import Callable, Container
from dataclasses import dataclass

from ngc_tools.hold_level import HoldLevel
from ngc_tools.operator.face import MESSAGE, REFUSED, SAID, WARNING, WHERE, UnderWay
from ngc_tools.operator.sentences import GO_ON, LOOK, LOOK_AGAIN, LOOK_SWITCHED, SWITCHED, SWITCHED_THERE
from ngc_tools.operator.way_back import TYPE_GO
from ngc_tools.page.words import page_words
from ngc_tools.link.progress import Report
from ngc_tools.shown import shown_lines

UNCUT = "uncut"
"""The kind of a warning of what was never cut: pages show that by themselves, too."""
ENTRIES = 400
"""So many entries of the log are kept."""
LOOKS = tuple(text.strip() for text in (LOOK_SWITCHED, LOOK, LOOK_AGAIN, SWITCHED, SWITCHED_THERE))
"""The questions at which somebody has to look at the machine: what was on is on, and nothing has moved."""
_LAST = tuple(text.strip() for text in (SWITCHED, SWITCHED_THERE, GO_ON))
_LOOK_S = 0.15
_EVERY_S = 0.1  # what moves is shown about so often


@dataclass(frozen=True, slots=True)
class Entry:
    """An entry of the log: its number, when it was said in seconds since 1970, its kind, its text."""

    id: int
    at: float
    kind: str
    text: str


@dataclass(frozen=True, slots=True)
class Question:
    """What a page is asked. `kind` is `yes`, to agree to or not, or `text`, to be typed."""

    id: int
    text: str
    kind: str


class AsideCommand(str):
    """A command that is given while something runs. As it was asked for there had been so many wishes to hold."""

    holds = 0


class PageFace:
    """A face whose watchers are told that something is new, in `version`, by `changed`, which may be called in any
    thread.

    A wish to hold counts from the moment that it is made. One that comes before a command has begun holds that command
    too, since each command begins with the wishes that whoever gave it had seen."""

    def __init__(self) -> None:
        self.changed: Callable[[], None] = lambda: None
        self.look: Callable[[], None] = lambda: None  # is called again and again while a page is asked
        self.version = 0
        self.log: deque[Entry] = deque(maxlen=ENTRIES)
        self.view: UnderWay | None = None
        self.last: UnderWay | None = None  # what was under way last, since the command began
        self.told: tuple[Report | None, float] = None, 0.0  # the player's report, and when it came, since 1970, in one
        self.message = ""  # of the program, since it was started or went on
        self.refusal = ""  # since the last command
        self.question: Question | None = None
        self.level = HoldLevel()
        self.is_left = False  # nobody is there any more
        self.is_stuck = False  # nor does `ngc` answer, since nobody reads OUT
        self.has_looked = False  # somebody agreed to the last question before a cut, since the command began
        self._asides: deque[AsideCommand] = deque()
        self._lock = threading.Condition()
        self._answer: str | None = None
        self._count = 0
        self._said: set[str] = set()
        self._shown = 0.0

    # what the operator's core tells

    def say(self, text: str, kind: str = SAID) -> None:
        """Adds an entry to the log; what a page shows anyway isn't said."""
        if kind == WHERE:
            return
        text = shown_lines(text)
        if kind == MESSAGE:
            self.message = text.partition(": ")[2]
        if kind in (REFUSED, WARNING):
            text = page_words(text)
        if kind == REFUSED:
            self.refusal = text
        with self._lock:
            self._count += 1
            self.log.append(Entry(self._count, time.time(), kind, text))
        self.publish()

    def once(self, text: str, kind: str = WARNING) -> None:
        """Says it once in a command."""
        if text not in self._said:
            self._said.add(text)
            self.say(text, kind)

    @property
    def report(self) -> Report | None:
        """What the player said last."""
        return self.told[0]

    def live(self, view: UnderWay | None) -> None:
        """Takes what is under way."""
        before, self.view = self.view, view
        self.last = view or self.last
        self._publish_sometimes(view is None or before is None or before.status.does != view.status.does)

    def moved(self, report: Report) -> None:
        """Takes a report of the player."""
        before, self.told = self.report, (report, time.time())
        self._publish_sometimes(before is None or _state(before) != _state(report))

    def ask(self, question: str) -> str:
        """What is typed at a page; nothing where somebody wants to hold."""
        return self._asked(question, "text")

    def agrees(self, question: str) -> bool:
        """Whether somebody agrees at a page; a wish to hold is a no."""
        agrees = self._asked(question, "yes") == "yes"
        self.has_looked = self.has_looked or agrees and question.strip() in _LAST
        return agrees

    @property
    def holds(self) -> int:
        """How often somebody wanted to hold."""
        return self.level.count

    def interrupted(self) -> bool:
        """Whether somebody wants to hold since the command was given."""
        return self.level.is_up

    def asides(self, words: Container[str] | None = None) -> list[AsideCommand]:
        """The commands that were given meanwhile, each once; where words are named, those that begin with one of them.
        """
        found = [line for line in self._asides.copy() if words is None or line.split()[0] in words]
        for line in found:
            self._asides.remove(line)
        return found

    def is_gone(self) -> bool:
        """Whether nobody is there any more who could let motors go on."""
        return self.is_left

    def _asked(self, text: str, kind: str) -> str:
        with self._lock:
            self._count += 1
            self._answer = None
            self.question = Question(self._count, page_words(shown_lines(text.strip())), kind)
        self.publish()
        try:
            while not self._is_answered():
                self.look()
        finally:
            with self._lock:
                self.question = None
            self.publish()
        return self._answer or ""

    def _is_answered(self) -> bool:
        """Waits for an answer for a while; whether there is one, or none will come."""
        with self._lock:
            return self._lock.wait_for(lambda: self._answer is not None or self.interrupted() or self.is_left, _LOOK_S)

    # what pages give

    def hold(self) -> None:
        """Somebody wants to hold."""
        self.level.wish()
        with self._lock:
            self._lock.notify_all()

    def leave(self) -> None:
        """Nobody is there any more: what is under way is held, and questions aren't answered."""
        self.is_left = True
        self.hold()

    def is_look(self, question: int) -> bool:
        """Whether that is asked, and somebody has to look at the machine for it."""
        asked = self.question
        return asked is not None and asked.id == question and asked.text in LOOKS

    def says_go(self) -> bool:
        """Answers a question for a tool that comes on the way; whether one is asked."""
        asked = self.question
        return asked is not None and asked.text.endswith(TYPE_GO.strip()) and self.answer(asked.id, "go")

    def answer(self, question: int, text: str) -> bool:
        """Answers a question; False if it isn't asked any more."""
        with self._lock:
            if self.question is None or self.question.id != question or self._answer is not None:
                return False
            self._answer = text
            self._lock.notify_all()
            return True

    def give_aside(self, command: str, holds: int | None = None) -> None:
        """A command that is taken while something runs, asked for now, or when there had been so many wishes to hold.
        """
        aside = AsideCommand(command)
        aside.holds = self.holds if holds is None else holds
        self._asides.append(aside)

    # the session

    def begin(self, heeded: int) -> None:
        """A command begins; whoever gave it had seen so many wishes to hold."""
        self.level.begin(heeded)
        self.refusal, self.has_looked, self.last = "", False, None
        self._said.clear()

    def last_id(self) -> int:
        """The number of the last entry or question."""
        return self._count

    def publish(self) -> None:
        """Pages have something new to show."""
        with self._lock:
            self.version += 1
            self._shown = time.monotonic()
        self.changed()

    def _publish_sometimes(self, at_once: bool) -> None:
        if at_once or time.monotonic() > self._shown + _EVERY_S:
            self.publish()


def _state(report: Report) -> tuple[bool, bool, int, int]:
    """What of a report is shown at once."""
    return report.waits, report.is_held, report.percent, report.spindle
