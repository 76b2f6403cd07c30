"""The terminal of `ngc-operate`: lines, one live line, questions, and whether somebody wants to hold."""
import os
import select
import shutil
import signal
import sys
import textwrap
import time
from contextlib import AbstractContextManager
from dataclasses import replace
from types import FrameType

from ngc_tools.cli.keys import TerminalKeys, terminal_keys
from ngc_tools.cli.typed_lines import TypedLines
from ngc_tools.language import Language
from ngc_tools.operator.commands import help_text
from ngc_tools.operator.face import MESSAGE, SAID, WARNING, UnderWay, is_aside, is_override
from ngc_tools.link.progress import Report
from ngc_tools.shown import shown

_ENDING = (signal.SIGTERM, signal.SIGHUP)


class AskedToEnd(Exception):
    """A signal asks the session to end, or the terminal is gone; the text says which."""


class Screen:
    """A face: standard input and output. The live line is shown on a terminal that can clear one. `ending` says why the
    session has to end, if it has to: from then on nothing is asked and nothing is shown. What is said and asked is said
    in the language of the screen; what is typed stays as it is."""

    def __init__(self, language: Language | None = None) -> None:
        """Takes the signals, until `close`."""
        self.language = language or Language()
        self.is_terminal = sys.stdin.isatty() and sys.stdout.isatty()
        self.can_clear = self.is_terminal and os.environ.get("TERM", "dumb") != "dumb"
        self.asked_to_hold = 0
        self.ending = ""
        self._lines = None if self.is_terminal else TypedLines(sys.stdin.fileno(), sys.stdin.encoding)
        self._prompts = False
        self._live = False
        self._shown = 0.0
        self._said: set[str] = set()
        self._asides: list[str] = []
        self._stops = False  # `stop` was typed while something ran
        heeded = {signal.SIGINT: self._note, **dict.fromkeys(_ENDING, self._end)}
        self._before = {number: signal.signal(number, handler) for number, handler in heeded.items()
                        if signal.getsignal(number) != signal.SIG_IGN}  # as under nohup

    def close(self) -> None:
        """Gives the signals back."""
        for number, handler in self._before.items():
            signal.signal(number, handler)

    def say(self, text: str, kind: str = SAID) -> None:
        """Shows lines; at a terminal none is longer than it is wide. A message of the program stays as it is."""
        self._clear()
        text = self._spoken(text, kind)
        width = _width() if self.is_terminal else 0
        self._print("\n".join(_wrapped(shown(line), width) for line in text.split("\n")) + "\n")

    def once(self, text: str, kind: str = WARNING) -> None:
        """Shows lines that nobody wants to see again in this piece of work."""
        if text not in self._said:
            self._said.add(text)
            self.say(text, kind)

    def live(self, view: UnderWay | None) -> None:
        """Shows what is under way, ten times a second at most, in the place of what was shown so before."""
        if view is None:
            self._clear()
        elif self.can_clear and time.monotonic() > self._shown + 0.1:
            width = max(20, (_width() or shutil.get_terminal_size().columns) - 1)
            self._print("\r\033[K" + shown(self._translated(view).fitted(width)))
            self._live = True
            self._shown = time.monotonic()

    def _spoken(self, text: str, kind: str) -> str:
        """A text in the language of the screen."""
        if kind == MESSAGE:
            head, colon, message = text.partition(": ")
            return self.language.say(head) + colon + message
        return help_text(self.language.say) if text == help_text() else self.language.say(text)

    def _translated(self, view: UnderWay) -> UnderWay:
        say = self.language.say
        return replace(view, line=say(view.line), more=tuple(map(say, view.more)), motion=tuple(map(say, view.motion)))

    def moved(self, report: Report) -> None:
        """A terminal shows where the motors are with what is under way."""

    def _clear(self) -> None:
        """Takes the live line away."""
        if self._live:
            self._print("\r\033[K")
            self._live = False

    def _print(self, text: str) -> None:
        """Shows text as it is. Where nobody can see it any more, the session has to end."""
        if self.ending:
            return
        try:
            print(text, end="", flush=True)
        except OSError as error:
            self._asked(f"nobody reads what is shown: {error.strerror}")

    def prompt(self, text: str) -> str:
        """What a person types, without its newline. From then on Enter and Ctrl-C ask to hold, until the next prompt.
        Raises EOFError at the end of the input, KeyboardInterrupt for Ctrl-C in it, AskedToEnd."""
        self._clear()
        if self.ending:
            raise AskedToEnd(self.ending)
        width = _width() if self.is_terminal else 0
        text = self.language.say(text)
        whole = (_wrapped(line, width) for line in text.rstrip(" ").split("\n"))
        *lines, last = "\n".join(whole).split("\n")
        self._print("".join(line + "\n" for line in lines))
        self._prompts = True
        try:
            return self._line(last + " " * (len(text) - len(text.rstrip(" "))))
        except OSError as error:
            raise AskedToEnd(f"the terminal is gone: {error.strerror}") from None
        finally:
            self._prompts = False
            self.asked_to_hold = 0
            self._shown = 0.0  # what comes next is shown at once
            self._said.clear()

    def _line(self, prompt: str) -> str:
        """The next line, behind a prompt. Raises EOFError, OSError."""
        if self._lines is None:
            return input(prompt)
        self._print(prompt)
        return self._lines.next()

    def ask(self, question: str) -> str:
        """What a person answers; nothing at the end of the input, or for Ctrl-C. Raises AskedToEnd."""
        try:
            return self.prompt(question)
        except (EOFError, KeyboardInterrupt):
            self._print("\n")
            return ""

    def agrees(self, question: str) -> bool:
        """Whether a person types yes. Raises AskedToEnd."""
        return self.ask(question).strip().lower() == "yes"

    def interrupted(self) -> bool:
        """Whether Enter or Ctrl-C was pressed since the last prompt, or the session has to end. Another line than an
        aside is Enter too. Of lines that come from a pipe or a file those that set the override are taken meanwhile, up
        to the next command."""
        if self._lines:
            self._asides += self._lines.next_that(is_override)
        elif not self.ending and select.select([sys.stdin], [], [], 0)[0]:
            text = self._typed()
            if is_aside(text):
                self._asides.append(text)
            else:
                self.asked_to_hold += 1
                self._stops = self._stops or text.strip().lower() == "stop"
        return self.asked_to_hold > 0 or self.ending != ""

    def keys(self) -> AbstractContextManager[TerminalKeys]:
        """The keys of the terminal, until Ctrl-C is pressed or the session has to end. Raises OSError if it is gone."""
        return terminal_keys(sys.stdin.fileno(), lambda: self.asked_to_hold > 0 or self.ending != "")

    def is_gone(self) -> bool:
        """Whether the session has to end: then nobody lets held motors go on."""
        return self.ending != ""

    def asides(self) -> list[str]:
        """The asides that were typed since."""
        found, self._asides = self._asides, []
        return found

    def stops(self) -> bool:
        """Whether `stop` was typed while something ran, once: that held it."""
        stops, self._stops = self._stops, False
        return stops

    def _typed(self) -> str:
        """A line that is typed while something runs."""
        try:
            return os.read(sys.stdin.fileno(), 4096).decode("utf-8", "replace")
        except OSError as error:
            self._asked(f"the terminal is gone: {error.strerror}")
            return ""

    def _note(self, _number: int, _frame: FrameType | None) -> None:
        """Ctrl-C: raises at a prompt, else asks to hold."""
        if self._prompts:
            raise KeyboardInterrupt
        self.asked_to_hold += 1

    def _end(self, number: int, _frame: FrameType | None) -> None:
        """A signal that ends a session: raises at a prompt, else asks to hold first."""
        self._asked(f"{signal.Signals(number).name} came")
        if self._prompts:
            raise AskedToEnd(self.ending)

    def _asked(self, why: str) -> None:
        self.ending = self.ending or why


def _width() -> int:
    """How many characters a line of the terminal has; 0 if it doesn't say it."""
    try:
        return os.get_terminal_size(sys.stdout.fileno()).columns
    except (OSError, ValueError):
        return 0


def _wrapped(line: str, width: int) -> str:
    """A line in lines of at most this width, parted between words; those after the first are indented."""
    if not width or len(line) <= width:
        return line
    indent = line[:len(line) - len(line.lstrip())]
    return "\n".join(textwrap.wrap(line, max(width, 20), subsequent_indent=indent + "  ", break_on_hyphens=False,
                                   replace_whitespace=False, drop_whitespace=True, expand_tabs=False))
