"""A running `ngc run`: commands in, replies out, as docs/SESSION.md has them."""
import re
import select
import subprocess
from collections.abc import Callable
from dataclasses import dataclass
from pathlib import Path

from ngc_tools.failure import Failure
from ngc_tools.hold_level import Starts, start_at_once

NO_TICK = "ticks 0"
"""The reply to a tick that wasn't given, since somebody wants to hold."""
_STATUS = re.compile(
    r"status entries (\d+) place (\d+) at (\S+) (\S+) (\S+) (known|unknown)"
    r" half (?:(none)|(program|mdi) (\d+)) (idle|running|stopped|held|broken)"
)


class Ended(Failure):
    """`ngc` has ended. `status` is its exit status, below 0 for a signal; `replies` what it wrote before that."""

    def __init__(self, status: int, replies: list[str]) -> None:
        super().__init__(f"ngc ended with status {status}" + (f": {replies[-1]}" if replies else ""))
        self.status = status
        self.replies = replies


class NoStatus(Failure, ValueError):
    """A reply to `status` that is none: the program that answers isn't `ngc`, or another version of it."""


@dataclass(frozen=True, slots=True)
class Status:
    """What `status` says. `at` are machine millimetres as `ngc` prints them; `half` is `none`, `program` or `mdi`, and
    then `segment` counts from 0; `does` is idle, running, stopped, held or broken."""

    entries: int
    place: int
    at: tuple[str, str, str]
    known: bool
    half: str
    segment: int
    does: str

    @staticmethod
    def read(reply: str) -> "Status":
        """Reads the reply to `status`. Raises NoStatus for any other text."""
        match = _STATUS.fullmatch(reply)
        if match is None:
            raise NoStatus(f"ngc run doesn't answer as it should; not a status: {reply}")
        half = match[7] or match[8]
        at = (match[3], match[4], match[5])
        return Status(int(match[1]), int(match[2]), at, match[6] == "known", half, int(match[9] or 0), match[10])


class Console:
    """A session of `ngc run` over a device, with settings. It hides no reply and gives no command by itself. Ticks are
    given by `starts`.

    `waiting` is called about every 0.2 s while a reply doesn't come, with the seconds waited so far."""

    def __init__(self, ngc: str | Path, device: str | Path, settings: str | Path, out: str | Path,
                 waiting: Callable[[float], None] | None = None) -> None:
        """Starts it, in a process group of its own, so that Ctrl-C at the terminal doesn't end it. Raises OSError if
        `ngc` can't be started."""
        self.ngc, self.device, self.settings = str(ngc), str(device), str(settings)
        self.out = str(out)
        self._words = [self.ngc, "run", self.device, self.settings, self.out]
        self.waiting = waiting
        self.starts: Starts = start_at_once
        self.start()

    def start(self) -> None:
        """Starts it once more, after it has ended. Raises OSError."""
        self._rest = b""
        self.child = subprocess.Popen(self._words, stdin=subprocess.PIPE, stdout=subprocess.PIPE, process_group=0)

    def ask(self, command: str | bytes) -> list[str]:
        """Gives a command (without its newline) and returns its replies: those of `tick N` up to `ticks K` or to a
        refusal of the command itself, else one. Raises Ended if `ngc` ends before that, ValueError for a command that
        would be two."""
        text = command.encode() if isinstance(command, str) else command
        if b"\n" in text:
            raise ValueError("a command is one line")
        is_tick = text.startswith(b"tick ")
        starts = self.starts if is_tick else start_at_once
        return self._replies(is_tick) if starts(lambda: self._send(text + b"\n")) else [NO_TICK]

    def load(self, text: bytes) -> str:
        """Gives a program to store, and returns the reply, `done N` or a refusal. Raises Ended."""
        self._send(b"load %d\n" % len(text) + text)
        return self._replies(False)[0]

    def status(self) -> Status:
        """Asks for the status. Raises Ended."""
        reply = self.ask("status")[0]
        if reply.startswith("refused "):
            raise self._ended([reply])  # nothing else refuses a status: it couldn't begin
        return Status.read(reply)

    def quit(self) -> int:
        """Ends the session, and returns the exit status of `ngc`."""
        try:
            self._send(b"quit\n")
        except Ended as ended:
            return ended.status
        return self.close()

    def close(self) -> int:
        """Ends the input, waits until `ngc` ends, and returns its exit status."""
        self._rest += self.child.communicate()[0] or b""
        return self.child.returncode

    def kill(self) -> None:
        """Ends it as a loss of power would."""
        self.child.kill()
        self.close_pipes()

    def close_pipes(self) -> None:
        """Waits for the child's end and closes its pipes."""
        self.child.wait()
        for pipe in (self.child.stdin, self.child.stdout):
            try:
                pipe.close()
            except OSError:
                pass

    def _send(self, text: bytes) -> None:
        try:
            self.child.stdin.write(text)
            self.child.stdin.flush()
        except (BrokenPipeError, ValueError):
            raise self._ended([]) from None

    def _replies(self, of_tick: bool) -> list[str]:
        replies = [self._line([])]
        # a refusal may stand before `ticks K`; after one of the command itself nothing comes
        while of_tick and not replies[-1].startswith(("ticks ", "refused U1")):
            replies.append(self._line(replies))
        return replies

    def _line(self, replies: list[str]) -> str:
        waited = 0.0
        while b"\n" not in self._rest:
            if not select.select([self.child.stdout], [], [], 0.2)[0]:
                waited += 0.2
                if self.waiting:
                    self.waiting(waited)
                continue
            got = self.child.stdout.read1(65536)
            if not got:
                raise self._ended(replies)
            self._rest += got
        line, _, self._rest = self._rest.partition(b"\n")
        return line.decode("latin-1")

    def _ended(self, replies: list[str]) -> Ended:
        rest = self._rest.decode("latin-1").splitlines()
        try:
            rest += (self.child.stdout.read() or b"").decode("latin-1").splitlines()
        except ValueError:
            pass
        self.close_pipes()
        return Ended(self.child.returncode, replies + rest)
