"""Starts the player for a page, where it is told how: as none listens yet, or the last one is gone."""
import shlex
import subprocess
import sys
import threading
import time
from collections import deque

from ngc_tools.failure import WrongWords
from ngc_tools.ngc.before_start import CannotBegin
from ngc_tools.link.progress import Link, NoAnswer
from ngc_tools.shown import shown_line

_PATIENCE_S = 15.0  # a step sink may take some seconds to answer
_LOOKS_S = 0.02


class PlayerStarter:
    """Starts a player by `command`, as it is typed in a terminal, without a shell; its socket is `path`."""

    def __init__(self, command: str, path: str) -> None:
        """Raises WrongWords if that isn't a command."""
        self.path = path
        self._said: deque[str] = deque(maxlen=3)
        try:
            self._words = shlex.split(command)
        except ValueError as error:
            raise WrongWords(f"--start-player: {error}") from None
        if not self._words:
            raise WrongWords("--start-player COMMAND: as 'player -f -s progress -m player.toml out mill.toml position'")

    def start(self) -> None:
        """Starts it unless one listens, and waits until it does. Raises CannotBegin, with what it said, if it ends
        before."""
        if self._listens():
            return
        self._said.clear()
        try:
            child = subprocess.Popen(self._words, stdin=subprocess.DEVNULL, stdout=subprocess.DEVNULL,
                                     stderr=subprocess.PIPE, start_new_session=True)
        except OSError as error:
            raise CannotBegin(f"--start-player: {self._words[0]}: {error.strerror}") from None
        hearer = threading.Thread(target=self._hear, args=(child,), daemon=True)
        hearer.start()
        until = time.monotonic() + _PATIENCE_S
        while not self._listens():
            if child.poll() is not None:
                hearer.join(1)
                raise CannotBegin("the player ended: " + ("; ".join(self._said) or f"status {child.returncode}"))
            if time.monotonic() > until:
                child.terminate()
                raise CannotBegin(f"{self.path}: the player that --start-player started doesn't listen there")
            time.sleep(_LOOKS_S)

    def _listens(self) -> bool:
        """Whether a player does."""
        try:
            Link(self.path).close()
        except NoAnswer:
            return False
        return True

    def _hear(self, child: subprocess.Popen[bytes]) -> None:
        """Passes on what it says, and waits for its end."""
        for line in child.stderr:
            self._said.append(shown_line(line.strip()))
            try:
                print(self._said[-1], file=sys.stderr, flush=True)
            except (OSError, ValueError):
                pass  # nobody reads it
        child.wait()
