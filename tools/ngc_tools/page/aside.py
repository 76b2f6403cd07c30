"""Work that takes long, done in a process of its own, so that it takes no time from the ticks of a session.

A child keeps the pipe open by which it is given its work. Where that ends, since its parent gave up or was killed, it
ends itself with all that it started. It has bounds, so that no player beside it goes without memory, and a folder for
its files, which is removed whatever ends it."""
import pickle
import threading
from collections.abc import Callable
from contextlib import suppress
from typing import Any

from ngc_tools import scratch
from ngc_tools.failure import Failure
from ngc_tools.page.at_work import HEAD, TOLD
from ngc_tools.page.forks import Forks

MOST_MEMORY = 1 << 31
"""Bytes of memory that a child may take, and each process that it starts."""
MOST_CPU_S = 300
"""Seconds of processor time of a child, with those of what it starts."""


class NotDone(Failure):
    """The work aside failed, or was ended before it was done; the text says why."""


class Child:
    """A function at work. It has to be of a module, and what it takes and gives has to be plain."""

    def __init__(self, forks: Forks, function: Callable, *given: Any) -> None:
        """Begins it. Raises OSError."""
        self._folder = scratch.Scratch("ngc-page-")
        try:
            self._given, self._said = forks.child(self._folder.name, MOST_MEMORY, MOST_CPU_S)
        except OSError:
            self._folder.cleanup()
            raise
        self._work = pickle.dumps((function, given))
        self.told: Any = None  # what the function told of its progress last

    def result(self) -> Any:
        """Waits for what the function returns. Raises NotDone."""
        said = None
        with suppress(OSError, ValueError):
            self._given.write(HEAD.pack(len(self._work)) + self._work)
            self._given.flush()
            said = self._read()
        self.give_up()
        self._said.read()  # up to its end
        self._said.close()
        self._folder.cleanup()
        if said is None:
            raise NotDone("it was ended before it was done")
        is_done, result = said
        if not is_done:
            raise NotDone(result)
        return result

    def _read(self) -> tuple[bool, Any] | None:
        """Takes what is told meanwhile, and the result; None where none comes."""
        while len(head := self._said.read(HEAD.size)) == HEAD.size:
            (size,) = HEAD.unpack(head)
            if len(text := self._said.read(size)) < size:
                return None
            kind, said = pickle.loads(text)  # of a child of this process
            if kind != TOLD:
                return said
            self.told = said
        return None

    def give_up(self) -> None:
        """Ends it."""
        with suppress(OSError):
            self._given.close()


class Wanted:
    """Whether somebody still wants a piece of work, which may not have begun yet."""

    def __init__(self) -> None:
        self._child: Child | None = None
        self._is_over = False
        self._lock = threading.Lock()

    def by(self, child: Child) -> Child:
        """This child does it."""
        with self._lock:
            self._child = child
            if self._is_over:
                child.give_up()
        return child

    def end(self) -> None:
        """Nobody wants it any more."""
        with self._lock:
            self._is_over = True
            if self._child:
                self._child.give_up()


class Aside:
    """What is at work now."""

    def __init__(self) -> None:
        """Raises OSError."""
        self._children: set[Child] = set()
        self._lock = threading.Lock()
        self._is_closed = False
        self._forks = Forks()

    def call(self, function: Callable, *given: Any) -> Any:
        """Does it in a child, and waits for the result. Raises NotDone, OSError."""
        return self.finish(self.begin(function, *given))

    def begin(self, function: Callable, *given: Any) -> Child:
        """Begins it. Raises NotDone, OSError."""
        with self._lock:
            if self._is_closed:
                raise NotDone("the session is over")
            child = self._child(function, *given)
            self._children.add(child)
        return child

    def _child(self, function: Callable, *given: Any) -> Child:
        """One, also where the process was killed that forks them: then by another one."""
        try:
            return Child(self._forks, function, *given)
        except OSError:
            self._forks.close()
            self._forks = Forks()
            return Child(self._forks, function, *given)

    def finish(self, child: Child) -> Any:
        """Waits for the result. Raises NotDone."""
        try:
            return child.result()
        finally:
            with self._lock:
                self._children.discard(child)

    def close(self) -> None:
        """Ends all that is under way; nothing more is begun."""
        with self._lock:
            if not self._is_closed:
                self._forks.close()
            self._is_closed = True
            children = list(self._children)
        for child in children:
            child.give_up()
