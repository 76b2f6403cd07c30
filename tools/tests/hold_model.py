#!/usr/bin/env python3
"""A model of Hold: two pages, the page's server, the operator's thread, a player, and all interleavings of what they
do. After Hold is answered no motion begins until somebody asks to go on, and what a lost page ran is held.

    tests/hold_model.py

prints how many states there are, and for each mend that is taken out a shortest way to what goes wrong then. What a
step stands for is named beside it; test_hold.py runs it whole."""
import sys
from collections import deque
from collections.abc import Iterator
from typing import NamedTuple

A, B = "A", "B"
STANDS, RUNS, JOGS = "stands", "runs", "jogs"
MENDS = {
    "gate": "what starts motors is sent unless somebody wants to hold (HoldLevel.start)",
    "presses": "a press that was let go, or came before a hold, is never taken up (HeldJog, deeds._jog)",
    "streams": "only a page with a stream takes over (Pages.take_over)",
    "stamps": "what was touched before its page had heard of a hold isn't done (Pages.check_age)",
}
ASKS = 2
"""So many requests there are but Hold, which is asked for once."""
_ON_WAY = 2  # so many are under way at once


class Wish(NamedTuple):
    """A request on its way to the server: what is asked for, by which page, and how many wishes to hold that had seen
    by then."""

    word: str
    page: str
    seen: int


class State(NamedTuple):
    """All of it at one moment. Lines are always in hand, so motors that are let go run."""

    seen: tuple[int, int] = (0, 0)  # how many wishes to hold each page has seen
    gone: tuple[bool, bool] = (False, False)
    has_b_stream: bool = False
    finger: int = -1  # of A on a button: how many wishes to hold A had seen as it came there; -1 for none
    asks: int = 0
    is_hold_asked: bool = False
    on_way: tuple[Wish, ...] = ()
    # the server
    commands: str = A
    level: int = 0
    asked: int = 0  # as somebody asked to go on last, there had been so many wishes, which were answered
    press: bool = False  # the finger's press is known ..
    is_let_go: bool = False  # .. and was let go
    # the operator's thread: its command, how many wishes there were as that was given, and what it does next
    command: str = ""
    heeded: int = 0
    next: str = ""
    # the player
    words: tuple[str, ...] = ()  # what it was sent, and hasn't heeded
    moves: str = STANDS
    wrong: str = ""


Step = tuple[str, State]


class Model:
    """The steps, with some of MENDS."""

    def __init__(self, *without: str, asks: int = ASKS) -> None:
        self.mends, self.asks = frozenset(MENDS) - frozenset(without), asks

    def steps(self, state: State) -> Iterator[Step]:
        """Each step that may come next, with its name."""
        for index, page in enumerate((A, B)):
            if not state.gone[index]:
                yield from self._page(state, index, page)
        yield from self._streams(state)
        for wish in state.on_way:
            left = list(state.on_way)
            left.remove(wish)
            yield f"the server takes {wish.word} of {wish.page}", self._taken(state._replace(on_way=tuple(left)), wish)
        if state.command:
            yield self._operator(state)
        if state.words:
            word, *words = state.words
            yield f"the player heeds {word}", self._heeded(state._replace(words=tuple(words)), word)
        yield from self._lost(state)

    # pages

    def _page(self, state: State, index: int, page: str) -> Iterator[Step]:
        """What people do at one, and what it is told."""
        seen = state.seen[index]
        if seen < state.level and (page == A or state.has_b_stream):
            told = (state.level, state.seen[1]) if page == A else (state.seen[0], state.level)
            yield f"{page} hears of a hold", state._replace(seen=told)
        if len(state.on_way) < _ON_WAY:
            if page == B and not state.is_hold_asked:
                yield "B asks: hold", state._replace(is_hold_asked=True, on_way=(*state.on_way, Wish("hold", B, seen)))
            words = () if state.asks >= self.asks else ("run", "release", *(("jog",) if page == A and state.finger >= 0
                                                                        else ("takeover",) if page == B else ()))
            for word in words:
                on_way = tuple(sorted((*state.on_way, Wish(word, page, seen))))
                yield f"{page} asks: {word}", state._replace(asks=state.asks + 1, on_way=on_way)
        if page == A and state.finger < 0:
            yield "A puts a finger on X+", state._replace(finger=seen)
        gone = (True, state.gone[1]) if page == A else (state.gone[0], True)
        yield f"{page} is gone", state._replace(gone=gone)

    def _streams(self, state: State) -> Iterator[Step]:
        """They come, and come again (`Pages.came`)."""
        if not state.gone[1] and not state.has_b_stream:
            yield "B's stream comes", state._replace(has_b_stream=True)
        if not state.gone[0] and state.commands == A and state.is_let_go and "presses" not in self.mends:
            yield "A's stream breaks and comes again", state._replace(is_let_go=False)

    # the server, which does one request after another (`Server.do`)

    def _taken(self, state: State, wish: Wish) -> State:
        if wish.word == "hold":
            return self._held(state)
        touched = state.finger if wish.word == "jog" else wish.seen
        if "stamps" in self.mends and wish.seen != state.level:
            return state
        if "presses" in self.mends and wish.word == "jog" and touched != state.level:
            return state
        if wish.word == "takeover":
            if "streams" in self.mends and not state.has_b_stream:
                return state
            return state._replace(commands=B, is_let_go=state.is_let_go or state.press)
        if wish.page != state.commands:
            return state
        if touched == state.level:
            state = state._replace(asked=state.level)
        return self._given(state, wish.word)

    @staticmethod
    def _held(state: State) -> State:
        """`PageSession.hold`: the level, the motors, and then it is answered."""
        word = "stop" if state.command == "jog" else "hold"
        return state._replace(level=state.level + 1, is_let_go=state.is_let_go or state.press,
                              words=(*state.words, word))

    @staticmethod
    def _given(state: State, word: str) -> State:
        """`PageSession.give`, `release` and `jog`."""
        if word == "release" and state.command:
            return state._replace(words=(*state.words, "release"))  # by the server's own link
        if word == "jog":
            if state.is_let_go:
                return state
            state = state._replace(press=True)
        if state.command:
            return state  # Busy
        return state._replace(command=word, heeded=state.level, next="look")

    # the operator's thread

    def _operator(self, state: State) -> Step:
        """`Operator._go_on`, `_release`, `Moves.jog_while`: it looks, lets go or begins, and looks until it is over."""
        is_up = state.level > state.heeded
        start, stop = ("jog", "stop") if state.command == "jog" else ("release", "hold")
        if state.next == "look":
            return "the operator looks", state._replace(next="end" if is_up else "start")
        if state.next == "start":
            words = () if is_up and "gate" in self.mends else (start,)
            return f"the operator starts: {start}", state._replace(words=state.words + words, next="watch")
        if state.next == "watch" and (is_up or start == "jog" and state.is_let_go):
            return f"the operator ends it: {stop}", state._replace(words=(*state.words, stop), next="end")
        if state.next == "watch":
            return "it is over", state._replace(next="end", moves=state.moves if state.words else STANDS)
        return "the command ends", state._replace(command="", next="")

    # the player, which heeds one word after another (`order_heed`, `may_take`)

    @staticmethod
    def _heeded(state: State, word: str) -> State:
        if word == "hold" or word == "stop" and state.moves == JOGS:
            return state._replace(moves=STANDS)
        if word == "stop":
            return state
        # where the word to hold stands behind it already, the motors take no step
        is_followed = "hold" in state.words or "stop" in state.words
        wrong = "" if state.asked == state.level or is_followed else f"{word} moves them, and nobody asked to go on"
        return state._replace(moves=JOGS if word == "jog" else RUNS, wrong=wrong)

    # a lost page (`Pages.look`)

    @staticmethod
    def _lost(state: State) -> Iterator[Step]:
        """Once it is silent for long enough, so that nothing of it is under way."""
        is_free = not any(wish.page == state.commands for wish in state.on_way)
        is_watched = state.commands == A or state.has_b_stream  # who never had a stream is never missed
        is_gone = state.gone[0 if state.commands == A else 1] and is_free
        is_held = not state.command or state.level > state.heeded
        if is_gone and is_watched and not is_held:
            yield "the page that commands is lost", Model._held(state)
        elif is_gone and not is_watched and not is_held and state.moves == RUNS:
            yield "nobody is there", state._replace(wrong="it runs, and nothing holds it")


def explored(model: Model) -> tuple[int, list[str]]:
    """How many states there are, and the steps of a shortest way to a wrong one; none where there is none."""
    first = State()
    came: dict[State, tuple[State, str] | None] = {first: None}
    left = deque([first])
    while left:
        state = left.popleft()
        for name, after in model.steps(state):
            if after not in came:
                came[after] = state, name
                left.append(after)
                if after.wrong:
                    return len(came), _way(came, after)
    return len(came), []


def _way(came: dict[State, tuple[State, str] | None], state: State) -> list[str]:
    steps = [state.wrong]
    while found := came[state]:
        state, name = found
        steps.append(name)
    return steps[::-1]


def main() -> int:
    """Prints what is found. Status 1 where all mends together leave something wrong, or one of them mends nothing."""
    count, way = explored(Model())
    print(f"with all mends: {count:,} states", *(way or ["nothing goes wrong"]), sep="\n    ")
    is_wrong = bool(way)
    for mend, says in MENDS.items():
        count, way = explored(Model(mend))
        print(f"without {mend} ({says}): {count:,} states", *(way or ["nothing goes wrong"]), sep="\n    ")
        is_wrong = is_wrong or not way
    return int(is_wrong)


if __name__ == "__main__":
    sys.exit(main())
