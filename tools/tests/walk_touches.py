"""What must hold of a touch of the walk by chance: an enabled button is taken, and does what it said."""
import json
import re
import time
from collections.abc import Callable
from dataclasses import dataclass

from walk_page import Seen
from walk_rules import ANSWER_S, Judge, Wrong

_LOOKS = ("check", "draw")
"""What looks at a program, and tells what is wrong with it."""
OLD_MS = 1000
"""What was touched so long ago isn't done."""
FLICK_MS = 40
"""No finger is on a button for so short a time: a jog that is let go so soon may be over before it begins."""

ENTRIES = {"mdi": "line", "load": "id", "zero": "axes", "touch": "work height", "offset": "axes", "tool": "length",
           "measurefrom": "down within", "seek": "within", "probe": "lengths", "jog": "length", "step": "length",
           "turn": "speed", "answer": "text", "reference": "at", "recover": "at", "rehearse": "at", "stands": "at",
           "macro": "name", "from": "line"}
"""By what is asked for, what of it a person wrote or chose, and the page doesn't try."""


@dataclass(frozen=True)
class Press:
    """A button that was touched, as the page showed it, why that isn't done, what the page shows since, and whether a
    player runs."""

    text: str
    says: str
    before: Seen
    after: Seen
    posts: list[dict]
    has_player: bool = True

    def changed(self) -> set[str]:
        """Which facts are others now than as the button was looked at."""
        return {name for name, fact in self.before.facts.items() if fact != self.after.facts.get(name)}


Holds = Callable[[Press], bool]


def entry(*names: str) -> Holds:
    """One of these was asked for, with something that a person wrote or chose."""
    return lambda press: any(post["what"] in names and ENTRIES[post["what"]].split() & _body(post).keys()
                             for post in press.posts)


def asked(*names: str) -> Holds:
    """One of these was asked for."""
    return lambda press: any(post["what"] in names for post in press.posts)


def became(*names: str) -> Holds:
    """One of these facts changed between the look at the button and the answer."""
    return lambda press: not press.changed().isdisjoint(names)


def began(press: Press) -> bool:
    """A command was under way that the page hadn't heard of."""
    return not press.before.facts["busy"] and became("busy", "question", "stored", "at")(press)


def held(press: Press) -> bool:
    """Somebody held since the page heard of the server last before it asked."""
    return any(_holds(post.get("heard")) != _holds(post["stamp"]) for post in press.posts if post["ok"] is False)


def slow(press: Press) -> bool:
    """It came a second after the touch."""
    return any(_ms(post.get("heard")) - _ms(post["stamp"]) > OLD_MS for post in press.posts if post["ok"] is False)


def gone(press: Press) -> bool:
    """No player runs: whether one was started again a page learns by asking alone."""
    return not press.has_player


REFUSALS: tuple[tuple[str, Holds], ...] = (
    # what a person wrote or chose
    (r"^refused [A-Z]\d+ ", entry("mdi")),
    (r"^macro [^:]+: nothing is done: .*refused [A-Z]\d+ ", entry("macro")),
    (r"^it would stop at |^refused [A-Z]\d+ ", entry("load")),
    (r"^from \d+: ", entry("from")),
    (r"^jog [XYZ][-+]: [XYZ] ends at |^jog [XYZ][-+]: it is less than a step", entry("jog", "step")),
    (r"^seek [XYZ][-+]: [XYZ] ends at |^seek [XYZ][-+]: it is less than a step", entry("seek")),
    (r"would go to machine .*, and ends at ", entry("probe")),
    (r"^nothing moves: from a machine Z of at most ", entry("measurefrom")),
    (r"^(?:reference [-\d. ]+: )?refused X2 OutsideTravel: ", entry("reference", "recover", "rehearse", "stands")),
    (r"^refused [A-Z]\d+ |: that is so already: nothing is set$", entry("zero", "touch", "offset", "tool", "turn")),
    # a line of a program that somebody loaded all the same
    (r"^line \d+.*(?:: |\n  )refused [A-Z]\d+ ", asked("run")),
    (r"^refused [A-Z]\d+ \w+: line \d+: ", asked("rehearse")),
    # how it went on, once it was taken
    (r"nothing more moves$|counts for nothing$", became("at", "busy")),
    (r"^line \d+.*: refused [A-Z]\d+ ", became("at", "stored", "busy")),
    # what came meanwhile
    (r"^somebody held since it was touched", held),
    (r"^touched more than a second ago", slow),
    (r"^something runs: hold first", began),
    (r"the door is open", became("door")),
    (r"the emergency stop is on|^NOTHING IS DONE|home comes first", became("alarm", "inputs")),
    (r"^another page commands", became("yours")),
    (r"the player is gone|doesn't answer|the player answers", became("gone", "ended")),
    (r"^ngc ended with status |^the session (is over|was ended)", became("ended")),
    (r"^nothing failed: quit ends the session", became("ended", "broken", "gone")),
    (r"no player listens there", gone),
)
"""The refusals that an enabled button may meet, each with what has to hold then. All others are wrong."""


def taken(judge: Judge, press: Press) -> None:
    """A refusal is one that the page couldn't know of as the button was enabled. Raises Wrong."""
    judge.count("refusals")
    if not any(re.search(form, press.says) and holds(press) for form, holds in REFUSALS):
        asked = [(post["what"], post["body"]) for post in press.posts]
        raise Wrong("enabled, and refused", f"{press.text}, at {press.before.word}: {press.before.detail}: it says"
                                            f" {press.says!r}; asked was {asked}, and since then {press.changed()}"
                                            " changed")


def _body(post: dict) -> dict:
    return json.loads(post["body"] or "{}")


def _holds(stamp: str | None) -> str:
    return (stamp or "").partition("-")[2]


def _ms(stamp: str | None) -> int:
    return int((stamp or "0").partition("-")[0] or 0)


def refusals(posts: list[dict], log: list[list[str]]) -> list[str]:
    """Why what was asked for isn't done, by the answers and by what Log has of it. What is found of a program as it is
    looked at is what was asked for."""
    found = [_why(post) for post in posts if post["ok"] is False]
    answers = [_answer(post) for post in posts if post["ok"] and post["what"] not in _LOOKS]
    found += [str(answer["refused"]) for answer in answers if answer.get("refused")]
    return list(dict.fromkeys(found + [says[len("00:00:00"):] for kind, says in log if kind == "refused"]))


def flicked(posts: list[dict]) -> bool:
    """Whether a jog is all that was asked for, and was let go sooner than a finger does."""
    at = {post["what"]: post["at"] for post in posts}
    return at.keys() == {"jog", "jogstop"} and at["jogstop"] - at["jog"] < FLICK_MS


def _answer(post: dict) -> dict:
    try:
        said = json.loads(post.get("said") or "{}")
    except ValueError:
        return {}
    return said if isinstance(said, dict) else {}


def _why(post: dict) -> str:
    """Why what was posted isn't done."""
    return str(_answer(post).get("why", "") or post.get("said", ""))


def second_tap(clicks: list[dict], posts: list[dict]) -> None:
    """The second of two taps does nothing where the button came to mean something else. Raises Wrong."""
    taps = [one for one in clicks if one["kind"] == "click"]
    if len(taps) != 2 or taps[0]["text"] == taps[1]["text"] or not taps[0]["id"] == taps[1]["id"] != "":
        return
    late = [post["what"] for post in posts if post["at"] >= taps[1]["at"]]
    if late:
        raise Wrong("second tap", f"{taps[0]['text']} was tapped twice; the second tap was on {taps[1]['text']}, and"
                                  f" did {late}")


def confirmed(axis: str, off_mm: float, says: str) -> None:
    """What is confirmed is at most as far off as its button says. Raises Wrong."""
    said = re.search(r"([\d.]+)\s*mm", says)
    if off_mm > (float(said[1]) if said else 0) + 0.01:
        raise Wrong("confirmed further off", f"{axis} is {off_mm:.3f} mm off, and the button says {says!r}")


def chosen(seen: Seen) -> dict[str, bool]:
    """What a person chose, by its name: whether it is in force."""
    names = {"single": "Single block", "optional": "Optional stop", "delete": "Block delete"}
    found = {names[name]: is_on == "true" for name, is_on in seen.switches.items()}
    return found | {says: True for says in seen.overrides if not says.endswith(" 100 %")}


def choices_kept(before: dict[str, bool], seen: Seen) -> None:
    """For a job that goes on what was chosen is in force again, or is named; for one that begins nothing is. Raises
    Wrong."""
    if not seen.begun:
        return
    lost = [name for name, is_on in before.items() if is_on and not chosen(seen).get(name)]
    named = [name for name in lost if name.split(" ")[0].lower() in seen.all_words.lower()]
    if lost != named:
        raise Wrong("choices lost", f"chosen was {lost}; the page says {seen.word}: {seen.detail}")


def switched_off(judge: Judge, touched: float) -> None:
    """After a touch of Stop at a moment spindle and coolant go off. Raises Wrong."""
    while (on := judge.bench.mill.outputs) and (on.spindle or on.mist or on.flood):
        if time.monotonic() > touched + ANSWER_S + judge.slack_s(touched):
            raise Wrong("stop leaves it on", f"{on}")
        time.sleep(0.02)
