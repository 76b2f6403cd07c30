"""What a page may ask for, by name, each with its words looked at. No word of a page reaches `ngc` but in these forms.
"""
import json
import re
from collections.abc import Callable
from dataclasses import dataclass, field
from functools import partial
from http import HTTPStatus

from ngc_tools.formats.device import MOST_LARGE_PROGRAM, SLOTS
from ngc_tools.formats.position import millimetres, nanometres
from ngc_tools.job.cam_homes import HomeAnswers
from ngc_tools.operator.commands import BY_WORD, COMMANDS, Asked, Brings, words_that_bring
from ngc_tools.operator.macros import LONGEST_NAME
from ngc_tools.operator.motors import PERCENTS, SPINDLE_PERCENTS
from ngc_tools.operator.modes import SYSTEMS
from ngc_tools.operator.numbers import length_of
from ngc_tools.operator.routines import ROUTINES
from ngc_tools.operator.tool_shapes import MOST_DIAMETER_NM, TIPS, Shape
from ngc_tools.page.aside import Wanted
from ngc_tools.page.http import RequestRefused
from ngc_tools.page.jog import KEYS_SILENCE_S, OLDEST_STEP_S, Wish
from ngc_tools.page.pages import Pages, Stamp
from ngc_tools.page.rehearse import rehearse
from ngc_tools.page.session import PageSession
from ngc_tools.page.state import LOOKED_AT

_NUMBER = re.compile(r"[-+]?(?:[0-9]{1,7}\.?[0-9]{0,6}|\.[0-9]{1,6})(?:mm|in)?")
_WAYS = re.compile(r"(?:[XY][-+]?(?: [XY][-+]?)?)?")
_LONGEST_LINE = 256
_MOST_SPEED = 1_000_000  # turns a minute
_LONGEST_ANSWER = 64
_MOST_PRESSES = 1000  # that are numbered before the server hears of one
_STEP_S = 600.0  # that a step may take
_SLOW = "said {ms} ms ago, and so not done: this page, or the network, is too slow now for keys"
_NOT_ASKED = "the player doesn't ask for that tool any more, and so it isn't done: look which one it asks for"
_MOST_KEPT = 2  # programs that were looked at and may be loaded
SWITCHES = words_that_bring(Brings.SWITCH)
_OUTPUT_LINES = {"clockwise": "M3 S{}", "counter-clockwise": "M4 S{}", "spindle off": "M5", "flood": "M8", "mist": "M7",
                 "coolant off": "M9"}
"""Lines of G-code by what they do to the spindle or the coolant; `S{}` takes a speed."""


class BadWords(ValueError):
    """Words of a page that aren't as they should be; the text says how."""


@dataclass(slots=True)
class Given:
    """What a deed is done with: the session, its pages, the programs that were looked at, the words, how many wishes to
    hold there had been as they came, and whether somebody waits for the answer."""

    session: PageSession
    pages: Pages
    checked: dict[str, tuple[str, bytes]]
    words: dict
    holds: int = 0
    wanted: Wanted = field(default_factory=Wanted)

    def flag(self, name: str) -> bool:
        """Whether a word is true. Raises BadWords for what is neither true nor false."""
        value = self.words.get(name, False)
        if not isinstance(value, bool):
            raise BadWords(f"{name}: true or false")
        return value

    def count(self, name: str, most: int) -> int:
        """A whole number from 0. Raises BadWords."""
        value = self.words.get(name)
        if not isinstance(value, int) or isinstance(value, bool) or not 0 <= value <= most:
            raise BadWords(f"{name}: a whole number from 0 to {most:,}")
        return value

    def press(self) -> int:
        """The number of a press of a button. Raises BadWords."""
        return self.count("press", self.session.jogs.last + _MOST_PRESSES)

    def number(self, name: str) -> str:
        """A number in millimetres as `ngc` reads it. Raises BadWords."""
        return number_of(self.words.get(name))

    def point(self, name: str) -> list[str]:
        """Three numbers in millimetres. Raises BadWords."""
        found = self.words.get(name)
        if not isinstance(found, list) or len(found) != 3:
            raise BadWords(f"{name}: three numbers in millimetres")
        return list(map(number_of, found))

    def shown(self) -> list[str] | None:
        """Where the page showed the motors as it was touched; None where it says no place. Raises BadWords."""
        return self.point("shown") if self.words.get("shown") is not None else None

    def axes(self, name: str) -> dict[str, str]:
        """Numbers in millimetres of some axes. Raises BadWords."""
        found = self.words.get(name)
        if not isinstance(found, dict) or not found or not set(found) <= set("XYZ"):
            raise BadWords(f'{name}: as {{"X": "0"}}')
        return {axis: number_of(number) for axis, number in found.items()}

    def line(self, name: str, longest: int) -> str:
        """A line of printable characters. Raises BadWords."""
        value = self.words.get(name)
        if not isinstance(value, str) or not value.strip() or not value.isprintable() or len(value) > longest:
            raise BadWords(f"{name}: one line of at most {longest} printable characters")
        return value.strip()

    def anyway(self) -> str:
        """What is put behind a command that is to be done whatever the player says."""
        return " anyway" if self.flag("anyway") else ""


def number_of(value: object) -> str:
    """A number, in millimetres, or with `in` behind it inches: in millimetres. Raises BadWords."""
    nm = length_of(value) if isinstance(value, str) and _NUMBER.fullmatch(value) else None
    if nm is None:
        raise BadWords("a number in millimetres, or as 0.1in, with at most six decimals")
    return millimetres(nm) if value.endswith("in") else value.removesuffix("mm")


def cam_answers(text: str) -> HomeAnswers:
    """What a person says of a CAM system's text, in JSON, as `{"lift": "10", "park": ["0", "0"], "tools": {"201": 1}}`.
    Raises BadWords."""
    try:
        said = json.loads(text)
    except (ValueError, RecursionError):
        said = None
    if not isinstance(said, dict) or not isinstance(tools := said.get("tools", {}), dict):
        raise BadWords("answers: an object")
    lift, park = said.get("lift"), said.get("park")
    if park is not None and not (isinstance(park, list) and len(park) == 2):
        raise BadWords("park: two numbers in millimetres")
    slots = {int(number): slot for number, slot in tools.items() if re.fullmatch("[1-9][0-9]{0,8}", number)}
    if len(slots) < len(tools) or not all(type(slot) is int and 1 <= slot <= SLOTS for slot in slots.values()):
        raise BadWords(f"tools: each has a slot from 1 to {SLOTS}")
    x_y = None if park is None else (nanometres(number_of(park[0])), nanometres(number_of(park[1])))
    return HomeAnswers(None if lift is None else nanometres(number_of(lift)), x_y, slots)


def keep_checked(checked: dict[str, tuple[str, bytes]], name: str, text: bytes, ident: str) -> None:
    """Keeps a program that was looked at, until it is loaded; the oldest ones go."""
    checked[ident] = (name, text)
    for old in list(checked)[:-_MOST_KEPT]:
        del checked[old]


def _load(given: Given) -> dict:
    found = given.checked.get(str(given.words.get("id")))
    if found is None:
        raise RequestRefused(HTTPStatus.GONE, "check it again")
    return {"taken": given.session.load(*found)}


def _mdi(given: Given) -> None:
    """A line is one of G-code, whatever it says: no command of the core, which may name a file."""
    line = given.line("line", _LONGEST_LINE)
    given.session.type(f"anyway mdi {line}" if given.flag("anyway") else f"mdi {line}")


def _reference(given: Given) -> dict:
    """Says why it isn't taken, nothing where it is. Raises RequestRefused where the player is gone, which is told too.
    """
    at = "player" if given.words.get("at") == "player" else " ".join(given.point("at"))
    if given.session.stand.gone:
        raise RequestRefused(HTTPStatus.CONFLICT, "the player is gone. Start it, then Start ngc again")
    given.session.reference(f"reference {at}{given.anyway()}", given.shown())
    return {"refused": given.session.face.refusal}


def _stands(given: Given) -> dict:
    """In an alarm: where the axes stand that aren't homed; of the others the player's numbers are told. Says why that
    isn't taken, nothing where it is."""
    axes = given.axes("at")
    given.session.tell("reference " + " ".join(axes.get(axis, "player") for axis in "XYZ"))
    return {"refused": given.session.face.refusal}


def _switch(given: Given) -> None:
    if str(given.words.get("name")) not in SWITCHES:
        raise BadWords(f"name: one of {', '.join(sorted(SWITCHES))}")
    given.session.tell(f"{given.words['name']} {'on' if given.flag('on') else 'off'}")


def _way(given: Given) -> str:
    """An axis and a direction, as `X+`."""
    axis, sign = given.words.get("axis"), given.words.get("sign")
    if axis not in ("X", "Y", "Z") or sign not in (1, -1):
        raise BadWords("axis: X, Y or Z; sign: 1 or -1")
    return f"{axis}{'+' if sign > 0 else '-'}"


def _home_words(given: Given) -> str:
    axes = given.words.get("axes", "")
    if not isinstance(axes, str) or not re.fullmatch("X?Y?Z?", axes):
        raise BadWords("axes: as XYZ")
    return " ".join(axes)


def _jog(given: Given) -> dict | None:
    way, rate = _way(given), given.number("rate")
    if given.words.get("length") is not None:
        given.session.type(f"jog {way} {rate} for {given.number('length')}")
        return None
    if "down" in given.words:
        given.pages.check_holds(Stamp.read(given.words["down"]))
    if "said" not in given.words:
        return {"goes": given.session.jog(Wish(way, rate, given.press()))}
    left_s = KEYS_SILENCE_S - _said(given, KEYS_SILENCE_S)
    return {"goes": given.session.jog(Wish(way, rate, given.press(), left_s, True))}


def _step(given: Given) -> None:
    """A step by a key or a wheel, to its end: nobody asks for the next one before."""
    _said(given, OLDEST_STEP_S)
    if given.session.is_at_change:
        raise RequestRefused(HTTPStatus.CONFLICT, "a tool is waited for: jog by a key that is held, or by the buttons")
    line = f"jog {_way(given)} {given.number('rate')} for {given.number('length')}"
    given.session.ask("jog", lambda: given.session.operator.do(line), _STEP_S)


def _said(given: Given, most_s: float) -> float:
    """How many seconds ago a page said what it asks for by a key. Raises RequestRefused for what is too old, and where
    somebody held since."""
    stamp = Stamp.read(given.words.get("said"))
    given.pages.check_holds(stamp)
    if (age_s := given.pages.age_s(stamp)) >= most_s:
        raise RequestRefused(HTTPStatus.CONFLICT, _SLOW.format(ms=int(1000 * age_s)))
    return age_s


def _seek_words(given: Given) -> str:
    return f"{_way(given)} {given.number('rate')} within {given.number('within')}"


def _axes_words(given: Given) -> str:
    return " ".join(f"{axis}{number}mm" for axis, number in sorted(given.axes("axes").items()))


def _zero_words(given: Given) -> str:
    return _axes_words(given) + _by_probe(given)


def _offset_words(given: Given) -> str:
    """What is set, by the code that names it, and the numbers of its axes, or a slot."""
    name = given.words.get("name")
    if name in (*SYSTEMS, "G92"):
        return f"{name} {_axes_words(given)}"
    if name == "G43":
        return f"G43 H{given.count('slot', SLOTS)}"
    if name not in ("G49", "G92.1"):
        raise BadWords(f"name: {', '.join(SYSTEMS)}, G92, G92.1, G43, or G49")
    return name


def _probe_words(given: Given) -> str:
    """A routine, the ways to the work, and lengths by their names."""
    name, ways, lengths = (given.words.get(word) for word in ("routine", "ways", "lengths"))
    if not isinstance(name, str) or name not in ROUTINES or not isinstance(ways, str) or not _WAYS.fullmatch(ways):
        raise BadWords('routine: one of the probe\'s; ways: as "X+ Y-"')
    if not isinstance(lengths, dict) or not set(lengths) <= set(ROUTINES[name].lengths):
        raise BadWords("lengths: those of the routine, in millimetres")
    said = [f"{length} {number_of(number)}mm" for length, number in lengths.items()]
    return " ".join([name, *ways.split(), *said])


def _turn(given: Given) -> None:
    """Switches the spindle or the coolant by a line, which the log shows."""
    line = _OUTPUT_LINES.get(str(given.words.get("name")))
    if line is None:
        raise BadWords(f"name: one of {', '.join(_OUTPUT_LINES)}")
    if "{}" in line:
        line = line.format(given.count("speed", _MOST_SPEED))
    given.session.line(line)


def _touch_words(given: Given) -> str:
    """A slot, and what its tool stands on: the work at a coordinate of it, or the setter, whose height may be said."""
    words = ["tool", str(given.count("slot", SLOTS))]
    if given.words.get("work") is not None:
        words += ["work", f"{given.number('work')}mm"]
    elif given.words.get("height") is not None:
        words += [f"{given.number('height')}mm"]
    return " ".join(words) + _by_probe(given)


def _by_probe(given: Given) -> str:
    return " probe" if given.flag("probe") else ""


def _shape(given: Given) -> None:
    """Keeps the shape of a tool for the picture of the stock; without a diameter it is forgotten."""
    slot, shape = given.count("slot", SLOTS), None
    if given.words.get("diameter") is not None:
        angle = float(given.number("angle")) if given.words.get("tip") == "v" else 0
        shape = Shape(nanometres(given.number("diameter")), str(given.words.get("tip")), angle)
        if not shape.is_one:
            raise BadWords(f"a diameter in mm up to {MOST_DIAMETER_NM // 10**6:,}; tip: {', '.join(TIPS)}; of a v an"
                           " angle below 180")
    given.session.shapes.keep(slot, shape)


def _answer(given: Given) -> dict:
    """Where somebody has to look at the machine, a yes is one that says that each thing was looked at."""
    text, question = "yes" if given.words.get("yes") is True else "no", given.count("question", 10**9)
    if "text" in given.words:
        text = given.line("text", _LONGEST_ANSWER)
    if text != "no" and given.session.face.is_look(question) and given.words.get("seen") != LOOKED_AT:
        raise BadWords(f"seen: {LOOKED_AT}, once each is looked at")
    return {"taken": given.session.face.answer(question, text)}


def _recover(given: Given) -> None:
    given.session.recover(given.point("at") if given.words.get("at") is not None else None, given.shown())


def _go(given: Given) -> None:
    """The tool is in that the page showed. Raises RequestRefused where the player waits for another one by now, or for
    none."""
    if given.words.get("tool") is not None and not given.session.asks_for(given.count("tool", SLOTS), given.shown()):
        raise RequestRefused(HTTPStatus.CONFLICT, _NOT_ASKED)
    given.session.tell("go", given.holds)


def _rehearse(given: Given) -> dict:
    at = given.point("at") if given.words.get("at") is not None else None
    return rehearse(given.session, at, given.flag("recover"), given.wanted)


_WORDS: dict[str, Callable[[Given], str]] = {
    "home": _home_words, "seek": _seek_words, "zero": _zero_words, "touch": _touch_words, "offset": _offset_words,
    "probe": _probe_words, "macro": lambda given: given.line("name", LONGEST_NAME),
    "from": lambda given: str(given.count("line", MOST_LARGE_PROGRAM)),
    "tool": lambda given: f"{given.count('slot', SLOTS)} {given.number('length')}",
    "percent": lambda given: str(given.count("percent", PERCENTS[-1])),
    "spindle": lambda given: f"percent {given.count('percent', SPINDLE_PERCENTS[-1])}",
}
"""What stands behind a command, by a page's words; behind the others nothing does."""


def _typed(word: str, given: Given) -> None:
    """A command as a person types it, given or awaited."""
    line = f"{word} {_WORDS[word](given) if word in _WORDS else ''}".strip() + given.anyway()
    if BY_WORD[word].asked is Asked.AWAITED:
        given.session.tell(line)
    else:
        given.session.type(line)


_OWN: dict[str, Callable[[Given], dict | None]] = {
    "load": _load, "mdi": _mdi, "reference": _reference, "rehearse": _rehearse, "jog": _jog, "recover": _recover,
    "go": _go,
    "stop": lambda given: given.session.stop(given.pages.commands),
    "off": lambda given: given.session.off(given.pages.commands),
    "rewind": lambda given: {"taken": given.session.rewind()},
    "run": lambda given: given.session.run("run" + given.anyway()),
    "release": lambda given: given.session.release(),
    "quit": lambda given: given.session.quit(),
}
"""The commands by which the page does more than a console, or asks for more."""

_OF_PAGES: dict[str, Callable[[Given], dict | None]] = {
    "stands": _stands, "switch": _switch, "turn": _turn, "answer": _answer, "shape": _shape,
    "measurefrom": lambda given: given.session.tell(f"measure from {given.number('down')} within"
                                                    f" {given.number('within')}"),
    "step": _step, "jogstop": lambda given: given.session.jogs.let_go(given.press()),
    "loss": lambda given: given.pages.choose(given.flag("goes")),
    "restart": lambda given: given.session.restart(),
}
"""What is no command, and the switches, which are asked for by one name."""

_ASKED = [command for command in COMMANDS if command.asked is not Asked.NEVER and command.word not in SWITCHES]

DEEDS: dict[str, Callable[[Given], dict | None]] = {
    **{command.word: partial(_typed, command.word) for command in _ASKED}, **_OWN, **_OF_PAGES}
"""What the page that commands may ask for."""
WAITING = {command.word for command in _ASKED if command.asked is Asked.AWAITED} | {
    "stands", "switch", "shape", "measurefrom", "step", "restart"}
"""Those that wait for what they ask for; the others only give it to the session's thread."""
