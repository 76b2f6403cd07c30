"""The commands of console and page, each once: how it is typed, when it is taken, what it brings about, how a page may
ask for it, what its button needs, what it does.

The console's dispatch and `help`, what is taken while something runs, in an alarm and before what is left in OUT, what
a page may ask for and which of its buttons are enabled come from here. docs/tools/ngc-operate.md has a row for each."""
from collections.abc import Callable
from dataclasses import dataclass
from enum import Enum, Flag, auto
from typing import TYPE_CHECKING

from ngc_tools.operator.routines import ROUTINES
from ngc_tools.operator.typed import Typed

if TYPE_CHECKING:
    from ngc_tools.operator.operator import Operator

_WIDTH = 17  # of a form in `help`


class Taken(Flag):
    """When a command is taken besides at rest."""

    AMID = auto()
    """While something runs, besides the wish to hold."""
    PIPED = auto()
    """So also where it comes from a pipe or a file."""
    IN_ALARM = auto()
    BROKEN_OFF = auto()
    """While the player carries out no more line of this session; so are those that are taken in an alarm."""


class Brings(Flag):
    """What a command brings about."""

    LINES = auto()
    """The machine moves by lines of OUT."""
    MOVES = auto()
    """The player moves it without lines."""
    HANDS_OUT = auto()
    """Lines come behind those that stand in OUT: not before these are carried out, or dropped."""
    ENTRY = auto()
    """Something is stored without a line of OUT: not before those that stand there either, since `recover` is for what
    the last session left."""
    PROGRAM = auto()
    """The program runs, to its end or the next stop."""
    TAKES_UP = auto()
    """What a loss of power cut off goes on, once somebody has looked."""
    FROM_TOLD = auto()
    """It goes from where somebody has told that the motors stand."""
    CHOICE = auto()
    """What is chosen is kept beside the device."""
    SWITCH = auto()
    """Something is on or off from then on, and that is all."""


class Asked(Enum):
    """How a page asks for a command."""

    NEVER = auto()
    GIVEN = auto()
    """The session's thread does it, and nobody waits."""
    AWAITED = auto()


class Needs(Flag):
    """What has to hold, by what was told last, so that a page's button does something."""

    SESSION = auto()
    """`ngc` has not ended."""
    PLAYER = auto()
    """The player isn't gone, if there is one."""
    DEVICE = auto()
    """It has not failed."""
    NO_ALARM = auto()
    CARRIES = auto()
    """The player carries out lines of this session."""
    NOT_BUSY = auto()
    NOTHING_BUT_JOG = auto()
    """Nothing is under way but a jog."""
    MOVES_OVER = auto()
    """While the player waits for a tool: no jog or seek is under way, nor the way back from one."""
    NOTHING_HALF = auto()
    """No block is half-done."""
    NOTHING_BUT_HELD = auto()
    """No block is half-done but one that is held."""
    IDLE = auto()
    """`ngc` is idle or stopped."""
    NOTHING_LEFT = auto()
    """No line stands in OUT that no motor carried out, since the last session."""
    NOTHING_IN_HAND = auto()
    """The player has no line that it was given and hasn't carried out."""
    MOTORS_FREE = auto()
    """The motors aren't held with lines in hand."""
    PLACE_KNOWN = auto()
    """`ngc` knows where the machine stands."""
    ONE_PLACE = auto()
    """The motors rest where `ngc` takes them to be."""
    MAKES_MOVES = auto()
    """The player makes moves without lines."""
    TAKES_MOVES = auto()
    """It takes one now, but for the door, for what is on and for what is under way."""
    DOOR_SHUT = auto()
    STOP_FREE = auto()
    """The emergency stop is off."""
    PROBE_FREE = auto()
    """The probe touches nothing."""
    PROBE_IN = auto()
    """It is in the spindle, by the last M6."""
    ALL_OFF = auto()
    """Spindle and coolant are off."""
    SOMETHING_ON = auto()
    MOTORS_STAND = auto()
    BEGUN = auto()
    """A program is stored, and its first line is done."""
    SOMETHING_TO_STOP = auto()


_THERE = Needs.SESSION | Needs.PLAYER
_SOUND = _THERE | Needs.DEVICE | Needs.NO_ALARM
_WELL = _SOUND | Needs.CARRIES
_ENTRY = _WELL | Needs.NOT_BUSY | Needs.NOTHING_HALF | Needs.NOTHING_LEFT
_LINE = _ENTRY | Needs.MOTORS_FREE | Needs.PLACE_KNOWN
_SETTING = _LINE | Needs.IDLE
_FROM_PLACE = _SETTING | Needs.ONE_PLACE
LINE_FROM_PLACE = _LINE | Needs.ONE_PLACE
"""What a line of G-code needs that a button stands for, but for M5 and M9, which are taken at two places too."""
_MOVE = _THERE | Needs.MAKES_MOVES | Needs.TAKES_MOVES | Needs.DOOR_SHUT | Needs.STOP_FREE
_TOWARDS = _MOVE | Needs.ALL_OFF | Needs.NOT_BUSY
_ROUTINE = _TOWARDS | _FROM_PLACE


@dataclass(frozen=True, slots=True)
class OperatorCommand:
    """A command, and its `others`, names that do the same. `forms` are what `help` says, each form with its sentence;
    nothing where it stands beside another one, or nobody types it. `usage` is said where the words behind it are
    others."""

    word: str
    does: Callable[["Operator", Typed], None]
    forms: tuple[tuple[str, str], ...] = ()
    others: tuple[str, ...] = ()
    usage: str = ""
    taken: Taken = Taken(0)
    brings: Brings = Brings(0)
    asked: Asked = Asked.NEVER
    needs: Needs = Needs(0)


def _plain(operator: "Operator", typed: Typed) -> None:
    operator.plain(typed)


_OVERRIDE = {"taken": Taken.AMID | Taken.PIPED, "brings": Brings.CHOICE, "asked": Asked.AWAITED, "needs": _WELL}
_SWITCH = _OVERRIDE | {"taken": Taken.AMID, "brings": Brings.CHOICE | Brings.SWITCH}
_OWN_LINES = Brings.LINES | Brings.HANDS_OUT
_GOES_ON = _OWN_LINES | Brings.PROGRAM
_TAKES_UP = Brings.LINES | Brings.PROGRAM | Brings.TAKES_UP | Brings.FROM_TOLD

COMMANDS = (
    OperatorCommand("load", lambda operator, typed: operator.load_file(typed.rest),
                    (("load FILE", "try a program by a dry run, and store it"),), brings=Brings.ENTRY,
                    asked=Asked.AWAITED, needs=_ENTRY | Needs.IDLE),
    OperatorCommand("run", lambda operator, typed: operator.run(typed),
                    (("run, start", "start it; run goes on with it too"),), brings=_GOES_ON, asked=Asked.GIVEN,
                    needs=_THERE | Needs.NOT_BUSY | Needs.NOTHING_BUT_HELD),
    OperatorCommand("start", lambda operator, typed: operator.go_on("start", typed), brings=_GOES_ON),
    OperatorCommand("mdi", lambda operator, typed: operator.mdi(typed.rest, typed.anyway),
                    (("G0 X1 ..", "a line of G-code of your own"),), brings=_OWN_LINES, asked=Asked.GIVEN, needs=_LINE),
    OperatorCommand("restore", lambda operator, _: operator.restore(),
                    (("restore", "put back what lines of your own left in force"),), brings=_OWN_LINES,
                    asked=Asked.GIVEN, needs=LINE_FROM_PLACE),
    OperatorCommand("home", lambda operator, typed: operator.moves.home(typed.rest),
                    (("home, home X Z", "to the switches; then ngc knows where the machine is"),),
                    usage="home, or home X Z: these axes alone", taken=Taken.IN_ALARM, brings=Brings.MOVES,
                    asked=Asked.GIVEN,
                    needs=_TOWARDS),
    OperatorCommand("jog", lambda operator, typed: operator.jog(typed.rest),
                    (("jog", "by the arrow keys, at a terminal"), ("jog X+ 600 for 10",
                    "at 600 mm a minute, by 10 mm")),
                    usage="jog X+ RATE for MM: at a rate in mm a minute, as jog X+ 600 for 10; jog alone: by keys, at a"
                    " terminal", taken=Taken.AMID | Taken.BROKEN_OFF, brings=Brings.MOVES, asked=Asked.GIVEN,
                    needs=_MOVE | Needs.NO_ALARM | Needs.NOTHING_BUT_JOG),
    OperatorCommand("seek", lambda operator, typed: operator.moves.seek(typed.rest),
                    (("seek Z- 60 within 10", "until the probe is on, at most 10 mm"),),
                    usage="seek Z- RATE within MM: until the probe is on, as seek Z- 60 within 10",
                    taken=Taken.AMID | Taken.BROKEN_OFF,
                    brings=Brings.MOVES, asked=Asked.GIVEN, needs=_TOWARDS | Needs.NO_ALARM | Needs.PROBE_FREE),
    OperatorCommand("zero", lambda operator, typed: operator.touch.zero(typed.rest, typed.anyway),
                    (("zero X Y Z", "here is X0, Y0, Z0 of the work; zero Z 10: here is Z10"),),
                    usage="zero X Y Z: which axes are 0 here? zero Z 10 for another coordinate than 0",
                    brings=Brings.HANDS_OUT, asked=Asked.GIVEN, needs=_FROM_PLACE),
    OperatorCommand("touch", lambda operator, typed: operator.touch.tool(typed.rest, typed.anyway),
                    (("touch tool N", "slot N has the length of the tool on the setter"),
                     ("touch tool N work 0", "of the tool on the work, where that has Z0"),
                     ("probe", "behind zero and touch: where it was touched")),
                    usage="touch tool N: which slot's tool stands on the setter? touch tool 3, or touch tool 3 HEIGHT;"
                    " touch tool 3 work 0 where it stands on the work at Z0",
                    brings=Brings.ENTRY, asked=Asked.GIVEN, needs=_FROM_PLACE),
    OperatorCommand("probe", lambda operator, typed: operator.probing.do(typed.rest),
                    (("probe edge X+", "until the probe touches an edge; also outside,\n"
                      "inside, surface, bore, boss, pocket, web"),),
                    usage=f"probe {', '.join(ROUTINES)}: which routine? probe outside X+ Y+ within 10 along 10",
                    brings=Brings.MOVES | Brings.HANDS_OUT, asked=Asked.GIVEN,
                    needs=_ROUTINE | Needs.PROBE_IN | Needs.PROBE_FREE),
    OperatorCommand("measure", lambda operator, typed: operator.measuring.do(typed.rest),
                    (("measure", "the tool in the spindle, on the setter"),),
                    usage="measure: the tool in the spindle; measure from Z within MM: it goes down to that machine Z,"
                    " and seeks the setter from there by at most so many mm", brings=Brings.MOVES | Brings.ENTRY,
                    asked=Asked.GIVEN, needs=_ROUTINE),
    OperatorCommand("measures", lambda operator, typed: operator.measuring.switch(typed.rest),
                    (("measures on, off", "whether each tool change asks for that"),),
                    usage="measures on, or measures off: whether each tool change asks whether its tool is measured",
                    taken=Taken.AMID, brings=Brings.SWITCH, asked=Asked.AWAITED, needs=_WELL),
    OperatorCommand("above", lambda operator, _: operator.ways.above(),
                    (("above", "Z up, and over to X0 Y0 of the work"),), brings=_OWN_LINES, asked=Asked.GIVEN,
                    needs=_FROM_PLACE),
    OperatorCommand("park", lambda operator, _: operator.ways.park(),
                    (("park", "spindle and coolant off, Z up, and over to X and Y of home"),), brings=_OWN_LINES,
                    asked=Asked.GIVEN, needs=_FROM_PLACE),
    OperatorCommand("macro", lambda operator, typed: operator.macros.do(typed.rest),
                    (("macro NAME", "the lines of a macro; macro says which there are"),), brings=_OWN_LINES,
                    asked=Asked.GIVEN, needs=_FROM_PLACE),
    OperatorCommand("offsets", lambda operator, _: operator.offsets.show(),
                    (("offsets", "G54 to G59.3, G92, the tool length, the place in each"),)),
    OperatorCommand("offset", lambda operator, typed: operator.offsets.set(typed.rest, typed.anyway),
                    (("offset G55 X 12.5", "its X0 is at machine X12.5; offset G92 X 1,\nG92.1, G43 H2, G49"),),
                    usage="offset G55 X 12.5: which system, and which axes of its origin? offset G92 X 1 for the G92"
                    " offset, offset G92.1 for none, offset G43 H2 for the tool length in force, offset G49 for none",
                    brings=Brings.HANDS_OUT, asked=Asked.GIVEN, needs=_SETTING),
    OperatorCommand("units", lambda operator, typed: operator.offsets.units(typed.rest),
                    (("units in", "zero, offset and offsets are in inches; units mm"),),
                    usage="units mm, or units in: of the numbers of zero, offset and offsets; units alone says which"),
    OperatorCommand("undo", lambda operator, _: operator.touch.undo(),
                    (("undo", "put back what zero, touch, probe, measure, offset set"),), brings=Brings.HANDS_OUT,
                    asked=Asked.GIVEN, needs=_FROM_PLACE),
    OperatorCommand("hold", lambda operator, typed: operator.hold_all(typed),
                    (("hold", "Enter or Ctrl-C while something runs"),), taken=Taken.BROKEN_OFF, needs=Needs.SESSION),
    OperatorCommand("stop", lambda operator, _: operator.stopping.stop(),
                    (("stop", "end the job: spindle and coolant off, then lines, jog\nand home are taken"),),
                    taken=Taken.BROKEN_OFF, asked=Asked.GIVEN, needs=_SOUND | Needs.SOMETHING_TO_STOP),
    OperatorCommand("off", lambda operator, _: operator.stopping.off(),
                    (("off", "spindle and coolant off, while the motors stand"),), taken=Taken.AMID | Taken.BROKEN_OFF,
                    asked=Asked.AWAITED, needs=_SOUND | Needs.SOMETHING_ON | Needs.MOTORS_STAND),
    OperatorCommand("rewind", lambda operator, _: operator.rewind(),
                    (("rewind", "the stored program from its first line"),), brings=Brings.ENTRY, asked=Asked.AWAITED,
                    needs=_SOUND | Needs.NOT_BUSY | Needs.NOTHING_HALF | Needs.NOTHING_LEFT | Needs.IDLE | Needs.BEGUN),
    OperatorCommand("release", lambda operator, _: operator.release(),
                    (("release", "lets held motors carry out what is in hand"),), taken=Taken.AMID,
                    brings=Brings.LINES | Brings.FROM_TOLD, asked=Asked.GIVEN, needs=Needs.SESSION),
    OperatorCommand("percent", lambda operator, typed: operator.motors.override("percent", typed.rest),
                    (("percent N", "go at N % of the rates; - and + are 10 %\nless and more, 0 is 100 %"),),
                    **_OVERRIDE),
    OperatorCommand("spindle", lambda operator, typed: operator.motors.spindle(typed.rest),
                    (("spindle percent N", "the spindle turns at N % of the program's speed"),), **_OVERRIDE),
    OperatorCommand("from", lambda operator, typed: operator.from_line.do(typed.rest),
                    (("from N", "the program from its line N on: says what is in force\nthere, and asks for the way"),),
                    usage="from N: the number of a line, from which the program goes on",
                    brings=_GOES_ON, asked=Asked.GIVEN, needs=_FROM_PLACE),
    OperatorCommand("where", lambda operator, _: operator.where(),
                    (("where, status", "machine and work, the line, the times, the motors"),), taken=Taken.IN_ALARM),
    OperatorCommand("status", lambda operator, _: operator.status(), taken=Taken.IN_ALARM),
    OperatorCommand("continue", lambda operator, typed: operator.go_on("continue", typed),
                    (("continue", "go on with what was held or stopped"),), brings=_GOES_ON),
    OperatorCommand("reference", lambda operator, typed: operator.reference(typed),
                    (("reference X Y Z", "the machine stands there, in mm"),
                     ("reference player", "the machine stands where the player says")),
                    taken=Taken.IN_ALARM | Taken.BROKEN_OFF, asked=Asked.AWAITED,
                    needs=_THERE | Needs.NOT_BUSY | Needs.NOTHING_IN_HAND),
    OperatorCommand("tool", lambda operator, typed: operator.tool(typed),
                    (("tool N LENGTH", "a tool's length, in mm"),), brings=Brings.ENTRY, asked=Asked.AWAITED,
                    needs=_ENTRY | Needs.IDLE),
    OperatorCommand("shape", lambda operator, typed: operator.shapes.do(typed.rest),
                    (("shape N 6 flat", "a tool's diameter in mm and its tip: flat, ball or v 90;\nshape N none, shape"
                      " alone shows all"),),
                    usage="shape N 6 flat: a slot, its tool's diameter in mm, up to 1,000, and its tip: flat, ball, or"
                    " v 90, the angle of both sides; shape N none forgets it, shape alone shows all"),
    OperatorCommand("runs", lambda operator, _: operator.runs.show(),
                    (("runs", "the record of runs: when each began, how it ended"),)),
    OperatorCommand("rehearse", lambda operator, typed: operator.rehearse(typed.rest),
                    (("rehearse", "what resume would do, or start; nothing moves"),), asked=Asked.AWAITED,
                    needs=Needs.SESSION),
    OperatorCommand("recover", lambda operator, _: operator.bring_back(),
                    (("recover",
                    "after a loss of power, OUT being a file: back, or on,\nto where the half-done segment begins;"
                      " resume"),), brings=_TAKES_UP, asked=Asked.GIVEN,
                    needs=_THERE | Needs.NOT_BUSY),
    OperatorCommand("drop", lambda operator, _: operator.drop(),
                    (("drop", "cut lines off OUT that no motor carried out"),), asked=Asked.GIVEN,
                    needs=_THERE | Needs.NOT_BUSY),
    OperatorCommand("resume", lambda operator, typed: operator.resume(typed),
                    (("resume, abandon", "take a half-done block up, give it up"),
                     ("anyway", "after run, resume and others, before a line: do it\nwhatever the player says")),
                    brings=_TAKES_UP | Brings.HANDS_OUT, asked=Asked.GIVEN, needs=_THERE | Needs.NOT_BUSY),
    OperatorCommand("abandon", _plain, asked=Asked.AWAITED, needs=_THERE | Needs.NOT_BUSY),
    OperatorCommand("go", lambda operator, _: operator.tell_go(),
                    (("go", "tells the player that the tool is in"),), taken=Taken.AMID, asked=Asked.AWAITED,
                    needs=_THERE | Needs.MOVES_OVER),
    OperatorCommand("single", lambda operator, typed: operator.set_single(typed.rest),
                    (("single on, off", "hold after each line"),), **_SWITCH),
    OperatorCommand("optional", _plain, (("optional on, off", "stop at M1"),), **_SWITCH),
    OperatorCommand("delete", _plain, (("delete on, off", "leave out lines with a slash"),), **_SWITCH),
    OperatorCommand("quit", lambda operator, _: operator.quit(),
                    (("quit", "end; Ctrl-D too"),), ("exit",), taken=Taken.IN_ALARM, asked=Asked.GIVEN,
                    needs=Needs.NOT_BUSY),
    OperatorCommand("help", lambda operator, _: operator.face.say(help_text()),
                    (("help", "this"),), ("?",), taken=Taken.IN_ALARM),
    OperatorCommand("tick", lambda operator, _: operator.face.say(
        "ticks are given by run, continue, resume and a line of G-code, in small counts")),
)
"""In the order of `help`."""

BY_WORD = {word: command for command in COMMANDS for word in (command.word, *command.others)}


def is_taken(word: str, when: Taken) -> bool:
    """Whether a word is a command that is taken then, in any of these cases."""
    return word in BY_WORD and bool(BY_WORD[word].taken & when)


def words_that_bring(what: Brings) -> frozenset[str]:
    """The commands that bring about any of these."""
    return frozenset(word for word, command in BY_WORD.items() if command.brings & what)


def words_taken(when: Taken) -> frozenset[str]:
    """The commands that are taken in any of these cases."""
    return frozenset(word for word in BY_WORD if is_taken(word, when))


def help_text(say: Callable[[str], str] = str) -> str:
    """What `help` says: each form in a line or two. `say` gives a sentence as it is said."""
    return "\n".join(_help_line(form, say(says)) for command in COMMANDS for form, says in command.forms)


def _help_line(form: str, says: str) -> str:
    first, *rest = says.split("\n")
    gap = "  " if len(form) <= _WIDTH else "   "
    return "\n".join([f"{form:{_WIDTH}}{gap}{first}", *(" " * (_WIDTH + 2) + line for line in rest)])
