"""Dry runs of one program over other work offsets and tool lengths: what stays the same holds over any of them."""
from dataclasses import dataclass, replace

from ngc_tools.failure import Failure
from ngc_tools.formats.canonical import Command, read_commands
from ngc_tools.formats.lines import percent_bytes
from ngc_tools.formats.settings import Settings
from ngc_tools.ngc.run import MOST_TEXT, Refusal, dry, refusal
from ngc_tools.scratch import scratch_file

_WIDEST_NM = 10**10  # the travel of no machine ends before
_SYSTEMS = range(1, 10)
_BEGIN = "ngc begins here"
_MOST_TEXT = 2 * MOST_TEXT  # a long program is what it is there for
# modes that a program which names its own doesn't mind
_OTHER_MODES = "G18 G20 G91 G93 G55 G99\n"


class LineRefused(Failure):
    """`ngc dry` refuses a line of a program."""

    exit_status = 1

    def __init__(self, refused: Refusal) -> None:
        super().__init__(f"{refused.code} {refused.name}")
        self.refused = refused


@dataclass(frozen=True, slots=True)
class World:
    """Work offsets, tool lengths and the widest travel. `head` are the lines that bring the offsets about."""

    ngc: str
    settings: Settings
    head: str

    def dry(self, text: bytes, in_other_modes: bool = False) -> tuple[list[Command], list[Command]]:
        """The commands of the head, and those of a program that runs to its end.

        It begins in the modes of a fresh controller, or in others. Raises LineRefused, CannotRun, TooLong, OSError."""
        said = self.head + (_OTHER_MODES if in_other_modes else "") + f"({_BEGIN})\n"
        at = percent_bytes(text)
        with scratch_file(self.settings.text(), "settings", ".toml") as path:
            status, canonical = dry(self.ngc, text[:at] + said.encode() + text[at:], path, most=_MOST_TEXT)
        refused = refusal(status, canonical)
        if refused:
            more = said.count("\n") if refused.line > text[:at].count(b"\n") else 0
            raise LineRefused(replace(refused, line=refused.line - more))
        commands = read_commands(canonical)
        begin = commands.index(Command("COMMENT", (_BEGIN,)))
        return commands[:begin], commands[begin + 1:]


def two_worlds(ngc: str, settings: Settings) -> tuple[World, World]:
    """One with all offsets 0 and the tools of the settings, one in which each offset and each tool is another."""
    wide = replace(settings, low_nm=(-_WIDEST_NM,) * 3, high_nm=(_WIDEST_NM,) * 3)
    lengths = tuple(nm + 1_370_000 * slot if nm < 5 * 10**8 else nm - 1_370_000 * slot
                    for slot, nm in enumerate(settings.tools_nm, 1))
    head = "".join(f"G10 L2 P{system} X{31 + 7 * system}.25 Y{-17 - 5 * system}.5 Z{-61 - 3 * system}.125\n"
                   for system in _SYSTEMS)
    return World(ngc, wide, ""), World(ngc, replace(wide, tools_nm=lengths), head)
