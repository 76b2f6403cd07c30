"""The machine that docs/MACHINE.md shows, with the settings that docs/PAGE.md's first commands name: its file as a
reader copies it, and a model whose switches, probe and setter are wired, and stand, as it says."""
import tomllib

from session_support import TOOLS
from test_documents import blocks
from test_moves import BOX, STOP, World

DOCS = TOOLS.parent / "docs"
SETTINGS = (TOOLS.parent / "examples/mill.toml").read_text()
NEAR_UM = 4_000
"""So far from where it stands once it is homed the table is at first, which saves time."""
SETTER_UM = 10_000
"""Half the width of the setter's top."""
Point = tuple[int, int, int]


def machine_file() -> str:
    """docs/MACHINE.md's blocks of tables, one below the other, as they stand there."""
    shown = (DOCS / "MACHINE.md").read_text()
    return "\n".join(block for block in blocks(shown) if block.startswith("["))


class DocumentedWorld(World):
    """The simulated machine by that file. Its places are the machine's, in steps: home stands each axis at its
    coordinate, if all goes well."""

    def __init__(self) -> None:
        """The table is near home's switches, the emergency stop isn't pressed, its contact is closed, and the screws
        pushed down last."""
        super().__init__()
        self.file, self.settings = tomllib.loads(machine_file()), tomllib.loads(SETTINGS)
        inputs, home = self.file["inputs"], self.file["home"]
        self.put(STOP, False)
        self.wire(inputs["on_while_low"], inputs["spindle_at_speed"])
        self.place = self.steps(*(at - sign * NEAR_UM for at, sign in zip(home["at_um"], home["direction"])))
        self.loosen(tuple(self.file["backlash"]["steps"]), (0, 0, 0))
        self._place_switches()
        self._place_setter()

    def steps(self, *at_um: int) -> Point:
        """A machine point, in steps."""
        x, y, z = (1_000 * um // step for um, step in zip(at_um, self.settings["step_nm"], strict=True))
        return x, y, z

    @property
    def homed(self) -> Point:
        """Where the axes stand once they are homed, in steps."""
        return self.steps(*self.file["home"]["at_um"])

    def _place_switches(self) -> None:
        """At both ends of each travel: home's, its pull-off away from where the axis stands then; the other one as far
        behind the travel's end."""
        inputs, home = self.file["inputs"], self.file["home"]
        ends_um = [[nm // 1_000 for nm in self.settings[key]] for key in ("low_nm", "high_nm")]
        for number, (key, sign) in enumerate((("limits_low", -1), ("limits_high", 1))):
            at_um = [home_um + sign * off if sign == direction else end + sign * off for home_um, direction, off, end
                     in zip(home["at_um"], home["direction"], home["pull_off_um"], ends_um[number])]
            for axis, at in enumerate(self.steps(*at_um)):
                self.switch(3 * number + axis, inputs[key][axis], axis, sign, at)

    def _place_setter(self) -> None:
        """Its top, below the machine point that the file names, and the input that it closes."""
        setter = self.file["setter"]
        x, y, _ = setter["at_um"]
        low_z = self.settings["low_nm"][2] // 1_000
        self.solid(0, BOX, self.steps(x - SETTER_UM, y - SETTER_UM, low_z),
                   self.steps(x + SETTER_UM, y + SETTER_UM, setter["height_um"]))
        self.touching(self.file["inputs"]["probe"])

    def hangs(self, slot: int, length_um: int) -> None:
        """How far a tool hangs below the spindle while it is in."""
        self.tool(slot, self.steps(0, 0, length_um)[2])
