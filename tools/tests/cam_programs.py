"""Programs by chance, in the manner of CAM systems: what `ngc-adapt` has rules for, in any order. The controllers of
those systems take each, and it doesn't rely on what was in force before it."""
from dataclasses import dataclass, field
from random import Random


@dataclass
class Program:
    """A program that is being written. `motion` is what is in force by its own words, None after G80; `x_named` says
    that its last X was absolute."""

    chance: Random
    inches: bool = False
    tight: bool = False
    rotary: bool = False
    number: int | None = None
    comment: str = "(%s)"
    incremental: bool = False
    motion: int | None = None
    x_named: bool = False
    lines: list[str] = field(default_factory=list)

    @staticmethod
    def by(seed: int) -> str:
        """The program of this number."""
        chance = Random(seed)
        program = Program(chance, chance.random() < 0.3, chance.random() < 0.2, chance.random() < 0.3,
                          chance.choice([None, 10, 100_000]), chance.choice(["(%s)", ";%s", "(a (%s) b)"]))
        program._head()
        for _ in range(chance.randrange(5, 40)):
            kinds = [program._straight] * 5 + [program._lone] * 3 + [program._circle] * 2
            chance.choice([*kinds, program._arc, program._home, program._distance, program._holes])()
        if chance.random() < 0.5:
            program.lines.append("M30")
        return "\n".join(program.lines) + "\n"

    def _head(self) -> None:
        self.lines += self.chance.choice([[], ["%"], ["%PROG"], ["O1000 (part)"], ["G28 G91 Z0.", "G90"]])
        self._put("G20" if self.inches else "G21", "G17", "G90", "G94", self.chance.choice(["G91.1", "G40"]))
        self._put(*self.chance.choice([("G0", "G80", "G40"), ("G49",)]))
        self._put(f"T{self.chance.choice([1, 2, 201])}", "M6")
        self._put("S1000", "M3")
        self._put("G0", *self._coordinates("XY"))
        self._put("F" + self._length(200, 900))
        self.motion = 0

    def _put(self, *words: str) -> None:
        """Writes a line of these words, some of which may be empty."""
        written = [word for word in words if word]
        if self.rotary and any(word[0] in "XYZ" for word in written) and self.chance.random() < 0.3:
            written.append(self.chance.choice(["A0.", "A0", "A-0.000"]))
        if self.number is not None:
            written.insert(0, f"N{self.number}")
            self.number += 5
        text = ("" if self.tight else " ").join(written)
        self.lines.append(text + (" " + self.comment % "text" if self.chance.random() < 0.1 else ""))

    def _length(self, least: float, most: float) -> str:
        """A length between these millimetres, in the program's unit."""
        number = self.chance.uniform(least, most) / (25.4 if self.inches else 1)
        text = f"{number:.{self.chance.choice([1, 2, 3, 4])}f}"
        return text.rstrip("0") if self.chance.random() < 0.3 else text

    def _coordinates(self, axes: str) -> list[str]:
        if "X" in axes:
            self.x_named = not self.incremental
        most = {True: (8, 8, 8), False: (60, 60, 20)}[self.incremental]
        return [axis + self._length(-most["XYZ".index(axis)], most["XYZ".index(axis)]) for axis in axes]

    def _moving(self, code: int) -> str:
        """The word of a motion, or none where it is in force."""
        if self.motion == code and self.chance.random() < 0.6:
            return ""
        self.motion = code
        return self.chance.choice([f"G{code}", f"G0{code}"])

    def _straight(self) -> None:
        axes = "".join(axis for axis in "XYZ" if self.chance.random() < 0.5) or "X"
        self._put(self._moving(self.chance.choice([0, 1])), *self._coordinates(axes))

    def _lone(self) -> None:
        self.motion = self.chance.choice([0, 1])
        beside = ["", "M8", "G40", "S" + str(self.chance.randrange(1000, 9000)), "F" + self._length(100, 900)]
        self._put(f"G0{self.motion}", self.chance.choice(beside))

    def _circle(self) -> None:
        """A full one without an end, maybe a helix."""
        if self.x_named or self.incremental:
            motion = self._moving(self.chance.choice([2, 3]))
            deep = self._coordinates("Z") if self.chance.random() < 0.3 else []
            self._put(motion, *deep, "I" + self._length(1, 5), "J" + self._length(-5, 5))

    def _arc(self) -> None:
        """By its radius, under G91."""
        if self.incremental:
            step = self.chance.choice([1, 2, 3]) / (25.4 if self.inches else 1)
            radius = 3 * step * self.chance.choice([1, -1])
            self._put(self._moving(self.chance.choice([2, 3])), f"X{step:.4f}", f"Y{step:.4f}", f"R{radius:.4f}")
            self.x_named = False

    def _home(self) -> None:
        self._put("G28", "" if self.incremental else "G91", *self.chance.choice([("Z0.",), ("X0.", "Y0.")]))
        self.incremental, self.x_named = True, False
        if self.chance.random() < 0.8:
            self._distance()

    def _distance(self) -> None:
        self.incremental = not self.incremental
        self._put("G91" if self.incremental else "G90")

    def _holes(self) -> None:
        """Some holes, ended by G80 and a G0, or by a G0 or G1 alone."""
        if self.incremental:
            return
        self._put("G81", *self._coordinates("XY"), "Z" + self._length(-9, -1), "R" + self._length(1, 5))
        for _ in range(self.chance.randrange(3)):
            self._put(*self._coordinates(self.chance.choice(["X", "Y", "XY"])))
        if self.chance.random() < 0.5:
            self._put("G80")
            self.motion = None
        else:
            self._lone()
