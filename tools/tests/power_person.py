"""The person of a job whose power is lost: follows what the console proposes, by what docs/RECOVERY.md says of it."""
import random
import re
import time
from pathlib import Path

from power_axes import HOME, Screws
from power_path import Ledger, Legs, Unjudged, Wrong, read_status, steps_of
from power_shop import Job, Shop, record_of

QUESTIONS = (
    (r"Do they stand there\? yes goes on", "stands"),
    (r"down to X (\S+) Y (\S+) Z (\S+)\. Up to which Z, in machine mm, from (\S+) to (\S+)\?", "lift"),
    (r"How fast down", "feed"),
    (r"Were they lost with the power, and is it the OUT of that session\?", "yes"),
    (r"yes switches it on first", "yes"),
    (r"yes goes there, Enter holds", "goes"),
    (r"yes goes on with the cut", "cuts"),
    (r"Does the spindle turn, and is the right tool in\?", "cuts"),
    (r"go on all the same\? yes goes on", "asks"),
    (r"put it in, and type go; anything else leaves it", "go"),
    (r"yes gives it up, anything else keeps|yes drops them, anything else keeps", "keep"),
    (r"ngc ended with status -9\n.*Without lines of OUT legs alone lead on", "later"),
    (r"ngc dry ended with status -9, and says nothing\nstore it all the same\?", "yes"),
    (r"half-done.*ends the session|yes ends|yes alone ends", "yes"),
)


FAILED = (r"the player is gone|doesn't let go of its lines|can't be (synced|written|read)|\bJ1\b|\bK5\b"
          r"|Input/output error|No space left")
"""After these words a person ends the session, and starts both anew."""
LOST = "lines that were handed out last"
"""Of OUT, which has none of them."""


class Person:
    """Follows what the console proposes, and lets the ledger follow what that makes. `trusts` says that they look at no
    motor: what the record says is true for them. `homes` says that they home the machine first."""

    def __init__(self, shop: Shop, job: Job, ledger: Ledger, screws: Screws, chance: random.Random, trusts: bool,
                 homes: bool) -> None:
        self.shop, self.job, self.ledger, self.screws = shop, job, ledger, screws
        self.chance, self.trusts, self.homes = chance, trusts, homes
        self.phase, self.to, self.entries = "still", 0, -1
        ledger.legs = None
        self.before = ledger.made
        self.opening, self.tries, self.at_start = "", 0, True
        self.measures = self.leaves = self.cutting = self.ended = False
        self.was_free = self.has_told = False
        self.shown: list[str] = []
        self.asked: list[str] = []
        self.has_typed: set[int] = set()  # before these moves
        self.errands: list[str] = []  # lines of the person's own that come next

    def work(self) -> None:
        """Works to the job's end. Raises Lost, Wrong."""
        text = self.shop.hear()
        while True:
            self.shop.type(self.answer(text))
            text = self.shop.hear()

    def follow(self) -> None:
        """Follows what the motors made since."""
        made = self.shop.lines()[self.ledger.followed:]
        self.ledger.followed += len(made)
        lines = self.screws.table(made)
        if self.phase == "way":
            self.ledger.goes(lines, self.to)
        elif self.phase == "cut":
            for line in lines:
                self.ledger.cut(line)
        elif self.phase == "free":
            for line in lines:
                self.ledger.goes_free(line)
        elif not all(self.ledger.switches(line) for line in lines):
            raise Wrong(f"the motors move though nobody said so: {lines[:3]}")

    def answer(self, text: str) -> str:
        """What is typed at a prompt."""
        self.follow()
        if text.endswith("ngc> "):
            return self.command(text)
        for question, deed in QUESTIONS:
            if found := re.search(question, text):
                return self.replies(deed, found, text)
        raise Wrong(f"what is asked? {text}")

    def replies(self, deed: str, found: re.Match[str], text: str) -> str:
        """The answer to a question."""
        if deed == "stands":
            return self.stands(text)
        if deed == "lift":
            return self.lifts(found)
        if deed == "later":  # what looked was killed
            self.leaves = True
            return "no"
        if deed == "asks" and "first switches it on" in text:
            self.to, self.was_free = self.ledger.on, True
            _, *self.errands = self.back_by_hand()
            return "no"
        if deed == "asks" and "doesn't tell any more" in text:
            self.asked.append("asked is what is known: " + text.strip().splitlines()[-2])
        elif deed == "goes":
            self.phase = "way"
            self.finds_path()
            self.shop.begins_way()
        elif deed == "cuts":
            self.begins()
            shown = re.findall(r"The motors are there: X (\S+) Y (\S+) Z (\S+)\.", text)
            if shown and steps_of(shown[-1]) != self.ledger.steps:
                self.shown.append(f"shown is {shown[-1]}, and the motors stand at {self.ledger.steps}")
        if deed == "feed":
            return "600" if "No feed is known" in text else ""
        return {"keep": "no", "go": "go"}.get(deed, "yes")

    def left_at(self) -> int:
        """The move behind which the record has the motors; over a pipe, where lines are lost, that which comes next."""
        if self.job.over == "pipe":
            return self.to
        return min(record_move(self.shop.folder), len(self.job.uncut.moves))

    def finds_path(self) -> None:
        """Motors that were measured may stand on the path all the same, where the record has them, or at the goal; or
        behind what is made, where OUT has lines of the person's own, so that the record's line doesn't tell the move.
        """
        for move in (self.to, self.left_at(), *([self.ledger.made] if self.ledger.is_by_hand else [])):
            if self.ledger.on is None and not self.ledger.legs and self.job.uncut.points[move] == self.ledger.steps:
                self.ledger.on = move

    def lifts(self, found: re.Match[str]) -> str:
        """How far up legs go; they have to lead to where the record has the motors, or to where the cut begins."""
        *at, low, high = found.groups()
        points = self.job.uncut.points
        left = self.left_at()
        moves = [move for move in (left, self.to) if points[move] == steps_of(at)]
        if not moves and self.ledger.is_by_hand:
            raise Unjudged("where the path was left is of a line of the person's own")
        if not moves:
            raise Wrong(f"legs lead to {at}, and the path was left at move {left}, {points[left]}")
        lift = min(float(high), float(low) + self.chance.choice((0, 0.1, 0.35)))
        self.ledger.legs = Legs(round(lift * 1000), moves[0], points[moves[0]])
        self.ledger.arrives()
        return f"{lift:.3f}"

    def stands(self, text: str) -> str:
        """Whether the motors stand where the record says."""
        said = re.findall(r"By the record the motors stand at X (\S+) Y (\S+) Z (\S+), behind", text)[-1]
        if self.trusts:
            return "yes"
        if steps_of(said) == self.ledger.steps:
            self.takes_for_left()
            return "yes"
        self.measures = self.leaves = True
        return "no"

    def takes_for_left(self) -> None:
        """The path may have come to one place more than once: the way begins where the record has the motors, and what
        is made since then is made once more."""
        ledger, left = self.ledger, self.left_at()
        if self.job.over == "file" and not ledger.is_by_hand and self.job.uncut.points[left] == ledger.steps and (
                ledger.on is None or left < ledger.on):
            ledger.on = left

    def begins(self) -> None:
        """The cut goes on: everything before is made, and the motors are where it begins."""
        ledger, uncut = self.ledger, self.job.uncut
        if ledger.is_of_sink and not any(each[:1] == b"P" for each in uncut.moves[ledger.made:self.to]):
            ledger.made = max(ledger.made, self.to)
        if ledger.steps != uncut.points[self.to]:
            raise Wrong(f"the motors stand at {ledger.steps}, and move {self.to} begins at {uncut.points[self.to]}")
        if ledger.made < self.to:
            raise Wrong(f"moves {ledger.made} to {self.to - 1} are never made")
        if self.to < self.before and not uncut.is_within_one(self.to, self.before):
            raise Wrong(f"moves {self.to} to {self.before - 1} are made twice, which are of several segments")
        ledger.on, ledger.is_away, self.phase, self.cutting = self.to, False, "cut", True
        self.shop.spare(False)

    def command(self, text: str) -> str:
        """What is typed at the console's prompt."""
        if "the player can't keep its record yet" in text:  # it fails for good: another player, and --at
            self.measures = self.leaves = True
        self.leaves = self.leaves or bool(re.search(FAILED, text))
        if self.leaves:
            return "quit"
        if not self.at_start and "status entries" not in text:
            self.ledger.home_after = None
        if "homed: X Y Z" in text:
            self.ledger.homed += 1
            if self.ledger.steps != HOME:
                raise Wrong(f"it is homed, and the table stands at {self.ledger.steps}")
        if self.job.has_home and "HOME COMES FIRST" in text and "status entries" not in text:
            self.homes = True
        if "status entries" in text:
            status = read_status(text)
            _, _, at, kind, _ = status
            self.ledger.counts_home(status[0])
            self.entries = max(0, status[0] - self.ledger.homed)
            if self.ledger.is_away and (kind == "mdi" or self.is_left(self.opening)):
                raise Unjudged("a line of the person's own is half-done")
            self.to = self.ledger.comes_next(*status)
            self.ledger.loses(self.to, self.job.ahead)
            if self.homes:
                self.homes, self.phase, self.ledger.home_after = False, "free", status[0]
                self.shop.begins_way()
                return "home"
            if not self.is_left(self.opening) and not self.trusts and self.is_elsewhere(text):
                self.measures = self.leaves = True
                return "quit"
            if self.ledger.is_through() and not self.is_left(self.opening):
                return self.ends(at, kind)
        if self.at_start:
            self.at_start, self.opening = False, text
            return "status"
        if "stop begins another session" in text:
            self.at_start, self.cutting, self.phase, self.before = True, False, "still", self.ledger.made
            return "stop"
        self.phase = "still"
        self.tries += 1
        if self.tries > 30:
            raise Wrong("nothing that the console proposes leads on")
        if self.entries < 2:
            self.entries += 1
            return ("tool 1 50", "load part.ngc")[self.entries - 1]
        if self.is_left(self.opening):
            stores_first = LOST in self.opening and self.chance.random() < 0.5
            self.opening = ""
            return "tool 1 50" if stores_first else "recover"
        if self.is_left(text):
            return "recover"
        if self.ledger.is_through():
            return "status"
        return self.runs(text)

    @staticmethod
    def is_left(text: str) -> bool:
        """Whether the console says that something is half-done, or left in OUT."""
        return any(says in text for says in ("power was lost, or", "lines stand in OUT", LOST))

    def is_elsewhere(self, text: str) -> bool:
        """Whether the motors aren't where the player says."""
        said = re.findall(r"^the motors are at X (\S+) Y (\S+) Z (\S+), ", text, re.MULTILINE)
        return bool(said) and steps_of(said[-1]) != self.ledger.steps

    def runs(self, text: str) -> str:
        """The program begins, or goes on."""
        if "reference player takes the player's point" in text:
            self.has_typed.discard(self.ledger.on)  # a line that was typed was refused
            return "reference player"
        if self.errands:
            self.phase = "free"
            return self.errands.pop(0)
        if not self.cutting or self.was_free:
            if self.ledger.steps != self.job.uncut.points[self.to]:
                self.errands, self.was_free = self.back_by_hand(), True
                return "reference player"
            self.begins()
        self.was_free = False
        return self.goes_on()

    def is_switched(self, at: int) -> bool:
        """Whether the outputs are those of a move."""
        told = self.ledger.told
        return self.ledger.outputs[:told] == self.job.uncut.outputs[at][:told]

    def back_by_hand(self) -> list[str]:
        """The lines that bring the machine to where the program goes on, with its outputs."""
        uncut, to = self.job.uncut, self.to
        self.ledger.is_by_hand = self.ledger.is_away = True
        self.shop.spare(True)
        spindle, mist, flood, _ = uncut.outputs[to] if to < len(uncut.moves) else uncut.last
        x, y, z = (f"{each / 1000:.3f}" for each in uncut.points[to])
        number, _, speed = spindle.partition(" ")
        return [f"G53 G0 X{x} Y{y} Z{z}", "M9", *(["M7"] if mist == "1" else []), *(["M8"] if flood == "1" else []),
                f"M{'534'[int(number)]}" + (f" S{speed}" if speed else "")]

    def goes_on(self) -> str:
        """The line that is typed at a stop, after a jog there and back; else `run`, and somebody may hold, or choose
        another rate meanwhile."""
        at = self.ledger.on
        typed = self.job.typed_at(at) if at not in self.has_typed else b""
        if typed and self.ledger.made == at and self.job.has_ramps and self.to != at:
            self.to, self.was_free, self.phase, self.errands = at, True, "free", ["jog X- 600 for 0.1"]
            return "jog X+ 600 for 0.1"
        if typed and self.ledger.made == at and not self.is_switched(at):
            self.to, self.was_free, self.phase = at, True, "free"
            _, *self.errands = self.back_by_hand()
            return self.errands.pop(0)
        self.phase = "cut"
        if typed and self.ledger.made == at:
            self.has_typed.add(at)
            return typed.decode()
        if self.job.has_ramps and self.chance.random() < 0.3:
            return self.chance.choice(("percent 50", "percent 120", "percent 100"))
        # behind a typed line the console asks first, and what holds would answer that
        if self.job.has_ramps and self.chance.random() < 0.5 and at not in self.has_typed:
            self.shop.hold_at = time.monotonic() + self.chance.uniform(0, 0.5)
        return "run"

    def ends(self, at: tuple[str, str, str], kind: str) -> str:
        """The job is made: everything is at one place."""
        if kind == "none" and steps_of(at) != self.ledger.steps and not self.has_told:
            self.has_told, self.phase = True, "still"
            return "reference player"
        if kind != "none" or steps_of(at) != self.ledger.steps:
            raise Wrong(f"ngc says {at}, {kind}, and the motors stand at {self.ledger.steps}")
        self.ended = True
        return "quit"


def record_move(folder: Path) -> int:
    """The move behind which the record has the motors."""
    count = int(record_of(folder).get("lines", "0"))
    lines = (folder / "out").read_bytes().split(b"\n")[:count]
    return sum(line[:2] in (b"P ", b"D ") for line in lines)
