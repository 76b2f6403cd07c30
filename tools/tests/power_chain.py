"""A job over losses of power, from its beginning to its end."""
import os
import random
import re
import subprocess
import time
import zlib
from dataclasses import dataclass, field
from pathlib import Path

from power_axes import HOME, Screws
from power_disk import FILES, Call, read_log
from power_path import Ledger, Steps, Wrong, after, read_status, run_over, steps_of
from power_person import Person
from power_shop import Job, Lost, Shop, Sink, Tools, record_of
from session_support import FIRST

@dataclass
class Plan:
    """How power is lost in a session: before line `line` of the pins, for all or for the motors first; by a deed of
    power_disk.c; after some seconds, or so many seconds `amid` a way or a home; or `alone` is killed then. `keeps` is
    what the disk keeps of each file."""

    deeds: str = ""
    line: int = 0
    is_all: bool = True
    seconds: float = 0.0
    alone: str = ""
    amid: float = 0.0
    keeps: dict[str, str] = field(default_factory=lambda: dict.fromkeys(FILES, "all"))
    coasts: Steps = (0, 0, 0)
    fails: bool = False
    sink_dies: bool = False


LATE = r"the sink heard nothing for half a second|no answer from the sink for two seconds"
"""A player ends with these words where it or the sink didn't get to work in time."""
FAILS = ("ngc mill.dev write {} 28", "ngc mill.dev sync {} 5", "ngc out write {} 28", "ngc out write {} 5",
         "console out sync {} 5", "player position write {} 28", "player position sync {} 5", "player out read {} 5",
         "console out cut 1 5", "console out write 1 28", "console out read {} 5", "player position write {} 5+",
         "player out read {} 5+", "console out sync {} 5+", "ngc mill.dev read {} 5")
CALLS = ("ngc mill.dev write {} kill", "ngc mill.dev sync {} kill", "ngc out write {} kill", "console out sync {} kill",
         "player position write {} kill", "player position sync {} kill", "console out cut 1 kill",
         "console out write 1 kill", "console out sync 1 kill")
AGAIN = 1711
"""How many sectors `ngc run` reads and writes again before power on: each of a device, and the last one once more."""


@dataclass
class Options:
    """How power is lost: at most so often in a chain. `kept` are what the disk keeps by chance, `fails` is the weight
    of calls that fail, beside 100 losses, `over` what OUT is. Without moments each loss is at a line or a call. So many
    `states` of the disk are judged of each loss, beside the one that the job goes on with. That part of the jobs fills
    the device's log."""

    losses: int = 5
    kept: tuple[str, ...] = ("all", "none", "first", "torn")
    fails: int = 15
    over: str = "file"
    has_moments: bool = True
    states: int = 5
    filled: float = 0.1


def plan(chance: random.Random, moves: int, options: Options) -> Plan:
    """A loss of power by chance, in a job of so many moves."""
    found, at_pins, at_moment = Plan(), 55 * (options.over != "sink"), 15 * options.has_moments
    kind = chance.choices(("line", "motors", "call", "seconds", "alone", "amid", "fail"),
                          (at_pins, at_pins, 60, 4 * at_moment, at_moment, at_moment, options.fails))[0]
    if kind in ("line", "motors"):
        found.line = 1 + int(chance.random() ** 3 * moves)
        found.is_all = kind == "line"
    elif kind in ("call", "fail"):
        text = chance.choice(CALLS if kind == "call" else FAILS)
        found.fails = kind == "fail"
        number = 1 + int(chance.random() ** 3 * (moves if "out write" in text else 80))
        if "mill.dev write" in text or "mill.dev read" in text:
            number += (AGAIN - 3) * (number > 3)  # those come first, and few of them are tried
        found.deeds = text.format(number)
    elif kind == "amid":
        found.amid = chance.uniform(0, 0.15) if chance.random() < 0.7 else chance.uniform(0, 1.5)
    else:
        found.seconds = chance.uniform(0, 1.2)
        found.alone = chance.choice(("ngc", "console", "player")) if kind == "alone" else ""
    if not found.alone:
        whole = [each for each in options.kept if each not in ("torn", "hole")]
        found.keeps = {"mill.dev": chance.choice([*whole, "any"]), "out": chance.choice(options.kept),
                       "position": chance.choice(("all", "all", "none"))}
        found.sink_dies = chance.random() < 0.3
        if chance.random() < 0.15 and options.over != "sink":
            found.coasts = tuple(chance.randint(-30, 30) for _ in range(3))
    return found


def plan_as_log_begins(chance: random.Random) -> Plan:
    """A loss of power about where the device's log, which is full behind 1,020 records, has begun anew."""
    return Plan(deeds=f"ngc mill.dev write {AGAIN + chance.randint(1000, 1400)} kill",
                keeps={**dict.fromkeys(FILES, "all"), "out": chance.choice(("none", "none", "first", "torn"))})


class Chain:
    """A job from its beginning to its end, over losses of power."""

    def __init__(self, tools: Tools, folder: Path, job: Job, chance: random.Random, plans: list[Plan],
                 plant: str = "", each: int = 0) -> None:
        """`plans` are how power is lost, one after the other; behind the first one a fault is planted. So many more
        states of the disk are judged of each."""
        self.tools, self.folder, self.job, self.chance, self.plans = tools, folder, job, chance, plans
        self.plant, self.each = plant, each
        self.ledger = Ledger(job.uncut, is_of_sink=job.over == "sink")
        self.told: list[str] = []
        self.shown: list[str] = []
        self.asked: list[str] = []
        self.lost = self.states = 0
        self.homes = False  # the next session begins with it
        self.screws = Screws(job.backlash)
        (folder / "machine.toml").write_text(job.machine)
        (folder / "settings.toml").write_text(FIRST)
        (folder / "part.ngc").write_bytes(job.text)
        self.sink = Sink(tools.sink, folder, 1, [], job.machine, (0, 0, 0)) if job.over == "sink" else None
        if job.over == "pipe":
            os.mkfifo(folder / "out")
        else:
            (folder / "out").touch()
        subprocess.run([tools.ngc, "format", folder / "mill.dev"], check=True)

    def run(self) -> None:
        """Runs it. Raises Wrong."""
        measured = None
        for _ in range(2 * len(self.plans) + 8):
            how = self.plans[self.lost] if self.lost < len(self.plans) else Plan()
            shop = Shop(self.tools, self.folder, how.deeds, measured, self.job, self.sink)
            may_home = self.job.has_home and not self.plant
            homes = self.homes or may_home and self.chance.random() < (0.25 if self.lost else 0.1)
            person = Person(shop, self.job, self.ledger, self.screws, self.chance, bool(self.plant), homes)
            self.told.append(f"-- {how}, measured {measured}, at move {self.ledger.on} of {self.ledger.made} made")
            self.homes = False
            self.screws.up = self.screws.told(
                "? ? ?" if measured else record_of(self.folder).get("screws", "? ? ?"))
            if self.job.over != "sink":
                self.ledger.switches(b"off")  # as a player begins
            if measured or self.job.over == "pipe":
                self.ledger.leave()
            try:
                is_over = self.session(shop, person, how)
            finally:
                shop.kill()
                self.shown += person.shown
                self.asked += person.asked
                self.told.append(f"{time.monotonic() - shop.begun:.2f} s: {shop.said}")
            if is_over:
                return
            measured = self.after(shop, how, person.measures)
        raise Wrong("it comes to no end")

    def close(self) -> None:
        """Ends the sink."""
        if self.sink:
            self.sink.end()

    def session(self, shop: Shop, person: Person, how: Plan) -> bool:
        """From power on to its loss, or to the job's end: then True."""
        shop.stop_at(how.line, how.is_all)
        shop.amid_s = how.amid
        shop.deadline = time.monotonic() + how.seconds if how.seconds and not how.alone else None
        shop.alone = (time.monotonic() + how.seconds, how.alone) if how.alone else None
        try:
            shop.start_console()
            person.work()
        except Lost:
            pass
        if person.ended and not shop.has_lost or how.alone and not person.leaves:
            shop.close()
        is_lost = shop.has_lost
        shop.kill()
        if self.sink and not person.ended:
            self.sink.rest()
        person.follow()
        if "nobody reads this pipe yet" in shop.said:
            person.leaves = True
        if self.sink and not person.ended and (self.folder / "said").read_text().endswith("--at X Y Z tells it\n"):
            person.leaves = person.measures = True
        if self.sink and re.search(LATE, last_line(self.folder / "said")):
            person.leaves = True
        if not (is_lost or person.leaves or person.ended or how.fails):
            raise Wrong("the console ended by itself")
        is_over = person.ended and not is_lost and not (how.fails and shop.player.returncode)
        if is_over:
            self.ends(shop)
        return is_over

    def after(self, shop: Shop, how: Plan, measures: bool) -> Steps | None:
        """What power left: the disk loses what it loses, the motors coast; where they stand, if that is measured."""
        if not measures or how.alone or how.fails:
            self.lost += 1
            calls = read_log(shop.log)
            if self.job.over != "pipe":
                self.judge_states(shop, calls)
            self.states += shop.lose(calls, how.keeps, self.chance)
            if self.sink and how.sink_dies:
                made = self.sink.lines()
                self.sink.end()
                self.ledger.switches(b"off")
                self.sink = Sink(self.tools.sink, self.folder, self.lost + 1, made, self.job.machine,
                                 self.ledger.steps)
                return self.finds_place()
            if how.coasts != (0, 0, 0) and self.ledger.made:
                self.ledger.steps = tuple(map(sum, zip(self.ledger.steps, how.coasts)))
                self.ledger.leave()
        if self.plant and self.lost == 1:
            plant_in_record(self.folder, self.plant)
            if self.plant == "home-off":
                path, self.homes = self.folder / "machine.toml", True
                path.write_text(path.read_text().replace(f"at_um = [{HOME[0]},", f"at_um = [{HOME[0] + 1},"))
            return None
        said = record_of(self.folder).get("reference", "0 0 0").split()
        if measures:
            return self.finds_place()
        if self.sink or steps_of(said) == self.ledger.steps:
            return None
        return self.ledger.steps if self.chance.random() < 0.7 else None

    def finds_place(self) -> Steps | None:
        """Where the motors are measured; nothing, where the machine is homed next."""
        self.homes = self.job.has_home and self.chance.random() < 0.7
        return None if self.homes else self.ledger.steps

    def judge_states(self, shop: Shop, calls: list[list[Call]]) -> None:
        """Of more states of the disk: what the device takes for done, or open, isn't less than what was made, and OUT
        has all that leads to the motors. Raises Wrong."""
        ledger, uncut = self.ledger, self.job.uncut
        for _ in range(self.each if not ledger.is_by_hand else 0):
            self.states += 1
            device, out = shop.state(calls, self.chance)
            to = ledger.comes_next(*read_status(run_over(self.tools.ngc, self.folder, device)))
            if ledger.made > uncut.ends_before(to):
                raise Wrong(f"{ledger.made} moves are made, and the device would go on from {to}")
            moves = sum(line[:2] in (b"P ", b"D ") for line in out.split(b"\n")[:-1])
            if ledger.on is not None and moves < ledger.on:
                raise Wrong(f"the motors are behind move {ledger.on}, and OUT has {moves}")

    def ends(self, shop: Shop) -> None:
        """Everything is made, and at one place."""
        ledger, record = self.ledger, record_of(self.folder)
        if not ledger.is_through():
            raise Wrong(f"it ends with {ledger.made} of {len(self.job.uncut.moves)} moves made, {ledger.outputs}")
        if shop.player.returncode != 0:
            raise Wrong(f"the player's status is {shop.player.returncode}: {(self.folder / 'said').read_text()}")
        if steps_of(record["reference"].split()) != ledger.steps:
            raise Wrong(f"the record says {record['reference']}, and the motors stand at {ledger.steps}")
        if ledger.is_by_hand or self.job.over == "pipe":
            return
        lines = (self.folder / "out").read_bytes().split(b"\n")[:-1]
        if len(lines) != int(record["lines"]) or [each for each in lines if each[:1] != b"S"] != self.job.uncut.moves:
            raise Wrong("OUT isn't one path, or the record isn't at its end")


def plant_in_record(folder: Path, plant: str) -> None:
    """A record one line behind, or a place one step off."""
    path, record = folder / "position", record_of(folder)
    steps, count = steps_of(record["reference"].split()), int(record["lines"])
    lines = (folder / "out").read_bytes().split(b"\n")[:count]
    if plant == "record-behind":
        line = lines.pop()
        steps = after(steps, line, -1)
    elif plant == "place-off":
        steps = (steps[0] + 1, *steps[1:])
    else:
        return
    whole = b"".join(line + b"\n" for line in lines)
    inode, born, _ = record["file"].split()
    record |= {"lines": str(len(lines)), "bytes": str(len(whole)),
               "reference": " ".join(f"{each / 1000:.6f}" for each in steps),
               "file": f"{inode} {born} {zlib.crc32(whole[-4096:]):08x}"}
    path.write_bytes("".join(f"{key} {value}\n" for key, value in record.items()).encode().ljust(511) + b"\n")


def last_line(path: Path) -> str:
    """The last line of a file."""
    return path.read_text().rstrip("\n").rpartition("\n")[2]
