#!/usr/bin/env python3
"""Loses power by the hundred, and judges what the motors made, by what docs/RECOVERY.md, OUTPUT.md and SESSION.md say.

    power.py --ngc PATH [--over file|pipe|sink] [--seconds S] [--chains N] [--losses N] [--plant NAME] [--keep FOLDER]

A chain is a job that tools/player carries out, over a file, a named pipe, or a file and a step sink. Power is lost in
it up to five times: at a line of the pins, at a moment, or before a call of `ngc`, the console or the player; for all
at once, or for the motors first, or one process is killed alone; and calls fail. Of what wasn't synced the disk keeps
any part (`power_disk.c`). A person follows what the console proposes, measures where the motors stand, and answers by
that alone. The ledger follows each line of the pins: the job has to be made move by move, with the outputs of the uncut
run, each move where its whole steps lead, once, but for what goes back over its own path. No code of the tools has a
part in the judgement."""
import argparse
import os
import random
import re
import sys
import tempfile
import time
from collections import Counter
from dataclasses import dataclass, field, replace
from pathlib import Path

sys.path.insert(0, str(Path(__file__).resolve().parent))

from player_support import built, builds, made
from power_chain import Chain, Options, Plan, plan, plan_as_log_begins
from power_path import Unjudged, Wrong, memory, run_uncut
from power_shop import HERE, Consoles, Job, Tools
from session_support import FIRST
from sink_support import PARTS, SINK


@dataclass
class Found:
    """What was seen."""

    chains: int = 0
    losses: int = 0
    states: int = 0  # of the disk, which were others than those of the kill
    back: int = 0
    again: int = 0
    lost: int = 0
    homed: int = 0
    unjudged: int = 0
    wrong: list[str] = field(default_factory=list)
    shown: list[str] = field(default_factory=list)  # places that aren't those of the motors
    asked: list[str] = field(default_factory=list)  # what is known


PLANTS = {"record-behind": "", "place-off": "", "way-short": "player pins write 9 skip",
          "spindle-off": "player pins write 1 still+", "sink-more": "", "sync-lies": "",
          "backlash-short": "player pins write 4 skip", "home-off": ""}
"""Faults, with the deeds of the session after the loss of power."""


def try_plant(tools: Tools, plant: str, seed: int) -> str:
    """What the judge finds of a planted fault, in long moves; nothing, if it finds none."""
    chance = random.Random(seed)
    text = b"G17 G21 G90 G94\nM3 S1000\nG1 X0.8 F1200\nG1 Y0.8\nG1 X0 Z-0.4\nG1 Y0\nM2\n"
    over = "sink" if plant in ("sink-more", "home-off") else "file"
    is_loose = plant == "backlash-short"
    job = Job(text, run_uncut(tools.ngc, FIRST, text, []), over=over, has_ramps=over == "sink" or is_loose,
              backlash=(7, 7, 7) if is_loose else (0, 0, 0), has_home=plant == "home-off")
    at = 800 * chance.randint(0, 3) + chance.randint(300, 700)
    deeds = f"ngc out write {at} kill" if over == "sink" else "console out sync 1 lie+" if plant == "sync-lies" else ""
    lost = Plan(deeds=deeds, line=0 if over == "sink" else at, is_all=False)
    plans = [lost, Plan(deeds=PLANTS.get(plant, ""))]
    tools = replace(tools, sink=tools.wrong_sink) if plant == "sink-more" else tools
    with tempfile.TemporaryDirectory(prefix="ngc-power-", dir=memory()) as name:
        chain = Chain(tools, Path(name).resolve(), job, chance, plans, plant)
        try:
            chain.run()
        except Wrong as wrong:
            return str(wrong)
        finally:
            chain.close()
    return ""


JOG_STEPS = 100
"""How far the person jogs at a stop, up along X; and back."""


def typed_x(stands: int, wanted: int) -> int:
    """Where a line leads that is typed at a stop, in steps of X: there, but where no jog from the stop leads, also one
    that is cut. Nothing but the place tells in the device's status whether the line was done."""
    return wanted + (JOG_STEPS + 10) * (0 <= wanted - stands <= JOG_STEPS)


FILLING = ["G91 G81 X0 Y0 Z-0.002 R0 L700", "G80 G90"]
"""Two segments a hole, of which the device's log has the room for 510."""


def program(chance: random.Random, blocks: int, fills: bool) -> tuple[bytes, list[bytes]]:
    """Short moves, arcs, cycles, waits, switches, tools, traverses and stops, by chance; and what is typed at these. It
    may begin with what `fills` the device's log, which begins anew amid that."""
    typed: list[bytes] = []
    lines, x, y = ["G17 G21 G40 G49 G54 G80 G90 G94", "M3 S1000", "G0 Z0.1", "G1 Z-0.1 F1200"], 0, 0
    lines += FILLING * fills
    stands = 0  # in steps of X
    for _ in range(blocks):
        before, x, y = len(lines), x + chance.randint(-6, 9), y + chance.randint(-6, 9)
        at = f"X{x / 100:.2f} Y{y / 100:.2f}"
        lines += chance.choice((
            [f"G1 {at}"], [f"G1 {at} F{chance.choice((600, 900, 1200))}"], [f"G1 {at}", f"G3 {at} I0.03 J0"],
            ["G4 P0.004"], [chance.choice(("M8", "M9", "M7", "S1200", "M5", "M3 S900"))],
            ["G0 Z0.2", f"G82 {at} Z-0.15 R0.1 P0.003", "G80", "G1 Z-0.1"],
            ["G0 Z0.3", f"G83 {at} Z-0.2 R0.1 Q0.1", "G80", "G1 Z-0.1"],
            ["G0 Z0.2", f"G0 {at}", "G1 Z-0.1"], ["G0 Z0.2", "T1 M6", "G1 Z-0.1"], ["G0 Z0.2", "M0", "G1 Z-0.1"]))
        stands = 10 * x if any(" X" in line for line in lines[before:]) else stands
        if lines[-2:-1] == ["M0"]:
            stands = typed_x(stands, 10 * chance.randint(-9, 9) + 5)
            typed.append(b"G1 X%.3f" % (stands / 1000))
    return "".join(line + "\n" for line in [*lines, "G0 Z0.3", "G0 X0 Y0", "M2"]).encode(), typed


def try_chain(tools: Tools, seed: int, options: Options, found: Found) -> list[str]:
    """Runs the chain of a seed; what was said, if it is wrong."""
    chance = random.Random(seed)
    fills = (filling := random.Random(f"{seed} fills")).random() < options.filled
    text, typed = program(chance, chance.randint(3, 14), fills)
    has_ramps = options.over == "sink" or chance.random() < 0.3
    job = Job(text, run_uncut(tools.ngc, FIRST, text, typed), typed, options.over, has_ramps, chance.random() < 0.5)
    if options.over == "sink":
        job.has_home = chance.random() < 0.5
    elif has_ramps and chance.random() < 0.5:
        job.backlash = tuple(chance.choice((0, 1, 7, 40)) for _ in range(3))
    plans = [plan(chance, len(job.uncut.moves), options) for _ in range(chance.randint(1, options.losses))]
    plans[:fills] = [plan_as_log_begins(filling)] * fills
    with tempfile.TemporaryDirectory(prefix="ngc-power-", dir=memory()) as name:
        chain = Chain(tools, Path(name).resolve(), job, chance, plans, each=options.states)
        found.chains += 1
        try:
            chain.run()
        except Unjudged:
            found.unjudged += 1
        except Wrong as wrong:
            found.wrong.append(f"seed {seed}: {wrong}")
            return [text.decode(), *chain.told, f"WRONG, seed {seed}: {wrong}", (chain.folder / "said").read_text()]
        finally:
            chain.close()
            found.losses += chain.lost
            found.states += chain.states
            found.back += chain.ledger.back
            found.again += chain.ledger.again
            found.lost += chain.ledger.lost
            found.homed += chain.ledger.homed
            found.shown += [f"seed {seed}: {text}" for text in chain.shown]
            found.asked += [f"seed {seed}: {text}" for text in chain.asked]
    return []


def make_tools(ngc: str) -> Tools:
    """Builds the programs."""
    preload = made("power_disk.so", "cc", "-shared", "-fPIC", "-O2", str(HERE / "power_disk.c"))
    wrong, right = Path(builds(), "wrong_sink.c"), "now.lines = sink->lines;"
    text = (SINK / "sink.c").read_text()
    if right not in text:
        raise Wrong(f"the sink has no {right}")
    wrong.write_text(text.replace(right, "now.lines = sink->lines + (sink->lines > 40);"))
    parts = tuple(wrong if part.name == "sink.c" else part for part in PARTS)
    sinks = [built("-std=c99", "-O2", "-I", str(SINK), sources=each) for each in (PARTS, parts)]
    return Tools(ngc, built("-O2"), preload, Consoles(preload), *sinks)


def kind_of(text: str) -> str:
    """What is wrong, without the seed, numbers, and what is said besides."""
    return re.sub(r"[-\d.]+", "#", text.partition(": ")[2].partition("\n")[0])


def words() -> argparse.Namespace:
    """The words that are given."""
    parser = argparse.ArgumentParser(description=__doc__, formatter_class=argparse.RawDescriptionHelpFormatter)
    parser.add_argument("--ngc", default=os.environ.get("NGC"), required="NGC" not in os.environ)
    parser.add_argument("--seed", type=int, default=1, help="that of the first chain")
    parser.add_argument("--chains", type=int, default=20)
    parser.add_argument("--seconds", type=float, default=1e9, help="no chain begins after so many")
    parser.add_argument("--losses", type=int, default=5, help="the most in a chain")
    parser.add_argument("--kept", default="all,none,first,torn", help="of all, none, first, torn, any and hole")
    parser.add_argument("--over", choices=("file", "pipe", "sink"), default="file")
    parser.add_argument("--calls", action="store_true", help="power is lost at lines and calls alone, at no moment")
    parser.add_argument("--fails", type=int, default=15, help="the weight of calls that fail, beside 100 losses")
    parser.add_argument("--states", type=int, default=5, help="more states of the disk that are judged of each loss")
    parser.add_argument("--filled", type=float, default=0.1, help="the part of the jobs that fill the device's log")
    parser.add_argument("--plant", choices=PLANTS, help="a fault that the judge has to find in each chain")
    parser.add_argument("--keep", type=Path, help="a folder, where what was said of wrong chains is kept")
    return parser.parse_args()


def tried(tools: Tools, options: Options, seed: int, seconds: float, chains: int = 1 << 30, keep: Path | None = None
          ) -> Found:
    """Runs chains from a seed on, until so many seconds are over; tells each that is wrong, and keeps what was said."""
    found, until = Found(), time.monotonic() + seconds
    while found.chains < chains and time.monotonic() < until:
        said = try_chain(tools, seed + found.chains, options, found)
        if said and keep:
            keep.mkdir(parents=True, exist_ok=True)
            (keep / f"seed-{seed + found.chains - 1}.txt").write_text("\n".join(said))
        if said or found.chains % 10 == 0:
            print(found.wrong[-1] if said else f"{found.losses} losses, {found.states} states in {found.chains} chains,"
                  f" {found.unjudged} not judged", flush=True)
    return found


def try_plants(tools: Tools, given: argparse.Namespace) -> int:
    """Has the judge find planted faults; the exit status."""
    all_found = [try_plant(tools, given.plant, seed) for seed in range(given.seed, given.seed + given.chains)]
    print("\n".join(text or "NOT FOUND" for text in all_found))
    return int(not all(all_found))


def main() -> int:
    """Runs it by words, and tells what was seen."""
    given, begun = words(), time.monotonic()
    tools = make_tools(given.ngc)
    if given.plant:
        status = try_plants(tools, given)
        tools.consoles.close()
        return status
    options = Options(given.losses, tuple(given.kept.split(",")), given.fails, given.over, not given.calls,
                      given.states, given.filled)
    found = tried(tools, options, given.seed, given.seconds, given.chains, given.keep)
    tools.consoles.close()
    print(f"{found.losses} losses of power, {found.states} states of the disk, {found.chains} chains,"
          f" {time.monotonic() - begun:.0f} s; {found.back} pulses back, {found.again} moves made again,"
          f" {found.lost} moves lost over a pipe; {found.homed} times homed; {found.unjudged} chains aren't judged;"
          f" {len(found.wrong)} are wrong, {len(found.shown)} places shown are; {len(found.asked)} questions were for"
          " nothing")
    for kind, count in Counter(map(kind_of, [*found.wrong, *found.shown, *found.asked])).items():
        print(f"{count} times: {kind}")
    return int(bool(found.wrong))


if __name__ == "__main__":
    sys.exit(main())
