"""All that is tried of the step sink on emulated chips, part by part: the scenarios and the planted faults of its
firmware; its core against Unicorn's; test_sink and test_sink_player over it; and each example, as test_sink_player
plays them.

    NGC=PATH python3 tests/chip_whole.py --logs FOLDER [BOARD ..] [PART ..]

Of all boards and parts, a board of each chip and all parts where none is named. FOLDER has what each part said and what
it took: a part that holds there isn't run again, and one that is under way there is left alone. So a run that was cut
short goes on, and two may share the parts; where the sources changed, take another FOLDER. The status is 1 unless all
hold. It needs what test_sink_chip needs, for `core` Debian's libunicorn-dev, and time."""
import argparse
import fcntl
import os
import resource
import subprocess
import sys
import time
from dataclasses import dataclass, field
from pathlib import Path
from typing import IO

sys.path.insert(0, str(Path(__file__).resolve().parent))

from chip_parts import BOARDS
from session_support import TOOLS

OF_EACH_CHIP = ("stm32f103", "stm32f411", "pico")
"""A board of each chip: those whose firmware has planted faults."""
EXAMPLES = tuple(sorted(path.stem for path in (TOOLS.parent / "examples").glob("*.ngc")))
PATIENCE_S = "3600"
ENDED, UNDER_WAY = "ended: ", "under way elsewhere"


@dataclass(frozen=True)
class Part:
    """What is run, with what more in its environment."""

    words: list[str]
    more: dict[str, str] = field(default_factory=dict)


def tests(name: str, examples: str) -> Part:
    """Tests over the chip, with these examples."""
    return Part([sys.executable, "-m", "unittest", "-v", f"tests.{name}"], {"NGC_EXAMPLES": examples})


def parts(board: str) -> dict[str, Part]:
    """What is run for a board."""
    planted = ["tests/pico_planted.py"] if board == "pico" else ["tests/chip_planted.py", board]
    firmware = planted if board in OF_EACH_CHIP else ["tests/chip_scenarios.py", board]
    core = ["make", "-C", "sink", "check_core", f"BOARD={board}", f"OUT=out/core-{board}"]
    return {"firmware": Part([sys.executable, *firmware]), "core": Part(core),
            "sink": tests("test_sink", ""), "player": tests("test_sink_player", ""),
            **{example: tests("test_sink_player.Whole.test_examples", example) for example in EXAMPLES}}


def processor_s() -> float:
    """What all children took that have ended."""
    used = resource.getrusage(resource.RUSAGE_CHILDREN)
    return used.ru_utime + used.ru_stime


def last_line(log: IO[str]) -> str:
    """The last line of a log."""
    log.seek(0)
    return log.read().rstrip().rpartition("\n")[2]


def run(board: str, part: Part, log: IO[str]) -> str:
    """Runs a part, and says how it ended."""
    log.truncate(0)
    begun, used = time.monotonic(), processor_s()
    environment = {"NGC_PATIENCE_S": PATIENCE_S, **os.environ, "NGC_SINK": board, "PYTHONUNBUFFERED": "1", **part.more}
    done = subprocess.run(part.words, cwd=TOOLS, env=environment, stdin=subprocess.DEVNULL, stdout=log,
                          stderr=subprocess.STDOUT)
    how = "FAILED" if done.returncode else "holds"
    said = f"{ENDED}{how}; {time.monotonic() - begun:.0f} s, {processor_s() - used:.0f} s of processor time"
    log.write(f"{said}\n")
    return said


def outcome(board: str, name: str, logs: Path) -> str:
    """How a part ended: now, or before, where it held then."""
    with (logs / f"{board}.{name}").open("a+", encoding="utf-8", errors="replace") as log:
        try:
            fcntl.flock(log, fcntl.LOCK_EX | fcntl.LOCK_NB)
        except BlockingIOError:
            return UNDER_WAY
        said = last_line(log)
        return said if said.startswith(f"{ENDED}holds") else run(board, parts(board)[name], log)


def main() -> int:
    """Runs what is named, and returns the exit status."""
    every = list(parts(OF_EACH_CHIP[0]))
    parser = argparse.ArgumentParser(description=__doc__, formatter_class=argparse.RawDescriptionHelpFormatter)
    parser.add_argument("--logs", type=Path, required=True, metavar="FOLDER")
    parser.add_argument("named", nargs="*", choices=[*BOARDS, *every, []], metavar="BOARD or PART")
    args = parser.parse_args()
    args.logs.mkdir(parents=True, exist_ok=True)
    boards = [word for word in args.named if word in BOARDS] or OF_EACH_CHIP
    names = [word for word in args.named if word not in BOARDS] or every
    said = {}
    for board, name in ((board, name) for board in boards for name in names):
        said[board, name] = outcome(board, name, args.logs)
        print(f"{board} {name}: {said[board, name]}", flush=True)
    failed = [" ".join(each) for each, how in said.items() if not how.startswith(f"{ENDED}holds")]
    print(f"{len(said) - len(failed)} of {len(said)} hold" + "".join(f"; not: {each}" for each in failed))
    return 1 if failed else 0


if __name__ == "__main__":
    sys.exit(main())
