"""The word --machine of tools that look at ramps, and what they say of a job's time."""
import argparse
import sys
import time

from ngc_tools.failure import WrongWords
from ngc_tools.job.figures import duration
from ngc_tools.ngc.machine_report import Motion
from ngc_tools.ngc.pacing import Pacing

_EACH_S = 10.0  # a long job is told of so often


def add_machine(parser: argparse.ArgumentParser) -> None:
    """Adds the word."""
    parser.add_argument("--machine", metavar="FILE", help="what the motors allow, as `ngc pace` and the players take"
                        " it: times with ramps; with --settings, whose steps it counts in")


def chosen_motion(ngc: str, args: argparse.Namespace) -> Motion | None:
    """What the word says, None without it. Raises WrongWords, BadMachine, BadSettings, OSError."""
    if args.machine is None:
        return None
    if not args.settings:
        raise WrongWords("--machine takes --settings FILE too, whose steps it counts in")
    return Motion.read(ngc, args.machine, args.settings)


def times_words(pacing: Pacing) -> str:
    """The time of a job without ramps and with them."""
    return f"{duration(pacing.us)}, with ramps {duration(pacing.with_ramps_us)}"


class Progress:
    """Says on standard error how far a long job is timed, every ten seconds."""

    def __init__(self, prog: str) -> None:
        self._prog = prog
        self._said = time.monotonic()

    def __call__(self, pacing: Pacing) -> None:
        """Is called again and again."""
        if time.monotonic() > self._said + _EACH_S:
            self._said = time.monotonic()
            print(f"{self._prog}: {pacing.lines:,} lines timed, {duration(pacing.us)} of the job so far",
                  file=sys.stderr, flush=True)
