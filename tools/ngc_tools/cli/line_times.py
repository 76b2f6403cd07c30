"""The child of `ngc-operate` that works out when the lines of a program begin, with ramps. Nobody starts it by hand.

Its standard input says nothing. Where it ends, since nobody wants the times any more, or whoever asked was killed, the
child ends too."""
import argparse
import json
import os
import signal
import sys
import threading
from dataclasses import astuple
from pathlib import Path

if __name__ == "__main__":
    sys.path[0] = str(Path(__file__).resolve().parents[2])

from ngc_tools.cli.run import new_parser, run
from ngc_tools.ngc.line_times import line_times


def command(ngc: str, settings: str, machine: str) -> list[str]:
    """The words that start it, up to what is given for each program."""
    return [sys.executable, str(Path(__file__).resolve()), ngc, settings, machine]


def make_parser() -> argparse.ArgumentParser:
    """The words that it takes."""
    parser = new_parser("ngc-operate", "When the lines of a program begin, with ramps: a child of ngc-operate.", "")
    parser.add_argument("ngc")
    parser.add_argument("settings")
    parser.add_argument("machine")
    parser.add_argument("given", type=int, help="a descriptor: the text, and then the device")
    parser.add_argument("size", type=int, help="bytes of the text")
    parser.add_argument("--delete", action="store_true", help="lines with a slash are left out")
    return parser


def work(args: argparse.Namespace) -> int:
    """Works them out, and prints them. Raises Failure or OSError."""
    os.nice(19)
    threading.Thread(target=_end_with_input, daemon=True).start()
    with open(args.given, "rb") as file:
        text, image = file.read(args.size), file.read()
    found = line_times(args.ngc, args.settings, args.machine, image, text, args.delete)
    print(json.dumps(astuple(found)))
    return 0


def _end_with_input() -> None:
    while os.read(sys.stdin.fileno(), 64):
        pass
    os.kill(os.getpid(), signal.SIGTERM)


def main(arguments: list[str] | None = None) -> int:
    """Runs it, and returns the exit status."""
    return run(make_parser(), work, arguments)


if __name__ == "__main__":
    sys.exit(main())
