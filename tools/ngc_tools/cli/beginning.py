"""The words --device and --origin, by which a tool is told where a dry run begins."""
import argparse

from ngc_tools.formats.position import nanometres
from ngc_tools.ngc.beginning import Beginning


def add_beginning(parser: argparse.ArgumentParser) -> None:
    """Adds the two words, of which one may be given."""
    words = parser.add_mutually_exclusive_group()
    words.add_argument("--device", metavar="DEVICE", help="begin as ngc run would over this device now: with its"
                       " origins, G92, modes, tool lengths and the machine's point; it is read, not written")
    words.add_argument("--origin", metavar=("X", "Y", "Z"), nargs=3, type=machine_length,
                       help="begin with the work zero of G54 at this machine point, in millimetres")


def chosen_beginning(args: argparse.Namespace) -> Beginning:
    """What the words say. Raises NoDevice, OSError."""
    if args.device is not None:
        return Beginning.of_device(args.device)
    return Beginning.of_origin(*args.origin) if args.origin else Beginning()


def machine_length(text: str) -> int:
    """Millimetres of the command line, in nanometres."""
    try:
        return nanometres(text)
    except ValueError as error:
        raise argparse.ArgumentTypeError(str(error)) from None
