"""How each tool begins: the scripts beside this file, `ngc-check` and the others, say which module of `ngc_tools.cli`
they are."""
import signal

if signal.getsignal(signal.SIGINT) is signal.default_int_handler:
    signal.signal(signal.SIGINT, signal.SIG_DFL)  # no traceback of what is still being loaded

import sys
from importlib import import_module


def run_tool(name: str) -> None:
    """Does what `ngc_tools/cli/NAME.py` does, and ends with its status."""
    sys.exit(import_module(f"ngc_tools.cli.{name}").main())
