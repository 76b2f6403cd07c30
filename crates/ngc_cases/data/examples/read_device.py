#!/usr/bin/env python3
"""Prints what a device of format 1 or 2 stands for, and where its log ends, as `tools/ngc-device` of its checkout does.

    read_device.py DEVICE    DEVICE is the file that `ngc format` made, or a disk that is used as one; it is only read
"""
import sys
from importlib import import_module
from pathlib import Path

HERE = Path(__file__).resolve()
MODULE = "tools/ngc_tools/cli/device.py"
TOOLS = [folder / "tools" for folder in HERE.parents if (folder / MODULE).is_file()]
if not TOOLS:
    print(f"{HERE}: no folder above it has {MODULE}, by which it reads: leave it in its checkout", file=sys.stderr)
    sys.exit(2)
sys.path.insert(0, str(TOOLS[0]))

if __name__ == "__main__":
    sys.exit(import_module("ngc_tools.cli.device").main())
