"""A post-processor of FreeCAD's CAM workbench for `ngc`: copy this file into FreeCAD's folder of macros, and choose
`ngc` in the job.

It writes what FreeCAD's operations have, word by word, but for: K of arcs in G17, comments within comments, and a G0 or
G1 without an axis. It needs nothing of FreeCAD but the objects that it is given."""
import argparse
import builtins
import shlex

TOOLTIP = "Writes RS274/NGC for ngc: a head with all modes, G43 after each tool change, M30 at the end."
TOOLTIP_ARGS = """--lift Z: lift to this machine coordinate at the end and before a tool change, in millimetres
--ask-tool: stop at each tool change, for a person (M0)"""

HEAD = "G17 G21 G40 G49 G54 G80 G90 G94 G98"
ORDER = "XYZIJKRQPLFSTH"
DECIMALS = 4


def export(objectslist, filename, argstring=""):
    """Writes the operations of a job to a file, and returns the text. FreeCAD calls it; `-` writes no file."""
    words = argparse.ArgumentParser(prog="ngc_post")
    words.add_argument("--lift")
    words.add_argument("--ask-tool", action="store_true")
    given = words.parse_args(shlex.split(argstring))
    lift = [f"G53 G0 Z{given.lift}"] if given.lift is not None else []
    lines, plane = [HEAD], "G17"
    for operation in objectslist:
        for command in operation.Path.Commands if getattr(operation, "Path", None) else ():
            plane = command.Name if command.Name in ("G17", "G18", "G19") else plane
            lines += _lines(command, plane, lift, given.ask_tool)
    text = "\n".join([*lines, *lift, "M5 M9", "M30"]) + "\n"
    if filename != "-":
        with builtins.open(filename, "w", encoding="ascii", errors="replace") as file:
            file.write(text)
    return text


def _lines(command, plane, lift, ask_tool):
    """A command of FreeCAD as lines. Lengths are millimetres there, feeds millimetres a second."""
    name, words = command.Name, dict(command.Parameters)
    if name.startswith("("):
        return ["(" + name[1:-1].translate(str.maketrans("()", "[]")) + ")"]
    if name in ("M6", "M06"):
        tool = f"{words['T']:g}"
        return ["M5", *lift, f"T{tool} M6" + (" M0" if ask_tool else ""), f"G43 H{tool}"]
    if name in ("G0", "G00"):
        words.pop("F", None)
    if name in ("G2", "G02", "G3", "G03"):
        words.pop({"G17": "K", "G18": "J", "G19": "I"}[plane], None)
    if name in ("G0", "G00", "G1", "G01") and not set(words) & set("XYZ"):
        return [f"F{_number(60 * words['F'])}"] if "F" in words else []
    said = [letter + _number(60 * words[letter] if letter == "F" else words[letter])
            for letter in sorted(words, key=lambda letter: ORDER.find(letter))]
    return [" ".join([name, *said])]


def _number(value):
    """A number with at most four decimals."""
    text = f"{value:.{DECIMALS}f}".rstrip("0").rstrip(".")
    return "0" if text in ("-0", "") else text
