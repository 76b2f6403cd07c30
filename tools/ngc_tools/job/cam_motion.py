"""What moves: G0 and G1 without an axis, full circles without an end, and motions that the lines after rely on."""
from collections.abc import Callable

from ngc_tools.job.cam_line import CamLine
from ngc_tools.job.cam_modes import MOTIONS, TAKERS, Modes, Named, relies_on_motion

Warn = Callable[[str], None]


def lone(line: CamLine) -> None:
    """G0 or G1 without an axis, beside words that need no motion. It stays the motion of the lines after it, which name
    it then (`motion_in_force`), so it isn't left out of a line that may be deleted."""
    words = [piece for piece in line.pieces if piece.is_code("G", *MOTIONS)]
    if len(words) != 1 or not words[0].is_code("G", 0, 1) or line.is_deletable:
        return
    if line.letters() <= set("GMNFSTHDP") and not line.find("G", 53, *TAKERS):
        line.drop(words[0], f"{words[0].text} has no axis to move; a later line that relies on it names it")


def full_circle(line: CamLine, modes: Modes, named: Named, warn: Warn) -> None:
    """An arc with a centre and without an end in its plane is a full circle: its start is put for its end."""
    after = modes.after(line)
    letters = line.letters()
    moves = line.find("G", 2, 3) or relies_on_motion(line, after)
    offsets = letters & set(after.plane_offsets)
    if not moves or after.motion not in (2, 3) or not offsets or letters & {*after.plane_axes, "R", "P"}:
        return
    axes = [axis for axis in after.plane_axes if axis in named.coordinates]
    if after.distance == 91:
        end = after.plane_axes[0] + "0"
    elif axes:
        end = axes[0] + named.coordinates[axes[0]]
    else:
        warn("a full circle without an end, and no line names the coordinates of its start: write one of them as its"
             " end")
        return
    first = next(piece for piece in line.pieces if piece.letter in offsets)
    line.put_before(first, end, "a full circle ends where it starts")


def motion_in_force(line: CamLine, before: CamLine, meant: Modes, written: Modes) -> None:
    """The motion by name, where the line relies on one that `ngc` wouldn't have in force any more, or only where a line
    that may be deleted isn't."""
    is_same = meant.motion == written.motion and (written.is_sure or not meant.is_sure)
    if is_same or line.find("G", *MOTIONS):
        return
    if relies_on_motion(before, meant.after(before)):
        word = "G80" if meant.motion is None else f"G{meant.motion.normalize():f}"
        changed = line.copy()
        changed.begin(word, "")
        if changed.is_itself:  # of a line that begins with a number it wouldn't be
            line.begin(word, "the motion in force is named, since its own word was left out or changed")
