"""Which version of the tools this is: what packaging/ wrote beside them, or that they are of a checkout."""
from pathlib import Path

from ngc_tools.files import cause

BUILD = Path(__file__).resolve().parent.parent / "BUILD"
"""Lines of version, commit, date, kit, and of how ngc was built; a checkout has none."""
_CHECKOUT = "built from a checkout"


def version_text(build: Path = BUILD) -> str:
    """The lines of BUILD without the last one's end, or a line that there is none. Raises OSError where it is there and
    can't be read."""
    try:
        return build.read_text(errors="backslashreplace").rstrip("\n")
    except FileNotFoundError:
        return _CHECKOUT


def shown_version(build: Path = BUILD) -> str:
    """The same, or why it can't be read: for who goes on in any case."""
    try:
        return version_text(build)
    except OSError as error:
        return cause(error)
