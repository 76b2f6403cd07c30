"""Whether a settings file can be used; `ngc` decides."""
from pathlib import Path

from ngc_tools.files import read_settings
from ngc_tools.formats.settings import BadSettings
from ngc_tools.ngc.run import settings_refusal
from ngc_tools.ngc.settings_report import fault_lines


def look_at_settings(ngc: str, path: str | Path) -> None:
    """Raises OSError if the file can't be read; BadSettings, with each key that is to blame and its limits, if `ngc`
    refuses it; CannotRun."""
    read_settings(path)
    refused = settings_refusal(ngc, path)
    if refused:
        raise BadSettings("\n".join(fault_lines(ngc, path, refused)))
